"""A robot of a venue, which bids once in each call: robot.py URL CODE NAME."""
import sys
from callauction.venue import Client

url, code, name = sys.argv[1:]
with Client(url, Client.join(url, code, name), topics=("states",)) as me:
    entered = None
    for state in me.events():
        auction = state["round"], state["auction"]
        if state["phase"] == "call" and auction != entered:
            entered = auction
            price = state["indication"]["price"] or state["reference"]
            print(state["auction"], me.enter("bid", 100, price).reply)
        if state["phase"] == "over":
            break
    print(me.look("fills")["fills"])

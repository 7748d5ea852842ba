"""What the teacher's page says of an interruption, until there is a price, and what that cost."""
import pathlib

import served
from browsing import opened
from callauction.venue import Client
from conftest import FAST

DAY = FAST.replace("call = 0", "call = 0\nextension = 0") + """
[[instrument]]
name = "XYZ"
range = "0.50"
"""
VALUES = [{"member": "Anna", "side": "bid", "price": "3.00", "quantity": 200},
          {"member": "Bert", "side": "ask", "price": "2.00", "quantity": 200}]


def test_an_interruption_says_what_comes(tmp_path: pathlib.Path) -> None:
    """Anna pays 9.00 for what is worth 3.00, and Carl, who has no value, gets 9.00 for what costs
    10.00: together they gain 200 times -7.00, where Anna and Bert could have gained 200 times 1.00.
    """
    with served.served(tmp_path, DAY) as venue:
        anna, _, carl = (venue.join(name) for name in ("Anna", "Bert", "Carl"))
        venue.do("give", values=VALUES)
        venue.do("start")
        for token, side in ((anna, "bid"), (carl, "ask")):
            with Client(venue.url, token) as me:
                me.enter(side, 200, "9.00")
        venue.do("uncross")
        address = f"{venue.url}teacher#{venue.operator}"
        with opened(tmp_path / "page", address) as page:
            page.waits(lambda it: it.text("interruption").endswith("goes on for a while."))
            venue.do("end")
            page.waits(lambda it: it.text("interruption").endswith("however far it is."))
            venue.do("uncross")
            page.waits(lambda it: it.text("result") == "Opening auction: price 9.00, volume 200")
            assert not page.shows("interruption")
            words = "−700 % of the greatest possible gain (−1,400.00 EUR of 200.00 EUR)"
            page.waits(lambda it: it.text("efficiency") == f"Efficiency: {words}")

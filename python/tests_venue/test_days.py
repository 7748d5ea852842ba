"""Days by the clock, interruptions, private values, and what the operator takes home."""
import asyncio
import contextlib
import pathlib
import time
from collections.abc import Callable
from typing import Any

import aiohttp
import judged
import pytest
import served
from callauction.venue import Client
from conftest import FAST
from patience import until
from served import Served
from speaking import hello

CLOCKED = """
sync = false
[phases]
call = 4
random_end = 2
extension = 4
automatic = true
[members]
rate = 1000
burst = 1000
[[instrument]]
range = "0.10"
"""


def phase_of(venue: Served, token: str) -> tuple[str, str]:
    """The phase and the auction of a venue's only instrument."""
    state = venue.call("api/look/state", token=token)[1]
    return state["phase"], state["auction"]


def test_a_day_by_the_clock(tmp_path: pathlib.Path) -> None:
    """An interruption extends the call, and each uncross follows its call by itself."""
    with served.served(tmp_path, CLOCKED) as venue:
        anna, bert = venue.join("Anna"), venue.join("Bert")
        with Client(venue.url, anna) as me, Client(venue.url, bert) as other:
            begin = time.monotonic()
            venue.do("start")
            state = me.look("state")
            assert state["latest"] - state["ends"] == pytest.approx(2.0)
            assert 0.0 < state["ends"] - state["now"] <= 4.0
            me.enter("bid", 10, "3.00")
            other.enter("ask", 10, "3.00")
            until(lambda: phase_of(venue, anna) == ("extended", "opening"))
            assert 3.9 < time.monotonic() - begin
            assert me.look("state")["results"][0]["auction"] == "interrupted"
            me.enter("bid", 5, "2.99")
            until(lambda: phase_of(venue, anna) == ("waiting", "intraday"))
            until(lambda: len(me.look("fills")["fills"]) == 1)
        for auction in ("intraday", "closing"):
            venue.do("start")
            assert phase_of(venue, anna) == ("call", auction)
            until(lambda: phase_of(venue, anna)[0] in ("waiting", "over"))
        assert phase_of(venue, anna) == ("over", "over")
        status, found = venue.call("api/operator", {"do": "start"}, venue.operator)
        assert (status, found["error"]) == (409, "bad_phase")
        journal = venue.call("api/download/journal/XYZ", token=venue.operator)[1]
    assert judged.is_lawful(journal)
    entries = judged.entries(journal)
    replies = [reply.split(" ")[0] for record, reply in entries if record == "0,uncross"]
    assert replies == ["interrupted", "opening", "intraday", "closing"]


def test_the_operator_by_hand(venue: Served) -> None:
    token = venue.join("Anna")
    for word in ("end", "uncross", "freeze", "thaw"):
        assert venue.call("api/operator", {"do": word}, venue.operator)[0] == 409
    venue.do("start")
    status, found = venue.call("api/operator", {"do": "uncross", "phase": "ended"}, venue.operator)
    assert (status, found["error"]) == (409, "bad_phase")
    venue.do("end")
    assert phase_of(venue, token) == ("ended", "opening")
    venue.do("extend", seconds=100)
    assert phase_of(venue, token) == ("extended", "opening")
    venue.do("freeze")
    status, found = venue.call("api/operator", {"do": "uncross"}, venue.operator)
    assert (status, found["error"]) == (409, "bad_phase")
    venue.do("thaw")
    venue.do("uncross", phase="extended")
    assert phase_of(venue, token) == ("waiting", "intraday")
    for body in ({"do": "dance"}, {}, {"do": "extend", "seconds": 0}, {"do": 3},
                 {"do": "show", "shows": "secrets"}, {"do": "code", "member": "Eve"},
                 {"do": "give", "low": "2.00", "high": "1.00", "quantity": 1}):
        assert venue.call("api/operator", body, venue.operator)[0] == 400, body


def test_private_values(venue: Served, tmp_path: pathlib.Path) -> None:
    anna, bert = venue.join("Anna"), venue.join("Bert")
    venue.do("give", values=[{"member": "Anna", "side": "bid", "price": "2.50", "quantity": 10}])
    venue.do("give", values=[{"member": "Bert", "side": "ask", "price": "1.50", "quantity": 10}])
    venue.do("start")
    with Client(venue.url, anna) as me, Client(venue.url, bert) as other:
        me.enter("bid", 10, "2.20")
        other.enter("ask", 10, "2.00")
        venue.do("uncross")
        until(lambda: bool(me.look("fills")["gain"] != "0.00"))
        assert me.look("fills")["value"] == {"side": "bid", "price": "2.50", "quantity": 10}
        gains = [float(it.look("fills")["gain"]) for it in (me, other)]
        assert sum(gains) == 10.0 and min(gains) >= 3.0
        other_values = {"do": "give", "low": "1.00", "high": "3.00", "quantity": 7}
        status, found = venue.call("api/operator", other_values, venue.operator)
        assert (status, found["error"]) == (409, "has_values")
        assert me.look("fills")["value"]["price"] == "2.50"
        venue.do("give", low="1.00", high="3.00", quantity=7, replace=True)
        values = [it.look("fills")["value"] for it in (me, other)]
        assert {it["side"] for it in values} == {"bid", "ask"}
        assert all(1 <= float(it["price"]) <= 3 and it["quantity"] == 7 for it in values)
        assert [float(it.look("fills")["gain"]) for it in (me, other)] == gains
        kept = [it.look("fills") for it in (me, other)]
    venue.child.kill()
    venue.child.wait()
    with served.served(tmp_path, FAST) as again:
        assert [again.call("api/look/fills", token=it)[1] for it in (anna, bert)] == kept


def test_values_of_a_late_joiner_and_of_a_schedule(venue: Served) -> None:
    tokens = [venue.join(name) for name in ("Anna", "Bert", "Carl", "Dora")]

    def value(token: str) -> Any:
        return venue.call("api/look/fills", token=token)[1]["value"]

    assert value(tokens[0]) is None
    demand, supply = ["3.00", "2.80"], ["1.00", "1.20"]
    given = venue.do("give", how="schedule", demand=demand, supply=supply, quantity=9)
    assert given["given"] == 4
    found = sorted((it["side"], it["price"]) for it in map(value, tokens))
    assert found == [("ask", "1.00"), ("ask", "1.20"), ("bid", "2.80"), ("bid", "3.00")]
    before, late = [*map(value, tokens)], venue.join("Eve")
    assert venue.do("give", low="2.00", high="2.00", quantity=5, to="new")["given"] == 1
    assert [*map(value, tokens)] == before
    assert value(late)["price"] == "2.00"
    price: dict[str, Any] = {"low": "2.10", "high": "2.10", "quantity": 5}
    given = venue.do("give", replace=True, to="named", members=["Eve"], **price)
    assert given["given"] == 1
    assert value(late)["price"] == "2.10"
    text = "name,side,price,quantity\nEve,ask,1.50,3\n"
    status, refused = venue.call("api/operator", {"do": "give", "file": text}, venue.operator)
    assert (status, refused["text"]) == (409, "1 member would lose a value")
    assert venue.do("give", file=text, replace=True)["given"] == 1
    assert value(late) == {"side": "ask", "price": "1.50", "quantity": 3}
    everyone = [*tokens, late]
    before = [*map(value, everyone)]
    venue.do("give", how="shuffle", replace=True)
    shuffled = [*map(value, everyone)]
    assert sorted(map(str, shuffled)) == sorted(map(str, before))
    assert all(found != own for found, own in zip(shuffled, before))


@pytest.mark.parametrize(
    "fields, text",
    [
        ({"low": "1.00", "high": "10.01", "quantity": 1}, "the value 10.01 isn't from"),
        ({"low": "2.00", "high": "1.00", "quantity": 1}, "low 2.00 is above high 1.00"),
        ({"how": "schedule", "demand": [], "supply": ["1"], "quantity": 1}, "a schedule has"),
        ({"how": "dance"}, "how is one of"),
        ({"file": "name;side\n"}, "the first line isn't name,side,price,quantity"),
        ({"file": "name,side,price,quantity\nAnna,buy,1,1\n"}, "line 2: side 'buy'"),
        ({"file": "name,side,price,quantity\nAnna,bid,1,0\n"}, "line 2: quantity '0'"),
        ({"file": "name,side,price,quantity\nAnna,bid,1,1\nEve,bid,1,1\n anna,ask,1,1\n"},
         "line 4: 'anna' is in line 2 too"),
        ({"file": "round,name,side,price,quantity\n1,Anna,bid,1,1\n2,Anna,bid,1,1\n,Anna,ask,1,1"},
         "line 4: 'Anna' is in line 2 too"),
        ({"file": "name,side,price,quantity\nEve,bid,11,1\n"}, "the value 11 isn't from"),
    ],
)
def test_values_that_cant_be_handed_out(venue: Served, fields: Any, text: str) -> None:
    venue.join("Anna")
    status, found = venue.call("api/operator", {"do": "give"} | fields, venue.operator)
    assert (status, found["error"]) == (400, "bad_message")
    assert found["text"].startswith(text)


def test_a_list_of_a_class_of_which_some_are_there(venue: Served) -> None:
    """Names are read as those of people, and who isn't there is said."""
    anna = venue.join("Anna Lee")
    text = "name,side,price,quantity\n anna  lee,ask,1.50,3\nEve,bid,2.00,3\nZoe,bid,2.00,3\n"
    found = venue.do("give", file=text)
    assert (found["given"], found["absent"]) == (1, ["Eve", "Zoe"])
    value = venue.call("api/look/fills", token=anna)[1]["value"]
    assert value == {"side": "ask", "price": "1.50", "quantity": 3}


def test_a_list_with_semicolons(venue: Served) -> None:
    """As spreadsheets save it where prices have a decimal comma."""
    tokens = venue.join("Müller, Jürgen"), venue.join("Weiß, Eva")
    text = "\ufeffname;side;price;quantity\r\nMüller, Jürgen;bid;4,10;3\r\nWeiß, Eva;ask;3.9;3\r\n"
    assert venue.do("give", file=text)["given"] == 2
    found = [venue.call("api/look/fills", token=it)[1]["value"]["price"] for it in tokens]
    assert found == ["4.10", "3.90"]
    fields = {"do": "give", "replace": True, "file": text.replace(";", ",")}
    assert venue.call("api/operator", fields, venue.operator)[0] == 400


def test_gains_that_are_none(venue: Served) -> None:
    """Who trades with itself gains nothing, nor does who trades without a value; the operator sees
    each gain as soon as there is one.
    """
    tokens = [venue.join(name) for name in ("Alice", "Carl", "Eve")]
    value = [{"member": "Alice", "side": "bid", "price": "5.00", "quantity": 100},
             {"member": "Carl", "side": "ask", "price": "4.00", "quantity": 100}]
    venue.do("give", values=value)
    venue.do("start")
    with contextlib.ExitStack() as stack:
        alice, carl, eve = (stack.enter_context(Client(venue.url, it)) for it in tokens)
        carl.enter("bid", 1000, "10.00")
        carl.enter("ask", 190, "10.00")
        eve.enter("ask", 10, "3.00")
        heard = asyncio.run(shown_after(venue, lambda: venue.do("uncross")))
        gains = [it.look("fills")["gain"] for it in (alice, carl, eve)]
        assert gains == ["0.00", "-100.00", "0.00"]
        assert eve.look("fills")["value"] is None
    assert [it["values"]["XYZ"]["gain"] for it in heard["members"]["members"]] == gains
    found = [heard["efficiency"][name] for name in ("gain", "most", "percent", "gains")]
    assert found == ["-100.00", "100.00", -100, []]
    assert heard["efficiency"]["predicted"] == {
        "low": "4.00", "high": "5.00", "volume": 100, "most_volume": 100}


def test_who_gained_as_much_has_the_same_rank(venue: Served) -> None:
    """Whoever came first: at 2.00 Dora gains 5 × 1.00, Bert and Anna 10 × 1.00, Carl 5 × 0.20."""
    worth = {"Dora": ("bid", "3.00", 5), "Bert": ("ask", "1.00", 10),
             "Anna": ("bid", "3.00", 10), "Carl": ("ask", "1.80", 5)}
    tokens = {name: venue.join(name) for name in worth}
    venue.do("give", values=[
        {"member": name, "side": side, "price": price, "quantity": quantity}
        for name, (side, price, quantity) in worth.items()])
    venue.do("start")
    for name, (side, _, quantity) in worth.items():
        with Client(venue.url, tokens[name]) as me:
            me.enter(side, quantity, "2.00")
    gains = asyncio.run(shown_after(venue, lambda: venue.do("uncross")))["efficiency"]["gains"]
    assert [(it["rank"], it["name"], it["gain"]) for it in gains] == [
        (1, "Bert", "10.00"), (1, "Anna", "10.00"), (3, "Dora", "5.00"), (4, "Carl", "1.00")
    ]


async def shown_after(venue: Served, act: Callable[[], object]) -> dict[str, Any]:
    """The last members and efficiency that the operator is shown, the former once after this."""
    found: dict[str, Any] = {}
    async with aiohttp.ClientSession() as web, asyncio.timeout(served.SECONDS):
        async with web.ws_connect(f"{venue.url}api/socket") as socket:
            await socket.send_str(hello(venue.operator))
            while "members" not in found:
                message = await socket.receive_json()
                found[message["type"]] = message
            await asyncio.to_thread(act)
            while found.get("trades", {"trades": []})["trades"] == [] or "members" not in found:
                message = await socket.receive_json()
                found[message["type"]] = message
                if message["type"] == "trades" and message["trades"]:
                    found.pop("members", None)
    return found


def test_what_the_operator_takes_home(venue: Served, tmp_path: pathlib.Path) -> None:
    anna, bert = venue.join("=Anna"), venue.join("Bert")
    venue.do("start")
    with Client(venue.url, anna) as me, Client(venue.url, bert) as other:
        me.enter("bid", 10, "2.20")
        other.enter("ask", 10, "2.00")
    venue.do("uncross")
    names = venue.call("api/download/members/XYZ", token=venue.operator)[1]
    assert names == "number,name\n1,'=Anna\n2,Bert\n"
    venue.end()
    assert (tmp_path / "venue/XYZ.members.csv").read_text() == names

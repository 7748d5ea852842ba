"""Rounds: the next one for the same members, what it is, and what of it is there after a kill."""
import pathlib

import judged
import pytest
import served
from callauction.venue import Client, VenueError, copies
from conftest import FAST
from patience import until
from rounds import VALUES, cut, limited, sees, trade, value_of
from schemas import RECEIVED
from served import Served


def test_one_press_begins_the_next_round(venue: Served, tmp_path: pathlib.Path) -> None:
    anna, bert = venue.join("Anna"), venue.join("Bert")
    venue.do("give", values=VALUES)
    trade(venue, anna, bert)
    venue.do("next", round=2)
    assert venue.call("api/operator", {"do": "next", "round": 2}, venue.operator)[0] == 409
    with Client(venue.url, anna) as me:
        state = me.look("state")
        assert (state["round"], state["phase"], state["auction"]) == (2, "waiting", "opening")
        assert (state["trades"], state["reference"]) == (0, "2.00")
        fills = me.look("fills")
        assert (fills["fills"], fills["gain"], fills["value"]["price"]) == ([], "0.00", "2.50")
    trade(venue, bert, anna, "2.10")
    first = venue.call("api/download/journal/XYZ?round=1", token=venue.operator)[1]
    second = venue.call("api/download/journal/XYZ", token=venue.operator)[1]
    assert judged.is_lawful(first) and judged.is_lawful(second)
    prices = [judged.entries(it)[-1][1].split()[2] for it in (first, second)]
    assert prices == ["200", "210"]
    names = [
        venue.call(f"api/download/members/XYZ{it}", token=venue.operator)[1]
        for it in ("?round=1", "?round=2", "")
    ]
    assert names == ["number,name\n1,Anna\n2,Bert\n", *["number,name\n1,Bert\n2,Anna\n"] * 2]
    kept = [venue.call("api/look/fills", token=it)[1] for it in (anna, bert)]
    paid = sees(venue, "ranking")["rows"]
    assert [(it["name"], it["gain"], it["rank"]) for it in paid] == [
        ("Bert", "-16.00", 1), ("Anna", "-74.00", 2)
    ]
    venue.child.kill()
    venue.child.wait()
    with served.served(tmp_path, FAST) as again:
        assert [again.call("api/look/fills", token=it)[1] for it in (anna, bert)] == kept
        assert sees(again, "ranking")["rows"] == paid
        again.do("next", round=3)
        assert sees(again, "round")["round"] == 3


def test_no_round_ends_in_a_call(venue: Served) -> None:
    token = venue.join("Anna")
    venue.do("start")
    status, found = venue.call("api/operator", {"do": "next", "round": 2}, venue.operator)
    assert (status, found["error"]) == (409, "bad_phase")
    with Client(venue.url, token) as me:
        assert me.enter("bid", 1, "2.00").reply == "entered 1"
    for _ in range(3):
        venue.do("uncross")
        if sees(venue, "state")["phase"] != "over":
            venue.do("start")
    assert sees(venue, "state")["phase"] == "over"
    venue.do("next", round=2)
    assert sees(venue, "state")["phase"] == "waiting"


ROUNDS = FAST + """
[payoff]
base = "5"
rate = "0.10"
[[round]]
title = "Try it"
practice = true
values = "schedule"
demand = ["3.00"]
supply = ["1.00"]
quantity = 10
[[round]]
values = "shuffle"
book = "open"
reference = "2.40"
message = "The mine has flooded."
call = 77
covered = true
own_trades = false
"""


def test_the_rounds_of_a_day(tmp_path: pathlib.Path) -> None:
    with served.served(tmp_path, ROUNDS) as venue:
        tokens = [venue.join(name) for name in ("Anna", "Bert")]
        first = sees(venue, "round")
        assert (first["title"], first["practice"], first["begun"]) == ("Try it", True, False)
        assert first["next"]["message"] == "The mine has flooded."
        assert [value_of(venue, it) for it in tokens] == [None, None]
        venue.do("start")
        sides = {value_of(venue, it)["side"]: it for it in tokens}
        venue.do("uncross")
        trade(venue, sides["bid"], sides["ask"])
        venue.do("payoffs", shows="own")
        payoff = sees(venue, "payoff", tokens[0])
        RECEIVED.validate(payoff)
        assert (payoff["gain"], payoff["paid"], payoff["rank"]) == ("0", "5.00", None)
        assert payoff["rounds"][0]["gain"] == "10.00" and payoff["rounds"][0]["practice"]
        venue.do("next", round=2)
        second = sees(venue, "round", tokens[0])
        RECEIVED.validate(second)
        assert (second["book"], second["message"]) == ("open", "The mine has flooded.")
        assert "demand" not in second
        prices = sorted(value_of(venue, it)["price"] for it in tokens)
        assert prices == ["1.00", "3.00"]
        with Client(venue.url, tokens[0]) as me:
            assert me.look("state")["reference"] == "2.40"
            venue.do("start")
            state = me.look("state")
            assert 70 < state["ends"] - state["now"] <= 77
            venue.do("uncross")
        venue.do("message", text="All is well.")
        venue.do("payoffs", shows="ranking")
        shown = [sees(venue, "round"), sees(venue, "payoff", tokens[1])]
        assert (shown[0]["message"], shown[1]["of"]) == ("All is well.", 2)
        venue.child.kill()
        venue.child.wait()
    with served.served(tmp_path, ROUNDS) as venue:
        assert [sees(venue, "round"), sees(venue, "payoff", tokens[1])] == shown


def test_a_round_that_the_operator_makes(venue: Served) -> None:
    token = venue.join("Anna")
    asked = {"values": "list", "file": "name,side,price,quantity\nAnna,ask,1.20,4\nEve,bid,3,1\n",
             "shares": 5, "money": "20.00"}
    venue.do("next", round=2, treatment=asked)
    assert value_of(venue, token) == {"side": "ask", "price": "1.20", "quantity": 4}
    assert value_of(venue, venue.join("Eve")) == {"side": "bid", "price": "3.00", "quantity": 1}
    for treatment, text in [
        ({"values": "dance"}, "values 'dance' is none of"),
        ({"reference": "11.00"}, "the reference 11.00 isn't from 0.01 to 10.00"),
        ({"reference": "2.005"}, "the reference 2.005 is no multiple"),
        ({"values": "chance", "low": "2.00", "high": "1.00"}, "low 2.00 is above high 1.00"),
        ({"values": "schedule"}, "a schedule has prices"),
        ({"values": "list"}, "the list of values is empty"),
        ({"practise": True}, "practise is nothing that may be here"),
        (3, "treatment is no object"),
    ]:
        body = {"do": "next", "round": 3, "treatment": treatment}
        status, found = venue.call("api/operator", body, venue.operator)
        assert status == 400 and text in found["text"], found
    assert sees(venue, "round")["round"] == 2


def refusals(me: Client, *orders: tuple[str, int, str]) -> list[str]:
    """What is said to these orders, empty where they are taken."""
    found = []
    for side, quantity, price in orders:
        try:
            assert me.enter(side, quantity, price).order is not None
            found.append("")
        except VenueError as fault:
            found.append(fault.code)
    return found


def test_orders_beyond_ones_value_are_refused(venue: Served) -> None:
    anna, bert, eve = (venue.join(name) for name in ("Anna", "Bert", "Eve"))
    venue.do("give", values=VALUES)
    limited(venue, covered=True)
    with Client(venue.url, anna) as me, Client(venue.url, bert) as other:
        orders = [("bid", 11, "2.00"), ("ask", 1, "2.00"), ("bid", 6, "2.00"), ("bid", 5, "2.00")]
        assert refusals(me, *orders) == ["not_covered", "not_covered", "", "not_covered"]
        assert me.change(1, 10, "2.10").reply == "changed moved"
        with pytest.raises(VenueError) as found:
            me.change(1, 11, "2.10")
        assert found.value.text == "at most 10 shares more can be entered on this side"
        assert me.delete(1).reply == "deleted"
        assert refusals(me, ("bid", 10, "2.00")) == [""]
        assert refusals(other, ("ask", 10, "2.00"), ("ask", 1, "2.00")) == ["", "not_covered"]
    venue.do("uncross")
    venue.do("start")
    with Client(venue.url, anna) as me, Client(venue.url, eve) as nobody:
        orders = [("bid", 1, "2.00"), ("ask", 11, "2.00"), ("ask", 10, "2.00")]
        assert refusals(me, *orders) == ["not_covered", "not_covered", ""]
        assert refusals(nobody, ("bid", 1, "2.00"), ("ask", 1, "2.00")) == ["not_covered"] * 2


def test_how_much_money_is_left_is_said(venue: Served) -> None:
    """Of 20.00 a bid of 16.00 leaves 4.00."""
    anna = venue.join("Anna")
    limited(venue, money="20.00")
    with Client(venue.url, anna) as me:
        me.enter("bid", 8, "2.00")
        with pytest.raises(VenueError, match="at most 4.00 more can be spent"):
            me.enter("bid", 2, "2.50")


def test_who_has_no_shares_and_no_money(venue: Served) -> None:
    anna, bert = venue.join("Anna"), venue.join("Bert")
    limited(venue, shares=5, money="20.00")
    with Client(venue.url, anna) as me, Client(venue.url, bert) as other:
        orders = [("ask", 6, "2.00"), ("ask", 5, "2.00"), ("ask", 1, "3.00")]
        assert refusals(me, *orders) == ["no_shares", "", "no_shares"]
        orders = [("bid", 3, "market"), ("bid", 8, "2.00"), ("bid", 2, "2.50"), ("bid", 2, "2.00")]
        assert refusals(other, *orders) == ["no_money", "", "no_money", ""]
        with pytest.raises(VenueError, match="at most 0.00 more can be spent"):
            other.enter("bid", 1, "0.01")
    venue.do("uncross")
    venue.do("start")
    with Client(venue.url, anna) as me, Client(venue.url, bert) as other:
        assert refusals(me, ("ask", 1, "2.00"), ("bid", 15, "2.00")) == ["no_shares", ""]
        assert refusals(other, ("ask", 10, "3.00"), ("ask", 1, "3.00")) == ["", "no_shares"]


def test_who_would_trade_with_itself(venue: Served, tmp_path: pathlib.Path) -> None:
    anna = venue.join("Anna")
    limited(venue, own_trades=False)
    with Client(venue.url, anna) as me:
        orders = [("bid", 5, "2.00"), ("ask", 5, "2.00"), ("ask", 5, "market"), ("ask", 5, "2.01")]
        assert refusals(me, *orders) == ["", "own_trade", "own_trade", ""]
        with pytest.raises(VenueError) as found:
            me.change(1, 5, "2.01")
        assert found.value.code == "own_trade"
        venue.child.kill()
        venue.child.wait()
        with served.served(tmp_path, FAST) as again, Client(again.url, anna) as other:
            assert refusals(other, ("ask", 5, "2.00"), ("bid", 5, "1.99")) == ["own_trade", ""]


def test_a_round_is_another_one_before_its_first_call(
    venue: Served, tmp_path: pathlib.Path
) -> None:
    anna = venue.join("Anna")
    venue.do("give", values=VALUES[:1])
    venue.do("treat", treatment={"practice": True, "covered": True, "call": 88, "title": "Try"})
    venue.child.kill()
    venue.child.wait()
    with served.served(tmp_path, FAST) as again:
        found = sees(again, "round")
        assert (found["practice"], found["covered"], found["title"]) == (True, True, "Try")
        assert value_of(again, anna)["price"] == "2.50"
        again.do("start")
        with Client(again.url, anna) as me:
            state = me.look("state")
            assert 80 < state["ends"] - state["now"] <= 88
            orders = [("bid", 11, "2.00"), ("bid", 10, "2.00")]
            assert refusals(me, *orders) == ["not_covered", ""]
        body = {"do": "treat", "treatment": {}}
        assert again.call("api/operator", body, again.operator)[0] == 409


def test_a_first_round_hands_out_values_as_the_operator_says(venue: Served) -> None:
    token = venue.join("Anna")
    chance = {"values": "chance", "low": "2.00", "high": "2.00", "quantity": 3}
    bad = {"do": "treat", "treatment": chance | {"high": "1.00"}}
    assert venue.call("api/operator", bad, venue.operator)[0] == 400
    venue.do("treat", treatment=chance)
    assert value_of(venue, token) is None
    venue.do("start")
    assert value_of(venue, token)["price"] == "2.00"


def test_a_kill_while_a_round_begins(venue: Served, tmp_path: pathlib.Path) -> None:
    anna = venue.join("Anna")
    venue.do("give", values=VALUES[:1])
    venue.do("start")
    venue.do("uncross")
    venue.do("next", round=2)
    venue.child.kill()
    venue.child.wait()
    cut(tmp_path / "venue/venue.log", '"kind":"round"')
    with served.served(tmp_path, FAST) as again:
        assert sees(again, "round")["round"] == 2
        assert value_of(again, anna)["price"] == "2.50"
        again.do("start")
        with Client(again.url, anna) as me:
            assert me.enter("bid", 1, "2.00").reply == "entered 1"


def test_a_copy_has_all_rounds(venue: Served, tmp_path: pathlib.Path) -> None:
    anna, bert = venue.join("Anna"), venue.join("Bert")
    venue.do("give", values=VALUES)
    trade(venue, anna, bert)
    venue.do("next", round=2)
    trade(venue, anna, bert, "2.10")
    paid = sees(venue, "ranking")["rows"]
    copies.backup(tmp_path / "venue", tmp_path / "copy")
    (tmp_path / "other").mkdir()
    copies.restore(tmp_path / "copy", tmp_path / "other/venue", served.program())
    with served.served(tmp_path / "other", FAST) as again:
        assert sees(again, "ranking")["rows"] == paid
        assert again.call("api/look/fills", token=anna)[1]["gain"] == "4.00"


def test_a_kill_before_the_first_round(venue: Served, tmp_path: pathlib.Path) -> None:
    venue.child.kill()
    venue.child.wait()
    cut(tmp_path / "venue/venue.log", '"kind":"venue"')
    for number in (2, 3):
        with served.served(tmp_path, FAST) as again:
            again.do("next", round=number)
    with served.served(tmp_path, FAST) as again:
        assert sees(again, "round")["round"] == 3


def test_members_see_an_open_book(venue: Served) -> None:
    token = venue.join("Anna")
    assert venue.call("api/look/ladder", token=token)[0] == 403
    limited(venue, book="open")
    with Client(venue.url, token) as me:
        me.enter("bid", 5, "2.00")
        level = {"price": "2.00", "bid": 5, "ask": 0}
        until(lambda: bool(me.look("ladder")["levels"] == [level]))
        RECEIVED.validate(me.look("ladder"))
    until(lambda: bool(sees(venue, "ladder", token)["levels"] == [level]))
    until(lambda: bool(sees(venue, "ladder", venue.beamer)["levels"] == [level]))


def test_nobody_is_shown_the_hidden_shares_of_others(venue: Served) -> None:
    """Members and the screen see the visible quantities of the book, the teacher the whole ones."""
    token = venue.join("Anna")
    limited(venue, book="open")
    with Client(venue.url, token) as me:
        me.enter("bid", 1000, "2.00", peak=100)
        me.enter("bid", 7, "2.00")
        me.enter("ask", 60, "2.50", peak=20)
        me.enter("ask", 80, "market")
        me.enter("bid", 50, "1.00", peak=10, only="closing")
        levels = [
            {"price": None, "bid": 0, "ask": 80},
            {"price": "2.50", "bid": 0, "ask": 20},
            {"price": "2.00", "bid": 107, "ask": 0},
        ]
        until(lambda: bool(me.look("ladder")["levels"] == levels))
    until(lambda: bool(sees(venue, "ladder", token)["levels"] == levels))
    until(lambda: bool(sees(venue, "ladder", venue.beamer)["levels"] == levels))
    whole = [dict(zip(("price", "bid", "ask"), it)) for it in ((None, 0, 80), ("2.50", 0, 60))]
    whole.append({"price": "2.00", "bid": 1007, "ask": 0})
    until(lambda: bool(sees(venue, "ladder")["levels"] == whole))

"""Robots of the venue's own, which fill in for members."""
import pathlib
import re
import time
from typing import Any

import pytest
import served
from callauction.venue import robots
from callauction.venue.accounts import MemberFill
from callauction.venue.config import DayTerms, InstrumentTerms
from callauction.venue.gains import ShareValue
from callauction.venue.instrument_board import BoardIdentity, InstrumentBoard, VenueResources
from callauction.venue.log import Log
from callauction.venue.treatments import Treatment
from hypothesis import given
from hypothesis import strategies as st
from conftest import FAST
from patience import until
from rounds import members, sees
from served import Served


def test_robots_trade_their_values(venue: Served, tmp_path: pathlib.Path) -> None:
    """Truthful ones gain all that can be gained; what they are is there after a kill."""
    assert venue.do("robots", kind="truthful", count=6)["names"][-1] == "Robot 6"
    venue.do("give", how="schedule", demand=["5.00", "4.00", "1.00"],
             supply=["2.00", "3.00", "6.00"], quantity=10)
    venue.do("start")
    until(lambda: len(sees(venue, "ladder")["levels"]) == 6)
    venue.do("freeze")
    venue.do("thaw")
    assert venue.do("uncross")["reply"].split(" surplus")[0] == "opening price 300 volume 20"
    until(lambda: bool(sees(venue, "efficiency")["percent"] == 100))
    assert sees(venue, "ranking")["rows"] == []
    venue.child.kill()
    venue.child.wait()
    with served.served(tmp_path, FAST) as again:
        assert {it["robot"] for it in members(again).values()} == {"truthful"}
        again.do("robots", kind="zero", count=1)
        assert again.do("robots", count=0)["removed"] == 7
        assert all(it["is_removed"] for it in members(again).values())


def test_a_value_leaves_with_its_member(venue: Served, tmp_path: pathlib.Path) -> None:
    """What is left of it is no longer possible; it counts again once the member is back."""
    venue.join("Anna"), venue.join("Bert")
    venue.do("robots", kind="truthful", count=1)
    venue.do("give", values=[
        {"member": name, "side": side, "price": price, "quantity": 10}
        for name, side, price in (("Anna", "bid", "5.00"), ("Bert", "ask", "3.00"),
                                  ("Robot 1", "bid", "9.00"))])
    assert sees(venue, "efficiency")["most"] == "60.00"
    venue.do("robots", count=0)
    assert sees(venue, "efficiency")["most"] == "20.00"
    assert sees(venue, "efficiency")["predicted"]["high"] == "5.00"
    venue.do("remove", member="Anna")
    assert sees(venue, "efficiency")["most"] == "0.00"
    venue.child.kill()
    venue.child.wait()
    with served.served(tmp_path, FAST) as again:
        assert sees(again, "efficiency")["most"] == "0.00"
        again.join("", again.do("readmit", member="Anna")["code"])
        assert sees(again, "efficiency")["most"] == "20.00"
    with served.served(tmp_path, FAST) as once_more:
        assert sees(once_more, "efficiency")["most"] == "20.00"


def test_robots_go_on_after_a_kill(venue: Served, tmp_path: pathlib.Path) -> None:
    """Each enters one order, whatever happens in between."""
    venue.do("robots", kind="zero", count=8)
    venue.do("start")
    until(lambda: len(sees(venue, "ladder")["levels"]) >= 2)
    venue.child.kill()
    venue.child.wait()
    with served.served(tmp_path, FAST):
        journal = pathlib.Path(tmp_path / "venue/XYZ.journal.csv")
        until(lambda: journal.read_text().count(",entered ") == 8)
        owners = re.findall(r"^(\d+),enter", journal.read_text(), re.M)
        assert len(owners) == len(set(owners)) == 8


def test_a_value_that_comes_late_in_a_call(venue: Served) -> None:
    """A robot that bids by its value waits for one, and then enters an order at it."""
    venue.do("robots", kind="truthful", count=2)
    venue.do("start")
    time.sleep(robots.ENTRY_SECONDS + 1)
    assert sees(venue, "ladder")["levels"] == []
    crossed = {"price": "3.00", "bid": 10, "ask": 10}
    venue.do("give", low="3.00", high="3.00", quantity=10)
    until(lambda: bool(sees(venue, "ladder")["levels"] == [crossed]))


@pytest.mark.parametrize("body", [{"kind": "clever", "count": 1}, {"kind": "zero", "count": 201},
                                  {"count": 1}])
def test_robots_that_there_are_none_of(venue: Served, body: dict[str, Any]) -> None:
    assert venue.call("api/operator", {"do": "robots"} | body, venue.operator)[0] == 400


@pytest.fixture(scope="module")
def log(tmp_path_factory: pytest.TempPathFactory) -> Log:
    return Log(tmp_path_factory.mktemp("robots") / "log")


@given(st.sampled_from(robots.ROBOT_KINDS), st.sampled_from(["bid", "ask"]), st.integers(1, 1000),
       st.integers(0, 10))
def test_the_order_of_a_robot(log: Log, kind: str, side: str, tick: int, traded: int) -> None:
    """No robot offers more than is left of its value, nor at a loss."""
    resources = VenueResources(DayTerms(), pathlib.Path("/nowhere"), "none", log)
    board = InstrumentBoard(BoardIdentity("XYZ"), InstrumentTerms(), Treatment(), resources)
    board.book.give("Robot 1", 1)
    board.accounts.give({"Robot 1": ShareValue(side, tick, 10)}, True, 0)
    board.accounts.fills["Robot 1"] = [MemberFill(1, 1, side, traded, tick)] if traded else []
    record = robots.record_of(kind, board, "Robot 1")
    if traded == 10:
        assert record is None
        return
    assert record is not None
    word, own, quantity, limit = record.split(",")
    assert (word, own, int(quantity)) == ("enter", side, 10 - traded)
    assert 1 <= int(limit) <= 1000
    better = int(limit) - tick if side == "ask" else tick - int(limit)
    assert better >= 0
    assert kind != "truthful" or better == 0
    assert kind != "shading" or better > 0 or int(limit) in (1, 1000)

"""Rows and times are two readings of a day: where an auction is timed before an order that it
executed, one of both isn't lawful, and neither is known.
"""
import datetime
from collections.abc import Callable
from pathlib import Path

import pytest
from damage import places
from desk import TRADE, UNCROSS, audited, base_rows, text_of
from extracts import Rows
from small_days import order, small_day, traded, verdict_of

Printed = pytest.CaptureFixture[str]
CLOCK = "%H:%M:%S"
WHY = (
    "rows and times disagree: row {} is below row {}{}, and timed {} s before it: do clocks differ?"
)


def later(time: str, seconds: int) -> str:
    moment = datetime.datetime.strptime(time, CLOCK) + datetime.timedelta(seconds=seconds)
    return moment.strftime(CLOCK)


def early_results(rows: Rows) -> None:
    """All results and trades are by an hour too early, as by another zone's clock."""
    for place in places(rows, UNCROSS, TRADE):
        rows[place]["time"] = later(rows[place]["time"], -3600)


def late_order(rows: Rows) -> None:
    """The last order that the opening executes is entered 30 seconds behind it."""
    first = places(rows, UNCROSS)[0]
    ids = {row[side] for row in rows if row.get("auction") == "opening" and row["event"] == TRADE
           for side in ("bid", "ask")}  # fmt: skip
    last = max(at for at in places(rows[:first], "new") if rows[at]["order"] in ids)
    rows.insert(first - 1, rows.pop(last))
    rows[first - 1]["time"] = later(rows[first]["time"], 30)


@pytest.mark.parametrize("change, most", [(early_results, 3), (late_order, 1)])
@pytest.mark.parametrize("words", [[], ["--sort"]])
def test_an_auction_before_its_orders_is_in_doubt_sorted_or_not(
    change: Callable[[Rows], None], most: int, words: list[str], tmp_path: Path, capsys: Printed
) -> None:
    """One line an auction, which names rows and seconds."""
    rows = base_rows()
    change(rows)
    assert audited(text_of(rows), words, tmp_path) == 5
    out = capsys.readouterr().out
    lines = [it for it in out.splitlines() if it.startswith("doubtful: ")]
    assert "findings 0\n" in out and 0 < len(lines) <= most, out
    assert all("rows and times disagree: row " in it and " s before it: do" in it for it in lines)


def test_what_both_readings_have_is_certain(tmp_path: Path, capsys: Printed) -> None:
    """A trade at another price than its auction's."""
    rows = base_rows()
    early_results(rows)
    rows[places(rows, TRADE)[0]]["price"] = "77.77"
    for word in ("", "--sort"):
        assert audited(text_of(rows), [word] * bool(word), tmp_path) == 4
        certain = [it for it in capsys.readouterr().out.splitlines() if it.startswith("row ")]
        assert len(certain) == 1 and "77.77" in certain[0]


def opening(time: str, last: str, made: str, **cells: str) -> Rows:
    """A lawful opening of two orders, the second of which is entered at its last moment."""
    return [
        order("B1", "bid", "10.00", 300, "08:50:00"), order("S1", "ask", "10.00", 300, last),
        dict(event=UNCROSS, auction="opening", price="10.00", quantity=300, surplus=0,
             side="none", trades=1, time=time),
        traded("B1", "S1", 300, "10.00", made, auction="opening"),
    ]  # fmt: skip


@pytest.mark.parametrize("time, last, made, why", [
    ("09:00:00", "09:00:00", "09:00:00", ""),
    ("09:00:00", "09:00:00.999", "09:00:00", ""),
    ("09:00", "09:00:59.999", "09:00:30", "row 3 is below row 1, and timed 29 s"),
    ("09:00:00", "08:59:59", "09:59:59", ""),
    ("09:00:00", "09:00:01", "09:00:02", "row 2 is below row 1, and timed 1 s"),
    ("09:00:00", "08:59:59", "08:59:58", "row 3 is below row 1, and timed 1 s"),
    ("00:10:00", "23:59:00", "00:10:00", ""),
])  # fmt: skip
def test_a_time_is_before_another_as_far_as_it_is_written(
    time: str, last: str, made: str, why: str
) -> None:
    verdict = verdict_of(opening(time, last, made), auctions=["opening"])
    assert verdict.word == ("incomplete" if why else "lawful"), str(verdict)
    assert [why in it.doubt for it in verdict.doubtful] == [True] * bool(why), str(verdict)


def test_an_order_behind_the_auction_that_decides_nothing_leaves_it_lawful() -> None:
    """By its time it isn't in the book; a bid that the surplus has is, by its row."""
    rows = opening("09:00:00", "08:51:00", "09:00:00")
    rows.insert(2, order("B2", "bid", "9.00", 10, "09:00:05"))
    assert verdict_of(rows, auctions=["opening"]).word == "lawful"
    rows[2]["price"], rows[3] = "10.00", rows[3] | {"surplus": 10, "side": "bid"}
    verdict = verdict_of(rows, auctions=["opening"])
    assert verdict.word == "incomplete"
    assert [it.doubt for it in verdict.doubtful] == [WHY.format(3, 2, "", 5)]
    rows[2]["time"] = ""
    assert verdict_of(rows, auctions=["opening"]).word == "lawful"


def test_an_order_behind_the_auction_by_row_and_by_time_is_certain() -> None:
    rows = small_day()
    rows.insert(3, rows.pop(2) | {"time": "09:00:30"})
    assert verdict_of(rows).word == "unlawful"

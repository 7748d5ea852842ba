"""Rows whose places say another order than their times or their sequence: a lawful day is never
unlawful, and what is above all of them stays certain.
"""
import random

import pytest
from callauction.verdict import Reading, Verdict
from damage import ORDERS, places, timed_day, unread_below
from extracts import Extract, Rows
from judging import judged
from planted import DAYS, planted

BID = dict(event="new", order="B1", side="bid", price="20.00", quantity="300", time="08:50:01")
ASK = dict(event="new", order="S1", side="ask", price="19.95", quantity="200", time="08:50:02")
HIGH = dict(event="new", order="B0", side="bid", price="20.01", quantity="300", time="08:50:00")
RESULT = dict(event="uncross", side="bid", price="20.00", quantity="200", time="09:00:00",
              auction="opening", surplus="100", trades="1")  # fmt: skip
MADE = dict(event="trade", bid="B1", ask="S1", price="20.00", quantity="200", time="09:00:00",
            auction="opening")  # fmt: skip


def opening(rows: Rows) -> Verdict:
    return judged(Extract(rows, "19.90", None, []), auctions=["opening"])


def by_number(rows: Rows) -> None:
    """Numbers in place of times say the order of rows."""
    for place, row in enumerate(rows, 1):
        row["sequence"] = str(place)
        del row["time"]


# ---- rows of orders that can't be read


@pytest.mark.parametrize("cells", [
    dict(side="#N/A"), dict(quantity="1e2x"), dict(side="#N/A", time="08:5x"), dict(event="nw"),
    dict(event="nw", time="?"),
])  # fmt: skip
def test_an_unread_order_below_a_result_may_be_above_it_by_its_time(cells: dict[str, str]) -> None:
    verdict = opening([BID, RESULT, {**ASK, **cells}, MADE])
    assert verdict.word == "incomplete", str(verdict)
    said = ("row 2: ", "what row 2 does: ", "row 3 is a trade of an order that no row")
    assert any(it in str(verdict) for it in said)


def test_an_unread_order_below_a_result_of_an_earlier_time_excuses_nothing() -> None:
    late = {**ASK, "side": "#N/A", "time": "09:05:00"}
    assert opening([BID, RESULT, late, MADE]).word == "unlawful"


@pytest.mark.parametrize("event", ["replace", "cancel"])
def test_an_unread_replace_or_cancel_below_a_result_may_be_above_it(event: str) -> None:
    gone = dict(event=event, order="B0", quantity="2oo", time="08:50:03")
    verdict = opening([HIGH, BID, ASK, RESULT, gone, MADE])
    assert verdict.word == "incomplete" and "quantity '2oo' is no whole number" in str(verdict)


@pytest.mark.parametrize("way", ["time", "sequence", "unread time"])
def test_an_unread_order_below_a_result_condemns_no_day(way: str) -> None:
    count = 0
    for seed in range(DAYS // 2):
        extract = timed_day(seed)
        if way == "sequence":
            by_number(extract.rows)
        rows, chance = extract.rows, random.Random(seed)
        before = [dict(row) for row in rows]
        if unread_below(chance, rows) is None:
            continue
        if way == "unread time":
            next(row for row in rows if row not in before)["time"] = "08:5x"
        count += 1
        assert judged(extract).word == "incomplete", f"{seed}\n{judged(extract)}"
    assert count > 5


def is_found_above(seed: int, extract: Extract, first: int | None) -> bool:
    """Whether a fault can be planted above a row of an extract: it is certain then. Raises
    AssertionError.
    """
    fault = None if first is None else planted(extract, first)
    if fault is None:
        return False
    verdict = judged(extract)
    assert fault in [it.row for it in verdict.findings], f"{seed}\n{verdict}"
    return True


@pytest.mark.parametrize("way", ["time", "sequence"])
def test_a_fault_above_an_unread_order_is_certain(way: str) -> None:
    count = 0
    for seed in range(DAYS):
        extract = timed_day(seed)
        if way == "sequence":
            by_number(extract.rows)
        first = unread_below(random.Random(seed), extract.rows)
        count += is_found_above(seed, extract, first)
    assert count > 5


# ---- a sequence without times


def numbered_below(extract: Extract, chance: random.Random) -> int | None:
    """Moves a row of an order below its result, in an extract with numbers in place of times."""
    by_number(extract.rows)
    ends = places(extract.rows, "uncross")
    those = [at for at in places(extract.rows, *ORDERS) if at < ends[-1]]
    if not those:
        return None
    place = chance.choice(those)
    row = extract.rows.pop(place)
    above = next(end for end in ends if end > place)
    extract.rows.insert(chance.randint(above, len(extract.rows)), row)
    return place


@pytest.mark.parametrize("rows, numbers", [
    ([BID, RESULT, MADE, ASK], "1342"), ([BID, RESULT, ASK, MADE], "1324"),
    ([HIGH, BID, ASK, RESULT, MADE, dict(event="cancel", order="B0")], "123564"),
])  # fmt: skip
def test_an_order_or_a_cancel_of_a_lower_number_below_a_result(rows: Rows, numbers: str) -> None:
    numbered = [{**row, "time": "", "sequence": it} for row, it in zip(rows, numbers)]
    verdict = opening(numbered)
    assert verdict.word == "incomplete", str(verdict)
    assert "are in another order than their sequence: say --sort" in str(verdict)


def test_a_lower_number_below_a_result_condemns_no_day() -> None:
    count = 0
    for seed in range(DAYS):
        extract = timed_day(seed)
        if numbered_below(extract, random.Random(seed)) is None:
            continue
        verdict = judged(extract)
        assert verdict.word != "unlawful", f"{seed}\n{verdict}"
        count += "another order than their sequence: say --sort" in str(verdict)
        assert judged(extract, reading=Reading(sort=True)).word == "lawful", str(seed)
    assert count > 5


def test_a_fault_above_a_lower_number_is_certain() -> None:
    count = 0
    for seed in range(DAYS):
        extract = timed_day(seed)
        first = numbered_below(extract, random.Random(seed))
        count += is_found_above(seed, extract, first)
    assert count > 5

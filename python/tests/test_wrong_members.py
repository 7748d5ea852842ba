"""Lawful days in which the entry of an order has another member, or nobody's name: none is
unlawful, and what no reading of that cell excuses is certain.
"""
import random
from typing import Any

import pytest
from callauction.verdict import Reading, Verdict, audit_events
from damage import timed_day, wrong_member
from judging import frame_of, judged
from lines import timed_rows

SEEDS = range(16)


def opening(text: str, members: dict[str, str], **cells: dict[str, str]) -> Verdict:
    """The verdict on an opening of these lines; each row of an order, and each trade, has the
    members that are said of its orders, but for these cells of rows by the names of places.
    """
    rows = timed_rows(text)
    for row in rows:
        names = {"bid": "bid_member", "ask": "ask_member", "order": "member"}
        row |= {names[it]: members[row[it]] for it in names if row.get(it) in members}
    for name, other in cells.items():
        rows[int(name.removeprefix("row"))] |= other
    terms: dict[str, Any] = dict(reference="10", tick_size="0.01", auctions=["opening"])
    return audit_events(frame_of(rows), reading=Reading(unrestricted=True), **terms)


def test_a_day_with_another_member_in_an_entry_is_never_unlawful() -> None:
    doubtful = 0
    for seed in SEEDS:
        extract = timed_day(seed)
        wrong_member(random.Random(seed), extract.rows)
        verdict = judged(extract)
        assert verdict.word != "unlawful", f"{seed}\n{verdict}"
        doubtful += any("is the first wrong?" in it.doubt for it in verdict.doubtful)
    assert doubtful >= max(1, len(SEEDS) // 8)


DAY = """
    new 08:50:01 A bid 100 10.00
    new 08:50:02 B bid 50 10.00
    new 08:50:03 S ask 100 10.00
    replace 08:51 A bid 90 10.00
    uncross 09:00 10.00 100 40 bid 2 opening
    trade 09:00 A S 90 10.00 opening
    trade 09:00 B S 10 10.00 opening
"""
MEMBERS = {"A": "ADLER", "B": "BIRK", "S": "COHN"}


@pytest.mark.parametrize("row, order, name", [
    (row, order, name) for row, order in enumerate("ABS")
    for name in ("BIRK", "ZENZ", "4711", "A D", "adl") if name != MEMBERS[order]
])  # fmt: skip
def test_another_member_of_one_entry_is_in_doubt(row: int, order: str, name: str) -> None:
    verdict = opening(DAY, MEMBERS, **{f"row{row}": {"member": name}})
    assert verdict.word == "incomplete", str(verdict)
    if order == "A":  # its replace isn't read, as another's
        return
    said = f"row {row} says that order {order!r} is {name}'s, and row "
    assert all(said in it.doubt and "is the first wrong?" in it.doubt for it in verdict.doubtful)
    other = DAY.replace("100 40 bid", "100 41 bid")
    verdict = opening(other, MEMBERS, **{f"row{row}": {"member": name}})
    assert [it.item for it in verdict.findings] == ["surplus"], str(verdict)


@pytest.mark.parametrize("cells", [
    {"row5": {"bid_member": "BIRK"}},  # A's replace is ADLER's
    {"row6": {"ask_member": "BIRK"}},  # S's other trade is COHN's
    {"row5": {"ask_member": "BIRK"}, "row6": {"ask_member": "ADLER"}},  # S's have two
    {"row6": {"bid_member": "BIRK7"}},  # no one's, and unlike all names
    {"row2": {"member": "ADLER"}, "row6": {"bid_member": "ADLER"}},  # of two orders' entries
])  # fmt: skip
def test_members_that_no_entry_explains_are_certain(cells: dict[str, dict[str, str]]) -> None:
    verdict = opening(DAY, MEMBERS, **cells)
    assert verdict.word == "unlawful", str(verdict)


# ---- members whose trades have another code


MERGED = """
    new 08:50:01 A bid 100 10.00
    new 08:50:02 B bid 50 10.00
    new 08:50:03 C bid 30 10.00
    new 08:50:04 S ask 60 10.00
    new 08:50:05 T ask 120 10.00
    uncross 09:00 10.00 180 0 none 4 opening
    trade 09:00 A S 60 10.00 opening
    trade 09:00 A T 40 10.00 opening
    trade 09:00 B T 50 10.00 opening
    trade 09:00 C T 30 10.00 opening
"""
RENAMED = "members of trades may be renamed: "


def renamed(codes: dict[str, str], cells: dict[str, dict[str, str]] = {}) -> Verdict:
    """The verdict on MERGED, in whose trades members have these codes."""
    members = MEMBERS | {"C": "ADLER", "T": "DORN"}
    names = {order: codes.get(member, member) for order, member in members.items()}
    own = {
        f"row{place}": {"bid_member": names[row["bid"]], "ask_member": names[row["ask"]]}
        for place, row in enumerate(timed_rows(MERGED)) if row["event"] == "trade"
    }  # fmt: skip
    return opening(MERGED, members, **{it: own[it] | cells.get(it, {}) for it in own})


@pytest.mark.parametrize("codes, said", [
    ({"ADLER": "AAG7"}, "ADLER in orders, AAG7 in trades"),
    ({"ADLER": "AAG7", "DORN": "0815"}, "ADLER in orders, AAG7 in trades, and 1 other"),
    ({"BIRK": "BBX", "COHN": "CCX"}, "COHN in orders, CCX in trades, and 1 other"),
    ({"ADLER": "AAG7", "DORN": "0815", "BIRK": "BBX"},
     "ADLER in orders, AAG7 in trades, and 2 others"),
    ({"DORN": "0815", "ADLER": "0815"}, "ADLER in orders, 0815 in trades, and 1 other"),
])  # fmt: skip
def test_codes_that_trades_alone_have_are_one_doubt(codes: dict[str, str], said: str) -> None:
    """As after a merger, or where a house executes for members."""
    verdict = renamed(codes)
    assert verdict.word == "incomplete", str(verdict)
    assert {it.doubt for it in verdict.doubtful} == {RENAMED + said}
    assert len([it for it in str(verdict).splitlines() if RENAMED in it]) == 1


@pytest.mark.parametrize("codes, cells, rows", [
    ({"BIRK": "AAG7"}, {}, [8]),  # one row alone
    ({"ADLER": "AAG7"}, {"row7": {"bid_member": "COHN"}}, [7]),  # a member of orders
    ({"ADLER": "AAG7"}, {"row8": {"bid_member": "AAG7"}}, [8]),  # another member's only trade
    ({"ADLER": "AAG7"}, {"row7": {"bid_member": "AAG8"}}, [7]),  # two codes
    ({}, {"row6": {"bid_member": "AAG7"}, "row8": {"bid_member": "AAG7"}}, [6, 8]),
])  # fmt: skip
def test_members_that_no_renaming_explains_are_certain(
    codes: dict[str, str], cells: dict[str, dict[str, str]], rows: list[int]
) -> None:
    verdict = renamed(codes, cells)
    assert verdict.word == "unlawful", str(verdict)
    lines = str(verdict).splitlines()
    assert sorted(int(it.split(",")[0][4:]) for it in lines if it.startswith("row ")) == rows


@pytest.mark.parametrize("is_by_row", [False, True])
def test_a_day_whose_trades_have_other_codes_is_never_unlawful(is_by_row: bool) -> None:
    """All trades of a member, or every other trade of all."""
    doubtful = 0
    for seed in SEEDS[:6]:
        extract = timed_day(seed)
        made = [row for row in extract.rows if row["event"] == "trade"]
        for row in made[:: 1 + is_by_row]:
            for name in ("bid_member", "ask_member"):
                if is_by_row or row[name] == "M1":
                    row[name] = f"Q{row[name]}7"
        verdict = judged(extract)
        assert verdict.word != "unlawful", f"{seed}\n{verdict}"
        own = {it.doubt for it in verdict.doubtful if it.doubt.startswith(RENAMED)}
        doubtful += len(own)
        assert len(own) <= 1
        if own:
            owners = {it["order"]: it["member"] for it in extract.rows if it["event"] == "new"}
            row = made[seed % len(made)]
            row["bid_member"] = "M2" if owners[row["bid"]] != "M2" else "M3"
            assert judged(extract).word == "unlawful", f"{seed}\n{verdict}"
    assert doubtful > 2

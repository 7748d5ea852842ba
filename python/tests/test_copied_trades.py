"""Lawful days with trades that are there twice: beside another pairing of shares, or with an own id
that is another's or none's. None is unlawful, and a fault beside them is certain.
"""
import random
from typing import Any

import pytest
from callauction.verdict import Reading
from damage import (
    UNREADABLE, copied_at_once, copied_trade, paired_otherwise, places, timed_day,
)  # fmt: skip
from extracts import Extract, Rows
from judging import judged
from lines import judged_lines
from planted import planted

SEEDS = range(16)
WITH_IDS = Reading(ignore=("TradeID",))


# ---- a trade's own id


def with_ids(rows: Rows, many: int = 1) -> list[int]:
    """Gives each trade an id of its own and so many rows; answers the places of these."""
    for number, at in enumerate(places(rows, "trade")):
        rows[at]["TradeID"] = f"T{number}"
    rows[:] = [dict(row) for row in rows
               for _ in range(many if row["event"] == "trade" else 1)]  # fmt: skip
    return places(rows, "trade")


@pytest.mark.parametrize("text", ["", "?", "-", UNREADABLE, "1.5E+02"])
def test_a_copy_whose_id_is_not_known_condemns_no_day(text: str) -> None:
    count = 0
    for seed in SEEDS:
        extract, chance = timed_day(seed), random.Random(seed)
        made = with_ids(extract.rows)
        if len(made) < 2:
            continue
        place = chance.choice(made)
        extract.rows.insert(place + 1, dict(extract.rows[place], TradeID=text))
        count += 1
        verdict = judged(extract, reading=WITH_IDS)
        assert verdict.word == "incomplete", f"{seed}\n{verdict}"
        extract.rows[place + 1]["quantity"] += "0"
        verdict = judged(extract, reading=WITH_IDS)
        assert verdict.word == "unlawful", f"{seed}\n{verdict}"
    assert count > 5


@pytest.mark.parametrize("text", ["T99", "", UNREADABLE, "T0", "T1"])
def test_an_id_of_trades_that_have_two_rows_each(text: str) -> None:
    """One that no other row has may be that of the row's copy."""
    count = 0
    for seed in SEEDS:
        extract, chance = timed_day(seed), random.Random(seed)
        made = with_ids(extract.rows, 2)
        if len(made) < 6:
            continue
        count += 1
        extract.rows[chance.choice(made)]["TradeID"] = text
        verdict = judged(extract, reading=WITH_IDS)
        assert verdict.word != "unlawful", f"{seed}\n{verdict}"
    assert count > 5


# ---- copies beside another pairing of shares


def paired_and_copied(seed: int, *damages: Any) -> Extract | None:
    """A day of which trades pair orders otherwise, and some of which are there twice."""
    extract, chance = timed_day(seed, 20), random.Random(seed)
    found = [it(chance, extract.rows) for it in (paired_otherwise, *damages)]
    return None if None in found else extract


@pytest.mark.parametrize("damages", [
    (copied_trade,) * 2, (copied_at_once,) * 2, (copied_trade, copied_at_once, copied_trade),
])  # fmt: skip
def test_copies_beside_another_pairing_condemn_no_day(damages: tuple[Any, ...]) -> None:
    count = 0
    for seed in SEEDS:
        extract = paired_and_copied(seed, *damages)
        if extract is not None:
            count += 1
            verdict = judged(extract)
            assert verdict.word == "incomplete", f"{seed}\n{verdict}"
            fault = planted(extract, len(extract.rows))
            if fault is not None:
                verdict = judged(extract)
                assert verdict.word == "unlawful", f"{seed}\n{verdict}"
    assert count > 5


def test_two_copies_among_trades_of_one_pair() -> None:
    """A and S trade 20 twice and 30 once; of the first there is one row too many, and of the last.
    """
    day = """
        new 08:50:01 A bid 70 10.00
        new 08:50:03 S ask 70 10.00
        uncross 09:00 10.00 70 0 none 3 opening
        trade 09:00 A S 20 10.00 opening
        trade 09:00 A S 30 10.00 opening
        trade 09:00 A S 20 10.00 opening
        trade 09:00 A S 20 10.00 opening
        trade 09:00 A S 30 10.00 opening
    """
    verdict = judged_lines(day, auctions=["opening"])
    assert verdict.word == "incomplete" and "is there twice: is it one?" in str(verdict)
    other = day.replace("70 10.00\n", "60 10.00\n").replace("10.00 70", "10.00 60")
    assert judged_lines(other, auctions=["opening"]).word == "unlawful"


def test_the_copies_are_those_without_which_the_published_count_is_right() -> None:
    """Two trades of 10 are there twice; a trade of 20 has as many shares."""
    day = """
        new 08:50:01 A bid 60 10.00
        new 08:50:03 S ask 60 10.00
        uncross 09:00 10.00 60 0 none 4 opening
        trade 09:00 A S 20 10.00 opening
        trade 09:00 A S 20 10.00 opening
        trade 09:00 A S 10 10.00 opening
        trade 09:00 A S 10 10.00 opening
        trade 09:00 A S 10 10.00 opening
        trade 09:00 A S 10 10.00 opening
    """
    verdict = judged_lines(day, auctions=["opening"])
    assert verdict.word == "incomplete", str(verdict)
    other = day.replace("60 0 none 4", "60 0 none 2")
    assert judged_lines(other, auctions=["opening"]).word == "unlawful"


def test_a_copied_cancel_beside_a_copied_trade_and_two_equal_ones() -> None:
    """A has 20 after one cancel of 10, and two trades of 10; B's trade is there twice."""
    day = """
        new 08:50:01 A bid 30 10.00
        new 08:50:02 B bid 20 10.00
        new 08:50:03 S ask 40 10.00
        cancel 08:55 A 10
        new 08:56 C bid 5 9.00
        cancel 08:55 A 10
        uncross 09:00 10.00 40 0 none 3 opening
        trade 09:00 A S 10 10.00 opening
        trade 09:00 A S 10 10.00 opening
        trade 09:00 B S 20 10.00 opening
        trade 09:00 B S 20 10.00 opening
    """
    verdict = judged_lines(day, auctions=["opening"])
    assert verdict.word == "incomplete", str(verdict)
    verdict = judged_lines(day.replace("09:00 10.00 40", "09:00 10.01 40"), auctions=["opening"])
    assert [it.item for it in verdict.findings] == ["price"], str(verdict)

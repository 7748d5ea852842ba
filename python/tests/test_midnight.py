"""Sessions over midnight whose times have no dates, with a sequence that says that they go on: read
as they come, a lawful one is never unlawful, and a fault is the one that it is by day.
"""
import random
from typing import Any

import pytest
from callauction.verdict import ExtractError, Reading, audit_events
from damage import DAMAGES, timed_day
from days import seconds
from extracts import Extract
from judging import frame_of, judged
from planted import DAYS, SEEDS, planted

DAY = 24 * 3600


def by_night(extract: Extract, seed: int) -> bool:
    """Moves a day to the night, and numbers its rows; whether midnight is among them."""
    clocks = [seconds(row["time"]) for row in extract.rows]
    begin = DAY - random.Random(seed).randint(1, max(clocks) - min(clocks))
    for number, (row, clock) in enumerate(zip(extract.rows, clocks), 7000):
        at = (begin + clock - min(clocks)) % DAY
        row["time"] = f"{at // 3600:02}:{at % 3600 // 60:02}:{at % 60:02}"
        row["sequence"] = str(number)
    return min(clocks) < max(clocks)


def test_a_fault_of_a_night_is_the_one_of_the_day() -> None:
    count = 0
    for seed in SEEDS[::3]:
        extract = timed_day(seed)
        if planted(extract, len(extract.rows)) is None:
            continue
        by_day = [str(it.lawful) for it in judged(extract).findings]
        by_night(extract, seed)
        count += 1
        verdict = judged(extract)
        assert [str(it.lawful) for it in verdict.findings] == by_day, f"{seed}\n{verdict}"
        assert not verdict.doubtful, f"{seed}\n{verdict}"
    assert count > 5


@pytest.mark.parametrize("name", ["unread order", "unread result", "copied trade", "times fall"])
def test_a_lawful_night_that_is_damaged_is_never_unlawful(name: str) -> None:
    for seed in SEEDS[: DAYS // 20]:
        extract = timed_day(seed)
        by_night(extract, seed)
        DAMAGES[name](random.Random(seed), extract.rows)
        assert judged(extract).word != "unlawful", f"{seed}\n{judged(extract)}"


def test_rows_in_another_order_are_sorted_over_midnight() -> None:
    """Orders above results, as two files that were put together."""
    for seed in SEEDS[:4]:
        extract = timed_day(seed)
        by_night(extract, seed)
        rows = sorted(extract.rows, key=lambda row: row["event"] in ("uncross", "trade"))
        terms: dict[str, Any] = dict(
            reference=extract.reference, range=extract.range, tick_size="0.01"
        )
        verdict = audit_events(frame_of(rows), reading=Reading(sort=True), **terms)
        assert verdict.word == "lawful", str(verdict)
        try:
            assert audit_events(frame_of(rows), **terms).word != "unlawful"
        except ExtractError as fault:
            assert "say --sort" in str(fault)

"""The verdict on extracts: random days of the checks' own model in every shape are lawful, each
planted fault is one finding, and the coverage is what was published.
"""
import collections
import itertools
import random
from pathlib import Path
from typing import Any

import pandas
import pytest
from callauction.verdict import audit_events
from desk import as_fills
from extracts import Extract, Recorder, price_of, random_day
from faults import FAULTS, Planted
from hypothesis import HealthCheck, given, settings, strategies
from judging import frame_of, judged
from shapes import SHAPES, Shape, written

from checks.model import day as model

SEEDS = strategies.integers(0, 2**32)
MANY = settings(deadline=None, max_examples=1000, suppress_health_check=[HealthCheck.too_slow])
SOME = settings(deadline=None, max_examples=30, suppress_health_check=[HealthCheck.too_slow])
ITEMS = ("price", "quantity", "surplus", "side", "auction", "trades")


# ---- nothing lawful is condemned


@MANY
@given(SEEDS, strategies.sets(strategies.sampled_from(SHAPES), max_size=6))
def test_a_lawful_day_in_any_shape_is_lawful(
    tmp_path_factory: pytest.TempPathFactory, seed: int, shapes: set[Shape]
) -> None:
    extract = random_day(seed)
    path, reading = written(random.Random(seed), extract, [*shapes]).write(
        tmp_path_factory.getbasetemp() / "extract.csv"
    )
    verdict = audit_events(
        path, reference=extract.reference, range=extract.range, tick_size="0.01", reading=reading
    )
    assert verdict.word == "lawful" and not verdict.findings, str(verdict)
    assert not verdict.bad_rows


# ---- nothing unlawful is cleared, and one fault is one finding


def planted_day(name: str, seed: int) -> tuple[Extract, Planted]:
    """The first day, from this seed on, that has a place for a fault, with the fault in it."""
    for number in itertools.count(seed):
        extract = random_day(number)
        planted = FAULTS[name](random.Random(seed), extract)
        if planted is not None:
            return extract, planted
    raise LookupError


@pytest.mark.parametrize("name", FAULTS)
@SOME
@given(seed=SEEDS)
def test_a_planted_fault_is_one_finding(name: str, seed: int) -> None:
    extract, (item, row) = planted_day(name, seed)
    verdict = judged(extract)
    assert verdict.word == "unlawful" and verdict.status == 4
    [finding] = verdict.findings
    assert finding.item == item and row in finding.rows, str(verdict)
    assert all(verdict.explain(finding)) and str(finding).startswith(f"row {finding.row}, ")
    assert finding.rule == verdict.explain(finding)[0]
    queue = verdict.queue(finding)
    assert {"order", "recorded", "lawful"} < {*queue.columns}


class OtherPriority(model.Day):  # type: ignore[misc]
    """A day whose engine gives the last order of a limit the first place, in one auction."""

    book: dict[int, Any]
    wrong = ""

    def execute(self, tick: int) -> Any:
        if self.kind() != self.wrong:
            return super().execute(tick)
        self.book = dict(reversed(self.book.items()))
        trades = super().execute(tick)
        self.book = dict(reversed(self.book.items()))
        return trades


@settings(deadline=None, max_examples=100)
@given(SEEDS, strategies.sampled_from(["opening", "intraday", "closing"]))
def test_a_fault_of_the_engine_is_found_in_its_auction_alone(seed: int, auction: str) -> None:
    """The other auctions are lawful on the book that the wrong one left."""
    chance = random.Random(seed)
    recorder = Recorder(chance)
    day = recorder.day
    recorder.day = OtherPriority(day.low, day.high, day.reference, day.max_open, day.range)
    recorder.day.wrong = auction
    while recorder.day.kind():
        for _ in range(chance.randint(3, 10)):
            recorder.enter()
        recorder.uncross()
    span = None if recorder.range is None else price_of(recorder.range)
    verdict = judged(
        Extract(recorder.rows, price_of(recorder.reference), span, recorder.lawful)
    )
    assert {finding.auction for finding in verdict.findings} <= {auction}
    items = {finding.item for finding in verdict.findings}
    assert items <= {"trade", "fill", "count"}
    for finding in verdict.findings:
        assert verdict.explain(finding)


# ---- the coverage is what was published


def without(extract: Extract, names: set[str], has_trades: bool) -> Extract:
    """The extract without these cells of its uncrosses, and without its trades."""
    found = extract.copy()
    for row in found.rows:
        if row["event"] == "uncross":
            for name in names & {*row}:
                del row[name]
    if not has_trades:
        found.rows = [row for row in found.rows if row["event"] != "trade"]
    return found


def expected_coverage(extract: Extract, names: set[str], has_trades: bool) -> dict[str, Any]:
    """What was published of what the rules give, by the model's results."""
    rows = [row for row in extract.rows if row["event"] == "uncross"]
    counts: collections.Counter[tuple[str, bool]] = collections.Counter()
    for row, outcome in zip(rows, extract.lawful):
        has_price = outcome.tick is not None
        counts["auctions", "auction" in row] += 1
        counts["prices", ("price" in row) if has_price else ("quantity" in row)] += 1
        if has_price:
            counts["volumes", "quantity" in row] += 1
            counts["surpluses", "surplus" in row] += 1
            is_none = row.get("surplus") == "0"
            counts["sides", "side" in row or is_none] += 1
            if not outcome.is_interrupted:
                counts["counts", "trades" in row] += 1
        counts["trades", has_trades] += outcome.trades
    items = ("prices", "volumes", "surpluses", "sides", "auctions", "counts", "trades")
    return {
        name: (counts[name, True], counts[name, True] + counts[name, False]) for name in items
    }


@settings(deadline=None, max_examples=200)
@given(SEEDS, strategies.sets(strategies.sampled_from(ITEMS)), strategies.booleans())
def test_the_coverage_is_what_was_published(
    seed: int, names: set[str], has_trades: bool
) -> None:
    whole = random_day(seed)
    extract = without(whole, names, has_trades)
    verdict = judged(extract)
    wanted = expected_coverage(extract, names, has_trades and bool(extract.places("trade")))
    assert verdict.coverage.counts == wanted, str(verdict)
    is_complete = all(compared == of for compared, of in wanted.values())
    assert verdict.word == ("lawful" if is_complete else "incomplete"), str(verdict)
    assert verdict.status == (0 if is_complete else 5)
    assert verdict.lines()[0] == "findings 0" and verdict.lines()[-1] == verdict.word


@SOME
@given(SEEDS)
def test_a_record_that_ends_before_the_closing_is_incomplete(seed: int) -> None:
    extract = random_day(seed)
    last = extract.places("uncross")[-1]
    extract.rows = extract.rows[:last]
    verdict = judged(extract)
    assert verdict.word == "incomplete" and not verdict.findings
    compared, of = verdict.coverage["prices"]
    assert compared == of - 1


@settings(deadline=None, max_examples=100)
@given(SEEDS, strategies.booleans())
def test_fills_without_counterparties_are_compared_by_order(seed: int, is_faulty: bool) -> None:
    days = (random_day(number) for number in itertools.count(seed))
    extract = next(day for day in days if day.places("trade"))
    extract.rows = as_fills(extract.rows)
    filled = sum(outcome.filled for outcome in extract.lawful)
    place = random.Random(seed).choice(extract.places("fill"))
    if is_faulty:
        extract.rows[place]["quantity"] = str(int(extract.rows[place]["quantity"]) + 1)
    verdict = judged(extract)
    assert verdict.coverage["fills"] == (filled, filled)
    assert verdict.coverage["trades"][0] == 0
    if is_faulty:
        [finding] = verdict.findings
        assert finding.item == "fill" and place in finding.rows
        assert verdict.explain(finding) and len(verdict.queue(finding))
    else:
        assert verdict.word == "incomplete", str(verdict)


def test_frames_have_numbers_and_times_of_their_own() -> None:
    """Ids, quantities and prices as floats and integers, as pandas makes them of columns with
    missing cells, and times as timestamps.
    """
    for seed in range(20):
        extract = random_day(seed)
        frame = frame_of(extract.rows)
        for name in ("quantity", "surplus", "trades", "peak", "price"):
            if name in frame:
                frame[name] = frame[name].astype("float64")
        for name in ("order", "bid", "ask"):
            if name in frame:
                frame[name] = frame[name].str[1:].astype("float64")
        frame["time"] = pandas.to_datetime("2026-11-25 " + frame["time"])
        truths = {"true": True, "false": False}
        frame["kept"] = frame["kept"].map(truths) if "kept" in frame else None
        verdict = audit_events(
            frame, reference=float(extract.reference), range=extract.range, tick_size=0.01
        )
        assert verdict.word == "lawful", str(verdict)


def test_a_tick_size_is_needed_for_nothing_but_the_grid(tmp_path: Path) -> None:
    for seed in range(40):
        extract = random_day(seed)
        assert judged(extract, tick_size=None).word == "lawful"
    extract = random_day(1)
    place = extract.places("new")[0]
    extract.rows[place]["price"] = "10.001"
    verdict = judged(extract)
    assert str(verdict.bad_rows[0]) == (
        f"row {place}: price 10.001 is no multiple of the tick size 0.01"
    )

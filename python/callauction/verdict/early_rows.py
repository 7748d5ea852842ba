"""What is timed before an order that its row is below: rows and times are two readings of a day,
and where they disagree so, one of both isn't lawful.
"""
import dataclasses
import functools
from collections.abc import Callable
from decimal import Decimal

import numpy

from callauction.verdict import time_columns, times
from callauction.verdict.cells import Ints
from callauction.verdict.comparing import Difference
from callauction.verdict.paths import Judged, Judgement
from callauction.verdict.row_order import over_midnight
from callauction.verdict.rows import OF_ORDERS, Kind, Rows

EARLY = "trades and fills timed before an order of theirs was entered, by {:f} s at most"
TOLD = (
    "rows and times disagree: row {} is below row {}{}, and timed {:f} s before it: {}"
)
CLOCKS = "do clocks differ?"
OVER_MIDNIGHT = "a session over midnight needs dates or a sequence"
LONG = 6 * 3600 * time_columns.SECOND
"""From how many nanoseconds on a gap is none of clocks."""
ENTERED_BEFORE = "An auction executes orders that were entered before it."


def _seconds(gap: int) -> Decimal:
    """Nanoseconds as seconds."""
    return (Decimal(gap) / time_columns.SECOND).normalize()


class Early:
    """The times of a day's rows beside the places of the rows in the table."""

    def __init__(self, rows: Rows) -> None:
        self.rows, self.entered = rows, rows.entered(len(rows.names.ids) + 1)
        self.time = over_midnight(rows.time, None, numpy.zeros(len(rows.time), "i4"))
        self.steps = dict[int, int]()

    @functools.cached_property
    def is_no_order(self) -> bool:
        """Whether the table has its rows in no order of their times."""
        if not self.rows.is_sorted:
            return False
        orders = self.rows.of(*OF_ORDERS)
        at = self.time[orders[numpy.argsort(self.rows.spots[orders])]]
        at = at[at != time_columns.NO_TIME]
        return bool(10 * (at[1:] < at[:-1]).sum() > len(at))

    def step(self, place: int) -> int:
        """How many nanoseconds a row's time is of, by its last digit."""
        time = int(self.time[place])
        if time not in self.steps:
            self.steps[time] = max(1, times.step_of(self.rows.names.time(place)))
        return self.steps[time]

    def gaps(self, those: Ints, others: Ints) -> Ints:
        """By how many nanoseconds each row is timed before the other, as far as its time is
        written; 0 where it isn't.
        """
        own, due, day = self.time[those], self.time[others], time_columns.DAY
        is_early = (time_columns.NO_TIME < own) & (own < due) & ((own < day) == (due < day))
        found = numpy.zeros(len(those), "i8")
        for at in numpy.flatnonzero(is_early & (others >= 0)).tolist():
            last = int(due[at])
            found[at] = max(0, last - last % self.step(int(those[at])) - int(own[at]))
        return found

    def entries(self, these: Ints) -> Ints:
        """The row that enters the later order of each trade or fill; below 0 for none."""
        rows, found = self.rows, numpy.full(len(these), -1, "i8")
        for keys in (rows.bid[these], rows.ask[these], rows.key[these]):
            at = numpy.where(keys >= 0, self.entered[keys], -1)
            is_later = (at >= 0) & ((found < 0) | (self.time[at] > self.time[found]))
            found = numpy.where(is_later, at, found)
        return found

    def note(self) -> dict[str, int]:
        """How many trades and fills are timed before an entry of their orders, and by how much at
        most; empty for none.
        """
        made = self.rows.of(Kind.TRADE, Kind.FILL)
        gaps = self.gaps(made, self.entries(made))
        many = int((gaps > 0).sum())
        most = EARLY.format(_seconds(int(gaps.max(initial=0))))
        return {f"{most} ({CLOCKS})": many} if many else {}

    def told(self, those: Ints, others: Ints) -> tuple[str, int, int]:
        """That rows are timed before others which they are below, and of which of both by most;
        empty where none is.
        """
        is_below = (others >= 0) & (self.rows.spots[those] > self.rows.spots[others])
        gaps = numpy.where(is_below, self.gaps(those, others), 0)
        gaps[gaps > time_columns.LONGEST_SESSION] = 0
        many = int((gaps > 0).sum())
        if not many or self.is_no_order:
            return "", -1, -1
        at = int(gaps.argmax())
        one, other = int(those[at]), int(others[at])
        labels, more = self.rows.labels, f" (as {many - 1:,} more are)" if many > 1 else ""
        why = OVER_MIDNIGHT if gaps[at] >= LONG else CLOCKS
        seconds = _seconds(int(gaps[at]))
        return TOLD.format(labels[one], labels[other], more, seconds, why), one, other

    def of_uncross(self, place: int, orders: Ints) -> tuple[str, int, int]:
        """That an uncross is timed before the last of these rows, which it is below."""
        orders = orders[self.rows.spots[orders] < self.rows.spots[place]]
        if not len(orders):
            return "", -1, -1
        last = orders[self.time[orders].argmax()]
        return self.told(numpy.array([place]), numpy.array([last]))

    def of_auction(self, judged: Judged) -> tuple[str, int, int]:
        """That an uncross, or a trade or fill of it, is timed before an order that it executed."""
        rows, made = self.rows, numpy.concatenate([judged.traded, judged.filled])
        keys = numpy.concatenate([rows.bid[made], rows.ask[made], rows.key[made]])
        if not len(made) and judged.result is not None and judged.is_ended:
            keys = judged.result.fills.keys
        at = self.entered[keys[keys >= 0]]
        found = self.of_uncross(judged.place, at[at >= 0])
        entries = self.entries(made)
        is_above = (entries >= 0) & (rows.spots[entries] < rows.spots[judged.place])
        return found if found[0] else self.told(made[is_above], entries[is_above])

    def difference(self, why: str, one: int, other: int) -> list[Difference]:
        """The doubtful difference of a row that is timed before another; none without a reason."""
        time, key = self.rows.names.legible_time, int(self.rows.key[other])
        both = time(one), f"{time(other)} or later"
        found = Difference("time", *both, (one, other), (key,), doubt=why, rule=ENTERED_BEFORE)
        return [found] * bool(why)


def doubt_times(found: Judgement, early: Early, is_lawful: Callable[[int], bool]) -> Judgement:
    """The judgement with a doubtful difference for each auction whose row, or a trade of which, is
    timed before an order that it executed; or before a row of an order above it, where the day
    isn't lawful by its times, which `is_lawful` says of times of so many nanoseconds.
    """
    rows, told = early.rows, [early.of_auction(each) for each in found.uncrosses]
    is_same = not any(why for why, *_ in told) and not rows.is_sorted
    if is_same and not any(each.differences for each in found.uncrosses):
        orders = rows.of(*OF_ORDERS)
        told = [early.of_uncross(each.place, orders) for each in found.uncrosses]
        steps = [early.step(one) for why, one, _ in told if why]
        if not steps or is_lawful(max(steps)):
            return found
    uncrosses = tuple(
        dataclasses.replace(each, differences=(*each.differences, *early.difference(*those)))
        for each, those in zip(found.uncrosses, told)
    )
    return dataclasses.replace(found, uncrosses=uncrosses)

"""The audit of an extract's events, and that of a journal."""
import dataclasses
import functools
import os
import re
from collections.abc import Sequence
from typing import BinaryIO

import numpy
import pandas

from callauction.program import Day
from callauction.progress import Progress
from callauction.verdict import restricted
from callauction.verdict.corrected_results import corrected, has_more, with_late_results
from callauction.verdict.coverage import Coverage
from callauction.verdict.early_rows import Early, doubt_times
from callauction.verdict.events import rows_of
from callauction.verdict.extract import read_table
from callauction.verdict.findings import INCOMPLETE, LAWFUL, STATUSES, UNLAWFUL, Verdict, verdict_of
from callauction.verdict.joining import with_results
from callauction.verdict.judging import Judge
from callauction.verdict.mixed_files import refuse_days, refuse_sums
from callauction.verdict.otherwise import judged_beside_others
from callauction.verdict.reading import Reading
from callauction.verdict.reorderings import all_times
from callauction.verdict.rows import BadRow, Doubt, Kind, Rows
from callauction.verdict.rules import Rules, SaidTerms
from callauction.verdict.table import Table
from callauction.verdict.units import without_noise
from callauction.verdict.unread_rows import read_zeros, refuse_limits
from callauction.words import AUCTIONS

UNRESTRICTED = "orders of which no column restriction says whether they are for one auction alone"
_COUNT = re.compile(r"(entries|compared|unlawful) (\d+)")
_CUT = f"{INCOMPLETE}: "
_PLACES = [f"in {auction}" for auction in AUCTIONS] + ["day over"]
"""Where a day is, by how many of its auctions ended."""


def audit_events(
    source: pandas.DataFrame | str | os.PathLike[str] | BinaryIO | Table,
    *,
    reference: object,
    tick_size: object = None,
    range: object = None,
    low: object = None,
    high: object = None,
    auctions: Sequence[str] = AUCTIONS,
    second_reference: object = None,
    second_range: object = None,
    reading: Reading = Reading(),
    watch: Progress = iter,
) -> Verdict:
    """The verdict on an extract: a frame or a CSV file with a row for each event
    (verdict.columns.EVENT_COLUMNS), read as `reading` says.

    `reference` is the last price before the day, `tick_size` the step between two prices, of which
    each limit is a multiple (None where it depends on the price), `range` how far a price may lie
    from the reference before an uncross is interrupted (a text such as `2%` is a part of it), `low`
    and `high` the bounds of limits; `second_range` is the range around a second reference, which is
    the price of each auction that has one from then on. All are decimals: a Decimal, a text, an
    int, or a float, which means the shortest decimal that gives it. `auctions` are those that the
    day holds, in order.

    A row that can't be read, or that the rules refuse, is listed in the verdict, and the others are
    judged. `watch` is given the uncrosses, such as tqdm.tqdm. Raises ColumnError and ExtractError
    for a table of another form, ValueError for the other arguments, OSError, and ProgramError.
    """
    said = SaidTerms(
        reference, tick_size, range, low, high, auctions, second_reference, second_range
    )
    rules = said.rules(reading.quantity)
    table = source if isinstance(source, Table) else read_table(source, reading)
    return verdict_on_table(table, reading, rules, watch)


def verdict_on_table(
    table: Table, reading: Reading, rules: Rules, watch: Progress = iter
) -> Verdict:
    """The verdict on a table. Raises ExtractError and ProgramError."""
    rows = rows_of(table, reading, rules.prices)
    rows.bad += short_rows(table, rows, reading)
    rows.notes.update(table.notes)
    return verdict_on_rows(rows, rules, watch)


def verdict_on_rows(rows: Rows, rules: Rules, watch: Progress = iter) -> Verdict:
    """The verdict on the rows of a day. Raises ExtractError and ProgramError."""
    rows, rules = without_noise(with_results(rows), rules)
    whole = rows
    refuse_days(rows)
    _refuse_zero(rows, rules)
    if not rules.has_range and has_more(rows, rules.due):
        rows = corrected(rows, rules.due)
    read_zeros(rows, rules.prices)
    refuse_limits(rows, rules.tick_size, rules.low, rules.high)
    other = with_late_results(rows, rules.due)
    if other is not None and Judge(rows, rules).judge().unlawful:
        rows = whole = other
    found = judged_beside_others(rows, rules, whole, watch)
    early = Early(rows)
    found.notes.update(early.note())
    if found.unlawful:
        refuse_sums(whole, rules.due)
        if rows.is_unsaid and len(rules.due) > 1:
            found.notes[UNRESTRICTED] += len(rows.of(Kind.NEW))
            found = restricted.doubt_restrictions(found, Judge(rows, rules))
    found = doubt_times(found, early, functools.partial(_is_lawful, rows, rules))
    return verdict_of(found, rows, rules)


def _refuse_zero(rows: Rows, rules: Rules) -> None:
    """Raises ValueError for a reference of 0, as systems write none, where all limits are above."""
    limits = rows.price[rows.of(Kind.NEW, Kind.REPLACE)]
    limits = limits[limits >= 0]
    if rules.reference == 0 and len(limits) and min(rows.prices[it] for it in limits) > 0:
        raise ValueError("the reference is 0, and no limit: say --reference, the last price before")


def _is_lawful(rows: Rows, rules: Rules, step: int) -> bool:
    """Whether nothing differs by the times of a day, of which so many nanoseconds are one."""
    found = Judge(rows.ordered(all_times(rows, step)), rules).judge()
    return not any(each.differences for each in found.uncrosses)


def short_rows(table: Table, rows: Rows, reading: Reading) -> list[BadRow]:
    """The lines of another number of fields than the header as bad rows, which may be anything."""
    return [
        BadRow(-1, line, why, Doubt.ANY, before(line, rows, reading))
        for line, why in table.short
    ]


def before(line: object, rows: Rows, reading: Reading) -> int:
    """The place of the row above a line; -1 where that isn't known, as it may be above all."""
    if reading.sort or not isinstance(line, int) or rows.labels.dtype.kind != "i":
        return -1
    return int(numpy.searchsorted(rows.labels, line)) - 1


# ---- journals


@dataclasses.dataclass(frozen=True)
class JournalVerdict:
    """Whether a journal is lawful: `findings` are the program's lines on the replies that aren't,
    `coverage` says how many entries have a reply, and how many auctions ended of those of a day.
    """

    findings: tuple[str, ...]
    coverage: Coverage
    cut: str = ""
    """What follows the whole lines of a copy that was cut within a line; empty for none."""

    @property
    def word(self) -> str:
        """`lawful` where all replies were recorded to the day's end, and none differs."""
        if self.findings:
            return UNLAWFUL
        return LAWFUL if self.coverage.is_complete and not self.cut else INCOMPLETE

    @property
    def status(self) -> int:
        """The exit status of this verdict: 0 lawful, 4 unlawful, 5 incomplete."""
        return STATUSES[self.word]

    def lines(self) -> list[str]:
        """A line a finding, what was cut, the count of findings, the coverage, and the verdict."""
        found = [*self.findings, *filter(None, [self.cut]), f"findings {len(self.findings)}"]
        return [*found, *self.coverage.lines(), self.word]

    def __str__(self) -> str:
        return "\n".join(self.lines())


def audit_journal(day: Day) -> JournalVerdict:
    """The verdict on a journal. Raises ProgramError, with program.NO_JOURNAL for an order file."""
    *lines, place = day.results().splitlines()
    cut = ""
    if place.startswith(_CUT):
        cut, place = place.removeprefix(_CUT), lines.pop()
    counts = {found[1]: int(found[2]) for it in lines if (found := _COUNT.fullmatch(it))}
    replies, ended = (counts["compared"], counts["entries"]), _PLACES.index(place)
    coverage = Coverage({"replies": replies, "auctions": (ended, len(AUCTIONS))})
    return JournalVerdict((*lines[: counts["unlawful"]],), coverage, cut)

"""An extract of many instruments: each is judged by itself, on what its own day was opened with."""
import dataclasses
import functools
import multiprocessing
import os
from collections.abc import Iterator, Mapping, Sequence
from typing import BinaryIO

import numpy
import pandas

from callauction.program import ProgramError
from callauction.progress import Progress
from callauction.verdict import time_columns
from callauction.verdict.audited import FAULT, Audited, audited, instruments_frame
from callauction.verdict.audits import before, short_rows, verdict_on_rows
from callauction.verdict.cells import Codes, Ints, Mask, Source
from callauction.verdict.column_words import Columns
from callauction.verdict.columns import KINDS, ExtractError
from callauction.verdict.events import dropped_numbers, gaps_in, rows_of
from callauction.verdict.extract import columns_of, read_table
from callauction.verdict.file_ends import are_over
from callauction.verdict.findings import Verdict
from callauction.verdict.instrument_terms import TERMS, Days, Name, days_of, terms_of
from callauction.verdict.reading import Reading
from callauction.verdict.repeated_rows import Gap, find_holes, gaps_of, remark_of
from callauction.verdict.rows import BadRow, Doubt, Kind, Rows
from callauction.verdict.rules import Rules, SaidTerms
from callauction.verdict.table import Table

PARTS_A_WORKER = 4
"""How many parts of the instruments each worker is given, one after the other."""
FEW = 20_000
"""Rows that aren't worth another process."""


@dataclasses.dataclass(frozen=True)
class InstrumentTable:
    """The instruments of a table: the number of each row's instrument, below 0 where it has none,
    their names, and what the day of each was opened with (None where that isn't known, and why).
    """

    table: Table
    reading: Reading
    by: str
    codes: Codes
    names: tuple[str, ...]
    rules: Mapping[str, Rules | str]
    is_explained: bool = False

    @functools.cached_property
    def _lost(self) -> Ints:
        """The rows that have no instrument."""
        return numpy.flatnonzero(self.codes < 0)

    @functools.cached_property
    def _numbers(self) -> Ints:
        """The number of each row in a sequence, below 0 for none."""
        return Columns(self.table.source, self.table.names, self.reading).row_numbers()

    @functools.cached_property
    def _shared_gaps(self) -> list[Gap] | None:
        """The gaps of a sequence that the instruments share, each number of which is of one; none
        of books, and None where each has its own.
        """
        if not self.table.is_whole:
            return []
        known = numpy.flatnonzero((self._numbers >= 0) & (self.codes >= 0))
        keys: tuple[Ints, Ints] = self.codes[known].astype("i8"), self._numbers[known]
        codes, numbers = (it[numpy.lexsort(keys)] for it in keys)
        if ((numbers[1:] == numbers[:-1]) & (codes[1:] != codes[:-1])).any():
            return None
        return gaps_in(self.table, self.reading, self._numbers)

    @functools.cached_property
    def _dropped(self) -> Mapping[str, Ints]:
        """The numbers of each instrument's rows that don't meet all conditions."""
        dropped = self.table.dropped
        if dropped is None:
            return {}
        codes, names = _named(dropped, columns_of(self.by, dropped.names))
        [numbers] = dropped_numbers(self.table, self.reading)
        return {",".join(name): numbers[codes == code] for code, name in enumerate(names)}

    @functools.cached_property
    def _are_over(self) -> Mask:
        """Which instruments the file's end can't cut. Rows that are sorted may have any times."""
        table, time = self.table, None
        if "time" in table.names and not self.reading.sort:
            time = time_columns.nanoseconds(table.source.cells(table.names["time"]), table.dates)
        return are_over(self.codes, len(self.names), time)

    @property
    def remarks(self) -> Mapping[str, int]:
        """What was met in the file, and how often."""
        return {**self.table.notes, **remark_of(self._shared_gaps or [])}

    def one_by_one(self, workers: int | None, watch: Progress = iter) -> Iterator[Audited]:
        """The verdicts in the order of the names; first what belongs to no instrument."""
        if len(self._lost):
            many = len(self._lost)
            why = f"{many:,} row{'s have' if many > 1 else ' has'} no {self.by}"
            yield Audited("", FAULT, fault=why, is_unread=True)
        for name in sorted({*self.rules} - {*self.names}):
            yield Audited(name, FAULT, fault="it is among the days, and no row is of it")
        order = sorted(range(len(self.names)), key=self.names.__getitem__)
        count = workers or os.cpu_count() or 1
        if count == 1 or len(order) < 2 or len(self.table.source) < FEW:
            for number in watch(order):
                yield from self.part([number])
            return
        size = -(-len(order) // (PARTS_A_WORKER * count))
        parts = [order[begin : begin + size] for begin in range(0, len(order), size)]
        _FORKED_TABLES.append(self)
        _ = self._shared_gaps, self._dropped, self._are_over  # once for all processes
        try:
            with multiprocessing.get_context("fork").Pool(count) as pool:
                found = pool.imap(_part, parts)
                for _ in watch(parts):
                    yield from next(found)
        finally:
            _FORKED_TABLES.pop()

    def part(self, numbers: list[int]) -> list[Audited]:
        """The verdicts on instruments, whose rows are read at once, or else each by itself."""
        try:
            return [*map(self._audited, numbers, self._rows_of(numbers))]
        except ExtractError as fault:
            if len(numbers) == 1:
                return [Audited(self.names[numbers[0]], FAULT, fault=str(fault), is_unread=True)]
            return [each for number in numbers for each in self.part([number])]

    def _rows_of(self, numbers: list[int]) -> list[Rows]:
        """The rows of each of some instruments. Raises ExtractError."""
        wanted = numpy.full(len(self.names) + 1, -1, "i4")
        wanted[numbers] = numpy.arange(len(numbers))
        mine = wanted[self.codes]
        these = numpy.flatnonzero(mine >= 0)
        given = {
            price
            for number in numbers
            if isinstance(rules := self._rules(number), Rules)
            for price in rules.prices
        }
        rows = rows_of(self.table.take(these), self.reading, given, mine[these])
        ends = numpy.searchsorted(numpy.sort(mine[these]), numpy.arange(len(numbers) + 1))
        return [rows.take(int(begin), int(end)) for begin, end in zip(ends, ends[1:])]

    def verdict(self, name: str) -> Verdict:
        """The verdict on an instrument that can be judged."""
        rules = self.rules[name]
        assert isinstance(rules, Rules)
        return self._judged(name, self._rows_of([self.names.index(name)])[0], rules)

    def _judged(self, name: str, rows: Rows, rules: Rules) -> Verdict:
        rows.bad += short_rows(self.table, rows, self.reading)
        rows.bad += self._lost_rows(rows)
        if rows.end is not None and self._are_over[self.names.index(name)]:
            rows.end = None
        gaps = self._shared_gaps
        if gaps is None:
            own = self._dropped.get(name)
            gaps = gaps_of(rows.number, *([] if own is None else [own]))
            rows.notes.update(remark_of(gaps))
        find_holes(rows, gaps)
        return verdict_on_rows(rows, rules)

    def _rules(self, number: int) -> Rules | str:
        return self.rules.get(self.names[number], "it isn't among the days")

    def _audited(self, number: int, rows: Rows) -> Audited:
        """The verdict on the rows of an instrument."""
        name, rules = self.names[number], self._rules(number)
        if isinstance(rules, str):
            return Audited(name, FAULT, fault=rules)
        try:
            return audited(name, self._judged(name, rows, rules), self.is_explained)
        except (ValueError, ProgramError) as fault:
            is_unread = isinstance(fault, ExtractError)
            return Audited(name, FAULT, fault=str(fault), is_unread=is_unread)

    def _lost_rows(self, rows: Rows) -> list[BadRow]:
        """The rows without an instrument, which may be of this one: the first of each doubt."""
        lost = self._lost
        if not len(lost):
            return []
        columns = Columns(self.table.source.take(lost), self.table.names, self.reading)
        kinds = columns.words("event", KINDS)
        found = []
        parts = {
            Doubt.ANY: kinds < 0, Doubt.TRADES: (kinds == Kind.TRADE) | (kinds == Kind.FILL),
            Doubt.BUST: kinds == Kind.BUST, Doubt.BOOKS: (kinds >= 0) & (kinds < Kind.TRADE),
        }  # fmt: skip
        for doubt, which in parts.items():
            those = lost[which]
            if len(those):
                label = self.table.source.labels[those[0]]
                more = f", as {len(those) - 1:,} others have none" if len(those) > 1 else ""
                at = int(label) if isinstance(label, numpy.integer) else label
                since = before(at, rows, self.reading)
                found.append(BadRow(-1, label, f"it has no {self.by}{more}", doubt, since))
        return found


_FORKED_TABLES: list[InstrumentTable] = []
"""What the processes that are forked work on: its cells are in memory that all share."""


def _part(numbers: list[int]) -> list[Audited]:
    return _FORKED_TABLES[-1].part(numbers)


def _named(source: Source, columns: Sequence[str]) -> tuple[Codes, list[Name]]:
    """The number of each row's instrument, below 0 where a column has none, and their names."""
    codes, texts = source.cells(columns[0]).texts()
    names: list[Name] = [(text,) for text in texts]
    for column in columns[1:]:
        more, texts = source.cells(column).texts()
        both = codes.astype("i8") * (len(texts) + 1) + more
        both[(codes < 0) | (more < 0)] = -1
        known, places = numpy.unique(both, return_inverse=True)
        known, places = known[known >= 0], places - int((known < 0).sum())
        pairs = (divmod(int(it), len(texts) + 1) for it in known)
        codes, names = places.astype("i4"), [(*names[one], texts[two]) for one, two in pairs]
    return codes, names


def instrument_table_of(
    table: Table, reading: Reading, by: str, days: Days, terms: Mapping[str, object]
) -> InstrumentTable:
    """The instruments of a table; `terms` is what holds where their days say nothing else."""
    columns = columns_of(by, table.source.names)
    codes, names = _named(table.source, columns)
    of_days = [place for place, column in enumerate(columns) if column in days.columns]
    keys = {name: tuple(name[place] for place in of_days) for name in names}
    given = {name: days.terms.get(key, {}) for name, key in keys.items()}
    given |= {key: days.terms[key] for key in days.terms if key not in keys.values()}
    rules: dict[str, Rules | str] = {}
    for name, own in given.items():
        text = ",".join(name)
        try:
            of_day = terms_of({**terms, **own}, reading)
            rules[text] = SaidTerms(**of_day).rules(reading.quantity)
        except ValueError as fault:
            rules[text] = str(fault)
    return InstrumentTable(table, reading, by, codes, tuple(map(",".join, names)), rules)


def audit_instruments(
    source: pandas.DataFrame | str | os.PathLike[str] | BinaryIO,
    by: str,
    *,
    days: pandas.DataFrame | str | os.PathLike[str] | None = None,
    reading: Reading = Reading(),
    workers: int | None = None,
    **terms: object,
) -> pandas.DataFrame:
    """The verdicts on an extract of many instruments: a row for each (INSTRUMENT_COLUMNS), in the
    order of their names. `by` is the column of the instruments, or several that are parted by
    commas, `days` a table with a row for each, of that column and those of TERMS; `terms` are those
    of all that the days don't have. An instrument that can't be judged is a row with its fault.
    `workers` is how many are judged at a time, as many as there are processors where it is None.
    Raises ColumnError and ExtractError for a table of another form, and OSError.
    """
    strange = [name for name in terms if name not in TERMS]
    if strange:
        raise TypeError(f"there is no argument {strange[0]}; there are {', '.join(TERMS)}")
    table = read_table(source, reading, by)
    instruments = instrument_table_of(table, reading, by, days_of(days, by), terms)
    return instruments_frame(each.row() for each in instruments.one_by_one(workers))

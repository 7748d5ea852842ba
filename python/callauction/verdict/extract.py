"""How a file or a frame becomes a table of the columns of verdict.columns: see read_table."""
import dataclasses
import os
import re
from collections import Counter
from collections.abc import Collection, Mapping
from typing import BinaryIO

import numpy
import pandas

from callauction.verdict import conditions, fix, time_columns
from callauction.verdict.cells import (
    Codes, Mask, Short, Source, by_kind, frame_source, with_joined_columns,
)  # fmt: skip
from callauction.verdict.columns import (
    EMPTY, EVENT_COLUMNS, EVENTS, KINDS, NEEDED, ColumnError, ExtractError, hint_of, joins_of,
    kinds_of, names_of_columns, plain, refuse_unknown,
)  # fmt: skip
from callauction.verdict.extract_files import file_of, without_totals
from callauction.verdict.reading import Reading
from callauction.verdict.table import Table

_NEW, _UNCROSS = EVENTS.index("new"), EVENTS.index("uncross")
"""The event that enters an order, and the first one that isn't of an order."""
_OF_ORDERS, _LONGEST_WORD = {"order", "side"}, max(map(len, EMPTY))
"""Needed columns that results may lack, and how long a word for an empty cell is."""
_IN_ONE_FILE = (
    "the rows of orders, new, replace and cancel, have it: they must be in the file of the trades "
    "and results"
)
LEFT_OUT = "trades, fills and results that don't meet --where"
TOO_EARLY = "orders entered before the time of --where (what of them stands is in no book)"
_INSTRUMENT = re.compile(
    r"(?:financial)?(?:isin|instrument|security|symbol|wkn|wertpapier|ticker|sedol|cusip|ric)+"
    r"(?:id|code|name|identifier|identificationcode)?"
)
"""The names of columns that say which instrument a row is of, in small letters without signs."""


def read_table(
    source: pandas.DataFrame | str | os.PathLike[str] | BinaryIO,
    reading: Reading = Reading(),
    by: str | None = None,
) -> Table:
    """The table of a frame or of a CSV file, which may be compressed by gzip; `by` is a column of
    theirs that stays, or several, parted by commas. Raises ColumnError for an unknown, a double or
    a missing column, ConditionError for a condition that is none, ExtractError for a file that is
    none of this form, ValueError for a name of ours or an encoding that isn't known, and OSError.
    """
    table, columns = _opened(source, reading)
    table, asked = _named(table, columns, reading, by)
    met = conditions.rows_meeting(table.source, asked, reading)
    is_early = conditions.rows_too_early(table.source, asked, table.names, reading, met)
    found, names = _with_kinds(table.source, table.names, reading)
    _refuse_empty(found, names, reading, table.short)
    table = dataclasses.replace(table, source=found, names=names)
    table, met = _without_last_totals(table, met, reading)
    table = _parted(_timed(table, reading), met)
    if by is None:
        _refuse_several(table.source, columns, reading.format == "fix")
    return _noted(table, is_early, reading)


def _opened(
    source: pandas.DataFrame | str | os.PathLike[str] | BinaryIO, reading: Reading
) -> tuple[Table, list[str]]:
    """The whole table of a frame or of a file, and the names of its columns. Raises ColumnError for
    a double one, ExtractError and OSError.
    """
    if isinstance(source, pandas.DataFrame):
        table, columns = Table(frame_source(source)), [*map(str, source.columns)]
    else:
        table = file_of(source, reading)
        columns = [*table.source.names]
    twice = next((name for name in columns if name and columns.count(name) > 1), None)
    if twice is not None:
        raise ColumnError(f"the table has the column {twice!r} twice")
    return table, columns


def _named(
    table: Table, columns: list[str], reading: Reading, by: str | None
) -> tuple[Table, list[conditions.Condition]]:
    """The table with columns that are joined and by our names its own, and the conditions that its
    rows are to meet. Raises ColumnError and ConditionError.
    """
    joins = joins_of(reading.columns, columns)
    found = with_joined_columns(table.source, joins)
    keys = columns_of(by, columns)
    asked = [conditions.condition_of(text, columns) for text in reading.where]
    used = {condition.name for condition in asked} | {*keys, *filter(None, [reading.pair])}
    parts = {part for those in joins.values() for part in those}
    names = _names(found, reading, used | parts, parts)
    return dataclasses.replace(table, source=found, names=names), asked


def _without_last_totals(table: Table, met: Mask, reading: Reading) -> tuple[Table, Mask]:
    """The table, and which of its rows meet all conditions, without a last row of totals, which has
    none of our events.
    """
    found, last = table.source, len(table.source) - 1
    if table.totals is None or last < 0 or table.totals != found.labels[last]:
        return table, met
    if _kinds(found.take(numpy.array([last])), table.names["event"], reading)[0] >= 0:
        return table, met
    keep = numpy.arange(last)
    table = dataclasses.replace(without_totals(table, table.totals), source=found.take(keep))
    return table, met[keep]


def _timed(table: Table, reading: Reading) -> Table:
    """The table with what its dates are, and the time of its end."""
    found, theirs = table.source, table.names.get("time")
    dates: str = reading.dates
    if theirs is not None and not dates:
        dates = time_columns.dates_of(found.cells(theirs))
    end = table.end
    if end is not None and theirs is not None and len(found):
        end = end._replace(time=found.cells(theirs).text(len(found) - 1))
    return dataclasses.replace(table, dates=dates, end=end)


def _parted(table: Table, met: Mask) -> Table:
    """The table, whose rows that don't meet all conditions are dropped."""
    if met.all():
        return table
    kept, dropped = (table.source.take(numpy.flatnonzero(it)) for it in (met, ~met))
    return dataclasses.replace(table, source=kept, dropped=dropped)


def _noted(table: Table, is_early: Mask, reading: Reading) -> Table:
    """The table with notes on the rows that are dropped, of which some are just too early."""
    notes = Counter(table.notes)
    if table.dropped is not None:
        kinds = _kinds(table.dropped, table.names["event"], reading)
        notes[LEFT_OUT] = int((kinds >= _UNCROSS).sum())
        notes[TOO_EARLY] = int((kinds[is_early] == _NEW).sum())
    return dataclasses.replace(table, notes=+notes)


def _refuse_several(source: Source, columns: Collection[str], has_tags: bool) -> None:
    """Raises ExtractError where a column has several instruments, and none has one for all rows."""
    several = ""
    for name in filter(lambda it: _INSTRUMENT.fullmatch(plain(it)), columns):
        codes, texts = source.cells(name).texts()
        count = len({text.casefold() for text in texts})
        if count == 1 and (codes >= 0).all():
            return
        if count > 1 and not several:
            tag = f" ({fix.TAGS[name]})" if has_tags and name in fix.TAGS else ""
            several = (
                f"{name}{tag} has {count:,} values, such as {texts[0]} and {texts[1]}: say "
                f"--by {name}, or keep one by --where '{name} == {texts[0]}'"
            )
    if several:
        raise ExtractError(several)


def columns_of(by: str | None, columns: Collection[str]) -> tuple[str, ...]:
    """The columns that `by` names. Raises ColumnError where one isn't there."""
    names = (by,) if by is None or by in columns else by.split(",")
    found = tuple(name for name in names if name is not None)
    missing = [name for name in found if name not in columns]
    if missing:
        raise ColumnError(f"the table has no column {missing[0]!r}{hint_of(missing[0], columns)}")
    return found


def _names(source: Source, reading: Reading, used: set[str], parts: set[str]) -> dict[str, str]:
    """By our name of each column that is read the table's own. Raises ColumnError. `used` are
    theirs that need no name of ours; one of `parts` isn't read where another is mapped to its name.
    """
    mapped, kinds = names_of_columns(source.names, reading.columns), kinds_of(reading.columns)
    used = used | {name for those in kinds.values() for name in those.values()}
    if reading.pair and reading.pair not in source.names:
        raise ColumnError(f"pair: the table has no column {reading.pair!r}")
    passed = [name for name in source.names if name not in mapped and name not in EVENT_COLUMNS]
    strange = (name for name in passed if name not in used and not _is_blank(source, name))
    refuse_unknown(strange, (*EVENT_COLUMNS,), reading.ignore)
    found: dict[str, str] = {}
    for theirs in source.names:
        ours = mapped.get(theirs, theirs)
        if theirs in parts and theirs not in mapped and ours in mapped.values():
            continue
        if ours in found:
            raise ColumnError(f"two columns of the table are {ours}: map one, or ignore the other")
        if ours in EVENT_COLUMNS:
            found[ours] = theirs
    _refuse_missing([name for name in NEEDED if name not in found and name not in kinds])
    return found


def _refuse_missing(names: list[str]) -> None:
    """Raises ColumnError for needed columns that the table hasn't, if there are any."""
    if names:
        more = "" if _OF_ORDERS.isdisjoint(names) else f" ({_IN_ONE_FILE})"
        raise ColumnError(
            f"the table has no column {', '.join(names)}{more}: say which it is, such as "
            f"columns {names[0]}=THEIRS"
        )


def _refuse_empty(
    source: Source, names: Mapping[str, str], reading: Reading, short: Short
) -> None:
    """Raises ColumnError for needed columns that no row of a table with trades or fills has, and
    ExtractError where rows of orders may have them, which have fewer fields.
    """
    cells = {name: source.cells(names[name]) for name in NEEDED}
    those = (name for name, it in cells.items() if it.length.max(initial=0) <= _LONGEST_WORD)
    empty = [name for name in those if {it.casefold() for it in cells[name].texts()[1]} <= {*EMPTY}]
    if empty and (_kinds(source, names["event"], reading) > _UNCROSS).any():
        if short:
            row, why = short[0]
            raise ExtractError(
                f"no whole row has {', '.join(empty)}, and {len(short):,} rows have another number "
                f"of fields than the header, such as row {row}, which {why}: write a field for "
                "each column, empty ones too"
            )
        _refuse_missing(empty)


def _with_kinds(
    source: Source, names: Mapping[str, str], reading: Reading
) -> tuple[Source, Mapping[str, str]]:
    """The rows with a column for each of ours that is another one for some kinds of rows."""
    of_kinds = kinds_of(reading.columns)
    if not of_kinds:
        return source, names
    kind, made, all_names = _kinds(source, names["event"], reading), {}, dict(names)
    for ours, theirs in of_kinds.items():
        other = names.get(ours, "")
        name = "; ".join(filter(None, [other, *(f"{it} {theirs[it] or 'none'}" for it in theirs)]))
        numbers = {EVENTS.index(it): theirs[it] for it in theirs}
        made[name] = by_kind(source, kind, numbers, other)
        all_names[ours] = name
    columns = (*source.names, *made)
    return Source(columns, source.labels, made, source), all_names


def _kinds(source: Source, theirs: str, reading: Reading) -> Codes:
    """Each row's place in EVENTS, below 0 for another event; `theirs` is its column's name."""
    codes, texts = source.cells(theirs).texts()
    words = reading.values.get("event", {})
    found = [KINDS.get(words.get(text, text).casefold(), -len(EVENTS)) for text in texts]
    return numpy.array([*found, -len(EVENTS)], "i4")[codes]


def _is_blank(source: Source, name: str) -> bool:
    """Whether a column has no name and no cells, or numbers of rows alone, as pandas writes."""
    if name:
        return False
    texts = source.cells(name).texts()[1]
    return not texts or texts == [str(int(texts[0]) + at) if texts[0].isdecimal() else ""
                                  for at in range(len(source))]  # fmt: skip

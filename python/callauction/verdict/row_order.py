"""In which order the rows of an extract are, by their instruments, times and sequence, and of which
rows nothing says it.
"""
import itertools

import numpy

from callauction.verdict import time_columns, times
from callauction.verdict.cells import Codes, Ints, Mask, numbered, paired_codes
from callauction.verdict.column_words import Columns
from callauction.verdict.columns import KINDS, ExtractError
from callauction.verdict.reading import Reading
from callauction.verdict.rows import OF_ORDERS, Int8s, Kind
from callauction.verdict.table import Table

FEW_UNTIMED = 10
"""Of how many rows that are sorted one may have no time that can be read."""


def ordered(
    table: Table, reading: Reading, instrument: Codes | None
) -> tuple[Columns, Ints, Ints]:
    """The columns with the rows in their order: by instrument, and by time, sequence and place
    where that is asked; which rows these are; and their times. A row without a time stays after the
    one above it.
    """
    instruments = numpy.zeros(len(table.source), "i4") if instrument is None else instrument
    order: Ints = numpy.argsort(instruments, kind="stable")
    columns, time = _timed(table, order, reading)
    if reading.sort:
        _refuse_unread(columns, time)
        _refuse_forms(columns, instruments[order])
        known = numpy.where(time != time_columns.NO_TIME, numpy.arange(len(time)), 0)
        sequence = columns.sequence()
        time = over_midnight(time, sequence, instruments[order])
        keys = (time[numpy.maximum.accumulate(known)], instruments[order])
        again = numpy.lexsort(keys if sequence is None else (sequence, *keys))
        _refuse_untimed(columns, time, are_moved(again, instruments[order]))
        order, time = order[again], time[again]
        columns, _ = _timed(table, order, reading)
    elif "sequence" in table.names and _falls(time):
        time = over_midnight(time, columns.sequence(), instruments[order])
    return columns, order, time


def _timed(table: Table, order: Ints, reading: Reading) -> tuple[Columns, Ints]:
    """The columns of some rows, and the rows' times."""
    is_whole = len(order) == len(table.source) and not (order[1:] < order[:-1]).any()
    source = table.source if is_whole else table.source.take(order)
    columns = Columns(source, table.names, reading)
    if "time" not in table.names:
        return columns, numpy.full(len(order), time_columns.NO_TIME, "i8")
    return columns, time_columns.nanoseconds(columns.cells("time"), table.dates)


def _falls(time: Ints) -> bool:
    """Whether a time is below the one above it by more than LONGEST_SESSION."""
    timed = time[time != time_columns.NO_TIME]
    return bool((numpy.diff(timed) < -time_columns.LONGEST_SESSION).any())


def over_midnight(time: Ints, sequence: Ints | None, instruments: Codes) -> Ints:
    """The times, those of an instrument a day later that go on in its sequence, or among its rows,
    behind one that is later by more than LONGEST_SESSION: once, as a session goes on over midnight.
    Dates say it themselves.
    """
    timed = numpy.flatnonzero(time != time_columns.NO_TIME)
    is_known = sequence is None or (sequence[timed] >= 0).all()
    if (time[timed] >= time_columns.DAY).any() or not is_known:
        return time
    ranks = () if sequence is None else (sequence[timed],)
    timed = timed[numpy.lexsort((timed, *ranks, instruments[timed]))]
    falls = numpy.flatnonzero(numpy.diff(time[timed]) < -time_columns.LONGEST_SESSION)
    above, below = instruments[timed[falls]], instruments[timed[falls + 1]]
    found = time.copy()
    for number in numpy.unique(above).tolist():
        ends = falls[(above == number) & (below == number)]
        if len(ends) == 1:
            behind = timed[int(ends[0]) + 1 :]
            found[behind[instruments[behind] == number]] += time_columns.DAY
    return found


def _refuse_unread(columns: Columns, time: Ints) -> None:
    """Raises ExtractError where more than a few times can't be read by which rows are sorted."""
    is_unread = (time == time_columns.NO_TIME) & has_cells(columns, "time")
    kinds = columns.words("event", KINDS)
    unread = numpy.flatnonzero(is_unread & (has_cells(columns, "order") | (kinds > Kind.CANCEL)))
    if len(unread) > len(time) // FEW_UNTIMED:
        first = int(unread[0])
        cell, label = columns.cells("time").text(first), columns.source.labels[first]
        hint = " (say --dates dmy or mdy)" * times.is_stroked(times.date_text(cell))
        many = f"{len(unread):,} times can't be read to sort rows"
        raise ExtractError(f"{many}, such as {cell!r} in row {label}{hint}")


def are_moved(order: Ints, instruments: Codes) -> Mask:
    """Which rows are of an instrument whose rows are in another order than in the table."""
    falls = (order[1:] < order[:-1]) & (instruments[1:] == instruments[:-1])
    return numpy.isin(instruments, instruments[1:][falls])


def untimed_rows(columns: Columns, time: Ints, which: Mask) -> Ints:
    """The places of those of some rows that have no time, and would have a place by one."""
    kinds = columns.words("event", KINDS)
    is_order = (kinds >= Kind.NEW) & (kinds <= Kind.CANCEL) & has_cells(columns, "order")
    is_trade = ((kinds == Kind.TRADE) | (kinds == Kind.FILL)) & ~has_cells(columns, "auction")
    is_due = is_order | is_trade | (kinds == Kind.UNCROSS)
    return numpy.flatnonzero((time == time_columns.NO_TIME) & is_due & which)


def blank_orders(kind: Int8s, time: Ints) -> Mask:
    """Which rows of orders have no time where most of their event's rows have one: where they
    belong isn't sure, as a file may have such rows first or last.
    """
    is_blank = time == time_columns.NO_TIME
    found = numpy.zeros(len(time), bool)
    for event in OF_ORDERS:
        own = kind == event
        if numpy.count_nonzero(is_blank & own) < numpy.count_nonzero(own) / 2:
            found |= is_blank & own
    return found


def _refuse_untimed(columns: Columns, time: Ints, which: Mask) -> None:
    """Raises ExtractError where more than a few of these rows, which are sorted, have no time."""
    if "time" not in columns.names:
        return
    untimed = untimed_rows(columns, time, which)
    if len(untimed) > len(time) // FEW_UNTIMED:
        label = columns.source.labels[untimed[0]]
        raise ExtractError(
            f"sort: {len(untimed):,} rows have no time, such as row {label}, so that nothing says "
            "where they belong"
        )


def _refuse_forms(columns: Columns, instruments: Codes) -> None:
    """Raises ExtractError where an instrument's times have dates or zones, and others none, so
    nothing says which is first.
    """
    if "time" not in columns.names:
        return
    cells = columns.cells("time")
    codes, first = cells.layouts()
    texts = [cells.text(int(row)) for row in first]
    forms = [times.form_of_time(text) for text in texts]
    known = {it: place for place, it in enumerate(filter(None, dict.fromkeys(forms)))}
    if len(known) < 2:
        return
    own = numpy.array([*(known.get(it, -1) if it else -1 for it in forms), -1])[codes]
    for one, other in itertools.combinations(range(len(known)), 2):
        both = numpy.intersect1d(instruments[own == one], instruments[own == other])
        if len(both):
            is_own = instruments == both[0]
            rows = [int((is_own & (own == it)).argmax()) for it in (one, other)]
            labels = " and ".join(str(columns.source.labels[row]) for row in rows)
            shown = " and ".join(repr(cells.text(row)) for row in rows)
            raise ExtractError(
                f"sort: rows {labels} have times of two forms, {shown}: write all in one, each "
                "with a date and a zone, or none"
            )


def slack_of(columns: Columns, kind: Int8s) -> int:
    """The step of the times of results where those of orders have a finer one, else 0."""
    cells = columns.cells("time")
    codes, first = cells.layouts()
    steps = [times.step_of(cells.text(int(row))) for row in first]
    of_rows = numpy.array([*steps, 0], "i8")[codes]
    own, due = (
        int(of_rows[(kind >= least) & (kind <= most) & (codes >= 0)].min(initial=time_columns.DAY))
        for least, most in ((Kind.UNCROSS, Kind.UNCROSS), (Kind.NEW, Kind.CANCEL))
    )
    return own if due < own < time_columns.DAY else 0


def groups_of(time: Ints, sequence: Ints | None, instruments: Codes) -> Ints:
    """Equal numbers for rows of one instrument, time and sequence, or time alone where sequences
    fall or some have none; numbers of their own for rows without a time.
    """
    found = paired_codes(instruments, numbered(time))
    if sequence is not None:
        order = numpy.argsort(found, kind="stable")
        one, two = order[:-1], order[1:]
        is_unknown = (sequence[two] < sequence[one]) | (sequence[one] < 0)
        falls = found[one[(found[one] == found[two]) & is_unknown]]
        found = paired_codes(found, numpy.where(numpy.isin(found, falls), 0, sequence + 1))
    own = time == time_columns.NO_TIME
    found[own] = len(time) + numpy.flatnonzero(own)
    return numbered(found)


def has_cells(columns: Columns, name: str) -> Mask:
    """Which rows have a cell of this column."""
    if name not in columns.names:
        return numpy.zeros(len(columns.source), bool)
    return columns.cells(name).length > 0

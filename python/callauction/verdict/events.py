"""The events of an extract: the columns of a table become rows, bad ones are listed."""
import dataclasses
from collections.abc import Iterable, Iterator, Mapping
from decimal import Decimal

import numpy
import pandas

from callauction.verdict import time_columns, times
from callauction.verdict.cells import Cells, Codes, Ints, Mask, paired_codes
from callauction.verdict.column_words import (
    AUCTION_NUMBERS, KEPT_NUMBERS, RESTRICTION_NUMBERS, SURPLUS_SIDE_NUMBERS, Columns,
)  # fmt: skip
from callauction.verdict.columns import KINDS
from callauction.verdict.joining import join_sides, take_busted
from callauction.verdict.order_keys import below_their_entries, make_keys
from callauction.verdict.reading import Reading
from callauction.verdict.repeated_rows import (
    Gap, drop_sent_again, drop_sides_again, find_holes, gaps_of, remark_of,
)  # fmt: skip
from callauction.verdict.row_order import (
    are_moved, blank_orders, groups_of, has_cells, ordered, slack_of, untimed_rows,
)  # fmt: skip
from callauction.verdict.rows import SIDES, CellCode, Int8s, Kind, Names, PriceCode, Rows
from callauction.verdict.table import Table
from callauction.verdict.unread_ids import look_for_given
from callauction.verdict.unread_rows import look_at_executions, look_at_orders, look_at_results

_NUMBERS = ("price", "quantity", "peak", "surplus", "trades", "volume")
WORDS = ("event", "side", "auction", "restriction")
IDS = ("order", "new_order", "bid", "ask")
UNREAD_TIMES = "times that can't be read"
UNTIMED = "rows without a time, which nothing says where to sort"
BLANK = "rows of orders without a time, which count by their place"
UNSURE_DATES = (
    "dates of which it isn't known which number is the month (--dates dmy or mdy says it)"
)
PEAKS = "peaks that the rules would refuse, left out: they decide nothing"


def rows_of(
    table: Table, reading: Reading, given: Iterable[Decimal], instrument: Codes | None = None
) -> Rows:
    """The rows of a table. `given` are prices beside those of the rows; `instrument` numbers the
    instrument of each row, in whose order the rows are then. Raises ExtractError.

    The order of the steps matters: the two sides of a trade are joined before trades are read,
    which need both; bad rows are those of the table before what was sent again is left out, and
    holes are looked for then; ids become keys of orders before anything is looked up by its order.
    """
    columns, order, time = ordered(table, reading, instrument)
    instruments = numpy.zeros(len(order), "i4") if instrument is None else instrument[order]
    sequence = columns.sequence()
    groups = groups_of(time, sequence, instruments)
    rows, is_market = _read(columns, table, given, time, groups, instruments)
    rows.spots = order
    rows.is_unsaid = "restriction" not in table.names and not reading.unrestricted
    kind = rows.kind.copy()  # by their words alone, whatever is wrong with them
    if reading.sort and "time" in columns.names:
        _look_at_times(rows, columns, kind, sequence is not None)
        rows.is_odd[untimed_rows(columns, time, are_moved(order, instruments))] = True
    rows.is_odd |= blank_orders(kind, time)
    look_at_orders(rows, columns, is_market)
    _join_two_sides(rows, columns, sequence, instruments)
    look_at_executions(rows, columns)
    look_at_results(rows, columns)
    _look_at_peaks(rows, columns)
    unread = _unread_ids(rows, kind)
    drop_sent_again(rows, columns, sequence, instruments)
    rows.number = columns.row_numbers()
    if instrument is None and table.is_whole:
        _look_for_holes(rows, table, reading)
    rows = below_their_entries(rows)
    make_keys(rows, unread)
    if "new_order" not in columns.names:
        look_for_given(rows, instruments)
    take_busted(rows)
    _note_odd_times(rows)
    return rows


def _look_at_times(rows: Rows, columns: Columns, kind: Int8s, has_sequence: bool) -> None:
    """Sets the step of the times of results where that of orders is finer, and says of times
    without a date that they may be the next day's.
    """
    rows.slack = slack_of(columns, kind)
    later = numpy.flatnonzero((rows.time >= time_columns.DAY) & (rows.time < time_columns.DATED))
    if len(later) and not has_sequence:
        first = columns.source.labels[later[0]]
        rows.next_day = f"the time of row {first} has no date: is it the next day's?"


def _join_two_sides(
    rows: Rows, columns: Columns, sequence: Ints | None, instruments: Codes
) -> None:
    """Joins the two rows that a trade has, by a column that pairs them where one is named."""
    pair = columns.reading.pair
    pairs = columns.source.cells(pair).codes()[0] if pair else None
    if pairs is not None and sequence is not None:
        drop_sides_again(rows, columns, sequence, instruments)
    join_sides(rows, pairs, instruments)


def _look_at_peaks(rows: Rows, columns: Columns) -> None:
    """Sets which orders are icebergs, and notes the peaks that the rules would refuse."""
    rows.is_iceberg = numpy.zeros(len(rows.kind), bool)
    if "peak" in columns.names:
        peak = columns.wholes("peak")
        rows.is_iceberg = (peak > 0) & (peak < rows.quantity) & (rows.kind == Kind.NEW)
        odd = (peak <= 0) | (peak > rows.quantity) | (rows.price == PriceCode.MARKET)
        rows.notes[PEAKS] += int((odd & (peak != CellCode.MISSING) & (rows.kind == Kind.NEW)).sum())


def _unread_ids(rows: Rows, kind: Int8s) -> Codes:
    """The ids in bad rows that may enter an order: of this kind, or of none that is known."""
    unread = numpy.array([it.place for it in rows.bad], "i8")
    is_new = (kind[unread] < 0) | (kind[unread] == Kind.NEW)
    found: Codes = numpy.concatenate([rows.key[unread[is_new]], rows.new_id[unread]])
    return found


def _look_for_holes(rows: Rows, table: Table, reading: Reading) -> None:
    """Finds which numbers of a table's rows are missing, and notes it."""
    gaps = gaps_in(table, reading, rows.number)
    find_holes(rows, gaps)
    rows.notes.update(remark_of(gaps))


def _note_odd_times(rows: Rows) -> None:
    """Notes the times that can't be read, and the rows without one that were sorted."""
    if not rows.is_odd.any():
        return
    odd = numpy.flatnonzero(rows.is_odd)
    codes, texts = rows.names.texts(odd, rows.names.theirs["time"])
    if (codes < 0).any():
        first = rows.labels[odd[codes < 0][0]]
        what = UNTIMED if rows.is_sorted else BLANK
        rows.notes[f"{what}, such as row {first}"] += int((codes < 0).sum())
    if texts:
        cell = texts[int(codes[codes >= 0][0])]
        rows.notes[f"{UNREAD_TIMES}, such as {cell!r}"] += int((codes >= 0).sum())
        rows.notes[UNSURE_DATES] += times.is_stroked(times.date_text(cell))


def dropped_numbers(table: Table, reading: Reading) -> list[Ints]:
    """The numbers in a sequence of rows that don't meet all conditions, where there are some."""
    if table.dropped is None:
        return []
    return [Columns(table.dropped, table.names, reading).row_numbers()]


def gaps_in(table: Table, reading: Reading, number: Ints) -> list[Gap]:
    """The gaps in the numbers of a table's rows; a log's messages of other kinds have some too."""
    dropped = dropped_numbers(table, reading)
    if table.others is None:
        return gaps_of(number, *dropped)
    return [it for it in gaps_of(number, *dropped, table.others) if not it.is_begin]


def _read(
    columns: Columns, table: Table, given: Iterable[Decimal], time: Ints, groups: Ints,
    instruments: Codes,
) -> tuple[Rows, Mask]:
    """The rows as they are in columns, and which have a word for a market order."""
    reading, none = columns.reading, numpy.full(len(time), CellCode.MISSING, "i4")
    price, prices, is_market = columns.prices(given)
    ids, first = _ids(columns, instruments)
    member, members = columns.texts("member")
    theirs = tuple(columns.names[name] for name in IDS if name in columns.names)
    names = Names(columns.source, first, theirs, members, table.names, dates=table.dates,
                  pair=reading.pair or "")  # fmt: skip
    bid_member, ask_member = (_members(columns, f"{it}_member", members) for it in SIDES[1:])
    rows = Rows(
        columns.source.labels, columns.words("event", KINDS), time, ids["order"],
        ids.get("new_order", none), columns.words("side", SURPLUS_SIDE_NUMBERS), price,
        columns.wholes("quantity"), columns.words("restriction", RESTRICTION_NUMBERS),
        columns.words("kept", KEPT_NUMBERS), columns.words("auction", AUCTION_NUMBERS),
        columns.wholes("surplus"), columns.wholes("trades"), ids.get("bid", none),
        ids.get("ask", none), bid_member, ask_member, member, groups, prices, names,
        bool(reading.market), (time == time_columns.NO_TIME) & has_cells(columns, "time"),
        dropped=_dropped(table, columns.names, reading),
        makes_results=reading.results == "trades", end=table.end,
    )  # fmt: skip
    return rows, is_market


def said_in(table: Table, reading: Reading) -> tuple[Int8s, Int8s, Int8s]:
    """The number of each row's event, below 0 for none, of the auction that it names, and of the
    one that its order is for alone.
    """
    words = Columns(table.source, table.names, reading).words
    restrictions = words("restriction", RESTRICTION_NUMBERS)
    return words("event", KINDS), words("auction", AUCTION_NUMBERS), restrictions


def orders_in_time(table: Table, reading: Reading) -> tuple[Ints, Ints]:
    """The places of rows `new` by time, sequence and place, and of others. Raises ExtractError."""
    is_new = Columns(table.source, table.names, reading).words("event", KINDS) == Kind.NEW
    orders, others = numpy.flatnonzero(is_new), numpy.flatnonzero(~is_new)
    if "time" in table.names:
        sorts = dataclasses.replace(reading, sort=True)
        orders = orders[ordered(table.take(orders), sorts, None)[1]]
    elif "sequence" in table.names:
        ranks = Columns(table.source.take(orders), table.names, reading).sequence()
        assert ranks is not None
        orders = orders[numpy.argsort(ranks, kind="stable")]
    return orders, others


def _ids(columns: Columns, instruments: Codes) -> tuple[dict[str, Codes], Ints]:
    """The number of each row's ids, which are an instrument's own, and where each id is first."""
    names = [name for name in IDS if name in columns.names]
    cells = [columns.cells(name) for name in names]
    joined = Cells(
        max((each.buffer for each in cells), key=len),
        numpy.stack([each.start for each in cells], 1).ravel(),
        numpy.stack([each.length for each in cells], 1).ravel(),
    )
    codes, first = joined.codes()
    if len(instruments) and instruments[-1]:
        filled = numpy.flatnonzero(codes >= 0)
        own = paired_codes(numpy.repeat(instruments, len(names))[filled], codes[filled])
        codes[filled] = own
        first = filled[numpy.unique(own, return_index=True)[1]] if len(own) else first
    found = dict(zip(names, codes.reshape(-1, len(names)).T.copy()))
    return found, first


def _members(columns: Columns, name: str, known: list[str]) -> Codes:
    """The number of each row's member, CellCode.BAD for one who has no order."""
    numbers = {member: place for place, member in enumerate(known)}
    codes, texts = columns.texts(name)
    found = [numbers.get(text, CellCode.BAD) for text in texts]
    return numpy.array([*found, CellCode.MISSING], "i4")[codes]


def _dropped(table: Table, names: Mapping[str, str], reading: Reading) -> frozenset[str]:
    """The ids of orders in trades and fills that don't meet the conditions."""
    if table.dropped is None:
        return frozenset()
    columns = Columns(table.dropped, names, reading)
    kinds = columns.words("event", KINDS)
    these = numpy.flatnonzero((kinds == Kind.TRADE) | (kinds == Kind.FILL))
    found = Columns(table.dropped.take(these), names, reading)
    return frozenset(text for name in ("order", "bid", "ask") for text in found.texts(name)[1])


# ---- frames of our words


def plain_frame(table: Table, reading: Reading = Reading()) -> pandas.DataFrame:
    """A table's rows in our words and plain numbers, in their order, so that no sequence is left;
    None for what is missing, or market.
    """
    columns, _, _ = ordered(table, reading, None)
    found = {}
    for name in (name for name in columns.names if name != "sequence"):
        codes, texts = columns.texts(name)
        found[name] = numpy.array([*_plain(columns, name, texts), None], "object")[codes]
    return pandas.DataFrame(found, columns.source.labels, dtype="object")


def _plain(columns: Columns, name: str, texts: list[str]) -> Iterator[object]:
    """The texts of a column in our words and plain numbers."""
    for text in texts:
        if name == "price" and columns._is_market(text, columns.decimal(text)):
            yield None
        elif name in _NUMBERS:
            yield columns.reading.plain(text)
        elif name == "kept" and text.casefold() in KEPT_NUMBERS:
            yield bool(KEPT_NUMBERS[text.casefold()])
        else:
            yield text.casefold() if name in WORDS else text

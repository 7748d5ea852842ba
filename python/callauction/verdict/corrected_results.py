"""Results that others of their auction correct or complete, in rows of their own."""
import dataclasses
from collections.abc import Sequence

import numpy

from callauction.verdict import time_columns
from callauction.verdict.cells import Ints
from callauction.verdict.rows import (
    OF_ORDERS, SAID, AuctionCode, BadRow, CellCode, Doubt, Kind, PriceCode, Rows,
)  # fmt: skip
from callauction.words import AUCTIONS



def results_of(rows: Rows) -> Ints:
    """The rows uncross that publish something of an auction that ended."""
    says = (rows.price != PriceCode.UNSAID) | (rows.quantity >= 0)
    is_over = (rows.kind == Kind.UNCROSS) & (rows.auction != AuctionCode.INTERRUPTED)
    return numpy.flatnonzero(is_over & says)


def ends_of(rows: Rows) -> Ints:
    """The rows uncross that aren't recorded as interruptions."""
    is_stop = rows.auction == AuctionCode.INTERRUPTED
    return numpy.flatnonzero((rows.kind == Kind.UNCROSS) & ~is_stop)


def has_more(rows: Rows, due: Sequence[int]) -> bool:
    """Whether there are more results than auctions, also such that say nothing."""
    is_over = (rows.kind == Kind.UNCROSS) & (rows.auction != AuctionCode.INTERRUPTED)
    return int(is_over.sum()) > len(due)


def corrected(rows: Rows, due: Sequence[int]) -> Rows:
    """The rows with the last result of each auction that has several, in with_last's place."""
    for number, those in doubled(rows, due).items():
        rows = with_last(rows, those, number)
    return rows


def doubled(rows: Rows, due: Sequence[int]) -> dict[int, Ints]:
    """By its number the results of an auction that has several."""
    results = results_of(rows)
    names = rows.auction[results] - 1
    names[(names < 0) & (len(due) == 1)] = due[0]
    those = {it: results[names == it] for it in due if due.count(it) == 1}
    return {it: own for it, own in those.items() if len(own) > 1}


def with_late_results(rows: Rows, due: Sequence[int]) -> Rows | None:
    """The rows with the results below all orders that are of an earlier time than one above, but
    the next day's, or that without a name say one other thing alone than a result above the last
    one, where that time is, or with that result; None where there are none.
    """
    results, key = results_of(rows), numpy.arange(len(rows.kind), dtype="f8")
    rows = dataclasses.replace(rows, time=rows.time.copy(), group=rows.group.copy())
    is_more, last = has_more(rows, due), rows.of(*OF_ORDERS).max(initial=-1)
    for place in results[results > last].tolist():
        above, time = results[results < place], rows.time[place]
        latest = rows.time[above].max(initial=time_columns.NO_TIME)
        if time_columns.NO_TIME < time < latest <= time + time_columns.LONGEST_SESSION:
            key[place] = numpy.flatnonzero(rows.time > time)[0] - 0.5
        elif is_more and rows.auction[place] <= 0 and time not in rows.time[above]:
            own = above[:-1][others_said(rows, above[:-1], place) == 1]
            if len(own) == 1:
                key[place] = own[0] + 0.5
                rows.time[place], rows.group[place] = rows.time[own[0]], rows.group[own[0]]
    order = numpy.argsort(key, kind="stable")
    return rows.ordered(order) if (key % 1).any() else None


def others_said(rows: Rows, one: Ints, other: Ints | int) -> Ints:
    """In how many things results that say them differ."""
    said = numpy.array([getattr(rows, name) for name in SAID])
    own, others = said[:, one], said[:, other].reshape(len(SAID), -1)
    is_said = (own != CellCode.MISSING) & (others != CellCode.MISSING)
    found: Ints = (is_said & (own != others)).sum(axis=0)
    return found


def with_last(rows: Rows, those: Ints, auction: int) -> Rows:
    """The rows with the last of these results alone, where the last above the auction's first trade
    is, else the first; the others are bad rows.
    """
    results = results_of(rows)
    others = results[(results > those[0]) & ~numpy.isin(results, those)]
    end = int(others.min(initial=len(rows.kind)))
    made = numpy.flatnonzero((rows.kind[:end] == Kind.TRADE) | (rows.kind[:end] == Kind.FILL))
    made = made[made > those[0]][:1]
    at = int(those[those < made[0]][-1] if len(made) else those[0])
    bad, kind, last = [*rows.bad], rows.kind.copy(), int(those[-1])
    what = f"a later result of the {AUCTIONS[auction]}, read in its place"
    for place in those[:-1].tolist():
        why = f"row {rows.labels[last]} is {what}"
        bad.append(BadRow(place, rows.labels[place], why, Doubt.ITEM, place))
    kind[those] = Kind.BAD
    kind[at] = Kind.UNCROSS
    labels, where = rows.labels.copy(), numpy.arange(len(kind))
    labels[at], where[at] = labels[last], last
    names = rows.names.moved(where)
    return dataclasses.replace(
        rows.with_said(at, last), kind=kind, bad=bad, labels=labels, names=names
    )


def in_parts(rows: Rows, due: Sequence[int]) -> Ints:
    """The results with the one next below that may be more of them, where there are more than
    auctions: no row of an order is between, nor more than a second, they name no two auctions, and
    they don't say the same things, or one has no name.
    """
    if not has_more(rows, due):
        return numpy.zeros(0, "i8")
    ends, orders = ends_of(rows), rows.of(*OF_ORDERS)
    said = numpy.array([getattr(rows, name)[ends] != CellCode.MISSING for name in SAID])
    state, before, time = rows.auction[ends], numpy.searchsorted(orders, ends), rows.time[ends]
    is_named = (state[:-1] > 0) & (state[1:] > 0)
    are_parts = (state[:-1] == state[1:]) & ~(said[:, :-1] & said[:, 1:]).any(axis=0)
    is_near = (before[:-1] == before[1:]) & (numpy.abs(numpy.diff(time)) <= time_columns.SECOND)
    are_one = is_near & said[:, 1:].any(axis=0) & (are_parts | ~is_named)
    found: Ints = ends[:-1][are_one]
    return found


def with_parts(rows: Rows, those: Ints) -> Rows:
    """The rows in which each of these results says what the next one below says too, and that is a
    bad row.
    """
    ends, kind, bad = ends_of(rows), rows.kind.copy(), [*rows.bad]
    rows = dataclasses.replace(rows, auction=rows.auction.copy())
    for place in those[::-1].tolist():
        below = int(ends[numpy.searchsorted(ends, place) + 1])
        rows = rows.with_more_said(place, below)
        rows.auction[place] = max(rows.auction[place], rows.auction[below])
        why = f"it is read as more of the result in row {rows.labels[place]}"
        bad.append(BadRow(below, rows.labels[below], why, Doubt.ITEM, below))
        kind[below] = Kind.BAD
    return dataclasses.replace(rows, kind=kind, bad=bad)


def stopped_again(rows: Rows) -> Ints:
    """The interruptions with another one next below and no order or trade between, which may
    correct them.
    """
    ends, others = rows.of(Kind.UNCROSS), rows.of(*OF_ORDERS, Kind.TRADE, Kind.FILL)
    is_stop = rows.auction[ends] == AuctionCode.INTERRUPTED
    before = numpy.searchsorted(others, ends)
    is_again = is_stop[:-1] & is_stop[1:] & (before[:-1] == before[1:])
    found: Ints = ends[:-1][is_again]
    return found


def with_last_stops(rows: Rows) -> Rows:
    """The rows with the last of interruptions in succession in place of the first; the others are
    bad rows.
    """
    ends, kind, bad = rows.of(Kind.UNCROSS), rows.kind.copy(), [*rows.bad]
    for place in stopped_again(rows)[::-1].tolist():
        below = int(ends[numpy.searchsorted(ends, place) + 1])
        rows = rows.with_said(place, below)
        why = f"row {rows.labels[place]} is another row of this interruption, read above"
        bad.append(BadRow(below, rows.labels[below], why, Doubt.ITEM, below))
        kind[below] = Kind.BAD
    return dataclasses.replace(rows, kind=kind, bad=bad)

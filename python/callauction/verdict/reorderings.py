"""Other orders of a day's rows by which it may be lawful: by their times, by their numbers, as they
are in the table, and of rows of one time.
"""
import dataclasses
import functools
from collections.abc import Callable, Iterator

import numpy

from callauction.verdict import time_columns
from callauction.verdict.cells import Ints
from callauction.verdict.doubts import MOST_FALLS
from callauction.verdict.early_rows import Early
from callauction.verdict.judging import Judge
from callauction.verdict.other_reading import OtherReading, of_rows
from callauction.verdict.paths import Judgement
from callauction.verdict.rows import OF_ORDERS, Kind, Rows


def other_orders(judge: Judge, found: Judgement) -> list[list[OtherReading]]:
    """The other orders of rows, a list for each cause: of an order's replaces at one time, of the
    moment of each uncross, and of all rows.
    """
    rows = judge.rows
    falls, across = falls_of(rows) or falls_of(rows, True), _across(rows)
    moves = ((by_time, falls), (lambda it: it.ordered(all_times(it)), across),
             (by_number, falls_of_numbers(rows)[0]), _by_table(rows, found))  # fmt: skip
    of_all = [of_rows(move, why) for move, why in moves if why]
    return [_orders_of_ties(judge), *_over_uncrosses(judge, found), of_all]


def falls_of(rows: Rows, has_late: bool = False) -> str:
    """That the times of a call phase fall, and where first; empty where they don't."""
    orders, phase, _ = _order_of_times(rows, has_late)
    at = rows.time[orders]
    falls = numpy.flatnonzero((at[1:] < at[:-1]) & (phase[1:] == phase[:-1]))
    if not len(falls):
        return ""
    one, other = rows.labels[orders[falls[0] : falls[0] + 2]]
    return f"the times of rows {one} and {other} fall, and which came first decides"


def by_time(rows: Rows) -> Rows:
    """The rows with those of each call phase in the order of their times."""
    orders, _, order = _order_of_times(rows)
    moved = numpy.arange(len(rows.kind))
    moved[orders] = orders[order]
    return rows.moved(moved)


def falls_of_numbers(rows: Rows) -> tuple[str, bool]:
    """That rows of a day without times are in another order than their sequence, and where first;
    empty where none is. And whether few are.
    """
    known = numpy.flatnonzero((rows.kind != Kind.BAD) & (rows.number >= 0))
    falls = numpy.flatnonzero(numpy.diff(rows.number[known]) < 0)
    if not len(falls) or (rows.time != time_columns.NO_TIME).any() or rows.is_odd.any():
        return "", False
    one, other = rows.labels[known[falls[0] : falls[0] + 2]]
    why = f"rows {one} and {other} are in another order than their sequence: say --sort"
    return why, len(falls) <= max(MOST_FALLS, len(known) // 10)


def by_number(rows: Rows) -> Rows:
    """The rows in the order of their sequence; one without a number stays below that above it."""
    known = numpy.where(rows.number >= 0, numpy.arange(len(rows.number)), 0)
    at = rows.number[numpy.maximum.accumulate(known)]
    return rows.ordered(numpy.argsort(at, kind="stable"))


def all_times(rows: Rows, step: int = 1) -> Ints:
    """The places of all rows by time, of the day where only some have a date, and where times of
    one step in nanoseconds are one; one without a time stays below the one above it.
    """
    is_timed = rows.time != time_columns.NO_TIME
    is_dated = rows.time[is_timed] >= time_columns.DATED
    at = rows.time
    if is_dated.any() and not is_dated.all():
        at = numpy.where(is_timed, at % time_columns.DAY, time_columns.NO_TIME)
    known = numpy.where(is_timed, numpy.arange(len(at)), 0)
    return numpy.argsort(at[numpy.maximum.accumulate(known)] // step, kind="stable")


def _across(rows: Rows) -> str:
    """That by its time a row of an order is on another side of an uncross; empty where none is."""
    orders, ends, place = rows.of(*OF_ORDERS), rows.of(Kind.UNCROSS), numpy.argsort(all_times(rows))
    phases = (numpy.searchsorted(it[ends], it[orders]) for it in (numpy.arange(len(place)), place))
    own, due = (numpy.asarray(each) for each in phases)
    odd = numpy.flatnonzero(own != due)
    if not len(odd):
        return ""
    first = int(odd[0])
    end = rows.labels[ends[min(own[first], due[first])]]
    side = "below" if own[first] < due[first] else "above"
    return f"by its time row {rows.labels[orders[first]]} is {side} row {end}"


def _by_table(rows: Rows, found: Judgement) -> tuple[Callable[[Rows], Rows], str]:
    """What puts sorted rows in their order in the table, and why: by it an uncross is below an
    order that by its time is later, or few rows are in another order. Empty where none is.
    """
    early, orders = Early(rows), rows.of(*OF_ORDERS)
    told = (*map(early.of_auction, found.uncrosses),
            *(early.of_uncross(each.place, orders) for each in found.uncrosses))  # fmt: skip
    why = next((why for why, *_ in told if why and rows.is_sorted), "")
    return lambda it: it.ordered(numpy.argsort(it.spots, kind="stable")), why or _moved_few(rows)


def _moved_few(rows: Rows) -> str:
    """That few rows are in another order in the table, and where first; empty where none is."""
    falls = numpy.flatnonzero(numpy.diff(rows.spots) < 0)
    if not 0 < len(falls) <= max(MOST_FALLS, len(rows.spots) // 10):
        return ""
    one, other = rows.labels[falls[0] : falls[0] + 2]
    return f"rows {other} and {one} are sorted by times, and which came first decides"


def _order_of_times(rows: Rows, has_late: bool = False) -> tuple[Ints, Ints, Ints]:
    """The rows of orders with a time that isn't after that of their uncross, which would be another
    day's, or with `has_late` all; their call phases; and where each comes among them by its time.
    """
    orders = rows.of(*OF_ORDERS)
    ends = rows.of(Kind.UNCROSS)
    phase = numpy.searchsorted(ends, orders)
    at = rows.time[orders]
    end = numpy.concatenate([rows.time[ends], [time_columns.NO_TIME]])[phase]
    timed = (at != time_columns.NO_TIME) & ((end == time_columns.NO_TIME) | (at <= end) | has_late)
    orders, phase = orders[timed], phase[timed]
    return orders, phase, numpy.lexsort((at[timed], phase))


def _orders_of_ties(judge: Judge) -> list[OtherReading]:
    """The other orders of an order's replaces at one time."""
    why, others = judge.doubts.ties.orders_of_ties(judge.orders)
    moved = [numpy.arange(len(judge.rows.kind)) for _ in others or ()]
    for places, other in zip(moved, others or ()):
        places[judge.orders] = other
    return [of_rows(functools.partial(_moved, at, "is_ordered"), why) for at in moved]


def _over_uncrosses(judge: Judge, found: Judgement) -> Iterator[list[OtherReading]]:
    """The other moments of each uncross in its time, where what differs may be by them."""
    certain = [it for each in found.uncrosses for it in each.certain]
    named = all(it.keys for it in certain)
    keys = {key for it in certain for key in it.keys} if named else set[int]()
    for place in judge.uncrosses.tolist():
        ways = judge.doubts.ties.over(place, keys)
        yield [of_rows(functools.partial(_moved, moved, "is_cut"), why) for moved, why in ways]


def _moved(places: Ints, known: str, rows: Rows) -> Rows:
    """The rows in another order, of which this is known."""
    return dataclasses.replace(rows.moved(places), **{known: True})

"""Ids become keys: of each order one, whatever ids it had. Rows of orders that no row enters, or
that are another's, are bad ones.
"""
import dataclasses

import numpy
import pandas

from callauction.verdict.cells import Codes, Ints
from callauction.verdict.rows import SIDES, CellCode, Doubt, Kind, Rows


QUOTES = "ids of a bid and an ask, read as two orders"
FOREIGN = "cancels by others than the order's member"


def make_keys(rows: Rows, unread: Codes) -> None:
    """Puts keys in place of the ids of rows, and refuses the rows without a good one, and replaces
    whose new id is another order's; `unread` are the ids that rows have which weren't read.
    """
    count = len(rows.names.ids)
    entered = rows.entered(count + 1)
    count, entered = _without_second(rows, count, entered)
    root = _roots(rows, entered, count)
    for name in ("key", "bid", "ask"):
        array = getattr(rows, name)
        setattr(rows, name, numpy.where(array >= 0, root[array], CellCode.MISSING).astype("i4"))
    named = numpy.flatnonzero((rows.kind == Kind.REPLACE) & (rows.new_id >= 0))
    for place in named[root[rows.new_id[named]] != rows.key[named]]:
        name = rows.names.order(rows.new_id[place])
        rows.refuse(place, f"new_order {name!r} is another order's id", Doubt.BOOKS)
    _refuse_others(rows, entered, {*unread.tolist()})


def below_their_entries(rows: Rows) -> Rows:
    """The rows, with changes of an order that are above its entry of their time below it, as rows
    of one time may be in any order.
    """
    changes = rows.of(Kind.REPLACE, Kind.CANCEL)
    entry = rows.entered(len(rows.names.ids) + 1)[rows.key[changes]]
    is_above = (entry > changes) & (rows.group[entry] == rows.group[changes])
    if not is_above.any():
        return rows
    place = numpy.arange(len(rows.kind), dtype="f8")
    place[changes[is_above]] = entry[is_above] + 0.5
    return rows.ordered(numpy.argsort(place, kind="stable"))


def _without_second(rows: Rows, count: int, entered: Ints) -> tuple[int, Ints]:
    """Refuses rows that enter an id again, which may correct the first as long as that isn't
    cancelled; one that is entered on both sides is two orders.
    """
    news = rows.of(Kind.NEW)
    second = news[entered[rows.key[news]] != news]
    quotes = second[rows.side[second] != rows.side[entered[rows.key[second]]]]
    if len(quotes):
        count = _part_quotes(rows, numpy.unique(rows.key[quotes]), count)
        entered = rows.entered(count + 1)
        news = rows.of(Kind.NEW)
        second = news[entered[rows.key[news]] != news]
    for place in second:
        first = entered[rows.key[place]]
        order = rows.names.order(rows.key[place])
        why = f"order {order!r} was entered before, in row {rows.labels[first]}"
        if rows.member[first] != rows.member[place]:
            why += ", by another member (are ids a member's own? join both)"
        between = slice(int(first), int(place))
        is_gone = (rows.kind[between] == Kind.CANCEL) & (rows.key[between] == rows.key[place])
        is_other = is_gone.any() and rows.time[place] != rows.time[first]
        rows.refuse(place, why, Doubt.BOOKS, None if is_other else int(first))
    return count, entered


def _part_quotes(rows: Rows, ids: Ints, count: int) -> int:
    """Gives the asks of ids that are entered on both sides ids of their own; the count of ids."""
    other = numpy.arange(count + 1)
    other[ids] = count + numpy.arange(len(ids))
    are = numpy.isin(rows.key, ids)
    changes = (rows.kind == Kind.REPLACE) | (rows.kind == Kind.CANCEL)
    why = "the id is a bid's and an ask's: the row needs a side"
    for place in numpy.flatnonzero(are & (rows.side <= 0) & changes):
        rows.refuse(place, why, Doubt.BOOKS)
    is_ask = are & (rows.side == SIDES.index("ask"))
    rows.key = numpy.where(is_ask, other[rows.key], rows.key).astype("i4")
    rows.ask = numpy.where(rows.ask >= 0, other[rows.ask], CellCode.MISSING).astype("i4")
    places = numpy.concatenate([rows.names.ids, rows.names.ids[ids]])
    rows.names = dataclasses.replace(rows.names, ids=places)
    rows.notes[QUOTES] += len(ids)
    return count + len(ids)


def _roots(rows: Rows, entered: Ints, count: int) -> Ints:
    """By its number the first id of each id's order."""
    root = numpy.arange(count + 1)
    named = numpy.flatnonzero((rows.kind == Kind.REPLACE) & (rows.new_id >= 0))
    new_id = rows.new_id[named]
    fresh = (entered[new_id] < 0) & ~pandas.Series(new_id).duplicated().to_numpy()
    root[new_id[fresh]] = rows.key[named[fresh]]
    for _ in range(len(root).bit_length()):  # ids that replace one another in a ring have no root
        root = root[root]
    return root


def _refuse_others(rows: Rows, entered: Ints, unread: set[int]) -> None:
    """Refuses rows of unknown orders and replaces by other members, and counts such cancels."""
    events = rows.of(Kind.REPLACE, Kind.CANCEL)
    owner = entered[rows.key[events]]
    is_known = (owner >= 0) & (owner <= events)
    for place in events[~is_known]:
        is_unread = int(rows.key[place]) in unread
        where = "in a row that isn't read" if is_unread else "in no row above"
        order = rows.names.order(rows.key[place])
        since = int(place) if is_unread else -1
        rows.refuse(place, f"order {order!r} is entered {where}", Doubt.ORDER, since)
    events, owner = events[is_known], owner[is_known]
    one, other = rows.member[events], rows.member[owner]
    foreign = events[(one >= 0) & (other >= 0) & (one != other)]
    rows.notes[FOREIGN] += int((rows.kind[foreign] == Kind.CANCEL).sum())
    for place in foreign[rows.kind[foreign] == Kind.REPLACE]:
        names = rows.names.member(rows.member[place]), rows.names.member(
            rows.member[entered[rows.key[place]]]
        )
        why = f"member {names[0]!r} isn't {names[1]!r}, whose order it is"
        rows.refuse(place, why, Doubt.BOOKS)

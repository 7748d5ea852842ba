"""Quantities that may be lots in place of shares: those of results or trades, and of orders that
were executed with more than they have, as what differs from the lawful says; and those of a part of
the rows, where all others are whole lots.
"""
import dataclasses
import itertools
from collections import Counter
from collections.abc import Iterator
from fractions import Fraction

import numpy

from callauction.verdict.cells import Ints, Mask
from callauction.verdict.comparing import KeyedFill, KeyedTrade
from callauction.verdict.paths import Judgement
from callauction.verdict.phases import recorded_sums
from callauction.verdict.rows import OF_ORDERS, SIDES, Kind, Rows

# ---- all quantities of some kinds of rows


LOTS = (10, 100, 1000)
"""How many shares a lot may have."""
LEAST = 2
"""In how many items lots have to be seen."""
QUANTITIES = ("quantity", "surplus")
IN_LOTS = {
    "the quantities of results and trades": ((Kind.UNCROSS, Kind.TRADE, Kind.FILL), QUANTITIES),
    "the quantities of results": ((Kind.UNCROSS,), QUANTITIES),
    "the quantities of trades": ((Kind.TRADE, Kind.FILL), QUANTITIES),
    "the volumes": ((Kind.UNCROSS,), ("quantity",)),
    "the surpluses": ((Kind.UNCROSS,), ("surplus",)),
}
"""Of which rows which quantities may be lots, by what they are called."""
OF_ONE_ITEM = {"volume": "the volumes", "surplus": "the surpluses"}
"""What alone may be in lots where nothing but this item is."""


def _size(value: object) -> int:
    """The shares of a value, 0 where it has none."""
    if isinstance(value, KeyedTrade | KeyedFill):
        return value.quantity
    return value if isinstance(value, int) else 0


def lot_of(found: Judgement) -> tuple[int, set[str]]:
    """How many shares a lot may have in which some quantities are, as several that differ are that
    many times what is lawful, or as small a part of it, and most are; and which items these are of.
    0 for none.
    """
    differing = (it for each in found.uncrosses for it in each.differences)
    both = ((it.item, _size(it.recorded), _size(it.lawful)) for it in differing)
    ratios = [(item, Fraction(max(it), min(it))) for item, *it in both if min(it) > 0]
    if not ratios:
        return 0, set()
    ratio, count = Counter(it for _, it in ratios).most_common(1)[0]
    if ratio not in LOTS or count < max(LEAST, len(ratios) / 2):
        return 0, set()
    return int(ratio), {item for item, it in ratios if it == ratio}


def in_shares(rows: Rows, lot: int, items: set[str]) -> Iterator[tuple[Rows, str]]:
    """The rows with some quantities in the unit of the others, and why, by the items that seem to
    be in lots; none for a lot of 0.
    """
    alone = OF_ONE_ITEM.get(min(items)) if len(items) == 1 else None
    for what in [alone] if alone else [*IN_LOTS][:3] if lot else []:
        kinds, names = IN_LOTS[what]
        both = {name: getattr(rows, name) for name in names}
        said = {name: numpy.isin(rows.kind, kinds) & (it > 0) for name, it in both.items()}
        most = {name: numpy.where(said[name], it * lot, it) for name, it in both.items()}
        yield dataclasses.replace(rows, **most), f"are {what} in lots of {lot}?"
        if all((it[said[name]] % lot == 0).all() for name, it in both.items()):
            least = {name: numpy.where(said[name], it // lot, it) for name, it in both.items()}
            why = f"are quantities in lots of {lot}, but {what}?"
            yield dataclasses.replace(rows, **least), why


# ---- orders that were executed with more than they have


ORDER_LOTS = (10, 50, 100, 500, 1000)
"""How many shares a lot of an order may have."""
MOST_LOTS = 2
"""How many of these are tried."""
MOST_OF_ORDER = 2**32 - 1
"""How many shares an order may have."""
EXECUTED = "the order of row {} has {:,} shares, and {:,} are executed: "
OF_MEMBER = f"{EXECUTED}are those of its member in lots of {{}}?"
OF_ORDER = f"{EXECUTED}is it in lots of {{}}?"


def orders_in_shares(found: Judgement, rows: Rows) -> Iterator[tuple[Ints, str, bool]]:
    """The quantities with those of some orders in shares, why, and whether one was executed with
    all of its lots: orders that were executed with more than they have, as several were or a
    published volume says, or all of their members.
    """
    entered = rows.entered(len(rows.names.ids) + 1)
    made = {it[0]: it for it in _beyond(found, rows) if entered[it[0]] >= 0}
    most = max((Fraction(more, own) for _, own, more in made.values()), default=Fraction(0))
    if not made or len(made) < LEAST and not _has_wrong_volume(found):
        return
    first, own, more = min(made.values(), key=lambda it: int(entered[it[0]]))
    of_orders = numpy.isin(rows.kind, OF_ORDERS) & (rows.key >= 0)
    those: Mask = of_orders & numpy.isin(rows.key, [*made])
    owner = numpy.where(of_orders, rows.member[entered[numpy.maximum(rows.key, 0)]], -1)
    members = {int(rows.member[entered[key]]) for key in made} - {-1}
    for lot in [it for it in ORDER_LOTS if it >= most][:MOST_LOTS]:
        both = ((those | numpy.isin(owner, [*members]), OF_MEMBER), (those, OF_ORDER))
        for which, why in both if members else both[1:]:
            many = numpy.where(which & (rows.quantity > 0), rows.quantity * lot, rows.quantity)
            if many.max() <= MOST_OF_ORDER:
                text = why.format(rows.labels[entered[first]], own, more, lot)
                yield many, text, lot == most


def _beyond(found: Judgement, rows: Rows) -> Iterator[tuple[int, int, int]]:
    """Each order that was executed with more shares than were open, how many were, and how many it
    was executed with.
    """
    for judged in (it for it in found.uncrosses if it.result is not None):
        book = dict(zip(judged.book.key.tolist(), judged.book.quantity.tolist()))
        made = recorded_sums(rows, judged.traded, judged.filled).by_key()
        over = ((key, book[key]) for key, more in made.items() if more > book.get(key, more))
        yield from ((key, own, made[key]) for key, own in over)


def _differ_in_shares(found: Judgement) -> bool:
    """Whether a volume, a surplus, or the shares of a trade or of an order aren't lawful."""
    certain = (it for each in found.uncrosses for it in each.certain)
    those = (it for it in certain if it.item not in ("price", "auction", "side", "count"))
    return any(_size(it.recorded) != _size(it.lawful) for it in those)


def _has_wrong_volume(found: Judgement) -> bool:
    """Whether a volume that was published isn't lawful."""
    return any(it.item == "volume" for each in found.uncrosses for it in each.certain)


# ---- a part of the rows, whose quantities alone aren't whole lots


IN_PART = "are the quantities of {} in lots of {}, as in row {}?"
MOST_PARTS = 24
"""How many such readings are tried of MANY_ROWS; of more rows fewer."""
MANY_ROWS = 50_000
PartOfRows = tuple[Mask, str]
"""Which rows it is of, and what it is called."""


def parts_in_shares(found: Judgement, rows: Rows) -> Iterator[tuple[dict[str, Ints], str]]:
    """The quantities and surpluses with those of a part of the rows in shares, and why, where all
    that aren't whole lots are of the part, and most of it: a member's orders, with its trades too,
    the bids, the asks, the entries, the replaces, or all rows behind a result and its trades. None
    where no shares differ, or nothing but the trades of one order says that it has more.
    """
    is_alone = not _has_wrong_volume(found) and len({it[0] for it in _beyond(found, rows)}) == 1
    if is_alone or not _differ_in_shares(found):
        return
    most = MOST_PARTS * MANY_ROWS // max(MANY_ROWS, len(rows.kind))
    yield from itertools.islice(_parts_in_shares(rows), most)


def _parts_in_shares(rows: Rows) -> Iterator[tuple[dict[str, Ints], str]]:
    """The same, of any number of rows."""
    both = {name: getattr(rows, name) for name in QUANTITIES}
    is_read = (rows.kind >= Kind.NEW) & (rows.kind <= Kind.FILL)
    said = {name: is_read & (it > 0) for name, it in both.items()}
    some = said["quantity"] | said["surplus"]
    for lot in ORDER_LOTS:
        odd = numpy.any([said[name] & (it % lot != 0) for name, it in both.items()], axis=0)
        places = numpy.flatnonzero(odd)
        for which, what in _parts(rows, places) if len(places) else ():
            is_part = which[places].all() and (some & ~which).any()
            is_part &= 2 * len(places) > (some & which).sum()
            if is_part and rows.quantity[which].max() * lot <= MOST_OF_ORDER:
                why = IN_PART.format(what, lot, rows.labels[places[0]])
                yield {name: numpy.where(said[name] & which, it * lot, it)
                       for name, it in both.items()}, why  # fmt: skip


def _parts(rows: Rows, odd: Ints) -> Iterator[PartOfRows]:
    """The parts of the rows that may have these."""
    of_orders = numpy.isin(rows.kind, OF_ORDERS) & (rows.key >= 0)
    entered = rows.entered(len(rows.names.ids) + 1)
    entry = numpy.where(of_orders, entered[numpy.maximum(rows.key, 0)], -1)
    first = next((int(entry[it]) for it in odd.tolist() if entry[it] >= 0), -1)
    member = int(rows.member[first]) if first >= 0 else -1
    if member >= 0:
        own: Mask = (entry >= 0) & (rows.member[entry] == member)
        name = rows.names.member(member)
        yield own, f"{name}'s orders"
        yield own | _trades_of(rows, entered, member), f"{name}'s orders and trades"
    elif first >= 0:
        yield entry == first, f"the order of row {rows.labels[first]}"
    yield rows.kind == Kind.REPLACE, "replaces"
    yield rows.kind == Kind.NEW, "entries"
    for side in (1, 2):
        yield (entry >= 0) & (rows.side[entry] == side), f"{SIDES[side]}s"
    ends = rows.of(Kind.UNCROSS)
    orders = numpy.flatnonzero(of_orders)
    later = orders[orders > ends[ends < odd[0]].max(initial=-1)]
    if len(later) and later[0] > orders[0]:
        yield numpy.arange(len(rows.kind)) >= later[0], f"rows from {rows.labels[later[0]]} on"


def _trades_of(rows: Rows, entered: Ints, member: int) -> Mask:
    """Which trades and fills are of a member's orders."""
    made = (rows.kind == Kind.TRADE) | (rows.kind == Kind.FILL)
    keys = (rows.bid, rows.ask, rows.key)
    own = [(it >= 0) & (rows.member[entered[numpy.maximum(it, 0)]] == member) for it in keys]
    found: Mask = made & numpy.any(own, axis=0)
    return found

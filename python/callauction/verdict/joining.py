"""Rows that belong together: both of a trade, a bust and its trade, trades and their result."""
import functools

import numpy

from callauction.verdict.cells import Codes, Ints, paired_codes
from callauction.verdict.rows import (
    OF_ORDERS, SIDES, AuctionCode, CellCode, Doubt, Kind, PriceCode, Rows,
)  # fmt: skip

ONE_SIDED = "trades without the row of their other side, read as fills of their orders"
BUSTED = "trades that busts take out"
MADE = "results that aren't recorded: the price is that of the auction's trades"
_NO_TRADE = "no trade has its orders, its shares and its price"


# ---- both rows of a trade


def join_sides(rows: Rows, codes: Codes | None, instrument: Codes) -> None:
    """Makes one trade of two rows, each of an order and its side, with one number in `codes`, one
    quantity and one price; where any is left of an instrument, all of it are fills of their orders.
    """
    rows.is_half = numpy.zeros(len(rows.kind), bool)
    is_trade = (rows.kind == Kind.TRADE) | (rows.kind == Kind.BUST)
    alone = numpy.flatnonzero(is_trade & (rows.bid < 0) & (rows.ask < 0) & (rows.key >= 0))
    for number in numpy.unique(instrument[alone]).tolist():
        those = alone[instrument[alone] == number]
        made, busts = (those[rows.kind[those] == kind] for kind in (Kind.TRADE, Kind.BUST))
        both = _both(rows, made, codes)
        if 2 * len(both[0]) < len(made):
            if codes is not None:
                rows.is_half[_halves(rows, made, codes)] = True
            rows.kind[made] = Kind.FILL
            rows.notes[ONE_SIDED] += len(made)
            continue
        _join(rows, *both)
        if codes is not None:
            whole = busts[numpy.isin(codes[busts], _matched(rows, busts, codes))]
            _join(rows, *_both(rows, whole, codes))


def _join(rows: Rows, bids: Ints, asks: Ints) -> None:
    """Makes one trade or bust of each bid and ask, each with its member, in the first row."""
    first, second = numpy.minimum(bids, asks), numpy.maximum(bids, asks)
    for side, those in zip(SIDES[1:], (bids, asks)):
        for name, own in ((side, rows.key), (f"{side}_member", rows.member)):
            array = getattr(rows, name).copy()
            array[first] = own[those]
            setattr(rows, name, array)
    rows.member = rows.member.copy()
    rows.member[numpy.concatenate([bids, asks])] = CellCode.MISSING
    rows.kind[second] = Kind.BAD


def _halves(rows: Rows, these: Ints, codes: Codes) -> Ints:
    """Which of these trades are one side alone of what a column joins."""
    is_known = (codes[these] >= 0) & (rows.side[these] > 0)
    found: Ints = these[is_known & ~numpy.isin(codes[these], _matched(rows, these, codes))]
    return found


def _matched(rows: Rows, these: Ints, codes: Codes) -> Codes:
    """What rows of both sides have in a column."""
    own, side = codes[these], rows.side[these]
    found: Codes = numpy.intersect1d(*(own[(side == it) & (own >= 0)] for it in (1, 2)))
    return found


def _both(rows: Rows, these: Ints, codes: Codes | None) -> tuple[Ints, Ints]:
    """The rows of bids and of asks that are a trade each; none where a column says of none."""
    if codes is None or (codes[these] < 0).any() or (rows.side[these] <= 0).any():
        return numpy.zeros(0, "i8"), numpy.zeros(0, "i8")
    own = paired_codes(codes[these], rows.kind[these])
    for values in (rows.quantity[these], rows.price[these].astype("i8")):
        own = paired_codes(own, values - int(values.min(initial=0)))
    order = numpy.lexsort((these, own))
    sides = [order[rows.side[these[order]] == side] for side in (1, 2)]
    if not numpy.array_equal(own[sides[0]], own[sides[1]]):
        return numpy.zeros(0, "i8"), numpy.zeros(0, "i8")
    return these[sides[0]], these[sides[1]]


# ---- busts


def take_busted(rows: Rows) -> None:
    """Takes out each bust's trade or fill, the last above, else the first below; refuses others."""
    busts = rows.of(Kind.BUST)
    if not len(busts):
        return
    these = rows.of(Kind.TRADE, Kind.FILL)
    known: dict[tuple[int, ...], list[int]] = {}
    for place in these.tolist():
        known.setdefault(_mark(rows, place), []).append(place)
    for place in busts.tolist():
        price = int(rows.price[place])
        those = known.get(_mark(rows, place), [])
        own = [it for it in those if price < 0 or rows.price[it] in (price, PriceCode.UNSAID)]
        if not own:
            rows.refuse(place, f"{_NO_TRADE}: {_shown(rows, place)}", Doubt.BUST)
            continue
        taken = max((it for it in own if it < place), default=own[0])
        those.remove(taken)
        rows.kind[taken], rows.kind[place] = Kind.TAKEN, Kind.BAD
        rows.notes[BUSTED] += 1


def _shown(rows: Rows, place: int) -> str:
    """The trade or the fill that a bust names."""
    keys, price = (int(rows.bid[place]), int(rows.ask[place])), int(rows.price[place])
    names = [f"{side} {rows.names.order(key)}" for side, key in zip(SIDES[1:], keys) if key >= 0]
    name = " ".join(names) or rows.names.order(int(rows.key[place]))
    return f"{name}: {rows.quantity[place]:,}" + (f" at {rows.prices[price]}" if price >= 0 else "")


def _mark(rows: Rows, place: int) -> tuple[int, ...]:
    """What a trade or a fill is: its orders and its shares."""
    bid, ask, shares = int(rows.bid[place]), int(rows.ask[place]), int(rows.quantity[place])
    return (bid, ask, shares) if bid >= 0 else (int(rows.key[place]), shares)


# ---- results that trades say


def with_results(rows: Rows) -> Rows:
    """The rows of an instrument with a row `uncross` above the first trade of each auction that
    trades name and no such row does; its price is theirs, and nothing else of it is known. None is
    made where the one above has a name that another has too, which is wrong then.
    """
    uncrosses = rows.of(Kind.UNCROSS)
    held = {*rows.auction[uncrosses].tolist()} - {AuctionCode.INTERRUPTED}
    made = rows.of(Kind.TRADE, Kind.FILL)
    made = made[(rows.auction[made] > 0) & (rows.auction[made] != AuctionCode.INTERRUPTED)]
    if not rows.makes_results or CellCode.MISSING in held:
        return rows
    firsts: dict[int, int] = {}
    for place in made.tolist():
        if int(rows.auction[place]) not in held:
            firsts.setdefault(int(rows.auction[place]), place)
    firsts = {name: place for name, place in firsts.items() if not _is_misnamed(rows, place)}
    if not firsts:
        return rows
    at = numpy.array(sorted(firsts.values()), "i8")
    places = numpy.insert(numpy.arange(len(rows.kind)), at, at)
    found = rows.placed(places, functools.partial(_moved, at))
    for place in (at + numpy.arange(len(at))).tolist():
        _make_result(found, place)
    found.notes[MADE] += len(at)
    return found


def _is_misnamed(rows: Rows, first: int) -> bool:
    """Whether the result of an auction, whose first trade this is, seems to have another's name:
    one is directly above it, without trades of its name, and another result has that name.
    """
    uncrosses, above = rows.of(Kind.UNCROSS), rows.kind[:first]
    own = int(uncrosses[uncrosses < first].max(initial=-1))
    if own < 0 or not 0 < rows.auction[own] != AuctionCode.INTERRUPTED:
        return False
    if numpy.isin(above[own:], OF_ORDERS).any():
        return False
    made = numpy.isin(above[own:], (Kind.TRADE, Kind.FILL))
    made &= rows.auction[own:first] == rows.auction[own]
    is_again = numpy.count_nonzero(rows.auction[uncrosses] == rows.auction[own]) > 1
    return bool(is_again and not made.any())


def _moved(at: Ints, place: int) -> int:
    """Where a place is when a row is put above each of these."""
    return place + int(numpy.searchsorted(at, place, "right")) if place >= 0 else place


def _make_result(rows: Rows, place: int) -> None:
    """Makes a row the result of the auction that it names."""
    state = rows.auction[place]
    trades = ((rows.kind == Kind.TRADE) | (rows.kind == Kind.FILL)) & (rows.auction == state)
    prices = numpy.unique(rows.price[trades])
    rows.kind[place] = Kind.UNCROSS
    rows.price[place] = prices[0] if len(prices) == 1 else PriceCode.UNSAID
    for name in ("key", "new_id", "bid", "ask", "side", "quantity", "surplus", "count"):
        getattr(rows, name)[place] = CellCode.MISSING

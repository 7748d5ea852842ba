"""Differences that are one finding: what one jumped priority moved among the trades of an auction,
what follows from an order that traded and wasn't open, and what follows from a wrong price or
volume.
"""
import dataclasses
from collections.abc import Collection, Iterator, Sequence

import numpy

from callauction.verdict.cells import Array
from callauction.verdict.comparing import Difference, KeyedFill, KeyedTrade, keys_of
from callauction.verdict.context import Context
from callauction.verdict.phases import BeyondError, Result, StandingBook, uncross
from callauction.verdict.rows import RESTRICTION_OF, SIDES, CellCode, Kind, PriceCode


def grouped(context: Context, differences: Sequence[Difference]) -> list[list[Difference]]:
    """The differences of an uncross, those of trades and fills that are of one jump being one
    group; of these, and in each, those of most shares come first, behind the published items. What
    follows from an order that wasn't open, or from a wrong price or volume, is one group with it,
    the first.
    """
    found, left = list[list[Difference]](), differences
    for under in (of_absent, following):
        those = under(context, left)
        found += [those] * bool(those)
        left = [it for it in left if not any(it is each for each in those)]
    return [*found, *_by_jump(context, left)]


def _by_jump(context: Context, differences: Sequence[Difference]) -> list[list[Difference]]:
    """The differences, those of one jump being one group."""
    movable = [it for it in differences if it.is_of_shares]
    if len(movable) < 2 or context.judged.result is None:
        return [[each] for each in differences]
    jump_of = {key: number for number, keys in enumerate(_jumps(context)) for key in keys}
    groups: dict[tuple[object, ...], list[Difference]] = {}
    for place, each in enumerate(differences):
        jump = next((jump_of[key] for key in each.keys if key in jump_of), None)
        is_moved = jump is not None and each.is_of_shares
        mark = (jump, each.doubt) if is_moved else (None, place)
        groups.setdefault(mark, []).append(each)
    found = [sorted(those, key=_shares, reverse=True) for those in groups.values()]
    return sorted(found, key=lambda those: (those[0].is_of_shares, -_shares(those[0])))


def _jumps(context: Context) -> Iterator[list[int]]:
    """The orders of each jump: those of a side, in their priority, with other shares than the
    lawful ones, from one that lacks some to where as many are too many.
    """
    for gaps in context.gaps.values():
        keys: list[int] = []
        balance = 0
        for key, gap in gaps.items():
            keys.append(key)
            balance += gap
            if balance == 0:
                yield keys
                keys = []


def _shares(each: Difference) -> int:
    """How many shares a difference moves."""
    values = [it for it in (each.recorded, each.lawful) if isinstance(it, KeyedTrade | KeyedFill)]
    shares = [it.quantity for it in values]
    if len(values) > 1 and keys_of(values[0]) == keys_of(values[1]):
        return abs(shares[0] - shares[1])
    return max(shares, default=0)


def joined_differences(those: Sequence[Difference]) -> Difference:
    """The first of some differences, with the rows and the orders of all."""
    places = tuple(dict.fromkeys(place for each in those for place in each.places))
    keys = tuple(dict.fromkeys(key for each in those for key in each.keys))
    return dataclasses.replace(those[0], places=places, keys=keys)


# ---- orders that traded and weren't open


def of_absent(context: Context, differences: Sequence[Difference]) -> list[Difference]:
    """The first trade or fill of an order that was entered above and isn't open, or is for another
    auction alone, and behind it what follows from such orders; none where there is no such trade,
    or it is in doubt.
    """
    heads = [it for it in differences if not it.doubt and _absent(context, it)]
    if not heads or context.judged.result is None:
        return []
    keys = dict.fromkeys(key for it in heads for key in _absent(context, it))
    best = heads[:1]
    for book in _books(context, [*keys]):
        try:
            result = uncross(book, context.judged.auction, context.judged.reference)
        except BeyondError:
            break
        found = [it for it in differences if not it.doubt and _is_of(context, it, result)]
        found = [heads[0], *(it for it in found if it is not heads[0])]
        best = max(best, found, key=len)
    return best


def _absent(context: Context, each: Difference) -> list[int]:
    """The orders of a recorded trade or fill that were entered above and don't count here."""
    made, place = each.recorded, context.judged.place
    if not isinstance(made, KeyedTrade | KeyedFill) or isinstance(each.lawful, str):
        return []
    entered = ((key, context.entered.get(key, place)) for key in keys_of(made))
    return [key for key, at in entered if at < place and not _counts(context, key)]


def _counts(context: Context, key: int) -> bool:
    """Whether an order is open, and not for another auction alone."""
    restriction = context.judged.book.restriction
    own = (CellCode.MISSING, 0, RESTRICTION_OF[context.judged.auction])
    return key in context.at and restriction[context.at[key]] in own


def _books(context: Context, keys: Sequence[int]) -> Iterator[StandingBook]:
    """The book with these orders as last open; and that with all for other auctions too."""
    last, book = _last_open(context, keys), context.judged.book
    if all(key in last or key in context.at for key in keys):
        yield _book_with(context, keys, last)
        others = book.key[book.is_for_others(context.judged.auction)].tolist()
        for each in filter(lambda it: it.is_ended, context.earlier):
            others += each.book.key[each.book.is_for(each.auction)].tolist()
        yield _book_with(context, [*keys, *others], _last_open(context, [*keys, *others]))


def _book_with(
    context: Context, keys: Collection[int], last: dict[int, tuple[int, int, int, int]]
) -> StandingBook:
    """The book with these orders, which are for any auction."""
    book = context.judged.book
    added = [key for key in last if key not in context.at]
    sides = [int(context.rows.side[context.entered[key]]) for key in added]
    more = zip(added, sides, *zip(*((last[key][1], last[key][2], 0, last[key][3])
                                    for key in added)))  # fmt: skip
    restriction = numpy.where(numpy.isin(book.key, [*keys]), 0, book.restriction)
    columns: list[Array] = [book.key, book.side, book.price, book.quantity, restriction, book.since]
    rows = numpy.array([*more], "i8").reshape(-1, len(columns))
    whole = [numpy.append(it, rows[:, at].astype(it.dtype)) for at, it in enumerate(columns)]
    return StandingBook(*whole).take(numpy.argsort(whole[-1], kind="stable"))


def _last_open(context: Context, keys: Sequence[int]) -> dict[int, tuple[int, int, int, int]]:
    """By key the place, the price, the open shares and the place in time of each order as the last
    auction that had it open left it, or as it was entered; those that were executed, or that a row
    replaces since, are left out.
    """
    rows, found = context.rows, dict[int, tuple[int, int, int, int]]()
    for key in keys:
        at = context.entered.get(key, CellCode.MISSING)
        if at >= 0:
            found[key] = at, int(rows.price[at]), int(rows.quantity[at]), at
    for each in context.earlier:
        fills, book = each.fills.by_key() if each.is_ended else {}, each.book
        for at in numpy.flatnonzero(numpy.isin(book.key, [*found])).tolist():
            key, left = int(book.key[at]), int(book.quantity[at])
            left -= fills.get(key, 0)
            found[key] = each.place, int(book.price[at]), left, int(book.since[at])
    these = rows.of(Kind.REPLACE)
    these = these[these < context.judged.place]
    replaced = dict(zip(rows.key[these].tolist(), these.tolist()))
    return {key: it for key, it in found.items() if it[2] > 0 and replaced.get(key, -1) < it[0]}


def _is_of(context: Context, each: Difference, result: Result) -> bool:
    """Whether a recorded item, trade or fill is the one of this result."""
    price = PriceCode.NO_PRICE if result.price is None else result.price
    due = {"price": price, "volume": result.volume, "surplus": result.surplus,
           "side": SIDES[result.side]}  # fmt: skip
    if each.item in due:
        return bool(each.recorded == due[each.item])
    made, lawful = each.recorded, each.lawful
    if isinstance(made, KeyedTrade | KeyedFill):
        if made.price not in (PriceCode.UNSAID, price) or isinstance(lawful, str):
            return False
        if isinstance(lawful, KeyedTrade | KeyedFill) and keys_of(made) == keys_of(lawful):
            if made.quantity == lawful.quantity:
                return made.price != lawful.price
    elif not isinstance(lawful, KeyedTrade | KeyedFill) and each.item != "count":
        return False
    return context.recorded == result.fills.by_key()


# ---- a wrong price or volume


def following(context: Context, differences: Sequence[Difference]) -> list[Difference]:
    """The price, or else the volume, that differs, and what follows from it; none for nothing."""
    heads = (it for name in ("price", "volume") for it in differences if it.item == name)
    head = next(heads, None)
    if head is None or context.judged.result is None or context.result.price is None:
        return []
    at = head.recorded if head.item == "price" else context.result.price
    if not isinstance(at, int) or at < 0:
        return []
    found = [it for it in _of_price(context, differences, at) if it.doubt == head.doubt]
    others = [it for it in found if it is not head]
    return [head, *others] if others else []


def _of_price(context: Context, differences: Sequence[Difference], at: int) -> Iterator[Difference]:
    """The differences that are those of the recorded volume at a price: of the volume where the
    price gives it, of a surplus and a side that are left then, and of trades in the priority.
    """
    sums = [int(context.meeting(side, at)[1].sum()) for side in ("bid", "ask")]
    recorded = int(context.rows.quantity[context.judged.place])
    is_given = at != context.result.price
    volume = min(sums) if recorded < 0 or is_given else recorded
    if is_given and recorded not in (volume, -1):
        return
    side = SIDES[0 if sums[0] == sums[1] else 1 + (sums[1] > sums[0])]
    due = {"volume": volume, "surplus": max(sums) - volume, "side": side}
    is_lawful = _shares_at(context, at, volume) == context.recorded
    for each in differences:
        follows = is_lawful and (each.is_of_shares or each.item == "count")
        if due.get(each.item) == each.recorded is not None or follows:
            yield each


def _shares_at(context: Context, at: int, volume: int) -> dict[int, int]:
    """By key the shares that a volume gives the orders at a price, in their priority."""
    found = dict[int, int]()
    for side in ("bid", "ask"):
        keys, shares = context.meeting(side, at)
        executed = numpy.clip(volume - (numpy.cumsum(shares) - shares), 0, shares)
        found |= dict(zip(keys[executed > 0].tolist(), executed[executed > 0].tolist()))
    return found

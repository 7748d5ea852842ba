"""Orders of which no column says whether they are for one auction alone: what differs is in doubt
where it wouldn't if some of them were, and so didn't count in other auctions.

All that is looked at is what such orders can't change: a book has no more orders than the rows
leave, those that were executed count, and so does each that none of both restrictions fits.
"""
import dataclasses
from collections.abc import Collection, Iterator

import numpy

from callauction.verdict.cells import Ints, Mask
from callauction.verdict.certain import RULES, with_certain
from callauction.verdict.comparing import PRIORITY, Difference, KeyedFill, KeyedTrade, doubted
from callauction.verdict.coverage import PRICE_ITEMS
from callauction.verdict.doubts import has_lawful_orders
from callauction.verdict.judging import Judge
from callauction.verdict.paths import Judged, Judgement
from callauction.verdict.phases import recorded_sums
from callauction.verdict.rows import INTERRUPTED, SIDES, CellCode, PriceCode
from callauction.words import AUCTIONS

WHY = "no column restriction says which orders are for one auction alone (--unrestricted: none is)"
MOST_SHARES, MOST_UNSAID = 1_000_000, 2000
"""Up to how many shares and orders it is looked at whether some have a number of them together."""
BID, ASK = SIDES.index("bid"), SIDES.index("ask")
OPENING, INTRADAY, CLOSING = range(len(AUCTIONS))


def doubt_restrictions(found: Judgement, judge: Judge) -> Judgement:
    """The judgement with what orders for one auction alone may explain in doubt."""
    unsaid, uncrosses = _Unsaid(found, judge), list[Judged]()
    for number, each in enumerate(found.uncrosses):
        those = tuple(
            doubted([it], WHY)[0] if unsaid.explains(number, it) else it for it in each.differences
        )
        if those != each.differences:
            certain = judge.contradictions.of(each.place, each.auction, each.traded, each.filled)
            each = dataclasses.replace(each, differences=with_certain(those, certain))
        uncrosses.append(each)
    return dataclasses.replace(found, uncrosses=tuple(uncrosses))


class _Unsaid:
    """The uncrosses of a day, of which it isn't said which orders count in one alone."""

    def __init__(self, found: Judgement, judge: Judge) -> None:
        self.rows, self.entered = judge.rows, judge.entered
        self.uncrosses = found.uncrosses
        self.has_opening = OPENING in judge.due
        sums = (recorded_sums(self.rows, it.traded, it.filled) for it in found.uncrosses)
        self.done = [each.by_key() for each in sums]
        ends = [it.place for it in found.uncrosses if it.auction == OPENING and it.is_ended]
        self.opened = max(ends, default=-1)
        self.known = [*self._known()]
        self._odd: dict[int, frozenset[int]] = {}

    def _known(self) -> Iterator[bool]:
        """Of each uncross whether its book has all orders that may count, with their shares."""
        is_known = True
        for number, each in enumerate(self.uncrosses):
            yield is_known
            is_known = is_known and each.result is not None
            if not is_known or not each.is_ended:
                continue
            price, later = int(self.rows.price[each.place]), self.uncrosses[number + 1 :]
            due = each.reference if price == PriceCode.NO_PRICE else price
            is_known = not later or later[0].reference == due
            is_same = each.fills.by_key() == self.done[number]
            is_known &= is_same or self._is_fixed(each)

    def _is_fixed(self, judged: Judged) -> bool:
        """Whether the sums at the price are published, and those of all orders of the book; without
        a side too, as fewer orders can't have a surplus on the other one.
        """
        wrong = {it.item for it in judged.differences}
        return judged.items.issuperset({*PRICE_ITEMS} - {"side"}) and wrong.isdisjoint(PRICE_ITEMS)

    def explains(self, number: int, each: Difference) -> bool:
        """Whether such orders may explain a difference of an uncross."""
        judged = self.uncrosses[number]
        if each.doubt or each.rule in RULES or each.item == PRIORITY:
            return False
        if each.item == "auction":
            return self._explains_name(number, each)
        is_made = isinstance(each.recorded or each.lawful, KeyedTrade | KeyedFill)
        if judged.result is None or is_made and has_lawful_orders(each):
            return False
        if not self.known[number]:
            return True
        if self._is_fixed(judged):
            return False
        if each.item in PRICE_ITEMS:
            return each.item in _Sums(self, number).possible()
        if isinstance(each.recorded, str):  # all trades are at another price
            return _Sums(self, number).may_be(int(self.rows.price[each.places[0]]))
        if each.item == "count":
            return not len(judged.traded)
        if number not in self._odd:
            self._odd[number] = self._odd_of(number)
        return self._odd[number].isdisjoint(each.keys)

    def _explains_name(self, number: int, each: Difference) -> bool:
        """Whether they may explain an interruption, or what follows from one; or that an uncross
        seems to be at another moment, where no order below it was executed.
        """
        both, judged = {each.recorded, each.lawful}, self.uncrosses[number]
        if INTERRUPTED in both:
            return not (self.known[number] and self._is_fixed(judged))
        if both <= {*AUCTIONS, "day over", "uncross"}:
            those = (it for above in self.uncrosses[:number] for it in above.differences)
            return any(INTERRUPTED in (it.recorded, it.lawful) for it in those)
        return all(self.entered[key] < judged.place for key in self.done[number])

    def may_be_out(self, number: int) -> Mask:
        """Which orders of an uncross's book may be for another auction alone."""
        judged, book = self.uncrosses[number], self.uncrosses[number].book

        def are_in(*auctions: int) -> Mask:
            both = zip(self.uncrosses, self.done)
            keys = [key for it, own in both if it.auction in auctions for key in own]
            return numpy.isin(book.key, keys)

        is_early = self.has_opening & (self.entered[book.key] < self.opened)
        for_opening = is_early & ~are_in(INTRADAY, CLOSING) & (judged.auction != OPENING)
        for_closing = ~are_in(OPENING, INTRADAY) & (judged.auction != CLOSING)
        found: Mask = (for_opening | for_closing) & ~are_in(judged.auction)
        return found

    def shares(self, number: int) -> Ints:
        """The recorded shares of each order of an uncross's book."""
        done = self.done[number]
        keys = self.uncrosses[number].book.key.tolist()
        return numpy.array([done.get(key, 0) for key in keys], "i8")

    def _odd_of(self, number: int) -> frozenset[int]:
        """The orders that were executed with more shares than they had, or behind others that count
        and weren't, and those others.
        """
        book, done = self.uncrosses[number].book, self.shares(number)
        over = {*self.done[number]} - {*book.key[done <= book.quantity].tolist()}
        may_be_out, group = self.may_be_out(number), self.rows.group[book.since]
        for side in (BID, ASK):
            these = book.ranked((book.side == side) & book.counted(self.uncrosses[number].auction))
            own, level = group[these], book.price[these]
            step = (own[1:] != own[:-1]) | (level[1:] != level[:-1])
            rank = numpy.concatenate([[0], numpy.cumsum(step)])[: len(these)]
            made = done[these]
            passed = (made < book.quantity[these]) & ((made > 0) | ~may_be_out[these])
            passed &= rank < rank[made > 0].max(initial=-1)
            behind = (made > 0) & (rank > rank[passed].min(initial=len(these)))
            over |= {*book.key[these[passed | behind]].tolist()}
        return frozenset(over)


class _Sums:
    """The least and the most shares of both sides of an uncross's book at a price."""

    def __init__(self, unsaid: _Unsaid, number: int) -> None:
        self.judged, self.rows = unsaid.uncrosses[number], unsaid.rows
        self.book, self.may_be_out = self.judged.book, unsaid.may_be_out(number)

    def _trading(self, price: int, side: int, which: Mask) -> Ints:
        """The shares of each of these orders of a side that may trade at a price."""
        limit, book = self.book.price, self.book
        is_near = limit >= price if side == BID else limit <= price
        is_near |= limit == PriceCode.MARKET
        found: Ints = book.quantity[which & (book.side == side) & is_near]
        return found

    def _at(self, price: int, which: Mask) -> list[int]:
        """How many shares of these orders may trade at a price on each side."""
        return [int(self._trading(price, side, which).sum()) for side in (BID, ASK)]

    def _least_volume(self) -> int:
        """The most shares that trade at some price by the orders that count in any case."""
        sure = ~self.may_be_out
        limits = {*self.book.price[sure & (self.book.price >= 0)].tolist(), self.judged.reference}
        return max(min(self._at(price, sure)) for price in limits)

    def possible(self) -> set[str]:
        """The items that may be lawful together: those that don't differ, and of others as many as
        may be beside these, the price first.
        """
        wrong = {it.item for it in self.judged.differences}
        found = {*PRICE_ITEMS} - wrong
        for item in PRICE_ITEMS:
            found |= {item} if self.are_possible(found | {item}) else set()
        return found

    def may_be(self, price: int) -> bool:
        """Whether the auction may have a price."""
        is_limit = price == self.judged.reference or (self.book.price == price).any()
        most = self._at(price, numpy.ones(len(self.book), bool))
        return bool(is_limit) and min(most) >= max(1, self._least_volume())

    def are_possible(self, items: Collection[str]) -> bool:
        """Whether these items that were published may be lawful together."""
        rows, place = self.rows, self.judged.place
        price = int(rows.price[place]) if "price" in items else PriceCode.UNSAID
        if price == PriceCode.NO_PRICE:
            return self._least_volume() == 0
        if price < 0:
            return True
        if not self.may_be(price):
            return False
        most = self._at(price, numpy.ones(len(self.book), bool))
        least = self._at(price, ~self.may_be_out)
        volume = int(rows.quantity[place]) if "volume" in items else CellCode.MISSING
        if volume < 0:
            return True
        if not min(least) <= volume <= min(most):
            return False
        surplus = int(rows.surplus[place]) if "surplus" in items else CellCode.MISSING
        sides = [int(rows.side[place])] if "side" in items and rows.side[place] >= 0 else [BID, ASK]
        both = [[volume + surplus * (side == it) for it in (BID, ASK)] for side in sides]
        is_odd = "side" in items and rows.side[place] >= 0 and (surplus > 0) != (max(sides) > 0)
        if surplus < 0:
            return max(sides) < BID or any(
                most[side - BID] > volume
                and self._add_up(price, BID + ASK - side, volume - least[ASK - side])
                for side in sides
            )
        return not is_odd and any(
            all(self._add_up(price, BID + at, due[at] - least[at]) for at in (0, 1)) for due in both
        )

    def _add_up(self, price: int, side: int, shares: int) -> bool:
        """Whether some orders of a side that may be out have so many shares together at a price."""
        own, sums = self._trading(price, side, self.may_be_out).tolist(), 1
        if shares < 0 or shares > sum(own):
            return False
        if sum(own) > MOST_SHARES or len(own) > MOST_UNSAID:
            return True
        for each in own:
            sums |= sums << each
        return bool(sums >> shares & 1)

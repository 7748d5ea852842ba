"""Rows that may take a trade or a fill out, or correct it: busts and rows of other events that
aren't read, each of one trade, and numbers of a sequence that no row has.
"""
import dataclasses
from collections.abc import Iterable, Sequence

import numpy

from callauction.verdict.cells import Ints, Mask
from callauction.verdict.comparing import Difference, KeyedFill, KeyedTrade, keys_of
from callauction.verdict.rows import BadRow, CellCode, Doubt, Kind, Rows

UNREAD = "a row that isn't read may take it out: {}"
MOST = 300
"""Of how many such rows it is looked at which trade each may take out."""


class Busts:
    """Such rows of a day."""

    def __init__(self, rows: Rows) -> None:
        self.rows = rows
        both = ((row, self._named(row)) for row in rows.bad
                if row.is_bust and not self._is_early(row))  # fmt: skip
        twice = 1 + bool(len(rows.of(Kind.FILL)))
        self.unread = [it for it in both for _ in range(1 if it[1] else twice)]
        """With the orders that each names; one without may take out both fills of a trade."""
        self.free = [named for row, named in self.unread if not self._is_one(row)]
        """The orders of each that may be a result or an order too, which explain more trades."""
        self.many = len(self.unread) - len(self.free)
        has_any = bool(len(rows.of(Kind.TAKEN)) or self.unread)
        self.lost = [it for it in rows.holes if has_any or it.is_trade]
        self.last = max((it.since for it in rows.holes if has_any), default=-1)
        """Above which place a bust may be missing that contradictions go by."""

    def _named(self, row: BadRow) -> set[int]:
        """The orders that a bad row names."""
        if row.place < 0:
            return set()
        rows, at = self.rows, row.place
        keys = {int(rows.key[at]), int(rows.bid[at]), int(rows.ask[at])}
        return keys - {CellCode.MISSING, CellCode.BAD}

    def _is_early(self, row: BadRow) -> bool:
        """Whether a row of another event is above all trades and fills, and not timed later, so
        that it takes none out.
        """
        rows, made = self.rows, self.rows.of(Kind.TRADE, Kind.FILL, Kind.TAKEN)
        if row.doubt is not Doubt.ANY or row.place < 0 or not len(made):
            return False
        is_below = row.place > made[0] or (rows.time[row.place] > rows.time[made]).any()
        return not is_below and not bool(rows.is_odd[row.place])

    def _is_one(self, row: BadRow) -> bool:
        """Whether a row is of one trade, as what names its bid or its ask is."""
        named = self.rows.bid[row.place], self.rows.ask[row.place]
        return row.doubt is Doubt.BUST or max(named) >= 0

    def _are_free(self, these: Ints) -> Mask:
        """Which of these trades and fills are above a hole, or named by rows of more trades."""
        keys = (self.rows.bid[these], self.rows.ask[these], self.rows.key[these])
        named = [*{key for own in self.free for key in own}]
        found: Mask = numpy.any([numpy.isin(it, named) for it in keys], axis=0)
        return found | (these <= self.last) | (not all(self.free))

    def why(self, each: Difference) -> str:
        """Why a recorded trade or fill may be wrong and the day lawful: a row that isn't read,
        which names one of its orders or none at all, or one that is missing below it, may take it
        out. A bust leaves the lawful one missing, which it excuses where that is of its orders.
        """
        for row, named in self.unread:
            is_near = not named or not named.isdisjoint(each.keys)
            if is_near and (row.doubt is Doubt.ANY or _is_its_own(each)):
                return UNREAD.format(row)
        return self._of_lost(each)

    def _of_lost(self, each: Difference) -> str:
        """Why a row that is missing below a trade or a fill of too many shares may take it out."""
        last = max(each.places, default=-1)
        hole = next((it for it in self.lost if it.since >= last), None)
        return f"a missing row may take it out: {hole}" if hole and each.excess > 0 else ""

    def taken(self, these: Ints) -> Mask:
        """Which of these trades and fills such a row may take out."""
        if not all(named for _, named in self.unread):
            return numpy.ones(len(these), bool)
        named = [*{key for _, own in self.unread for key in own}]
        keys = (self.rows.bid[these], self.rows.ask[these], self.rows.key[these])
        found: Mask = numpy.any([numpy.isin(it, named) for it in keys], axis=0)
        return found | (these <= self.last)

    def may_take(self, these: Ints) -> bool:
        """Whether all of these trades and fills may be taken out, each by a row of its own."""
        own = these[~self._are_free(these)]
        return len(own) <= self.many and bool(self.taken(own).all())

    def most(self, these: Ints) -> int:
        """The most shares of these trades and fills that such rows may take out."""
        is_lost, is_taken = self._are_free(these), self.taken(these)
        own = numpy.sort(self.rows.quantity[these[is_taken & ~is_lost]])[::-1]
        return int(self.rows.quantity[these[is_lost]].sum() + own[: self.many].sum())

    # ---- one trade for each row

    def limited(self, found: Iterable[Sequence[Difference]]) -> list[list[Difference]]:
        """The differences, certain where the rows that aren't read, each of which takes one trade
        out, don't suffice for all that are in doubt by them.
        """
        those = [[*each] for each in found]
        reasons = {UNREAD.format(row) for row, _ in self.unread}
        if not 0 < len(self.unread) <= MOST:
            return those
        own = [(number, at) for number, each in enumerate(those) for at, it in enumerate(each)
               if it.doubt in reasons and it.places and it.item != "count"
               and not any(not named or named & {*it.keys} for named in self.free)]  # fmt: skip
        by: dict[int, int] = {}
        for number, at in sorted(own, key=lambda it: len(those[it[0]][it[1]].places)):
            each = those[number][at]
            before, needs = dict(by), all if each.excess == 0 else any
            if not needs(it in by.values() or self._give(it, by, set()) for it in each.places):
                by = before
                those[number][at] = dataclasses.replace(each, doubt=self._of_lost(each))
        return those

    def _give(self, place: int, by: dict[int, int], tried: set[int]) -> bool:
        """Whether a row that isn't read is left for a trade, or another one is for one that has it;
        `by` has by these rows' numbers the trades that they take out.
        """
        keys = {int(it[place]) for it in (self.rows.key, self.rows.bid, self.rows.ask)}
        for number, (_, named) in enumerate(self.unread):
            if number in tried or named and not named & keys:
                continue
            tried.add(number)
            if number not in by or self._give(by[number], by, tried):
                by[number] = place
                return True
        return False


def _is_its_own(each: Difference) -> bool:
    """Whether a bust may leave nothing but a trade of its own orders missing."""
    one, other = each.recorded, each.lawful
    if isinstance(one, KeyedTrade | KeyedFill) and isinstance(other, KeyedTrade | KeyedFill):
        return each.excess > 0 or keys_of(one) == keys_of(other)
    return each.excess > 0 or isinstance(one, str)

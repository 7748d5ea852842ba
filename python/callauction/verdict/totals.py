"""Replaces that may say an order's whole quantity, and not what is open."""
import numpy

from callauction.verdict import time_columns
from callauction.verdict.coverage import PRICE_ITEMS
from callauction.verdict.doubts import Doubts
from callauction.verdict.paths import Judged, Judgement
from callauction.verdict.phases import recorded_sums
from callauction.verdict.rows import Kind, Rows


class Totals:
    """Whether the replaces of a judged day may be so."""

    def __init__(self, found: Judgement, rows: Rows, doubts: Doubts) -> None:
        self.found, self.rows, self.doubts = found, rows, doubts
        self.executed = [{*each.fills.keys.tolist()} for each in found.uncrosses]
        """The orders that each uncross executed."""

    def may_be(self) -> bool:
        """Whether a row replaces an order of which shares were executed above, and no order is
        replaced or executed once more below one that would have closed it, as it says no more
        shares than these.
        """
        rows, uncrosses, is_late = self.rows, self.found.uncrosses, False
        done, replaces = numpy.zeros(len(self.doubts.entered), "i8"), rows.of(Kind.REPLACE)
        ends = [*(each.place for each in uncrosses[1:]), len(rows.kind)]
        for each, end in zip(uncrosses, ends):
            done[each.fills.keys] += each.fills.shares
            these = replaces[(replaces > each.place) & (replaces < end)]
            these = these[done[rows.key[these]] > 0]
            is_late |= len(these) > 0
            closing = these[rows.quantity[these] <= done[rows.key[these]]]
            if any(self._is_known(it) and self._goes_on(it) for it in closing.tolist()):
                return False
        return is_late

    def _is_known(self, place: int) -> bool:
        """Whether nothing leaves open what was executed of a replace's order above it."""
        key, rows = int(self.rows.key[place]), self.found.bad_rows
        above = [it for it in zip(self.found.uncrosses, self.executed) if it[0].place < place]
        those = [each for judged, _ in above for each in judged.differences]
        is_open = any(key in each.keys or each.item in PRICE_ITEMS for each in those)
        is_behind = all(self._is_later(it.place, place) for it, keys in above if key in keys)
        return is_behind and not is_open and self.doubts.above(place, rows) is None

    def _goes_on(self, place: int) -> bool:
        """Whether an order is open below a row, as a later one replaces or executes it."""
        key, replaces = int(self.rows.key[place]), self.rows.of(Kind.REPLACE)
        own = replaces[(replaces > place) & (self.rows.key[replaces] == key)]
        if any(self._is_later(place, it) for it in own.tolist()):
            return True
        return any(self._executes(it, key) for it in self.found.uncrosses
                   if it.place > place and self._is_later(place, it.place))  # fmt: skip

    def _executes(self, judged: Judged, key: int) -> bool:
        """Whether trades or fills of an auction are of an order, and none of its is in question."""
        made = recorded_sums(self.rows, judged.traded, judged.filled)
        return key in made.keys and not any(key in each.keys for each in judged.differences)

    def _is_later(self, one: int, other: int) -> bool:
        """Whether a row below another is of a later moment, as far as times say it."""
        rows = self.rows
        if rows.group[one] == rows.group[other]:
            return False
        both = int(rows.time[one]), int(rows.time[other])
        return time_columns.NO_TIME in both or both[1] - both[0] >= rows.slack

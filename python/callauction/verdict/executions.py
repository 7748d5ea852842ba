"""The recorded trades and fills of each uncross, and how they differ from the lawful ones."""
import dataclasses

import numpy

from callauction.verdict import time_columns
from callauction.verdict.cells import NO_ROWS, Ints
from callauction.verdict.comparing import (
    NAMED, Compared, Difference, compared_fills, compared_trades,
)  # fmt: skip
from callauction.verdict.day_rows import DayRows
from callauction.verdict.doubts import Doubts
from callauction.verdict.paths import Moment
from callauction.verdict.phases import NOTHING, Result, StandingBook
from callauction.verdict.rows import AuctionCode, CellCode, PriceCode


class Executions:
    """Which trades and fills of a day are of which uncross, and how they differ."""

    def __init__(self, day: DayRows, doubts: Doubts) -> None:
        self.day, self.rows, self.doubts = day, day.rows, doubts
        self.stamps = numpy.full(len(self.rows.kind), CellCode.MISSING, "i8")
        """By its row what a trade or a fill says of its uncross: its time, or its auction."""
        self.traded, self.filled = self._by_uncross(day.traded), self._by_uncross(day.filled)

    def _by_uncross(self, these: Ints) -> dict[int, Ints]:
        """Rows of trades or fills by the auction that they name, or by the number of the uncross
        nearest in time, or else of the one above. Uncrosses that are recorded as interrupted have
        none.
        """
        rows, uncrosses, due = self.rows, self.day.uncrosses, self.day.due
        done = numpy.flatnonzero(rows.auction[uncrosses] != AuctionCode.INTERRUPTED)
        named = rows.auction[these].astype("i8") - 1
        by = numpy.full(len(these), CellCode.MISSING, "i8")
        at = rows.time[uncrosses]
        if len(done):
            by = done[numpy.maximum(numpy.searchsorted(uncrosses[done], these) - 1, 0)]
        if len(done) and len(these) and (at != time_columns.NO_TIME).all():
            timed = rows.time[these] != time_columns.NO_TIME
            own = numpy.where(timed, rows.time[these], 0)[:, None]
            by = numpy.where(timed, done[numpy.abs(own - at[done]).argmin(1)], by)
            self.stamps[these] = numpy.where(timed, numpy.abs(own - at).argmin(1), CellCode.MISSING)
        is_named = named >= 0
        self.stamps[these[is_named]] = NAMED + named[is_named]
        is_once = numpy.isin(named, [it for it in due if due.count(it) == 1])
        by = numpy.where(is_once, NAMED + named, by)
        return {int(it): these[by == it] for it in numpy.unique(by)}

    def of(self, number: int) -> tuple[Ints, Ints]:
        """The trades and the fills of an uncross, or of a named auction."""
        return self.traded.get(number, NO_ROWS), self.filled.get(number, NO_ROWS)

    def with_named(self, moment: Moment) -> Moment:
        """A moment with the trades and fills that name its auction too."""
        both = zip((moment.traded, moment.filled), self.of(NAMED + moment.auction))
        traded, filled = (numpy.concatenate(each) for each in both)
        return dataclasses.replace(moment, traded=traded, filled=filled)

    def named(self, auction: int) -> list[Difference]:
        """The trades and fills that name an auction, as extra ones."""
        traded, filled = self.of(NAMED + auction)
        made = self._trades(traded, NOTHING, PriceCode.UNSAID)
        return [*made.differences, *self._fills(filled, NOTHING, PriceCode.UNSAID)]

    def compared(
        self, moment: Moment, book: StandingBook, result: Result, is_wrong: bool
    ) -> tuple[list[Difference], int]:
        """How an auction's trades and fills differ, and how many lawful pairs are recorded;
        `is_wrong` says that its price isn't lawful.
        """
        rows, place, traded, filled = self.rows, moment.place, moment.traded, moment.filled
        says_none = is_wrong and rows.price[place] == PriceCode.NO_PRICE
        allowed = int(rows.price[place]) if is_wrong and not says_none else PriceCode.UNSAID
        made, found = Compared([], 0), list[Difference]()
        if self.day.has_trades and (len(traded) or not says_none):
            made = self._trades(traded, result, allowed)
        if self.day.has_fills and (len(filled) or not says_none):
            found = self._fills(filled, result, allowed)
        found = [*made.differences, *found]
        if found:
            found = self.doubts.doubted_trades(found, made.by_order, moment, book, result)
            found = self._without_outside(found, moment, result, allowed)
        return found, made.pairs

    def _without_outside(
        self, found: list[Difference], moment: Moment, result: Result, allowed: int
    ) -> list[Difference]:
        """The differences of trades, or those without what may be of no auction, which is in doubt
        then: whichever are certain less often.
        """
        outside = self.doubts.outside(moment.traded, moment.place)
        if not len(outside) or len(moment.filled):
            return found
        own = moment.traded[~numpy.isin(moment.traded, outside)]
        inner = self._trades(own, result, allowed).differences
        outer = self._trades(outside, NOTHING, PriceCode.UNSAID).differences
        fewer = len(inner) < sum(not each.doubt for each in found)
        return [*inner, *map(self.doubts.stray, outer)] if fewer else found

    def _trades(self, traded: Ints, result: Result, allowed: int) -> Compared:
        """These trades compared with a result; a price that is allowed is no difference."""
        return compared_trades(self.rows, traded, result, self.day.owners, allowed, self.stamps)

    def _fills(self, filled: Ints, result: Result, allowed: int) -> list[Difference]:
        """These fills compared with a result; a price that is allowed is no difference."""
        return compared_fills(self.rows, filled, result, self.day.owners, allowed, self.stamps)

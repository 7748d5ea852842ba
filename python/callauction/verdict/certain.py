"""What no book could give, whatever wasn't read: trades of one auction at two prices, shares that
don't add up to the published volume, and executions beyond every limit that an order had.
"""
from collections.abc import Iterator

import numpy

from callauction.verdict.cells import Ints, Mask
from callauction.verdict.comparing import Difference, KeyedTrade
from callauction.verdict.doubts import Doubts
from callauction.verdict.rows import INTERRUPTED, AuctionCode, CellCode, Kind, PriceCode, Rows
from callauction.words import AUCTIONS

ONE_PRICE = "All trades of an auction are at its one price."
PRICE_RULE = "All trades of an auction are at its published price."
SUM_RULE = "The shares of each side's executed orders add up to the volume."
LIMIT_RULE = "No order is executed beyond its limit."
STOPS = "An uncross that is interrupted has a price, and executes nothing."

RULES = (ONE_PRICE, PRICE_RULE, SUM_RULE, LIMIT_RULE, STOPS)


def with_certain(
    differences: tuple[Difference, ...], found: list[Difference]
) -> tuple[Difference, ...]:
    """The differences with those that are certain whatever wasn't read, in place of a doubtful one
    of the same item and rows. Trades beside a price that is wrong are no more than that.
    """
    if any(it.item == "price" and not it.doubt for it in differences):
        found = [it for it in found if it.rule != PRICE_RULE]
    kept = [
        each for each in differences
        if not any(it.item == each.item and {*it.places} & {*each.places} for it in found)
    ]  # fmt: skip
    return (*kept, *found)


class Certain:
    """The contradictions of a day's rows, by what they say alone."""

    def __init__(self, rows: Rows, doubts: Doubts, due: int, entered: Ints) -> None:
        self.rows, self.doubts, self.entered = rows, doubts, entered
        self.busts = doubts.busts
        held = (rows.auction[doubts.uncrosses] != AuctionCode.INTERRUPTED).sum()
        of_books = (row.place for row in rows.bad if row.is_blank)
        self.is_blank = any(place < 0 or rows.key[place] < 0 for place in of_books)
        """Whether it isn't known of some row which order it is of, if of any."""
        self.is_whole = bool(held >= due)
        """Whether there is a row uncross for each auction."""

    @property
    def has_all(self) -> bool:
        """Whether no row of an uncross can be missing."""
        return self.is_whole and not self.is_blank and self.doubts.gap is None

    def of(self, place: int, auction: int, traded: Ints, filled: Ints) -> list[Difference]:
        """The contradictions of an auction's uncross at a place with its trades and fills."""
        if self.rows.auction[place] == AuctionCode.INTERRUPTED:
            if self.rows.price[place] != PriceCode.NO_PRICE and self.rows.count[place] <= 0:
                return []
            # an interruption without a price, or with trades
            names = INTERRUPTED, AUCTIONS[auction]
            return [Difference("auction", *names, (place,), rule=STOPS)]
        these = numpy.concatenate([traded, filled])
        own = these[~numpy.isin(these, self.doubts.outside(these, place))]
        state = self.rows.auction
        if not self.has_all or 0 < state[place] != 1 + auction:
            own = own[(state[own] > 0) & (state[own] == state[place])]
        found = [*self._limits(place, traded[~self.busts.taken(traded)])]
        if len(own) == len(these) and len(own):
            found += [*self._volume(place, traded, filled)]
        return [*found, *self.prices(place, own)]

    def prices(self, place: int, these: Ints) -> Iterator[Difference]:
        """Trades of one auction at two prices, or at another one than the published, of which rows
        that aren't read don't take as many out as needed.
        """
        rows, published = self.rows, int(self.rows.price[place])
        these = these[(rows.price[these] >= 0) & (these > self.busts.last)]
        sure = these[~self.busts.taken(these)]
        at = rows.price[these]
        is_open = {it: self.busts.may_take(these[at != it]) for it in {*at.tolist(), published}}
        prices = numpy.unique(rows.price[sure] if len(sure) else at)
        prices = prices if len(prices) > 1 or published not in prices else numpy.unique(at)
        first = (*(int(these[at == it][0]) for it in prices),)
        text = f"trades at {' and '.join(str(rows.prices[it]) for it in prices[:3])}"
        is_said = published not in (PriceCode.UNSAID, PriceCode.NO_PRICE)
        if len(prices) > 1 and not any(is_open[it] for it in prices.tolist()):
            yield Difference("trade", text, "at one price", first, rule=ONE_PRICE)
        elif len(prices) and is_said and not is_open[published]:
            due = f"at the published {rows.prices[published]}"
            yield Difference("trade", text, due, first, rule=PRICE_RULE)

    def _volume(self, place: int, traded: Ints, filled: Ints) -> Iterator[Difference]:
        """Shares that don't add up to the published volume."""
        rows, volume = self.rows, int(self.rows.quantity[place])
        if volume < 0:
            return
        sides = [traded]
        if not len(traded):
            owners = self.entered[rows.key[filled]]
            if (owners < 0).any():
                return
            sides = [filled[rows.side[owners] == side] for side in (1, 2)]
        end = self.doubts.why_executions_missing(place, traded, filled, volume)
        excused = bool(self.doubts.why_missing(None) or rows.dropped or end)
        for those in sides:
            added = int(rows.quantity[those].sum())
            least = added - self.busts.most(those)
            if least > volume or added < volume and not excused:
                yield Difference("volume", volume, added, (place,), rule=SUM_RULE)
                return

    def _limits(self, place: int, traded: Ints) -> Iterator[Difference]:
        """Trades beyond every limit that an order had."""
        rows = self.rows
        if self.is_blank:
            return
        price = numpy.where(rows.price[traded] >= 0, rows.price[traded], rows.price[place])
        lost = (it.since for it in rows.holes if it.is_blank and it.since < place)
        is_below = self.entered > max(lost, default=-1)
        for side, keys in ((1, rows.bid), (2, rows.ask)):
            worst, is_known = self._worst(side)
            key = keys[traded]
            beyond = (price - worst[key]) * (1 if side == 1 else -1) > 0
            beyond &= is_known[key] & is_below[key] & (price >= 0)
            for at in numpy.flatnonzero(beyond).tolist():
                row = int(traded[at])
                pair = int(rows.bid[row]), int(rows.ask[row])
                one = KeyedTrade(*pair, int(rows.quantity[row]), int(price[at]))
                yield Difference("trade", one, None, (row,), (int(key[at]),), rule=LIMIT_RULE)

    def _worst(self, side: int) -> tuple[Ints, Mask]:
        """By key the worst limit of a side's orders, and whether all rows are read and have one."""
        rows = self.rows
        limits = rows.of(Kind.NEW, Kind.REPLACE)
        key, at = rows.key[limits], rows.price[limits].astype("i8")
        worst = numpy.full(len(self.entered), CellCode.MISSING, "i8")
        order = numpy.argsort(at if side == 1 else -at, kind="stable")
        worst[key[order]] = at[order]
        is_known = self.entered >= 0
        is_known[is_known] = rows.side[self.entered[is_known]] == side
        is_known[key[at == PriceCode.MARKET]] = False
        odd = [row.place for row in rows.bad if row.place >= 0]
        is_known[rows.key[odd]] = False
        return worst, is_known

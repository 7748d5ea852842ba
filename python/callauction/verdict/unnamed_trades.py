"""Trades and fills that name no auction: in a call phase, or of one whose result has no row."""
import itertools
from collections.abc import Iterator, Sequence

import numpy

from callauction.verdict import time_columns
from callauction.verdict.cells import Ints, Mask
from callauction.verdict.rows import AuctionCode, Kind, Rows
from callauction.words import AUCTIONS

LONGEST_CALL = 1800 * time_columns.SECOND
"""How long before its result, in nanoseconds, a trade may be of that auction."""


class Strays:
    """Where such trades and fills are, by times where all have one, else by places. `orders` are
    the rows of orders with those that can't be read.
    """

    def __init__(self, rows: Rows, orders: Ints, uncrosses: Ints) -> None:
        kind = rows.kind
        self.rows, self.orders, self.uncrosses = rows, orders, uncrosses
        made = ((kind == Kind.TRADE) | (kind == Kind.FILL)) & (rows.auction <= 0)
        self.made: Ints = numpy.flatnonzero(made)
        parts = (self.made, orders, uncrosses)
        self.is_timed = all((rows.time[these] != time_columns.NO_TIME).all() for these in parts)
        self.at, self.spots = self._by(self.made), numpy.sort(self._by(orders))

    def _by(self, these: Ints) -> Ints:
        """The times of these rows, or their places."""
        return self.rows.time[these] if self.is_timed else these.astype("i8")

    def _around(self, ends: Ints) -> tuple[Ints, Ints, Ints, Mask, Mask]:
        """By trade how many results are before it, the last of these and the next, and whether
        orders are between it and either: times or places, as _by has them.
        """
        stops, spots, at = numpy.sort(self._by(ends)), self.spots, self.at
        count = numpy.searchsorted(stops, at, "right")
        before = numpy.concatenate([[time_columns.NO_TIME], stops])[count]
        after = numpy.concatenate([stops, [numpy.iinfo("i8").max]])[count]
        began = numpy.searchsorted(spots, at) > numpy.searchsorted(spots, before, "right")
        goes_on = numpy.searchsorted(spots, after) > numpy.searchsorted(spots, at, "right")
        return count, before, after, began, goes_on

    def within(self) -> Ints:
        """Those within a call phase, or of continuous trading before one: rows of orders are before
        them and after them, or the next result is later by more than LONGEST_CALL.
        """
        count, before, after, began, goes_on = self._around(self.uncrosses)
        if self.is_timed and len(self.orders):
            above, below, is_own = self._beside()
            began |= above & (self.at > before)
            goes_on |= (below | is_own) & (self.at < after)
            goes_on |= self.at + LONGEST_CALL < after
        return self.made[began & goes_on & (count < len(self.uncrosses))]

    def _beside(self) -> tuple[Mask, Mask, Mask]:
        """Whether the orders' rows above and below have its time, and that above its order."""
        rows, orders, made, time = self.rows, self.orders, self.made, self.rows.time
        place = numpy.searchsorted(orders, made)
        above, below = orders[numpy.maximum(place - 1, 0)], orders[place % len(orders)]
        is_above = (above < made) & (time[above] == time[made])
        keys = (rows.bid[made], rows.ask[made], rows.key[made])
        is_own = numpy.any([it == rows.key[above] for it in keys], axis=0) & is_above
        return is_above, (below > made) & (time[below] == time[made]), is_own

    def auctions(self, due: Sequence[int]) -> dict[int, tuple[str, ...]]:
        """Where results are fewer than auctions: by the places of these, and of trades and fills
        that are away from all of them (rows of orders are between, or more than a second), of which
        auctions each may be.
        """
        ends = self.uncrosses[self.rows.auction[self.uncrosses] != AuctionCode.INTERRUPTED]
        if len(ends) >= len(due) or len({*due}) < len(due):
            return {}
        count, before, after, began, goes_on = self._around(ends)
        if self.is_timed:
            began |= before + time_columns.SECOND < self.at
            goes_on |= self.at + time_columns.SECOND < after
        is_away = (began | (count == 0)) & (goes_on | (count == len(ends)))
        blocks = [*zip(count.tolist(), numpy.searchsorted(self.spots, self.at).tolist())]
        held = [(number, -1) for number in range(1, 1 + len(ends))]
        held = sorted({*held, *itertools.compress(blocks, is_away)})
        names = (self.rows.auction[ends] - 1).tolist()
        found = dict(zip(held, self._held(held, names, due)))
        made = [*itertools.compress(zip(self.made.tolist(), blocks), is_away)]
        made += [(at, (number, -1)) for number, at in enumerate(ends.tolist(), 1)]
        return {place: found[it] for place, it in made if found[it]}

    def _held(
        self, held: Sequence[tuple[int, int]], names: Sequence[int], due: Sequence[int]
    ) -> Iterator[tuple[str, ...]]:
        """Of which auctions each result and each block of trades may be, of which there are these,
        by how many results are before them or are they; results have these names, -1 for none.
        """
        known = {number: due.index(name) for number, name in enumerate(names, 1) if name in due}
        entries = self._by(self.rows.of(Kind.NEW, Kind.REPLACE))
        last_entry = entries.max(initial=time_columns.NO_TIME)
        for place, (number, block) in enumerate(held):
            if block < 0 <= names[number - 1]:
                yield (AUCTIONS[names[number - 1]],)
                continue
            own = number - (block < 0)
            first = max([own, *(1 + known[it] for it in known if it <= own)])
            later = (known[it] for it in known if it > number)
            last = min([len(due) - len(names) + number, *later])
            if len(held) == len(due):
                first, last = max(first, place), min(last, place + 1)
            elif number == len(names) and block > 0 and last_entry > self.spots[block - 1]:
                last = max(first + 1, last - 1)  # as orders are entered below
            yield tuple(AUCTIONS[it] for it in due[first:last])

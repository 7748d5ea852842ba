"""Rows of one time, of which nothing says which was first: which other orders there are."""
import itertools
import math
from collections.abc import Iterator

import numpy

from callauction.verdict.cells import Ints, Mask
from callauction.verdict.phases import Result, StandingBook, sums
from callauction.verdict.rows import Kind, Rows
from callauction.verdict.time_columns import NO_TIME

MOST_CUTS, MOST_ORDERINGS = 64, 24
"""How many moments of one time, and how many orders of the rows of one order, are tried."""


class Ties:
    """The rows of orders of one time."""

    def __init__(self, rows: Rows, orders: Ints) -> None:
        self.rows, self.orders = rows, orders

    def cuts(self, place: int, these: Ints) -> Iterator[tuple[Ints, str]]:
        """A call phase's rows, cut at another row of the uncross's time, and why they may be."""
        end = int(numpy.searchsorted(self.orders, place))
        above, below = self._tied(place)
        begin = end - len(these)
        for cut in range(max(begin, end - above), end + below + 1):
            if cut != end:
                first = self.orders[min(cut, end)]
                yield self.orders[begin:cut], self._one_time(int(first), place)

    def _tied(self, place: int) -> tuple[int, int]:
        """How many rows of orders next above and below an uncross may be of either side of it."""
        if self.rows.is_cut:
            return 0, 0
        end, same = int(numpy.searchsorted(self.orders, place)), self._same(place)
        return _leading(same[:end][::-1][:MOST_CUTS]), _leading(same[end:][:MOST_CUTS])

    def _same(self, place: int) -> Mask:
        """Which rows of orders may be of an uncross's moment."""
        rows, at = self.rows, self.rows.time[self.orders]
        same: Mask = rows.group[self.orders] == rows.group[place]
        if rows.slack and rows.time[place] != NO_TIME:
            same |= (numpy.abs(at - rows.time[place]) < rows.slack) & (at != NO_TIME)
        return same

    def untried(self, place: int) -> str:
        """Why an uncross of a coarser time is in doubt: more rows may be of it than are tried."""
        end, tied = int(numpy.searchsorted(self.orders, place)), self._tied(place)
        if not self.rows.slack or MOST_CUTS not in tied:
            return ""
        return self._one_time(int(self.orders[end - 1 if tied[0] else end]), place)

    def over(self, place: int, keys: set[int]) -> list[tuple[Ints, str]]:
        """The places of all rows where an uncross is above or below one row of its time, or all of
        them, and why; none where no such row is of one of these orders, if there are any.
        """
        end, (above, below) = int(numpy.searchsorted(self.orders, place)), self._tied(place)
        those = self.orders[end - above : end + below]
        if keys and not keys & {*self.rows.key[those].tolist()}:
            return []
        spots, found = numpy.insert(those, above, place), []
        for at in {0, above - 1, above + 1, above + below} - {above, -1, above + below + 1}:
            moved = numpy.arange(len(self.rows.kind))
            moved[spots] = numpy.insert(those, at, place)
            found.append((moved, self._one_time(int(those[min(at, above)]), place)))
        return found

    def _one_time(self, one: int, other: int) -> str:
        rows = f"rows {self.rows.labels[one]} and {self.rows.labels[other]}"
        is_one = self.rows.group[one] == self.rows.group[other]
        own = "have one time" if is_one else "have one time as far as results say it"
        return f"{rows} {own}, and nothing says which was first"

    def _sets(self, these: Ints) -> list[list[int]]:
        """The replaces of one order at one time, with cancels of some of its shares, where their
        order may decide something.
        """
        rows = self.rows
        if rows.is_ordered:
            return []
        order = these[numpy.argsort(rows.key[these], kind="stable")]
        one, two = order[:-1], order[1:]
        same = (rows.key[one] == rows.key[two]) & (rows.group[one] == rows.group[two])
        parts = (rows.kind == Kind.CANCEL) & (rows.quantity > 0)
        are = [(rows.kind[it] == Kind.REPLACE) | parts[it] for it in (one, two)]
        free = same & are[0] & are[1] & ~(parts[one] & parts[two])
        differs = (rows.kind[one] != rows.kind[two]) | (rows.price[one] != rows.price[two])
        differs |= rows.kept[one] != rows.kept[two]
        free &= differs | (rows.quantity[one] != rows.quantity[two])
        sets: dict[tuple[int, int], list[int]] = {}
        for place in numpy.unique(numpy.concatenate([one[free], two[free]])).tolist():
            sets.setdefault((int(rows.key[place]), int(rows.group[place])), []).append(place)
        return [*sets.values()]

    def carried(self, book: StandingBook, above: Ints) -> str:
        """Why the book before a phase is in doubt: ties of its orders that are too many to try."""
        if self.orders_of_ties(self.orders)[1] is not None:
            return ""
        sets = [those for those in self._sets(above) if (book.key == self.rows.key[those[0]]).any()]
        return self._one_time(*sets[0][:2]) if sets else ""

    def orders_of_ties(self, these: Ints) -> tuple[str, list[Ints] | None]:
        """Why replaces of one time may be in other orders, and these; None for too many."""
        sets = self._sets(these)
        if not sets:
            return "", []
        why = self._one_time(*sets[0][:2])
        if math.prod(math.factorial(len(those)) for those in sets) > MOST_ORDERINGS:
            return why, None
        found = []
        for ways in itertools.product(*[itertools.permutations(those) for those in sets]):
            other = these.copy()
            for those, way in zip(sets, ways):
                other[numpy.searchsorted(these, those)] = way
            found.append(other)
        return why, found[1:]

    def of_shares(
        self, book: StandingBook, auction: int, result: Result, traded: Ints, filled: Ints
    ) -> str:
        """Why the shares of both sides may be lawful: rows of one time came in another order."""
        rows = self.rows
        these = traded if len(traded) else filled
        has_ties = len(numpy.unique(rows.group[book.since])) < len(book)
        if result.price is None or not len(these) or not has_ties:
            return ""
        own = book.counted(auction)
        reasons = []
        for side, keys in ((1, rows.bid), (2, rows.ask)):
            at = keys[these] if len(traded) else rows.key[these]
            done = sums(at, rows.quantity[these])
            most = max(done.keys.max(initial=0), book.key.max(initial=0))
            by_key = numpy.zeros(int(most) + 1, "i8")
            by_key[done.keys] = done.shares
            shares, those = by_key[book.key], (book.side == side) & own
            is_whole = shares[those if len(traded) else own].sum() == done.shares.sum()
            why = self._shared(book, those, shares, result) if is_whole else None
            if why is None:
                return ""
            reasons.append(why)
        return next(filter(None, reasons), "")

    def _shared(self, book: StandingBook, those: Mask, shares: Ints, result: Result) -> str | None:
        """Why a side's shares are lawful in another order of one time; None where they aren't."""
        rows = self.rows
        these = book.ranked(those)
        group, level = rows.group[book.since[these]], book.price[these]
        step = (group[1:] != group[:-1]) | (level[1:] != level[:-1])
        begins = numpy.flatnonzero(numpy.concatenate([[True], step])[: len(these)])
        if not len(begins):
            return None if result.volume else ""
        quantity, done = book.quantity[these], shares[these]
        whole, found = (numpy.add.reduceat(it, begins) for it in (quantity, done))
        ends = numpy.cumsum(whole)
        due = numpy.clip(result.volume - (ends - whole), 0, whole)
        parts = numpy.add.reduceat(((done > 0) & (done < quantity)).astype("i8"), begins)
        if (found != due).any() or (done > quantity).any() or parts.max() > 1:
            return None
        at = begins[min(int(numpy.searchsorted(ends, result.volume)), len(begins) - 1)]
        tied = book.since[these[at : at + 2]].tolist()
        return self._one_time(*tied) if len(tied) > 1 else ""


def _leading(values: Mask) -> int:
    """How many values are true before the first that isn't."""
    return int(values.argmin()) if not values.all() else len(values)

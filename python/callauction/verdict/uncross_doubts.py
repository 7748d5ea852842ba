"""Why what differs at an uncross is in doubt: for the books above it, for the name of its auction,
for an interruption that isn't said, or for a count that no law gives.
"""
import dataclasses
from collections.abc import Collection

import numpy

from callauction.verdict.certain import Certain, with_certain
from callauction.verdict.comparing import PRIORITY, Difference, doubted
from callauction.verdict.coverage import PRICE_ITEMS
from callauction.verdict.day_rows import DayRows
from callauction.verdict.doubts import BookDoubt, Doubts
from callauction.verdict.paths import Judged, Moment, Path
from callauction.verdict.phases import Result, StandingBook, Taken
from callauction.verdict.rows import AuctionCode, BadRow, Rows
from callauction.words import AUCTIONS

NO_STOPS = "no row can say that an uncross was interrupted before, as it may have been"
NO_RANGE = "--range isn't said, so it isn't known what interrupts an uncross"
Items = dict[str, Difference | None]
"""By its name each item that was compared, None where it is lawful."""
Mark = tuple[object, ...]
"""By what a difference is known in another judgement."""


def marked(each: Difference, rows: Rows) -> Mark:
    """What is recorded in a difference, or else lawful, where in the table, and its own rule."""
    places = frozenset(rows.spots[[*each.places]].tolist())
    return each.item, places, each.recorded or each.lawful, each.rule


class UncrossDoubts:
    """The doubts of the differences of an uncross on a path of the day, by those of its rows."""

    def __init__(self, day: DayRows, doubts: Doubts, certain: Certain) -> None:
        self.day, self.rows, self.doubts, self.certain = day, day.rows, doubts, certain

    # ---- books

    def why(self, path: Path, place: int) -> str:
        """Why what is recorded at a place is in doubt, whatever its sums are."""
        doubt = self.doubts.above(place, path.refused)
        return path.doubt or ("" if doubt is None or doubt.lacks_orders else doubt.text)

    def doubted_books(
        self, differences: tuple[Difference, ...], items: Items, moment: Moment, taken: Taken
    ) -> tuple[Difference, ...]:
        """The differences of an uncross in doubt where its book is."""
        doubt = self._book_doubt(moment, (*moment.path.refused, *taken.refused))
        if doubt is None:
            return differences
        return self._with_book_doubt(differences, items, doubt, moment, taken.book)

    def _book_doubt(self, moment: Moment, refused: tuple[BadRow, ...]) -> BookDoubt | None:
        """Why the book of an uncross is in doubt, if it is."""
        if moment.path.doubt:
            return BookDoubt(moment.path.doubt)
        return self.doubts.above(moment.place, refused)

    def _with_book_doubt(
        self, differences: tuple[Difference, ...], items: Items, doubt: BookDoubt, moment: Moment,
        book: StandingBook,
    ) -> tuple[Difference, ...]:  # fmt: skip
        """The differences in their book's doubt, but for those that a missing order can't change,
        where no execution above of their orders is in doubt: whether a replace kept its place, and
        all where the sums at the price are those of the book, and no such order is in it.
        """
        above = moment.path.judged
        found = self._doubted(differences, doubt.text, moment.place, above)
        if not doubt.lacks_orders:
            return found
        is_fixed = all(item in items and items[item] is None for item in PRICE_ITEMS)
        open_ones = (each for it in above for each in it.differences if each.doubt)
        touched = {key for each in open_ones for key in each.keys}
        is_fixed = is_fixed and not touched & {*book.key.tolist()}
        return tuple(
            one if (is_fixed or one.item == PRIORITY) and not touched & {*one.keys} else other
            for one, other in zip(differences, found)
        )

    def with_doubt(
        self, path: Path, differences: tuple[Difference, ...], why: str,
        left: Collection[Mark] = (),
    ) -> Path:  # fmt: skip
        """The path with these differences of its last uncross in doubt, but for those that no book
        could give, and those in `left`.
        """
        last, above = path.judged[-1], path.judged[:-1]
        certain = self.certain.of(last.place, last.auction, last.traded, last.filled)
        kept = [it for it in differences if marked(it, self.rows) in left]
        others = tuple(it for it in differences if marked(it, self.rows) not in left)
        found = (*kept, *self._doubted(others, why, last.place, above))
        found = with_certain(found, certain)
        return dataclasses.replace(path.with_last(differences=found), doubt=path.doubt or why)

    def left_in(self, other: Judged) -> set[Mark]:
        """What a judgement leaves certain, or has in doubt for an order alone that no row enters,
        which no reading enters.
        """
        unknown = self.doubts.unknown
        return {
            marked(it, self.rows)
            for it in other.differences
            if not it.doubt or unknown and it.doubt == unknown.text
        }

    # ---- the name of an auction

    def why_auction(self, path: Path, place: int) -> str:
        """Why it is in doubt of which auction an uncross behind a path is."""
        return self._why_name(path.judged, place, self.why(path, place))

    def _why_name(self, above: tuple[Judged, ...], place: int, why: str) -> str:
        """Why the name of an auction is in doubt, of which books decide nothing where all above it
        have theirs: else one above may be interrupted by a book.
        """
        names = [it for each in above for it in each.differences if it.item == "auction"]
        why_books = why or next(filter(None, (it.doubt for it in names)), "")
        return self.doubts.why_name(place) or (why_books if names else "")

    def _doubted(
        self, differences: tuple[Difference, ...], why: str, place: int, above: tuple[Judged, ...]
    ) -> tuple[Difference, ...]:
        """These differences in doubt; the name of an auction for a reason of its own alone."""
        why_name = self._why_name(above, place, why)
        both = ((it, {it.recorded, it.lawful} <= {*AUCTIONS}) for it in differences)
        return tuple(doubted([it], why_name if is_name else why)[0] for it, is_name in both)

    # ---- interruptions and counts

    @property
    def unsaid_stop(self) -> str:
        """Why an uncross may have been interrupted before: its row can't say so."""
        return NO_STOPS if self.rows.makes_results else ""

    def doubt_stop(self, items: Items, why: str = "") -> None:
        """An interruption where the auction's end is lawful is in doubt without a range."""
        if not self.day.rules.has_range:
            why = NO_RANGE
        wrong = items.get("auction")
        if wrong is not None:
            items["auction"] = dataclasses.replace(wrong, doubt=why)

    def doubted_stop(self, place: int, found: list[Difference]) -> list[Difference]:
        """The trades and fills of an uncross that is recorded as interrupted, which are in doubt
        without a range.
        """
        if self.rows.auction[place] == AuctionCode.INTERRUPTED and not self.day.rules.has_range:
            return [*doubted(found, NO_RANGE)]
        return found

    def doubt_count(
        self, place: int, items: Items, found: list[Difference], result: Result, many: int
    ) -> None:
        """A count follows from the pairing, which isn't law, and from as many trades as it says."""
        count, recorded = items.get("count"), int(self.rows.count[place])
        if count is None:
            return
        bids, asks = len(numpy.unique(result.bid)), len(numpy.unique(result.ask))
        open_ones = [it for it in found if it.doubt and not self.doubts.is_stray(it)]
        why = next((it.doubt for it in open_ones), "")
        if self.day.has_trades and recorded == many:
            items["count"] = None
        elif not self.day.has_trades and max(bids, asks) <= recorded <= bids * asks:
            why = "another pairing has another count"
            items["count"] = dataclasses.replace(count, doubt=why)
        elif recorded >= many or any(it.excess > 0 for it in open_ones):
            items["count"] = dataclasses.replace(count, doubt=why)

"""What a day is judged as: its uncrosses, and the paths on which it may have come to them."""
import dataclasses
from collections import Counter
from collections.abc import Mapping, Sequence

from callauction.verdict.cells import NO_ROWS, Ints
from callauction.verdict.comparing import Difference
from callauction.verdict.phases import Result, StandingBook, Sums, empty
from callauction.verdict.rows import BadRow, PriceCode


@dataclasses.dataclass(frozen=True)
class PathState:
    """What is open before a call phase, the number of the reference, the shares of each order that
    were executed where replaces say totals, whether the auction was interrupted before, and the
    number of the current auction among those of the day.
    """

    book: StandingBook
    reference: int
    executed: Ints | None
    is_extended: bool = False
    ended: int = 0
    second: int = PriceCode.UNSAID
    """The number of the second reference; after an auction with a price it is that price."""


@dataclasses.dataclass(frozen=True)
class Judged:
    """An uncross: its row, its auction, the book, what the rules give, and how what was published
    differs. `result` is None after the day's end, or where the program can't hold the book.
    """

    place: int
    auction: int
    differences: tuple[Difference, ...]
    result: Result | None = None
    book: StandingBook = dataclasses.field(default_factory=empty)
    reference: int = PriceCode.UNSAID
    is_extended: bool = False
    """Whether the auction was interrupted before."""
    is_interrupted: bool = False
    items: frozenset[str] = frozenset()
    traded: Ints = dataclasses.field(default_factory=lambda: NO_ROWS)
    filled: Ints = dataclasses.field(default_factory=lambda: NO_ROWS)
    pairs: int = 0
    """How many lawful pairs of orders were recorded as they are."""
    is_ended: bool = False
    """Whether the auction is over after the uncross."""
    fills: Sums = Sums(NO_ROWS, NO_ROWS)
    """The shares by which the day goes on."""
    taken: int = 0
    """How many rows of orders are before it."""
    beyond: str = ""
    second: int = PriceCode.UNSAID
    """The number of the second reference."""
    name: str = ""
    """Of which auctions it may be, where that isn't known."""

    @property
    def certain(self) -> list[Difference]:
        """The differences that are certain."""
        return [each for each in self.differences if not each.doubt]


@dataclasses.dataclass(frozen=True)
class Judgement:
    """All uncrosses of a day in their order, how many were due, the rows that couldn't be read or
    that the rules refuse, and what is worth to know. `has_trades` and `has_fills` say what the
    extract has of any auction; `doubt` why what is lawful may be none.
    """

    uncrosses: tuple[Judged, ...]
    due: int
    bad_rows: tuple[BadRow, ...]
    notes: Counter[str]
    has_trades: bool
    has_fills: bool
    doubt: str = ""

    @property
    def unlawful(self) -> set[int]:
        """The places of the uncrosses with certain differences."""
        return {each.place for each in self.uncrosses if each.certain}

    @property
    def by_place(self) -> dict[int, Sequence[Difference]]:
        """By the places of uncrosses their differences."""
        return {each.place: each.differences for each in self.uncrosses}

    def with_differences(self, those: Mapping[int, Sequence[Difference]]) -> "Judgement":
        """The judgement with these differences of its uncrosses by their places, none else."""
        both = ((each, (*those.get(each.place, ()),)) for each in self.uncrosses)
        uncrosses = tuple(dataclasses.replace(each, differences=own) for each, own in both)
        return dataclasses.replace(self, uncrosses=uncrosses)


@dataclasses.dataclass(frozen=True)
class Path:
    """What a day may have been up to an uncross; `taken` counts the rows of orders before it,
    `waiting` has the trades and fills that wait for the end of an interrupted auction, `closed` the
    cancels of orders that aren't open, and `doubt` says why the books are in doubt from here on.
    """

    judged: tuple[Judged, ...]
    state: PathState
    taken: int = 0
    waiting: tuple[Ints, Ints] = (NO_ROWS, NO_ROWS)
    refused: tuple[BadRow, ...] = ()
    closed: Ints = dataclasses.field(default_factory=lambda: NO_ROWS)
    doubt: str = ""

    def longer(self, judged: Judged) -> "Path":
        """The path with another uncross behind its last."""
        return dataclasses.replace(self, judged=(*self.judged, judged))

    def with_last(self, **changes: object) -> "Path":
        """The path with another last uncross."""
        last = dataclasses.replace(self.judged[-1], **changes)
        return dataclasses.replace(self, judged=(*self.judged[:-1], last))


@dataclasses.dataclass(frozen=True)
class Moment:
    """An uncross on a path at its moment, with the rows of its call phase, trades and fills."""

    number: int
    place: int
    path: Path
    auction: int
    these: Ints
    traded: Ints
    filled: Ints

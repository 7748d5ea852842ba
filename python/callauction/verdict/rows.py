"""The rows of an extract as arrays, and those that can't be read, with what they leave in doubt."""
import dataclasses
import datetime
import enum
from collections import Counter
from collections.abc import Callable, Mapping
from decimal import Decimal
from typing import Any, Final

import numpy
from numpy.typing import NDArray

from callauction import words
from callauction.verdict import time_columns, times
from callauction.verdict.cells import Array, Codes, Ints, Mask, Source
from callauction.verdict.columns import EMPTY
from callauction.verdict.table import End
from callauction.words import AUCTIONS

Int8s = NDArray[numpy.int8]
SIDES = ("none", *words.SIDES)
"""What the column `side` says, by its number."""
INTERRUPTED, CONTINUOUS = "interrupted", "continuous"
SAID_AUCTIONS = ("", *AUCTIONS, INTERRUPTED)
"""What the column `auction` says of a result, by its number: 0 says nothing."""
SAID = ("price", "quantity", "surplus", "side", "count")
"""What a result says beside its auction: names of the arrays of rows."""
RESTRICTIONS = words.RESTRICTED
"""What the column `restriction` says, by its number less 1."""


# ---- the codes of the arrays of Rows: plain numbers, as numpy is three times as fast with these as
# ---- with members of an enum


class Kind:
    """What a row is, in `kind`."""

    NEW: Final = 0
    """Enters an order."""
    REPLACE: Final = 1
    """Changes an order."""
    CANCEL: Final = 2
    """Takes an order out."""
    UNCROSS: Final = 3
    """The result of an auction, or an interruption."""
    TRADE: Final = 4
    """The shares that a bid bought of an ask."""
    FILL: Final = 5
    """The shares that one order bought or sold."""
    BUST: Final = 6
    """Takes a trade or a fill out."""
    BAD: Final = -2
    """It can't be read, or is another's part: nothing is taken from it."""
    TAKEN: Final = -3
    """A trade or a fill that a bust takes out."""


class CellCode:
    """What a cell is that has no value, in all arrays but `kind` and `price`."""

    MISSING: Final = -1
    """It is empty, or its column isn't there."""
    BAD: Final = -2
    """It can't be read."""


class PriceCode:
    """What stands for a price that is none of the table's, in `price`. The kind of the row tells
    MARKET from UNSAID.
    """

    MARKET: Final = -1
    """Of an order: at market."""
    UNSAID: Final = -1
    """Of a result, a trade or a fill: its price isn't recorded."""
    NO_PRICE: Final = -2
    """Of a result: the auction had none."""
    UNREAD: Final = -4
    """It can't be read: while a table is read, alone."""
    EMPTY: Final = -5
    """A word for an empty cell, which rows of orders alone may have: while a table is read, alone.
    """


class AuctionCode:
    """What a row says of its auction beside one's number and 1, in `state`."""

    INTERRUPTED: Final = 4
    """A result: the auction was interrupted."""
    CONTINUOUS: Final = 5
    """A trade: it was outside of the auctions."""


OF_ORDERS = (Kind.NEW, Kind.REPLACE, Kind.CANCEL)
"""The kinds of rows of orders."""
RESTRICTION_OF = (1, CellCode.MISSING, 2)
"""By the number of an auction the restriction to it alone, in `only`, where there is one."""


class Doubt(enum.Enum):
    """What a bad row leaves in doubt."""

    BOOKS = "the books from some row on"
    ORDER = "the books from some row on, which lack an order"
    TRADES = "which trades are missing"
    BUST = "which trades were taken out"
    ANY = "the books from some row on, and which trades are missing"
    ITEM = "one published item"


@dataclasses.dataclass(frozen=True, slots=True)
class BadRow:
    """A row that can't be read or that no lawful board takes, why, and what that leaves in doubt,
    from behind the place `since` on; `kind` is what it was read as.
    """

    place: int
    label: object
    why: str
    doubt: Doubt
    since: int = -1
    kind: int = Kind.BAD

    @property
    def is_order(self) -> bool:
        """Whether it may be of an order, without which books may be others."""
        return self.doubt in (Doubt.BOOKS, Doubt.ORDER, Doubt.ANY)

    @property
    def is_blank(self) -> bool:
        """Whether it may do more to the books than enter an order."""
        return self.doubt in (Doubt.BOOKS, Doubt.ANY)

    @property
    def is_trade(self) -> bool:
        """Whether it may be a trade or a fill."""
        return self.doubt in (Doubt.TRADES, Doubt.ANY)

    @property
    def is_bust(self) -> bool:
        """Whether it may take a trade or a fill out, as a row of another event may."""
        return self.doubt is Doubt.BUST or self.doubt is Doubt.ANY and self.place >= 0

    @property
    def is_lost(self) -> bool:
        """Whether it changes or cancels an order that no row enters."""
        return self.doubt is Doubt.ORDER and self.kind in (Kind.REPLACE, Kind.CANCEL)

    @property
    def unknown(self) -> str:
        """That it isn't known what the row does."""
        return f"it isn't known what row {self.label} does: {self.why}"

    def __str__(self) -> str:
        return f"row {self.label}: {self.why}"


class Hole(BadRow):
    """Rows that may be missing, as no row has these numbers of a sequence."""

    __slots__ = ()

    @classmethod
    def of(cls, doubt: Doubt, since: int, first: int, last: int) -> "Hole":
        """The hole of these numbers behind a place, named by the first one."""
        numbers = f"the number {first}" if first == last else f"the numbers {first} to {last}"
        return cls(-1, first, f"no row has {numbers} of the sequence", doubt, since)

    @property
    def unknown(self) -> str:
        return f"rows may be missing: {self}"

    def __str__(self) -> str:
        return self.why


@dataclasses.dataclass(frozen=True)
class Names:
    """The texts of ids by their numbers, of members by theirs, and of times by places, read when
    they are asked for. `ids` has by an id's number where it is: a row times the columns, and a
    column.
    """

    source: Source
    ids: Ints
    columns: tuple[str, ...]
    members: list[str]
    theirs: Mapping[str, str]
    """By our name of a column the table's own."""
    begin: int = 0
    base: int = 0
    places: Ints | None = None
    """Where rows are in the table, where some are there twice or in another order."""
    dates: str = ""
    """What dates with strokes are (times.STROKES)."""
    pair: str = ""
    """The table's column that pairs the rows of a trade, whose id it is then."""

    def moved(self, places: Ints) -> "Names":
        """The names of rows that are at other places."""
        at = places if self.places is None else self.places[places]
        return dataclasses.replace(self, places=at)

    def order(self, key: int) -> str:
        """The text of an id, which of a key is the first one of its order."""
        row, column = divmod(int(self.ids[key + self.base]), len(self.columns))
        return self._cell(row, self.columns[column])

    def member(self, number: int) -> str:
        """A member's name, empty for none."""
        return self.members[number] if number >= 0 else ""

    def time(self, place: int) -> str:
        """The time of a row as it is there, empty for none."""
        return self.cell(place, "time")

    def legible_time(self, place: int) -> str:
        """The time of a row as a person reads it, empty for none."""
        text = self.time(place)
        return "" if text.casefold() in EMPTY else times.legible(text)

    def date(self, place: int) -> datetime.date | None:
        """The date of a row's time; None where it has none."""
        return times.date_of(self.time(place), self.dates)

    def cell(self, place: int, column: str) -> str:
        """The text of a row in one of our columns, empty where the table hasn't it."""
        theirs = self.theirs.get(column)
        return "" if theirs is None else self.their_cell(place, theirs)

    def their_cell(self, place: int, column: str) -> str:
        """The text of a row in a column of the table's."""
        place = place if self.places is None else int(self.places[place])
        return self._cell(place + self.begin, column)

    def recorded(self, place: int, column: str, number: int) -> str:
        """The member of a trade's or a fill's row in one of our columns, as it is there."""
        return self.cell(place, column) or self.member(number)

    @property
    def unread(self) -> list[str]:
        """The table's columns that aren't read."""
        return [name for name in self.source.names if name not in self.theirs.values()]

    def codes(self, places: Ints, column: str) -> Codes:
        """A number for each distinct text of rows in a column of the table's, -1 for none."""
        return self.texts(places, column)[0]

    def texts(self, places: Ints, column: str) -> tuple[Codes, list[str]]:
        """The same, and the texts."""
        at = places if self.places is None else self.places[places]
        return self.source.take(at + self.begin).cells(column).texts()

    def _cell(self, row: int, column: str) -> str:
        return self.source.take(numpy.array([row])).cells(column).text(0)


@dataclasses.dataclass
class Rows:
    """The rows of one or more instruments by their places. Orders are known by keys: of each the
    number of its first id. A price is the number of one of `prices`, which rise.
    """

    labels: Array
    kind: Int8s
    time: Ints
    key: Codes
    new_id: Codes
    side: Int8s
    price: Codes
    quantity: Ints
    restriction: Int8s
    kept: Int8s
    auction: Int8s
    surplus: Ints
    count: Ints
    bid: Codes
    ask: Codes
    bid_member: Codes
    ask_member: Codes
    member: Codes
    group: Ints
    """Equal for rows of which nothing says which was first: the same time and sequence."""
    prices: list[Decimal]
    names: Names
    has_market: bool
    """Whether a word for market orders was said, so that an empty price is none."""
    is_odd: Mask
    """Which rows have a time that can't be read."""
    number: Ints = dataclasses.field(default_factory=lambda: numpy.zeros(0, "i8"))
    """The number of each row in a sequence, below 0 for none."""
    is_half: Mask = dataclasses.field(default_factory=lambda: numpy.zeros(0, bool))
    """Which rows are one side of a trade whose other side has no row, as those of others have."""
    is_iceberg: Mask = dataclasses.field(default_factory=lambda: numpy.zeros(0, bool))
    """Which rows enter orders with more shares than their peaks."""
    spots: Ints = dataclasses.field(default_factory=lambda: numpy.zeros(0, "i8"))
    """Where each row is in the table, before any sorting."""
    is_ordered: bool = False
    """Whether an order's own rows of one time are in their right order."""
    is_cut: bool = False
    """Whether rows of an uncross's time are on their right side of it."""
    slack: int = 0
    """From how many nanoseconds on a row of an order is another moment's than an uncross: of rows
    that were sorted the step of coarser times of results, else 0.
    """
    bad: list[BadRow] = dataclasses.field(default_factory=list)
    holes: list[Hole] = dataclasses.field(default_factory=list)
    """Where rows may be missing, which are no bad rows."""
    next_day: str = ""
    """Why rows of the next day may be of the same one, where times without dates fall by most of a
    day and no sequence says that they go on.
    """
    lacks_rows: bool = False
    """Whether rows are missing in a sequence whose numbers else have no gap."""
    notes: Counter[str] = dataclasses.field(default_factory=Counter)
    dropped: frozenset[str] = frozenset()
    """The ids of orders in trades and fills that don't meet the conditions."""
    is_unsaid: bool = False
    """Whether nothing says which orders are for one auction alone."""
    makes_results: bool = False
    """Whether auctions that trades name alone have their price."""
    given: dict[int, str] = dataclasses.field(default_factory=dict)
    """By the place of a replace which column of it that isn't read has the id of a trade's order
    that no row enters: one of each instrument.
    """
    end: End | None = None
    """The end of the file, where it is one."""

    @property
    def has_peaks(self) -> bool:
        """Whether a column says which orders have hidden shares; peaks that are all of an order's
        shares don't, as these may be the visible ones.
        """
        return bool(self.is_iceberg.any())

    @property
    def is_sorted(self) -> bool:
        """Whether rows are in another order than in the table."""
        return bool((numpy.diff(self.spots) < 0).any())

    def of(self, *kinds: int) -> Ints:
        """The places of the rows of these kinds."""
        return numpy.flatnonzero(numpy.isin(self.kind, kinds)).astype("i8")

    def refuse(self, place: int, why: str, doubt: Doubt, since: int | None = None) -> None:
        """Notes a row as a bad one, which is nothing from then on."""
        begin = int(place) if since is None else since
        kind = int(self.kind[place])
        self.bad.append(BadRow(int(place), self.labels[place], why, doubt, begin, kind))
        self.kind[place] = Kind.BAD

    def are_behind(self, those: Ints, places: Ints | int) -> Mask:
        """Which of these rows are below others and not timed before them."""
        own, due = self.time[those], self.time[places]
        is_early = (time_columns.NO_TIME < own) & (own < due)
        found: Mask = (those > places) & ~is_early
        return found

    def entered(self, many: int) -> Ints:
        """By its key the first row that enters an order, CellCode.MISSING where none does."""
        found, news = numpy.full(many, CellCode.MISSING, "i8"), self.of(Kind.NEW)[::-1]
        found[self.key[news]] = news
        return found

    def with_said(self, place: int, other: int | None) -> "Rows":
        """The rows, of which one says what another result says, or none."""
        said = {name: getattr(self, name).copy() for name in SAID}
        for values in said.values():
            values[place] = CellCode.MISSING if other is None else values[other]
        return dataclasses.replace(self, **said)

    def with_more_said(self, place: int, other: int) -> "Rows":
        """The rows, of which one says what another result says too, which counts where both do."""
        said = {name: getattr(self, name).copy() for name in SAID}
        for values in said.values():
            values[place] = values[place] if values[other] == CellCode.MISSING else values[other]
        return dataclasses.replace(self, **said)

    def _parts(self) -> dict[str, Any]:
        fields = (field.name for field in dataclasses.fields(self))
        arrays = {name: getattr(self, name) for name in fields}
        return {name: it for name, it in arrays.items() if isinstance(it, numpy.ndarray)}

    def moved(self, places: Ints) -> "Rows":
        """The rows in another order, the bad ones staying where they are."""
        parts = {name: it[places] for name, it in self._parts().items()}
        return dataclasses.replace(self, **parts)

    def ordered(self, order: Ints) -> "Rows":
        """The rows in another order, with the bad ones."""
        place = numpy.append(numpy.argsort(order), -1)
        return self.placed(order, lambda at: int(place[at]))

    def placed(self, places: Ints, where: Callable[[int], int]) -> "Rows":
        """The rows of these places, and the bad ones and holes where `where` has theirs."""
        bad = [dataclasses.replace(it, place=where(it.place), since=where(it.since))
               for it in self.bad]  # fmt: skip
        holes = [dataclasses.replace(it, since=where(it.since)) for it in self.holes]
        names = self.names.moved(places)
        return dataclasses.replace(self.moved(places), bad=bad, holes=holes, names=names)

    def take(self, begin: int, end: int) -> "Rows":
        """The rows of one instrument, with keys of its own."""
        parts = {name: it[begin:end] for name, it in self._parts().items()}
        ids = ("key", "new_id", "bid", "ask")
        keys = [parts[name][parts[name] >= 0] for name in ids]
        base = min((int(each.min()) for each in keys if len(each)), default=0)
        for name in ids:
            parts[name] = numpy.where(parts[name] >= 0, parts[name] - base, CellCode.MISSING)
        bad = [
            dataclasses.replace(it, place=it.place - begin, since=max(-1, it.since - begin))
            for it in self.bad
            if begin <= it.place < end
        ]
        at = self.names.places
        places = None if at is None else at[begin:end] - begin
        names = dataclasses.replace(self.names, begin=begin, base=base, places=places)
        given = {at - begin: text for at, text in self.given.items() if begin <= at < end}
        return dataclasses.replace(self, **parts, bad=bad, holes=[], names=names, given=given,
                                   notes=Counter(self.notes))  # fmt: skip

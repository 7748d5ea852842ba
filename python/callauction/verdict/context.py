"""An uncross as its findings are explained: its orders in their priority, what was recorded as
executed of each and what is lawful, in the extract's ids, members, times and prices.
"""
import dataclasses
import decimal
import functools
from collections.abc import Collection
from decimal import Decimal

import numpy
import pandas

from callauction.program import Day
from callauction.tables import BOOK, table_of
from callauction.verdict.cells import Ints
from callauction.verdict.paths import Judged
from callauction.verdict.phases import Result, UncrossCommands, recorded_sums
from callauction.verdict.rows import RESTRICTION_OF, SIDES, Kind, PriceCode, Rows
from callauction.verdict.rules import Range, Rules
from callauction.words import AUCTIONS

_WIDE = decimal.Context(prec=80)
"""For prices of up to 60 digits."""


def price_text(price: Decimal, tick_size: Decimal | None) -> str:
    """A price with the decimals of the tick size, where that is known."""
    fixed = price if tick_size is None else price.quantize(tick_size, context=_WIDE)
    return format(fixed if fixed == price else price, "f")


@dataclasses.dataclass(frozen=True, slots=True)
class RestingOrder:
    """An open order: `key` is its number, `order` the present id; `since` is the time, and `row`
    the row, from which its place in time is, `event` what that row did (entered or replaced).
    """

    key: int
    order: str
    member: str
    side: str
    quantity: int
    price: Decimal | None
    since: str
    row: object
    event: str


@dataclasses.dataclass(frozen=True)
class Context:
    """What a finding is explained from: its uncross, its day, the rules, the uncrosses above."""

    judged: Judged
    rows: Rows
    rules: Rules
    earlier: tuple[Judged, ...] = ()

    @property
    def auction(self) -> str:
        """The auction, empty after the last one."""
        return AUCTIONS[self.judged.auction] if self.judged.auction >= 0 else ""

    @property
    def result(self) -> Result:
        """The lawful result of the auction."""
        assert self.judged.result is not None
        return self.judged.result

    @property
    def reference(self) -> Decimal:
        """The reference price of the auction."""
        return self.rows.prices[self.judged.reference]

    @property
    def ranges(self) -> list[tuple[Range, Decimal]]:
        """The ranges of the auction, each with its reference."""
        second = self.judged.second
        at = self.rows.prices[second] if second >= 0 else None
        return self.rules.ranges(self.reference, at)

    @property
    def lawful_price(self) -> Decimal | None:
        """The lawful price, None where there is none."""
        price = None if self.judged.result is None else self.judged.result.price
        return None if price is None else self.rows.prices[price]

    @property
    def label(self) -> object:
        """The name of its row."""
        return self.rows.labels[self.judged.place]

    @property
    def time(self) -> str:
        """The time of its row."""
        return self.rows.names.legible_time(self.judged.place)

    def price(self, price: Decimal) -> str:
        """A price with the decimals of the tick size, where that is known."""
        return price_text(price, self.rules.tick_size)

    # ---- orders

    def order(self, key: int) -> str:
        """The id that an order has at the uncross."""
        return self.rows.names.order(self._renamed.get(key, key))

    def member(self, key: int) -> str:
        """Whose an order is, empty where it isn't recorded."""
        place = self.entered.get(key)
        return "" if place is None else self.rows.names.member(self.rows.member[place])

    @functools.cached_property
    def unread(self) -> dict[int, object]:
        """By the key of an order the first of its rows that couldn't be read."""
        those = [row for row in self.rows.bad if row.is_order and row.place >= 0][::-1]
        return {int(self.rows.key[row.place]): row.label for row in those}

    @functools.cached_property
    def entered(self) -> dict[int, int]:
        """By its key the row that enters an order."""
        news = self.rows.of(Kind.NEW)
        return dict(zip(self.rows.key[news].tolist(), news.tolist()))

    @functools.cached_property
    def owners(self) -> frozenset[int]:
        """The numbers of the members that orders have."""
        return frozenset(self.rows.member[self.rows.of(Kind.NEW)].tolist())

    @functools.cached_property
    def _renamed(self) -> dict[int, int]:
        """By its key the last new id of an order before the uncross."""
        rows = self.rows
        these = numpy.flatnonzero((rows.kind == Kind.REPLACE) & (rows.new_id >= 0))
        these = these[these < self.judged.place]
        return dict(zip(rows.key[these].tolist(), rows.new_id[these].tolist()))

    def open_order(self, at: int) -> RestingOrder:
        """The order at a place of the book."""
        book, rows = self.judged.book, self.rows
        key, price, since = int(book.key[at]), int(book.price[at]), int(book.since[at])
        limit = None if price == PriceCode.MARKET else rows.prices[price]
        return RestingOrder(
            key, self.order(key), self.member(key), SIDES[book.side[at]], int(book.quantity[at]),
            limit, rows.names.legible_time(since), rows.labels[since],
            "replaced" if rows.kind[since] == Kind.REPLACE else "entered",
        )  # fmt: skip

    def closed_by(self, key: int) -> int | None:
        """The last row above that cancels an order whole, or executes it; None where none does."""
        rows = self.rows
        is_out = (rows.kind == Kind.CANCEL) & (rows.quantity <= 0) | (rows.kind == Kind.FILL)
        is_trade = (rows.kind == Kind.TRADE) & ((rows.bid == key) | (rows.ask == key))
        these = numpy.flatnonzero(is_out & (rows.key == key) | is_trade)
        own = numpy.concatenate([self.judged.traded, self.judged.filled])
        these = these[(these < self.judged.place) & ~numpy.isin(these, own)]
        return int(these[-1]) if len(these) else None

    def lapsed(self, key: int) -> str:
        """The auction before this one that ended an order that was for it alone; empty for none."""
        restriction = int(self.rows.restriction[self.entered[key]])
        own = len(RESTRICTION_OF)
        if restriction > 0:
            own = RESTRICTION_OF.index(restriction)
        last = self.closed_by(key)
        if own >= self.judged.auction or last is not None and self.rows.kind[last] == Kind.CANCEL:
            return ""
        for each in self.earlier:
            open_shares = each.book.quantity[each.book.key == key].sum()
            if each.is_ended and 0 < open_shares <= each.fills.by_key().get(key, 0):
                return ""
        return AUCTIONS[own]

    @functools.cached_property
    def at(self) -> dict[int, int]:
        """By its key the place of an order in the book."""
        keys = self.judged.book.key.tolist()
        return dict(zip(keys, range(len(keys))))

    @functools.cached_property
    def queues(self) -> dict[str, Ints]:
        """The places in the book of the orders of each side that count, in their priority."""
        book = self.judged.book
        counts = book.counted(self.judged.auction)
        return {SIDES[side]: book.ranked(counts & (book.side == side)) for side in (1, 2)}

    def meeting(self, side: str, number: int) -> tuple[Ints, Ints]:
        """The orders of a side that trade at a price, in their priority: keys, and open shares."""
        book, queue = self.judged.book, self.queues[side]
        at = book.price[queue]
        meets = queue[(at == PriceCode.MARKET) | (at >= number if side == "bid" else at <= number)]
        return book.key[meets].astype("i8"), book.quantity[meets]

    @functools.cached_property
    def places(self) -> dict[int, tuple[str, int]]:
        """By its key the side of an order that counts and its place from 0 in its queue."""
        keys = self.judged.book.key
        return {
            key: (side, place)
            for side, queue in self.queues.items()
            for place, key in enumerate(keys[queue].tolist())
        }

    # ---- shares

    @functools.cached_property
    def fills(self) -> dict[int, int]:
        """The lawful shares of each executed order, by its key."""
        if self.judged.result is None:
            return {}
        return self.judged.result.fills.by_key()

    @functools.cached_property
    def recorded(self) -> dict[int, int]:
        """The shares that were recorded as executed of each order."""
        judged = self.judged
        return recorded_sums(self.rows, judged.traded, judged.filled).by_key()

    @property
    def has_records(self) -> bool:
        """Whether trades or fills were recorded of the auction."""
        return bool(len(self.judged.traded) or len(self.judged.filled))

    @functools.cached_property
    def ahead(self) -> dict[int, int]:
        """By an order's key the lawful shares of its side that are executed before it."""
        found: dict[int, int] = {}
        for queue in self.queues.values():
            keys = self.judged.book.key[queue].tolist()
            shares = numpy.array([self.fills.get(key, 0) for key in keys], "i8")
            found |= dict(zip(keys, (numpy.cumsum(shares) - shares).tolist()))
        return found

    @functools.cached_property
    def gaps(self) -> dict[str, dict[int, int]]:
        """By side and by key, in priority, how many more shares than lawful are recorded."""
        found: dict[str, dict[int, int]] = {}
        for side, queue in self.queues.items():
            keys = self.judged.book.key[queue].tolist()
            gaps = {key: self.recorded.get(key, 0) - self.fills.get(key, 0) for key in keys}
            found[side] = {key: gap for key, gap in gaps.items() if gap}
        return found

    @functools.cached_property
    def first_gaps(self) -> dict[str, tuple[int | None, int | None]]:
        """By side the first order with more, and the first with fewer shares than are lawful."""
        return {
            side: (
                next((key for key, gap in gaps.items() if gap > 0), None),
                next((key for key, gap in gaps.items() if gap < 0), None),
            )
            for side, gaps in self.gaps.items()
        }

    @functools.cached_property
    def begins(self) -> dict[tuple[int, int], int]:
        """By the keys of a lawful trade's bid and ask the shares of the volume before it."""
        result = self.result
        before = numpy.cumsum(result.quantity) - result.quantity
        return dict(zip(zip(result.bid.tolist(), result.ask.tolist()), before.tolist()))

    # ---- the book as the program shows it

    @functools.cached_property
    def uncross(self) -> UncrossCommands:
        """The commands that uncross the book."""
        judged = self.judged
        return UncrossCommands.of(judged.book, judged.auction, judged.reference)

    def named(self, tick: int) -> Decimal:
        """The price of a tick that the program names."""
        return self.rows.prices[int(self.uncross.named[int(tick) - 1])]

    @functools.cached_property
    def books(self) -> pandas.DataFrame:
        """The book before the uncross (tables.BOOK), in ticks. Raises ProgramError."""
        found = table_of(Day(self.uncross.journal()).printed("book"), BOOK)
        return found[found["auction"] == self.auction].reset_index(drop=True)


# ---- the queue as a frame


QUEUE = (
    "side", "place", "order", "member", "since", "row", "price", "open", "recorded", "lawful",
)  # fmt: skip
"""`place` is the order's from 1 among those of its side, `since` the time from which its place in
time is, `price` its limit (None is a market order's), `open` its open shares before the uncross,
`recorded` and `lawful` the shares that were executed of it (`<NA>` where nothing was recorded).
"""
AROUND = 5
"""How many orders are shown before and after those that a finding is of."""


def queue_of(context: Context, orders: Collection[int], around: int = AROUND) -> pandas.DataFrame:
    """The queue of both sides (QUEUE) around these orders, or else around the last executed."""
    rows: list[tuple[object, ...]] = []
    for side, queue in context.queues.items():
        keys = context.judged.book.key[queue].tolist()
        touched = [place for place, key in enumerate(keys) if key in orders]
        executed = [place for place, key in enumerate(keys) if key in context.fills]
        center = touched or executed[-1:] or [0]
        first, last = max(0, center[0] - around), center[-1] + around + 1
        for place, at in enumerate(queue[first:last].tolist(), first + 1):
            order = context.open_order(at)
            recorded = context.recorded.get(order.key, 0) if context.has_records else pandas.NA
            rows.append((
                side, place, order.order, order.member, order.since, order.row, order.price,
                order.quantity, recorded, context.fills.get(order.key, 0),
            ))  # fmt: skip
    frame = pandas.DataFrame(rows, columns=[*QUEUE])
    return frame.astype({"recorded": "Int64", "price": "object"})

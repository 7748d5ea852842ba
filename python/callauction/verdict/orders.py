"""What became of each order of an extract, and what each member traded: by the rules, on the books
on which its auctions were judged. Where the day went on from recorded trades that aren't lawful, so
do the orders.
"""
import collections
import dataclasses
from collections import Counter
from collections.abc import Iterable
from decimal import Decimal

import numpy
import pandas

from callauction.verdict.paths import Judged, Judgement, Path
from callauction.verdict.phases import recorded_sums
from callauction.verdict.rows import OF_ORDERS, RESTRICTION_OF, SIDES, Kind, PriceCode, Rows
from callauction.verdict.rules import Rules

ORDERS = {
    "order": "object", "member": "object", "side": "object", "quantity": "int64", "limit": "object",
    "traded": "int64", "recorded": "Int64", "better": "object", "open": "int64", "became": "object",
}  # fmt: skip
"""The columns of orders: a row for each that the rules accept, with the id that it had last.
`quantity` shares were entered; `limit` is the last one, None for a market order. `traded` shares
are lawful, `recorded` those that the extract has (`<NA>` where it has neither trades nor fills);
`better` is by how much the lawful ones are better than the limit, in prices times shares. `open`
shares are left of it, and it `became` one of outcomes.BECAME.
"""
MEMBERS = ("member", "orders", "entered", "bought", "sold", "better")
"""The columns of members, as of outcomes.MEMBERS: `bought` and `sold` are the lawful shares."""


@dataclasses.dataclass(slots=True)
class _Order:
    """An order as it is, or was last, and what became of it up to now."""

    key: int
    place: int
    entered: int
    open: int
    price: int
    name: int
    traded: int = 0
    better: Decimal = Decimal(0)
    became: str = "open"


class _Lives:
    """The orders of a day, phase by phase."""

    def __init__(self, judgement: Judgement, rows: Rows, rules: Rules) -> None:
        self.rows, self.rules = rows, rules
        self.bad = {row.place for row in judgement.bad_rows}
        self.orders: dict[int, _Order] = {}
        self.open: dict[int, _Order] = {}
        self.executed: collections.Counter[int] = collections.Counter()
        self.places = rows.of(*OF_ORDERS).tolist()
        self.taken = self.ended = 0

    def uncross(self, judged: Judged, is_last: bool) -> None:
        """A call phase and its uncross."""
        self.take(self.places[self.taken : judged.taken])
        self.taken = judged.taken
        result = judged.result
        if not judged.is_ended or result is None:
            return
        lawful = result.fills.by_key()
        for key, shares in lawful.items():
            order = self.orders[key]
            order.traded += shares
            if order.price != PriceCode.MARKET and result.price is not None:
                gap = self.rows.prices[order.price] - self.rows.prices[result.price]
                order.better += gap * shares * (1 if self._side(order) == "bid" else -1)
        self._end(judged.auction, lawful if is_last else judged.fills.by_key())

    def take(self, places: Iterable[int]) -> None:
        """The rows of a call phase that aren't refused."""
        rows = self.rows
        for place in places:
            key, quantity = int(rows.key[place]), int(rows.quantity[place])
            if place in self.bad:
                continue
            if rows.kind[place] == Kind.NEW:
                order = _Order(key, place, quantity, quantity, int(rows.price[place]), key)
                self.orders[key] = self.open[key] = order
            elif key in self.open and rows.kind[place] == Kind.CANCEL:
                self._cancel(self.open[key], quantity)
            elif key in self.open:
                self._replace(self.open[key], place, quantity)

    def _cancel(self, order: _Order, quantity: int) -> None:
        if 0 < quantity < order.open:
            order.open -= quantity
        else:
            self._close(order, "deleted")

    def _replace(self, order: _Order, place: int, quantity: int) -> None:
        done = self.executed[order.key] if self.rules.has_totals else 0
        if 0 < done >= quantity:
            self._close(order, "deleted")
            return
        order.open, order.price = quantity - done, int(self.rows.price[place])
        if self.rows.new_id[place] >= 0:
            order.name = int(self.rows.new_id[place])

    def _end(self, auction: int, fills: dict[int, int]) -> None:
        """The end of an auction with these fills, and of the orders that end with it."""
        self.executed.update(fills)
        self.ended += 1
        for key, order in [*self.open.items()]:
            order.open = max(0, order.open - fills.get(key, 0))
            restriction = int(self.rows.restriction[order.place])
            if not order.open or restriction > 0 and restriction == RESTRICTION_OF[auction]:
                self._close(order, "lapsed" if order.open else "executed")

    def _close(self, order: _Order, became: str) -> None:
        """An order isn't open any more."""
        order.became = became
        del self.open[order.key]

    def _side(self, order: _Order) -> str:
        return SIDES[int(self.rows.side[order.place])]

    def row(self, order: _Order, recorded: int | None) -> tuple[object, ...]:
        """The row of an order, with the shares that are recorded of it."""
        rows, is_market = self.rows, order.price == PriceCode.MARKET
        return (
            rows.names.order(order.name), rows.names.member(rows.member[order.place]),
            self._side(order), order.entered, None if is_market else rows.prices[order.price],
            order.traded, pandas.NA if recorded is None else recorded,
            None if is_market else order.better, order.open, order.became,
        )  # fmt: skip


def orders_of(judgement: Judgement, rows: Rows, rules: Rules) -> pandas.DataFrame:
    """The orders of an extract that the rules accept, with what became of each (ORDERS)."""
    lives = _Lives(judgement, rows, rules)
    shares: collections.Counter[int] = collections.Counter()
    for judged in judgement.uncrosses:
        shares.update(recorded_sums(rows, judged.traded, judged.filled).by_key())
    those = [judged for judged in judgement.uncrosses if judged.result is not None]
    for place, judged in enumerate(those, 1):
        lives.uncross(judged, place == len(those))
    if lives.ended == len(rules.auctions):
        for order in [*lives.open.values()]:
            lives._close(order, "left")
    else:
        lives.take(lives.places[lives.taken :])
    has_records = judgement.has_trades or judgement.has_fills
    found = [
        lives.row(order, shares[key] if has_records else None)
        for key, order in lives.orders.items()
    ]
    return pandas.DataFrame(found, columns=[*ORDERS], dtype="object").astype(ORDERS)


def members_of(orders: pandas.DataFrame) -> pandas.DataFrame:
    """A row for each member with orders (MEMBERS), of a frame of orders (ORDERS)."""
    rows = []
    for member, those in orders.groupby("member"):
        bought, sold = (those["traded"][those["side"] == side].sum() for side in ("bid", "ask"))
        better = sum((it for it in those["better"] if it is not None), Decimal(0))
        rows.append((member, len(those), those["quantity"].sum(), bought, sold, better))
    return pandas.DataFrame(rows, columns=[*MEMBERS])


CLOSED = "cancels and expiries of orders that {}"
_GONE = (
    "were open no more", "were executed before", "were for one auction alone, which is over",
    "were cancelled before", "the rules refuse",
)  # fmt: skip
"""What became of an order, by its number."""


def notes_of(rows: Rows, path: Path) -> Counter[str]:
    """How many rows of a path cancel an order that isn't open, by what became of it."""
    gone, ends = (numpy.zeros(len(rows.names.ids) + 1, kind) for kind in ("i1", "i8"))
    cancels = numpy.setdiff1d(rows.of(*OF_ORDERS)[: path.taken], path.closed)
    cancels = cancels[rows.kind[cancels] == Kind.CANCEL]
    gone[rows.key[cancels]] = 3
    for each in filter(lambda it: it.is_ended, path.judged):
        book, room = each.book, numpy.zeros(len(gone), "i8")
        room[each.fills.keys] = each.fills.shares
        is_whole = room[book.key] >= book.quantity
        gone[book.key[is_whole]], ends[book.key[is_whole]] = 1, each.place
        gone[book.key[~is_whole & book.is_for(each.auction)]] = 2
    gone[rows.key[cancels[rows.quantity[cancels] <= 0]]] = 3
    entries = [row.place for row in path.refused if rows.kind[row.place] == Kind.NEW]
    gone[rows.key[entries]] = 4
    keys = rows.key[path.closed]
    keys = keys[(gone[keys] != 1) | rows.are_behind(path.closed, ends[keys])]
    counts = numpy.bincount(gone[keys], minlength=len(_GONE)).tolist()
    return +Counter({CLOSED.format(why): count for why, count in zip(_GONE, counts)})

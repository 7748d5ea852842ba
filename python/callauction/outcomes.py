"""What became of the orders of a day, and their queue before an uncross.

A day is played by an Auction of the library, command by command; the places in time are those of
its replies.
"""
import dataclasses
from typing import Protocol, TypeAlias

import numpy
import pandas

from callauction.arrays import COMMAND, Structs
from callauction.course import opened
from callauction.program import Day
from callauction.tables import commands_of, journal_of
from callauction.words import AuctionKind, CommandTag, ReplyTag, Restriction, Side

OUTCOMES = {
    "order": "int64",
    "command": "int64",
    "member": "int64",
    "side": "object",
    "quantity": "int64",
    "limit": "Int64",
    "peak": "Int64",
    "only": "object",
    "offered": "int64",
    "traded": "int64",
    "paid": "int64",
    "better": "Int64",
    "open": "int64",
    "became": "object",
}
"""The columns of the orders of a day: a row for each accepted order. `command` entered it with
`quantity` shares; `limit` is its last one. `offered` are the shares with which it took part in the
auctions, of which `traded` were executed; `paid` is the sum of shares times ticks, and `better` by
how much that is better than its limit (`<NA>` of a market order). `open` shares are left of it, and
it `became` one of BECAME.
"""
BECAME = ("executed", "open", "deleted", "lapsed", "left")
"""Executed whole; still open; deleted by its member; deleted by the end of the auction that it was
restricted to; open when the day was over.
"""
MEMBERS = ("member", "orders", "entered", "bought", "sold", "better")
"""The columns of the members of a day: how many orders and shares each entered, the shares that it
bought and sold, and the sum of `better` over its limit orders, in ticks times shares.
"""
QUEUE = {
    "order": "int64",
    "member": "int64",
    "side": "object",
    "limit": "Int64",
    "quantity": "int64",
    "visible": "int64",
    "executed": "int64",
}
"""The columns of a queue: the orders that count, bids before asks, each side in price-time
priority, with their open shares before the uncross and those that it executes.
"""
_AUCTIONS = {
    Restriction.NONE: None,
    Restriction.OPENING_ONLY: AuctionKind.OPENING,
    Restriction.CLOSING_ONLY: AuctionKind.CLOSING,
}


class HasDay(Protocol):
    """What has a record of its day, such as a RecordedAuction."""

    def day(self) -> Day:
        """The day so far. Raises ProgramError."""
        ...


@dataclasses.dataclass(frozen=True)
class Played:
    """A day as arrays: its commands, their replies and its trades. A simulator makes one of what it
    has: `Played(commands, auction.apply_many(commands), auction.trades())`.
    """

    commands: Structs
    replies: Structs
    trades: Structs


Playable: TypeAlias = "Day | pandas.DataFrame | HasDay | Played"
"""What a day may be given as: a Day, a journal's frame (tables.JOURNAL), a RecordedAuction, or
arrays.
"""


def journal_frame(day: Day | pandas.DataFrame | HasDay) -> pandas.DataFrame:
    """The journal of a day. Raises ProgramError."""
    if isinstance(day, pandas.DataFrame):
        return day
    return journal_of(day if isinstance(day, Day) else day.day())


def played(day: Playable) -> Played:
    """A day, played by the library. Raises ProgramError."""
    if isinstance(day, Played):
        return day
    journal = journal_frame(day)
    commands = commands_of(journal)
    with opened(journal) as auction:
        return Played(commands, auction.apply_many(commands), auction.trades())


# ---- the orders of a day


@dataclasses.dataclass(slots=True)
class _Order:
    """An order, and what became of it up to now."""

    id: int
    command: int
    member: int
    side: Side
    quantity: int
    limit: int | None
    peak: int | None
    restriction: Restriction
    time: int
    open: int
    offered: int = 0
    traded: int = 0
    paid: int = 0
    became: str = "open"

    @property
    def auction(self) -> AuctionKind | None:
        """The auction that it is for alone, None where it is for each."""
        return _AUCTIONS[self.restriction]

    def rank(self) -> tuple[Side, bool, int, int]:
        """Its place in price-time priority, bids before asks."""
        if self.limit is None:
            return self.side, False, 0, self.time
        best_first = self.limit if self.side is Side.ASK else -self.limit
        return self.side, True, best_first, self.time

    def better(self) -> int | None:
        """How much better its trades were than its limit, in ticks times shares."""
        if self.limit is None:
            return None
        distance = self.limit * self.traded - self.paid
        return distance if self.side is Side.BID else -distance

    def row(self) -> tuple[object, ...]:
        restriction = "" if self.auction is None else self.auction.name.lower()
        return (
            self.id, self.command, self.member, self.side.name.lower(), self.quantity, self.limit,
            self.peak, restriction, self.offered, self.traded, self.paid, self.better(), self.open,
            self.became,
        )  # fmt: skip


class _Walk:
    """The orders of a day, command by command."""

    def __init__(self, trades: Structs) -> None:
        self.trades = trades[["bid", "ask", "quantity", "tick"]].tolist()
        self.orders: dict[int, _Order] = {}
        self.book: dict[int, _Order] = {}
        self.kind = AuctionKind.OPENING
        self.seen = 0

    def counting(self) -> list[_Order]:
        """The open orders that count in the auction that is next."""
        return [order for order in self.book.values() if order.auction in (None, self.kind)]

    def take(self, number: int, command: numpy.void, reply: numpy.void) -> None:
        """A command, by its number, with its reply."""
        tag = reply["tag"]
        if tag == ReplyTag.ENTERED:
            self._enter(number, command, int(reply["id"]))
        elif tag == ReplyTag.CHANGED:
            order = self.book[int(command["id"])]
            order.open, order.limit = int(command["quantity"]), _limit(command)
            order.time = order.time if reply["kept"] else number
        elif tag == ReplyTag.DELETED:
            self._remove(self.book[int(command["id"])], "deleted")
        elif tag == ReplyTag.UNCROSSED:
            self._uncross(int(reply["trades"]))

    def _enter(self, number: int, command: numpy.void, id: int) -> None:
        quantity = int(command["quantity"])
        peak = int(command["peak"]) if command["has_peak"] else None
        restriction = Restriction(command["restriction"])
        member, side = int(command["member"]), Side(command["side"])
        terms = side, quantity, _limit(command), peak, restriction
        order = _Order(id, number, member, *terms, time=number, open=quantity)
        self.orders[id] = self.book[id] = order

    def _remove(self, order: _Order, became: str) -> None:
        order.became = became
        del self.book[order.id]

    def _uncross(self, count: int) -> None:
        """The trades of an auction, and the orders that end with it."""
        counting = self.counting()
        for order in counting:
            order.offered = order.traded + order.open
        for bid, ask, quantity, tick in self.trades[self.seen : self.seen + count]:
            _fill(self.orders[bid], quantity, tick)
            _fill(self.orders[ask], quantity, tick)
        self.seen += count
        for order in counting:
            if not order.open:
                self._remove(order, "executed")
            elif order.auction is not None:
                self._remove(order, "lapsed")
        self._end()

    def _end(self) -> None:
        """The next auction of the day, or the day's end."""
        if self.kind is not AuctionKind.CLOSING:
            self.kind = AuctionKind(self.kind + 1)
            return
        for order in [*self.book.values()]:
            self._remove(order, "left")


def _limit(command: numpy.void) -> int | None:
    return int(command["limit"]) if command["has_limit"] else None


def _fill(order: _Order, quantity: int, tick: int) -> None:
    order.open -= quantity
    order.traded += quantity
    order.paid += quantity * tick


def _walked(day: Played) -> _Walk:
    """The walk over a day."""
    walk = _Walk(day.trades)
    tags = (
        ReplyTag.ENTERED, ReplyTag.CHANGED, ReplyTag.DELETED, ReplyTag.UNCROSSED
    )  # fmt: skip
    for place in numpy.flatnonzero(numpy.isin(day.replies["tag"], tags)):
        walk.take(int(place) + 1, day.commands[place], day.replies[place])
    return walk


def outcomes_of(day: Playable) -> pandas.DataFrame:
    """The orders of a day that were accepted, with what became of each (OUTCOMES). Raises
    ProgramError.
    """
    rows = [order.row() for order in _walked(played(day)).orders.values()]
    return pandas.DataFrame(rows, columns=list(OUTCOMES)).astype(OUTCOMES)


def members_of(orders: pandas.DataFrame) -> pandas.DataFrame:
    """A row for each member with orders (MEMBERS), of a frame of orders (OUTCOMES)."""
    rows = []
    for member, those in orders.groupby("member"):
        bought, sold = (those["traded"][those["side"] == side].sum() for side in ("bid", "ask"))
        better = int(those["better"].sum())
        rows.append((member, len(those), those["quantity"].sum(), bought, sold, better))
    return pandas.DataFrame(rows, columns=list(MEMBERS)).astype("int64")


# ---- a queue


@dataclasses.dataclass(frozen=True)
class Queue:
    """The orders before an uncross (QUEUE), the trades of it (numpy, TRADE), and what it is: the
    number of its command, its auction, and whether it was interrupted.
    """

    orders: pandas.DataFrame
    trades: Structs
    command: int
    auction: str
    is_interrupted: bool

    def at(self, side: str, limit: int | None) -> pandas.DataFrame:
        """The orders of a side with this limit, or its market orders."""
        of_side = self.orders[self.orders["side"] == side]
        is_there = of_side["limit"].isna() if limit is None else of_side["limit"] == limit
        return of_side[is_there.fillna(False)].reset_index(drop=True)


def queue_of(day: Day | pandas.DataFrame | HasDay, command: int | None = None) -> Queue:
    """The orders before the uncross that was this command, each with what it executed; without a
    command those of now, with what an uncross would execute. Raises ProgramError, and ValueError
    where the command was no uncross of the day.
    """
    journal = journal_frame(day)
    commands = commands_of(journal)
    number = len(commands) + 1 if command is None else command
    before = commands[: number - 1]
    with opened(journal) as auction:
        replies = auction.apply_many(before)
        made = auction.trades()
        last = numpy.zeros(1, COMMAND)
        last["tag"] = CommandTag.UNCROSS
        [reply] = auction.apply_many(last)
        trades = auction.trades(len(made))
    tags = (ReplyTag.UNCROSSED, ReplyTag.INTERRUPTED)
    if reply["tag"] not in tags or (command is not None and not _is_uncross(commands, command)):
        why = "the day is over" if command is None else f"command {command} is no uncross"
        raise ValueError(why)
    walk = _walked(Played(before, replies, made))
    return Queue(
        _queue_frame(walk.counting(), trades),
        trades,
        number,
        walk.kind.name.lower(),
        bool(reply["tag"] == ReplyTag.INTERRUPTED),
    )


def _is_uncross(commands: Structs, number: int) -> bool:
    """Whether the command with this number is the operator's uncross."""
    if not 1 <= number <= len(commands):
        return False
    found = commands[number - 1]
    return bool(found["tag"] == CommandTag.UNCROSS and found["member"] == 0)


def _queue_frame(orders: list[_Order], trades: Structs) -> pandas.DataFrame:
    """The frame of a queue."""
    executed: dict[int, int] = {}
    for bid, ask, quantity in trades[["bid", "ask", "quantity"]].tolist():
        executed[bid] = executed.get(bid, 0) + quantity
        executed[ask] = executed.get(ask, 0) + quantity
    rows = [
        (
            order.id,
            order.member,
            order.side.name.lower(),
            order.limit,
            order.open,
            order.open if order.peak is None else min(order.peak, order.open),
            executed.get(order.id, 0),
        )
        for order in sorted(orders, key=_Order.rank)
    ]
    return pandas.DataFrame(rows, columns=list(QUEUE)).astype(QUEUE)

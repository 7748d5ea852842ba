"""Call phases by the rules: rows in, the book and what an uncross gives out.

A phase is two days of the engine: one takes the commands of the phase, on the orders that the phase
before left; the other uncrosses the book that there is then. So no phase has too many commands (a
long one goes on in another day), and a book can be uncrossed in another order of time. Prices are
numbered as they rise, since the rules only compare them.
"""
import dataclasses
import functools

import numpy

from callauction.arrays import COMMAND, Structs
from callauction.limits import MOST_CALLS, MOST_OPEN, MOST_QUANTITY, MOST_TICKS
from callauction.verdict import engine
from callauction.verdict.cells import Array, Codes, Ints, Mask
from callauction.verdict.rows import (
    RESTRICTION_OF, SIDES, BadRow, Doubt, Int8s, Kind, PriceCode, Rows,
)  # fmt: skip
from callauction.words import AUCTIONS, CommandTag, Refusal, ReplyTag

GONE = -1
"""The quantity of an order that a row takes out of the book."""
_NOT_OPEN = "isn't open any more"


class BeyondError(Exception):
    """What is more than the program holds; one line."""


@dataclasses.dataclass(frozen=True)
class StandingBook:
    """The open orders in order of time; `since` is the row from which a place in time is."""

    key: Codes
    side: Int8s
    price: Codes
    quantity: Ints
    restriction: Int8s
    since: Ints

    def take(self, rows: Array) -> "StandingBook":
        """Some of the orders."""
        return StandingBook(*(getattr(self, each.name)[rows] for each in dataclasses.fields(self)))

    def __len__(self) -> int:
        return len(self.key)

    def counted(self, auction: int) -> Mask:
        """Which orders count in an auction."""
        return ~self.is_for_others(auction)

    def is_for(self, auction: int) -> Mask:
        """Which orders are for this auction alone."""
        found: Mask = (self.restriction > 0) & (self.restriction == RESTRICTION_OF[auction])
        return found

    def is_for_others(self, auction: int) -> Mask:
        """Which orders are for another auction alone."""
        found: Mask = (self.restriction > 0) & (self.restriction != RESTRICTION_OF[auction])
        return found

    def ranked(self, which: Mask) -> Ints:
        """The places of a side's orders in their priority: market orders, better limits, time."""
        these = numpy.flatnonzero(which)
        price = self.price[these].astype("i8")
        limit = numpy.where(self.side[these] == SIDES.index("bid"), -price, price)
        rank = numpy.where(price == PriceCode.MARKET, numpy.iinfo("i8").min, limit)
        return these[numpy.argsort(rank, kind="stable")]


def empty() -> StandingBook:
    """A book without an order."""
    return StandingBook(*(numpy.zeros(0, kind) for kind in ("i4", "i1", "i4", "i8", "i1", "i8")))


@dataclasses.dataclass(frozen=True)
class Taken:
    """What a phase's rows did: the book after them, the rows that the rules refuse or that name no
    open order, the cancels that do, and by the place of each replace whether it kept its own.
    """

    book: StandingBook
    refused: tuple[BadRow, ...]
    closed: Ints
    replaces: Ints
    kept: Mask


@dataclasses.dataclass(frozen=True)
class Result:
    """What the rules give at an uncross: no price is None. Trades are in their order, by keys."""

    price: int | None
    volume: int
    surplus: int
    side: int
    bid: Codes
    ask: Codes
    quantity: Ints

    @property
    def price_code(self) -> int:
        """The number of the price, PriceCode.UNSAID for none."""
        return PriceCode.UNSAID if self.price is None else self.price

    @functools.cached_property
    def fills(self) -> "Sums":
        """The shares of each executed order, by its key."""
        return sums(numpy.concatenate([self.bid, self.ask]), numpy.tile(self.quantity, 2))


@dataclasses.dataclass(frozen=True)
class Sums:
    """The sum of the shares of each key, by keys that rise."""

    keys: Ints
    shares: Ints

    def agrees(self, other: "Sums") -> bool:
        """Whether these are the same."""
        same = numpy.array_equal(self.keys, other.keys)
        return same and numpy.array_equal(self.shares, other.shares)

    def by_key(self) -> dict[int, int]:
        """The sums by their keys."""
        return dict(zip(self.keys.tolist(), self.shares.tolist()))


def sums(keys: Ints | Codes, shares: Ints) -> Sums:
    """The sum of the shares of each key."""
    order = numpy.argsort(keys, kind="stable")
    keys, shares = keys[order], shares[order]
    begins = numpy.flatnonzero(numpy.concatenate([[True], keys[1:] != keys[:-1]])[: len(keys)])
    added: Ints = numpy.add.reduceat(shares, begins) if len(begins) else shares
    return Sums(keys[begins].astype("i8"), added)


def recorded_sums(rows: Rows, traded: Ints, filled: Ints) -> Sums:
    """The shares of each order that were recorded as executed: of trades, else of fills."""
    if not len(traded):
        return sums(rows.key[filled], rows.quantity[filled])
    keys = numpy.concatenate([rows.bid[traded], rows.ask[traded]])
    return sums(keys, numpy.tile(rows.quantity[traded], 2))


NOTHING = Result(None, 0, 0, 0, *(numpy.zeros(0, kind) for kind in ("i4", "i4", "i8")))


# ---- the rows of a phase


def advance(
    book: StandingBook, rows: Rows, these: Ints, auction: int, executed: Ints | None, room: Ints
) -> Taken:
    """A book after these rows of orders before an auction. `executed` has the shares of each key
    that were executed before, where replaces say their total; `room` is for a number of each key.
    Raises BeyondError.
    """
    most = MOST_CALLS - MOST_OPEN - len(AUCTIONS)
    parts = [these[begin : begin + most] for begin in range(0, len(these), most)] or [these]
    taken = [_advance(book, rows, parts[0], auction, executed, room)]
    for part in parts[1:]:
        taken.append(_advance(taken[-1].book, rows, part, auction, executed, room))
    refused = tuple(each for it in taken for each in it.refused)
    names = ("closed", "replaces", "kept")
    arrays = (numpy.concatenate([getattr(it, name) for it in taken]) for name in names)
    return Taken(taken[-1].book, refused, *arrays)


def _advance(
    book: StandingBook, rows: Rows, these: Ints, auction: int, executed: Ints | None, room: Ints
) -> Taken:
    refused: list[BadRow] = []
    while True:
        sent = _Sent.of(book, rows, these, executed, room)
        replies = _answers(auction, sent.commands, sent.named, 1, len(sent.keys))[len(book) :]
        out = replies["tag"] == ReplyTag.REFUSED
        entries = out & (rows.kind[sent.rows] == Kind.NEW)
        if not entries.any():
            break
        if (replies["refusal"][entries] == Refusal.BOOK_FULL).any():
            these = _without_passing(rows, these)
            continue
        refused += _refused(rows, sent.rows[entries], replies["refusal"][entries])
        these = numpy.setdiff1d(these, sent.rows[entries])
    is_closed = out & (replies["refusal"] == Refusal.UNKNOWN_ORDER)
    closed = numpy.concatenate([sent.closed, sent.rows[is_closed]])
    changes = closed[rows.kind[closed] == Kind.REPLACE]
    refused += _refused(rows, sent.rows[out & ~is_closed], replies["refusal"][out & ~is_closed])
    for place in changes.tolist():
        order = rows.names.order(rows.key[place])
        why = f"order {order!r} {_NOT_OPEN}"
        refused.append(BadRow(place, rows.labels[place], why, Doubt.BOOKS, place))
    is_replace = (rows.kind[sent.rows] == Kind.REPLACE) & (replies["tag"] == ReplyTag.CHANGED)
    kept = replies["kept"][is_replace].astype(bool)
    after = sent.book_after(book, replies)
    cancels = closed[rows.kind[closed] == Kind.CANCEL]
    return Taken(after, tuple(refused), cancels, sent.rows[is_replace], kept)


def _refused(rows: Rows, places: Ints, refusals: Array) -> list[BadRow]:
    """Rows that the rules refuse."""
    found = []
    for place, number in zip(places.tolist(), refusals.tolist()):
        name = Refusal(number).name.title().replace("_", "")
        doubt = Doubt.ORDER if rows.kind[place] == Kind.NEW else Doubt.BOOKS
        why = f"the rules say refused {number} {name}"
        if number == Refusal.PAST_AUCTION:
            restriction = rows.names.cell(place, "restriction")
            why += f": restriction {restriction!r}, an auction that isn't held or is over"
        found.append(BadRow(place, rows.labels[place], why, doubt, place))
    return found


def _without_passing(rows: Rows, these: Ints) -> Ints:
    """The rows without orders that they cancel themselves. Raises BeyondError for none."""
    gone = these[(rows.kind[these] == Kind.CANCEL) & (rows.quantity[these] <= 0)]
    left = these[~numpy.isin(rows.key[these], rows.key[gone])]
    if len(left) == len(these):
        raise BeyondError(f"more than {MOST_OPEN:,} orders are open")
    return left


@dataclasses.dataclass(frozen=True)
class _Sent:
    """The commands that enter a book and then do what rows say: the rows that name an order, the
    cancels and replaces that name none, and by its number in the engine the key of each order.
    """

    commands: Structs
    rows: Ints
    closed: Ints
    keys: Codes
    named: Codes
    """The prices of the ticks from 1 on."""

    @classmethod
    def of(
        cls, book: StandingBook, rows: Rows, these: Ints, executed: Ints | None, room: Ints,
        reference: int = PriceCode.MARKET,
    ) -> "_Sent":  # fmt: skip
        """The commands of a book and these rows."""
        if len(book) > MOST_OPEN:
            raise BeyondError(f"more than {MOST_OPEN:,} orders are open")
        entered = rows.key[these[rows.kind[these] == Kind.NEW]]
        room[:] = 0
        room[book.key] = 1 + numpy.arange(len(book))
        room[entered] = 1 + len(book) + numpy.arange(len(entered))
        is_known = room[rows.key[these]] > 0
        sent = these[is_known]
        quantity, price, gone = _wanted(book, rows, sent, executed, room)
        named, ticks = _ticks(numpy.concatenate([book.price, price, [reference]]))
        commands = numpy.zeros(len(book) + len(sent), COMMAND)
        commands[: len(book)] = _entries(book, ticks[: len(book)])
        own = commands[len(book) :]
        is_new = rows.kind[sent] == Kind.NEW
        own["member"] = engine.MEMBER
        own["tag"] = numpy.where(gone, CommandTag.DELETE, CommandTag.CHANGE)
        own["tag"][is_new] = CommandTag.ENTER
        own["id"] = numpy.where(is_new, 0, room[rows.key[sent]])
        own["quantity"] = numpy.where(gone, 0, quantity)
        own["side"] = numpy.where(is_new, rows.side[sent], 0)
        own["restriction"] = numpy.where(is_new, numpy.maximum(rows.restriction[sent], 0), 0)
        own["has_limit"] = (price != PriceCode.MARKET) & ~gone
        own["limit"] = numpy.where(own["has_limit"] == 1, ticks[len(book) : -1], 0)
        keys = numpy.concatenate([[0], book.key, entered]).astype("i4")
        return cls(commands, sent, these[~is_known], keys, named)

    def book_after(self, book: StandingBook, replies: Structs) -> StandingBook:
        """The book after the commands that weren't refused, by the replies to those of rows."""
        begin, count = len(book), len(self.commands)
        done = numpy.ones(count, bool)
        done[begin:] = replies["tag"] != ReplyTag.REFUSED
        entries = self.commands["tag"] == CommandTag.ENTER
        moved = entries.copy()
        moved[begin:] |= (replies["tag"] == ReplyTag.CHANGED) & (replies["kept"] == 0)
        number = self.commands["id"].astype("i8")
        number[entries] = 1 + numpy.arange(int(entries.sum()))
        places = numpy.flatnonzero(done)
        last, first, entry = (numpy.zeros(len(self.keys), "i8") for _ in range(3))
        last[number[places]] = places
        first[number[moved]] = numpy.flatnonzero(moved)
        entry[number[entries]] = numpy.flatnonzero(entries)
        left = 1 + numpy.flatnonzero(self.commands["tag"][last[1:]] != CommandTag.DELETE)
        left = left[numpy.argsort(first[left])]
        at = self.commands[last[left]]
        since = numpy.concatenate([book.since, self.rows])
        limit = numpy.maximum(at["limit"].astype("i8") - 1, 0)
        price = numpy.where(at["has_limit"] == 1, self.named[limit], PriceCode.MARKET)
        entered = self.commands[entry[left]]
        return StandingBook(
            self.keys[left], entered["side"].astype("i1"), price.astype("i4"),
            at["quantity"].astype("i8"), entered["restriction"].astype("i1"), since[first[left]],
        )  # fmt: skip


def _wanted(
    book: StandingBook, rows: Rows, sent: Ints, executed: Ints | None, room: Ints
) -> tuple[Ints, Codes, Mask]:
    """The quantity and the limit that each row gives its order, and which rows take it out."""
    kind, key = rows.kind[sent], rows.key[sent]
    quantity, price = rows.quantity[sent].copy(), rows.price[sent].copy()
    if (quantity[kind != Kind.CANCEL] > MOST_QUANTITY).any():
        row = rows.labels[sent[(kind != Kind.CANCEL) & (quantity > MOST_QUANTITY)][0]]
        raise BeyondError(f"row {row} has more than {MOST_QUANTITY:,} shares")
    if executed is not None:
        is_replace, done = kind == Kind.REPLACE, executed[key]
        quantity = numpy.where(is_replace, quantity - done, quantity)
        quantity[is_replace & (done > 0) & (quantity <= 0)] = GONE
    parts = (kind == Kind.CANCEL) & (quantity > 0)
    if parts.any():
        _cancel_parts(book, rows, sent, quantity, price, parts)
    return quantity, price, (kind == Kind.CANCEL) & ~parts | (quantity == GONE)


def _cancel_parts(
    book: StandingBook, rows: Rows, sent: Ints, quantity: Ints, price: Codes, parts: Mask
) -> None:
    """Sets the quantity and the price of cancels of some shares to what the order has then."""
    kind, key = rows.kind[sent], rows.key[sent]
    these = numpy.flatnonzero(numpy.isin(key, key[parts]))
    carried = numpy.flatnonzero(numpy.isin(book.key, key[parts]))
    order = numpy.argsort(numpy.concatenate([book.key[carried], key[these]]), kind="stable")
    is_set = numpy.concatenate([numpy.ones(len(carried), bool), kind[these] != Kind.CANCEL])[order]
    shares = numpy.concatenate([book.quantity[carried], quantity[these]])[order]
    limit = numpy.concatenate([book.price[carried], price[these]])[order]
    first = numpy.maximum.accumulate(numpy.where(is_set, numpy.arange(len(order)), 0))
    cut = numpy.cumsum(numpy.where(is_set, 0, shares))
    left = shares[first] - (cut - cut[first])
    back = numpy.empty(len(order), "i8")
    back[order] = numpy.arange(len(order))
    place = back[len(carried) :]
    change = parts[these]
    quantity[these[change]] = numpy.where(left[place] > 0, left[place], GONE)[change]
    price[these[change]] = limit[first][place][change]


def _entries(book: StandingBook, ticks: Codes) -> Structs:
    """The commands that enter a book."""
    commands = numpy.zeros(len(book), COMMAND)
    commands["tag"], commands["member"] = CommandTag.ENTER, engine.MEMBER
    commands["side"], commands["quantity"] = book.side, book.quantity
    commands["restriction"] = book.restriction
    commands["has_limit"] = book.price != PriceCode.MARKET
    commands["limit"] = numpy.where(book.price == PriceCode.MARKET, 0, ticks)
    return commands


def _ticks(prices: Codes) -> tuple[Codes, Codes]:
    """The distinct prices, and the number of each from 1. Raises BeyondError."""
    named, ticks = numpy.unique(prices, return_inverse=True)
    if len(named) > MOST_TICKS:
        raise BeyondError(f"{len(named):,} prices in one call phase are more than {MOST_TICKS:,}")
    return named, ticks + 1


def _passing(auction: int, commands: Structs) -> Structs:
    """The commands behind those that end the auctions before this one."""
    passed = numpy.zeros(auction, COMMAND)
    passed["tag"] = CommandTag.UNCROSS
    return numpy.concatenate([passed, commands])


def _answers(auction: int, commands: Structs, named: Codes, reference: int, orders: int) -> Structs:
    """The replies to commands at an auction, before which the others pass over an empty book."""
    whole = _passing(auction, commands)
    return engine.answers(len(named), reference, min(MOST_OPEN, orders), whole)[auction:]


# ---- an uncross


@dataclasses.dataclass(frozen=True)
class UncrossCommands:
    """The commands that uncross a book: its entries, the uncross, and questions for trades."""

    commands: Structs
    named: Codes
    """The prices of the ticks from 1 on."""
    reference: int
    """The tick of the reference."""
    auction: int

    @classmethod
    def of(cls, book: StandingBook, auction: int, reference: int) -> "UncrossCommands":
        """The commands of a book at an auction of the day. Raises BeyondError."""
        if len(book) > MOST_OPEN:
            raise BeyondError(f"more than {MOST_OPEN:,} orders are open")
        named, ticks = _ticks(numpy.concatenate([book.price, [reference]]))
        count = len(book)
        commands = numpy.zeros(2 * count + 1, COMMAND)
        commands[:count] = _entries(book, ticks[:-1])
        commands["tag"][count:] = CommandTag.READ_TRADE
        commands["id"][count:] = numpy.arange(count + 1)
        commands[count : count + 1] = numpy.zeros(1, COMMAND)
        commands["tag"][count] = CommandTag.UNCROSS
        return cls(commands, named, int(ticks[-1]), auction)

    def result(self, book: StandingBook) -> Result:
        """What the rules give."""
        count = len(book)
        replies = _answers(self.auction, self.commands, self.named, self.reference, count)
        reply, trades = replies[count], replies[count + 1 :]
        trades = trades[trades["tag"] == ReplyTag.TRADED]
        return Result(
            int(self.named[reply["tick"] - 1]) if reply["has_tick"] else None,
            int(reply["volume"]), int(reply["surplus"]), int(reply["side"]),
            book.key[trades["id"].astype("i8") - 1], book.key[trades["ask"].astype("i8") - 1],
            trades["quantity"].astype("i8"),
        )  # fmt: skip

    def journal(self) -> bytes:
        """The journal of a day that has the book before its uncross."""
        count = len(self.commands) // 2
        commands = _passing(self.auction, self.commands[: count + 1])
        return engine.journal_of(len(self.named), self.reference, count, commands)


def uncross(book: StandingBook, auction: int, reference: int) -> Result:
    """What the rules give for a book, whatever the range is. Raises BeyondError."""
    return UncrossCommands.of(book, auction, reference).result(book)


# ---- other moments


def indicated(
    book: StandingBook, rows: Rows, these: Ints, auction: int, reference: int, room: Ints
) -> tuple[Ints, Ints, Ints, Ints]:
    """The rows that name an open order, and after each the price that there would have been (or
    PriceCode.MARKET), its volume and its surplus; for replaces that say what is open. Raises
    BeyondError.
    """
    most, found = (MOST_CALLS - MOST_OPEN) // 2 - len(AUCTIONS), []
    for begin in range(0, max(1, len(these)), most):
        sent = _Sent.of(book, rows, these[begin : begin + most], None, room, reference)
        replies = _asked(sent, len(book), auction, reference)
        own = replies[len(book) :]
        tick = numpy.maximum(own["tick"][1::2].astype("i8") - 1, 0)
        price = numpy.where(own["has_tick"][1::2] == 1, sent.named[tick], PriceCode.MARKET)
        volume, surplus = (own[name][1::2].astype("i8") for name in ("volume", "surplus"))
        found.append((sent.rows, price, volume, surplus))
        book = sent.book_after(book, own[::2])
    columns = [numpy.concatenate(each) for each in zip(*found)]
    return columns[0], columns[1], columns[2], columns[3]


def _asked(sent: _Sent, begin: int, auction: int, reference: int) -> Structs:
    """The replies to the commands, and to a question for the price after each one of a row."""
    own = sent.commands[begin:]
    commands = numpy.zeros(begin + 2 * len(own), COMMAND)
    commands[:begin] = sent.commands[:begin]
    commands[begin::2] = own
    commands["tag"][begin + 1 :: 2] = CommandTag.INDICATE
    commands["member"][begin + 1 :: 2] = engine.MEMBER
    tick = int(numpy.searchsorted(sent.named, reference)) + 1
    return _answers(auction, commands, sent.named, tick, len(sent.keys))

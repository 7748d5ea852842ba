"""What a session asks of boards as they are now and as they change, until it ends: market data, and
the phases of auctions.
"""
import asyncio
import dataclasses
import time
from collections.abc import Callable, Sequence
from typing import TYPE_CHECKING

from callauction.fix.refusals import (
    DEPTH, DUPLICATE, ENTRY_TYPE, TOO_MUCH, UNSUPPORTED, UPDATE_TYPE, SeatError,
)
from callauction.fix.tags import OTHER_REASON, FixFields, Given, RepeatingGroups, Tag, Type
from callauction.venue.instrument_board import InstrumentBoard
from callauction.venue.phases import Phase
from callauction.venue.venue import Venue
from callauction.venue.views import Level
from callauction.words import AUCTIONS

if TYPE_CHECKING:
    from callauction.fix.seats import Seat

ONCE, ON, OFF = "0", "1", "2"
"""SubscriptionRequestType."""
WHOLE, CHANGES = "0", "1"
"""MDUpdateType."""
DEPTHS = ("0", "1")
"""MarketDepth: all of the book, of which the best limits are shown alone, and these."""
UPDATE_NEW, UPDATE_CHANGE, UPDATE_DELETE = "0", "1", "2"
"""MDUpdateAction."""
SEEN_SECONDS = 1.0
"""How long a program that doesn't answer is waited for, by all that is said after."""
NO_FEED = "there is no subscription of this id"
MOST_FEEDS = 64
"""What a session may ask for at a time."""
PHASE_UNKNOWN, PHASE_HALTED = "0", "1"
PHASE_STATUSES = {
    Phase.WAITING: "4",
    Phase.CALL: "2",
    Phase.EXTENDED: "2",
    Phase.ENDED: "5",
    Phase.OVER: "3",
}
"""TradSesStatus of a phase."""
OF_AUCTION = dict(zip(AUCTIONS, ("2", "6", "4")))
"""TradingSessionSubID of an auction."""
AFTER = "5"
"""The one of a day that is over."""
ENTRY_TYPES = PRICE, VOLUME, IMBALANCE, BID, ASK = "Q", "B", "A", "0", "1"
"""MDEntryType of what is indicated; Q is of FIX 5.0."""
TRADE_CONDITIONS = {"bid": "P", "ask": "Q"}
"""TradeCondition: more is bid, or more is asked."""
EMPTY: FixFields = [(Tag.MD_ENTRY_TYPE, "J")]
"""The one row of a snapshot that has no other: an empty book; of FIX 5.0, as Q."""
FeedRows = dict[str, FixFields]
"""Rows of market data by their MDEntryType, which each begins with."""
Send = Callable[[Type, FixFields, RepeatingGroups], object]


@dataclasses.dataclass
class Data:
    """A subscription of market data: what it asks for, and what was last sent by instruments."""

    request: str
    types: frozenset[str]
    instruments: frozenset[str]
    is_whole: bool
    last: dict[str, FeedRows] = dataclasses.field(default_factory=dict)

    def changed(self, board: InstrumentBoard, rows: FeedRows, send: Send) -> None:
        """Sends what has changed of a board."""
        instrument = board.identity.instrument
        wanted = {kind: row for kind, row in rows.items() if kind in self.types}
        before = self.last.get(instrument, {})
        if instrument not in self.instruments or wanted == before:
            return
        self.last[instrument] = wanted
        if self.is_whole:
            send(Type.SNAPSHOT, *snapshot(self.request, instrument, wanted))
            return
        head: FixFields = [(Tag.MD_REQ_ID, self.request)]
        changes = changes_of(instrument, before, wanted)
        send(Type.CHANGES, head, [(Tag.NO_MD_ENTRIES, Tag.MD_UPDATE_ACTION, changes)])


@dataclasses.dataclass
class Phases:
    """A subscription of phases, and what was last sent by instruments."""

    request: str
    instruments: frozenset[str]
    last: dict[str, FixFields] = dataclasses.field(default_factory=dict)

    def changed(self, board: InstrumentBoard, phase: FixFields, send: Send) -> None:
        """Sends a phase that has changed."""
        instrument = board.identity.instrument
        if instrument in self.instruments and self.last.get(instrument) != phase:
            self.last[instrument] = phase
            unasked = (Tag.UNSOLICITED_INDICATOR, "Y")
            send(Type.PHASE, [(Tag.TRAD_SES_REQ_ID, self.request), unasked, *phase], [])


def snapshot(request: str, instrument: str, rows: FeedRows) -> tuple[FixFields, RepeatingGroups]:
    """A MarketDataSnapshotFullRefresh, which has a row also where there is nothing to show: by the
    standard a count is positive.
    """
    head: FixFields = [(Tag.MD_REQ_ID, request), (Tag.SYMBOL, instrument)]
    entries = [*rows.values()] or [EMPTY]
    return head, [(Tag.NO_MD_ENTRIES, Tag.MD_ENTRY_TYPE, entries)]


def changes_of(instrument: str, before: FeedRows, after: FeedRows) -> list[FixFields]:
    """What a MarketDataIncrementalRefresh has of one instrument: what is gone first."""
    symbol = (Tag.SYMBOL, instrument)
    gone = [before[kind][0] for kind in before if kind not in after]
    found: list[FixFields] = [
        [(Tag.MD_UPDATE_ACTION, UPDATE_DELETE), kind, symbol] for kind in gone
    ]
    for kind, row in after.items():
        if row != before.get(kind):
            action = (Tag.MD_UPDATE_ACTION, UPDATE_CHANGE if kind in before else UPDATE_NEW)
            found.append([action, row[0], symbol, *row[1:]])
    return found


def rows_of(board: InstrumentBoard, levels: Sequence[Level]) -> FeedRows:
    """All that a board indicates: price, volume and surplus, or the best limits without a price,
    with their visible shares where the levels of its book are given; nothing on a day that is over.
    """
    if board.auctions.state.phase is Phase.OVER:
        return {}
    price, it = board.terms.price, board.looks.indication
    rows: list[FixFields] = []
    if it.price is not None:
        volume = (Tag.MD_ENTRY_SIZE, str(it.volume))
        rows.append([(Tag.MD_ENTRY_TYPE, PRICE), (Tag.MD_ENTRY_PX, price(it.price)), volume])
        rows.append([(Tag.MD_ENTRY_TYPE, VOLUME), volume])
        surplus: FixFields = [(Tag.MD_ENTRY_TYPE, IMBALANCE), (Tag.MD_ENTRY_SIZE, str(it.surplus))]
        side = TRADE_CONDITIONS.get(it.side)
        rows.append(surplus + ([(Tag.TRADE_CONDITION, side)] if side else []))
    for kind, best in ((BID, it.bid), (ASK, it.ask)):
        if best is not None:
            at = [it for it in levels if it.limit == best]
            sizes = [str(it.bid if kind == BID else it.ask) for it in at]
            row: FixFields = [(Tag.MD_ENTRY_TYPE, kind), (Tag.MD_ENTRY_PX, price(best))]
            rows.append(row + [(Tag.MD_ENTRY_SIZE, size) for size in sizes])
    return {row[0][1]: row for row in rows}


def phase_of(venue: Venue, board: InstrumentBoard) -> FixFields:
    """The phase of a board; without the auction, and the end, of one that wasn't seen yet."""
    state = board.auctions.state
    is_halted = board.engine.halted is not None or venue.halts.halted is not None
    text = "halted" if is_halted else "frozen" if state.frozen is not None else str(state.phase)
    status = PHASE_STATUSES[state.phase] if text == state.phase else PHASE_HALTED
    found: FixFields = [(Tag.TRADING_SESSION_ID, board.identity.instrument)]
    if not board.looks.is_seen:
        is_new = text == state.phase
        status, text = (PHASE_UNKNOWN, "unknown") if is_new else (status, text)
        return [*found, (Tag.TRAD_SES_STATUS, status), (Tag.TEXT, text)]
    auction = OF_AUCTION.get(state.auction, AFTER)
    found += [(Tag.TRADING_SESSION_SUB_ID, auction), (Tag.TRAD_SES_STATUS, status)]
    found.append((Tag.TEXT, text))
    if state.ends is None:
        return found
    ends = time.strftime("%Y%m%d-%H:%M:%S", time.gmtime(state.ends))
    return [*found, (Tag.TRAD_SES_END_TIME, ends)]


async def seen(board: InstrumentBoard) -> None:
    """Looks at a board; one whose program doesn't answer soon stays as it was last seen. Raises
    MessageError where it has halted.
    """
    look = asyncio.create_task(board.looks.refresh())
    look.add_done_callback(lambda it: it.cancelled() or it.exception())  # which nobody may ask for
    await asyncio.wait({look}, timeout=SEEN_SECONDS)
    if look.done():
        look.result()


class Feeds:
    """The subscriptions of a connection, and the boards of which something is new."""

    def __init__(self, venue: Venue) -> None:
        self._venue = venue
        self.data: dict[str, Data] = {}
        self.phases: dict[str, Phases] = {}
        self.new: set[str] = set()

    def clear(self) -> None:
        """Nothing is asked for any more."""
        self.data.clear()
        self.phases.clear()
        self.new.clear()

    def check_room(self, request: str, those: "dict[str, Data] | dict[str, Phases]") -> None:
        """Raises SeatError where no more may be asked for, or this was."""
        if request in those:
            raise SeatError(DUPLICATE, "there is a subscription of this id")
        if len(self.data) + len(self.phases) >= MOST_FEEDS:
            raise SeatError(TOO_MUCH, f"a session has at most {MOST_FEEDS} subscriptions")

    def send(self, send: Send) -> None:
        """Sends what is new, once for all that has changed since."""
        new, self.new = self.new, set()
        boards = self._venue.rounds.now.boards
        for board in (boards[name] for name in new if name in boards):
            rows = rows_of(board, self.levels(board))
            for data in self.data.values():
                data.changed(board, rows, send)
            for phases in self.phases.values():
                phases.changed(board, phase_of(self._venue, board), send)

    def levels(self, board: InstrumentBoard) -> Sequence[Level]:
        """What is visible of a board's book at each limit, where that is open."""
        return board.looks.visible_levels if self._venue.rounds.now.is_open_book else []


def check_data(given: Given, update: str, types: frozenset[str]) -> None:
    """Raises SeatError where market data can't be asked for so."""
    if given[Tag.SUBSCRIPTION_REQUEST_TYPE] not in (ONCE, ON):
        raise SeatError(UNSUPPORTED, "SubscriptionRequestType is 0, 1 or 2")
    if given[Tag.MARKET_DEPTH] not in DEPTHS:
        raise SeatError(DEPTH, "MarketDepth is 0 or 1: the best limits are shown alone")
    if update not in (WHOLE, CHANGES):
        raise SeatError(UPDATE_TYPE, "MDUpdateType is 0 or 1")
    if not types <= {*ENTRY_TYPES}:
        raise SeatError(ENTRY_TYPE, f"MDEntryType is one of {', '.join(ENTRY_TYPES)}")


async def ask_data(seat: "Seat", asked: FixFields, given: Given, number: int) -> None:
    """MarketDataRequest. Raises MessageError. What changes is heard by its connection alone."""
    feeds, request, how = seat.feeds, given[Tag.MD_REQ_ID], given[Tag.SUBSCRIPTION_REQUEST_TYPE]
    wire = seat.connections.on.get(seat)
    if how == OFF:
        if feeds.data.pop(request, None) is None:
            raise SeatError(OTHER_REASON, NO_FEED)
        return
    types = frozenset(value for tag, value in asked if tag == Tag.MD_ENTRY_TYPE)
    update = given.get(Tag.MD_UPDATE_TYPE, WHOLE)
    check_data(given, update, types)
    named = (seat.named_board(value) for tag, value in asked if tag == Tag.SYMBOL)
    boards = [*dict.fromkeys(named)]
    data = Data(request, types, frozenset(it.identity.instrument for it in boards), update == WHOLE)
    if how == ON:
        feeds.check_room(request, feeds.data)
        seat.connections.watch(seat)
    await asyncio.gather(*map(seen, boards))
    if seat.connections.on.get(seat) is not wire:
        return
    for board in boards:
        rows = rows_of(board, feeds.levels(board))
        data.last[board.identity.instrument] = {it: row for it, row in rows.items() if it in types}
    for instrument, rows in data.last.items():
        seat.outbound.send(seat, Type.SNAPSHOT, *snapshot(request, instrument, rows))
    if how == ON and wire is not None:
        feeds.data[request] = data


async def ask_phases(seat: "Seat", rows: FixFields, given: Given, number: int) -> None:
    """TradingSessionStatusRequest. Raises MessageError."""
    request, how = given[Tag.TRAD_SES_REQ_ID], given[Tag.SUBSCRIPTION_REQUEST_TYPE]
    feeds, venue = seat.feeds, seat.venue
    if how == OFF:
        if feeds.phases.pop(request, None) is None:
            raise SeatError(OTHER_REASON, NO_FEED)
        return
    if how not in (ONCE, ON):
        raise SeatError(UNSUPPORTED, "SubscriptionRequestType is 0, 1 or 2")
    name = given.get(Tag.TRADING_SESSION_ID)
    boards = seat.boards() if name is None else [seat.named_board(name)]
    phases = Phases(request, frozenset(it.identity.instrument for it in boards))
    if how == ON:
        feeds.check_room(request, feeds.phases)
    for board in boards:
        phase = phases.last[board.identity.instrument] = phase_of(venue, board)
        seat.outbound.send(seat, Type.PHASE, [(Tag.TRAD_SES_REQ_ID, request), *phase], [])
    if how == ON and seat in seat.connections.on:
        feeds.phases[request] = phases
        seat.connections.watch(seat)

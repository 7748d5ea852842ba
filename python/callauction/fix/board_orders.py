"""What members by FIX are sent of a board, from its entries and what the program shows of them: the
same entries give the same messages with the same ids, before and after a restart.
"""
import dataclasses
import functools
from collections.abc import Mapping, Sequence
from decimal import Context, Decimal

from callauction.fix.tags import (
    CLOSING, DAY, GOOD_TILL_CANCEL, LIMIT, MARKET, NONE, OPENING, OTHER_REASON, SIDE_CODES, Exec,
    FixFields, RepeatingGroups, Status, Tag, Type, now,
)
from callauction.fix.uncrosses import Seen
from callauction.venue import views
from callauction.venue.book import OPERATOR
from callauction.venue.instrument_board import InstrumentBoard
from callauction.venue.recovery import Entry, MemberMessage
from callauction.words import Refusal
from callauction.words import MARKET as AT_MARKET

REJECTED = {
    Refusal.BAD_QUANTITY: "13",
    Refusal.BOOK_FULL: "3",
    Refusal.DAY_OVER: "2",
    Refusal.PAST_AUCTION: "4",
}
"""OrdRejReason of the program's refusals."""
TOO_LATE = "0"
NOT_CHANGED = {Refusal.UNKNOWN_ORDER: "1", Refusal.DAY_OVER: TOO_LATE}
"""CxlRejReason of the program's refusals."""
SENTENCES = {
    Refusal.BAD_QUANTITY: "OrderQty (38) is from 1 to 1000000000",
    Refusal.BAD_PEAK: "a peak (111, 1138) is from 1 to OrderQty, of a limit order",
    Refusal.BOOK_FULL: "there are as many open orders as may be",
    Refusal.UNKNOWN_ORDER: "there is no such open order",
    Refusal.DAY_OVER: "the day is over",
    Refusal.PAST_AUCTION: "the auction that TimeInForce (59) names is over",
}
"""What the program's refusals say, but for that of a limit."""
HOW_ENDED = {
    Status.FILLED: "is filled",
    Status.EXPIRED: "has expired",
    Status.CANCELED: "is cancelled",
}
"""How an order has ended."""
ENTER_WORD, DELETE_WORD = "enter", "delete"
TIMES_OF_AUCTIONS = {"opening": OPENING, "closing": CLOSING}
ENDED_STATUSES = (Status.CANCELED, Status.REJECTED, Status.EXPIRED)
NOT_KEPT = "no order is kept for another day or round"
"""What is said of one till cancelled that has expired."""
MOST_PRICES = 4096
"""How many ticks are kept with their prices."""
PRICE_DIGITS = Context(prec=15)
"""How many digits of an average price are sent: as many as a float of FIX may have."""
CLIENT, ORIGIN, TIME = map(str, (Tag.CL_ORD_ID, Tag.ORIG_CL_ORD_ID, Tag.TIME_IN_FORCE))
NUMBER, WHEN, SAID = map(str, (Tag.MSG_SEQ_NUM, Tag.TRANSACT_TIME, Tag.TEXT))
SINCE = str(Tag.BEGIN_SEQ_NO)
"""What the log keeps beside a message of a member by FIX; NUMBER, WHEN and SAID are of the report
of it, SINCE is the number of the first message whose answer a crash might take then.
"""


@dataclasses.dataclass(slots=True)
class Report:
    """A message to a member; `event` is its id, by which it is sent once. What is for the operator
    has OPERATOR as its member; `time` is its TransactTime, empty for now. One that `passes` says
    what is only of its time, and isn't sent again.
    """

    member: str
    type: Type
    event: str
    pairs: FixFields
    groups: RepeatingGroups = dataclasses.field(default_factory=list)
    time: str = ""
    passes: bool = False


@dataclasses.dataclass(slots=True)
class Held:
    """An order, its OrderID, and the id that its member last gave it; `paid` is in ticks times
    shares.
    """

    order: int
    name: str
    member: str
    client: str
    side: str
    open: int
    limit: str
    peak: str
    restriction: str
    time: str
    total: int
    filled: int = 0
    paid: int = 0
    status: Status = Status.NEW

    @classmethod
    def of(cls, board: str, message: MemberMessage, entry: Entry, fields: Sequence[str]) -> "Held":
        """A new order of a board, by its record after `enter`; its number is 0 where it was
        refused.
        """
        side, quantity, limit, peak, restriction = [*fields, "", ""][:5]
        note, shares = message.note, int(quantity)
        client, time = note.get(CLIENT, ""), note.get(TIME, DAY)
        number = entry.order or 0
        name, member = f"{board}.{number}" if number else NONE, message.member
        terms = side, shares, limit, peak, restriction, time
        return cls(number, name, member, client, *terms, total=shares)


class Orders:
    """The orders of a board as members by FIX see them."""

    def __init__(self, board: InstrumentBoard) -> None:
        self._board = board
        self._price = functools.lru_cache(MOST_PRICES)(board.terms.price)
        self._open: dict[int, Held] = {}
        self._by_client: dict[tuple[str, str], Held] = {}

    def of_client(self, member: str, client: str) -> Held | None:
        """The order to which a member gave this id."""
        return self._by_client.get((member, client))

    def open_of(self, member: str) -> list[Held]:
        """The open orders of a member, in the order in which they came."""
        return [it for it in self._open.values() if it.member == member]

    def event(self, place: int) -> str:
        """The id of what an entry comes to."""
        return entry_event(self._board, place)

    # ---- entries

    def take(self, message: MemberMessage, entry: Entry) -> Report:
        """What the entry of a member's command is sent as."""
        found = self._taken(message, entry, self.event(entry.place))
        found.time = message.note.get(WHEN, "")
        return found

    def _taken(self, message: MemberMessage, entry: Entry, event: str) -> Report:
        """The report of an entry."""
        fields = entry.record.split(",")
        if fields[1] == ENTER_WORD:
            held = Held.of(self._board.key_at(entry.place), message, entry, fields[2:])
            return self._entered(held, entry, event)
        known = self._open.get(int(fields[2]))
        if known is None or entry.reply.startswith("refused"):
            return self._kept(known, message, entry, event)
        return self._edited(known, message, entry, event)

    def _kept(self, held: Held | None, message: MemberMessage, entry: Entry, event: str) -> Report:
        """An order wasn't changed, perhaps as it has ended."""
        asked = EditRequest.of(message, entry.record.split(",")[1] == DELETE_WORD)
        ended = self.of_client(message.member, asked.origin) if held is None else None
        reason = TOO_LATE if ended else reason_of(NOT_CHANGED, entry.reply)
        text = ended_text(ended) if ended and not ended.open else self._said(entry.reply)
        return refusal(asked, event, held or ended, reason, text)

    def _entered(self, held: Held, entry: Entry, event: str) -> Report:
        """A new order was taken or refused."""
        if not held.order:
            held.status = Status.REJECTED
            reason = reason_of(REJECTED, entry.reply)
            more = [(Tag.ORD_REJ_REASON, reason), (Tag.TEXT, self._said(entry.reply))]
            return self.report(held, event, Status.REJECTED, [*more])
        self._open[held.order] = held
        self._named(held)
        return self.report(held, event, Status.NEW)

    def _said(self, reply: str) -> str:
        """A refusal of the program in a sentence, and in its words."""
        refusal, terms = Refusal(int(reply.split(" ")[1])), self._board.terms
        sentence = SENTENCES.get(refusal, "")
        if refusal is Refusal.BAD_LIMIT:
            sentence = f"Price (44) is from {terms.price(terms.low)} to {terms.price(terms.high)}"
        return f"{sentence} ({reply})" if sentence else reply

    def _edited(self, held: Held, message: MemberMessage, entry: Entry, event: str) -> Report:
        """An order was changed or deleted."""
        held.client = message.note.get(CLIENT, held.client)
        self._named(held)
        origin = message.note.get(ORIGIN, "")
        more = [(Tag.ORIG_CL_ORD_ID, origin)] if origin else []
        fields = entry.record.split(",")
        if fields[1] == DELETE_WORD:
            more += [(Tag.TEXT, message.note[SAID])] if SAID in message.note else []
            self._end(held, Status.CANCELED)
            return self.report(held, event, Status.CANCELED, [*more])
        held.open, held.limit = int(fields[3]), fields[4]
        held.total = held.filled + held.open
        return self.report(held, event, Exec.REPLACED, [*more])

    def _named(self, held: Held) -> None:
        """An order is known by the id that it has now."""
        if held.client:
            self._by_client[held.member, held.client] = held

    def _end(self, held: Held, status: Status) -> None:
        """Nothing more of an order is open."""
        held.open, held.status = 0, status
        del self._open[held.order]

    # ---- uncrosses

    def uncrossed(self, place: int, seen: Seen) -> list[Report]:
        """What the uncross at a place did: a report for each side of a trade, then what ended."""
        event = self.event(place)
        found = [report for it in seen.trades for report in self._traded(it, event)]
        for number in seen.before:
            found += self._seen_after(self._open[number], seen, event)
        return found

    def _traded(self, trade: views.DayTrade, event: str) -> list[Report]:
        """A trade, for both of its sides."""
        found = []
        for letter, number in (("b", trade.bid), ("a", trade.ask)):
            held = self._open[number]
            held.open, held.filled = held.open - trade.quantity, held.filled + trade.quantity
            held.paid += trade.quantity * trade.tick
            held.status = Status.PARTLY if held.open else Status.FILLED
            more: FixFields = [
                (Tag.LAST_QTY, str(trade.quantity)),
                (Tag.LAST_PX, self._price(trade.tick)),
                (Tag.TRD_MATCH_ID, match_of(trade, event)),
            ]
            found.append(self.report(held, f"{event}.{trade.number}{letter}", Exec.TRADE, more))
        return [*found, self._captured(trade, f"{event}.{trade.number}")]

    def _captured(self, trade: views.DayTrade, event: str) -> Report:
        """A trade with both of its sides, for the operator's copy."""
        sides = []
        for number in (trade.bid, trade.ask):
            held = self._open[number]
            side: FixFields = [(Tag.SIDE, SIDE_CODES[held.side]), (Tag.ORDER_ID, held.name)]
            side += [(Tag.CL_ORD_ID, held.client)] if held.client else []
            sides.append([*side, (Tag.ACCOUNT, held.member)])
        pairs: FixFields = [
            (Tag.TRADE_REPORT_ID, event),
            (Tag.PREVIOUSLY_REPORTED, "N"),
            (Tag.SYMBOL, self._board.identity.instrument),
            (Tag.LAST_QTY, str(trade.quantity)),
            (Tag.LAST_PX, self._price(trade.tick)),
            (Tag.TRADE_DATE, now()[:8]),
            (Tag.TRD_MATCH_ID, match_of(trade, event.rpartition(".")[0])),
        ]
        groups = [(Tag.NO_SIDES, Tag.SIDE, sides)]
        return Report(OPERATOR, Type.TRADE, event, pairs, groups)

    def _seen_after(self, held: Held, seen: Seen, event: str) -> list[Report]:
        """What became of an order that was open before an uncross: one of which something was left
        and that isn't open after it has expired, and all do at the end of the day.
        """
        if not held.open:
            del self._open[held.order]
            return []
        if held.order in seen.after and not seen.is_over:
            return []
        return [self._expired(held, event)]

    def over(self) -> list[Report]:
        """What the end of the board's round does to the orders that are open."""
        event = f"{self._board.key_at_end()}.end"
        return [self._expired(it, event) for it in [*self._open.values()]]

    def _expired(self, held: Held, event: str) -> Report:
        """An order has ended by itself. FIX's done for day would be one that goes on tomorrow."""
        self._end(held, Status.EXPIRED)
        more: FixFields = [(Tag.TEXT, NOT_KEPT)] if held.time == GOOD_TILL_CANCEL else []
        return self.report(held, f"{event}.x{held.order}", Status.EXPIRED, more)

    # ---- reports

    def report(self, held: Held, event: str, kind: str, more: FixFields | None = None) -> Report:
        """An ExecutionReport of an order as it is now."""
        left = 0 if held.status in ENDED_STATUSES else held.open
        pairs: FixFields = [
            (Tag.ORDER_ID, held.name),
            (Tag.EXEC_ID, event),
            (Tag.EXEC_TYPE, kind),
            (Tag.ORD_STATUS, held.status),
            (Tag.SYMBOL, self._board.identity.instrument),
            (Tag.SIDE, SIDE_CODES[held.side]),
            (Tag.ORDER_QTY, str(held.total)),
            (Tag.LEAVES_QTY, str(left)),
            (Tag.CUM_QTY, str(held.filled)),
            (Tag.AVG_PX, self._average(held)),
            (Tag.TIME_IN_FORCE, TIMES_OF_AUCTIONS.get(held.restriction, held.time)),
            *self._priced(held),
        ]
        pairs += [(Tag.CL_ORD_ID, held.client)] if held.client else []
        pairs += [(Tag.MAX_FLOOR, held.peak)] if held.peak else []
        return Report(held.member, Type.REPORT, event, pairs + (more or []))

    def _priced(self, held: Held) -> FixFields:
        """The type of an order, and its price."""
        if held.limit == AT_MARKET:
            return [(Tag.ORD_TYPE, MARKET)]
        return [(Tag.ORD_TYPE, LIMIT), (Tag.PRICE, self._price(int(held.limit)))]

    def _average(self, held: Held) -> str:
        """The average price of what was filled."""
        if not held.filled:
            return "0"
        paid = held.paid * self._board.terms.grid.tick_size
        return format(PRICE_DIGITS.divide(paid, Decimal(held.filled)).normalize(), "f")


def entry_event(board: InstrumentBoard, place: int) -> str:
    """The id of what an entry of a board comes to."""
    return f"{board.key_at(place)}.{place}"


def match_of(trade: views.DayTrade, event: str) -> str:
    """The id of a trade, beside that of the uncross which made it."""
    return f"{event.rpartition('.')[0]}.{trade.number}"


@dataclasses.dataclass(frozen=True)
class EditRequest:
    """A member's request for another order or none: its ids, and whether it is a cancel."""

    member: str
    client: str
    origin: str
    is_cancel: bool

    @classmethod
    def of(cls, message: MemberMessage, is_cancel: bool) -> "EditRequest":
        """The request that became a message."""
        note: Mapping[str, str] = message.note
        return cls(message.member, note.get(CLIENT, NONE), note.get(ORIGIN, NONE), is_cancel)


def ended_text(held: Held, is_over: bool = False) -> str:
    """Why an order that has ended can't be changed, perhaps on a day that is over."""
    end = HOW_ENDED.get(held.status, "was never entered")
    return f"the order {end}{': the day is over' if is_over else ''}"


def reason_of(reasons: Mapping[Refusal, str], reply: str) -> str:
    """The reason of FIX for a refusal of the program."""
    return reasons.get(Refusal(int(reply.split(" ")[1])), OTHER_REASON)


def refusal(
    asked: EditRequest, event: str, held: Held | None, reason: str, text: str,
    status: Status = Status.REJECTED,
) -> Report:
    """An OrderCancelReject of an order as it is now, or of this status where none is known."""
    pairs: FixFields = [
        (Tag.ORDER_ID, held.name if held else NONE),
        (Tag.CL_ORD_ID, asked.client),
        (Tag.ORIG_CL_ORD_ID, asked.origin),
        (Tag.ORD_STATUS, held.status if held else status),
        (Tag.CXL_REJ_RESPONSE_TO, "1" if asked.is_cancel else "2"),
        (Tag.CXL_REJ_REASON, reason),
        (Tag.TEXT, text),
        (Tag.EVENT_ID, event),
    ]
    return Report(asked.member, Type.CANCEL_REJECT, event, pairs)

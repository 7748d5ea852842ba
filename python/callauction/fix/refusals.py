"""How a member is told that a message of it came to nothing."""
from typing import TYPE_CHECKING

from callauction.fix.board_orders import CLIENT, ORIGIN, EditRequest, Report, refusal
from callauction.fix.tags import (
    DAY, EVENTS, FIXT, NONE, OTHER_REASON, SIDE_CODES, Exec, FixFields, Given, Status, Tag, Type,
)
from callauction.venue.instrument_board import InstrumentBoard
from callauction.venue.messages import MessageError
from callauction.venue.recovery import MemberMessage

if TYPE_CHECKING:
    from callauction.fix.seats import Seat

UNKNOWN_SYMBOL, CLOSED, TOO_MUCH = "1", "2", "3"
UNKNOWN_ORDER, DUPLICATE, UNSUPPORTED = "5", "6", "11"
ORDER_ENDED, WRONG_QUANTITY = "4", "13"
"""The reason where an order has ended: too late; where a quantity can't be one of an order."""
ORDER_REASONS = {
    "unknown_instrument": UNKNOWN_SYMBOL,
    "not_now": CLOSED,
    "frozen": CLOSED,
    "halted": CLOSED,
    "above_limit": TOO_MUCH,
    "bad_message": UNSUPPORTED,
}
"""OrdRejReason of what the venue refuses."""
CANCEL_REASONS = {ORDER_ENDED: "0", UNKNOWN_ORDER: "1", CLOSED: "2", DUPLICATE: "6"}
"""CxlRejReason of an OrdRejReason."""
MASS_REASONS = {UNKNOWN_SYMBOL: "1", UNSUPPORTED: "0"}
"""MassCancelRejectReason of an OrdRejReason."""
DEPTH, UPDATE_TYPE, ENTRY_TYPE = "depth", "update type", "entry type"
"""The reasons of a request for market data that there isn't."""
DATA_REASONS = {
    UNKNOWN_SYMBOL: "0",
    DUPLICATE: "1",
    TOO_MUCH: "2",
    DEPTH: "5",
    UPDATE_TYPE: "6",
    ENTRY_TYPE: "8",
}
"""MDReqRejReason of an OrdRejReason."""
NOT_CANCELLED = "0"
"""The MassCancelResponse of a mass cancel that wasn't done."""
NO_INSTRUMENT, INVALID = "2", "1"
"""SecurityRequestResult of a list that there isn't."""
PHASE_REFUSED = "6"
"""The TradSesStatus of a request that is refused."""
ALL = "530"
"""What the log keeps beside a deletion that a mass cancel asked for: its ClOrdID and its type."""
NO_SIDE = "7"
"""The Side of a report that is of no order: undisclosed."""
NO_SYMBOL = "[N/A]"
USED = "this ClOrdID was used"
OTHER_DAY = "it was sent first before this day began: empty your store each day"
MADE_BEFORE = "its TransactTime (60) is before this day began, of which nothing is done today"
FILLED = "it came ahead of its turn, and a gap came in its place: it isn't executed"
UNUSED = (USED, OTHER_DAY, MADE_BEFORE, FILLED)
"""What is said of a message that doesn't use its ClOrdID."""


class SeatError(MessageError):
    """A message that isn't done; `reason` is its OrdRejReason, and `status` what the order is that
    it names where none is known.
    """

    status = Status.REJECTED

    def __init__(self, reason: str, text: str) -> None:
        super().__init__("bad_message", text)
        self.reason = reason


class PendingError(SeatError):
    """What an order is can't be said before its instrument has answered, which has halted."""

    def __init__(self, status: Status, text: str) -> None:
        super().__init__(CLOSED, f"{text}: this order waits there")
        self.status = status


def refuse(seat: "Seat", given: Given, event: str, fault: MessageError) -> None:
    """Says that nothing was done, and why."""
    reason, status = ORDER_REASONS.get(fault.code, OTHER_REASON), Status.REJECTED
    if isinstance(fault, SeatError):
        reason, status = fault.reason, fault.status
    kind = given[Tag.MSG_TYPE]
    if kind in (Type.ENTER, Type.CANCEL, Type.REPLACE) and fault.text not in UNUSED:
        seat.clients.keep(given, seat.epoch.number_of(int(given[Tag.MSG_SEQ_NUM])))
    if kind in (Type.CANCEL, Type.REPLACE):
        client, origin = given[Tag.CL_ORD_ID], given[Tag.ORIG_CL_ORD_ID]
        asked = EditRequest(seat.name, client, origin, kind == Type.CANCEL)
        code = CANCEL_REASONS.get(reason, OTHER_REASON)
        held = seat.held(given, origin)
        seat.reports.tell(refusal(asked, event, held, code, fault.text, status))
    elif kind == Type.MASS_CANCEL:
        code = MASS_REASONS.get(reason, OTHER_REASON)
        pairs: FixFields = [(Tag.MASS_CANCEL_RESPONSE, NOT_CANCELLED)]
        pairs += [(Tag.MASS_CANCEL_REJECT_REASON, code), (Tag.TEXT, fault.text)]
        tell_mass_cancelled(seat, given, event, pairs)
    elif kind in ANSWERS:
        answer, pairs = ANSWERS[Type(kind)], refused_request(given, event, reason)
        seat.outbound.send(seat, answer, [*pairs, (Tag.TEXT, fault.text)], [])
    else:
        tell_rejected(seat, given, event, reason, fault.text, status)


def tell_mass_cancelled(seat: "Seat", given: Given, event: str, more: FixFields) -> None:
    """Answers a mass cancel, with the number of orders that it took out so far."""
    copied = (Tag.CL_ORD_ID, Tag.MASS_CANCEL_REQUEST_TYPE, Tag.SYMBOL, Tag.SIDE)
    number = int(given[Tag.MSG_SEQ_NUM])
    pairs: FixFields = [(tag, given[tag]) for tag in copied if tag in given]
    pairs += [(Tag.TOTAL_AFFECTED_ORDERS, str(seat.epoch.deleted[number])), *more]
    if dict(more).get(Tag.TEXT) not in UNUSED:
        seat.clients.keep(given, seat.epoch.number_of(number), pairs)
    tell_mass_answer(seat, event, pairs)


def tell_mass_answer(seat: "Seat", event: str, answer: FixFields) -> None:
    """Says what is the answer to a mass cancel, perhaps once more."""
    pairs: FixFields = [(Tag.ORDER_ID, event), *answer]
    pairs += [(Tag.MASS_ACTION_REPORT_ID, event)] if seat.begin == FIXT else []
    seat.reports.tell(Report(seat.name, Type.MASS_CANCELED, event, pairs))


def tell_again(seat: "Seat", event: str, kind: Type, said: FixFields) -> None:
    """Says once more, to a message that is sent again, why it was refused."""
    pairs = [(tag, event if tag == EVENTS[kind] else it) for tag, it in said]
    seat.reports.tell(Report(seat.name, kind, event, pairs))


ANSWERS = {
    Type.REQUEST: Type.REQUEST_REJECT,
    Type.PHASE_REQUEST: Type.PHASE,
    Type.LIST_REQUEST: Type.LIST,
}
"""What a request that is no command is answered by."""


def refused_request(given: Given, event: str, reason: str) -> FixFields:
    """What is said of a request that can't be answered, but for the text."""
    is_unknown = reason == UNKNOWN_SYMBOL
    kind = given[Tag.MSG_TYPE]
    if kind == Type.REQUEST:
        code = DATA_REASONS.get(reason, "4")
        return [(Tag.MD_REQ_ID, given[Tag.MD_REQ_ID]), (Tag.MD_REQ_REJ_REASON, code)]
    if kind == Type.LIST_REQUEST:
        result = NO_INSTRUMENT if is_unknown else INVALID
        request = (Tag.SECURITY_REQ_ID, given[Tag.SECURITY_REQ_ID])
        return [request, (Tag.SECURITY_RESPONSE_ID, event), (Tag.SECURITY_REQUEST_RESULT, result)]
    return [
        (Tag.TRAD_SES_REQ_ID, given[Tag.TRAD_SES_REQ_ID]),
        (Tag.TRADING_SESSION_ID, given.get(Tag.TRADING_SESSION_ID, NO_SYMBOL)),
        (Tag.TRAD_SES_STATUS, PHASE_REFUSED),
        (Tag.TRAD_SES_STATUS_REJ_REASON, "1" if is_unknown else OTHER_REASON),
    ]


def tell_rejected(
    seat: "Seat", given: Given, event: str, reason: str, text: str, status: Status
) -> None:
    """Says that an order wasn't taken, or that there is none of which to say anything yet."""
    is_rejected = status == Status.REJECTED
    is_new = given[Tag.MSG_TYPE] == Type.ENTER and is_rejected
    copied = (Tag.CL_ORD_ID, Tag.ORD_STATUS_REQ_ID, Tag.MASS_STATUS_REQ_ID)
    empty = [(Tag.TOT_NUM_REPORTS, "0"), (Tag.LAST_RPT_REQUESTED, "Y")]
    pairs: FixFields = [
        (Tag.ORDER_ID, NONE),
        *((tag, given[tag]) for tag in copied if tag in given),
        *(empty if given[Tag.MSG_TYPE] == Type.MASS_STATUS else []),
        (Tag.EXEC_ID, event),
        (Tag.EXEC_TYPE, Status.REJECTED if is_new else Exec.STATUS),
        (Tag.ORD_STATUS, status),
        (Tag.SYMBOL, given.get(Tag.SYMBOL, NO_SYMBOL)),
        (Tag.SIDE, given.get(Tag.SIDE, NO_SIDE)),
        (Tag.ORDER_QTY, given.get(Tag.ORDER_QTY, "0")),
        *((tag, "0") for tag in (Tag.LEAVES_QTY, Tag.CUM_QTY, Tag.AVG_PX)),
        *([(Tag.ORD_REJ_REASON, reason)] if is_rejected else []),
        (Tag.TEXT, text),
    ]
    pairs += asked_fields(given) if is_new else []
    seat.reports.tell(Report(seat.name, Type.REPORT, event, pairs))


def asked_fields(given: Given) -> FixFields:
    """What a new order asked for that its report has too."""
    copied = (Tag.ORD_TYPE, Tag.PRICE, Tag.MAX_FLOOR)
    pairs: FixFields = [(tag, given[tag]) for tag in copied if tag in given]
    pairs.append((Tag.TIME_IN_FORCE, given.get(Tag.TIME_IN_FORCE, DAY)))
    if Tag.MAX_FLOOR not in given and Tag.DISPLAY_QTY in given:
        pairs.append((Tag.MAX_FLOOR, given[Tag.DISPLAY_QTY]))
    return pairs


def given_of(board: InstrumentBoard, message: MemberMessage, number: int) -> Given:
    """What a message of the log was, as far as an answer to it repeats that."""
    word, *fields = message.record.split(",")[1:]
    given: Given = {Tag.MSG_SEQ_NUM: str(number)}
    if ALL in message.note:
        kind, _, client = message.note[ALL].partition(" ")
        given |= {Tag.MASS_CANCEL_REQUEST_TYPE: kind, Tag.CL_ORD_ID: client}
        return given | {Tag.MSG_TYPE: Type.MASS_CANCEL}
    given |= {Tag.CL_ORD_ID: message.note.get(CLIENT, NONE), Tag.SYMBOL: board.identity.instrument}
    if word == "enter":
        given |= {Tag.SIDE: SIDE_CODES[fields[0]], Tag.ORDER_QTY: fields[1]}
        return given | {Tag.MSG_TYPE: Type.ENTER}
    given |= {Tag.ORIG_CL_ORD_ID: message.note.get(ORIGIN, NONE)}
    return given | {Tag.MSG_TYPE: Type.CANCEL if word == "delete" else Type.REPLACE}

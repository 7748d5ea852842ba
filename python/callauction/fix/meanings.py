"""What the messages by FIX and their tags say, in the words of docs/made/FIX_MESSAGES.md, which
messages.py prints. The tags themselves, and which are needed, are those of the dictionary,
FIX44.xml.
"""
from collections.abc import Mapping

from callauction.fix import feeds, refusals, requests
from callauction.fix.board_orders import TOO_LATE
from callauction.fix.seats import NOT_ALLOWED
from callauction.fix.tags import (
    CLOSING, DAY, GOOD_TILL_CANCEL, LIMIT, MARKET, NONE, OPENING, OTHER_REASON, SIDES, Exec, Status,
    Tag, Type,
)

Meanings = Mapping[str, str]
"""What each message says, or each value of a tag."""
HEAD = "head"
"""What is around each message, as a type of messages."""
BOTH_WAYS: Meanings = {
    Type.LOGON: "A Logon begins a connection, and is answered by one.",
    "0": "A Heartbeat says that somebody is there.",
    Type.TEST_REQUEST: "A TestRequest asks for a Heartbeat.",
    "2": "A ResendRequest asks for messages once more.",
    "3": "A Reject refuses a message that breaks a rule of the session or of this page.",
    Type.GAP: "A SequenceReset fills a gap in the numbers.",
    "5": "A Logout ends a connection.",
}
"""Messages of the session, both ways."""
TO_VENUE: Meanings = {
    Type.ENTER: "A new order, answered by 8.",
    Type.REPLACE: "Another total or price of an open order, answered by 8 or 9.",
    Type.CANCEL: "The cancel of an order, answered by 8 or 9.",
    Type.STATUS: "A look at an order, answered by 8.",
    Type.MASS_CANCEL: "The cancel of all open orders, answered by an 8 for each, then by r.",
    Type.MASS_STATUS: "A look at all open orders, answered by an 8 for each. Ten of these count "
    "as one message of the member's `rate`.",
    Type.REQUEST: "A look at the market, answered by W, then perhaps by X, or by Y.",
    Type.PHASE_REQUEST: "A look at the phases of auctions, answered by h.",
    Type.LIST_REQUEST: "A look at the instruments, answered by y.",
}
"""Messages to the venue."""
FROM_VENUE: Meanings = {
    Type.REPORT: "What became of an order.",
    Type.CANCEL_REJECT: "A replace or a cancel wasn't done, said once more to one with 97=Y or "
    "43=Y.",
    Type.MASS_CANCELED: "The answer to q.",
    Type.BUSINESS_REJECT: "A message of another type is refused, also of one that the venue alone "
    "sends, or that the session of `copy` may not send. One of yours isn't answered.",
    Type.SNAPSHOT: "The market of an instrument as it is.",
    Type.CHANGES: "What has changed of a market.",
    Type.REQUEST_REJECT: "The market isn't shown.",
    Type.PHASE: "The phase of an instrument.",
    Type.LIST: "The instruments.",
    Type.TRADE: "A trade with both sides, for the session of `copy` alone.",
}
"""Messages from the venue."""
SPOKEN_FOR = {1, 21, 22, 58, 100, 207, 354, 355, 447, 448, 452, 453, 523, 528, 581, 802, 803}
"""Tags that clients send with orders, and that change nothing."""
IDLE: Mapping[str, set[int]] = {
    HEAD: {50, 57, 89, 93, 115, 142, 369},
    Type.LOGON: {95, 96, 383, 464, 553, 789},
    **{kind: {354, 355} for kind in ("3", "5")},
    Type.ENTER: SPOKEN_FOR,
    Type.REPLACE: SPOKEN_FOR | {Tag.ORDER_ID},
    Type.STATUS: SPOKEN_FOR | {Tag.ORDER_ID},
    Type.CANCEL: SPOKEN_FOR | {Tag.ORDER_ID, Tag.ORDER_QTY},
    Type.MASS_CANCEL: {58, 207},
    Type.MASS_STATUS: {1, 207},
    Type.REQUEST: {207},
    Type.LIST_REQUEST: {58, 207, Tag.SUBSCRIPTION_REQUEST_TYPE},
}
"""Tags of each message that change nothing."""
SAYS = {
    1: "the member",
    6: "the average price of what was executed, 0 before",
    7: "the first number that is missing",
    8: "FIX.4.4, or FIXT.1.1 of a CompID in `fix50`",
    9: "how many bytes follow up to 10; above 65536 the venue ends the connection by a 5",
    10: "the sum of all bytes before it",
    11: "your id of this message, up to 64 letters, which no other has in any round of the day",
    14: "how many shares were executed so far",
    16: "the last one, 0 for all",
    31: "the price of the trade",
    32: "the shares of the trade",
    34: "the number of the message, from 1",
    35: "the type of the message",
    36: "the number of the next message",
    37: "the order: `XYZ.3` is order 3 of XYZ",
    38: "whole shares",
    43: "Y where it comes once more under its number: what was done isn't done again",
    44: "the price, of a limit order alone",
    45: "the number of the message that is refused",
    49: "who sends it: your CompID, or VENUE",
    52: "when it is sent, at most 120 s from the venue's clock",
    55: "the instrument",
    56: "who gets it: VENUE, or your CompID",
    58: "why, or what else there is to say",
    60: "when it was made: any time, with 97=Y one of this day",
    75: "its day",
    97: "Y where it may have come before under another number: a known 11 isn't done again",
    98: "0, as nothing is encrypted",
    108: "the seconds between two Heartbeats",
    111: "the peak: how many shares are shown, of a limit order, from 1 to 38",
    112: "a word that the Heartbeat repeats",
    122: "when it was sent first, needed with 43=Y; what is of before this day isn't done",
    123: "Y where it fills a gap in what is sent again",
    126: "a day after today; the order ends with its auction or the day all the same",
    141: "Y is answered by a 5 with 34=1, as the numbers are kept for the day",
    146: "how many instruments",
    151: "how many shares are open",
    15: "the instrument's currency",
    17: "the id of this report, by which it is told once",
    18: "1, 2 or 5, perhaps several: they change nothing",
    41: "an 11 of the order: its last one, or one before",
    48: "the same as 55",
    167: "CS",
    262: "the id of the request",
    267: "how many kinds",
    268: "how many rows",
    270: "the price",
    271: "the shares; of a best limit those that are visible, where the book is open",
    320: "the id of the request",
    322: "the id of the answer",
    325: "Y where it wasn't asked for now: it has changed",
    335: "the id of the request",
    336: "the instrument",
    345: "when the phase ends, where the clock ends it",
    371: "the tag that is wrong",
    372: "the type of the message that is refused",
    373: "the reason by the standard",
    379: "the venue says none",
    393: "how many instruments",
    533: "how many orders were cancelled",
    552: "2: the sides",
    554: "the member's token, of `copy` the operator's; nobody logs on without it",
    571: "the id of the trade's report, as 17",
    570: "N",
    584: "the id of the request",
    790: "an id of the request, which the answer repeats",
    880: "the id of the trade, the same on both sides",
    911: "how many reports answer AF",
    912: "Y of the last of them",
    969: "the tick size",
    1128: "9, which is FIX 5.0SP2, if it is there",
    1137: "9, which is FIX 5.0SP2",
    1138: "another tag for 111",
    1148: "the lowest price that is taken",
    1149: "the highest price that is taken",
    1369: "the id of the answer, as 37",
    8013: "Y, given back: your orders by FIX are cancelled as the connection ends, or the venue",
    20001: "the id of this refusal, as 17 of a report",
}
"""What a tag says."""
SAYS_IN: Mapping[tuple[str, int], str] = {
    (Type.REPLACE, 38): "the new total of whole shares, with what was executed, above 14 (to have "
    "no more executed, cancel); it may be below the peak, which stays as it was",
    (Type.REPLACE, 40): "an order with a peak stays a limit order",
    (Type.REPLACE, 54): "the order's side",
    (Type.REPLACE, 59): "the order's, if it is there: it can't change",
    (Type.REPLACE, 111): "the order's, if it is there: it can't change",
    (Type.CANCEL, 54): "the order's side",
    (Type.STATUS, 54): "the order's side",
    (Type.STATUS, 11): "an 11 of the order",
    (Type.MASS_CANCEL, 54): "one side's orders alone",
    (Type.MASS_STATUS, 54): "one side's orders alone",
    (Type.REQUEST, 262): "an id of the request, which isn't another subscription's",
    (Type.PHASE_REQUEST, 335): "an id of the request, which isn't another subscription's",
    (Type.PHASE_REQUEST, 336): "an instrument; none for all",
    (Type.REPORT, 11): "the order's last 11; the 11 of what is refused",
    (Type.REPORT, 37): f"the order: `XYZ.3` is order 3 of XYZ; {NONE} of none",
    (Type.REPORT, 38): "the total of the order",
    (Type.REPORT, 41): "the 11 that a replace or a cancel named",
    (Type.REPORT, 55): f"the instrument, {refusals.NO_SYMBOL} of none",
    (Type.REPORT, 58): "why it was refused or has ended, or of which earlier round it was",
    (Type.REPORT, 60): "when it was so",
    (Type.REPORT, 111): "the peak of the order",
    (Type.CANCEL_REJECT, 11): "the 11 of what is refused",
    (Type.CANCEL_REJECT, 37): f"the order, {NONE} where none is known",
    (Type.CANCEL_REJECT, 41): "the 41 of what is refused",
    (Type.CANCEL_REJECT, 60): "when it was so",
    (Type.MASS_CANCELED, 11): "the 11 of the q",
    (Type.MASS_CANCELED, 37): "the id of this answer, as 17 of a report",
    (Type.MASS_CANCELED, 58): "which instruments' orders stay open, and why",
    (Type.MASS_CANCELED, 60): "when it was so",
    (Type.MASS_CANCELED, 530): "as in the q",
    (Type.MASS_CANCELED, 54): "as in the q",
    (Type.MASS_CANCELED, 55): "as in the q",
    (Type.LIST, 15): "its currency",
    (Type.LIST, 58): "its title; after the group why nothing is listed",
    (Type.PHASE, 58): "the phase in a word",
    (Type.TRADE, 11): "the order's last 11",
    (Type.TRADE, 17): "the venue says none",
    (Type.TRADE, 60): "when it was so",
    (Type.TRADE, 625): "the venue says none",
    ("0", 112): "the word of the TestRequest",
}
"""What a tag says in one message, where that is more, or something else."""
TIMES = {
    DAY: "the day, as where there is none",
    GOOD_TILL_CANCEL: "the day too, as no order is kept for another one",
    OPENING: "the opening auction alone",
    CLOSING: "the closing auction alone",
}
ORDER_TYPE_MEANINGS = {MARKET: "a market order, without 44", LIMIT: "a limit order, with 44"}
STATUS_MEANINGS: Meanings = {
    Status.NEW: "open",
    Status.PARTLY: "executed in part",
    Status.FILLED: "executed",
    Status.CANCELED: "cancelled",
    Status.EXPIRED: "expired",
    Status.REJECTED: "not entered, or not known",
    Status.PENDING_NEW: "it waits in an instrument that has halted",
    Status.PENDING_REPLACE: "its replace waits there",
    Status.PENDING_CANCEL: "its cancel waits there",
}
EXECS: Meanings = {
    Status.NEW: "entered",
    Exec.REPLACED: "replaced",
    Status.CANCELED: "cancelled",
    Status.REJECTED: "not entered, as 103 and 58 say, once more to a D with 97=Y or 43=Y",
    Exec.TRADE: "a trade, of which each side has a report",
    Status.EXPIRED: "its auction or the day is over",
    Exec.STATUS: "how it is, to H, to AF, and to a D, G or F with 97=Y or 43=Y whose 11 was done",
}
ORDER_REASON_MEANINGS = {
    refusals.UNKNOWN_SYMBOL: "no such instrument",
    refusals.CLOSED: "no orders are taken now",
    refusals.TOO_MUCH: "above a limit",
    refusals.ORDER_ENDED: "its auction is over",
    refusals.UNKNOWN_ORDER: "no such order",
    refusals.DUPLICATE: "the 11 was used",
    refusals.UNSUPPORTED: "a value that isn't taken here",
    refusals.WRONG_QUANTITY: "a wrong 38",
    OTHER_REASON: "as 58 says",
}
CANCEL_REASON_MEANINGS = {
    TOO_LATE: "the order has ended",
    "1": "no such order",
    "2": "no orders are taken now, or the instrument has halted before it answered",
    "6": "the 11 was used",
    OTHER_REASON: "as 58 says",
}
OF_MANY = {requests.OF_ONE: "of the instrument 55", requests.OF_ALL: "of all, without 55"}
SUBSCRIBED = {
    feeds.ONCE: "once",
    feeds.ON: "now and at each change, until 2 or the connection ends",
    feeds.OFF: "no more",
}
ENTRIES = {
    feeds.PRICE: "the indicative price, with its shares",
    feeds.VOLUME: "the shares that would be executed",
    feeds.IMBALANCE: "the surplus",
    feeds.BID: "the best bid, where there is no indicative price",
    feeds.ASK: "the best ask, where there is none",
}
SHOWN = {**ENTRIES, feeds.EMPTY[0][1]: "the one row where there is nothing to show"}
CONDITION_MEANINGS = {
    feeds.TRADE_CONDITIONS["bid"]: "more is bid",
    feeds.TRADE_CONDITIONS["ask"]: "more is asked",
}
PHASES = {
    "4": "waiting for the call",
    "2": "the call, in which orders are taken",
    feeds.PHASE_HALTED: "frozen or halted",
    "5": "the call has ended",
    "3": "the day is over",
    feeds.PHASE_UNKNOWN: "not known yet",
    refusals.PHASE_REFUSED: "the request is refused",
}
AUCTIONS = {"2": "opening", "6": "intraday", "4": "closing", feeds.AFTER: "the day is over"}
VALUES: Mapping[tuple[str, int], Meanings] = {
    (Type.ENTER, 54): SIDES,
    (Type.ENTER, 40): ORDER_TYPE_MEANINGS,
    (Type.REPLACE, 40): ORDER_TYPE_MEANINGS,
    (Type.ENTER, 59): TIMES,
    (Type.REPORT, 59): {**TIMES, DAY: "the day"},
    (Type.MASS_CANCEL, 54): SIDES,
    (Type.MASS_STATUS, 54): SIDES,
    (Type.MASS_CANCEL, 530): OF_MANY,
    (Type.MASS_STATUS, 585): OF_MANY,
    (Type.REQUEST, 263): SUBSCRIBED,
    (Type.PHASE_REQUEST, 263): SUBSCRIBED,
    (Type.REQUEST, 264): {"0": "the best limits", "1": "the same, as no others are shown"},
    (Type.REQUEST, 265): {
        feeds.WHOLE: "a W at each change, as without 265", feeds.CHANGES: "an X at each change",
    },
    (Type.REQUEST, 269): ENTRIES,
    (Type.LIST_REQUEST, 559): {
        requests.LIST_OF_ONE: "the instrument 55", requests.LIST_OF_ALL: "all, without 55",
    },
    (Type.REPORT, 54): {**SIDES, refusals.NO_SIDE: "of no order"},
    (Type.REPORT, 40): {MARKET: "market", LIMIT: "limit"},
    (Type.REPORT, 39): STATUS_MEANINGS,
    (Type.REPORT, 150): EXECS,
    (Type.REPORT, 103): ORDER_REASON_MEANINGS,
    (Type.CANCEL_REJECT, 39): STATUS_MEANINGS,
    (Type.CANCEL_REJECT, 102): CANCEL_REASON_MEANINGS,
    (Type.CANCEL_REJECT, 434): {"1": "a cancel", "2": "a replace"},
    (Type.MASS_CANCELED, 531): {
        refusals.NOT_CANCELLED: "nothing was done",
        requests.OF_ONE: "done in the instrument",
        requests.OF_ALL: "done in all of them",
    },
    (Type.MASS_CANCELED, 532): {
        refusals.MASS_REASONS[refusals.UNKNOWN_SYMBOL]: "no such instrument",
        refusals.MASS_REASONS[refusals.UNSUPPORTED]: "a value that isn't taken here",
        OTHER_REASON: "as 58 says",
    },
    (Type.BUSINESS_REJECT, 380): {
        "3": "a type that isn't spoken here", NOT_ALLOWED: "`copy` has no orders",
    },
    (Type.SNAPSHOT, 269): SHOWN,
    (Type.SNAPSHOT, 277): CONDITION_MEANINGS,
    (Type.CHANGES, 269): ENTRIES,
    (Type.CHANGES, 277): CONDITION_MEANINGS,
    (Type.CHANGES, 279): {
        feeds.UPDATE_NEW: "new", feeds.UPDATE_CHANGE: "changed",
        feeds.UPDATE_DELETE: "gone, of which the kind is said",
    },
    (Type.REQUEST_REJECT, 281): {
        refusals.DATA_REASONS[refusals.UNKNOWN_SYMBOL]: "no such instrument",
        refusals.DATA_REASONS[refusals.DUPLICATE]: "the 262 of another subscription",
        refusals.DATA_REASONS[refusals.TOO_MUCH]: f"above {feeds.MOST_FEEDS} subscriptions",
        "4": "263 isn't taken, or has nothing to end",
        refusals.DATA_REASONS[refusals.DEPTH]: "264 isn't taken",
        refusals.DATA_REASONS[refusals.UPDATE_TYPE]: "265 isn't taken",
        refusals.DATA_REASONS[refusals.ENTRY_TYPE]: "a 269 isn't taken",
    },
    (Type.PHASE, 340): PHASES,
    (Type.PHASE, 625): AUCTIONS,
    (Type.PHASE, 567): {"1": "no such instrument", OTHER_REASON: "as 58 says"},
    (Type.LIST, 560): {
        "0": "the list is right",
        refusals.INVALID: "559 isn't taken so",
        refusals.NO_INSTRUMENT: "no such instrument",
    },
    (Type.TRADE, 54): SIDES,
}
"""What the values of a tag mean in a message, as its code has them."""

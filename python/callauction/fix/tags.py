"""Messages by FIX as pairs of tags and values, and the values that the venue uses."""
import calendar
import enum
import functools
import time


class Tag:
    """The tags that the venue reads or writes: numbers, as an order needs some fifty of them, and
    members of an enumeration take three times as long.
    """

    ACCOUNT = 1
    AVG_PX = 6
    CL_ORD_ID = 11
    CUM_QTY = 14
    CURRENCY = 15
    EXEC_ID = 17
    EXEC_INST = 18
    LAST_PX = 31
    LAST_QTY = 32
    BEGIN_SEQ_NO = 7
    MSG_SEQ_NUM = 34
    MSG_TYPE = 35
    NEW_SEQ_NO = 36
    ORDER_ID = 37
    ORDER_QTY = 38
    ORD_STATUS = 39
    ORD_TYPE = 40
    ORIG_CL_ORD_ID = 41
    POSS_DUP = 43
    PRICE = 44
    REF_SEQ_NUM = 45
    SECURITY_ID = 48
    SIDE = 54
    SYMBOL = 55
    TEXT = 58
    TIME_IN_FORCE = 59
    TRANSACT_TIME = 60
    TRADE_DATE = 75
    POSS_RESEND = 97
    CXL_REJ_REASON = 102
    ORD_REJ_REASON = 103
    MAX_FLOOR = 111
    TEST_REQ_ID = 112
    ORIG_SENDING_TIME = 122
    GAP_FILL = 123
    EXPIRE_TIME = 126
    NO_RELATED_SYM = 146
    EXEC_TYPE = 150
    LEAVES_QTY = 151
    SECURITY_TYPE = 167
    MD_REQ_ID = 262
    SUBSCRIPTION_REQUEST_TYPE = 263
    MARKET_DEPTH = 264
    MD_UPDATE_TYPE = 265
    NO_MD_ENTRIES = 268
    MD_ENTRY_TYPE = 269
    MD_ENTRY_PX = 270
    MD_ENTRY_SIZE = 271
    TRADE_CONDITION = 277
    MD_UPDATE_ACTION = 279
    MD_REQ_REJ_REASON = 281
    SECURITY_REQ_ID = 320
    SECURITY_RESPONSE_ID = 322
    UNSOLICITED_INDICATOR = 325
    TRAD_SES_REQ_ID = 335
    TRADING_SESSION_ID = 336
    TRAD_SES_STATUS = 340
    TRAD_SES_END_TIME = 345
    REF_MSG_TYPE = 372
    BUSINESS_REJECT_REASON = 380
    TOT_NO_RELATED_SYM = 393
    CXL_REJ_RESPONSE_TO = 434
    MASS_CANCEL_REQUEST_TYPE = 530
    MASS_CANCEL_RESPONSE = 531
    MASS_CANCEL_REJECT_REASON = 532
    TOTAL_AFFECTED_ORDERS = 533
    NO_SIDES = 552
    SECURITY_LIST_REQUEST_TYPE = 559
    SECURITY_REQUEST_RESULT = 560
    TRAD_SES_STATUS_REJ_REASON = 567
    PREVIOUSLY_REPORTED = 570
    TRADE_REPORT_ID = 571
    MASS_STATUS_REQ_ID = 584
    MASS_STATUS_REQ_TYPE = 585
    TRADING_SESSION_SUB_ID = 625
    ORD_STATUS_REQ_ID = 790
    TRD_MATCH_ID = 880
    TOT_NUM_REPORTS = 911
    LAST_RPT_REQUESTED = 912
    MIN_PRICE_INCREMENT = 969
    DISPLAY_QTY = 1138
    LOW_LIMIT_PRICE = 1148
    HIGH_LIMIT_PRICE = 1149
    MASS_ACTION_REPORT_ID = 1369
    CANCELS_ON_DISCONNECT = 8013
    EVENT_ID = 20001


class Type(enum.StrEnum):
    """The types of messages that the venue reads or writes."""

    REPORT = "8"
    CANCEL_REJECT = "9"
    ENTER = "D"
    CANCEL = "F"
    REPLACE = "G"
    STATUS = "H"
    REQUEST = "V"
    SNAPSHOT = "W"
    CHANGES = "X"
    REQUEST_REJECT = "Y"
    MASS_CANCEL = "q"
    MASS_CANCELED = "r"
    MASS_STATUS = "AF"
    PHASE_REQUEST = "g"
    PHASE = "h"
    LIST_REQUEST = "x"
    LIST = "y"
    TRADE = "AE"
    GAP = "4"
    BUSINESS_REJECT = "j"
    LOGON = "A"
    TEST_REQUEST = "1"


class Status(enum.StrEnum):
    """What an order is: OrdStatus, and ExecType where that changes."""

    NEW = "0"
    PARTLY = "1"
    FILLED = "2"
    CANCELED = "4"
    PENDING_CANCEL = "6"
    REJECTED = "8"
    PENDING_NEW = "A"
    EXPIRED = "C"
    PENDING_REPLACE = "E"


class Exec(enum.StrEnum):
    """The types of reports that are no status of an order."""

    REPLACED = "5"
    TRADE = "F"
    STATUS = "I"


FIX44, FIXT = "FIX.4.4", "FIXT.1.1"
"""How a message begins: of FIX 4.4, and of FIX 5.0SP2 over its own transport."""
FixFields = list[tuple[int, str]]
RepeatingGroups = list[tuple[int, int, list[FixFields]]]
"""Groups of a message: the tag that counts its rows, the first tag of each, the rows, whose tags
are in the dictionary's order.
"""
Given = dict[int, str]
"""A message by its tags, the last one of each."""
SIDES = {"1": "bid", "2": "ask"}
SIDE_CODES = {side: code for code, side in SIDES.items()}
MARKET, LIMIT = "1", "2"
OPENING, CLOSING, DAY, GOOD_TILL_CANCEL = "2", "7", "0", "1"
NONE = "NONE"
OTHER_REASON = "99"
"""The reason of a refusal for which FIX has no number."""
SOH = "\x01"
SECOND_LETTERS = len("20261126-09:00:00")
EVENTS = {
    Type.REPORT: Tag.EXEC_ID,
    Type.CANCEL_REJECT: Tag.EVENT_ID,
    Type.MASS_CANCELED: Tag.ORDER_ID,
    Type.TRADE: Tag.TRADE_REPORT_ID,
    Type.LIST: Tag.SECURITY_RESPONSE_ID,
}
"""Which tag of a message is the id of what it says, by which it is sent once."""
HEADER_AND_TRAILER = (8, 9, 10, 34, 35, 43, 49, 52, 56, 97, 122)
"""The tags around what a message says."""
OF_SIDES = (Tag.SIDE, Tag.ORDER_ID, Tag.CL_ORD_ID, Tag.ACCOUNT)
"""The tags of a side of a trade, which begins with the first."""
REJECTS = ("3", "j")
"""Messages by which a session, or QuickFIX for it, refuses another one."""


def number_of(text: bytes) -> int:
    """The MsgSeqNum of a message."""
    return int(text.partition(b"\x0134=")[2].partition(b"\x01")[0])


def pairs_of(text: bytes) -> FixFields:
    """The tags and values of a message, in their order."""
    parts = (it.partition("=") for it in text.decode("latin-1").split(SOH))
    return [(int(tag), value) for tag, _, value in parts if tag.isdigit()]


def refusal_of(comp_id: str, number: object, epoch: str) -> str:
    """The id of the answer to a message that wasn't executed, of a session in an epoch by its name.
    """
    return f"R.{comp_id}.{f'{epoch}.' if epoch else ''}{number}"


def event_in(given: Given, comp_id: str, epoch: str) -> str:
    """The id of what a message to a session says, by its fields; empty where it has none."""
    kind = given.get(Tag.MSG_TYPE, "")
    if kind in REJECTS:
        return refusal_of(comp_id, given.get(Tag.REF_SEQ_NUM, 0), epoch)
    return given.get(EVENTS[Type(kind)], "") if kind in EVENTS else ""


def body_of(pairs: FixFields) -> tuple[FixFields, RepeatingGroups]:
    """What a report says, without what is around it; the sides of a trade apart."""
    body = [it for it in pairs if it[0] not in HEADER_AND_TRAILER]
    place = next((at for at, it in enumerate(body) if it[0] == Tag.NO_SIDES), None)
    if place is None:
        return body, []
    end = place + 1
    rows: list[FixFields] = []
    while end < len(body) and body[end][0] in OF_SIDES:
        if body[end][0] == Tag.SIDE:
            rows.append([])
        rows[-1].append(body[end])
        end += 1
    return body[:place] + body[end:], [(Tag.NO_SIDES, Tag.SIDE, rows)]


def now(ago: int = 0) -> str:
    """The time so many seconds ago as FIX has it, to a millisecond."""
    second, part = divmod(int(time.time() * 1000), 1000)
    return f"{time_of(second - ago)}.{part:03}"


def is_recent(text: str, seconds: int) -> bool:
    """Whether a time as FIX has it is now, or was at most so many seconds ago."""
    current = now()
    is_this_second = text[:SECOND_LETTERS] == current[:SECOND_LETTERS]
    return text <= current and (is_this_second or now(seconds) <= text)


def seconds_of(text: str) -> float:
    """A time as FIX has it in seconds of the epoch, 0 for what is none."""
    second, part = text[:SECOND_LETTERS], text[SECOND_LETTERS:]
    try:
        return calendar.timegm(time.strptime(second, "%Y%m%d-%H:%M:%S")) + float(f"0{part}")
    except ValueError:
        return 0.0


@functools.lru_cache(2)
def time_of(second: int) -> str:
    """A second of the epoch as FIX has it."""
    return time.strftime("%Y%m%d-%H:%M:%S", time.gmtime(second))

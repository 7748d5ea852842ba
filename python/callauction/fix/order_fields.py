"""What the fields of a member's message say of the order that it asks for. What clients send beside
what an order is changes nothing, and is refused where it says something else of the order, or asks
for what the venue doesn't do.
"""
import re

from callauction.fix.board_orders import SENTENCES, TIMES_OF_AUCTIONS, Held
from callauction.fix.refusals import UNKNOWN_SYMBOL, UNSUPPORTED, WRONG_QUANTITY, SeatError
from callauction.fix.tags import (
    CLOSING, DAY, GOOD_TILL_CANCEL, LIMIT, MARKET, OPENING, OTHER_REASON, SECOND_LETTERS, SIDES,
    SIDE_CODES, Given, Tag, now,
)
from callauction.limits import MOST_NUMBER
from callauction.venue.instrument_board import InstrumentBoard
from callauction.words import MARKET as AT_MARKET
from callauction.words import Refusal

MOST_ID_LETTERS = 64
RESTRICTIONS_BY_TIME = {OPENING: "opening", CLOSING: "closing", DAY: "", GOOD_TILL_CANCEL: ""}
MOST_DIGITS = len(str(MOST_NUMBER)) + 1
SHARES_TEXT = re.compile(r"0*(0|[1-9][0-9]*)(?:\.0*)?")
PRICE_TEXT = re.compile(r"(?=\.?[0-9])([0-9]{0,30})(?:\.([0-9]{0,30}))?")
"""A price by the standard: 20.05, 20., .05."""
CURRENCY = re.compile("[A-Z]{3}")
"""A currency that FIX can say."""
PLAIN_EXECUTION = {"1", "2", "5"}
"""ExecInst of orders that are as all are: not held, work, held."""
COMMON_STOCK = "CS"
"""The SecurityType of instruments: common stock."""
DAY_LETTERS = SECOND_LETTERS - len("-09:00:00")
"""The letters of a time that are its date."""


def is_sent_again(given: Given) -> bool:
    """Whether a message may be one that came before, under another number: as PossResend, or as
    PossDup from a store that a reset of the session didn't empty.
    """
    return "Y" in (given.get(Tag.POSS_RESEND), given.get(Tag.POSS_DUP))


def check_client(given: Given) -> None:
    """Raises SeatError where an id is too long."""
    if len(given[Tag.CL_ORD_ID]) > MOST_ID_LETTERS:
        raise SeatError(UNSUPPORTED, f"ClOrdID has at most {MOST_ID_LETTERS} letters")


def check_side(given: Given, held: Held) -> None:
    """Raises SeatError where a message names another side than its order's."""
    own = SIDE_CODES[held.side]
    if given[Tag.SIDE] != own:
        raise SeatError(UNSUPPORTED, f"Side (54) isn't the order's, which is {own}")


def side_of(given: Given) -> str:
    """The side of an order. Raises SeatError."""
    if given[Tag.SIDE] not in SIDES:
        raise SeatError(UNSUPPORTED, "Side is 1 or 2")
    return SIDES[given[Tag.SIDE]]


def price_of(given: Given) -> str:
    """The limit that a message asks for. Raises SeatError."""
    kind, price = given[Tag.ORD_TYPE], given.get(Tag.PRICE, AT_MARKET)
    if kind not in (MARKET, LIMIT) or (kind == LIMIT) != (Tag.PRICE in given):
        raise SeatError(UNSUPPORTED, "OrdType is 1, or 2 with a Price")
    if kind == MARKET:
        return price
    if not (found := PRICE_TEXT.fullmatch(price)):
        raise SeatError(OTHER_REASON, f"Price {price} is none such as 20.05")
    whole, part = found.groups()
    return f"{whole or '0'}.{part}" if part else whole


def shares_of(given: Given, tag: int) -> int:
    """A quantity of whole shares, of an order or its peak; one above all limits is the greatest.
    Raises SeatError.
    """
    if found := SHARES_TEXT.fullmatch(given[tag]):
        return min(int(found[1][:MOST_DIGITS]), MOST_NUMBER)
    if tag == Tag.ORDER_QTY:
        raise SeatError(WRONG_QUANTITY, f"{SENTENCES[Refusal.BAD_QUANTITY]} whole shares")
    raise SeatError(OTHER_REASON, SENTENCES[Refusal.BAD_PEAK])


def peak_of(given: Given) -> str:
    """The peak that a message asks for, empty for none. Raises SeatError."""
    if Tag.MAX_FLOOR not in given and Tag.DISPLAY_QTY not in given:
        return ""
    tags = [tag for tag in (Tag.MAX_FLOOR, Tag.DISPLAY_QTY) if tag in given]
    found = {str(shares_of(given, tag)) for tag in tags}
    if len(found) > 1:
        raise SeatError(UNSUPPORTED, "MaxFloor and DisplayQty are two peaks")
    return found.pop()


def left_of(total: int, held: Held) -> int:
    """What of a new total of an order is open. Raises SeatError where that was executed."""
    if held.filled and total <= held.filled:
        text = f"OrderQty is the total, and {held.filled} were executed: cancel what is left"
        raise SeatError(OTHER_REASON, text)
    return total - held.filled


def check_kept(given: Given, held: Held) -> None:
    """Raises SeatError where a message would change what an order keeps."""
    times = (held.time, TIMES_OF_AUCTIONS.get(held.restriction, held.time))
    is_peak = peak_of(given) in ("", held.peak)
    if not is_peak or given.get(Tag.TIME_IN_FORCE, held.time) not in times:
        raise SeatError(UNSUPPORTED, "MaxFloor and TimeInForce can't be changed")


def check_beside(given: Given, board: InstrumentBoard) -> None:
    """Raises SeatError where a message for an order on a board names another security or currency,
    or contradicts itself, or what orders are.
    """
    if given.get(Tag.SECURITY_ID, given[Tag.SYMBOL]) != given[Tag.SYMBOL]:
        text = "SecurityID (48) isn't the Symbol (55), by which alone instruments are known"
        raise SeatError(UNKNOWN_SYMBOL, text)
    if given.get(Tag.SECURITY_TYPE, COMMON_STOCK) != COMMON_STOCK:
        raise SeatError(UNSUPPORTED, f"SecurityType (167) is {COMMON_STOCK}")
    currency = board.terms.currency
    if CURRENCY.fullmatch(currency) and given.get(Tag.CURRENCY, currency) != currency:
        text = f"Currency (15) isn't the instrument's, which is {currency}"
        raise SeatError(UNSUPPORTED, text)
    if not {*given.get(Tag.EXEC_INST, "").split()} <= PLAIN_EXECUTION:
        raise SeatError(UNSUPPORTED, "ExecInst (18) is of 1, 2 and 5, which change nothing")
    if Tag.EXPIRE_TIME in given and given[Tag.EXPIRE_TIME][:DAY_LETTERS] <= now()[:DAY_LETTERS]:
        text = "ExpireTime (126) isn't after today: an order ends by its auction, or a cancel"
        raise SeatError(UNSUPPORTED, text)

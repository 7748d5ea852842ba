"""What members and operators send, as JSON: read, and made into the program's records.

schema.json says the same for other languages.
"""
import dataclasses
import json
from collections.abc import Mapping
from typing import Any

from callauction.limits import MOST_NUMBER
from callauction.prices import BadCellError, decimal_of
from callauction.venue.config import MOST_TRADERS, InstrumentTerms
from callauction.venue.fields import PRICE, shown
from callauction.words import MARKET, SIDES

MOST_MESSAGE_BYTES = 4096
MOST_MESSAGE = (1 << 53) - 1
"""The greatest number of a message: the greatest whole number that every JSON reader keeps."""
RESTRICTIONS = ("", "opening", "closing")
TOPICS = ("states", "orders", "fills", "trades", "rounds", "ladder", "payoffs")
ORDER_FIELDS = {
    "enter": {"side", "quantity", "price", "peak", "only"},
    "change": {"order", "quantity", "price"},
    "delete": {"order"},
}
ERRORS = {
    "bad_message": "this is no message that may be sent",
    "bad_token": "this token is nobody's here",
    "bad_code": "this code is not the one of this venue",
    "bad_name": "a name has 1 to 40 characters, without < and >",
    "name_taken": "somebody has this name",
    "venue_full": "there are as many members as may be",
    "unknown_instrument": "there is no instrument of this name",
    "instrument_full": f"{MOST_TRADERS} members trade this instrument, and it takes no more",
    "bad_price": "the price is no multiple of the tick size",
    "above_limit": "the quantity is above the limit of this venue",
    "not_now": "orders are taken in a call phase alone",
    "frozen": "the operator has frozen the call phase",
    "halted": "the venue has halted; nothing was done",
    "not_made": "it can't be made now: try again",
    "no_calls": "the instrument takes no more commands of members",
    "number_used": "this number was another message's",
    "too_fast": "too many messages; nothing was done",
    "too_slow": "this connection reads too slowly",
    "not_allowed": "this isn't yours to do",
    "bad_phase": "this can't be done in this phase",
    "has_values": "members have values, which they would lose",
    "not_known": "it isn't known what a board of this round has",
    "joining_closed": "nobody can join any more",
    "join_later": "many have joined from this address",
    "not_covered": "the value doesn't cover these shares",
    "no_shares": "there are no such shares to sell",
    "no_money": "there is no such money",
    "own_trade": "this order could trade with an own one",
}
"""What can be wrong with a message: nothing was executed then, and its number is still free."""


class MessageError(ValueError):
    """A message that isn't done; `code` is one of ERRORS, and `more` what the operator's page reads
    beside it.
    """

    def __init__(self, code: str, text: str = "", **more: Any) -> None:
        super().__init__(text or ERRORS[code])
        self.code, self.text, self.more = code, text or ERRORS[code], more


@dataclasses.dataclass(frozen=True, slots=True)
class OrderMessage:
    """A message that becomes a command: its number, its instrument, and the rest of its record
    after the member. `note` is what the log keeps beside it.
    """

    number: int
    instrument: str
    record: str
    note: Mapping[str, str] = dataclasses.field(default_factory=dict, compare=False)


def json_value(text: str) -> Any:
    """What a text of JSON says. Raises MessageError where it is none, where a text in it is none
    that can be written, as half a pair of UTF-16, and where a key is there twice.
    """
    try:
        found = json.loads(text, object_pairs_hook=object_of)
        if "\\u" in text:
            json.dumps(found, ensure_ascii=False).encode("utf-8")
    except MessageError:
        raise
    except (ValueError, RecursionError):
        raise MessageError("bad_message", "this is no JSON") from None
    return found


def object_of(pairs: list[tuple[str, Any]]) -> dict[str, Any]:
    """An object of these keys. Raises MessageError where one is there twice: each reader would take
    another of the two.
    """
    found: dict[str, Any] = {}
    for name, value in pairs:
        if name in found:
            raise MessageError("bad_message", f"{shown(name)} is there twice")
        found[name] = value
    return found


def message_in(text: str) -> dict[str, Any]:
    """An object of JSON with a type. Raises MessageError."""
    if len(text) > MOST_MESSAGE_BYTES:
        raise MessageError("bad_message", "the message is too long")
    found = json_value(text)
    if not isinstance(found, dict) or not isinstance(found.get("type"), str):
        raise MessageError("bad_message", "the message has no type")
    return found


def topics_of(message: dict[str, Any]) -> frozenset[str]:
    """The topics that a hello asks for, all where it names none. Raises MessageError."""
    if message["type"] != "hello" or message.keys() - {"type", "token", "topics"}:
        raise MessageError("bad_message", "the first message is a hello with token and topics")
    found = message.get("topics", [*TOPICS])
    if not isinstance(found, list) or not all(it in TOPICS for it in found):
        raise MessageError("bad_message", f"topics are {', '.join(TOPICS)}")
    return frozenset(found)


def text_of(message: dict[str, Any], name: str, default: str | None = None) -> str:
    """A text of a message. Raises MessageError."""
    found = message.get(name, default)
    if not isinstance(found, str):
        raise MessageError("bad_message", f"{name} is no text")
    return found


def number_of(message: dict[str, Any], name: str, least: int, most: int) -> int:
    """A whole number of a message. Raises MessageError."""
    found = message.get(name)
    if isinstance(found, bool) or not isinstance(found, int) or not least <= found <= most:
        raise MessageError("bad_message", f"{name} is no whole number from {least} to {most}")
    return found


def limit_text(terms: InstrumentTerms, price: object) -> str:
    """The limit of a record: a tick, or `market`. Raises MessageError."""
    if price == MARKET:
        return MARKET
    if not isinstance(price, str) or not PRICE.fullmatch(price):
        raise MessageError("bad_message", "price is no text such as 20.05 or market")
    try:
        tick = terms.grid.tick(decimal_of(price))
    except BadCellError as fault:
        raise MessageError("bad_price", f"the price {price} {fault}") from None
    if tick > MOST_NUMBER:
        least, most = terms.price(terms.low), terms.price(terms.high)
        raise MessageError("bad_price", f"the price {price} is not from {least} to {most}")
    return str(tick)


def quantity_of(terms: InstrumentTerms, message: dict[str, Any]) -> int:
    """The shares of an order. Raises MessageError."""
    found = number_of(message, "quantity", 0, MOST_NUMBER)
    if found > terms.most_quantity:
        raise MessageError("above_limit", f"an order has at most {terms.most_quantity} shares")
    return found


def order_of(terms: InstrumentTerms, message: dict[str, Any]) -> OrderMessage:
    """The command that a message asks for. Raises MessageError."""
    kind = message["type"]
    for name in message.keys() - ORDER_FIELDS[kind] - {"type", "number", "instrument"}:
        raise MessageError("bad_message", f"there is no {name} in {kind}")
    number = number_of(message, "number", 1, MOST_MESSAGE)
    if kind == "enter":
        rest = enter_record(terms, message)
    else:
        rest = f"{kind},{number_of(message, 'order', 0, MOST_NUMBER)}"
    if kind == "change":
        limit = limit_text(terms, message.get("price"))
        rest += f",{quantity_of(terms, message)},{limit}"
    return OrderMessage(number, terms.name, rest)


def enter_record(terms: InstrumentTerms, message: dict[str, Any]) -> str:
    """The record of a new order after its member, in its shortest form. Raises MessageError."""
    side, restriction = text_of(message, "side"), text_of(message, "only", "")
    if side not in SIDES:
        raise MessageError("bad_message", "side is bid or ask")
    if restriction not in RESTRICTIONS:
        raise MessageError("bad_message", "only is opening or closing, or left out")
    quantity = quantity_of(terms, message)
    has_peak = message.get("peak") is not None
    peak = str(number_of(message, "peak", 0, MOST_NUMBER)) if has_peak else ""
    end = f",{peak},{restriction}" if restriction else f",{peak}" if peak else ""
    return f"enter,{side},{quantity},{limit_text(terms, message.get('price'))}{end}"

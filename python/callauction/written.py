"""Commands and replies as docs/FORMATS.md writes them: a command in its shortest form, a reply by
the text after its number.
"""
from operator import index

import numpy

from callauction import words
from callauction.arrays import COMMAND
from callauction.words import (
    MARKET,
    WORD_OF_RESTRICTION,
    Command,
    CommandTag,
    Reply,
    Restriction,
    Side,
)


def _limit(limit: int | None) -> str:
    return MARKET if limit is None else str(index(limit))


def fields_of(command: Command) -> str:
    """The fields of a command after its member, parted by commas: no file has a `client`. Raises
    TypeError where it is none of Command.
    """
    match command:
        case words.Enter(side, quantity, limit, peak, restriction, _):
            fields = f"enter,{side.name.lower()},{index(quantity)},{_limit(limit)}"
            shown = "" if peak is None else f",{index(peak)}"
            if not restriction:
                return fields + shown
            return f"{fields}{shown or ','},{WORD_OF_RESTRICTION[restriction]}"
        case words.Change(id, quantity, limit):
            return f"change,{index(id)},{index(quantity)},{_limit(limit)}"
        case words.Delete(id):
            return f"delete,{index(id)}"
        case words.OrderStatus(id):
            return f"status,{index(id)}"
        case words.ReadTrade(number):
            return f"trade,{index(number)}"
        case words.Indicate():
            return "ask"
        case words.Uncross():
            return "uncross"
    raise TypeError(f"command must be one of Command, not {type(command).__name__}")


def command_of(record: numpy.void) -> Command:
    """The command of an element of an array of COMMAND that the library applied. Raises TypeError
    where it is none.
    """
    if not isinstance(record, numpy.void) or record.dtype != COMMAND:
        raise TypeError("record must be an element of an array of the dtype COMMAND")
    tag, id = CommandTag(record["tag"]), int(record["id"])
    quantity = int(record["quantity"])
    limit = int(record["limit"]) if record["has_limit"] else None
    match tag:
        case CommandTag.ENTER:
            peak = int(record["peak"]) if record["has_peak"] else None
            restriction = Restriction(record["restriction"])
            terms = Side(record["side"]), quantity, limit, peak, restriction
            return words.Enter(*terms, int(record["client"]))
        case CommandTag.CHANGE:
            return words.Change(id, quantity, limit)
        case CommandTag.DELETE:
            return words.Delete(id)
        case CommandTag.ORDER_STATUS:
            return words.OrderStatus(id)
        case CommandTag.READ_TRADE:
            return words.ReadTrade(id)
        case CommandTag.INDICATE:
            return words.Indicate()
    return words.Uncross()


def _price(price: words.Price) -> str:
    side = price.side.name.lower()
    return f"price {price.tick} volume {price.volume} surplus {price.surplus} {side}"


def _uncrossed(reply: words.Uncrossed) -> str:
    kind = reply.auction.name.lower()
    if reply.price is None:
        return f"{kind} no price"
    return f"{kind} {_price(reply.price)} trades {reply.trades}"


def _best(limit: int | None) -> str:
    return "-" if limit is None else str(limit)


def text_of(reply: Reply) -> str:
    """The text of a reply. Raises TypeError where it is none of Reply."""
    match reply:
        case words.Entered(id):
            return f"entered {id}"
        case words.Changed(kept):
            return "changed kept" if kept else "changed moved"
        case words.Deleted():
            return "deleted"
        case words.OpenOrder(side, quantity, limit, visible):
            at = MARKET if limit is None else f"at {limit}"
            return f"order {side.name.lower()} {quantity} {at} visible {visible}"
        case words.Price():
            return _price(reply)
        case words.NoPrice(bid, ask):
            return f"no price bid {_best(bid)} ask {_best(ask)}"
        case words.Traded(bid, ask, quantity, tick):
            return f"trade {bid} {ask} {quantity} at {tick}"
        case words.Uncrossed():
            return _uncrossed(reply)
        case words.Interrupted(price):
            return f"interrupted {_price(price)}"
        case words.Refused(refusal):
            name = refusal.name.title().replace("_", "")
            return f"refused {refusal.value} {name}"
    raise TypeError(f"reply must be one of Reply, not {type(reply).__name__}")

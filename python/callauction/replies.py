"""What the library's answers say: its replies, and what its errors raise."""
from collections.abc import Callable
from typing import Any

import numpy

from callauction.arrays import RECEIPT, REPLY, Structs, wrong_field_of
from callauction.errors import (
    AuctionError,
    BusyError,
    ClosedError,
    FullError,
    NoCommandError,
    NotAppliedError,
    RefusedError,
)
from callauction.library import ffi, lib
from callauction.words import (
    AuctionKind,
    Changed,
    Deleted,
    Entered,
    Interrupted,
    NoPrice,
    OpenOrder,
    Price,
    Refusal,
    Refused,
    Reply,
    ReplyTag,
    Side,
    State,
    Traded,
    Uncrossed,
)

SIDES_BY_NUMBER = tuple(Side)
"""By its number, the side that a reply names."""
KINDS_BY_NUMBER, REFUSALS_BY_NUMBER = tuple(AuctionKind), tuple(map(Refused, Refusal))
"""By its number less 1, the auction or the refusal that a reply names."""
_REFUSED, _UNCROSSED = int(ReplyTag.REFUSED), int(ReplyTag.UNCROSSED)


# ---- errors

_CONFIG_FAULTS = {
    lib.CALLAUCTION_ERROR_BAD_BOUNDS: (
        "low, high: not 1 <= low <= high <= 1,000,000, or more than 65,536 ticks"
    ),
    lib.CALLAUCTION_ERROR_BAD_REFERENCE: "reference: not a tick from low to high",
    lib.CALLAUCTION_ERROR_BAD_CAPACITY: (
        "max_open, max_calls: not from 1 to 65,536 and from 1 to 1,048,576"
    ),
}


def error_of(answer: int) -> Exception:
    """What is raised where a call of the library answers this error."""
    if answer == lib.CALLAUCTION_ERROR_NO_AUCTION:
        return ClosedError("the object holds no auction")
    if answer == lib.CALLAUCTION_ERROR_FULL:
        return FullError("no call is left to the member")
    if answer == lib.PYTHON_BUSY:
        return BusyError("another call of this auction is running")
    if answer == lib.CALLAUCTION_ERROR_NO_COMMAND:
        return NoCommandError("a struct stands for no command")
    if answer == lib.CALLAUCTION_ERROR_NO_MEMORY:
        return MemoryError("an auction got no memory")
    if answer == lib.CALLAUCTION_ERROR_IN_USE:
        return AuctionError("the object holds an auction")
    if answer == lib.PYTHON_OVERLAP:
        return ValueError("replies must share no memory with commands")
    if answer in _CONFIG_FAULTS:
        return ValueError(_CONFIG_FAULTS[answer])
    return AuctionError(f"the library answers {answer}")


def board_error_of(answer: int) -> Exception:
    """What is raised where a call of a board answers this error."""
    if answer == lib.CALLAUCTION_ERROR_CLOSED:
        return ClosedError("the board was closed")
    if answer == lib.CALLAUCTION_ERROR_NO_MEMBER:
        return ClosedError("the object holds no member of a board")
    if answer in (lib.PYTHON_BUSY, lib.CALLAUCTION_ERROR_BUSY):
        return BusyError("another call of this member is running, or was at a fork")
    return error_of(answer)


def not_applied(
    error: NotAppliedError, commands: Structs, answers: Structs, applied: int
) -> NotAppliedError:
    """The error that the command after those that were applied had, with their answers."""
    text = f"command {applied}: {error}"
    if isinstance(error, NoCommandError):
        text += f": {wrong_field_of(commands[applied])}"
    return type(error)(text, applied, answers[:applied])


# ---- replies


class _OpenPrice(Price):
    """A Price while its fields are set: a frozen dataclass takes three times as long to make by its
    `__init__`.
    """

    __slots__ = ()
    __init__ = object.__init__  # type: ignore[assignment]
    __setattr__ = object.__setattr__
    __delattr__ = object.__delattr__


_new = object.__new__
_set_id = vars(Entered)["id"].__set__


def entered(id: int) -> Entered:
    """The reply to an order that got this id, made as fast as can be."""
    made = _new(Entered)
    _set_id(made, id)
    return made


def price(reply: Any) -> Price:
    """The price that a reply has, made as fast as can be."""
    made: Any = _OpenPrice()
    made.tick = reply.tick
    made.volume = reply.volume
    made.surplus = reply.surplus
    made.side = SIDES_BY_NUMBER[reply.side]
    made.__class__ = Price
    found: Price = made
    return found


def _no_price(reply: Any) -> NoPrice:
    bid = reply.best_bid if reply.has_best_bid else None
    return NoPrice(bid, reply.best_ask if reply.has_best_ask else None)


def _open_order(reply: Any) -> OpenOrder:
    limit = reply.tick if reply.has_tick else None
    return OpenOrder(SIDES_BY_NUMBER[reply.side], reply.quantity, limit, reply.visible)


def _uncrossed(reply: Any) -> Uncrossed:
    found = price(reply) if reply.has_tick else None
    return Uncrossed(KINDS_BY_NUMBER[reply.auction - 1], found, reply.trades)


def _no_reply(reply: Any) -> Reply:
    raise error_of(reply.id)


_READERS: tuple[Callable[[Any], Reply], ...] = (
    _no_reply,
    lambda reply: entered(reply.id),
    lambda reply: Changed(reply.kept == 1),
    lambda reply: Deleted(),
    _open_order,
    price,
    _no_price,
    lambda reply: Traded(reply.id, reply.ask, reply.quantity, reply.tick),
    _uncrossed,
    lambda reply: Interrupted(price(reply)),
    lambda reply: REFUSALS_BY_NUMBER[int(reply.refusal) - 1],
)
"""By its tag, what reads a reply of the library."""


def read(reply: Any, check: bool = False) -> Reply:
    """What a reply struct of the library says. Raises the exception of the error that it has in
    place of a reply, and with `check` RefusedError for a refusal.
    """
    if check and reply.tag == _REFUSED:
        raise RefusedError(Refusal(reply.refusal))
    reader: Callable[[Any], Reply] = _READERS[reply.tag]
    return reader(reply)


def not_entered(answer: int, check: bool) -> Refused:
    """The refusal of an order by an answer below 0. Raises the exception of an error, and with
    `check` RefusedError.
    """
    if answer <= -lib.PYTHON_ERROR:
        raise error_of(-lib.PYTHON_ERROR - answer)
    if check:
        raise RefusedError(Refusal(-answer))
    return REFUSALS_BY_NUMBER[-answer - 1]


def reply_of(record: numpy.void) -> Reply:
    """What a reply of an array of REPLY says, such as `reply_of(replies[3])`, or the one that a
    receipt of an array of RECEIPT has.

    Raises TypeError where it is neither, and ValueError where it is none that the library writes.
    """
    if isinstance(record, numpy.void) and record.dtype == RECEIPT:
        record = record["reply"]
    if not isinstance(record, numpy.void) or record.dtype != REPLY:
        raise TypeError("record must be an element of an array of REPLY or RECEIPT")
    reply = ffi.from_buffer("callauction_reply *", numpy.array(record))
    is_reply = 1 <= reply.tag < len(_READERS) and reply.side < len(SIDES_BY_NUMBER)
    if reply.tag == _UNCROSSED:
        is_reply &= 1 <= reply.auction <= len(KINDS_BY_NUMBER)
    if reply.tag == _REFUSED:
        is_reply &= 1 <= reply.refusal <= len(REFUSALS_BY_NUMBER)
    if not is_reply:
        raise ValueError("record is no reply of an auction")
    return read(reply)


def state_of(found: Any) -> State:
    """Where the day is, as a struct of the library says."""
    kind = KINDS_BY_NUMBER[found.auction - 1] if found.in_call else None
    left = found.calls_left, found.calls_left_to_members
    return State(kind, bool(found.extended), found.reference, found.calls, *left)

"""The structs of callauction.h as numpy's: arrays of these are handed to the library as they are.

A flag is 0 or 1. callauction.h says which fields a tag needs, and docs/LIBRARY.md.
"""
import numpy
from numpy.typing import NDArray

from callauction.limits import MOST_NUMBER
from callauction.words import CommandTag, Restriction, Side

Structs = NDArray[numpy.void]
Shares = NDArray[numpy.uint64]

COMMAND = numpy.dtype(
    [
        ("quantity", "u8"),
        ("peak", "u8"),
        ("client", "u8"),
        ("id", "u4"),
        ("limit", "u4"),
        ("member", "u1"),
        ("tag", "u1"),
        ("side", "u1"),
        ("restriction", "u1"),
        ("has_limit", "u1"),
        ("has_peak", "u1"),
    ],
    align=True,
)
"""A command of 40 bytes; its tag is a CommandTag, its side a Side, `restriction` a Restriction; an
order's `client` is any number of the caller's own.
"""

REPLY = numpy.dtype(
    [
        ("quantity", "u8"),
        ("visible", "u8"),
        ("volume", "u8"),
        ("surplus", "u8"),
        ("id", "u4"),
        ("ask", "u4"),
        ("tick", "u4"),
        ("trades", "u4"),
        ("best_bid", "u4"),
        ("best_ask", "u4"),
        ("tag", "u1"),
        ("side", "u1"),
        ("auction", "u1"),
        ("kept", "u1"),
        ("refusal", "u1"),
        ("has_tick", "u1"),
        ("has_best_bid", "u1"),
        ("has_best_ask", "u1"),
    ],
    align=True,
)
"""A reply of 64 bytes; its tag is a ReplyTag, its auction an AuctionKind, its refusal a Refusal."""

TRADE = numpy.dtype([("quantity", "u8"), ("bid", "u4"), ("ask", "u4"), ("tick", "u4")], align=True)
"""A trade of 24 bytes: its shares, the ids of its two orders, its price."""

ORDER = numpy.dtype(
    [
        ("quantity", "u8"),
        ("visible", "u8"),
        ("filled", "u8"),
        ("peak", "u8"),
        ("client", "u8"),
        ("id", "u4"),
        ("limit", "u4"),
        ("member", "u1"),
        ("side", "u1"),
        ("restriction", "u1"),
        ("has_limit", "u1"),
        ("has_peak", "u1"),
    ],
    align=True,
)
"""An open order of 56 bytes: its open, visible and executed shares, its peak, and the `client` that
it was entered with; `side` is a Side, `restriction` a Restriction, and a market order has no limit.
"""

OUTCOME = numpy.dtype(
    [
        ("filled", "u8"),
        ("left", "u8"),
        ("client", "u8"),
        ("id", "u4"),
        ("tick", "u4"),
        ("member", "u1"),
        ("side", "u1"),
        ("expired", "u1"),
    ],
    align=True,
)
"""What an uncross did to an order, in 40 bytes: the shares that it executed at the price `tick`,
and those that it left, which were taken out where `expired` is 1. `client` is that of the order.
"""

RECEIPT = numpy.dtype([("reply", REPLY), ("number", "u4")], align=True)
"""A receipt of 72 bytes: the reply to a call on a board, and its number there."""

ENTRY = numpy.dtype([("command", COMMAND), ("reply", REPLY)], align=True)
"""An entry of a board's history of 104 bytes: a call with its reply; a command has its `client`
where it entered an order, else 0.
"""


_NAMES = {COMMAND: "COMMAND", REPLY: "REPLY", TRADE: "TRADE", ORDER: "ORDER", OUTCOME: "OUTCOME"}
_NAMES |= {RECEIPT: "RECEIPT", ENTRY: "ENTRY"}

_FLAGGED = {CommandTag.ENTER: ("limit", "peak"), CommandTag.CHANGE: ("limit",)}
"""The numbers of commands that have a flag."""


def wrong_field_of(command: numpy.void) -> str:
    """The first field by which an element of an array of COMMAND is no command, as callauction.h
    says; empty where it is one.
    """
    tag = int(command["tag"])
    if not 1 <= tag <= len(CommandTag):
        return f"tag {tag}"
    if tag == CommandTag.ENTER and command["side"] not in (Side.BID, Side.ASK):
        return f"side {command['side']}"
    if tag == CommandTag.ENTER and command["restriction"] >= len(Restriction):
        return f"restriction {command['restriction']}"
    for name in _FLAGGED.get(CommandTag(tag), ()):
        flag, value = command[f"has_{name}"], command[name]
        if flag > 1:
            return f"has_{name} {flag}"
        if value and not flag:
            return f"{name} {value} without has_{name}"
    return ""


def joined(*parts: Structs) -> Structs:
    """A new array of the structs of these, one after the other. The bytes between fields are 0, so
    that equal arrays have equal bytes.
    """
    return numpy.concatenate(parts, out=numpy.zeros(sum(map(len, parts)), parts[0].dtype))


def replies_in(answers: Structs) -> Structs:
    """The replies of an array of REPLY, or those that an array of RECEIPT has."""
    return answers["reply"] if answers.dtype == RECEIPT else answers


def checked_array(
    name: str, array: object, *kinds: "numpy.dtype[numpy.void]", is_written: bool
) -> Structs:
    """The array itself, which is one-dimensional, of one of these dtypes, contiguous and aligned,
    and may be written where it is to be. Raises TypeError for another dtype or no array, else
    ValueError.
    """
    if not isinstance(array, numpy.ndarray):
        raise TypeError(f"{name} must be a numpy array, not {type(array).__name__}")
    if array.dtype not in kinds:
        other = "a struct of other fields" if array.dtype.names else array.dtype
        found, wanted = _NAMES.get(array.dtype, other), " or ".join(_NAMES[kind] for kind in kinds)
        raise TypeError(f"{name} must be an array of {wanted}, not of {found}")
    if array.ndim != 1:
        raise ValueError(f"{name} must have one dimension, not {array.ndim}")
    flags = array.flags
    if not flags.c_contiguous or not flags.aligned:
        raise ValueError(f"{name} must be contiguous and aligned")
    if is_written and not flags.writeable:
        raise ValueError(f"{name} must be writeable")
    return array


def check_recordable(commands: Structs) -> None:
    """Raises TypeError or ValueError for an array that isn't one of commands, or that has a number
    that no journal has.
    """
    checked_array("commands", commands, COMMAND, is_written=False)
    readers = {"quantity": (CommandTag.ENTER, CommandTag.CHANGE), "peak": (CommandTag.ENTER,)}
    for name, tags in readers.items():
        wrong = commands[name] > MOST_NUMBER
        if wrong.any():
            wrong &= numpy.isin(commands["tag"], tags)
            wrong &= commands[f"has_{name}"] != 0 if name == "peak" else True
            refuse_first(commands, name, wrong, f"from 0 to {MOST_NUMBER}")


def refuse_first(commands: Structs, name: str, wrong: NDArray[numpy.bool_], wanted: str) -> None:
    """Raises ValueError for the first command whose field of this name is wrong, if one is."""
    if wrong.any():
        place = int(wrong.argmax())
        found = commands[name][place]
        raise ValueError(f"commands: element {place}: {name} must be {wanted}, not {found}")

"""Commands as arrays, answered by the proved library, or else by the proved program."""
import functools
import re
from typing import Any

import numpy

from callauction.arrays import REPLY, Structs
from callauction.program import Day
from callauction.words import AUCTIONS, AuctionKind, ReplyTag, Side
from callauction.written import command_of, fields_of

OPERATOR, MEMBER = 0, 1
"""All orders are one member's: whose an order is decides no price and no fill."""
_PRICE = (
    r"price (?P<tick>\d+) volume (?P<volume>\d+) surplus (?P<surplus>\d+) "
    r"(?P<side>bid|ask|none)"
)
_FORMS = {
    "entered": (ReplyTag.ENTERED, r"entered (?P<id>\d+)"),
    "trade": (ReplyTag.TRADED, r"trade (?P<id>\d+) (?P<ask>\d+) (?P<quantity>\d+) at \d+"),
    "refused": (ReplyTag.REFUSED, r"refused (?P<refusal>\d+) \w+"),
    "changed": (ReplyTag.CHANGED, r"changed (?P<kept>kept|moved)"),
    "deleted": (ReplyTag.DELETED, "deleted"),
    "price": (ReplyTag.PRICED, _PRICE),
    "no": (ReplyTag.UNPRICED, "no price.*"),
}
"""By their first words the tags and the texts of replies, whose groups are fields of REPLY."""
_UNCROSSED = rf"(?P<auction>\w+) (?:no price.*|{_PRICE} trades (?P<trades>\d+))"
_FORMS |= dict.fromkeys(AUCTIONS, (ReplyTag.UNCROSSED, _UNCROSSED))
_READ = {word: (int(tag), re.compile(rf"\d+: {form}")) for word, (tag, form) in _FORMS.items()}
_WORDS = {"kept": 1, "moved": 0}
_WORDS |= {it.name.lower(): it.value for kind in (Side, AuctionKind) for it in kind}


@functools.cache
def _library() -> Any:
    """The class of auctions of the library, None where it isn't there."""
    try:
        from callauction.auction import Auction
    except ImportError:
        return None
    return Auction


def answers(ticks: int, reference: int, orders: int, commands: Structs) -> Structs:
    """The replies (REPLY) to commands (COMMAND), in a day with the ticks from 1 to `ticks`, in
    which `orders` orders may be open. Raises ProgramError where only the program is there.
    """
    config = (1, ticks, reference, max(1, orders), max(1, len(commands)))
    library = _library()
    if library is None:
        return _printed(config, commands)
    with library(*config) as auction:
        found: Structs = auction.apply_many(commands)
    return found


def journal_of(ticks: int, reference: int, orders: int, commands: Structs) -> bytes:
    """The journal of a day with these commands, without replies."""
    day = (1, ticks, reference, MEMBER + 1, max(1, orders), max(1, len(commands)), "")
    head = f"day,{','.join(map(str, day))}\n"
    lines = [f"{it['member']},{fields_of(command_of(it))},\n" for it in commands]
    return "".join([head, *lines]).encode("ascii")


def _printed(config: tuple[int, int, int, int, int], commands: Structs) -> Structs:
    """The replies of the program. Raises ProgramError."""
    _, ticks, reference, orders, _ = config
    lines = Day(journal_of(ticks, reference, orders, commands)).printed().splitlines()
    replies = numpy.zeros(len(commands), REPLY)
    for reply, line in zip(replies, lines, strict=True):
        _read(line, reply)
    replies["has_tick"] = replies["tick"] > 0
    return replies


def _read(line: str, reply: numpy.void) -> None:
    """Writes what a line of the program says into the fields of its reply."""
    word = line.partition(": ")[2].partition(" ")[0]
    assert word in _READ, line
    reply["tag"], form = _READ[word]
    found = form.fullmatch(line)
    assert found, line
    for name, value in found.groupdict().items():
        if value is not None:
            reply[name] = _WORDS[value] if value in _WORDS else int(value)

"""How a day went, asked of the library: the indicative price over its calls, its uncrosses, and the
reference price before a command. The day is played by an Auction, command by command.
"""
import dataclasses
from collections.abc import Iterable
from typing import TYPE_CHECKING

import numpy
import pandas

from callauction.arrays import COMMAND, REPLY, Structs
from callauction.limits import MOST_CALLS
from callauction.program import Day
from callauction.progress import Progress
from callauction.tables import book_at, commands_of, journal_of
from callauction.words import AuctionKind, CommandTag, NoPrice, Price, ReplyTag, Side

if TYPE_CHECKING:
    from callauction.auction import Auction

MOST_LOOKS = 20_000
"""How often the indicative price of a day is looked at: after each command of a day of that
many, of a longer one after every second, third and so on.
"""
INDICATIVE = {
    "command": "int64",
    "price": "Int64",
    "volume": "Int64",
    "surplus": "Int64",
    "side": "object",
}
"""The columns of the indicative price after a command, `<NA>` where there is none, or the day is
over. Prices are ticks, volumes and surpluses shares.
"""
UNCROSSES = {
    "command": "int64",
    "auction": "object",
    "price": "Int64",
    "volume": "Int64",
    "surplus": "Int64",
    "side": "object",
    "trades": "int64",
}
"""The columns of the uncrosses that weren't refused; `auction` is `interrupted` where nothing was
executed as the price lay too far from the reference.
"""
INTERRUPTED = "interrupted"


@dataclasses.dataclass(frozen=True)
class Course:
    """The indicative price over a day's calls (INDICATIVE), and its uncrosses (UNCROSSES)."""

    indicative: pandas.DataFrame
    uncrosses: pandas.DataFrame


def course_of(day: Day | pandas.DataFrame, watch: Progress = iter) -> Course:
    """How the day of an order file, or of a journal or its frame (tables.JOURNAL), went. Raises
    ProgramError.
    """
    journal = journal_of(day) if isinstance(day, Day) else day
    commands = commands_of(journal)
    replies = numpy.zeros(len(commands), REPLY)
    step = -(-len(commands) // MOST_LOOKS) or 1
    looks = []
    with opened(journal) as auction:
        for begin in watch(range(0, len(commands), step)):
            end = min(begin + step, len(commands))
            auction.apply_many(commands[begin:end], replies[begin:end])
            looks.append((end, auction.display()))
    uncrosses = _uncrosses(replies)
    closings = uncrosses["command"][uncrosses["auction"] == AuctionKind.CLOSING.name.lower()]
    return Course(_indicative(looks, closings.min() if len(closings) else None), uncrosses)


def _indicative(looks: list[tuple[int, Price | NoPrice]], over: int | None) -> pandas.DataFrame:
    """The frame of what was shown, up to the command that ended the day."""
    rows = [
        (command, shown.tick, shown.volume, shown.surplus, shown.side.name.lower())
        if isinstance(shown, Price) and (over is None or command < over)
        else (command, None, None, None, "")
        for command, shown in looks
    ]
    return pandas.DataFrame(rows, columns=list(INDICATIVE)).astype(INDICATIVE)


def _uncrosses(replies: Structs) -> pandas.DataFrame:
    """The frame of the uncrosses among a day's replies."""
    tags = (ReplyTag.UNCROSSED, ReplyTag.INTERRUPTED)
    rows = []
    for place in numpy.flatnonzero(numpy.isin(replies["tag"], tags)):
        row = replies[place]
        is_done = row["tag"] == ReplyTag.UNCROSSED
        has_price = bool(row["has_tick"]) or not is_done
        price = [int(row[name]) if has_price else None for name in ("tick", "volume", "surplus")]
        side = Side(row["side"]).name.lower() if has_price else ""
        name = AuctionKind(row["auction"]).name.lower() if is_done else INTERRUPTED
        rows.append((place + 1, name, *price, side, int(row["trades"])))
    return pandas.DataFrame(rows, columns=list(UNCROSSES)).astype(UNCROSSES)


# ---- a journal's frame for the library


def opened(journal: pandas.DataFrame) -> "Auction":
    """An auction at the opening of a journal's day, which takes as many calls as there may be. The
    library is imported here, so that a report of an extract needs none.
    """
    from callauction.auction import Auction

    day = journal.attrs
    return Auction(
        day["low"], day["high"], day["reference"], day["open"], MOST_CALLS, range=day["range"]
    )


# ---- the reference


def reference_of(day: Day, books: pandas.DataFrame, command: int | None = None) -> int | None:
    """The reference price, in ticks, of the book before this command, or of the last one of these
    books of the day; None where it can't be asked for, as references_of says. Raises ValueError
    where the books have none, and ProgramError.
    """
    number = int(book_at(books, command)["command"].iloc[0])
    return references_of(journal_of(day), [number])[number]


def references_of(journal: pandas.DataFrame, numbers: Iterable[int]) -> dict[int, int | None]:
    """The reference price before each of the commands with these numbers, which rise, in ticks.

    The library is asked: a copy of the auction at that place, all of whose orders are deleted, has
    the reference as the price of two market orders. None where it takes no such orders: after the
    day's end, where one order alone may be open, or where a day has too many calls.
    """
    commands = commands_of(journal)
    replies = numpy.zeros(len(commands), REPLY)
    found: dict[int, int | None] = {}
    done = 0
    with opened(journal) as auction:
        for number in numbers:
            auction.apply_many(commands[done : number - 1], replies[done : number - 1])
            done = number - 1
            is_first = not numpy.isin(replies["tag"], ReplyTag.UNCROSSED).any()
            first = journal.attrs["reference"] if is_first else None
            found[number] = first or _probed(auction, commands[:done], replies[:done])
    return found


def _probed(auction: "Auction", commands: Structs, replies: Structs) -> int | None:
    """The price of two market orders alone, in a copy of this auction after these commands."""
    entered = replies["tag"] == ReplyTag.ENTERED
    probe = numpy.zeros(entered.sum() + 3, COMMAND)
    probe["id"][:-3] = replies["id"][entered]
    probe["member"][:-3] = commands["member"][entered]
    probe["tag"] = [*[CommandTag.DELETE] * (len(probe) - 3), *_PROBE]
    probe["side"][-3:] = Side.BID, Side.ASK, Side.NONE
    probe["quantity"][-3:-1] = 1
    if len(commands) + len(probe) > MOST_CALLS:
        return None
    with auction.copy() as other:
        shown = other.apply_many(probe)[-1]
    return int(shown["tick"]) if shown["tag"] == ReplyTag.PRICED else None


_PROBE = (CommandTag.ENTER, CommandTag.ENTER, CommandTag.INDICATE)

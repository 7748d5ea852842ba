"""Order files as commands, and what the package writes of them as the program prints it."""
import sys
from pathlib import Path
from typing import Any

import callauction as words
import pandas
from callauction import Auction
from callauction.words import RESTRICTION_WORDS, SIDE_WORDS
from callauction.written import text_of

TOP = Path(__file__).resolve().parent.parent.parent
sys.path.insert(0, str(TOP))


def command_of(fields: list[str]) -> words.Command:
    """The command of a record of an order file, without its member."""
    word, *rest = fields
    limit = None if rest[-1:] == ["market"] else int(rest[-1]) if word == "change" else None
    match word:
        case "enter":
            tick = None if rest[2] == "market" else int(rest[2])
            peak = int(rest[3]) if len(rest) > 3 and rest[3] else None
            restriction = RESTRICTION_WORDS[rest[4] if len(rest) > 4 else ""]
            return words.Enter(SIDE_WORDS[rest[0]], int(rest[1]), tick, peak, restriction)
        case "change":
            return words.Change(int(rest[0]), int(rest[1]), limit)
        case "delete":
            return words.Delete(int(rest[0]))
        case "status":
            return words.OrderStatus(int(rest[0]))
        case "trade":
            return words.ReadTrade(int(rest[0]))
        case "ask":
            return words.Indicate()
        case "uncross":
            return words.Uncross()
    raise ValueError(word)


def commands_of(text: str) -> list[tuple[int, words.Command]]:
    """The members and the commands of an order file."""
    rows = [line.split(",") for line in text.splitlines() if line]
    return [(int(fields[0]), command_of(fields[1:])) for fields in rows]


Options = dict[str, int | None]
"""Options of the program with their values, None for one that wasn't given."""


def opened(options: Options) -> Auction:
    """An auction of the program's options."""
    given: dict[str, Any] = {name: it for name, it in options.items() if name != "members"}
    given["max_open"], given["max_calls"] = given.pop("open"), given.pop("calls")
    return Auction(**given)


def lines_of(auction: Auction, commands: list[tuple[int, words.Command]]) -> list[str]:
    """What the program prints for these commands, each applied by itself."""
    replies = (auction.apply(member, command) for member, command in commands)
    return [f"{place}: {text_of(reply)}" for place, reply in enumerate(replies, 1)]


def csv_of(frame: pandas.DataFrame) -> str:
    """A frame as the program prints it: the market orders' limit is a word again, and the column
    of the rule is headed `price`.
    """
    written = frame.astype("object").where(frame.notna(), "")
    if "best" in written:
        written["limit"] = written["limit"].replace("", "market")
        written = written.rename(columns={"rule": "price"})
    return str(written.to_csv(index=False))

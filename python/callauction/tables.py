"""A day's tables as pandas frames: what the program prints of it, with its columns.

Numbers are integers (Int64 where a field may be empty, which is `<NA>` then), words are text.
Limits and prices are ticks, quantities, volumes and surpluses are shares. In a column `limit` a
market order has `<NA>`. docs/FORMATS.md has the forms.
"""
import csv
import io
import os
import re

import numpy
import pandas

from callauction.arrays import COMMAND, Structs
from callauction.program import DAY_FIELDS, Day, ProgramError
from callauction.words import (
    RESTRICTION_WORDS,
    SIDE_WORDS,
    SIDES,
    TAG_WORDS,
    WORD_OF_RESTRICTION,
    Restriction,
    Side,
)

TRADES = {
    "trade": "int64",
    "auction": "str",
    "bid": "int64",
    "bid_member": "int64",
    "ask": "int64",
    "ask_member": "int64",
    "quantity": "int64",
    "tick": "int64",
}
"""The columns of the trades of a day: a row for each trade."""
BOOK = {
    "command": "int64",
    "auction": "str",
    "limit": "Int64",
    "bid": "int64",
    "ask": "int64",
    "demand": "Int64",
    "supply": "Int64",
    "volume": "Int64",
    "surplus": "Int64",
    "side": "str",
    "best": "Int64",
    "rule": "str",
}
"""The columns of the books of a day: for each a row of the market orders, with `<NA>` as limit, and
then one for each limit and the price, from the highest down. `rule`, which the program heads
`price`, is the name of the rule that decided, in the row of the price.
"""
JOURNAL = {
    "entry": "int64",
    "member": "int64",
    "command": "str",
    "side": "str",
    "id": "Int64",
    "number": "Int64",
    "quantity": "Int64",
    "limit": "Int64",
    "peak": "Int64",
    "only": "str",
    "reply": "str",
    "lawful": "str",
}
"""The columns of a journal: a row for each entry, `reply` being what was recorded and `lawful` what
the rules give. A field that a command hasn't is empty or `<NA>`.
"""
ORDERS = {
    "id": "int64",
    "member": "int64",
    "side": "str",
    "limit": "Int64",
    "quantity": "int64",
    "visible": "int64",
    "filled": "int64",
    "only": "str",
}
"""The columns of open orders: a row for each, in price-time priority, with its open, visible and
executed shares; `only` is `opening`, `closing` or empty.
"""
AUDIT = ("entry", "recorded", "lawful")
"""The columns of an audit: a row for each recorded reply that isn't the lawful one."""
_FIELDS = {
    "enter": ("side", "quantity", "limit", "peak", "only"),
    "change": ("id", "quantity", "limit"),
    "delete": ("id",),
    "status": ("id",),
    "ask": (),
    "trade": ("number",),
    "uncross": (),
}
_FINDING = re.compile(r'(\d+): recorded "(.*)", lawful "([^"]*)"')


# ---- what an auction lists, as a frame

_SIDES = ("", *SIDES)
"""By its number, the word of a side."""


def orders_frame(orders: Structs) -> pandas.DataFrame:
    """The frame of an array of ORDER, with the columns of ORDERS."""
    limits = pandas.array(orders["limit"].astype("int64"), dtype="Int64")
    limits[orders["has_limit"] == 0] = pandas.NA
    columns = {
        "id": orders["id"],
        "member": orders["member"],
        "side": [_SIDES[side] for side in orders["side"]],
        "limit": limits,
        "quantity": orders["quantity"],
        "visible": orders["visible"],
        "filled": orders["filled"],
        "only": [WORD_OF_RESTRICTION[Restriction(it)] for it in orders["restriction"]],
    }
    frame = pandas.DataFrame(columns, columns=list(ORDERS))
    return frame.astype({name: kind for name, kind in ORDERS.items() if kind == "int64"})


# ---- what the program prints, as frames


def table_of(text: str, columns: dict[str, str]) -> pandas.DataFrame:
    """The frame of a printed table with these columns, whatever they are called there."""
    empty = {name: ["", "market"] for name, kind in columns.items() if kind == "Int64"}
    return pandas.read_csv(
        io.StringIO(text),
        header=0,
        names=list(columns),
        dtype=columns,
        na_values=empty,
        keep_default_na=False,
    )


def trades_of(day: Day) -> pandas.DataFrame:
    """The trades of a day, with the columns of TRADES. Raises ProgramError."""
    return table_of(day.printed("trades"), TRADES)


def books_of(day: Day) -> pandas.DataFrame:
    """The books of a day: the one before each uncross, and that at its end unless the day is over.
    The columns are those of BOOK. Raises ProgramError.
    """
    return table_of(day.printed("book"), BOOK)


def book_at(books: pandas.DataFrame, command: int | None = None) -> pandas.DataFrame:
    """The book before the command with this number, or the last one: the rows of it alone. Raises
    ValueError where the books have none.
    """
    numbers = books["command"]
    if command is None and len(books):
        command = numbers.iloc[-1]
    found = books[numbers == command].reset_index(drop=True)
    if found.empty:
        known = ", ".join(str(number) for number in numbers.unique())
        raise ValueError(f"there is no book before command {command}; there are {known or 'none'}")
    return found


def journal_of(day: Day) -> pandas.DataFrame:
    """The commands of a day with their recorded and their lawful replies, with the columns of
    JOURNAL, and the numbers of DAY_FIELDS in its `attrs`; of an order file no reply is recorded.
    Raises ProgramError.
    """
    head, *entries = csv.reader(io.StringIO(day.printed("journal"), newline=""))
    rows = [
        {"member": fields[0], "command": fields[1], "lawful": fields[-1]}
        | dict(zip(_FIELDS[fields[1]], fields[2:-1]))
        for fields in entries
    ]
    frame = pandas.DataFrame(rows, columns=list(JOURNAL))
    frame["entry"] = range(1, len(rows) + 1)
    frame["reply"] = _recorded(day, len(rows))
    for name, kind in JOURNAL.items():
        frame[name] = _typed(frame[name], kind)
    frame.attrs.update(zip(DAY_FIELDS, (int(number) if number else None for number in head[1:])))
    return frame


def whole_lines_of(day: Day) -> Day:
    """The whole lines of a journal: those up to the last LF before any NUL. What follows is a line
    that a crash has cut, or the room behind the lines of a session that runs.
    """
    lines = day.content.partition(b"\0")[0]
    return Day(lines[: lines.rfind(b"\n") + 1], day.words)


def commands_of(journal: pandas.DataFrame) -> Structs:
    """The commands of a frame of journal_of: an array of COMMAND of its length."""
    commands = numpy.zeros(len(journal), COMMAND)
    commands["member"] = journal["member"]
    commands["tag"] = journal["command"].map(TAG_WORDS)
    commands["id"] = journal["id"].fillna(journal["number"]).fillna(0)
    commands["side"] = journal["side"].map(SIDE_WORDS).fillna(Side.NONE)
    commands["restriction"] = journal["only"].map(RESTRICTION_WORDS).fillna(Restriction.NONE)
    for name in ("quantity", "limit", "peak"):
        commands[name] = journal[name].fillna(0)
    commands["has_limit"] = journal["limit"].notna()
    commands["has_peak"] = journal["peak"].notna()
    return commands


def _typed(column: "pandas.Series", kind: str) -> "pandas.Series":
    """A column of texts and of missing ones in this type. The word for a market order is missing
    in one of numbers.
    """
    if kind == "str":
        return column.fillna("").astype("object")
    return pandas.to_numeric(column.replace(["", "market"], None)).astype(kind)


def _recorded(day: Day, count: int) -> list[str]:
    """The recorded replies of `count` entries, empty where there is none. Raises ProgramError where
    the file's records are other ones than the program reads.
    """
    rows = csv.reader(io.StringIO(day.content.decode("latin-1"), newline=""))
    head, *entries = [row for row in rows if row] or [[]]
    if not head or head[0].removeprefix("\xef\xbb\xbf") != "day":
        return [""] * count
    if len(entries) != count:
        raise ProgramError("the journal has other records here than for the program", 1)
    return [row[-1] for row in entries]


def audit_of(day: Day) -> pandas.DataFrame:
    """The recorded replies of a journal that aren't the lawful ones, with the columns of AUDIT. In
    its `attrs` are the counts `entries`, `compared` and `unlawful`, `is_legal`, and for a file that
    was cut within a line `is_cut`. Raises ProgramError, also for an order file.
    """
    lines = day.audited().splitlines()
    is_cut = lines[-1].startswith("incomplete: ")
    lines = lines[: len(lines) - is_cut]
    findings = [_FINDING.fullmatch(line) for line in lines[:-4]]
    rows = [(int(found[1]), found[2], found[3]) for found in findings if found]
    frame = pandas.DataFrame(rows, columns=list(AUDIT)).astype({"entry": "int64"})
    for line in lines[-4:-1]:
        name, count = line.split()
        frame.attrs[name] = int(count)
    frame.attrs["is_legal"] = lines[-1] == "audit legal"
    if is_cut:
        frame.attrs["is_cut"] = True
    return frame


# ---- files


def read_trades(path: str | os.PathLike[str], **options: int | None) -> pandas.DataFrame:
    """Who traded with whom on the day of an order file or a journal: a row for each trade (TRADES).

    The options are those of an order file: low, high, reference, members, open, calls, range.
    Raises OSError, ProgramError, and TypeError for another option.
    """
    return trades_of(Day.read(path, **options))


def read_book(path: str | os.PathLike[str], **options: int | None) -> pandas.DataFrame:
    """The book behind each price of the day of an order file or a journal (BOOK). Raises as
    read_trades.
    """
    return books_of(Day.read(path, **options))


def read_journal(path: str | os.PathLike[str], **options: int | None) -> pandas.DataFrame:
    """The entries of a journal (JOURNAL): the commands, the recorded and the lawful replies. An
    order file is read too. Raises as read_trades.
    """
    return journal_of(Day.read(path, **options))


def audit(path: str | os.PathLike[str]) -> pandas.DataFrame:
    """Which recorded replies of a journal aren't lawful (AUDIT); `attrs` has `entries`, `compared`,
    `unlawful` and `is_legal`. Raises OSError and ProgramError.
    """
    return audit_of(Day.read(path))

"""The options of an extract: how it is read, and what its days were opened with."""
import argparse
import collections
import re
from collections.abc import Sequence

from callauction.verdict import shapes
from callauction.verdict.columns import EVENT_COLUMNS, likely
from callauction.verdict.instrument_terms import TERMS
from callauction.verdict.reading import Reading
from callauction.verdict.times import STROKES
from callauction.words import AUCTIONS

TIMES = (
    "Times are 8:50, 08:50:01, 08:50:01.123456789 (or ,123) or 8:50:01 PM; with a date before them "
    "2026-11-27 (then a blank, T or -), 20261127, 27.11.2026, 2026/11/27 or 11/27/2026; with a "
    "zone behind them Z, +01:00 or +0100; 20261127085001123; or a number, of an epoch's seconds, "
    "milliseconds, microseconds or nanoseconds too."
)


class UsageError(ValueError):
    """The command line lacks something; one line that says what."""


def add_options(parser: argparse.ArgumentParser) -> None:
    """The options of an extract."""
    day = parser.add_argument_group("the day of an extract (prices are decimals)")
    day.add_argument(
        "--tick-size", help="the step between two prices; none where it depends on the price"
    )
    day.add_argument("--reference", help="the last price before the day")
    day.add_argument("--low", help="the lowest limit that an order may have")
    day.add_argument("--high", help="the highest limit that an order may have")
    day.add_argument("--range", help="how far a price may lie from the reference, or N%% of it")
    day.add_argument("--second-reference", help="the price of the last auction before the day")
    day.add_argument("--second-range", help="the range around it, and then around each auction's")
    day.add_argument("--auctions", help=f"those that the day holds ({','.join(AUCTIONS)})")
    add_reading(parser)
    several = parser.add_argument_group("an extract of several instruments")
    several.add_argument("--by", help="their column, or COLUMN,..: each is judged by itself")
    several.add_argument("--days", help=f"a CSV file with that column and {', '.join(TERMS)}")


def add_reading(parser: argparse.ArgumentParser) -> None:
    """The options of how an extract is read."""
    how = parser.add_argument_group("how an extract is read", TIMES)
    add = how.add_argument
    names = "names of columns; A+B joins two"
    add("--columns", action="append", default=[], metavar="OURS=THEIRS,..", help=names)
    add("--values", action="append", default=[], metavar="COLUMN:THEIRS=OURS,..", help="words")
    known = ", ".join(shapes.names())
    add("--shape", help=f"how a system's extracts are read: {known}, or a file such as theirs")
    add("--separator", help="what parts fields (a comma)")
    add("--decimal", help="the sign of decimals (a point)")
    add("--thousands", help="the sign between thousands (none)")
    add("--encoding", help="the file's encoding (utf-8)")
    add("--where", action="append", default=[], help="a condition, such as 'status != REJECTED'")
    add("--market", action="append", default=[], help="a price that means a market order")
    total = "what replaces have (open, in doubt where total makes a day lawful)"
    add("--quantity", choices=("open", "total"), help=total)
    add("--pair", help="the column that joins both rows of a trade, each with order and side")
    add("--sort", action="store_true", default=None, help="sort the rows by time and sequence")
    none = "no order is for one auction alone, where no column restriction says it"
    add("--unrestricted", action="store_true", default=None, help=none)
    add("--dates", choices=STROKES, help="what dates as 3/4/2026 are (what all of them may be)")
    add("--ignore", action="append", default=[], metavar="COLUMN,..", help="columns; * for all")


def reading_asked(asked: argparse.Namespace) -> Reading:
    """How an extract is asked to be read. Raises UsageError, ShapeError and OSError."""
    if vars(asked).get("days") is not None and asked.by is None:
        raise UsageError("--days needs --by: the column of the instruments whose days they are")
    shape = Reading() if asked.shape is None else shapes.reading_of(asked.shape)
    said = {
        "columns": _pairs("columns", asked.columns),
        "values": _values(asked.values),
        "separator": "\t" if asked.separator == "\\t" else asked.separator,
        "ignore": _names(asked.ignore),
    }
    plain = (
        "decimal", "thousands", "encoding", "where", "market", "quantity", "sort", "pair", "dates",
        "unrestricted",
    )  # fmt: skip
    return shapes.joined_shapes(shape, said | {name: getattr(asked, name) for name in plain})


def _names(texts: Sequence[str]) -> tuple[str, ...]:
    return tuple(name for text in texts for name in text.split(","))


def _pairs(option: str, texts: Sequence[str]) -> dict[str, str]:
    """The pairs of an option. Raises UsageError."""
    found = {}
    for pair in _names(texts):
        left, sign, right = pair.partition("=")
        if not sign or not left:
            raise UsageError(f"--{option} {pair!r} is no pair such as order=OrderID")
        found[left.strip()] = right.strip()
    return found


def _values(texts: Sequence[str]) -> dict[str, dict[str, str]]:
    """The words of `--values`, by column; one text may have several. Raises UsageError."""
    found: dict[str, dict[str, str]] = collections.defaultdict(dict)
    next_column = rf",(?=(?:{'|'.join(EVENT_COLUMNS)}):)"
    for text in (part for text in texts for part in re.split(next_column, text)):
        column, sign, pairs = text.partition(":")
        if not sign:
            raise UsageError(f"--values {text!r} is none such as side:B=bid,S=ask")
        if column not in EVENT_COLUMNS:
            guess = likely(column, EVENT_COLUMNS)
            raise UsageError(
                f"--values: there is no column {column!r}" + (f" (is it {guess}?)" * bool(guess))
            )
        found[column] |= _pairs("values", [pairs])
    return found

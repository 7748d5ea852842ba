"""The forms in which the program is run on a file, and what of its output goes into a row."""
import re
from collections.abc import Callable, Iterator
from typing import Any, NamedTuple, Protocol

AUCTIONS = "opening", "intraday", "closing"
"""The auctions of a day in their order, as in callauction.words, which takes long to import."""
OVER = "over"
"""The state of a day whose closing auction ended."""
OUTPUT_BLOCK = 1 << 18
"""How many bytes of the program's output are looked at together."""
AUDIT_END = 5
"""How many lines an audit ends with: its counts, the verdict, and what a broken copy has behind."""
BEHIND = rb"(incomplete: \d+ bytes follow entry \d+\n)?"
"""The last line of the audit of a broken copy."""
COUNTS = re.compile(rb"entries (\d+)\ncompared (\d+)\nunlawful (\d+)\naudit (?:legal|bad \d+)\n")
AUDIT_TEXT = re.compile(
    rb"^(entries \d+\ncompared \d+\nunlawful \d+\naudit (?:legal|bad \d+)\n)" + BEHIND + rb"\Z",
    re.MULTILINE,
)
RESULTS_TEXT = re.compile(
    rb"^(entries \d+\ncompared \d+\nunlawful \d+\naudit (?:legal|bad \d+)\n)"
    rb"((?:\d+: .*\n)*)(?:day (over)|in (opening|intraday|closing))\n" + BEHIND + rb"\Z",
    re.MULTILINE,
)
RESULTS_END = AUDIT_END + 2 * len(AUCTIONS) + 1
"""How many lines there are of the counts and the results: each auction is interrupted once at most,
and ends once.
"""
INTERRUPTED = re.compile(rb"\d+: interrupted ")
DIFFERENCE = re.compile(rb"(\d+): recorded ")
NUMBERED = re.compile(rb"(\d+): ")
UNCROSS = re.compile(
    rb"\d+: (?P<auction>opening|intraday|closing) (?:no price|price (?P<price>\d+) "
    rb"volume (?P<volume>\d+) surplus (?P<surplus>\d+) (?P<side>bid|ask|none) "
    rb"trades (?P<trades>\d+))\n"
)
ENDINGS = [f": {auction} ".encode() for auction in AUCTIONS]
"""What the line of the uncross that ends this auction has in it, and no other line."""

RowColumns = dict[str, Any]
"""Some columns of a row by their names."""
Blocks = Iterator[bytes]
"""The program's output, some whole lines at a time."""


class Readable(Protocol):
    """Where output is read from: some bytes at a time, none at its end."""

    def read(self, size: int, /) -> bytes:
        """At most `size` bytes, none at the end."""


class OutputError(Exception):
    """What was printed isn't of the form that was asked for."""


class Form(NamedTuple):
    """A form: the words that ask the program for it, what reads the output, what the name of a file
    that keeps the output ends with, and by what its memory is multiplied.
    """

    words: tuple[str, ...]
    read: Callable[[Blocks], RowColumns]
    suffix: str
    memory_factor: int = 1


def blocks_of(output: Readable) -> Blocks:
    """The output in blocks of whole lines. Where it is cut, the last line lacks its end."""
    rest = b""
    while block := output.read(OUTPUT_BLOCK):
        end = block.rfind(b"\n") + 1
        if end:
            yield rest + block[:end]
            rest = b""
        rest += block[end:]
    if rest:
        yield rest


def line_at(block: bytes, place: int) -> bytes:
    """The line, with its end, of which this place of a block is a part."""
    return block[block.rfind(b"\n", 0, place) + 1 : block.find(b"\n", place) + 1]


def read_audit(blocks: Blocks) -> RowColumns:
    """The counts, and the number of the first entry that differs. Raises OutputError."""
    first, last = ends_of(blocks, AUDIT_END)
    found = AUDIT_TEXT.search(last)
    return read_counts(found[1] if found else b"") | read_first(first)


def ends_of(blocks: Blocks, count: int) -> tuple[bytes, bytes]:
    """The first block, and the last lines, this many at most."""
    first = last = b""
    for block in blocks:
        first = first or block
        last = b"".join((last + block).splitlines(keepends=True)[-count:])
    return first, last


def read_counts(text: bytes) -> RowColumns:
    """The counts of an audit. Raises OutputError."""
    counts = COUNTS.fullmatch(text)
    if not counts:
        raise OutputError("the program printed no audit")
    return dict(zip(("entries", "compared", "unlawful"), map(int, counts.groups())))


def read_first(block: bytes) -> RowColumns:
    """The number of the entry that the first line of an audit says to differ, if it does."""
    difference = DIFFERENCE.match(block)
    return {"first_unlawful": int(difference[1]) if difference else None}


def read_results(blocks: Blocks) -> RowColumns:
    """What an audit says, what the auctions that ended gave, and which auction the day is in, if
    the journal isn't a broken copy. Raises OutputError.
    """
    first, last = ends_of(blocks, RESULTS_END)
    found = RESULTS_TEXT.search(last)
    if not found:
        raise OutputError("the program printed no audit with results")
    columns = read_counts(found[1]) | read_first(first) | {"auctions": 0, "trades": 0}
    for line in found[2].splitlines(keepends=True):
        if not INTERRUPTED.match(line):
            uncross = read_uncross(line)
            columns["auctions"] += 1
            columns["trades"] += uncross.pop("trades")
            columns |= uncross
    day = (found[3] or found[4]).decode()
    if day != (*AUCTIONS, OVER)[columns["auctions"]]:
        raise OutputError("the program printed another day than its results")
    return columns | {"day": None if found[5] else day}


def read_lines(blocks: Blocks) -> RowColumns:
    """How many entries there are, what the auctions that ended gave, and which auction the day is
    in. Raises OutputError.
    """
    columns: RowColumns = {"auctions": 0, "trades": 0}
    last = b""
    for block in blocks:
        last = block
        for ending in ENDINGS:
            place = block.find(ending)
            if place >= 0:
                found = read_uncross(line_at(block, place))
                columns["auctions"] += 1
                columns["trades"] += found.pop("trades")
                columns |= found
    day = (*AUCTIONS, OVER)[columns["auctions"]]
    return columns | {"entries": read_number(last) if last else 0, "day": day}


def read_uncross(line: bytes) -> RowColumns:
    """What the line of an uncross that ended an auction says. Raises OutputError."""
    found = UNCROSS.fullmatch(line)
    if not found:
        raise OutputError("the program printed no line of an uncross")
    if not found["price"]:
        return {"trades": 0}
    auction = found["auction"].decode()
    names = ("price", "volume", "surplus")
    columns: RowColumns = {f"{auction}_{name}": int(found[name]) for name in names}
    return columns | {f"{auction}_side": found["side"].decode(), "trades": int(found["trades"])}


def read_number(block: bytes) -> int:
    """The number that the last line of a block begins with. Raises OutputError."""
    found = NUMBERED.match(line_at(block, len(block) - 1))
    if not found:
        raise OutputError("the program printed no numbered lines")
    return int(found[1])


def read_trades(blocks: Blocks) -> RowColumns:
    """How many trades there are: the records after the header. Raises OutputError."""
    records = sum(block.count(b"\n") for block in blocks)
    if records == 0:
        raise OutputError("the program printed no table")
    return {"trades": records - 1}


def read_nothing(blocks: Blocks) -> RowColumns:
    """No columns: the output is for keeping."""
    for _ in blocks:
        pass
    return {}


FORMS = {
    "audit": Form(("--audit",), read_audit, "audit.txt"),
    "results": Form(("--audit", "--results"), read_results, "results.txt"),
    "lines": Form((), read_lines, "lines.txt"),
    "trades": Form(("--print", "trades"), read_trades, "trades.csv", 2),
    "book": Form(("--print", "book"), read_nothing, "book.csv", 2),
    "journal": Form(("--print", "journal"), read_nothing, "journal.csv", 2),
}
"""The forms by the names that `what` may have."""

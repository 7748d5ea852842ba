"""What order files and journals say, by the rules of docs/FORMATS.md, or their first fault.

It shares no code with the program. It takes plain fields alone: a quote at the begin of a field
isn't looked at, and a byte order mark is a part of the first field. Texts have one character for
each byte.
"""
import dataclasses
import re
from collections.abc import Iterator

from checks.model.day import Call, Options, Words

FIELDS = {
    "enter": (5, 7),
    "change": (5, 5),
    "delete": (3, 3),
    "status": (3, 3),
    "ask": (2, 2),
    "trade": (3, 3),
    "uncross": (2, 2),
}
RANGES = {
    "low": (1, 1_000_000),
    "high": (1, 1_000_000),
    "reference": (1, 1_000_000),
    "members": (1, 64),
    "open": (1, 65_536),
    "calls": (1, 1_048_576),
    "range": (0, 1_000_000),
}
"""The options that a day record says, in its order, each with the least and the most."""
MOST_BYTES = 67_108_864
MOST_JOURNAL_BYTES = 268_435_456
MOST_REPLY_BYTES = 256
MOST_NUMBER = 4_294_967_295


class FileFault(Exception):
    """The first fault of a file, in the words of standard error."""


@dataclasses.dataclass(frozen=True)
class Given:
    """What a run is given: the numbers of its day, its calls, and of a journal the text of the
    reply to each, empty where none was recorded.
    """

    options: Options
    calls: list[Call]
    replies: list[str]


def number(field: str) -> int | None:
    """The number that a field says, or None where it says none."""
    if (
        1 <= len(field) <= 10
        and all(c in "0123456789" for c in field)
        and int(field) <= MOST_NUMBER
    ):
        return int(field)
    return None


def bad_field(place: int, k: int) -> FileFault:
    """The fault of field k of the record with this number, both from 1."""
    return FileFault(f"record {place}: bad field {k}")


def records(text: str) -> Iterator[list[str]]:
    """The fields of each record. A line may end with LF, CR or CR LF, and empty lines are none."""
    for line in re.finditer(r"[^\r\n]+", text):
        yield line[0].split(",")


def is_journal(text: str) -> bool:
    """Whether the first record's first field is `day`."""
    return next(records(text), [""])[0] == "day"


# ---- a command


def command(place: int, fields: list[str], members: int, replies: int = 0) -> Call:
    """The member and the words of a record, after which are `replies` fields for its reply.

    Raises FileFault with the first fault: of the member, then the word, then the number of fields,
    then from left to right.
    """
    member = number(fields[0])
    if member is None or member >= members:
        raise FileFault(f"record {place}: bad member")
    word = fields[1] if len(fields) > 1 else ""
    if word not in FIELDS:
        raise FileFault(f"record {place}: bad command")
    least, most = FIELDS[word]
    if not least + replies <= len(fields) <= most + replies:
        raise FileFault(f"record {place}: wrong number of fields")
    return member, words_of(place, fields[: len(fields) - replies])


def words_of(place: int, fields: list[str]) -> Words:
    """The words of a record with a known word and a right number of fields. Raises FileFault with
    the leftmost fault.
    """

    def numbered(k: int) -> int:
        found = number(fields[k - 1])
        if found is None:
            raise bad_field(place, k)
        return found

    def limit(k: int) -> int | None:
        return None if fields[k - 1] == "market" else numbered(k)

    word = fields[1]
    if word == "enter":
        if fields[2] not in ("bid", "ask"):
            raise bad_field(place, 3)
        quantity, tick = numbered(4), limit(5)
        peak = numbered(6) if len(fields) > 5 and fields[5] else None
        restriction = fields[6] if len(fields) > 6 else ""
        if restriction not in ("", "opening", "closing"):
            raise bad_field(place, 7)
        return word, fields[2], tick, quantity, peak, restriction
    if word == "change":
        order, quantity = numbered(3), numbered(4)
        return word, order, limit(5), quantity
    if word in ("delete", "status", "trade"):
        return word, numbered(3)
    return (word,)


# ---- whole files


def order_file(text: str, options: Options) -> Given:
    """What an order file says of a day of these options. Raises FileFault."""
    if len(text) > MOST_BYTES:
        raise FileFault("file too long")
    calls: list[Call] = []
    for place, fields in enumerate(records(text), 1):
        if len(calls) == options["calls"]:
            raise FileFault(f"record {place}: too many commands")
        calls.append(command(place, fields, options["members"]))
    return Given(options, calls, [])


def day_record(fields: list[str]) -> Options:
    """The numbers that the first record of a journal says. Raises FileFault with its first
    fault.
    """
    if len(fields) != 1 + len(RANGES):
        raise FileFault("record 1: wrong number of fields")
    found: Options = {}
    for k, (name, (least, most)) in enumerate(RANGES.items(), 2):
        value = number(fields[k - 1])
        is_left_out = name == "range" and not fields[k - 1]
        if not is_left_out and (value is None or not least <= value <= most):
            raise bad_field(1, k)
        found[name] = value
    return found


def journal(text: str) -> Given:
    """What a journal says. Raises FileFault, also where the text is no journal."""
    if len(text) > MOST_JOURNAL_BYTES:
        raise FileFault("file too long")
    if not is_journal(text):
        raise FileFault("record 1: not a day record")
    rows = records(text)
    options = day_record(next(rows))
    calls: list[Call] = []
    replies: list[str] = []
    for place, fields in enumerate(rows, 2):
        if len(calls) == options["calls"]:
            raise FileFault(f"record {place}: too many commands")
        calls.append(command(place, fields, options["members"], replies=1))
        reply = fields[-1]
        if len(reply) > MOST_REPLY_BYTES or not all(" " <= c <= "~" for c in reply):
            raise bad_field(place, len(fields))
        replies.append(reply)
    return Given(options, calls, replies)


@dataclasses.dataclass(frozen=True)
class Copy:
    """What the whole lines of a copy of a journal say, and how many bytes are behind them."""

    given: Given
    behind: int


def whole_part(text: str) -> str:
    """The whole lines of a copy of a journal: those up to the last LF before any NUL."""
    lines, end, _ = text.partition("\0")[0].rpartition("\n")
    return lines + end


def journal_copy(text: str) -> Copy:
    """What a copy of a journal says, which may be broken off within a line, or have NULs behind its
    lines. Raises FileFault.
    """
    if len(text) > MOST_JOURNAL_BYTES:
        raise FileFault("file too long")
    whole = whole_part(text)
    return Copy(journal(whole), len(text) - len(whole))


def given(text: str, options: Options) -> Given:
    """What a run with these options is given by an order file, or by a journal in its place.
    Raises FileFault.
    """
    return journal(text) if is_journal(text) else order_file(text, options)

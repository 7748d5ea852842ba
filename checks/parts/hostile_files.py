"""Order files that are cut, malicious or as long as may be, with the answers that docs/FORMATS.md
says.
"""
import dataclasses
from collections.abc import Callable, Iterator

from checks import built
from checks.model.answers import DEFAULTS, Answer, answer
from checks.model.files import FIELDS

EXAMPLE = (built.TOP / "examples/opening.csv").read_bytes()
MOST = 67_108_864  # bytes of an order file
CALLS = 1_048_576
NO_PRICE = "no price bid - ask -"
LARGEST = ["--low", "1", "--high", "65536", "--open", "65536", "--calls", str(CALLS)]
RECORDS = [
    b"1,enter,bid,5,200,5,opening",
    b"1,change,1,5,200",
    b"1,delete,1",
    b"1,status,1",
    b"1,trade,1",
    b"1,ask",
    b"0,uncross",
]
JUNK = [b"\xff", b"\x80", b"\x00", b"5\x00", b"\x005", b"\xc3\xa9", b"\xd9\xa3", b"\xef\xbc\x95"]
JUNK += [b"\xf0\x9f\x98\x80", b"\x7f", b"5\t", b" 5"]


@dataclasses.dataclass(frozen=True)
class Case:
    """A name, the words of the command line, and what makes the bytes of the file and the answer
    wanted: files are large, and made when they are run.
    """

    name: str
    words: list[str]
    make: Callable[[], tuple[bytes, Answer]]


def small(name: str, words: list[str], data: bytes, wanted: Answer) -> Case:
    """A case of a small file."""
    return Case(name, words, lambda: (data, wanted))


def fault(text: str) -> Answer:
    """The answer to a bad file."""
    return 1, "", text + "\n"


def lines(*texts: str) -> Answer:
    """The answer that prints these replies."""
    return 0, "".join(f"{place}: {text}\n" for place, text in enumerate(texts, 1)), ""


def cut_table() -> Iterator[Case]:
    """The stored example cut after each of its bytes."""
    for end in range(len(EXAMPLE) + 1):
        text = EXAMPLE[:end].decode()
        name = f"the example cut after {end} bytes"
        yield small(name, [], text.encode(), answer(text, DEFAULTS, "lines"))


def field_fault(number: int, field: int) -> Answer:
    """The answer to a file with this field bad, the first being 1."""
    names = {1: "bad member", 2: "bad command"}
    return fault(f"record {number}: {names.get(field, f'bad field {field}')}")


def junk_table() -> Iterator[Case]:
    """Each field of each command with bytes that belong in none, in a file's second record."""
    for record in RECORDS:
        fields = record.split(b",")
        for place in range(len(fields)):
            for junk in JUNK:
                bad = b",".join([*fields[:place], junk, *fields[place + 1 :]])
                name = f"{junk!r} as field {place + 1} of {record.decode()}"
                data = b"1,ask\n" + bad + b"\n1,ask\n"
                yield small(name, [], data, field_fault(2, place + 1))


def quote_table() -> Iterator[Case]:
    """Each field of each command with a quote that never closes: it holds all that is left of the
    file.
    """
    for record in RECORDS:
        fields = record.split(b",")
        least, most = FIELDS[fields[1].decode()]
        for place in range(len(fields)):
            bad = b",".join([*fields[:place], b'"' + fields[place], *fields[place + 1 :]])
            wanted = field_fault(1, place + 1)
            if place > 1 and not least <= place + 1 <= most:
                wanted = fault("record 1: wrong number of fields")
            name = f"a quote that opens field {place + 1} of {record.decode()}"
            yield small(name, [], bad + b"\n1,ask\n", wanted)


BYTES: list[tuple[str, bytes, Answer]] = [
    ("no bytes", b"", (0, "", "")),
    ("a quoted word", b'1,"ask"\n', lines(NO_PRICE)),
    ("a quote that the end of the file closes", b'1,"ask', lines(NO_PRICE)),
    ("a quote inside a field", b'1,as"k\n', fault("record 1: bad command")),
    ("text behind a closing quote", b'1,"as"k\n', lines(NO_PRICE)),
    ("a quoted line end", b'1,"ask\n"\n', fault("record 1: bad command")),
    ("quotes alone", b'"' * 1_000_000, fault("record 1: bad member")),
    ("a byte order mark", b"\xef\xbb\xbf1,ask\n", lines(NO_PRICE)),
    ("two byte order marks", b"\xef\xbb\xbf\xef\xbb\xbf1,ask\n", fault("record 1: bad member")),
    (
        "a byte order mark in the second record",
        b"1,ask\n\xef\xbb\xbf1,ask\n",
        fault("record 2: bad member"),
    ),
    ("a byte order mark alone", b"\xef\xbb\xbf", (0, "", "")),
    ("half a byte order mark", b"\xef\xbb", fault("record 1: bad member")),
    (
        "two bytes a character",
        "\ufeff1,ask\n".encode("utf-16-le"),
        fault("record 1: bad member"),
    ),
    ("CR alone as line end", b"1,ask\r2,ask\r", lines(NO_PRICE, NO_PRICE)),
    ("LF CR as line end", b"1,ask\n\r2,ask\n\r", lines(NO_PRICE, NO_PRICE)),
    ("CR LF as line end", b"1,ask\r\n2,ask\r\n", lines(NO_PRICE, NO_PRICE)),
    ("CR CR LF as line end", b"1,ask\r\r\n2,ask\r\r\n", lines(NO_PRICE, NO_PRICE)),
    ("a form feed as line end", b"1,ask\f2,ask\f", fault("record 1: bad command")),
    ("NUL bytes alone", b"\x00" * 1_000_000, fault("record 1: bad member")),
    ("a NUL byte behind the last line", b"1,ask\n\x00", fault("record 2: bad member")),
    ("a sign before a number", b"+1,ask\n", fault("record 1: bad member")),
    ("a semicolon for a comma", b"1;ask\n", fault("record 1: bad member")),
]
"""Bytes that files of other systems and broken files have."""


COLUMNS = b"member,command,side,quantity,limit\n"
COMMAS = "fields are parted by commas"
HEADER = "record 1: bad member\nthe first record looks like a header: leave it out"
SPACES = "a field has no spaces around it"
CAPITALS = "words are in lower case"
WHOLE = "numbers are whole, prices in ticks"
MEMBERS = "members are numbered from 0, and there are 4"
LIMITS = "limits are ticks from 1 to 1000"
CAUSES: list[tuple[str, bytes, str]] = [
    ("a header", COLUMNS + b"1,ask\n", HEADER),
    ("a header of one line", COLUMNS.rstrip(), HEADER),
    ("a header in the second record", b"1,ask\n" + COLUMNS, "record 2: bad member"),
    ("a name for a member", b"alice,enter,bid,many,market\n", "record 1: bad member"),
    ("all in capitals", b"ALICE,ENTER,BID,MANY,MARKET\n", "record 1: bad member"),
    ("a header of two words", b"alice,cancel\n", "record 1: bad member"),
    ("tabs", b"1\task\n", f"record 1: bad member\nthe input has tabs: {COMMAS}"),
    (
        "semicolons in a later record",
        b"1,ask\n1;ask\n",
        f"record 2: bad member\nthe input has semicolons: {COMMAS}",
    ),
    ("a semicolon and a comma", b"1;,ask\n", "record 1: bad member"),
    ("a space before a member", b" 1,ask\n", f"record 1: bad member\n{SPACES}"),
    ("a tab behind a word", b"1,ask\t\n", f"record 1: bad command\n{SPACES}"),
    ("a space before a limit", b"1,enter,bid,1, 5\n", f"record 1: bad field 5\n{SPACES}"),
    ("a command in capitals", b"1,Ask\n", f"record 1: bad command\n{CAPITALS}"),
    ("a side in capitals", b"1,enter,BID,1,5\n", f"record 1: bad field 3\n{CAPITALS}"),
    ("an id in letters", b"1,change,BID,1,5\n", "record 1: bad field 3"),
    ("a limit in capitals", b"1,enter,bid,1,MARKET\n", f"record 1: bad field 5\n{CAPITALS}"),
    (
        "a restriction in capitals",
        b"1,enter,bid,1,5,,Opening\n",
        f"record 1: bad field 7\n{CAPITALS}",
    ),
    ("buy", b"1,enter,buy,1,5\n", "record 1: bad field 3\na side is bid or ask"),
    ("sell in capitals", b"1,enter,SELL,1,5\n", "record 1: bad field 3\na side is bid or ask"),
    ("a buy that is no side", b"1,enter,bid,1,buy\n", "record 1: bad field 5"),
    ("a decimal price", b"1,enter,bid,1,5.25\n", f"record 1: bad field 5\n{WHOLE}"),
    ("a decimal member", b"1.0,ask\n", f"record 1: bad member\n{WHOLE}"),
    ("a decimal in place of a side", b"1,enter,5.25,1,5\n", "record 1: bad field 3"),
    ("two points", b"1,enter,bid,1,5.2.5\n", "record 1: bad field 5"),
    ("a member more", b"4,ask\n", f"record 1: bad member\n{MEMBERS}"),
    ("a negative member", b"-1,ask\n", f"record 1: bad member\n{MEMBERS}"),
    ("a negative limit", b"1,enter,bid,1,-5\n", f"record 1: bad field 5\n{LIMITS}"),
    ("a limit of 12 digits", b"1,enter,bid,1,500000000000\n", f"record 1: bad field 5\n{LIMITS}"),
    ("a negative quantity", b"1,enter,bid,-1,5\n", "record 1: bad field 4"),
    (
        "a member that a journal's day hasn't",
        b"day,1,1000,200,3,4096,65536,\n3,ask,\n",
        "record 2: bad member\nmembers are numbered from 0, and there are 3",
    ),
    (
        "a decimal in a day record",
        b"day,1.5,1000,200,3,4096,65536,\n",
        f"record 1: bad field 2\n{WHOLE}",
    ),
    ("a tab in a reply", b"day,1,1000,200,3,4096,65536,\n1,ask,a\t\n", "record 2: bad field 3"),
    (
        "a cause within the first 16,384 bytes",
        b"1,ask\n" * 2_728 + b"1,Ask\n1,ask\n",
        f"record 2729: bad command\n{CAPITALS}",
    ),
    ("a cause behind them", b"1,ask\n" * 2_730 + b"1,Ask\n1,ask\n", "record 2731: bad command"),
]
"""Faults with their likely causes, and others without one."""


def cause_table() -> Iterator[Case]:
    """Faults with their likely causes, and others without one."""
    for name, data, text in CAUSES:
        yield small(name, [], data, fault(text))


def byte_table() -> Iterator[Case]:
    """Bytes that files of other systems and broken files have."""
    for name, data, wanted in BYTES:
        yield small(name, [], data, wanted)
    yield Case(
        "a quote that never closes",
        [],
        lambda: (b'1,"' + b"ask\n" * 1_000_000, fault("record 1: bad command")),
    )


def repeated_table() -> Iterator[Case]:
    """One byte, as often as a file may have bytes, and once more."""
    none = 0, "", ""
    bad_member = fault("record 1: bad member")
    yield Case(f"{MOST - 1:,} line ends", [], lambda: (b"\n" * (MOST - 1), none))
    yield Case(f"{MOST:,} line ends", [], lambda: (b"\n" * MOST, none))
    too_long = fault("file too long")
    yield Case(f"{MOST + 1:,} line ends", [], lambda: (b"\n" * (MOST + 1), too_long))
    yield Case(f"{MOST:,} CRs", [], lambda: (b"\r" * MOST, none))
    yield Case(f"{MOST:,} quotes", [], lambda: (b'"' * MOST, bad_member))
    yield Case("60,000,000 commas", [], lambda: (b"," * 60_000_000, bad_member))


def long_table() -> Iterator[Case]:
    """Records, fields and files as long as may be, and longer."""
    yield Case(
        "a record of 1,000,000 commas",
        [],
        lambda: (b"1,ask" + b"," * 1_000_000, fault("record 1: wrong number of fields")),
    )
    count = fault("record 3: wrong number of fields")
    yield Case(
        "60,000,000 commas in the third record",
        [],
        lambda: (b'1,ask\n1,"ask"\n1,ask' + b"," * 60_000_000, count),
    )
    yield Case(
        "a field of 60,000,000 digits",
        [],
        lambda: (b"1,delete," + b"1" * 60_000_000, fault("record 1: bad field 3")),
    )
    yield Case(
        "a member of 60,000,000 digits",
        [],
        lambda: (b"0" * 60_000_000 + b",ask", fault("record 1: bad member")),
    )
    yield Case(
        "a bad record that is one too many",
        [],
        lambda: (b"1,ask\n" * 65_536 + b"x", fault("record 65537: too many commands")),
    )
    too_many = fault(f"record {CALLS + 1}: too many commands")
    yield Case(
        f"{MOST // 6:,} commands", LARGEST, lambda: (b"1,ask\n" * (MOST // 6), too_many)
    )


def many_moves() -> tuple[bytes, Answer]:
    """One order that moves with each command."""
    first = b"1,enter,bid,5,200\n1,change,1,5,201\n"
    moves = first + b"1,change,1,5,200\n1,change,1,5,201\n" * (CALLS // 2 - 1)
    return moves, lines("entered 1", *["changed moved"] * (CALLS - 1))


def many_pairs() -> tuple[bytes, Answer]:
    """Orders that come and go, one at a time."""
    numbers = range(1, CALLS // 2 + 1)
    pairs = b"".join(b"1,enter,ask,1,market\n1,delete,%d\n" % number for number in numbers)
    texts = (text for number in numbers for text in (f"entered {number}", "deleted"))
    return pairs, lines(*texts)


def longest_orders() -> tuple[bytes, Answer]:
    """Orders that are spelled as long as may be, more than the book takes."""
    longest = b'"0000000001",enter,bid,1000000000,0000000200,0000000001,opening\n' * CALLS
    texts = [f"entered {number}" for number in range(1, 65_537)]
    texts += ["refused 4 BookFull"] * (CALLS - 65_536)
    return longest, lines(*texts)


def trades_at_once() -> tuple[bytes, Answer]:
    """As many trades in one uncross as orders may be open."""
    orders = b"1,enter,bid,65535,200\n" + b"2,enter,ask,1,200\n" * 65_535
    price = "price 200 volume 65535 surplus 0 none"
    texts = [f"entered {number}" for number in range(1, 65_537)]
    texts += [price, f"opening {price} trades 65535"]
    return orders + b"0,ask\n0,uncross\n", lines(*texts)


def full_table() -> Iterator[Case]:
    """As many commands as may come, on a board as large as may be."""
    yield Case(
        f"{CALLS:,} questions", LARGEST, lambda: (b"1,ask\n" * CALLS, lines(*[NO_PRICE] * CALLS))
    )
    yield Case(f"{CALLS:,} moves of one order", LARGEST, many_moves)
    one_order = ["--open", "1", "--calls", str(CALLS)]
    yield Case(f"{CALLS:,} orders that come and go", one_order, many_pairs)
    yield Case(f"{CALLS:,} orders of 63 bytes", LARGEST, longest_orders)
    yield Case("65,535 trades at once", LARGEST, trades_at_once)


TABLES = [
    cause_table,
    byte_table,
    junk_table,
    quote_table,
    cut_table,
    repeated_table,
    long_table,
    full_table,
]

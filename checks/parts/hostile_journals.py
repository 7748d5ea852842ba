"""Journals that are cut, malicious or as long as may be, with the answers that docs/FORMATS.md
says.

Where fields are plain the answer is that of the model; where quotes or a byte order mark matter it
is written here.
"""
from collections.abc import Iterator

from checks.model.answers import DEFAULTS, Answer, answer
from checks.model.files import MOST_JOURNAL_BYTES, RANGES
from checks.model.tables import TRADE_COLUMNS
from checks.parts.hostile_files import (
    CALLS,
    MOST,
    NO_PRICE,
    RECORDS,
    Case,
    fault,
    lines,
    small,
)

DAY = b"day,1,1000,200,4,4096,65536,\n"
LARGEST_DAY = f"day,1,65536,200,64,65536,{CALLS},\n".encode()
JOURNAL = DAY + b"1,enter,bid,5,200,entered 1\n0,uncross,opening no price\n1,ask,no price\n"
AUDIT = ["--audit"]


def by_rules(name: str, words: list[str], data: bytes) -> Case:
    """A case whose answer is that of the model."""
    form = "audit" if words == AUDIT else "lines"
    return Case(
        name, words, lambda: (data, answer(data.decode("latin-1"), DEFAULTS, form))
    )


def audited(
    entries: int, compared: int, *unlawful: tuple[int, str, str], behind: int = 0
) -> Answer:
    """The answer to an audit that finds these: numbers from 1, recorded and lawful replies; of a
    copy with as many bytes behind its lines.
    """
    text = "".join(
        f'{place}: recorded "{recorded}", lawful "{lawful}"\n'
        for place, recorded, lawful in unlawful
    )
    verdict = f"bad {unlawful[0][0] - 1}" if unlawful else "legal"
    counts = f"entries {entries}\ncompared {compared}\nunlawful {len(unlawful)}\n"
    broken = f"incomplete: {behind} bytes follow entry {entries}\n" if behind else ""
    status = 4 if unlawful else 5 if behind else 0
    return status, f"{text}{counts}audit {verdict}\n{broken}", ""


def cut_table() -> Iterator[Case]:
    """A journal cut after each of its bytes, run and audited."""
    for end in range(len(JOURNAL) + 1):
        yield by_rules(f"a journal cut after {end} bytes", [], JOURNAL[:end])
        yield by_rules(f"an audited journal cut after {end} bytes", AUDIT, JOURNAL[:end])


def day_table() -> Iterator[Case]:
    """Each number of a day record at the edges of its range and beyond, and what is no number."""
    whole = DAY.strip().split(b",")
    for place, (name, (least, most)) in enumerate(RANGES.items(), 1):
        edges = [str(number) for number in (least - 1, least, most, most + 1)]
        for text in [*edges, f"{most:010}", f"{most:011}", "4294967296", "", " 5", "x", "\xff"]:
            fields = [*whole[:place], text.encode("latin-1"), *whole[place + 1 :]]
            data = b",".join(fields) + b"\n1,ask,\n"
            yield by_rules(f"{text!r} as {name} of a day record", AUDIT, data)
    for count in range(1, 10):
        data = b",".join([*whole, b"5"][:count]) + b"\n1,ask,\n"
        yield by_rules(f"a day record of {count} fields", AUDIT, data)


def entry_table() -> Iterator[Case]:
    """Each field of each command of a journal missing, doubled and bad, as its second record."""
    for record in RECORDS:
        fields = [*record.split(b","), b"?"]
        for place in range(len(fields)):
            puts: list[list[bytes]] = [[], [fields[place]] * 2, [b"\xff"], [b""]]
            for put in puts:
                bad = b",".join([*fields[:place], *put, *fields[place + 1 :]])
                name = f"{put} as field {place + 1} of {record.decode()} and a reply"
                yield by_rules(name, AUDIT, DAY + bad + b"\n1,ask,\n")
    yield by_rules("a member and no more", AUDIT, DAY + b"1\n")
    yield by_rules("two day records", AUDIT, DAY + DAY)
    few = b"day,1,1000,200,4,4096,1,\n1,ask,\n"
    yield by_rules("an entry too many", AUDIT, few + b"x\n")
    yield by_rules("as many entries as may be", AUDIT, few)
    yield by_rules("a bad record comes before bad bounds", AUDIT, b"day,5,4,5,4,1,1,\nx\n")
    yield by_rules("an order file for an audit", AUDIT, b"1,ask\n")


def reply_table() -> Iterator[Case]:
    """Replies with each kind of byte, and as long as may be and longer."""
    for byte in (0, 9, 11, 12, 27, 31, 32, 126, 127, 128, 133, 255):
        for reply in (b"%c", b"no%cprice", b"no price%c"):
            name = f"byte {byte} in the reply {reply!r}"
            yield by_rules(name, AUDIT, DAY + b"1,ask," + reply % byte + b"\n")
    for length in (1, 255, 256, 257, 1_000_000):
        data = DAY + b"1,ask," + b"~" * length + b"\n"
        yield by_rules(f"a reply of {length} bytes", AUDIT, data)
        yield by_rules(f"a dropped reply of {length} bytes", [], data)


ASK = b"1,ask," + NO_PRICE.encode()
WHOLE = DAY + ASK + b"\n"
RECORDED = ASK + b'\n2,ask,"no, price"\n2,ask,"no ""price"""\n2,ask,no "price"\n'
ONCE = audited(1, 1)
AUDITED: list[tuple[str, bytes, Answer]] = [
    ("a quoted day", b'"day"' + WHOLE[3:], ONCE),
    ("a byte order mark before a day", b"\xef\xbb\xbf" + WHOLE, ONCE),
    ("a space before a day", b" " + WHOLE, fault("record 1: not a day record")),
    ("CR LF in a journal", WHOLE.replace(b"\n", b"\r\n"), ONCE),
    ("CR in a journal", WHOLE.replace(b"\n", b"\r"), fault("record 1: not a day record")),
    ("CR in a journal before its last LF", WHOLE.replace(b"\n", b"\r", 1), ONCE),
    ("a journal without a last line end", WHOLE[:-1], audited(0, 0, behind=len(ASK))),
    (
        "a journal that was cut after its last CR",
        WHOLE[:-1] + b"\r",
        audited(0, 0, behind=len(ASK) + 1),
    ),
    ("a journal that was copied while it ran", WHOLE + bytes(4_096), audited(1, 1, behind=4_096)),
    ("a torn line behind a NUL", WHOLE + b"\0,ask,\n", audited(1, 1, behind=7)),
    (
        "an unlawful reply before a torn line",
        DAY + b"1,ask,no\n1,as",
        audited(1, 1, (1, "no", NO_PRICE), behind=4),
    ),
    ("a day that was cut", DAY[:-1], fault("record 1: not a day record")),
    ("empty lines before a day", b"\n\r\n" + WHOLE + b"\n\n\n", ONCE),
    ("a day alone", DAY, audited(0, 0)),
    ("a quoted reply", DAY + ASK.replace(b"no price bid", b'"no price bid') + b'"\n', ONCE),
    (
        "commas and quotes in replies",
        DAY + RECORDED,
        audited(
            4,
            4,
            (2, "no, price", NO_PRICE),
            (3, 'no "price"', NO_PRICE),
            (4, 'no "price"', NO_PRICE),
        ),
    ),
    ("a quoted empty reply", DAY + b'1,ask,""\n', audited(1, 0)),
    ("a line end in a reply", DAY + b'1,ask,"no\nprice"\n', fault("record 2: bad field 3")),
]
"""Audited journals with line ends, quotes and the marks of other systems."""


def dialect_table() -> Iterator[Case]:
    """Line ends, quotes and the marks of other systems."""
    for name, data, wanted in AUDITED:
        yield small(name, AUDIT, data, wanted)
    quoted = b'"day"' + WHOLE[3:]
    yield small("a quoted day in place of an order file", [], quoted, lines(NO_PRICE))
    yield small("a day alone in place of an order file", [], DAY, (0, "", ""))
    bounds = ["--low", "5", "--high", "4"]
    yield small("options that no order file could have", bounds, WHOLE, lines(NO_PRICE))
    yield Case(
        "a reply whose quote never closes",
        AUDIT,
        lambda: (DAY + b'1,ask,"' + b"no" * 1_000_000 + b"\n", fault("record 2: bad field 3")),
    )


def wrong_replies() -> tuple[bytes, Answer]:
    """As many wrong replies of the longest form as orders may be open."""
    wrong = b"1,ask," + b"x" * 256 + b"\n"
    found = [(place, "x" * 256, NO_PRICE) for place in range(1, 65_537)]
    return LARGEST_DAY + wrong * 65_536, audited(65_536, 65_536, *found)


def longest_entries() -> tuple[bytes, Answer]:
    """Entries that are spelled as long as may be."""
    order = b"0000000001,enter,bid,1000000000,0000000200,0000000001,opening,"
    longest = order.ljust(254, b"~") + b"\n"
    return LARGEST_DAY + longest * CALLS, (0, TRADE_COLUMNS + "\n", "")


def many_fields() -> tuple[bytes, Answer]:
    """An entry of very many fields."""
    entry = b"1,ask" + b"," * 60_000_000 + b"\n"
    return DAY + entry, fault("record 2: wrong number of fields")


def long_table() -> Iterator[Case]:
    """Journals as long as may be, and longer; order files that only a journal could be."""
    left = MOST_JOURNAL_BYTES - len(DAY)
    name = f"a journal of {MOST_JOURNAL_BYTES:,} bytes"
    yield Case(name, AUDIT, lambda: (DAY + b"\n" * left, audited(0, 0)))
    too_long, no_day = fault("file too long"), fault("record 1: not a day record")
    name = "a journal of a byte more"
    yield Case(name, AUDIT, lambda: (DAY + b"\n" * (left + 1), too_long))
    count = MOST // 6 + 1
    name = "an order file as long as a journal"
    yield Case(name, [], lambda: (b"1,ask\n" * count, too_long))
    yield Case("the same for an audit", AUDIT, lambda: (b"1,ask\n" * count, no_day))
    name = "a field of 60,000,000 bytes before a day"
    yield Case(name, AUDIT, lambda: (b"x" * 60_000_000 + DAY, no_day))
    name = "as many commas as a journal may have"
    yield Case(name, AUDIT, lambda: (b"," * (MOST_JOURNAL_BYTES - 1) + b"\n", no_day))
    yield Case("60,000,000 commas in an entry", [], many_fields)
    yield Case("the same entry for an audit", AUDIT, many_fields)
    entry = f"1,ask,{NO_PRICE}\n".encode()
    whole = audited(CALLS, CALLS)
    yield Case(f"{CALLS:,} entries", AUDIT, lambda: (LARGEST_DAY + entry * CALLS, whole))
    yield Case("65,536 wrong replies of 256 bytes", AUDIT, wrong_replies)
    yield Case(f"{CALLS:,} entries of 255 bytes", ["--print", "trades"], longest_entries)


TABLES = [cut_table, day_table, entry_table, reply_table, dialect_table, long_table]

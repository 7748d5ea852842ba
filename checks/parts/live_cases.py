"""Sessions with `--live`: what is sent, and what has to be answered."""
import dataclasses
import random
from collections.abc import Iterator

from checks import built
from checks.generators import orders
from checks.model.answers import DEFAULTS, printed
from checks.model.causes import record_cause
from checks.model.day import Options
from checks.parts.sessions import Talk, Turn

EXAMPLES = built.TOP / "examples"
LONGEST_RECORD = 1_048_576
USUAL_RESERVE = 16
RESERVED = "calls are reserved for the operator"
OPEN_QUOTE = "quote not closed"

BAD_RECORDS = [
    (b"1000,ask", "bad member"),
    (b"day,1,1000,200,4,4096,65536,", "bad member"),
    (b"0,sell", "bad command"),
    (b"0", "bad command"),
    (b"0,ask,1", "wrong number of fields"),
    (b"0,enter,buy,1,1", "bad field 3"),
    (b"0,enter,bid,many,1", "bad field 4"),
    (b"0,enter,bid,1,1.5", "bad field 5"),
    (b"0;enter;bid;1;1", "bad member"),
    (b"alice,enter,bid,many,1", "bad member"),
    (b"0, ask", "bad command"),
    (b"0,ASK", "bad command"),
    (b'0,enter,bid,1,"1', OPEN_QUOTE),
    (b'0,enter,bid,1,"x"', "bad field 5"),
]
"""Records that are no commands, each with its fault."""


def example_talks() -> Iterator[Talk]:
    """The order files of examples/, record by record. Raises OSError."""
    for file in sorted(EXAMPLES.glob("*.csv")):
        options = file.with_suffix(".args")
        words = options.read_text().split() if options.exists() else []
        records = file.read_bytes().splitlines(keepends=True)
        lines = file.with_suffix(".txt").read_text().splitlines(keepends=True)
        turns = [Turn(record, line) for record, line in zip(records, lines, strict=True)]
        yield Talk(file.stem, words, turns)


def byte_by_byte(record: bytes, answer: str) -> list[Turn]:
    """The turns of a record whose bytes come one by one; its last byte completes it."""
    *first, last = [record[place : place + 1] for place in range(len(record))]
    return [*[Turn(byte) for byte in first], Turn(last, answer)]


NO_PRICE = "no price bid - ask -\n"


def spelled_talks() -> Iterator[Talk]:
    """Records in other spellings, and in pieces."""
    yield from marked_talks()
    yield from quoted_talks()
    yield from cut_talks()
    yield Talk("no bytes", [], [])
    yield Talk("line ends alone", [], [Turn(b"\n\r\n\r\r\n\n")])
    yield Talk(
        "two records at once, and a half",
        [],
        [
            Turn(b"1,ask\n1,ask\n1,a", f"1: {NO_PRICE}2: {NO_PRICE}"),
            Turn(b"sk\n", f"3: {NO_PRICE}"),
        ],
    )


def marked_talks() -> Iterator[Talk]:
    """Records with byte order marks, and with other ends of lines."""
    yield Talk("byte by byte", [], byte_by_byte(b"1,ask\n", f"1: {NO_PRICE}"))
    yield Talk("a byte order mark", [], byte_by_byte(b"\xef\xbb\xbf1,ask\n", f"1: {NO_PRICE}"))
    yield Talk(
        "a byte order mark before the second record",
        [],
        [
            Turn(b"1,ask\n", f"1: {NO_PRICE}"),
            Turn(b"\xef\xbb\xbf1,ask\n", f"2: {NO_PRICE}"),
        ],
    )
    yield Talk(
        "CR LF",
        [],
        [
            *byte_by_byte(b"1,ask\r", f"1: {NO_PRICE}"),
            Turn(b"\n"),
            *byte_by_byte(b"2,ask\r", f"2: {NO_PRICE}"),
            Turn(b"\n\r\n\n"),
        ],
    )


def quoted_talks() -> Iterator[Talk]:
    """Records with quotes."""
    yield Talk(
        "quotes over lines",
        [],
        [
            *byte_by_byte(b'1,"as\n', bad(1, OPEN_QUOTE)),
            *byte_by_byte(b'k"\n', bad(2, "bad member")),
            Turn(b"1,ask\n", f"1: {NO_PRICE}"),
        ],
        status=1,
    )
    yield Talk("a quoted word", [], byte_by_byte(b'"1","ask"\n', f"1: {NO_PRICE}"))


def cut_talks() -> Iterator[Talk]:
    """Last lines without an end."""
    for cut in (b"2,ask", b'1,"ask', b"\xef\xbb", b"1,delete,1", b'"'):
        yield Talk(
            f"cut off, {cut!r}",
            [],
            [Turn(b"1,ask\n" + cut, f"1: {NO_PRICE}")],
            Turn(b"", bad(2, "cut off")),
            status=1,
        )


def bad(number: int, fault: str, record: bytes = b"", options: Options = DEFAULTS) -> str:
    """The line of a bad record's fault, with the likely cause that the record's fields show."""
    cause = record_cause(fault, number, record.decode("latin-1").split(","), options)
    return f"record {number}: {fault}: {cause}\n" if cause else f"record {number}: {fault}\n"


FAULTS = [
    (b"9,ask\n", "bad member: members are numbered from 0, and there are 4"),
    (b"0,enter,sell,1,1\n", "bad field 3: a side is bid or ask"),
    (b"0,enter,bid,1,-1\n", "bad field 5: limits are ticks from 1 to 1000"),
    (b"0,enter,bid,1,1.5\n", "bad field 5: numbers are whole, prices in ticks"),
    (b"0\task\n", "bad member: the input has tabs: fields are parted by commas"),
    (b"member,command,side,quantity,limit\n", "bad member"),
    (b"0,ask \n", "bad command: a field has no spaces around it"),
    (b"0,Uncross\n", "bad command: words are in lower case"),
]
"""Bad records with their answers."""


def bad_talks() -> Iterator[Talk]:
    """Bad records, and what comes after them."""
    header = b"member,command,side,quantity,limit\n"
    likely = "bad member: the first record looks like a header: leave it out"
    yield Talk(
        "likely causes",
        [],
        [
            Turn(header, f"record 1: {likely}\n"),
            *[Turn(sent, f"record {at}: {fault}\n") for at, (sent, fault) in enumerate(FAULTS, 2)],
        ],
        status=1,
    )
    for record, fault in BAD_RECORDS:
        turns = [
            Turn(b"1,ask\n", f"1: {NO_PRICE}"),
            Turn(record + b"\n", bad(2, fault, record)),
            Turn(b"1,ask\n", f"2: {NO_PRICE}"),
        ]
        yield Talk(f"a bad record, {record!r}", [], turns, status=1)
    yield from late_talks()
    journal = (EXAMPLES / "forms/opening.journal.csv").read_bytes().splitlines(keepends=True)
    yield Talk(
        "a journal",
        [],
        [Turn(journal[0], bad(1, "bad member")), Turn(journal[1], bad(2, "bad field 6"))],
        status=1,
    )


def late_talks() -> Iterator[Talk]:
    """Commands after the last that a member may have."""
    yield Talk(
        "commands behind the last that may come",
        ["--calls", "2", "--reserve", "0"],
        [
            Turn(b"1,ask\n", f"1: {NO_PRICE}"),
            Turn(b"1,sell\n", bad(2, "bad command")),
            Turn(b"1,ask\n", f"2: {NO_PRICE}"),
            Turn(b"1,ask\n", bad(4, "too many commands")),
            Turn(b"1,sell\n", bad(5, "too many commands")),
        ],
        status=1,
    )
    yield Talk(
        "the operator's calls",
        ["--calls", "18"],
        [
            Turn(b"1,ask\n2,ask\n", f"1: {NO_PRICE}2: {NO_PRICE}"),
            Turn(b"1,ask\n", bad(3, RESERVED)),
            Turn(b"3,sell\n", bad(4, "bad command")),
            Turn(b"0,ask\n0,uncross\n", f"3: {NO_PRICE}4: opening no price\n"),
            Turn(b"2,enter,bid,1,1\n", bad(7, RESERVED)),
        ],
        status=1,
    )


def long_talks() -> Iterator[Talk]:
    """Records as long as they may be, and longer."""
    first = Turn(b"1,ask\n", f"1: {NO_PRICE}")
    longest = b"1," + b"x" * (LONGEST_RECORD - 2)
    last = Turn(b"1,ask\n", f"2: {NO_PRICE}")
    yield Talk(
        "the longest record",
        [],
        [first, Turn(longest + b"\n", bad(2, "bad command")), last],
        status=1,
    )
    for more in (b"x", b'"', b",", b"x" * 3_000_000):
        yield Talk(
            f"a record that is too long by {more[:2]!r}",
            [],
            [first, Turn(longest + more + b"\n", bad(2, "record too long")), last],
            status=1,
        )
    yield Talk(
        "a good record before one that is too long, at once",
        [],
        [
            Turn(
                b"1,ask\n" + longest + b"xx\n1,ask\n",
                f"1: {NO_PRICE}{bad(2, 'record too long')}2: {NO_PRICE}",
            )
        ],
        status=1,
    )
    yield Talk(
        "a record that is too long and has no end",
        [],
        [Turn(b"1,ask\n" + longest + b"xx", f"1: {NO_PRICE}")],
        Turn(b"", bad(2, "cut off")),
        status=1,
    )


@dataclasses.dataclass(frozen=True)
class Random:
    """A random order file with bad records among its own: each record with its answer."""

    words: list[str]
    turns: list[Turn]

    @property
    def status(self) -> int:
        """1 where a record is bad."""
        return int(any(turn.out.startswith("record ") for turn in self.turns))


def random_session(seed: int) -> Random:
    """The random order file of this seed, with bad records among its own, and with as many calls
    kept for the operator as `--reserve` says, or as usual.
    """
    dice = random.Random(seed)
    options, text = orders.order_file("short", seed)
    options = DEFAULTS | options
    reserve = dice.choice([None, None, 0, 1, options["calls"]])
    records: list[tuple[str, str | None]] = []
    for record in text.splitlines():
        while dice.random() < 0.2:
            bad_record, fault = dice.choice(BAD_RECORDS)
            records.append((bad_record.decode("latin-1"), fault))
        records.append((record, None))
    kept = USUAL_RESERVE if reserve is None else reserve
    faults = [*faults_of(records, options["calls"], kept)]
    good = [record for (record, _), fault in zip(records, faults, strict=True) if fault is None]
    lines = iter(printed("".join(f"{record}\n" for record in good), options).splitlines(True))
    turns = [
        Turn(
            record.encode("latin-1") + dice.choice([b"\n", b"\r", b"\n\n"]),
            next(lines)
            if fault is None
            else bad(place, fault, record.encode("latin-1"), options),
        )
        for place, ((record, _), fault) in enumerate(zip(records, faults, strict=True), 1)
    ]
    words = [] if reserve is None else ["--reserve", str(reserve)]
    return Random([*orders.option_words(options), *words], turns)


def faults_of(
    records: list[tuple[str, str | None]], calls: int, reserve: int
) -> Iterator[str | None]:
    """The fault of each record, or None for one that is executed, on a day of `calls` calls, the
    last `reserve` of which are the operator's. Each record has the fault of its line or of its
    fields, if they have one.
    """
    made = 0
    for record, fault in records:
        if fault == OPEN_QUOTE:
            yield fault
        elif made >= calls:
            yield "too many commands"
        elif fault is not None:
            yield fault
        elif int(record.split(",")[0].strip('"')) != 0 and made + reserve >= calls:
            yield RESERVED
        else:
            made += 1
            yield None


def at_once(turns: list[Turn]) -> Turn:
    """These turns, sent at once."""
    return Turn(b"".join(turn.sent for turn in turns), "".join(turn.out for turn in turns))


Run = tuple[str, list[str], str, int, str, str]
"""A name, the program's words, the redirections of a shell, and the status, the output and the
error that are wanted.
"""


def run_table() -> Iterator[Run]:
    """Devices that fail, and options that don't go together."""
    alone = "--live prints lines, without --floor, --history or --audit\n"
    yield "a folder for input", ["--live"], "< /", 3, "", "read failed\n"
    yield "no input", ["--live"], "<&-", 3, "", "read failed\n"
    yield "a full disk", ["--live"], "< examples/opening.csv > /dev/full", 3, "", "write failed\n"
    for words in (
        ["--floor"],
        ["--history"],
        ["--audit"],
        ["--print", "journal"],
        ["--print=book"],
    ):
        yield f"--live {words[0]}", ["--live", *words], "< /dev/null", 2, "", alone
    without = "--reserve, --journal and --sync go with --live\n"
    yield "--reserve alone", ["--reserve", "16"], "< /dev/null", 2, "", without
    yield "--reserve 1048577", ["--live", "--reserve=1048577"], "< /dev/null", 2, "", "*"
    yield "a form that there isn't", ["--live", "--print", "x"], "< /dev/null", 2, "", "*"
    yield "bounds", ["--live", "--low", "9", "--high", "8"], "< /", 2, "", (
        "bad bounds\nlow 9 is above high 8\n"
    )
    yield "a reference", ["--live", "--high", "100"], "< /", 2, "", (
        "bad reference\nthe reference 200 is outside 1 to 100\n"
    )
    lines = (EXAMPLES / "opening.txt").read_text()
    yield "the lines by their name", [
        "--live",
        "--print",
        "lines",
    ], "< examples/opening.csv", 0, lines, ""

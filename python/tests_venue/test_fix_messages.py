"""docs/made/FIX_MESSAGES.md: its command prints it; the venue takes the tags that a message has
there, and refuses each other one; its values are those of the code.
"""
import pathlib
import re
import subprocess
import sys

import pytest
import served
from acceptors import Speaker, refusal
from callauction.fix import board_orders, feeds, order_fields, refusals, requests, seats
from callauction.fix.tags import (
    DAY, FIXT, GOOD_TILL_CANCEL, LIMIT, MARKET, OTHER_REASON, SIDE_CODES, Exec, Status,
)
from fix_messages import FROM, HEAD, NEEDED, NOTHING, OF_ALL, OF_ORDERS, PARTIES
from fixing import FixFields

PAGE = served.PACKAGE.parent / "docs/made/FIX_MESSAGES.md"
HEADING = re.compile(r"^### (?P<kind>\w+) (?P<name>\w+)$|^## (?P<part>.*)$")
ROW = re.compile(r"^\| (?P<tag>[0-9]+) \| [. ]*\w+ \| (?P<needed>[^|]*) \| (?P<says>.*) \|$")
IDLE = "These change nothing: "
AROUND = "Around each message"
OF_FIXT = {1128, 1137, 1369}
"""Tags of FIX 5.0SP2 alone."""
DATA = {93: 89, 95: 96, 354: 355}
"""Data, by the tags of their lengths."""
ENVELOPE = {8, 9, 10, 34, 35, 43, 49, 52, 56, 122}
"""Tags around a message that each has, or that say that it comes again."""
TIME = "20261126-09:00:00"
VALUES = {60: TIME, 122: TIME, 126: TIME, 89: "x", 96: "x", 355: "x", 97: "Y", 912: "Y", 1128: "9"}
"""Values of the type of a tag, where 1 is none."""


class MessagesPage:
    """The page: the rows of each message, the tags that each needs, and those that change nothing.
    """

    def __init__(self, text: str) -> None:
        self.rows: dict[str, dict[int, str]] = {}
        self.needed: dict[str, set[int]] = {}
        self.idle: dict[str, set[int]] = {}
        kind = ""
        for line in text.splitlines():
            if found := HEADING.match(line):
                kind = found["kind"] or found["part"]
                self.rows[kind], self.needed[kind], self.idle[kind] = {}, set(), set()
            elif found := ROW.match(line):
                self.rows[kind][int(found["tag"])] = found["says"]
                self.needed[kind] |= {int(found["tag"])} if found["needed"] == "yes" else set()
            elif line.startswith(IDLE):
                self.idle[kind] |= {int(it) for it in re.findall(r"\b([0-9]+) [A-Z]", line)}

    def tags(self, kind: str) -> set[int]:
        """All tags of a message, or around one."""
        return {*self.rows[kind]} | self.idle[kind]

    def values(self, kind: str, tag: int) -> set[str]:
        """The values that a tag may have."""
        listed = self.rows[kind][tag].rpartition(": ")[2]
        return {it.split("`")[1] for it in listed.split("; ")}


@pytest.fixture(scope="module")
def page() -> MessagesPage:
    """The page as it is."""
    return MessagesPage(PAGE.read_text("utf-8"))


def tags_of(*pairs: FixFields) -> set[int]:
    """The tags of these."""
    return {tag for each in pairs for tag, _ in each}


def test_the_command_prints_the_page() -> None:
    words = [sys.executable, "-P", "-m", "callauction.fix.messages"]
    ran = subprocess.run(words, env=served.environment(), capture_output=True, text=True)
    assert (ran.returncode, ran.stderr) == (0, "")
    assert ran.stdout == PAGE.read_text("utf-8")
    ran = subprocess.run([*words, "x"], env=served.environment(), capture_output=True, text=True)
    assert (ran.returncode, ran.stdout) == (2, "") and "usage: python3 -P" in ran.stderr


def test_what_each_message_needs(page: MessagesPage) -> None:
    """As the tests of the venue have it."""
    for kind, groups in NEEDED.items():
        assert page.needed[kind] == tags_of(*groups), kind
    assert page.needed["A"] == {98, 108}
    assert page.needed[AROUND] == ENVELOPE - {43, 122}


def test_what_changes_nothing(page: MessagesPage) -> None:
    """As the tests of the venue have it: what contradicts an order has a row of its own."""
    same = tags_of(NOTHING, PARTIES) - tags_of(HEAD) | {22, 354, 355}
    assert page.idle["D"] == page.idle["H"] - {37} == page.idle["G"] - {37} == same
    assert page.idle["F"] == same | {37, 38}
    assert page.idle[AROUND] == tags_of(HEAD, FROM) | {369, 93, 89}
    assert page.idle["A"] == {95, 96, 383, 464, 553, 789}
    assert page.idle["x"] == {58, 207, 263}
    assert tags_of(OF_ORDERS) - {22} <= {*page.rows["D"]}
    assert tags_of(OF_ALL) - {22} <= {*page.rows["H"]}


def with_tag(page: MessagesPage, kind: str, tag: int, needed: FixFields) -> FixFields:
    """A message with what it needs and a tag, data with their length; a group's rows with their
    first tag.
    """
    if tag in tags_of(needed):
        return needed
    before = {data: [(length, "1")] for length, data in DATA.items()}
    before |= {it: [(453, "1"), (448, "x")] for it in (447, 452)}
    before |= {448: [(453, "1")], 802: [(453, "1"), (448, "x")]}
    before[523] = before[803] = [*before[802], (802, "1")]
    before[803] = [*before[523], (523, "x")]
    after = {453: [(448, "x")], 802: [(523, "x")]}
    data = [(DATA[tag], "x")] if tag in DATA else []
    more = [*before.get(tag, []), (tag, VALUES.get(tag, "1")), *after.get(tag, []), *data]
    if tag == 207 and kind == "V":  # it is in the group that ends the message
        return [*needed, *more]
    return [*needed[:1], *more, *needed[1:]] if kind == "V" else [*needed, *more]


@pytest.mark.parametrize("kind", NEEDED)
def test_the_tags_of_a_message(
    tmp_path: pathlib.Path, begin: str, kind: str, page: MessagesPage
) -> None:
    """Each of the page is taken, and each other one is refused."""
    speaker, needed = Speaker(tmp_path, begin), [it for group in NEEDED[kind] for it in group]
    around = page.tags(AROUND)
    own = page.tags(kind) - OF_FIXT
    for tag in sorted(own):
        assert speaker.say(kind, with_tag(page, kind, tag, needed)) == [], tag
        assert len(speaker.engine.said()) == 1, tag
    for tag in sorted(around - ENVELOPE - {89, 93} - (OF_FIXT if begin != FIXT else set())):
        assert speaker.say(kind, needed, {tag: VALUES.get(tag, "1")}) == [], tag
        assert len(speaker.engine.said()) == 1, tag
    every = {tag for it in page.rows for tag in page.tags(it)}
    for tag in sorted(every - own - around - {*DATA.values()}):
        data = [(DATA[tag], "x")] if tag in DATA else []
        found = speaker.say(kind, [*needed, (tag, VALUES.get(tag, "1")), *data])
        assert refusal(found)[2] == str(tag) and speaker.engine.said() == []


def test_all_messages_are_there(page: MessagesPage) -> None:
    """Those that a member may send, and the others of the code and of the session."""
    assert {*seats.Seat.acts} == {*NEEDED} <= {*page.rows}
    session = {"A", "0", "1", "2", "3", "4", "5"}
    told = {"8", "9", "r", "j", "W", "X", "Y", "h", "y", "AE"}
    assert {it for it in page.rows if len(it) <= 2} == {*NEEDED} | session | told


REASONS = {
    *refusals.ORDER_REASONS.values(), *board_orders.REJECTED.values(),
    *(refusals.UNKNOWN_SYMBOL, refusals.UNKNOWN_ORDER, refusals.DUPLICATE, refusals.ORDER_ENDED),
    *(refusals.WRONG_QUANTITY, OTHER_REASON),
}
EXPECTED = {
    ("D", 54): {*SIDE_CODES.values()},
    ("D", 40): {MARKET, LIMIT},
    ("D", 59): {*order_fields.RESTRICTIONS_BY_TIME},
    ("8", 54): {*SIDE_CODES.values(), refusals.NO_SIDE},
    ("8", 59): {
        *(*order_fields.RESTRICTIONS_BY_TIME, *board_orders.TIMES_OF_AUCTIONS.values()),
        *(DAY, GOOD_TILL_CANCEL),
    },
    ("8", 39): {*Status},
    ("9", 39): {*Status},
    ("8", 150): {*Exec, Status.NEW, Status.CANCELED, Status.REJECTED, Status.EXPIRED},
    ("8", 103): REASONS,
    ("9", 102): {
        *refusals.CANCEL_REASONS.values(), *board_orders.NOT_CHANGED.values(), OTHER_REASON,
    },
    ("9", 434): {"1", "2"},
    ("q", 530): {requests.OF_ONE, requests.OF_ALL},
    ("AF", 585): {requests.OF_ONE, requests.OF_ALL},
    ("r", 531): {refusals.NOT_CANCELLED, requests.OF_ONE, requests.OF_ALL},
    ("r", 532): {*refusals.MASS_REASONS.values(), OTHER_REASON},
    ("V", 263): {feeds.ONCE, feeds.ON, feeds.OFF},
    ("V", 264): {*feeds.DEPTHS},
    ("V", 265): {feeds.WHOLE, feeds.CHANGES},
    ("V", 269): {*feeds.ENTRY_TYPES},
    ("W", 269): {*feeds.ENTRY_TYPES, feeds.EMPTY[0][1]},
    ("W", 277): {*feeds.TRADE_CONDITIONS.values()},
    ("X", 279): {feeds.UPDATE_NEW, feeds.UPDATE_CHANGE, feeds.UPDATE_DELETE},
    ("Y", 281): {*refusals.DATA_REASONS.values(), "4"},
    ("h", 340): {
        *feeds.PHASE_STATUSES.values(),
        *(feeds.PHASE_UNKNOWN, feeds.PHASE_HALTED, refusals.PHASE_REFUSED),
    },
    ("h", 625): {*feeds.OF_AUCTION.values(), feeds.AFTER},
    ("h", 567): {"1", OTHER_REASON},
    ("x", 559): {requests.LIST_OF_ONE, requests.LIST_OF_ALL},
    ("y", 560): {"0", refusals.INVALID, refusals.NO_INSTRUMENT},
    ("j", 380): {"3", seats.NOT_ALLOWED},
}
"""The values that tags may have, as the code has them."""


@pytest.mark.parametrize("kind, tag", EXPECTED)
def test_the_values_of_a_tag(page: MessagesPage, kind: str, tag: int) -> None:
    assert page.values(kind, tag) == EXPECTED[kind, tag]

"""The order of tags in what the venue sends in a day, live and again: that of its own dictionary
where the standard has one, at the begin and the end of a message and in groups.
"""
import pathlib
from xml.etree import ElementTree

import fixing
import pytest
import served
from callauction.fix import dictionaries
from fix_messages import ALL, TIME, answer, order, whole
from fixing import FixFields, Peer

BEGIN, END = (8, 9, 35), 10
TIMES = (52, 60, 122)
"""Tags of times, which are to a millisecond."""
AGAIN = {"3", "4", "8", "9", "j", "r", "y", "AE"}
"""The types of messages that are sent again."""
LIVE = AGAIN - {"4"} | {"A", "0", "h", "W", "X", "Y"}


class HearingPeer(Peer):
    """A member, with all that it was sent as it came."""

    def __init__(self, port: int, member: str, begin: bytes) -> None:
        super().__init__(port, member)
        self.begin = begin
        self.raw: list[FixFields] = []

    def whole(self) -> bytes:
        """The next message as it came. Raises Closed, and TimeoutError."""
        found = super().whole()
        self.raw.append(fixing.parsed(found))
        return found

    def enters(self, password: str) -> None:
        """Logs on."""
        self.logon(password, *([(1137, "9")] if self.begin == b"FIXT.1.1" else []))

    def until_here(self) -> None:
        """Takes all that was said so far."""
        number = self.say("1", [(112, f"t{self.number}")])
        self.take(lambda it: it.get(112) == f"t{number}")


class Dictionary:
    """The tags of messages in their order: of the head, and of each type; groups by their count."""

    def __init__(self, *files: pathlib.Path) -> None:
        self.head: set[int] = set()
        self.types: dict[str, set[int]] = {}
        self.groups: dict[tuple[str, int], list[int]] = {}
        for file in files:
            self._read(ElementTree.parse(file).getroot())

    def _read(self, root: ElementTree.Element) -> None:
        """Takes a file of it."""
        fields = root.iterfind("fields/field")
        numbers = {it.get("name"): int(it.get("number", "")) for it in fields}
        self.head |= {numbers[it.get("name")] for it in root.iterfind("header/field")}
        for message in root.iterfind("messages/message"):
            kind = message.get("msgtype", "")
            self.types[kind] = {numbers[it.get("name")] for it in message}
            for group in message.iterfind("group"):
                tags = [numbers[it.get("name")] for it in group]
                self.groups[kind, numbers[group.get("name")]] = tags

    def check(self, message: FixFields) -> None:
        """Raises AssertionError where a tag is at a wrong place."""
        tags = [tag for tag, _ in message]
        assert (*tags[:3], tags[-1]) == (*BEGIN, END), message
        kind = message[2][1]
        end = next(at for at, tag in enumerate(tags) if at and tag not in self.head)
        assert not self.head & {*tags[end:-1]}, message
        at, last = end, len(tags) - 1
        while at < last:
            assert tags[at] in self.types[kind], message
            known, count = self.groups.get((kind, tags[at]), []), message[at][1]
            begin = at = at + 1
            while at < last and tags[at] in known:
                at += 1
            check_rows(known, tags[begin:at], count)
        assert at == last


def check_rows(known: list[int], tags: list[int], count: str) -> None:
    """Raises AssertionError where rows aren't so many, or not in the order that is known."""
    rows: list[list[int]] = []
    for tag in tags:
        if tag == known[0]:
            rows.append([])
        rows[-1].append(tag)
    assert not known or len(rows) == int(count)
    for row in rows:
        assert row == [it for it in known if it in row]


def trade(venue: served.Served, alice: Peer, bob: Peer, copy: Peer) -> None:
    """A day in which each message is sent that there is."""
    alice.say("V", [(262, "d1"), (263, "1"), (264, "1"), (265, "1"), *ALL])
    alice.say("g", [(335, "p1"), (263, "1")])
    alice.say("x", whole("x"))
    venue.do("start")
    alice.enter("a1", "1", 500, "2.00", (111, "100"))
    bob.enter("b1", "2", 300, "market")
    assert bob.take(lambda it: it.get(11) == "b1")[150] == "0"
    alice.take(lambda it: it[35] == "X" and it.get(269) == "A")
    alice.replace("a1", "a2", "1", 600, "2.10")
    alice.cancel("a9", "a3", "1")
    assert answer(alice, "D", order("a4", "1", "10", (40, "1"), (99, "4")))[35] in "389Xh"
    assert answer(alice, "V", [*whole("V", 267), (267, "1"), (269, "4")])
    alice.say("H", [(11, "a2"), (55, "XYZ"), (54, "1")])
    alice.say("AF", [(584, "s1"), (585, "7")])
    alice.say("E", [(66, "list")])
    venue.do("uncross")
    assert copy.take(lambda it: it[35] == "AE")[571] == "XYZ.4.1"
    alice.take(lambda it: it.get(150) == "F")
    venue.do("start")
    assert bob.take(lambda it: it.get(150) == "F")[32] == "300"
    alice.say("q", [(11, "a5"), (530, "7"), (60, TIME)])
    alice.take(lambda it: it[35] == "r")


@pytest.mark.parametrize("begin", [b"FIX.4.4", b"FIXT.1.1"])
def test_the_order_of_tags(tmp_path: pathlib.Path, begin: bytes) -> None:
    dictionaries.write(tmp_path)
    names = ["FIX44.xml"] if begin == b"FIX.4.4" else ["FIXT11.xml", "FIX50SP2.xml"]
    known = Dictionary(*(tmp_path / it for it in names))
    port, folder = served.free_port(), tmp_path / "venue"
    new = [] if begin == b"FIX.4.4" else ["ALICE", "BOB", "COPY"]
    more = f'copy = "COPY"\nfix50 = {new}\n[fix.sessions]'
    day = fixing.day_of(port, "ALICE", "BOB").replace("[fix.sessions]", more)
    peers = [HearingPeer(port, it, begin) for it in ("ALICE", "BOB", "COPY")]
    with served.served(tmp_path, day) as venue:
        for peer in peers:
            is_copy = peer.member == "COPY"
            peer.enters(venue.operator if is_copy else fixing.token_of(folder, peer.member))
        trade(venue, *peers)
        for peer in peers:
            peer.say("2", [(7, "1"), (16, "0")])
            peer.until_here()
        venue.do("reset", session="COPY")
        peers.append(HearingPeer(port, "COPY", begin))
        peers[-1].enters(venue.operator)
        peers[-1].take(lambda it: it[35] == "AE" and it.get(97) == "Y")
    raw = [it for peer in peers for it in peer.raw]
    for message in raw:
        known.check(message)
    assert {len(value) for it in raw for tag, value in it if tag in TIMES} == {21}
    assert {it[2][1] for it in raw if (43, "Y") not in it} >= LIVE
    assert {it[2][1] for it in raw if (43, "Y") in it} >= AGAIN

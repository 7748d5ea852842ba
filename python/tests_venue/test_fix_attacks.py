"""What a stranger may try at the FIX front, and a member who means no good: bytes that are no
message, Logons of others, gaps that are asked for again and again and never read.
"""
import contextlib
import pathlib
import re
import shutil
import socket
import ssl
import subprocess
import time
from collections.abc import Callable, Iterator

import fixing
import psutil
import pytest
import served
from callauction.fix.wires import ANSWER_SECONDS
from callauction.venue.gates import STUCK_SECONDS
from callauction.venue.passing import IN_VAIN_SECONDS, SLICE
from certificates import certificate
from fixing import IS_REMOVED, SOH, Closed, FixFields, Peer
from patience import TIMED
from served import Served

pytestmark = TIMED

MEGABYTE = 1 << 20
MOST_WAIT = 1.0
"""Seconds that the order of another member waits meanwhile, at most, half of the time."""
MOST_MORE = 96 * MEGABYTE
"""How much more memory a venue may have for a member who reads nothing."""
SMALL = 2048
ORDER_BYTES = 150
"""About how many bytes an order has."""
ORDERS, REQUESTS = 1500, 400
"""Orders of a member, and how often it asks for all reports of them again."""


class Fronted:
    """A venue with a FIX front, and what its folder has."""

    def __init__(self, venue: Served, port: int, folder: pathlib.Path) -> None:
        self.venue, self.port, self.folder = venue, port, folder

    def peer(self, member: str) -> Peer:
        """A member who has logged on."""
        found = Peer(self.port, member)
        found.logon(self.password(member))
        return found

    def password(self, member: str) -> str:
        """The password of a member."""
        return fixing.token_of(self.folder, member)

    def sent(self) -> bytes:
        """What the sessions were sent."""
        return (self.folder / "fix.sent").read_bytes()

    def answered(self, *said: bytes, seconds: float = 5.0) -> bytes:
        """All that is answered to these bytes, until the connection is ended. Raises
        TimeoutError.
        """
        found = b""
        with socket.create_connection(("127.0.0.1", self.port), seconds) as peer:
            with contextlib.suppress(ConnectionError):
                for data in said:
                    peer.sendall(data)
                while block := peer.recv(1 << 16):
                    found += block
        return found


@pytest.fixture
def front(tmp_path: pathlib.Path) -> Iterator[Fronted]:
    """A venue in a call, with two members by FIX, of whom ALICE was on and is off."""
    port = served.free_port()
    with served.served(tmp_path, fixing.day_of(port, "ALICE", "BOB")) as venue:
        found = Fronted(venue, port, tmp_path / "venue")
        venue.do("start")
        first = found.peer("ALICE")
        first.enter("a1", "1", 10, "2.00")
        assert first.take(lambda it: it[35] == "8")[150] == "0"
        first.close()
        yield found


def logon(member: str, *more: tuple[int, str], number: int = 3) -> bytes:
    """A Logon."""
    return fixing.written("A", number, member, [(98, "0"), (108, "30"), *more])


def waits(peer: Peer, count: int = 20) -> float:
    """How long the orders of a member take, half of them no longer."""
    found = []
    for _ in range(count):
        begin = time.monotonic()
        client = f"{peer.member}-{peer.number}"
        peer.enter(client, "2", 1, "3.00")
        peer.take(lambda it: it.get(11) == client)
        found.append(time.monotonic() - begin)
    return sorted(found)[count // 2]


RESET = (141, "Y")
HALVES = (b"8=FIX.4.4" + SOH + b"9=", b"\xff" * 999, b"GET / HTTP/1.1\r\n\r\n")
STRANGERS: dict[str, Callable[[str], bytes]] = {
    "no password": lambda password: logon("ALICE"),
    "wrong password": lambda password: logon("ALICE", (554, "guess")),
    "no text": lambda password: logon("ALICE", (554, "\xff\xfe\x80")),
    "password of another": lambda password: logon("BOB", (554, password)),
    "reset, wrong password": lambda password: logon("ALICE", RESET, (554, "guess"), number=1),
    "unknown CompID": lambda password: logon("EVE", (554, password)),
    "no Logon": lambda password: fixing.written("D", 3, "ALICE", [(554, password)]),
    "another version": lambda password: logon("ALICE", (554, password)).replace(b"4.4", b"4.2"),
    "wrong sum": lambda password: logon("ALICE", (554, password))[:-4] + b"999" + SOH,
    "too long a body": lambda password: b"8=FIX.4.4" + SOH + b"9=99999999" + SOH + b"x" * 99_999,
    "no end": lambda password: b"8=FIX.4.4" + SOH + b"9=5" * 40_000,
    "no number": lambda password: b"8=FIX.4.4" + SOH + b"9=x" + SOH + b"35=A" + SOH + b"10=1" + SOH,
}


@pytest.mark.parametrize("kind", STRANGERS)
def test_strangers_are_sent_nothing(front: Fronted, kind: str) -> None:
    before = front.sent()
    data = STRANGERS[kind](front.password("ALICE"))
    assert front.answered(data, seconds=30.0) == b""
    assert front.sent() == before
    assert waits(front.peer("BOB"), 3) < MOST_WAIT


@pytest.mark.parametrize(
    "fields, text",
    [
        ([(98, "0")], "Required tag missing: 108"),
        ([(98, "1"), (108, "30")], "Value is incorrect (out of range) for this tag: 98"),
        ([(98, "0"), (108, "x")], "Incorrect data format for value: x: 108"),
        ([(98, "0"), (108, "30"), (9999, "Y")], "Invalid tag number: 9999"),
        ([(98, "0"), (108, "30"), (8013, "")], "Tag specified without a value: 8013"),
    ],
)
def test_a_logon_that_can_not_be_taken_is_told_why(
    front: Fronted, fields: FixFields, text: str
) -> None:
    """Where its password is right; then a right one is taken, under the next number."""
    peer = Peer(front.port, "BOB")
    peer.connect()
    peer.say("A", [*fields, (554, front.password("BOB"))])
    assert peer.take(lambda it: True)[58] == text
    with pytest.raises(Closed):
        peer.take(lambda it: False)
    assert peer.logon(front.password("BOB"))[34] == "2"
    assert waits(peer, 3) < MOST_WAIT


NO_RESET = (
    "numbers are kept for the day: log on without ResetSeqNumFlag (ResetOnLogon=N); where yours "
    "are lost, the venue's operator resets the session, and you begin at 1 with an empty store"
)
"""What the Logout says to a Logon that would reset the numbers."""


@pytest.mark.parametrize("number", [1, 3])
def test_who_would_reset_the_numbers_is_told_what_to_do(front: Fronted, number: int) -> None:
    """Under 1, which it expects after that; then its session goes on as it was."""
    before = front.sent()
    data = logon("ALICE", RESET, (554, front.password("ALICE")), number=number)
    found = dict(fixing.parsed(front.answered(data)))
    head = {8: "FIX.4.4", 35: "5", 34: "1", 49: "VENUE", 56: "ALICE"}
    assert found == head | {9: found[9], 10: found[10], 52: found[52], 58: NO_RESET}
    assert front.sent() == before
    again = Peer(front.port, "ALICE")
    again.number = again.expected = 3
    assert again.logon(front.password("ALICE"))[34] == "3"
    assert waits(again, 3) < MOST_WAIT


def test_who_says_much_in_time_is_heard_in_time(front: Fronted) -> None:
    """It isn't held for long as one that says nothing whole is."""
    peer, late = front.peer("BOB"), 0
    for number in range(400):
        begin = time.monotonic()
        peer.enter(f"b{number}", "2", 1, "3.00")
        peer.take(lambda it: it.get(11) == f"b{number}")
        late += time.monotonic() - begin > IN_VAIN_SECONDS
    assert late < 400 * ORDER_BYTES // SLICE // 2


def test_a_long_message_is_heard_in_time(front: Fronted) -> None:
    """It isn't held either: it costs no more than its bytes."""
    peer, begin = front.peer("BOB"), time.monotonic()
    for number in range(5):
        peer.enter(f"b{number}", "2", 1, "3.00", (58, "x" * 65_000))
        assert peer.take(lambda it: it.get(11) == f"b{number}")[39] == "0"
    assert time.monotonic() - begin < 5 * 65_000 // SLICE * IN_VAIN_SECONDS / 4


def test_half_a_message_holds_no_session_open(front: Fronted) -> None:
    """It is no sign that somebody is there, however its bytes come."""
    peer = Peer(front.port, "BOB")
    peer.connect()
    peer.say("A", [(98, "0"), (108, "1"), (554, front.password("BOB"))])
    peer.take(lambda it: it[35] == "A")
    begin = time.monotonic()
    with pytest.raises(Closed):
        peer.socket.sendall(b"8=FIX.4.4" + SOH + b"9=60000" + SOH + b"35=D" + SOH)
        while time.monotonic() < begin + 30.0:
            with contextlib.suppress(TimeoutError):
                peer.take(lambda it: False, 0.1)
            try:
                peer.socket.sendall(b"x" * 99)
            except OSError:
                raise Closed from None


def test_garbage_is_ended_in_time(front: Fronted) -> None:
    beside = front.peer("BOB")
    half = [socket.create_connection(("127.0.0.1", front.port)) for _ in range(40)]
    for number, each in enumerate(half):
        each.sendall(HALVES[number % 3])
    assert waits(beside) < MOST_WAIT
    for each in half:
        each.settimeout(30)
        with contextlib.suppress(ConnectionError):
            assert each.recv(1) == b""
        each.close()
    assert waits(beside) < MOST_WAIT


def test_a_session_is_on_one_connection(front: Fronted) -> None:
    first = front.peer("BOB")
    assert front.answered(logon("BOB", (554, front.password("BOB")), number=2)) == b""
    assert waits(first, 3) < MOST_WAIT
    first.close()
    again = Peer(front.port, "BOB")
    again.number, again.expected, again.sent = first.number, first.expected, first.sent
    again.logon(front.password("BOB"))
    assert waits(again, 3) < MOST_WAIT


def second_logon(front: Fronted, number: int) -> None:
    """A Logon of BOB with the right password, who is on another connection: it is ended without a
    word, as the standard has it of a second one.
    """
    assert front.answered(logon("BOB", (554, front.password("BOB")), number=number)) == b""


def test_who_is_there_no_more_gives_way(front: Fronted) -> None:
    """A connection that says nothing, as one of a machine that was switched off: it is ended soon,
    long before two heartbeats are missed, once its member comes again.
    """
    gone = front.peer("BOB")
    begin = time.monotonic()
    second_logon(front, gone.number)
    gone.socket.settimeout(30.0)
    asked = dict(fixing.parsed(gone.whole()))
    assert (asked[35], asked[34]) == ("1", "2") and asked[112]
    with pytest.raises(Closed):
        gone.whole()
    assert ANSWER_SECONDS - 1.0 < time.monotonic() - begin < 30.0
    again = Peer(front.port, "BOB")
    again.number, again.expected = gone.number, 3
    again.logon(front.password("BOB"))
    assert waits(again, 3) < MOST_WAIT


def test_who_is_there_stays(front: Fronted) -> None:
    first = front.peer("BOB")
    second_logon(front, first.number)
    first.take(lambda it: it[35] == "1")  # and answers
    with pytest.raises(TimeoutError):
        first.take(lambda it: False, 2 * ANSWER_SECONDS)
    assert waits(first, 3) < MOST_WAIT


def refused(front: Fronted, more: FixFields) -> dict[int, str]:
    """What a member is answered to an order with these fields."""
    peer = front.peer("BOB")
    peer.enter("b1", "1", 10, "2.00", *more)
    return peer.take(lambda it: it[35] in "389j")


@pytest.mark.parametrize("tag", [81, 110, 152, 99, 20000])
def test_a_tag_that_is_unknown_is_refused(front: Fronted, tag: int) -> None:
    found = refused(front, [(tag, "1")])
    assert (found[35], found[45], found[371]) == ("3", "2", str(tag))


def test_a_party_is_refused_by_the_group_s_count(front: Fronted) -> None:
    """Not by one of its row's tags, which are sent before or after it; orders alone may have one.
    """
    peer = front.peer("BOB")
    parties: list[tuple[int, str]] = [(453, "1"), (448, "DESK"), (447, "D"), (452, "1")]
    peer.say("q", [(11, "q1"), (530, "7"), (60, fixing.stamp()), *parties])
    found = peer.take(lambda it: it[35] in "3r")
    assert (found[35], found[45], found[371], found[373]) == ("3", "2", "453", "2")


@pytest.mark.parametrize("pair", [(59, "3"), (111, "x"), (111, "1.5"), (54, "5")])
def test_values_that_are_not_taken_are_refused(front: Fronted, pair: tuple[int, str]) -> None:
    peer = front.peer("BOB")
    fields = [(11, "b1"), (55, "XYZ"), (54, "1"), (38, "9"), (40, "1"), (60, fixing.stamp())]
    peer.say("D", [it for it in fields if it[0] != pair[0]] + [pair])
    found = peer.take(lambda it: it[35] in "38")
    assert found[35] == "3" or (found[150], found[39], found[37]) == ("8", "8", "NONE")


@pytest.mark.parametrize("kind", [*"89WXYhryER", "AE", "BE"])
def test_other_types_are_refused(front: Fronted, kind: str) -> None:
    peer = front.peer("BOB")
    report: FixFields = [(37, "1"), (17, "x"), (150, "0"), (39, "0"), (55, "XYZ"), (54, "1")]
    report += [(151, "0"), (14, "0"), (6, "0")]
    others: dict[str, FixFields] = {
        "8": report,
        "9": [(37, "1"), (11, "x"), (41, "y"), (39, "0"), (434, "1")],
        "W": [(55, "XYZ"), (268, "1"), (269, "0")],
        "Y": [(262, "x")],
        "X": [(268, "1"), (279, "0")],
        "r": [(37, "1"), (530, "7"), (531, "7")],
        "h": [(336, "XYZ"), (340, "2")],
        "y": [(320, "x"), (322, "y"), (560, "0")],
        "AE": [(571, "x"), (570, "N"), (55, "XYZ"), (32, "1"), (31, "1"), (75, "20261126")],
    }
    others["AE"] += [(60, fixing.stamp()), (552, "1"), (54, "1"), (37, "1")]
    peer.say(kind, others.get(kind, [(58, "x")]))
    found = peer.take(lambda it: it[35] in "3j")
    assert (found[35], found[45], found[372], found[380]) == ("j", "2", kind, "3")
    assert waits(peer, 3) < MOST_WAIT


@pytest.mark.parametrize("kind", [*"89WXYhry", "AE"])
def test_other_types_are_refused_whatever_is_in_them(front: Fronted, kind: str) -> None:
    """By the same answer, once, and what came ahead of its turn after them is taken."""
    peer = front.peer("BOB")
    peer.number = 3
    peer.enter("b1", "1", 10, "2.00")
    asked = dict(fixing.parsed(peer.whole()))
    peer.expected += 1
    assert (asked[35], asked[7]) == ("2", "2")
    peer.socket.sendall(peer.written(kind, 2, [(11, "x"), (9999, "y")], []))
    found = peer.take(lambda it: it[35] in "3j")
    assert (found[35], found[45], found[372], found[380]) == ("j", "2", kind, "3")
    assert found[58] == "Unsupported Message Type"
    assert peer.take(lambda it: it.get(11) == "b1")[150] == "0"
    assert [it[35] for it in peer.got] == ["j", "8"]
    assert waits(peer, 4) < MOST_WAIT


LACKING: list[FixFields] = [[], [(45, "2")], [(45, "2"), (372, "D"), (380, "0"), (9999, "x")]]


@pytest.mark.parametrize("pairs", LACKING)
def test_a_refusal_that_lacks_a_tag_is_not_refused(front: Fronted, pairs: FixFields) -> None:
    peer = front.peer("BOB")
    peer.say("j", pairs)
    assert peer.all() == []
    assert waits(peer, 3) < MOST_WAIT


def test_a_refusal_is_not_refused(front: Fronted) -> None:
    peer = front.peer("BOB")
    peer.say("j", [(45, "1"), (372, "8"), (380, "0")])
    assert peer.all() == []
    assert waits(peer, 3) < MOST_WAIT


def test_a_long_id_is_refused(front: Fronted) -> None:
    peer = front.peer("BOB")
    peer.enter("b" * 65, "1", 10, "2.00")
    assert peer.take(lambda it: it[35] == "8")[58] == "ClOrdID has at most 64 letters"
    peer.enter("\xff" * 64, "1", 10, "2.00")
    assert peer.take(lambda it: it[35] == "8")[11] == "\xff" * 64


def test_a_wrong_sum_is_passed_over_and_asked_for_again(front: Fronted) -> None:
    peer = front.peer("BOB")
    number = peer.number
    spoiled = fixing.written("D", number, "BOB", [(11, "b1")])
    peer.socket.sendall(spoiled[:-4] + b"%03d" % ((int(spoiled[-4:-1]) + 1) % 256) + SOH)
    order: FixFields = [(11, "b1"), (55, "XYZ"), (54, "1")]
    pairs = [*order, (60, fixing.stamp()), (38, "5"), (40, "1")]
    peer.number, peer.sent[number] = number + 1, ("D", pairs)
    peer.enter("b2", "1", 6, "2.00")
    assert peer.take(lambda it: it[35] == "8")[11] == "b1"
    assert peer.take(lambda it: it[35] == "8")[11] == "b2"


def test_a_removed_member_is_off(front: Fronted) -> None:
    peer = front.peer("BOB")
    front.venue.do("remove", member="BOB")
    assert peer.take(lambda it: it[35] == "5")[58] == IS_REMOVED
    with pytest.raises(Closed):
        peer.take(lambda it: False, 20.0)
    number = peer.number
    assert front.answered(logon("BOB", (554, front.password("BOB")), number=number)) == b""
    code = front.venue.do("readmit", member="BOB")["code"]
    again = Peer(front.port, "BOB")
    again.number, again.expected, again.sent = number, peer.expected, peer.sent
    again.logon(front.venue.join("", code))
    assert waits(again, 3) < MOST_WAIT


def test_who_reads_nothing_holds_up_nobody(front: Fronted) -> None:
    slow, beside = front.peer("BOB"), Peer(front.port, "ALICE")
    for number in range(ORDERS):
        slow.enter(f"b{number}", "2", 1, "3.00")
        if number % 50 == 49:
            slow.take(lambda it: it.get(11) == f"b{number}")
    beside.number, beside.expected = 3, 3
    beside.logon(front.password("ALICE"))
    process = psutil.Process(front.venue.child.pid)
    before, most = process.memory_info().rss, 0
    slow.socket.setsockopt(socket.SOL_SOCKET, socket.SO_RCVBUF, SMALL)
    asked = b"".join(
        fixing.written("2", slow.number + it, "BOB", [(7, "1"), (16, "0")])
        for it in range(REQUESTS)
    )
    slow.socket.settimeout(2 * STUCK_SECONDS)
    slow.socket.sendall(asked)
    last = time.monotonic() + 2 * STUCK_SECONDS
    while is_on(process, front.port, slow.socket):
        assert waits(beside, 5) < MOST_WAIT and time.monotonic() < last
        most = max(most, process.memory_info().rss)
        time.sleep(0.5)
    assert most < before + MOST_MORE
    assert waits(beside) < MOST_WAIT


def is_on(process: psutil.Process, port: int, peer: socket.socket) -> bool:
    """Whether the venue still has this connection."""
    own = peer.getsockname()
    return any(
        it.laddr.port == port and it.raddr and it.raddr[:2] == own and it.status == "ESTABLISHED"
        for it in process.connections()
    )


def test_members_by_fix_need_tls_where_it_is_on(tmp_path: pathlib.Path) -> None:
    port, words = served.free_port(), certificate(tmp_path, "first")
    context = ssl.create_default_context(cafile=words[1])
    context.check_hostname = False
    with served.served(tmp_path, fixing.day_of(port, "ALICE"), *words):
        password = fixing.token_of(tmp_path / "venue", "ALICE")
        plain = Peer(port, "ALICE")
        with pytest.raises((Closed, TimeoutError)):
            plain.logon(password)
        assert Peer(port, "ALICE", context).logon(password)[35] == "A"


def said_of(folder: pathlib.Path, day: str, **more: str) -> tuple[int, str]:
    """The status and the standard error of a venue that can't begin."""
    (folder / "day.toml").write_text(day, "utf-8")
    words = served.words_of("--day", folder / "day.toml", "--port", 0)
    environment = served.environment(**more)
    ran = subprocess.run(words, env=environment, capture_output=True, text=True, timeout=60)
    return ran.returncode, ran.stderr


def test_others_could_read_along(tmp_path: pathlib.Path) -> None:
    day = fixing.day_of(9878, "ALICE").replace("127.0.0.1", "0.0.0.0")
    text = "fix: 0.0.0.0 is reached from other machines: --tls-cert and --tls-key"
    assert said_of(tmp_path, day) == (2, f"venue: {text}\n")


def test_the_module_is_missing(tmp_path: pathlib.Path) -> None:
    package = pathlib.Path(served.environment()["PYTHONPATH"], "callauction")
    ignored = shutil.ignore_patterns("_quickfix.*", "__pycache__")
    shutil.copytree(package, tmp_path / "callauction", ignore=ignored)
    without = {"PYTHONPATH": str(tmp_path), "CALLAUCTION_FIX": ""}
    status, text = said_of(tmp_path, fixing.day_of(9878, "ALICE"), **without)
    assert status == 2
    assert re.fullmatch(
        r"venue: \[fix\] needs the module of QuickFIX: the package callboard-fix has it, or "
        r"apt-get install [a-z0-9 +-]+, then python3 -m callauction\.fix\.build\n",
        text,
    )


@pytest.mark.parametrize(
    "old, new, text",
    [
        ("ALICE =", '"A B" =', "fix: sessions: 'A B' is no CompID"),
        ("ALICE =", "VENUE =", "fix: sessions: 'VENUE' is the venue's own CompID"),
        ('= "ALICE"', '= ""', "fix: sessions: names '' is empty"),
        ('= "ALICE"', '= "Teacher"', "fix: names 'Teacher' can't be read, or is a role's name"),
        (
            '= "ALICE"',
            '= "BOB"',
            "fix: sessions: 'BOB' has the member 'BOB', as 'ALICE' has: each member has one CompID",
        ),
        ('ALICE = "ALICE"\nBOB = "BOB"', "", "fix: sessions has no CompID"),
        ("127.0.0.1:9878", "9878", "fix: address '9878' isn't a text that may be here"),
        ("127.0.0.1:9878", "127.0.0.1:99999", "fix: address '127.0.0.1:99999' is none such as "),
    ],
)
def test_bad_tables(tmp_path: pathlib.Path, old: str, new: str, text: str) -> None:
    day = fixing.day_of(9878, "ALICE", "BOB")
    assert old in day
    status, found = said_of(tmp_path, day.replace(old, new))
    assert status == 1 and text in found, found

"""Messages of a client that are missing, again and again, and those that are too long."""
import pathlib
import time
from collections.abc import Callable

import fixing
import psutil
import pytest
import served
from acceptors import Asking
from fix_messages import order, picked
from fix_venues import killable, on
from fixing import Closed, FixFields, FixMessage, Peer

MOST = 65536
"""Bytes of a message's body, by the document."""
TOO_LONG = f"BodyLength (9) is a number of at most {MOST}"
AGAIN = [(43, "Y"), (122, "20260102-09:00:00")]
FILLED = "it came ahead of its turn, and a gap came in its place: it isn't executed"
"""What a client is told of a command that it has filled a gap over."""
MOST_AHEAD = 1 << 20
"""Bytes of what came ahead of its turn on a connection, with which no more is kept."""
LETTERS, FLOOD, MOST_GROWTH = 60_000, 40_000, 32 << 20
"""Letters of a long message; how many small ones may fill memory, and how much is none."""


def asked(found: list[FixMessage]) -> list[tuple[str, ...]]:
    """What was asked for again."""
    return [picked(it, 7, 16) for it in found if it[35] == "2"]


def is_asked(asking: Asking, number: int, head: fixing.FixFields = []) -> list[tuple[str, ...]]:
    """What is asked for as a client says a message of this number."""
    text = fixing.written("0", number, "HOLES", [], head)
    asking.engine.feed(asking.number, text)
    found = b"".join(data for _, data, *_ in asking.engine.outgoing())
    texts = found.replace(b"\x018=FIX", b"\x01\n8=FIX").split(b"\n")
    return asked([dict(fixing.parsed(it)) for it in texts if it])


def fill(asking: Asking, number: int, end: int) -> None:
    """Fills a gap up to a number."""
    pairs = [(123, "Y"), (36, str(end))]
    asking.engine.feed(asking.number, fixing.written("4", number, "HOLES", pairs, AGAIN[:1]))
    assert asking.engine.outgoing() == []


def test_a_gap_after_one_that_was_filled(tmp_path: pathlib.Path) -> None:
    """It is asked for like the first one, at once and once."""
    asking = Asking(tmp_path)
    asking.begin()
    assert is_asked(asking, 5) == [("2", "0")]
    assert is_asked(asking, 6) == []  # what was asked for is on its way
    fill(asking, 2, 7)
    assert is_asked(asking, 8) == [("7", "0")]
    assert is_asked(asking, 9) == []
    fill(asking, 7, 10)
    assert is_asked(asking, 10) == []
    assert is_asked(asking, 12) == [("11", "0")]


def test_a_gap_in_what_is_sent_again(tmp_path: pathlib.Path) -> None:
    """It is asked for from there, once."""
    asking = Asking(tmp_path)
    asking.begin()
    assert is_asked(asking, 6) == [("2", "0")]
    assert is_asked(asking, 2, AGAIN) == []
    assert is_asked(asking, 4, AGAIN) == [("3", "0")]
    assert is_asked(asking, 5, AGAIN) == []
    assert is_asked(asking, 7) == []
    assert is_asked(asking, 3, AGAIN) == []
    assert is_asked(asking, 8) == []


def test_an_order_behind_a_second_gap(tmp_path: pathlib.Path) -> None:
    """Its client is asked for what is missing, and all is entered in its order."""
    port, folder = served.free_port(), tmp_path / "venue"
    with served.served(tmp_path, fixing.day_of(port, "ALICE")) as venue:
        venue.do("start")
        peer = Peer(port, "ALICE")
        peer.number = 3  # 1 and 2 are missing, and come as a gap
        peer.logon(fixing.token_of(folder, "ALICE"))
        peer.take(lambda it: it[35] == "2")
        lost = peer.number
        peer.sent[lost] = ("D", order("a1", "1", "10", (40, "2"), (44, "2.00")))
        peer.number += 1
        peer.enter("a2", "1", 10, "2.00")
        peer.take(lambda it: it.get(11) == "a2")
        assert [picked(it, 11, 17) for it in peer.got] == [("a1", "XYZ.1"), ("a2", "XYZ.2")]


@pytest.mark.parametrize("is_gap_fill", ["Y", "N"])
def test_a_gap_over_messages_that_came_before_it(tmp_path: pathlib.Path, is_gap_fill: str) -> None:
    """They came ahead of their turn and aren't done: their client is told so, also once more where
    the venue was killed meanwhile.
    """
    port, folder = served.free_port(), tmp_path / "venue"
    with killable(tmp_path, fixing.day_of(port, "ALICE")) as day:
        peer = Peer(port, "ALICE")
        peer.logon(fixing.token_of(folder, "ALICE"))
        peer.enter("a1", "1", 10, "2.00")
        peer.take(lambda it: it.get(11) == "a1")
        peer.number += 1  # 3 is missing
        peer.enter("a2", "2", 20, "3.00")
        peer.replace("a1", "a3", "1", 15, "2.01")
        peer.cancel("a1", "a4", "1")
        peer.say("q", [(11, "a5"), (530, "7"), (60, fixing.stamp())])
        peer.say("H", [(11, "a1"), (55, "XYZ"), (54, "1")])
        peer.socket.sendall(peer.written("4", 3, [(123, is_gap_fill), (36, "9")], AGAIN[:1]))
        peer.number = 9
        peer.cancel("a1", "a6", "1")
        cancelled = peer.take(lambda it: it.get(11) == "a6")
        assert picked(cancelled, 35, 150, 39, 41, 14) == ("8", "4", "4", "a1", "0")
        found = {it[11]: it for it in peer.got[1:-1]}
        assert found.keys() == {"a2", "a3", "a4", "a5"}
        entered = ("8", "R.ALICE.4", "8", "8", "XYZ", "2", "20", "99", FILLED)
        assert picked(found["a2"], 35, 17, 150, 39, 55, 54, 38, 103, 58) == entered
        for client, number, to in (("a3", "5", "2"), ("a4", "6", "1")):
            kept = ("9", f"R.ALICE.{number}", "XYZ.1", "a1", "0", to, "99", FILLED)
            assert picked(found[client], 35, 20001, 37, 41, 39, 434, 102, 58) == kept
        refused = ("r", "R.ALICE.7", "0", "99", "0", FILLED)
        assert picked(found["a5"], 35, 37, 531, 532, 533, 58) == refused
        peer.sent = {number: ("0", []) for number in peer.sent}
        day.again()
        peer.logon(fixing.token_of(folder, "ALICE"))
        assert peer.all() == []


def test_an_order_over_which_a_gap_was_filled_may_be_sent_anew(tmp_path: pathlib.Path) -> None:
    """Its client knows that it isn't done, and may have it done: under its ClOrdID too."""
    port, folder = served.free_port(), tmp_path / "venue"
    with killable(tmp_path, fixing.day_of(port, "ALICE")) as day:
        peer = Peer(port, "ALICE")
        peer.logon(fixing.token_of(folder, "ALICE"))
        peer.number = 3  # 2 is missing
        for client in ("a1", "a2", "a3"):
            peer.enter(client, "1", 10, "2.00")
        peer.socket.sendall(peer.written("4", 2, [(123, "Y"), (36, "6")], AGAIN[:1]))
        peer.take(lambda it: it.get(11) == "a3")
        assert [picked(it, 11, 150, 58) for it in peer.got] == [
            (client, "8", FILLED) for client in ("a1", "a2", "a3")
        ]
        orders = {it: pairs for it, (_, pairs) in peer.sent.items()}
        peer.sent = {}
        heads: dict[int, FixFields] = {3: [(97, "Y")], 4: []}
        for number, head in heads.items():
            peer.say("D", orders[number], head)
            assert peer.take(lambda it: it[35] == "8")[150] == "0"
        day.again()
        peer.logon(fixing.token_of(folder, "ALICE"))
        peer.say("D", orders[5], [(97, "Y")])
        assert peer.take(lambda it: it.get(11) == "a3")[150] == "0"


def said(asking: Asking) -> list[tuple[str, ...]]:
    """The orders that were said since: their numbers, their ids, and whether a gap is in their
    place.
    """
    found = [given for _, given, _ in asking.engine.said() if given[35] == "D"]
    return [picked(it, 34, 11, 123) for it in found]


def say(
    asking: Asking, number: int, client: str, head: FixFields = [], *more: tuple[int, str]
) -> None:
    """A client says an order under this number; what it is answered is left out."""
    pairs = [*order(client, "1", "10", (40, "1")), *more]
    asking.engine.feed(asking.number, fixing.written("D", number, "HOLES", pairs, head))
    asking.engine.outgoing()
    asking.engine.events()
    asking.engine.stored()


def test_what_came_twice_is_done_once(tmp_path: pathlib.Path) -> None:
    """What came ahead of its turn and again in it isn't refused by a gap over what follows it, also
    where that has numbers that came already.
    """
    asking = Asking(tmp_path)
    asking.begin()
    for number in (3, 4, 5):  # 2 is missing
        say(asking, number, f"a{number}")
    for number in (2, 3):
        say(asking, number, f"a{number}", AGAIN)
    assert said(asking) == [(f"{number}", f"a{number}", "") for number in (2, 3, 4, 5)]
    say(asking, 7, "a7")  # 6 is missing
    for number in (6, 4, 3):
        say(asking, number, f"a{number}", AGAIN)
    fill(asking, 8, 12)
    assert said(asking) == [("6", "a6", ""), ("7", "a7", "")]


def test_what_came_last_under_a_number_is_told(tmp_path: pathlib.Path) -> None:
    """That would be done, and not what came before it."""
    asking = Asking(tmp_path)
    asking.begin()
    for client in ("first", "last"):
        say(asking, 4, client)
    fill(asking, 2, 5)
    assert said(asking) == [("4", "last", "Y")]


@pytest.mark.parametrize("head", [[], AGAIN])
def test_how_much_is_kept_ahead_of_its_turn(tmp_path: pathlib.Path, head: FixFields) -> None:
    """What comes after that is asked for again once what is before it was taken, and all is taken
    once and in its order.
    """
    asking, last = Asking(tmp_path), 102
    asking.begin()
    for number in range(3, last + 1):  # 2 is missing
        say(asking, number, f"a{number}", head, (58, "x" * LETTERS))
    fill(asking, 2, 3)
    found = said(asking)
    assert MOST_AHEAD < len(found) * (LETTERS + 2048) and (len(found) - 1) * LETTERS < MOST_AHEAD
    first = 3 + len(found)
    assert asking.engine.expected(asking.session) == first
    assert is_asked(asking, last + 1) == [(str(first), "0")]
    for number in range(first, last + 1):
        say(asking, number, f"a{number}", AGAIN, (58, "x" * LETTERS))
    found += said(asking)
    assert found == [(f"{number}", f"a{number}", "") for number in range(3, last + 1)]
    assert asking.engine.expected(asking.session) == last + 1


def over_gaps(asking: Asking) -> None:
    """Orders ahead of their turn, over each of which a gap is filled."""
    for number in range(2, 2 + 2 * FLOOD, 2):
        say(asking, number + 1, "a")
        gap = [(123, "Y"), (36, str(number + 2))]
        asking.engine.feed(asking.number, fixing.written("4", number, "HOLES", gap))
        asking.engine.said()


def refused_ahead(asking: Asking) -> None:
    """Orders ahead of their turn that are refused where they come again."""
    for number in range(3, 3 + FLOOD):
        say(asking, number, "a", [], (9999, "x"))


def long_ahead(asking: Asking) -> None:
    """Long orders ahead of their turn."""
    for number in range(3, 3 + FLOOD // 20):
        say(asking, number, "a", AGAIN if number % 2 else [], (58, "x" * LETTERS))


@pytest.mark.parametrize("flood", [over_gaps, refused_ahead, long_ahead])
def test_what_comes_ahead_of_its_turn_fills_no_memory(
    tmp_path: pathlib.Path, flood: Callable[[Asking], None]
) -> None:
    asking = Asking(tmp_path)
    asking.begin()
    before = psutil.Process().memory_info().rss
    flood(asking)
    assert psutil.Process().memory_info().rss - before < MOST_GROWTH
    assert asking.engine.is_logged_on(asking.session)


def test_a_long_message(tmp_path: pathlib.Path) -> None:
    """Up to the bound it is one as others are."""
    port = served.free_port()
    with on(tmp_path, fixing.day_of(port, "ALICE"), port, "ALICE") as (venue, [peer]):
        venue.do("start")
        for letters in (15_000, 30_000, 65_000):
            peer.enter(f"a{letters}", "1", 10, "2.00", (58, "x" * letters))
            assert peer.take(lambda it: it.get(11) == f"a{letters}")[39] == "0"


@pytest.mark.parametrize("length", [b"65537", b"99999999", b"9" * 30, b"-5", b"x"])
def test_a_message_that_is_too_long(tmp_path: pathlib.Path, length: bytes) -> None:
    """It ends the connection at once, with a word; its number is expected on."""
    port, folder = served.free_port(), tmp_path / "venue"
    with on(tmp_path, fixing.day_of(port, "ALICE"), port, "ALICE") as (venue, [peer]):
        venue.do("start")
        before = time.monotonic()
        peer.socket.sendall(b"8=FIX.4.4\x019=" + length + b"\x0135=D\x01")
        assert peer.take(lambda it: it[35] == "5")[58] == TOO_LONG
        with pytest.raises(Closed):
            peer.whole()
        assert time.monotonic() - before < served.SECONDS / 10
        peer.close()
        peer.logon(fixing.token_of(folder, "ALICE"))
        peer.enter("a1", "1", 10, "2.00")
        assert peer.take(lambda it: it.get(11) == "a1")[39] == "0"


def test_a_length_that_is_wrong(tmp_path: pathlib.Path) -> None:
    """What comes where it ends is no end: the connection is ended, with a word."""
    port = served.free_port()
    with on(tmp_path, fixing.day_of(port, "ALICE"), port, "ALICE") as (_, [peer]):
        peer.socket.sendall(b"8=FIX.4.4\x019=10\x0135=D\x0158=" + b"x" * (MOST + 2048))
        assert "has no end" in peer.take(lambda it: it[35] == "5")[58]

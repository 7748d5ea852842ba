"""A ResendRequest for many messages: it is answered in parts, beside others, and nothing comes
between them.
"""
import contextlib
import pathlib
import statistics
import time

import fixing
import pytest
import served
from acceptors import Speaker
from callauction.fix import settings
from callauction.fix.tags import FIX44
from fix_venues import on
from fixing import Peer
from patience import TIMED

ORDERS = 3000
MOST_WAIT = 0.25
"""Seconds that an order of another session waits meanwhile, half of the time."""


def many(peer: Peer) -> None:
    """Orders that are answered."""
    for number in range(ORDERS):
        peer.enter(f"b{number}", "1", 1, "2.00")
        if number % 50 == 49:
            peer.take(lambda it: it.get(11) == f"b{number}")


def numbers(peer: Peer, last: int) -> list[tuple[int, bool, str]]:
    """The numbers of what comes up to one: with whether they come again, and of which type."""
    found: list[tuple[int, bool, str]] = []
    while not found or found[-1][0] < last:
        given = dict(fixing.parsed(peer.whole()))
        found.append((int(given[34]), given.get(43) == "Y", given[35]))
        if given[35] == "4":
            found[-1] = (int(given[36]) - 1, True, "4")
    return found


def test_all_comes_again_in_its_order_and_then_what_is_new(tmp_path: pathlib.Path) -> None:
    port = served.free_port()
    with on(tmp_path, fixing.day_of(port, "ALICE"), port, "ALICE") as (venue, [peer]):
        venue.do("start")
        many(peer)
        last = peer.expected - 1
        peer.say("2", [(7, "1"), (16, "0")])
        peer.enter("later", "1", 1, "2.00")
        found = numbers(peer, last)
        assert [it[0] for it in found] == [1, *range(2, last + 1)]
        assert all(is_again for _, is_again, _ in found)
        assert [kind for _, _, kind in found[1:]] == ["8"] * (last - 1)
        answer = dict(fixing.parsed(peer.whole()))
        assert (answer[34], answer[11], answer.get(43)) == (str(last + 1), "later", None)


def test_what_is_asked_twice_comes_twice(tmp_path: pathlib.Path) -> None:
    port = served.free_port()
    with on(tmp_path, fixing.day_of(port, "ALICE"), port, "ALICE") as (venue, [peer]):
        venue.do("start")
        many(peer)
        last = peer.expected - 1
        for begin in (100, 2000):
            peer.say("2", [(7, str(begin)), (16, str(begin + 999))])
        for begin in (100, 2000):
            assert [it[0] for it in numbers(peer, begin + 999)] == [*range(begin, begin + 1000)]
        peer.say("1", [(112, "there")])
        assert peer.take(lambda it: it[35] == "0" and it.get(112) == "there")[34] == str(last + 1)


def test_one_whose_sum_is_wrong_is_passed_over(tmp_path: pathlib.Path) -> None:
    port = served.free_port()
    with on(tmp_path, fixing.day_of(port, "ALICE"), port, "ALICE") as (venue, [peer]):
        venue.do("start")
        many(peer)
        right = fixing.written("2", peer.number, "ALICE", [(7, "1"), (16, "0")])
        peer.socket.sendall(right[:-4] + b"%03d" % ((int(right[-4:-1]) + 1) % 256) + right[-1:])
        peer.say("1", [(112, "there")])
        answer = dict(fixing.parsed(peer.whole()))
        assert (answer[35], answer[112], answer.get(43)) == ("0", "there", None)


@TIMED
def test_others_wait_little_meanwhile(tmp_path: pathlib.Path) -> None:
    port = served.free_port()
    with on(tmp_path, fixing.day_of(port, "ALICE", "BOB"), port, "ALICE", "BOB") as (venue, both):
        alice, bob = both
        venue.do("start")
        many(alice)
        alice.socket.settimeout(0.0)
        alice.say("2", [(7, "1"), (16, "0")])
        waits: list[float] = []
        taken = b""
        while b"\x0134=%d\x01" % (alice.expected - 1) not in taken[-400:]:
            begin = time.monotonic()
            bob.enter(f"o{len(waits)}", "2", 1, "3.00")
            bob.take(lambda it: it.get(11) == f"o{len(waits)}")
            waits.append(time.monotonic() - begin)
            with contextlib.suppress(BlockingIOError):
                while block := alice.socket.recv(1 << 16):
                    taken += block
        assert len(waits) >= 10 and statistics.median(waits) < MOST_WAIT, waits


def test_one_that_takes_longer_than_a_message_may(
    tmp_path: pathlib.Path, monkeypatch: pytest.MonkeyPatch
) -> None:
    """The request is as old then as QuickFIX lets none be."""
    monkeypatch.setattr(settings, "DEFAULT_SETTINGS", settings.DEFAULT_SETTINGS + "MaxLatency=1\n")
    peer, count = Speaker(tmp_path, FIX44), 600
    for number in range(count):
        peer.engine.send(peer.session, "8", [(17, f"XYZ.{number}"), (58, "x" * 200)])
    peer.heard()
    is_left = peer.engine.feed(peer.connection, peer.written("2", [(7, "1"), (16, "0")]))
    found = peer.heard()
    assert is_left and len(found) < count
    time.sleep(2.1)
    while peer.engine.feed(peer.connection, b""):
        found += peer.heard()
    found += peer.heard()
    assert not peer.is_closed
    assert [it[17] for it in found if it[35] == "8"] == [f"XYZ.{it}" for it in range(count)]
    assert {it[43] for it in found} == {"Y"}

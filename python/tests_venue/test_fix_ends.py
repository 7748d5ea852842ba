"""How sessions by FIX end: what their last message says is so, and it comes after all else. What a
client says after the venue's last message is done once and told, or asked for again.
"""
import collections
import concurrent.futures
import contextlib
import pathlib
import time

import fixing
import psutil
import pytest
import served
from callauction.fix.connections import LOGOUT_SECONDS
from callauction.fix.resets import LEAVE_SECONDS
from fix_venues import day_with_copy, on, reset, until_logged
from fixing import IS_REMOVED, Closed, FixFields, FixMessage, Peer
from hanging import ends_in_time
from patience import TIMED

ORDERS = 100
IS_RESET = "the operator resets this session: begin at 1 with an empty store"


def last_of(peer: Peer) -> list[FixMessage]:
    """What comes until the Logout, and that."""
    found: list[FixMessage] = []

    def is_last(given: FixMessage) -> bool:
        found.append(given)
        return given[35] == "5"

    peer.take(is_last)
    return found


def test_the_end_of_the_venue(tmp_path: pathlib.Path) -> None:
    """Also a member who has heard nothing since its Logon is told so, and the copy."""
    port = served.free_port()
    with on(tmp_path, day_with_copy(port, "ALICE", "BOB"), port, "ALICE", "BOB") as (venue, peers):
        copy = Peer(port, "COPY")
        copy.logon(venue.operator)
        venue.do("start")
        peers[0].enter("a1", "1", 10, "2.00")
        peers[0].take(lambda it: it.get(11) == "a1")
        venue.child.terminate()
        for peer in (copy, *peers):
            assert [(it[35], it[58]) for it in last_of(peer)] == [
                ("5", "the venue ends: what was answered stays")
            ]
        venue.child.wait(served.SECONDS)


def test_a_removed_member_is_told_of_its_orders_first(tmp_path: pathlib.Path) -> None:
    port = served.free_port()
    with on(tmp_path, fixing.day_of(port, "ALICE"), port, "ALICE") as (venue, [peer]):
        venue.do("start")
        for client in ("a1", "a2"):
            peer.enter(client, "1", 10, "2.00")
            peer.take(lambda it: it.get(11) == client)
        venue.do("remove", member="ALICE")
        *reports, last = last_of(peer)
        assert [(it[11], it[150]) for it in reports] == [("a1", "4"), ("a2", "4")]
        assert (last[35], last[58]) == ("5", IS_REMOVED)


def test_a_logout_is_answered_after_what_was_said_before(tmp_path: pathlib.Path) -> None:
    """All in one block of bytes."""
    port = served.free_port()
    with on(tmp_path, fixing.day_of(port, "ALICE"), port, "ALICE") as (venue, [peer]):
        venue.do("start")
        price = [(60, fixing.stamp()), (38, "1"), (40, "2"), (44, "2.00")]
        said = [
            fixing.written("D", it, "ALICE", [(11, f"a{it}"), (55, "XYZ"), (54, "1"), *price])
            for it in range(peer.number, peer.number + ORDERS)
        ]
        peer.socket.sendall(b"".join(said) + fixing.written("5", peer.number + ORDERS, "ALICE", []))
        *reports, last = last_of(peer)
        assert [(it[11], it[150]) for it in reports] == [
            (f"a{it}", "0") for it in range(peer.number, peer.number + ORDERS)
        ]
        assert last[34] == str(int(reports[-1][34]) + 1)


@TIMED
def test_a_logout_does_not_wait_for_a_program_that_hangs(tmp_path: pathlib.Path) -> None:
    port = served.free_port()
    with on(tmp_path, fixing.day_of(port, "ALICE"), port, "ALICE") as (venue, [peer]):
        venue.do("start")
        [program] = psutil.Process(venue.child.pid).children()
        begin = time.monotonic()
        peer.say("5", [])
        assert [it[35] for it in last_of(peer)] == ["5"]
        assert time.monotonic() - begin < LOGOUT_SECONDS / 2  # nothing was to be answered
        again = Peer(port, "ALICE")
        again.number, again.expected, again.sent = peer.number, peer.expected, peer.sent
        again.logon(fixing.token_of(tmp_path / "venue", "ALICE"))
        program.suspend()
        again.enter("a1", "1", 1, "2.00")
        begin = time.monotonic()
        again.say("5", [])
        assert [it[35] for it in last_of(again)] == ["5"]
        assert LOGOUT_SECONDS / 2 < time.monotonic() - begin < LOGOUT_SECONDS + 2
        program.resume()


def test_a_session_that_is_reset_is_told_so(tmp_path: pathlib.Path) -> None:
    port = served.free_port()
    with on(tmp_path, fixing.day_of(port, "ALICE"), port, "ALICE") as (venue, [peer]):
        with concurrent.futures.ThreadPoolExecutor() as pool:
            answer = pool.submit(reset, venue, "ALICE")
            assert last_of(peer)[-1][58] == IS_RESET
            peer.say("5", [])
            assert answer.result()[0] == 200
        again = Peer(port, "ALICE")
        assert again.logon(fixing.token_of(tmp_path / "venue", "ALICE"))[34] == "1"


def test_one_that_does_not_answer_is_reset_too(tmp_path: pathlib.Path) -> None:
    port = served.free_port()
    with on(tmp_path, fixing.day_of(port, "ALICE"), port, "ALICE") as (venue, [peer]):
        begin = time.monotonic()
        assert reset(venue, "ALICE")[0] == 200
        assert time.monotonic() - begin < 2 * LEAVE_SECONDS
        again = Peer(port, "ALICE")
        assert again.logon(fixing.token_of(tmp_path / "venue", "ALICE"))[34] == "1"


# ---- what comes after the last message


def order(client: str) -> FixFields:
    """A NewOrderSingle."""
    pairs = [(11, client), (55, "XYZ"), (54, "1"), (60, fixing.stamp())]
    return [*pairs, (38, "10"), (40, "2"), (44, "2.00")]


def answered(peer: Peer) -> dict[str, str]:
    """The ExecType of the one report of each order that a client was sent since it began."""
    reports = [it for it in peer.got if it[35] == "8"]
    assert max(collections.Counter(it[11] for it in reports).values(), default=1) == 1
    return {it[11]: it[150] for it in reports}


def is_logged_out(peer: Peer) -> None:
    """A message with another's CompID is refused, and the venue logs the client out."""
    number, peer.number = peer.number, peer.number + 1
    peer.socket.sendall(fixing.written("D", number, "EVE", order("wrong")))
    reject, logout = last_of(peer)
    assert (reject[45], reject[371], logout[35]) == (str(number), "49", "5")


def test_an_order_after_a_logout_is_answered(tmp_path: pathlib.Path) -> None:
    """On the connection as long as that is there, else at the next Logon."""
    port, folder = served.free_port(), tmp_path / "venue"
    with on(tmp_path, fixing.day_of(port, "ALICE"), port, "ALICE") as (venue, [peer]):
        venue.do("start")
        is_logged_out(peer)
        peer.enter("a1", "1", 10, "2.00")
        assert peer.take(lambda it: it.get(11) == "a1")[150] == "0"
        peer.say("5", [])
        with pytest.raises(Closed):
            peer.all()
        peer.logon(fixing.token_of(folder, "ALICE"))
        is_logged_out(peer)
        peer.enter("a2", "1", 10, "2.00")
        until_logged(folder, '"a2"')
        peer.close()
        peer.logon(fixing.token_of(folder, "ALICE"))
        assert peer.take(lambda it: it.get(11) == "a2")[43] == "Y"
        assert peer.all() == [] and answered(peer) == {"a1": "0", "a2": "0"}


def test_an_order_after_the_client_s_logout_is_asked_for_again(tmp_path: pathlib.Path) -> None:
    port, folder = served.free_port(), tmp_path / "venue"
    with on(tmp_path, fixing.day_of(port, "ALICE"), port, "ALICE") as (venue, [peer]):
        venue.do("start")
        number, peer.number = peer.number, peer.number + 2
        peer.sent |= {number: ("5", []), number + 1: ("D", order("late"))}
        said = [(kind, it, pairs) for it, (kind, pairs) in peer.sent.items() if it >= number]
        peer.socket.sendall(b"".join(peer.written(*it, head=[]) for it in said))
        assert [it[35] for it in last_of(peer)] == ["5"]
        with pytest.raises(Closed):
            peer.all()
        assert '"late"' not in (folder / "venue.log").read_text("utf-8")
        peer.logon(fixing.token_of(folder, "ALICE"))
        assert peer.take(lambda it: it.get(11) == "late")[150] == "0"


def test_an_order_of_a_removed_member_is_refused(tmp_path: pathlib.Path) -> None:
    port = served.free_port()
    with on(tmp_path, fixing.day_of(port, "ALICE"), port, "ALICE") as (venue, [peer]):
        venue.do("start")
        venue.do("remove", member="ALICE")
        assert last_of(peer)[-1][58] == IS_REMOVED
        peer.enter("late", "1", 10, "2.00")
        found = peer.take(lambda it: it.get(11) == "late")
        assert (found[150], found[39], found[37]) == ("8", "8", "NONE") and found[58]
        assert '"late"' not in (tmp_path / "venue" / "venue.log").read_text("utf-8")


def test_an_order_after_the_logout_of_a_reset(tmp_path: pathlib.Path) -> None:
    """It is one of those that the journals have: told then, and with 97=Y once both begin at 1."""
    port, folder = served.free_port(), tmp_path / "venue"
    with on(tmp_path, fixing.day_of(port, "ALICE"), port, "ALICE") as (venue, [peer]):
        venue.do("start")
        with concurrent.futures.ThreadPoolExecutor() as pool:
            answer = pool.submit(reset, venue, "ALICE")
            assert last_of(peer)[-1][58] == IS_RESET
            peer.enter("late", "1", 10, "2.00")
            assert peer.take(lambda it: it.get(11) == "late")[17] == "XYZ.1"
            peer.say("5", [])
            assert answer.result()[0] == 200
        again = Peer(port, "ALICE")
        again.logon(fixing.token_of(folder, "ALICE"))
        [found] = again.all()
        assert (found[17], found[11], found[150], found[97]) == ("XYZ.1", "late", "0", "Y")


def test_orders_while_the_venue_ends(tmp_path: pathlib.Path) -> None:
    """Before its Logout and after it: each is executed once and told, most of them at the next
    start.
    """
    port, folder = served.free_port(), tmp_path / "venue"
    day = fixing.day_of(port, "ALICE")
    with on(tmp_path, day, port, "ALICE") as (venue, [peer]):
        venue.do("start")
        clients = [f"a{it}" for it in range(ORDERS)]
        half = iter(clients)
        for _, client in zip(range(ORDERS // 2), half):
            peer.enter(client, "1", 1, "2.00")
        venue.child.terminate()
        last_of(peer)
        for client in half:
            with contextlib.suppress(ConnectionError):
                peer.enter(client, "1", 1, "2.00")
        with contextlib.suppress(Closed):
            peer.all()
        venue.child.wait(served.SECONDS)
    with served.served(tmp_path, day):
        peer.logon(fixing.token_of(folder, "ALICE"))
        if clients[-1] not in answered(peer):
            peer.take(lambda it: it.get(11) == clients[-1])
        assert peer.all() == []
        assert answered(peer) == dict.fromkeys(clients, "0")
        journal = (folder / "XYZ.journal.csv").read_text("latin-1")
        assert journal.count(",enter,") == ORDERS


SHOWS_NOTHING = """#!/bin/sh
case " $* " in *" --journal "*) exec "{program}" "$@" ;; esac
exec sleep 1000
"""
"""A program that hangs where it is to show what an uncross did, as one does for long after a long
day.
"""


@TIMED
def test_an_end_before_it_is_known_what_an_uncross_did(tmp_path: pathlib.Path) -> None:
    """It waits for no program, and leaves none behind; the next start sends the reports."""
    port, program = served.free_port(), tmp_path / "program"
    program.write_text(SHOWS_NOTHING.format(program=served.program()))
    program.chmod(0o755)
    day, alice = fixing.day_of(port, "ALICE"), Peer(port, "ALICE")
    with served.served(tmp_path, day, CALLBOARD=str(program)) as venue:
        alice.logon(fixing.token_of(tmp_path / "venue", "ALICE"))
        venue.do("start")
        for side in "12":
            alice.enter(f"a{side}", side, 10, "2.00")
            alice.take(lambda it: it.get(11) == f"a{side}")
        venue.do("uncross")
        while not [it for it in hanging(venue) if "sleep" in it.name()]:
            time.sleep(0.05)
        hung = hanging(venue)
        assert ends_in_time(venue.child) == (0, "")
        assert not any(it.is_running() for it in hung)
    with served.served(tmp_path, day):
        alice.logon(fixing.token_of(tmp_path / "venue", "ALICE"))
        assert {it[11] for it in alice.all() if it.get(150) == "F"} == {"a1", "a2"}


def hanging(venue: served.Served) -> list[psutil.Process]:
    """The programs that a venue has started."""
    return psutil.Process(venue.child.pid).children()

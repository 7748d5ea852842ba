"""What a session is sent after the operator has reset it and the venue has begun again; and gaps in
place of numbers under which nothing was sent.
"""
import concurrent.futures
import contextlib
import pathlib
import signal
import socket
import threading
import time

import fixing
import psutil
import pytest
import served
from acceptors import Asking
from callauction.fix.resets import RESET_SECONDS
from fix_venues import Killable, killable, reset, until_logged
from fixing import Closed, FixMessage, Peer

OLD_ORDERS, NEW_ORDERS = 12, 3
"""Orders before and after the reset: the old numbers are above the new ones."""
MEMBERS = [f"M{number}" for number in range(40)]


def ended(day: Killable, how: signal.Signals) -> None:
    """Ends the venue by a signal, and begins it again."""
    day.venue.child.send_signal(how)
    day.venue.child.communicate(timeout=served.SECONDS)
    day.venue = served.started(*day.words)


def reported(peer: Peer) -> list[str]:
    """The ids of all reports that a client has had, in their order."""
    return [it[17] for it in peer.got if it[35] == "8"]


@pytest.mark.parametrize("how", [signal.SIGTERM, signal.SIGKILL])
def test_what_came_while_a_session_was_off_after_a_reset(
    tmp_path: pathlib.Path, how: signal.Signals
) -> None:
    """Each report comes once to a client that asks for what it misses and for nothing else, under
    the number after the last one.
    """
    port, folder = served.free_port(), tmp_path / "venue"
    with killable(tmp_path, fixing.day_of(port, "ALICE", "BOB")) as day:
        bob, alice = Peer(port, "BOB"), Peer(port, "ALICE")
        bob.logon(fixing.token_of(folder, "BOB"))
        for number in range(OLD_ORDERS):
            bob.enter(f"b{number}", "2", 10, "2.00")
            bob.enter(f"c{number}", "1", 10, "1.00")
            bob.cancel(f"c{number}", f"d{number}", "1")
        bob.take(lambda it: it.get(11) == f"d{OLD_ORDERS - 1}")
        for number in range(40):  # refused: not sent again after the reset
            bob.cancel("none", f"x{number}", "2")
        bob.take(lambda it: it.get(11) == "x39")
        assert reset(day.venue, "BOB")[0] == 200
        bob = Peer(port, "BOB")
        assert bob.logon(fixing.token_of(folder, "BOB"))[34] == str(3 * OLD_ORDERS + 1)
        bob.all()
        for number in range(NEW_ORDERS):
            bob.enter(f"e{number}", "2", 10, "2.00", (59, "2"))
        bob.take(lambda it: it.get(11) == f"e{NEW_ORDERS - 1}")
        last = bob.expected
        ended(day, how)
        alice.logon(fixing.token_of(folder, "ALICE"))
        alice.enter("a1", "1", 10 * OLD_ORDERS - 5, "2.00")
        alice.take(lambda it: it.get(11) == "a1")
        day.venue.do("uncross")
        alice.take(lambda it: it.get(150) == "F" and it[39] == "2")
        begun = bob.logon(fixing.token_of(folder, "BOB"))
        seen = reported(bob)
        bob.all()
        news = reported(bob)[len(seen) :]
        assert len(news) == OLD_ORDERS + NEW_ORDERS, news
        assert int(begun[34]) == last + (how == signal.SIGTERM) + len(news)
        assert len({*reported(bob)}) == len(reported(bob))
        assert len(reported(bob)) == 4 * OLD_ORDERS + 2 * NEW_ORDERS


def test_a_reset_leaves_nothing_of_the_old_numbers(tmp_path: pathlib.Path) -> None:
    """The file of what was sent has none of them after it, over each end of the venue."""
    port, folder = served.free_port(), tmp_path / "venue"
    with killable(tmp_path, fixing.day_of(port, "BOB")) as day:
        bob = Peer(port, "BOB")
        bob.logon(fixing.token_of(folder, "BOB"))
        for number in range(OLD_ORDERS):
            bob.cancel("none", f"b{number}", "2")
        bob.take(lambda it: it.get(11) == f"b{OLD_ORDERS - 1}")
        for how in (signal.SIGTERM, signal.SIGKILL):
            assert reset(day.venue, "BOB")[0] == 200
            bob = Peer(port, "BOB")
            assert bob.logon(fixing.token_of(folder, "BOB"))[34] == "1"
            ended(day, how)
            assert bob.logon(fixing.token_of(folder, "BOB"))[34] in ("2", "3")


def with_fill(folder: pathlib.Path, day: Killable, port: int) -> Peer:
    """A client that was told of an order of it, of its trade, and of its end."""
    alice = Peer(port, "ALICE")
    alice.logon(fixing.token_of(folder, "ALICE"))
    alice.enter("a1", "1", 10, "2.00", (59, "2"))
    alice.enter("a2", "2", 6, "2.00")
    alice.take(lambda it: it.get(11) == "a2")
    day.venue.do("uncross")
    alice.take(lambda it: it.get(150) == "C")
    return alice


def said_anew(folder: pathlib.Path, port: int) -> dict[str, FixMessage]:
    """What a client that begins at 1 with an empty store is told, by its ids."""
    peer = Peer(port, "ALICE")
    peer.logon(fixing.token_of(folder, "ALICE"))
    peer.all()
    peer.close()
    return {it[17]: it for it in peer.got}


@pytest.mark.parametrize("how", [signal.SIGTERM, signal.SIGKILL])
def test_a_kill_right_after_a_reset(tmp_path: pathlib.Path, how: signal.Signals) -> None:
    """All comes as it would have without: as PossResend, with the time at which it happened."""
    port, folder = served.free_port(), tmp_path / "venue"
    with killable(tmp_path, fixing.day_of(port, "ALICE", sync="true")) as day:
        first = {it[17]: it for it in with_fill(folder, day, port).got}
        assert {*first} == {"XYZ.1", "XYZ.2", "XYZ.3.1b", "XYZ.3.1a", "XYZ.3.x1"}
        for _ in range(3):
            assert reset(day.venue, "ALICE")[0] == 200
            ended(day, how)
            found = said_anew(folder, port)
            assert {event: (it.get(97), it[60]) for event, it in found.items()} == {
                event: ("Y", it[60]) for event, it in first.items()
            }


def test_a_reset_that_was_not_written(tmp_path: pathlib.Path) -> None:
    """What was written for it before the line that says so is nothing, also to a later reset."""
    port, folder = served.free_port(), tmp_path / "venue"
    with killable(tmp_path, fixing.day_of(port, "ALICE", sync="true")) as day:
        peer = with_fill(folder, day, port)
        peer.all()
        assert reset(day.venue, "ALICE")[0] == 200
        day.venue.child.kill()
        day.venue.child.communicate()
        sent = folder / "fix.sent"
        lines = sent.read_text("ascii").splitlines(True)
        assert [it for it in lines if '"kind":"reset"' in it] == lines[-1:]
        sent.write_text("".join(lines[:-2]), "ascii")
        day.venue = served.started(*day.words)
        told = len(peer.got)
        day.venue.do("start")
        peer.logon(fixing.token_of(folder, "ALICE"))  # its numbers go on
        peer.enter("a3", "1", 10, "2.00")
        peer.take(lambda it: it.get(11) == "a3")
        assert len(peer.got) == told + 1
        assert reset(day.venue, "ALICE")[0] == 200
        ended(day, signal.SIGKILL)
        found = said_anew(folder, port)
        assert {*found} == {it[17] for it in peer.got}
        assert len(found) == told + 1 and all(it[97] == "Y" for it in found.values())


def test_a_reset_right_after_a_start(tmp_path: pathlib.Path) -> None:
    """What the start makes again of the journal comes as PossResend too, all of it."""
    port, folder, orders = served.free_port(), tmp_path / "venue", 1500
    with killable(tmp_path, fixing.day_of(port, "ALICE")) as day:
        alice = Peer(port, "ALICE")
        alice.logon(fixing.token_of(folder, "ALICE"))
        for number in range(orders):
            alice.enter(f"a{number}", "1", 10, "2.00")
        alice.take(lambda it: it.get(11) == f"a{orders - 1}")
        alice.close()
        first = {it[17]: it[60] for it in alice.got}
        ended(day, signal.SIGKILL)
        assert reset(day.venue, "ALICE")[0] == 200
        found = said_anew(folder, port)
        assert {event: it[60] for event, it in found.items()} == first
        assert all(it.get(97) == "Y" for it in found.values())


def test_a_reset_before_sessions_begin(tmp_path: pathlib.Path) -> None:
    """It waits for them, as they do for programs that begin slowly."""
    port, folder = served.free_port(), tmp_path / "venue"
    slow = tmp_path / "slow"
    slow.write_text(f'#!/bin/sh\nsleep 2\nexec "{served.program()}" "$@"\n')
    slow.chmod(0o755)
    with killable(tmp_path, fixing.day_of(port, "ALICE", sync="true")) as day:
        with_fill(folder, day, port).close()
        day.venue.child.kill()
        day.venue.child.communicate()
        day.venue = served.started(*day.words, CALLBOARD=str(slow))
        assert reset(day.venue, "ALICE")[0] == 200
        assert all(it.get(97) == "Y" for it in said_anew(folder, port).values())


def test_the_port_opens_once_sessions_are_there(tmp_path: pathlib.Path) -> None:
    """Who has it open finds the passwords, also at the first start."""
    port, folder = served.free_port(), tmp_path / "venue"
    opened: list[bool] = []

    def look() -> None:
        last = time.monotonic() + served.SECONDS
        while not opened and time.monotonic() < last:
            with contextlib.suppress(OSError), socket.create_connection(("127.0.0.1", port), 1.0):
                opened.append(all((folder / f"fix.{it}.token").exists() for it in MEMBERS))

    looking = threading.Thread(target=look)
    looking.start()
    with served.served(tmp_path, fixing.day_of(port, *MEMBERS)):
        looking.join()
    assert opened == [True]


# ---- what waits


@pytest.mark.parametrize("is_on", [True, False])
def test_a_reset_while_messages_wait_for_the_rate(tmp_path: pathlib.Path, is_on: bool) -> None:
    """It drops them, soon, and nothing that was taken: the member is told of that, and goes on, and
    its orders end with its connection where it asked for that.
    """
    port, folder = served.free_port(), tmp_path / "venue"
    day = fixing.day_of(port, "ALICE")
    day = day.replace("rate = 100000\nburst = 100000", "rate = 4\nburst = 9")
    with served.served(tmp_path, day) as venue:
        venue.do("start")
        first = Peer(port, "ALICE")
        first.logon(fixing.token_of(folder, "ALICE"), (8013, "Y"))
        first.enter("a1", "1", 10, "2.00")
        first.take(lambda it: it.get(11) == "a1")
        for number in range(200):
            first.say("AF", [(584, f"s{number}"), (585, "7")])
        first.enter("late", "1", 10, "2.00")
        if not is_on:
            first.take(lambda it: it.get(584) == "s9")
            first.close()
        begin = time.monotonic()
        assert reset(venue, "ALICE")[0] == 200
        assert time.monotonic() - begin < RESET_SECONDS
        second = Peer(port, "ALICE")
        second.logon(fixing.token_of(folder, "ALICE"))
        second.take(lambda it: it.get(150) == "4")
        second.enter("a2", "1", 10, "2.00")
        second.take(lambda it: it.get(11) == "a2")
        told = [(it[17], it[11], it[150]) for it in second.got]
        assert told == [("XYZ.1", "a1", "0"), ("XYZ.2", "a1", "4"), ("XYZ.3", "a2", "0")]
        assert '"late"' not in (folder / "venue.log").read_text("utf-8")
    if is_on:
        with pytest.raises(Closed):
            first.all()
    assert not {"late", "s199"} & {it.get(tag) for it in first.got for tag in (11, 584)}


def test_a_reset_that_an_order_holds_up(tmp_path: pathlib.Path) -> None:
    """Of a program that hangs, and nobody knows that yet: the member is told nothing, what it says
    meanwhile waits, and its session goes on once the reset is refused.
    """
    port, folder = served.free_port(), tmp_path / "venue"
    with killable(tmp_path, fixing.day_of(port, "ALICE")) as day:
        [program] = psutil.Process(day.venue.child.pid).children()
        alice = Peer(port, "ALICE")
        alice.logon(fixing.token_of(folder, "ALICE"))
        program.suspend()
        alice.enter("a1", "1", 10, "2.00")
        until_logged(folder, '"11":"a1"')
        with concurrent.futures.ThreadPoolExecutor(1) as pool:
            answer = pool.submit(reset, day.venue, "ALICE")
            assert alice.all() == []
            alice.enter("a2", "1", 10, "2.00")
            assert alice.all() == [] and not answer.done()
            text = "XYZ hasn't answered all that it said: resume what has halted first"
            refusal = {"error": "halted", "text": f"ALICE isn't reset: {text}"}
            assert answer.result() == (503, refusal)
        day.venue.do("resume")
        found = {it[11]: it[150] for it in (alice.take(lambda it: it[35] == "8") for _ in "12")}
        assert found.keys() == {"a1", "a2"} and found["a1"] == "0"
        assert reset(day.venue, "ALICE")[0] == 200


# ---- numbers under which nothing was sent


def told(given: list[FixMessage]) -> list[tuple[str, ...]]:
    """What was sent again: type, number, up to which number a gap is."""
    assert all(it[43] == "Y" for it in given)
    return [tuple(it[tag] for tag in (35, 34, 36) if tag in it) for it in given]


def test_gaps_in_place_of_numbers_that_were_never_used(tmp_path: pathlib.Path) -> None:
    """Each goes up to the next message that there is, and that follows."""
    asking = Asking(tmp_path)
    asking.keep(3, 4, 8, 9)
    asking.engine.set_next(asking.session, 12)
    asking.begin()  # 12
    cases: dict[tuple[int, int], list[tuple[str, ...]]] = {
        (1, 0): [("4", "1", "3"), ("8", "3"), ("8", "4"), ("4", "5", "8"), ("8", "8"), ("8", "9")],
        (5, 8): [("4", "5", "8"), ("8", "8")],
        (6, 7): [("4", "6", "8")],
        (8, 11): [("8", "8"), ("8", "9"), ("4", "10", "12")],
        (3, 5): [("8", "3"), ("8", "4"), ("4", "5", "6")],
        (4, 4): [("8", "4")],
        (11, 12): [("4", "11", "13")],
    }
    cases[1, 0].append(("4", "10", "13"))
    for number, ((first, last), expected) in enumerate(cases.items(), 2):
        found = asking.say("2", [(7, str(first)), (16, str(last))], number)
        assert told(found) == expected, (first, last)


@pytest.mark.parametrize(
    "first, last, tag", [(14, 0, "7"), (999, 1000, "7"), (0, 0, "7"), (4, 3, "16"), (5, 1, "16")]
)
def test_numbers_that_nobody_can_ask_for(
    tmp_path: pathlib.Path, first: int, last: int, tag: str
) -> None:
    asking = Asking(tmp_path)
    asking.keep(3, 4, 8, 9)
    asking.begin()  # 10
    [found] = asking.say("2", [(7, str(first)), (16, str(last))], 2)
    assert [found[it] for it in (35, 34, 45, 371, 372, 373)] == ["3", "11", "2", tag, "2", "5"]
    [found] = asking.say("1", [(112, "here")], 3)
    assert (found[35], found[112]) == ("0", "here")

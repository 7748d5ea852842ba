"""What members by FIX are told while an instrument takes no orders, or doesn't answer: a mass
cancel says what it left open, and what waits for one instrument holds up nothing else.
"""
import contextlib
import pathlib
import time
from collections.abc import Callable, Iterator

import fixing
import psutil
import pytest
import served
from callauction.fix.feeds import SEEN_SECONDS
from fix_messages import ask_data, mass_cancel
from fix_venues import TWO, killable, on, reset, settled
from fixing import FixFields, FixMessage, Peer
from hanging import program_of
from patience import TIMED
from served import Served

SOON = 5.0
"""Seconds within which a member is answered of an instrument that goes on."""


def enter(peer: Peer, client: str, symbol: str, *more: tuple[int, str]) -> None:
    """Sends a bid of 10 shares at 2.00."""
    kind: FixFields = [(11, client), (55, symbol), (54, "1"), (60, fixing.stamp()), (38, "10")]
    peer.say("D", [*kind, (40, "2"), (44, "2.00")], [*more])


def entered(peer: Peer, client: str, symbol: str) -> None:
    """Enters a bid. Raises AssertionError where it isn't taken, TimeoutError."""
    enter(peer, client, symbol)
    assert peer.take(of(client), SOON)[150] == "0"


def of(client: str) -> Callable[[FixMessage], bool]:
    """Whether a message has this ClOrdID."""
    return lambda it: it.get(11) == client


@contextlib.contextmanager
def hung(folder: pathlib.Path, *more: tuple[int, str]) -> Iterator[tuple[Served, Peer, Peer]]:
    """A venue whose XYZ doesn't answer, with an order of ALICE in it and one on its way there; ABC
    goes on, in which she has one too.
    """
    port = served.free_port()
    day = fixing.day_of(port, "ALICE", "BOB") + TWO
    with on(folder, day, port, "BOB") as (venue, [bob]):
        alice = Peer(port, "ALICE")
        alice.logon(fixing.token_of(folder / "venue", "ALICE"), *more)
        for name in ("XYZ", "ABC"):
            venue.do("start", instrument=name)
            entered(alice, f"open{name}", name)
        program_of(venue, "XYZ").suspend()
        enter(alice, "late", "XYZ")
        yield venue, alice, bob


@contextlib.contextmanager
def halted(folder: pathlib.Path, *more: tuple[int, str]) -> Iterator[tuple[Served, Peer]]:
    """A venue as above, whose XYZ has halted for that."""
    with hung(folder, *more) as (venue, alice, bob):
        bob.say("g", [(335, "p1"), (263, "1"), (336, "XYZ")])
        bob.take(lambda it: it[35] == "h" and it.get(58) == "halted")
        yield venue, alice


def shown(peer: Peer, request: str, *more: tuple[int, str]) -> list[FixMessage]:
    """The answers to an OrderMassStatusRequest. Raises TimeoutError."""
    peer.say("AF", [(584, request), *more])
    peer.take(lambda it: it.get(584) == request and it[912] == "Y", SOON)
    return [it for it in peer.got if it.get(584) == request]


def test_a_mass_cancel_says_what_stays_open(tmp_path: pathlib.Path) -> None:
    port = served.free_port()
    day = fixing.day_of(port, "ALICE", "BOB") + TWO
    with on(tmp_path, day, port, "ALICE", "BOB") as (venue, [alice, bob]):
        for name in ("XYZ", "ABC"):
            venue.do("start", instrument=name)
        for peer in (alice, bob):
            entered(peer, f"a{peer.member}", "ABC")
        entered(alice, "x1", "XYZ")
        venue.do("uncross", instrument="ABC")
        text = "not cancelled, and still open: ABC (orders are taken in a call phase alone)"
        found = mass_cancel(alice, "q1", (530, "7"))
        assert (found[531], found[532], found[533], found[58]) == ("7", "99", "1", text)
        for client, more in (("q2", [(530, "7")]), ("q3", [(530, "1"), (55, "ABC")])):
            found = mass_cancel(alice, client, *more)
            assert (found[531], found[532], found[533], found[58]) == ("0", "99", "0", text)
        found = mass_cancel(alice, "q4", (530, "7"), (54, "2"))
        assert (found[531], found.get(532), found[533], 58 in found) == ("7", None, "0", False)
        alice.say("H", [(11, "aALICE"), (55, "ABC"), (54, "1")])
        assert alice.take(lambda it: it.get(150) == "I")[39] == "0"
        venue.do("start", instrument="ABC")
        found = mass_cancel(alice, "q5", (530, "7"))
        assert (found[531], found.get(532), found[533], 58 in found) == ("7", None, "1", False)


def test_a_mass_cancel_waits_for_no_other_instrument(tmp_path: pathlib.Path) -> None:
    with hung(tmp_path) as (_, alice, _):
        alice.say("q", [(11, "q1"), (530, "7"), (60, fixing.stamp())])
        assert alice.take(lambda it: it.get(150) == "4", SOON)[11] == "openABC"
        found = alice.take(lambda it: it[35] == "r")
        why = "not cancelled, and still open: XYZ (XYZ has halted and hasn't answered)"
        assert [found[it] for it in (531, 532, 533, 58)] == ["7", "99", "1", why]


def test_the_market_of_what_hangs_holds_up_no_other(tmp_path: pathlib.Path) -> None:
    """It is sent as it was last seen, and what has changed once the program goes on."""
    with hung(tmp_path) as (venue, alice, bob):
        ask_data(alice, "d1", "1")
        ask_data(alice, "d2", "0")
        entered(alice, "a1", "ABC")
        assert [it[262] for it in alice.got if it[35] == "W"] == ["d1", "d2"]
        alice.say("F", [(41, "late"), (11, "f1"), (55, "XYZ"), (54, "1"), (60, fixing.stamp())])
        entered(bob, "b1", "ABC")  # no other session waits for what this one asks
        program_of(venue, "XYZ").resume()
        assert alice.take(of("f1"))[150] == "4"
        alice.enter("x1", "2", 10, "3.00")
        alice.take(lambda it: it[35] == "W" and it[268] == "2" and it[262] == "d1")


@pytest.mark.parametrize("is_killed", [False, True])
def test_a_reset_while_an_order_waits(tmp_path: pathlib.Path, is_killed: bool) -> None:
    """In an instrument that has halted: the session isn't reset and goes on, its order is answered
    once; after a reset each report comes once more, also where the venue was killed meanwhile.
    """
    port, folder = served.free_port(), tmp_path / "venue"
    with killable(tmp_path, fixing.day_of(port, "ALICE")) as day:
        [program] = psutil.Process(day.venue.child.pid).children()
        token, alice = fixing.token_of(folder, "ALICE"), Peer(port, "ALICE")
        alice.logon(token)
        entered(alice, "open", "XYZ")
        alice.say("g", [(335, "p1"), (263, "1")])
        program.suspend()
        enter(alice, "late", "XYZ")
        alice.take(lambda it: it[35] == "h" and it.get(58) == "halted")
        text = "XYZ hasn't answered all that it said: resume what has halted first"
        answer = {"error": "halted", "text": f"ALICE isn't reset: {text}"}
        assert reset(day.venue, "ALICE") == (503, answer)
        assert alice.all() == []  # nothing was told, and no connection was ended
        if is_killed:
            day.venue.child.kill()
            day.again()
            alice.logon(token)
        day.venue.do("resume")
        assert alice.take(of("late"))[17] == "XYZ.2"
        entered(alice, "more", "XYZ")
        assert len(alice.all()) == 0
        assert reset(day.venue, "ALICE")[0] == 200
        again = Peer(port, "ALICE")
        again.logon(token)
        again.say("AF", [(584, "s1"), (585, "7")])
        again.all()
        told = [(it[17], it[11], it.get(97)) for it in again.got if it[150] == "0"]
        clients = ["open", "late", "more"]
        assert told == [(f"XYZ.{at}", it, "Y") for at, it in enumerate(clients, 1)]
        assert [it[11] for it in again.got if it.get(584) == "s1"] == clients


LATE = "XYZ has halted and hasn't answered: this order waits there"


def test_what_waits_for_one_instrument_holds_up_no_other(tmp_path: pathlib.Path) -> None:
    with halted(tmp_path) as (venue, alice):
        own = shown(alice, "s1", (585, "1"), (55, "ABC"))
        assert [(it[11], it[912], 58 in it) for it in own] == [("openABC", "Y", False)]
        own = shown(alice, "s2", (585, "7"))
        text = "halted, and what was sent isn't answered yet: XYZ"
        assert [(it[11], it.get(58)) for it in own] == [("openXYZ", None), ("openABC", text)]
        alice.say("H", [(11, "late"), (55, "XYZ"), (54, "1")])
        found = alice.take(lambda it: it.get(11) == "late", SOON)
        assert [found.get(it) for it in (150, 39, 103, 58)] == ["I", "A", None, LATE]
        enter(alice, "late", "XYZ", (97, "Y"))
        found = alice.take(lambda it: it.get(11) == "late", SOON)
        assert [found.get(it) for it in (150, 39, 103, 58)] == ["I", "A", None, LATE]
        alice.say("F", [(41, "late"), (11, "f1"), (55, "XYZ"), (54, "1"), (60, fixing.stamp())])
        found = alice.take(of("f1"), SOON)
        assert [found[it] for it in (35, 39, 102, 58)] == ["9", "A", "2", LATE]
        why = "not cancelled, and still open: XYZ (XYZ has halted and hasn't answered)"
        found = mass_cancel(alice, "q1", (530, "7"))
        assert [found[it] for it in (531, 532, 533, 58)] == ["7", "99", "1", why]
        found = mass_cancel(alice, "q2", (530, "1"), (55, "XYZ"))
        assert [found[it] for it in (531, 532, 533, 58)] == ["0", "99", "0", why]
        entered(alice, "a1", "ABC")
        alice.close()
        alice.logon(fixing.token_of(tmp_path / "venue", "ALICE"))
        alice.say("2", [(7, "1"), (16, "0")])
        entered(alice, "a2", "ABC")
        venue.do("resume")
        assert alice.take(of("late"))[150] == "0"


def test_what_comes_after_a_halt_is_refused(tmp_path: pathlib.Path) -> None:
    """And what came before is answered as the instrument goes on."""
    with halted(tmp_path) as (venue, alice):
        enter(alice, "n1", "XYZ")
        found = alice.take(of("n1"), SOON)
        assert [found[it] for it in (35, 150, 37, 103)] == ["8", "8", "NONE", "2"]
        alice.cancel("openXYZ", "f1", "1")
        found = alice.take(of("f1"), SOON)
        assert [found[it] for it in (35, 39, 102)] == ["9", "0", "2"]
        venue.do("resume")
        assert alice.take(of("late"))[150] == "0"
        clients = [it[11] for it in shown(alice, "s1", (585, "1"), (55, "XYZ"))]
        assert clients == ["openXYZ", "late"]


@TIMED
def test_a_subscription_ends_with_its_connection(tmp_path: pathlib.Path) -> None:
    """Also one for which the market was still looked at then: who comes again hears of no change of
    what it wasn't shown.
    """
    port = served.free_port()
    with on(tmp_path, fixing.day_of(port, "ALICE", "BOB"), port, "ALICE", "BOB") as (venue, peers):
        alice, bob = peers
        venue.do("start")
        program = program_of(venue, "XYZ")
        program.suspend()
        ask_data(alice, "d1", "1", (265, "1"))
        alice.say("g", [(335, "p1"), (263, "1")])
        time.sleep(SEEN_SECONDS / 2)
        alice.close()
        time.sleep(SEEN_SECONDS)
        alice.logon(fixing.token_of(tmp_path / "venue", "ALICE"))
        program.resume()
        ask_data(alice, "d2", "1", (265, "1"))
        alice.say("g", [(335, "p2"), (263, "1")])
        assert alice.take(lambda it: it[35] == "h")[335] == "p2"
        entered(bob, "b1", "XYZ")
        assert alice.take(lambda it: it[35] == "X")[262] == "d2"
        venue.do("uncross")
        assert alice.take(lambda it: it[35] == "h")[335] == "p2"
        asked = {it.get(262, it.get(335)) for it in [*alice.got, *alice.all()]}
        assert asked == {"d2", "p2"}


def test_orders_that_are_late_end_with_their_connection(tmp_path: pathlib.Path) -> None:
    """Also those that a halted instrument answers once the member is there again, whose new orders
    stay.
    """
    with halted(tmp_path, (8013, "Y")) as (venue, alice):
        alice.close()
        alice.logon(fixing.token_of(tmp_path / "venue", "ALICE"), (8013, "Y"))
        entered(alice, "a1", "ABC")
        venue.do("resume")
        gone = {it[11] for it in settled(alice, 3) if it.get(150) == "4"}
        assert gone == {"openABC", "openXYZ", "late"}
        entered(alice, "x1", "XYZ")
        assert [it[11] for it in shown(alice, "s1", (585, "7"))] == ["x1", "a1"]


def test_cancels_on_their_way_as_the_connection_ends(tmp_path: pathlib.Path) -> None:
    """What the venue itself asks then comes behind them: that it is refused is told to nobody."""
    with hung(tmp_path, (8013, "Y")) as (venue, alice, _):
        alice.cancel("openXYZ", "f1", "1")
        alice.all(0.5)
        alice.close()
        alice.logon(fixing.token_of(tmp_path / "venue", "ALICE"), (8013, "Y"))
        program_of(venue, "XYZ").resume()
        gone = {it[11] for it in settled(alice, 3) if it.get(150) == "4"}
        assert gone == {"openABC", "f1", "late"}
        entered(alice, "x1", "XYZ")
        assert [it for it in alice.got if it[35] == "9"] == []

"""What the operator has of the FIX front: a copy of each trade, and sessions that begin anew."""
import concurrent.futures
import pathlib
from collections.abc import Iterator

import fixing
import psutil
import pytest
import served
from fix_venues import day_with_copy, on, reset, until_logged
from fixing import Closed, FixFields, FixMessage, Peer


def sides_of(pairs: FixFields) -> list[FixMessage]:
    """The sides of a TradeCaptureReport."""
    found: list[FixMessage] = []
    for tag, value in pairs:
        if tag == 54:
            found.append({})
        if found and tag in (54, 37, 11, 1):
            found[-1][tag] = value
    return found


def reports(peer: Peer, count: int) -> Iterator[tuple[FixMessage, list[FixMessage]]]:
    """The next trades, and their sides."""
    peer.socket.settimeout(fixing.SECONDS)
    for _ in range(count):
        pairs = fixing.parsed(peer.whole())
        assert (35, "AE") in pairs and (552, "2") in pairs, pairs
        peer.expected += 1
        yield dict(pairs), sides_of(pairs)


def test_the_operator_has_a_copy_of_each_trade(tmp_path: pathlib.Path) -> None:
    """Also of those of members by the pages, and once over a restart."""
    port = served.free_port()
    day = day_with_copy(port, "ALICE", "BOB")
    copy = Peer(port, "COPY")
    with on(tmp_path, day, port, "ALICE", "BOB") as (venue, [alice, bob]):
        copy.logon(venue.operator)
        venue.do("start")
        alice.enter("a1", "1", 500, "2.00")
        alice.take(lambda it: it.get(11) == "a1")
        bob.enter("b1", "2", 200, "2.00")
        bob.take(lambda it: it.get(11) == "b1")
        bob.enter("b2", "2", 150, "2.00")
        bob.take(lambda it: it.get(11) == "b2")
        venue.do("uncross")
        [(first, sides), (second, others)] = reports(copy, 2)
        assert [first[it] for it in (571, 570, 55, 32, 31, 880)] == [
            *("XYZ.4.1", "N", "XYZ", "200", "2.00", "XYZ.1")
        ]
        assert len(first[75]) == 8 and first[60][:8] == first[75]
        buyer = {54: "1", 37: "XYZ.1", 11: "a1", 1: "ALICE"}
        assert sides == [buyer, {54: "2", 37: "XYZ.2", 11: "b1", 1: "BOB"}]
        assert [second[it] for it in (571, 32, 880)] == ["XYZ.4.2", "150", "XYZ.2"]
        assert others == [buyer, {54: "2", 37: "XYZ.3", 11: "b2", 1: "BOB"}]
        alice.enter("a9", "1", 9, "2.00")
        order = [(11, "c1"), (55, "XYZ"), (54, "1"), (38, "1"), (40, "1"), (60, fixing.stamp())]
        found = copy.say("D", order)
        refused = copy.take(lambda it: it[35] == "j")
        assert (refused[45], refused[372], refused[380]) == (str(found), "D", "6")
        copy.say("g", [(335, "p1"), (263, "0")])
        assert copy.take(lambda it: it[35] == "h")[336] == "XYZ"
    with served.served(tmp_path, day) as venue:
        copy.logon(venue.operator)
        assert [it for it in copy.all() if it[35] == "AE"] == []


def test_the_copy_is_the_operator_s_alone(tmp_path: pathlib.Path) -> None:
    port = served.free_port()
    with on(tmp_path, day_with_copy(port, "ALICE"), port, "ALICE") as (venue, _):
        for password in ("guess", fixing.token_of(tmp_path / "venue", "ALICE"), venue.beamer):
            with pytest.raises(Closed):
                Peer(port, "COPY").logon(password)
        Peer(port, "COPY").logon(venue.operator)


FIRST = [
    ("XYZ.1", "a1", "0"),
    ("XYZ.2", "a2", "0"),
    ("XYZ.3.1b", "a1", "F"),
    ("XYZ.3.1a", "a2", "F"),
]
"""What the journal gave of a client's orders before it lost its numbers."""


def test_a_client_that_has_lost_its_numbers(tmp_path: pathlib.Path) -> None:
    """The operator resets its session, and it is sent all that the journal has of it, once; its new
    messages are others than those that had the same numbers; so it is after a restart, and again.
    """
    port, folder = served.free_port(), tmp_path / "venue"
    day = day_with_copy(port, "ALICE")
    with on(tmp_path, day, port, "ALICE") as (venue, [first]):
        venue.do("start")
        first.enter("a1", "1", 100, "2.00")
        first.enter("a2", "2", 40, "2.00")
        first.enter("a2", "2", 40, "2.00")  # refused: its id was used
        first.take(lambda it: it.get(17) == "R.ALICE.4")
        venue.do("uncross")
        first.take(lambda it: it.get(17) == "XYZ.3.1a")
        with pytest.raises(Closed):
            Peer(port, "ALICE").logon(fixing.token_of(folder, "ALICE"))
        assert reset(venue, "ALICE")[0] == 200
        with pytest.raises(Closed):
            first.all()
        second = Peer(port, "ALICE")
        second.logon(fixing.token_of(folder, "ALICE"))
        assert again(second) == FIRST
        venue.do("start")
        second.enter("a3", "1", 7, "1.90")
        assert second.take(lambda it: it.get(11) == "a3")[17] == "XYZ.4"
        number = second.enter("a1", "1", 7, "1.90")
        assert number < 5  # below numbers that were the first client's
        assert second.take(lambda it: it.get(11) == "a1")[17] == f"R.ALICE.1.{number}"
    with served.served(tmp_path, day) as venue:
        second.logon(fixing.token_of(folder, "ALICE"))
        assert second.all() == []
        second.enter("a4", "1", 8, "1.90")
        assert second.take(lambda it: it.get(11) == "a4")[17] == "XYZ.5"
        assert reset(venue, "ALICE")[0] == 200
        third = Peer(port, "ALICE")
        third.logon(fixing.token_of(folder, "ALICE"))
        assert again(third) == [*FIRST, ("XYZ.4", "a3", "0"), ("XYZ.5", "a4", "0")]
        number = third.say("H", [(11, "a3"), (55, "XYZ"), (54, "1")])
        found = third.take(lambda it: it.get(11) == "a3" and it[150] == "I")
        assert found[17] == f"R.ALICE.2.{number}"


def again(peer: Peer) -> list[tuple[str, str, str]]:
    """What comes, which is all sent as PossResend: its id, 11, what happened."""
    found = peer.all()
    assert {it.get(97) for it in found} == {"Y"}
    return [(it[17], it[11], it[150]) for it in found]


def test_a_session_is_reset_once_at_a_time(tmp_path: pathlib.Path) -> None:
    """Of two resets at once the second would begin while the client is on again."""
    port = served.free_port()
    with on(tmp_path, fixing.day_of(port, "ALICE"), port, "ALICE") as (venue, [peer]):
        venue.do("start")
        [program] = psutil.Process(venue.child.pid).children()
        program.suspend()
        peer.enter("a1", "1", 10, "2.00")
        until_logged(tmp_path / "venue", '"11":"a1"')
        with concurrent.futures.ThreadPoolExecutor(1) as pool:
            first = pool.submit(reset, venue, "ALICE")  # waits until the order is answered
            assert peer.all() == []  # and tells nothing before
            peer.enter("a2", "1", 10, "2.00")
            answer = {"error": "bad_phase", "text": "ALICE is being reset"}
            assert reset(venue, "ALICE") == (409, answer)
            program.resume()
            with pytest.raises(Closed):
                peer.all(fixing.SECONDS)
            assert first.result()[0] == 200
        assert [it[11] for it in peer.got if it[35] == "8"] == ["a1", "a2"]
        second = Peer(port, "ALICE")
        second.logon(fixing.token_of(tmp_path / "venue", "ALICE"))
        assert again(second) == [("XYZ.1", "a1", "0"), ("XYZ.2", "a2", "0")]


def test_the_copy_s_session_is_reset(tmp_path: pathlib.Path) -> None:
    port = served.free_port()
    with on(tmp_path, day_with_copy(port, "ALICE"), port, "ALICE") as (venue, [alice]):
        venue.do("start")
        alice.enter("a1", "1", 10, "2.00")
        alice.enter("a2", "2", 10, "2.00")
        alice.take(lambda it: it.get(11) == "a2")
        venue.do("uncross")
        alice.take(lambda it: it.get(150) == "F")
        assert reset(venue, "COPY")[0] == 200
        copy = Peer(port, "COPY")
        copy.logon(venue.operator)
        [(given, sides)] = reports(copy, 1)
        assert (given[571], given[97], given[552]) == ("XYZ.3.1", "Y", "2")
        assert [(it[54], it[11], it[1]) for it in sides] == [
            ("1", "a1", "ALICE"),
            ("2", "a2", "ALICE"),
        ]


def test_a_session_that_is_not_there(tmp_path: pathlib.Path) -> None:
    port = served.free_port()
    with served.served(tmp_path, fixing.day_of(port, "ALICE")) as venue:
        answer = {"error": "bad_message", "text": "there is no session EVE"}
        assert reset(venue, "EVE") == (400, answer)


def test_a_day_without_sessions(tmp_path: pathlib.Path) -> None:
    with served.served(tmp_path) as venue:
        answer = {"error": "bad_message", "text": "this day has no sessions by FIX"}
        assert reset(venue, "ALICE") == (400, answer)

"""What members by FIX are told of what isn't done: why, and what to do; and what the venue writes
of it. What is expected is from the standard and docs/FIX.md.
"""
import contextlib
import json
import pathlib
import re
import socket
import struct
from collections.abc import Iterator

import fixing
import pytest
import served
from fix_clients import NewPeer, new_day
from fix_messages import answer, ask_data, order, picked
from fix_venues import on
from fixing import Closed, FixFields, FixMessage, Peer

MILLISECONDS = re.compile(r"[0-9]{8}-[0-9]{2}:[0-9]{2}:[0-9]{2}\.[0-9]{3}")


def ended(peer: Peer) -> FixMessage:
    """The Logout by which the venue ends a connection."""
    found = peer.take(lambda it: it[35] == "5")
    with pytest.raises(Closed):
        peer.take(lambda it: False)
    return found


# ---- Logons


def test_a_clock_that_is_wrong(tmp_path: pathlib.Path, monkeypatch: pytest.MonkeyPatch) -> None:
    """Who has no password is told nothing of it."""
    port = served.free_port()
    with served.served(tmp_path, fixing.day_of(port, "ALICE")):
        token = fixing.token_of(tmp_path / "venue", "ALICE")
        with monkeypatch.context() as patch:
            patch.setattr(fixing, "stamp", lambda: "20200101-00:00:00.000")
            stranger = Peer(port, "ALICE")
            with pytest.raises(Closed):
                stranger.logon("guess")
            assert stranger.expected == 1
            peer = Peer(port, "ALICE")
            peer.connect()
            peer.say("A", [(98, "0"), (108, "30"), (554, token)])
            found = ended(peer)
            assert found[58].startswith("SendingTime (52) is more than 120 s from the venue's")
            assert found[34] == "1"
        assert peer.logon(token)[34] == "2"


def test_a_logon_without_its_version(tmp_path: pathlib.Path) -> None:
    port = served.free_port()
    with served.served(tmp_path, new_day(port)):
        token = fixing.token_of(tmp_path / "venue", "ALICE")
        peer = NewPeer(port, "ALICE")
        peer.connect()
        peer.say("A", [(98, "0"), (108, "30"), (554, token)])
        assert ended(peer)[58] == "Required tag missing: 1137"
        assert peer.logon(token, (1137, "9"))[34] == "2"


def test_a_second_logon_on_a_connection(tmp_path: pathlib.Path) -> None:
    port = served.free_port()
    with on(tmp_path, fixing.day_of(port, "ALICE"), port, "ALICE") as (_, [peer]):
        token = fixing.token_of(tmp_path / "venue", "ALICE")
        peer.say("A", [(98, "0"), (108, "30"), (554, token)])
        assert ended(peer)[58] == (
            "this connection is logged on: a Logon (35=A) is its first message alone; connect again"
        )
        peer.logon(token)
        assert answer(peer, "H", [(11, "a"), (55, "XYZ"), (54, "1")])[103] == "5"


def told(error: str) -> Iterator[str]:
    """The texts of the FIX front on standard error."""
    for line in error.splitlines():
        if (text := json.loads(line)["text"]).startswith("fix: event"):
            yield text


def test_each_session_s_refusals_are_written(tmp_path: pathlib.Path) -> None:
    """Also where others are refused in the same second; none is counted as another's."""
    port, names = served.free_port(), ["ALICE", "BOB", "CAROL", "DAVE"]
    (tmp_path / "day.toml").write_text(fixing.day_of(port, *names), "utf-8")
    words = ["--day", tmp_path / "day.toml", "--folder", tmp_path / "venue", "--log", "json"]
    venue = served.started(*words, "--port", served.free_port())
    try:
        for name in [*names, *names]:
            with pytest.raises(Closed):
                Peer(port, name).logon("guess")
        with pytest.raises(Closed):
            Peer(port, "EVE").logon("guess")
    finally:
        venue.child.terminate()
        _, error = venue.child.communicate(timeout=served.SECONDS)
    refused = [it for it in told(error) if "a Logon is refused: a wrong Password" in it]
    for name in names:
        mine = [it for it in refused if f"FIX.4.4:VENUE->{name} " in it]
        end = re.compile(r"taken yet, from 127\.0\.0\.1( \(and 1 times more\))?$")
        assert mine and all(end.search(it) for it in mine)
    assert len(refused) <= 2 * len(names)
    stranger = "a Logon is refused: no session is FIX.4.4 from EVE to VENUE, from 127.0.0.1"
    assert any(it.endswith(stranger) for it in told(error))


def test_why_a_connection_is_ended_is_written(tmp_path: pathlib.Path) -> None:
    """Each end that the venue makes has a line with the session and the reason."""
    port, names = served.free_port(), ["ALICE", "BOB", "CAROL", "DAVE", "ERIN"]
    (tmp_path / "day.toml").write_text(fixing.day_of(port, *names), "utf-8")
    words = ["--day", tmp_path / "day.toml", "--folder", tmp_path / "venue", "--log", "json"]
    venue = served.started(*words, "--port", served.free_port())
    try:
        peers = {it: Peer(port, it) for it in names}
        for name, peer in peers.items():
            peer.logon(fixing.token_of(tmp_path / "venue", name))
        with pytest.raises(Closed):  # ALICE is asked whether she is there, and says nothing
            Peer(port, "ALICE").logon(fixing.token_of(tmp_path / "venue", "ALICE"))
        password = (554, fixing.token_of(tmp_path / "venue", "BOB"))
        peers["BOB"].say("A", [(98, "0"), (108, "30"), password])
        venue.do("reset", session="CAROL")
        venue.do("remove", member="DAVE")
        linger = struct.pack("ii", 1, 0)
        peers["ERIN"].socket.setsockopt(socket.SOL_SOCKET, socket.SO_LINGER, linger)
        peers["ERIN"].close()  # its machine ends it
        for name in names[:-1]:
            until_closed(peers[name])
    finally:
        venue.child.terminate()
        _, error = venue.child.communicate(timeout=served.SECONDS)
    found = {name: ended_by(error, name) for name in names}
    assert found == {
        "ALICE": ["it said nothing for 5 s, and its session logs on once more"],
        "BOB": [
            "this connection is logged on: a Logon (35=A) is its first message alone; connect again"
        ],
        "CAROL": ["the operator resets this session: begin at 1 with an empty store"],
        "DAVE": ["the operator has removed this member, whose orders are cancelled"],
        "ERIN": ["[Errno 104] Connection reset by peer"],
    }
    for name in ("CAROL", "DAVE"):
        text = f"fix: event FIX.4.4:VENUE->{name} Timed out waiting for logout response"
        assert text in told(error)


def test_what_a_client_refuses_is_written(tmp_path: pathlib.Path) -> None:
    """Also what came ahead of its turn; of many texts of its own those of a second in one line."""
    port, count = served.free_port(), 30
    (tmp_path / "day.toml").write_text(fixing.day_of(port, "ALICE"), "utf-8")
    words = ["--day", tmp_path / "day.toml", "--folder", tmp_path / "venue", "--log", "json"]
    venue = served.started(*words, "--port", served.free_port())
    try:
        peer = Peer(port, "ALICE")
        peer.logon(fixing.token_of(tmp_path / "venue", "ALICE"))
        peer.number += 1  # 2 is missing, and a gap comes in its place
        refused = [(45, "1"), (372, "8"), (380, "0")]
        for number in range(count):
            peer.say("j", [*refused, (58, "x" * number or "ahead")])
        assert answer(peer, "H", [(11, "a"), (55, "XYZ"), (54, "1")])[103] == "5"
    finally:
        venue.child.terminate()
        _, error = venue.child.communicate(timeout=served.SECONDS)
    begin = "fix: event FIX.4.4:VENUE->ALICE Received BusinessMessageReject of 1: "
    lines = [it.removeprefix(begin) for it in told(error) if it.startswith(begin)]
    others = (re.search(r" \(and ([0-9]+) times more\)$", it) for it in lines)
    assert lines[0] == "ahead" and len(lines) < count // 4
    assert len(lines) + sum(int(it[1]) for it in others if it) == count


def until_closed(peer: Peer) -> None:
    """Waits until the venue ends a connection."""
    peer.socket.settimeout(fixing.SECONDS)
    with contextlib.suppress(Closed):
        while True:
            peer.whole()


def ended_by(error: str, name: str) -> list[str]:
    """Why a session's connection was ended, by the venue's log."""
    begin = f"fix: event FIX.4.4:VENUE->{name} a connection is ended: "
    return [it.removeprefix(begin) for it in told(error) if it.startswith(begin)]


# ---- requests


def test_no_order_is_open(tmp_path: pathlib.Path) -> None:
    """Each answer says that it is the only one."""
    port = served.free_port()
    with on(tmp_path, fixing.day_of(port, "ALICE"), port, "ALICE") as (_, [peer]):
        for kind in ("7", "3"):
            found = answer(peer, "AF", [(584, "s1"), (585, kind)])
            assert picked(found, 584, 911, 912) == ("s1", "0", "Y")


def change(origin: str, client: str, price: str = "2.00") -> FixFields:
    """An OrderCancelReplaceRequest of a bid."""
    return [(41, origin), *order(client, "1", "10", (40, "2"), (44, price))]


def test_orders_that_have_ended(tmp_path: pathlib.Path) -> None:
    """In a call phase, between two, and once the day is over."""
    port = served.free_port()
    with on(tmp_path, fixing.day_of(port, "ALICE"), port, "ALICE") as (venue, [peer]):
        venue.do("start")
        peer.enter("filled", "1", 10, "2.00")
        peer.enter("other", "2", 10, "2.00")
        peer.enter("gone", "1", 10, "1.00")
        peer.enter("opening", "1", 10, "1.00", (59, "2"))
        peer.enter("left", "1", 10, "1.00")
        peer.cancel("gone", "gone2", "1")
        peer.take(lambda it: it.get(11) == "gone2")
        venue.do("uncross")
        peer.all()
        texts = {"filled": "is filled", "gone2": "is cancelled", "opening": "has expired"}
        for phase in ("between", "call", "over"):
            over = ": the day is over" if phase == "over" else ""
            if phase == "over":
                texts["left"] = "has expired"
            for number, (origin, text) in enumerate(texts.items()):
                for kind, others in (("G", ()), ("F", (38, 40, 44))):
                    asked = change(origin, f"{phase}{number}{kind}")
                    found = answer(peer, kind, [it for it in asked if it[0] not in others])
                    assert picked(found, 35, 102, 58) == ("9", "0", f"the order {text}{over}")
            if phase == "between":
                assert answer(peer, "G", change("left", "l"))[102] == "2"
                venue.do("start")
            elif phase == "call":
                venue.do("uncross")
                venue.do("start")
                venue.do("uncross")
                peer.all()
        found = answer(peer, "D", order("late", "1", "10", (40, "1")))
        assert picked(found, 39, 103, 58) == ("8", "2", "the day is over")
        ask_data(peer, "m1", "0")
        found = peer.take(lambda it: it[35] == "W")
        assert picked(found, 268, 269) == ("1", "J")


REFUSED: list[tuple[FixFields, str]] = [
    ([(40, "2"), (44, "99.00")], "Price (44) is from 0.01 to 10.00 (refused 2 BadLimit)"),
    ([(40, "2"), (44, "99999999999.00")], "the price 99999999999.00 is not from 0.01 to 10.00"),
    (
        [(40, "2"), (44, "2.00"), (111, "11")],
        "a peak (111, 1138) is from 1 to OrderQty, of a limit order (refused 3 BadPeak)",
    ),
    (
        [(40, "2"), (44, "2.00"), (59, "2")],
        "the auction that TimeInForce (59) names is over (refused 9 PastAuction)",
    ),
]
"""Orders after the opening that aren't taken, and why."""


def test_what_to_do(tmp_path: pathlib.Path) -> None:
    """A report of what isn't taken has what was asked for."""
    port = served.free_port()
    with on(tmp_path, fixing.day_of(port, "ALICE"), port, "ALICE") as (venue, [peer]):
        for word in ("start", "uncross", "start"):
            venue.do(word)
        for number, (more, text) in enumerate(REFUSED):
            tags = {tag for tag, _ in more}
            plain = [it for it in order(f"a{number}", "1", "10") if it[0] not in tags]
            found = answer(peer, "D", plain + more)
            assert found[39] == "8" and found[58].startswith(text), found[58]
            asked = {59: "0"} | dict(more)
            if number != 1:
                assert {tag: found[tag] for tag in asked} == asked
        found = answer(peer, "D", order("b1", "1", "10", (40, "9"), (44, "2.00"), (1138, "5")))
        assert picked(found, 39, 44, 59, 111) == ("8", "2.00", "0", "5")


def test_quantities_that_can_not_be(tmp_path: pathlib.Path) -> None:
    """Each is answered by a report or a refusal, for the same reason."""
    port, text = served.free_port(), "OrderQty (38) is from 1 to 1000000000"
    most = "an order has at most 1000000000 shares"
    with on(tmp_path, fixing.day_of(port, "ALICE"), port, "ALICE") as (venue, [peer]):
        venue.do("start")
        assert answer(peer, "D", order("a", "1", "10", (40, "1")))[39] == "0"
        shares_of = {"-5": "13", "100.5": "13", "0": "13", "1000000001": "3", "5000000000": "3"}
        for number, (shares, reason) in enumerate(shares_of.items()):
            why = text if reason == "13" else most
            found = answer(peer, "D", order(f"a{number}", "1", shares, (40, "1")))
            assert picked(found, 35, 150, 103) == ("8", "8", reason) and found[58].startswith(why)
            asked = [(41, "a"), *order(f"b{number}", "1", shares, (40, "1"))]
            found = answer(peer, "G", asked)
            assert picked(found, 35, 434, 102) == ("9", "2", "99") and found[58].startswith(why)
        assert answer(peer, "D", order("a5", "1", "100.0", (40, "1")))[38] == "100"


def test_the_value_of_orders(tmp_path: pathlib.Path) -> None:
    port = served.free_port()
    day = fixing.day_of(port, "ALICE").replace("[members]", 'value = "150.50"\n[members]')
    with on(tmp_path, day, port, "ALICE") as (venue, [peer]):
        venue.do("start")
        found = answer(peer, "D", order("a1", "1", "20", (40, "2"), (44, "9.00")))
        text = "a member has at most a value of 150.50 in orders of an instrument"
        assert picked(found, 39, 103, 58) == ("8", "3", text)
        assert answer(peer, "D", order("a2", "1", "15", (40, "2"), (44, "10.00")))[39] == "0"


def test_prices_by_the_standard(tmp_path: pathlib.Path) -> None:
    port = served.free_port()
    prices = {"2.": "2.00", ".5": "0.50", "02.50": "2.50", "3": "3.00", "2.500": "2.50"}
    with on(tmp_path, fixing.day_of(port, "ALICE"), port, "ALICE") as (venue, [peer]):
        venue.do("start")
        for said, price in prices.items():
            found = answer(peer, "D", order(f"a{said}", "1", "10", (40, "2"), (44, said)))
            assert picked(found, 150, 44) == ("0", price), said
        found = answer(peer, "D", order("b", "1", "10", (40, "2"), (44, "-1")))
        assert picked(found, 39, 58) == ("8", "Price -1 is none such as 20.05")


def test_times_have_milliseconds(tmp_path: pathlib.Path) -> None:
    """Those of what is sent for the first time, and of what is sent again."""
    port = served.free_port()
    with on(tmp_path, fixing.day_of(port, "ALICE"), port, "ALICE") as (venue, [peer]):
        venue.do("start")
        peer.enter("a1", "1", 10, "2.00")
        first = peer.take(lambda it: it.get(11) == "a1")
        peer.say("2", [(7, first[34]), (16, first[34])])
        again = dict(fixing.parsed(peer.whole()))
        assert (again[43], again[34]) == ("Y", first[34])
        for text in (first[52], again[52], again[122]):
            assert MILLISECONDS.fullmatch(text), text
        assert again[122] == first[52]


def test_which_instrument(tmp_path: pathlib.Path) -> None:
    day = '[[instrument]]\nname = "ABC"\n[[instrument]]\nname = "XYZ"\n'
    with served.served(tmp_path, day) as venue:
        text = 'name one of 2 instruments, as "instrument": "ABC"'
        answered = venue.call("api/operator", {"do": "start"}, venue.operator)
        assert answered == (answered[0], {"error": "unknown_instrument", "text": text})
        venue.do("start", instrument="XYZ")

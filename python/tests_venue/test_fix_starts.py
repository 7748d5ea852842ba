"""A start of the FIX front with many messages that its sessions were sent before."""
import asyncio
import json
import pathlib
import signal

import fixing
import pytest
import served
from callauction.fix.front import FixFront
from callauction.fix.sent import MOST_AT_ONCE
from callauction.venue.config import DayTerms, Plan
from callauction.venue.fix_terms import FixTerms
from callauction.venue.venue import Venue
from fix_clients import GapPeer
from fix_messages import ALL, picked
from fix_venues import killable
from fixing import Peer

SESSION, MESSAGES = "FIX.4.4:VENUE->ALICE", 2000


def sent_before(folder: pathlib.Path) -> None:
    """A session of this folder was sent answers to what it asked of its orders."""
    lines = []
    for number in range(1, MESSAGES + 1):
        text = fixing.written("8", number, "ALICE", [(17, f"R.ALICE.{number}"), (150, "I")])
        line = {"kind": "out", "session": SESSION, "text": text.decode("latin-1")}
        lines.append(json.dumps({"time": 1.0, **line}) + "\n")
    file = folder / "fix.sent"
    file.write_text("".join(lines))
    file.chmod(0o600)


@pytest.mark.asyncio
async def test_programs_have_their_turn_while_a_session_is_restored(
    tmp_path: pathlib.Path,
) -> None:
    """Else what they answer meanwhile is taken for a program that hangs."""
    sent_before(tmp_path)
    venue = Venue(DayTerms(is_synced=False, plan=Plan(call=0)), tmp_path, served.program())
    front = FixFront(venue, FixTerms({"ALICE": "Alice"}, port=served.free_port()), served.program())
    seen = set[int]()

    async def look() -> None:
        while True:
            if hasattr(front._outbound, "engine"):
                seen.add(front._outbound.engine.next(SESSION))
            await asyncio.sleep(0)

    await venue.open()
    try:
        looking = asyncio.create_task(look())
        await front.begin(None)
        while not front._connections.is_ready:
            await asyncio.sleep(0)
        front.shut()
        await front.end()
        looking.cancel()
        assert max(seen) > MESSAGES and len(seen) >= MESSAGES // MOST_AT_ONCE
    finally:
        await venue.close()


ORDERS, TIMES = 40, 30
LEAST_OF_A_REPORT = 200
"""Bytes that a report has at least."""


def ask_all(peer: Peer, name: str) -> None:
    """Asks for all orders of a session. Raises AssertionError where not all come."""
    peer.say("AF", [(584, name), (585, "7")])
    before = len(peer.got)
    peer.take(lambda it: it.get(584) == name and it[912] == "Y")
    assert [it[584] for it in peer.got[before:]] == [name] * ORDERS


@pytest.mark.parametrize("how", [signal.SIGTERM, signal.SIGKILL])
def test_answers_that_pass_are_not_kept(tmp_path: pathlib.Path, how: signal.Signals) -> None:
    """A gap comes in place of what a mass status or market data said, also after a start: it isn't
    asked for again, and what was sent of orders comes again under its number.
    """
    port, folder = served.free_port(), tmp_path / "venue"
    with killable(tmp_path, fixing.day_of(port, "ALICE")) as day:
        peer = Peer(port, "ALICE")
        peer.logon(fixing.token_of(folder, "ALICE"))
        for number in range(ORDERS):
            peer.enter(f"a{number}", "1", 10, "2.00")
        peer.take(lambda it: it.get(11) == f"a{ORDERS - 1}")
        for number in range(TIMES):
            ask_all(peer, f"s{number}")
            peer.say("V", [(262, f"v{number}"), (263, "0"), (264, "1"), *ALL])
            peer.take(lambda it: it[35] == "W")
        peer.cancel("none", "f1", "1")
        peer.take(lambda it: it.get(11) == "f1")
        told, expected, number = ids(peer), peer.expected, peer.number
        assert (folder / "fix.sent").stat().st_size < ORDERS * TIMES * LEAST_OF_A_REPORT // 4
        day.venue.child.send_signal(how)
        day.venue.child.communicate(timeout=served.SECONDS)
        day.venue = served.started(*day.words)
        peer = GapPeer(port, "ALICE")
        peer.number = number
        begun = peer.logon(fixing.token_of(folder, "ALICE"))
        assert int(begun[34]) == expected + (how == signal.SIGTERM)  # a Logout
        peer.enter("last", "1", 10, "2.00")
        peer.take(lambda it: it.get(11) == "last")
        kept = {it for it in told if it[1] not in "W" and it[3] != "I"}
        assert {it for it in ids(peer) if it[2] != "last"} == kept
        assert peer.asked == []


def ids(peer: Peer) -> set[tuple[str, ...]]:
    """What a client was told, with the numbers of that."""
    return {picked(it, 34, 35, 11, 150) for it in peer.got}

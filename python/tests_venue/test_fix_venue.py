"""The FIX front among what else a venue has: pages and WebSocket of the same member, rounds,
groups, interrupted uncrosses, limits, and an engine of QuickFIX as the client.
"""
import pathlib
import time

import fixing
import pytest
import served
from callauction.fix.tags import FIX44, FIXT
from callauction.venue import Client
from fix_clients import Initiator
from fix_venues import on, reports
from fixing import Peer


def order(client: str, side: str, shares: int, price: str) -> fixing.FixFields:
    """A NewOrderSingle."""
    pairs = [(11, client), (55, "XYZ"), (54, side), (38, str(shares)), (40, "2"), (44, price)]
    return [(int(tag), value) for tag, value in pairs]


def test_an_engine_of_quickfix(tmp_path: pathlib.Path) -> None:
    """It is sent each report once, also what came while it was off; it goes on from its store."""
    port, folder = served.free_port(), tmp_path / "venue"
    with served.served(tmp_path, fixing.day_of(port, "ALICE", "BOB")) as venue:
        venue.do("start")
        passwords = {it: fixing.token_of(folder, it) for it in ("ALICE", "BOB")}
        peer = Peer(port, "BOB")
        peer.logon(passwords["BOB"])
        mine = Initiator(port, "ALICE", passwords["ALICE"], tmp_path / "client")
        mine.connect()
        mine.send("D", order("a1", "1", 100, "2.00"))
        mine.until(lambda: any(it[11] == "a1" for it in mine.got))
        mine.close()
        mine.send("D", order("a2", "1", 50, "2.01"))  # waits for the next Logon
        peer.enter("b1", "2", 70, "1.99")
        assert peer.take(lambda it: it[35] == "8")[150] == "0"
        venue.do("uncross")
        first = mine.got
        del mine  # a process has a session once
        mine = Initiator(port, "ALICE", passwords["ALICE"], tmp_path / "client")
        mine.connect()
        mine.until(lambda: len(mine.got) == 2)
        venue.do("start")
        mine.send("G", [(41, "a1"), *order("a3", "1", 120, "2.00")])
        mine.until(lambda: len(mine.got) == 3)
    kinds = [(it[11], it[150], it.get(32), it[151]) for it in first + mine.got]
    assert kinds[0] == ("a1", "0", None, "100") and kinds[3] == ("a3", "5", None, "50")
    assert sorted(kinds[1:3]) == [("a1", "F", "70", "30"), ("a2", "8", None, "0")]


@pytest.mark.parametrize("begin", [FIX44, FIXT])
def test_an_engine_of_quickfix_that_resets(tmp_path: pathlib.Path, begin: str) -> None:
    """With ResetOnLogon it takes the Logout; without it, it goes on."""
    port, folder = served.free_port(), tmp_path / "venue"
    day = fixing.day_of(port, "ALICE")
    if begin == FIXT:
        day = day.replace("[fix.sessions]", 'fix50 = ["ALICE"]\n[fix.sessions]')
    with served.served(tmp_path, day) as venue:
        venue.do("start")
        password = fixing.token_of(folder, "ALICE")
        more = "ResetOnLogon=Y\n"
        mine = Initiator(port, "ALICE", password, tmp_path / "first", begin, more)
        mine.begin()
        mine.until(lambda: "Received logout request" in mine.events)
        said = dict(fixing.parsed(mine.heard))
        assert (said[35], said[34], said[8]) == ("5", "1", begin)
        assert "without ResetSeqNumFlag (ResetOnLogon=N)" in said[58]
        assert not any("MsgSeqNum" in it or "Reject" in it for it in mine.events), mine.events
        del mine  # a process has a session once
        mine = Initiator(port, "ALICE", password, tmp_path / "second", begin)
        mine.connect()
        mine.send("D", order("a1", "1", 100, "2.00"))
        mine.until(lambda: any(it[11] == "a1" for it in mine.got))


def test_a_member_may_use_the_pages_too(tmp_path: pathlib.Path) -> None:
    port = served.free_port()
    with on(tmp_path, fixing.day_of(port, "ALICE"), port, "ALICE") as (venue, [peer]):
        venue.do("start")
        peer.enter("a1", "1", 100, "2.00")
        assert reports(peer) == [("XYZ.1", "a1", "0", "100")]
        with Client(venue.url, fixing.token_of(tmp_path / "venue", "ALICE")) as me:
            assert me.enter("bid", 7, "2.02").reply == "entered 2"
            assert me.delete(1).reply == "deleted"
        assert reports(peer) == [("XYZ.2", "", "0", "7"), ("XYZ.3", "a1", "4", "0")]
        peer.cancel("a1", "a2", "1")
        found = peer.take(lambda it: it[35] == "9")
        assert [found[it] for it in (37, 39, 102)] == ["XYZ.1", "4", "0"]
        assert found[58] == "the order is cancelled"


def test_the_next_round_ends_the_orders_of_the_last(tmp_path: pathlib.Path) -> None:
    port = served.free_port()
    with on(tmp_path, fixing.day_of(port, "ALICE"), port, "ALICE") as (venue, [peer]):
        venue.do("start")
        peer.enter("a1", "1", 100, "2.00")
        assert reports(peer) == [("XYZ.1", "a1", "0", "100")]
        venue.do("uncross")
        venue.do("next", round=2)
        found = peer.take(lambda it: it[35] == "8")
        assert (found[17], found[150], found[151]) == ("XYZ.end.x1", "C", "0")
        venue.do("start")
        peer.enter("a2", "2", 9, "2.10")
        assert reports(peer) == [("XYZ.round2.1", "a2", "0", "9")]


SMALL = """
[[instrument]]
name = "XYZ"
tick_size = "0.000001"
low = "0.000001"
high = "0.060000"
reference = "0.012345"
"""


def test_the_average_price_of_two_auctions(tmp_path: pathlib.Path) -> None:
    """(333,333,333 * 0.012346 + 666,666,667 * 0.012345) / 10^9 is 0.012345333333333."""
    port = served.free_port()
    day = fixing.day_of(port, "ALICE", "BOB") + SMALL
    with on(tmp_path, day, port, "ALICE", "BOB") as (venue, [alice, bob]):
        venue.do("start")
        alice.enter("a1", "1", 1_000_000_000, "0.012346")
        bob.enter("b1", "2", 333_333_333, "0.012346")
        bob.take(lambda it: it.get(11) == "b1")
        alice.take(lambda it: it.get(11) == "a1")
        venue.do("uncross")
        assert alice.take(lambda it: it.get(150) == "F")[6] == "0.012346"
        venue.do("start")
        alice.replace("a1", "a2", "1", 1_000_000_000, "0.012345")
        alice.take(lambda it: it.get(11) == "a2")
        bob.enter("b2", "2", 666_666_667, "0.012345")
        bob.take(lambda it: it.get(11) == "b2")
        venue.do("uncross")
        found = alice.take(lambda it: it.get(150) == "F")
        assert (found[6], found[14], found[151]) == ("0.012345333333333", "1000000000", "0")


def test_replaces_of_a_partly_filled_order(tmp_path: pathlib.Path) -> None:
    """The total may not be less than what was executed; an order goes by any of its ids."""
    port = served.free_port()
    with on(tmp_path, fixing.day_of(port, "ALICE", "BOB"), port, "ALICE", "BOB") as (
        venue,
        [alice, bob],
    ):
        venue.do("start")
        alice.enter("a1", "1", 100, "2.00")
        bob.enter("b1", "2", 40, "1.90")
        bob.replace("b1", "b2", "2", 120, "1.95")
        bob.take(lambda it: it.get(11) == "b2")
        alice.take(lambda it: it.get(11) == "a1")
        venue.do("uncross")
        trade = bob.take(lambda it: it.get(150) == "F")
        assert [trade[it] for it in (38, 32, 14, 151, 39)] == ["120", "100", "100", "20", "1"]
        venue.do("start")
        for client, total in (("b3", 50), ("b4", 100)):
            bob.replace("b2", client, "2", total, "1.95")
            found = bob.take(lambda it: it.get(11) == client)
            assert (found[35], found[39], found[102]) == ("9", "1", "99")
            text = "OrderQty is the total, and 100 were executed: cancel what is left"
            assert found[58] == text
        bob.replace("b2", "b5", "2", 101, "2.50")
        found = bob.take(lambda it: it.get(11) == "b5")
        expected = {150: "5", 39: "1", 38: "101", 14: "100", 151: "1", 44: "2.50", 6: "1.95"}
        assert {tag: found[tag] for tag in expected} == expected
        bob.cancel("b2", "b6", "2")
        found = bob.take(lambda it: it.get(11) == "b6")
        assert [found[it] for it in (150, 39, 14, 151, 41)] == ["4", "4", "100", "0", "b2"]
        bob.cancel("b6", "b7", "2")
        found = bob.take(lambda it: it.get(11) == "b7")
        assert [found[it] for it in (35, 39, 102)] == ["9", "4", "0"]


def test_an_interrupted_uncross_ends_nothing(tmp_path: pathlib.Path) -> None:
    port = served.free_port()
    day = fixing.day_of(port, "ALICE") + '[[instrument]]\nname = "XYZ"\nrange = "0.10"\n'
    with on(tmp_path, day, port, "ALICE") as (venue, [peer]):
        venue.do("start")
        peer.enter("a1", "1", 10, "3.00", (59, "2"))
        peer.enter("a2", "2", 10, "3.00", (59, "2"))
        assert [it[2] for it in reports(peer)] == ["0", "0"]
        assert venue.do("uncross")["reply"].startswith("interrupted")
        assert reports(peer) == []
        venue.do("uncross")
        assert reports(peer) == [("XYZ.4.1b", "a1", "F", "0"), ("XYZ.4.1a", "a2", "F", "0")]


def test_a_member_of_a_group_has_its_board(tmp_path: pathlib.Path) -> None:
    port = served.free_port()
    names = ("ALICE", "BOB", "CAROL")
    day = fixing.day_of(port, *names).replace("burst", "group = 2\nburst")
    with on(tmp_path, day, port, *names) as (venue, peers):
        venue.do("start")
        found = []
        for peer in peers:
            peer.enter("1", "1", 10, "2.00")
            found.append(peer.take(lambda it: it[35] == "8"))
        assert {it[55] for it in found} == {"XYZ"}
        assert {it[17].rpartition(".")[0] for it in found} == {"XYZ", "XYZ.2"}


def test_no_session_begins_before_all_journals_are_known(tmp_path: pathlib.Path) -> None:
    """A journal that was put back: what became of a member's messages isn't known then."""
    port, folder = served.free_port(), tmp_path / "venue"
    day = fixing.day_of(port, "ALICE")
    with on(tmp_path, day, port, "ALICE") as (venue, [first]):
        venue.do("start")
        first.enter("a1", "1", 10, "2.00")
        first.take(lambda it: it[35] == "8")
        before = (folder / "XYZ.journal.csv").read_bytes().split(b"\0")[0]
        first.enter("a2", "1", 20, "2.00")
        first.take(lambda it: it.get(11) == "a2")
    whole = (folder / "XYZ.journal.csv").read_bytes()
    (folder / "XYZ.journal.csv").write_bytes(before)
    with served.served(tmp_path, day) as venue:
        with pytest.raises(fixing.Closed):
            first.logon(fixing.token_of(folder, "ALICE"))
        first.number -= 1
        (folder / "XYZ.journal.csv").write_bytes(whole)
        venue.do("resume")
        last = time.monotonic() + fixing.SECONDS
        while not is_taken(first, fixing.token_of(folder, "ALICE")):
            assert time.monotonic() < last
            time.sleep(0.2)
        first.replace("a2", "a3", "1", 30, "2.01")
        assert first.take(lambda it: it.get(11) == "a3")[17] == "XYZ.3"


def is_taken(peer: Peer, password: str) -> bool:
    """Whether a session takes a Logon now."""
    try:
        peer.logon(password)
        return True
    except fixing.Closed:
        peer.number -= 1
        return False


def test_a_venue_for_members_by_fix_alone(tmp_path: pathlib.Path) -> None:
    port = served.free_port()
    day = fixing.day_of(port, "ALICE").replace("[members]", "[members]\nopen = false")
    with on(tmp_path, day, port, "ALICE") as (venue, [peer]):
        assert not venue.code
        venue.do("start")
        peer.enter("a1", "1", 10, "2.00")
        assert reports(peer) == [("XYZ.1", "a1", "0", "10")]


def test_who_is_too_fast_is_read_later(tmp_path: pathlib.Path) -> None:
    port = served.free_port()
    day = fixing.day_of(port, "ALICE").replace("100000\nburst = 100000", "20\nburst = 10")
    with on(tmp_path, day, port, "ALICE") as (venue, [peer]):
        venue.do("start")
        begin = time.monotonic()
        for number in range(30):
            peer.enter(f"a{number}", "1", 1, "2.00")
        peer.take(lambda it: it.get(11) == "a29")
        assert 0.8 < time.monotonic() - begin < 20
        assert [it[150] for it in peer.got] == ["0"] * 30


@pytest.mark.parametrize("side", ["1", "2"])
def test_limits_of_a_round_hold(tmp_path: pathlib.Path, side: str) -> None:
    port = served.free_port()
    day = fixing.day_of(port, "ALICE") + '[[round]]\nshares = 0\nmoney = "1.00"\n'
    with on(tmp_path, day, port, "ALICE") as (venue, [peer]):
        venue.do("start")
        peer.enter("a1", side, 10, "2.00")
        found = peer.take(lambda it: it[35] == "8")
        assert (found[150], found[39], found[17]) == ("8", "8", "R.ALICE.2")

"""What is sent again after the venue was killed, as it was sent first: its time, and what a client
isn't told otherwise.
"""
import datetime
import pathlib
import time

import fixing
import psutil
import pytest
import served
from callauction.fix.reports import MOST_AGE
from fix_messages import TIME, answer, order, picked
from fix_venues import Killable, killable, reset, until_logged
from fixing import FixFields, FixMessage, Peer


def heard_again(day: Killable, peer: Peer, folder: pathlib.Path, client: str) -> FixMessage:
    """The report of an order that is sent again once the venue was killed."""
    day.again()
    again = Peer(peer.port, peer.member)
    again.number, again.sent = peer.number, peer.sent
    again.logon(fixing.token_of(folder, peer.member))
    found = again.take(lambda it: it.get(11) == client)
    assert found[43] == "Y"
    return found


def test_when_a_message_was_sent_first(tmp_path: pathlib.Path) -> None:
    """That is its 52 of then, to a millisecond, though the report isn't written before it is sent.
    """
    port, folder = served.free_port(), tmp_path / "venue"
    with killable(tmp_path, fixing.day_of(port, "ALICE")) as day:
        peer = Peer(port, "ALICE")
        peer.logon(fixing.token_of(folder, "ALICE"))
        peer.enter("a1", "1", 10, "2.00")
        first = peer.take(lambda it: it.get(11) == "a1")
        assert len(first[60]) == len(first[52]) == 21
        again = heard_again(day, peer, folder, "a1")
        assert (again[122], again[60]) == (first[52], first[60])


def test_when_a_late_message_was_sent_first(tmp_path: pathlib.Path) -> None:
    """The program has answered late: 60 is when the order was taken, 52 when that was sent."""
    port, folder = served.free_port(), tmp_path / "venue"
    with killable(tmp_path, fixing.day_of(port, "ALICE")) as day:
        peer = Peer(port, "ALICE")
        peer.logon(fixing.token_of(folder, "ALICE"))
        [program] = psutil.Process(day.venue.child.pid).children()
        program.suspend()
        peer.enter("a1", "1", 10, "2.00")
        until_logged(folder, '"a1"')
        time.sleep(MOST_AGE + 0.5)
        resumed = fixing.stamp()
        program.resume()
        first = peer.take(lambda it: it.get(11) == "a1")
        assert first[60] < resumed <= first[52]
        again = heard_again(day, peer, folder, "a1")
        assert (again[122], again[60]) == (first[52], first[60])


def test_a_reject_is_sent_again(tmp_path: pathlib.Path) -> None:
    """The line was cut before it came: it is no message of the session in place of which a gap is
    enough. So also after a kill, and what is around it isn't sent again.
    """
    port, folder = served.free_port(), tmp_path / "venue"
    with killable(tmp_path, fixing.day_of(port, "ALICE")) as day:
        peer = Peer(port, "ALICE")
        peer.logon(fixing.token_of(folder, "ALICE"))
        peer.say("1", [(112, "t1")])
        peer.enter("a1", "1", 10, "2.00", (99, "2.00"))
        first = peer.take(lambda it: it[35] == "3")
        peer.enter("a2", "1", 10, "2.00")
        peer.take(lambda it: it.get(11) == "a2")
        peer.say("2", [(7, "1"), (16, "0")])
        found = [dict(fixing.parsed(peer.whole())) for _ in range(3)]
        assert [(it[35], it[34], it[43]) for it in found] == [
            ("4", "1", "Y"),
            ("3", "3", "Y"),
            ("8", "4", "Y"),
        ]
        assert (first[45], first[371], first[372]) == ("3", "99", "D")
        told = {tag: first[tag] for tag in (34, 45, 58, 371, 372, 373)} | {122: first[52]}
        assert told.items() <= found[1].items()
        day.again()
        again = Peer(port, "ALICE")
        again.number, again.sent = peer.number, peer.sent
        again.logon(fixing.token_of(folder, "ALICE"))
        assert told.items() <= again.take(lambda it: it[35] == "3").items()


OTHER_DAY = "it was sent first before this day began: empty your store each day"
IS_USED = "this ClOrdID was used"
"""What is said of an order that is sent again with 97=Y, and without."""
CANCEL: FixFields = [(41, "none"), (11, "f1"), (55, "XYZ"), (54, "1"), (60, TIME)]
REFUSED: dict[str, tuple[str, FixFields]] = {
    "by the venue": ("D", order("a1", "1", "10", (40, "1"), (59, "3"))),
    "by the program": ("D", order("a2", "1", "10", (40, "2"), (44, "99.00"))),
    "a cancel": ("F", CANCEL),
}
"""Messages that are refused."""


def told(peer: Peer, name: str, *head: tuple[int, str]) -> tuple[str, ...]:
    """What is answered to a message that is refused; its id is that of an answer if it has come
    before.
    """
    number, found = peer.number, answer(peer, *REFUSED[name], head=[*head])
    if head:
        event = picked(found, 17) if found[35] == "8" else picked(found, 20001)
        assert event[0].startswith("R.ALICE.") and event[0].endswith(f".{number}")
    return picked(found, 35, 11, 41, 37, 150, 39, 102, 103, 58, 38, 40, 44)


def test_what_was_refused_and_is_sent_again(tmp_path: pathlib.Path) -> None:
    """It is told why once more, as it was first: also after a kill, and a reset. What isn't sent
    again has an id that was used.
    """
    port, folder = served.free_port(), tmp_path / "venue"
    with killable(tmp_path, fixing.day_of(port, "ALICE")) as day:
        peer = Peer(port, "ALICE")
        peer.logon(fixing.token_of(folder, "ALICE"))
        first = {it: told(peer, it) for it in REFUSED}
        assert [it[6:8] for it in first.values()] == [("", "11"), ("", "99"), ("1", "")]
        for _ in range(2):
            assert {it: told(peer, it, (97, "Y")) for it in REFUSED} == first
            day.again()
            peer.logon(fixing.token_of(folder, "ALICE"))
            assert {it: told(peer, it, (97, "Y")) for it in REFUSED} == first
            assert {told(peer, it)[8] for it in REFUSED} == {IS_USED}
            peer.close()
            assert reset(day.venue, "ALICE")[0] == 200
            peer = Peer(port, "ALICE")
            peer.logon(fixing.token_of(folder, "ALICE"))
            peer.all()
        other = answer(peer, "D", order("f1", "1", "10", (40, "1")), [(97, "Y")])
        assert picked(other, 150, 103, 58) == ("8", "6", IS_USED)


class Former(Peer):
    """A client whose store has messages of the day before, and so its number."""

    def __init__(self, port: int, member: str, former: list[tuple[str, str, FixFields]]) -> None:
        super().__init__(port, member)
        self._former = former
        self.number = len(former) + 1

    def _again(self, begin: int) -> None:
        for number, (first, kind, pairs) in enumerate(self._former[begin - 1 :], begin):
            head = [(43, "Y"), (122, first)]
            self.socket.sendall(self.written(kind, number, pairs, head))
        gap = [(123, "Y"), (36, str(self.number))]
        self.socket.sendall(self.written("4", number + 1, gap, [(43, "Y")]))


def test_what_was_for_another_day(tmp_path: pathlib.Path) -> None:
    """The store that a client should have emptied gives it again to a venue that asks for all: it
    isn't done today. What waited for the first Logon of this day is.
    """
    port, folder, before = served.free_port(), tmp_path / "venue", "20260102-09:00:00.123"
    day = fixing.day_of(port, "ALICE")
    with served.served(tmp_path, day) as venue:
        venue.do("start")
        limit: FixFields = [(40, "2"), (44, "2.00")]
        all_orders: FixFields = [(11, "q1"), (530, "7"), (60, before)]
        former = [
            (fixing.stamp(), "D", order("a1", "1", "10", *limit)),
            (before, "D", order("a2", "1", "10", *limit)),
            (before, "F", [(41, "a1"), (11, "f1"), (55, "XYZ"), (54, "1"), (60, before)]),
            (before, "G", [(41, "a1"), *order("g1", "1", "99", *limit)]),
            (before, "q", all_orders),
            (before, "H", [(11, "a1"), (55, "XYZ"), (54, "1")]),
        ]
        peer = Former(port, "ALICE", former)
        peer.logon(fixing.token_of(folder, "ALICE"))
        peer.take(lambda it: it.get(17) == "R.ALICE.6")
        assert [picked(it, 35, 11, 150, 39, 531, 58) for it in peer.got] == [
            ("8", "a1", "0", "0", "", ""),
            ("8", "a2", "8", "8", "", OTHER_DAY),
            ("9", "f1", "", "0", "", OTHER_DAY),
            ("9", "g1", "", "0", "", OTHER_DAY),
            ("r", "q1", "", "", "0", OTHER_DAY),
            ("8", "a1", "I", "0", "", ""),
        ]


def ago(seconds: float) -> str:
    """The time so many seconds ago as FIX has it."""
    then = datetime.datetime.now(datetime.timezone.utc) - datetime.timedelta(seconds=seconds)
    return then.strftime("%Y%m%d-%H:%M:%S.%f")[:-3]


def test_what_was_for_a_day_that_has_just_ended(tmp_path: pathlib.Path) -> None:
    """It isn't done either, and its ClOrdID isn't used by that: the client may send it anew."""
    port, folder = served.free_port(), tmp_path / "venue"
    earlier, limit = ago(60), [(40, "2"), (44, "2.00")]
    with served.served(tmp_path, fixing.day_of(port, "ALICE")) as venue:
        venue.do("start")
        peer = Former(port, "ALICE", [(earlier, "D", order("a1", "1", "10", *limit))] * 2)
        peer.logon(fixing.token_of(folder, "ALICE"))
        found = peer.take(lambda it: it.get(11) == "a1")
        assert picked(found, 17, 150, 58) == ("R.ALICE.1", "8", OTHER_DAY)
        peer.all()
        peer.enter("a1", "1", 10, "2.00")
        assert peer.take(lambda it: it.get(150) == "0")[11] == "a1"


@pytest.mark.parametrize("behind", [100, -100])
def test_whose_clock_is_wrong_sends_again(
    tmp_path: pathlib.Path, behind: int, monkeypatch: pytest.MonkeyPatch
) -> None:
    """An order of this day that the venue hasn't had is done, by a clock that is nearly as wrong as
    a session's may be; that of a day before isn't.
    """
    monkeypatch.setattr(fixing, "stamp", lambda: ago(behind))
    port, folder = served.free_port(), tmp_path / "venue"
    limit: FixFields = [(40, "2"), (44, "2.00")]
    with served.served(tmp_path, fixing.day_of(port, "ALICE")) as venue:
        venue.do("start")
        former = [
            (ago(behind), "D", order("a1", "1", "10", *limit)),
            (ago(behind + 30), "D", order("a2", "1", "10", *limit)),
        ]
        peer = Former(port, "ALICE", former)
        peer.logon(fixing.token_of(folder, "ALICE"))
        peer.all()
        found = sorted(picked(it, 11, 150, 58) for it in peer.got)
        assert found == [("a1", "0", ""), ("a2", "8", OTHER_DAY)]

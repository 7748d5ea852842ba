"""A venue that is killed while one of its logs is ahead of the other: a message is settled only
where it or its answer is written, and each is done and answered once.
"""
import pathlib
import time
from collections.abc import Callable

import fixing
import held
import served
from fix_clients import GapPeer
from fix_messages import picked
from fix_venues import until_logged
from fixing import Peer

Play = Callable[[pathlib.Path, served.Served, Peer], None]


def killed(folder: pathlib.Path, play: Play) -> tuple[Peer, list[int], str]:
    """What a member was told over a kill after `play`, once a last order of it is answered: its
    client, the numbers from which the venue asked for messages, and the journal.
    """
    port, log = served.free_port(), folder / "venue"
    (folder / "day.toml").write_text(fixing.day_of(port, "ALICE", sync="true"), "utf-8")
    words = ["--day", folder / "day.toml", "--folder", log, "--port", served.free_port()]
    peer = GapPeer(port, "ALICE")
    with held.held_venue(*words) as venue:
        venue.do("start")
        peer.logon(fixing.token_of(log, "ALICE"))
        peer.enter("a1", "1", 10, "2.00")
        peer.take(lambda it: it.get(11) == "a1")
        play(log, venue, peer)
    for name in (held.LOG, held.SENT):
        held.hold_of(log / name).unlink(missing_ok=True)
    with held.held_venue(*words) as venue:
        peer.close()
        peer.logon(fixing.token_of(log, "ALICE"))
        peer.enter("last", "1", 10, "2.00")
        peer.take(lambda it: it.get(11) == "last")
        peer.all()
        status, journal = venue.call("api/download/journal/XYZ", token=venue.operator)
        assert status == 200
        return peer, peer.asked, journal


def until_sent(folder: pathlib.Path, peer: Peer, text: str) -> None:
    """Waits until `fix.sent` has a text. Raises AssertionError."""
    for _ in range(600):
        if text in (folder / held.SENT).read_text("ascii"):
            return
        peer.all(0.1)
    raise AssertionError(text)


def told(peer: Peer) -> list[tuple[str, ...]]:
    """What was said to a client, by its ids."""
    return sorted(picked(it, 11, 35, 39) for it in peer.got)


def entered(journal: str) -> int:
    """How many orders a journal has."""
    return journal.count(",enter,")


def cancel(peer: Peer, client: str) -> int:
    """Cancels an order that there isn't: the number of the message."""
    return peer.cancel("none", client, "1")


def overtaken(folder: pathlib.Path, venue: served.Served, peer: Peer) -> None:
    """Orders wait for the venue's log while the answers to what came after them are written."""
    held.hold_of(folder / held.LOG).touch()
    for client in ("a2", "a3"):
        peer.enter(client, "1", 10, "2.00")
    cancel(peer, "f1")
    peer.say("H", [(11, "none"), (55, "XYZ"), (54, "1")])
    peer.enter("a4", "1", 10, "2.00", (99, "2.00"))  # 35=3
    peer.take(lambda it: it[35] == "3")
    until_sent(folder, peer, f"R.ALICE.{peer.number - 2}")
    assert '"a2"' not in (folder / held.LOG).read_text("utf-8")


WRONG = ("", "3", "")
"""The Reject of what QuickFIX finds wrong."""
EACH_ONCE = [
    WRONG,
    ("a1", "8", "0"),
    ("a2", "8", "0"),
    ("a3", "8", "0"),
    ("f1", "9", "8"),
    ("last", "8", "0"),
    ("none", "8", "8"),
]
"""An answer to each message: its ClOrdID, its type, and what it says of the order."""


def test_an_answer_overtakes_orders(tmp_path: pathlib.Path) -> None:
    """They are asked for again, and what came after them isn't done once more; what QuickFIX finds
    wrong it says again.
    """
    peer, asked, journal = killed(tmp_path, overtaken)
    assert asked == [3]
    assert told(peer) == sorted([*EACH_ONCE, WRONG])
    assert entered(journal) == 4


def left_behind(folder: pathlib.Path, venue: served.Served, peer: Peer) -> None:
    """An answer waits for its file while an order that came after it is in the venue's log."""
    held.hold_of(folder / held.SENT).touch()
    cancel(peer, "f1")
    peer.enter("a4", "1", 10, "2.00", (99, "2.00"))  # 35=3
    peer.say("H", [(11, "none"), (55, "XYZ"), (54, "1")])
    peer.enter("a2", "1", 10, "2.00")
    peer.enter("a3", "1", 10, "2.00")
    until_logged(folder, '"a3"')
    assert "f1" not in (folder / held.SENT).read_text("ascii")
    assert [it for it in peer.all() if it.get(11) != "a1"] == []


def test_an_answer_is_behind_orders(tmp_path: pathlib.Path) -> None:
    """What it answers is asked for again, and the orders aren't done once more."""
    peer, asked, journal = killed(tmp_path, left_behind)
    assert asked == [3]
    assert told(peer) == sorted(EACH_ONCE)
    assert entered(journal) == 4


def of_later(folder: pathlib.Path, venue: served.Served, peer: Peer) -> None:
    """An order comes after a cancel and a look that name it, and aren't answered before the end."""
    held.hold_of(folder / held.SENT).touch()
    peer.cancel("a2", "f1", "1")
    peer.say("H", [(11, "a2"), (55, "XYZ"), (54, "1"), (790, "h1")])
    peer.enter("a2", "1", 10, "2.00")
    until_logged(folder, '"a2"')


def test_what_comes_again_is_of_its_time(tmp_path: pathlib.Path) -> None:
    """A cancel that comes again doesn't find an order that came after it."""
    peer, asked, journal = killed(tmp_path, of_later)
    assert asked == [3]
    answers = {it[17] if it[35] == "8" else it[20001]: it for it in peer.got}
    assert picked(answers["R.ALICE.3"], 11, 35, 102) == ("f1", "9", "1")
    assert picked(answers["R.ALICE.4"], 790, 37, 39) == ("h1", "NONE", "8")
    assert entered(journal) == 3 and ",delete," not in journal


def named_twice(folder: pathlib.Path, venue: served.Served, peer: Peer) -> None:
    """An order waits for the venue's log while one of the same id is refused for that."""
    held.hold_of(folder / held.LOG).touch()
    peer.enter("a2", "1", 10, "2.00")
    peer.enter("a2", "1", 20, "2.00")
    until_sent(folder, peer, "R.ALICE.4")


def test_an_id_is_of_the_first(tmp_path: pathlib.Path) -> None:
    """The first order comes again, and its id is its own."""
    peer, asked, journal = killed(tmp_path, named_twice)
    assert asked == [3]
    found = [picked(it, 35, 17, 39, 103) for it in peer.got if it.get(11) == "a2"]
    assert sorted(found) == [("8", "R.ALICE.4", "8", "6"), ("8", "XYZ.2", "0", "")]
    assert ",enter,bid,10," in journal and ",enter,bid,20," not in journal


def behind_an_answer(folder: pathlib.Path, venue: served.Served, peer: Peer) -> None:
    """An order is changed and cancelled while the venue's log waits, an answer takes the number
    that was meant for the first of the two, and neither of their reports is written.
    """
    log, sent = (held.hold_of(folder / it) for it in (held.LOG, held.SENT))
    log.touch()
    peer.replace("a1", "c1", "1", 20, "2.00")
    peer.cancel("a1", "c2", "1")
    cancel(peer, "f1")
    peer.take(lambda it: it.get(11) == "f1")
    sent.touch()
    log.unlink()
    until_done(folder, ",delete,")


def until_done(folder: pathlib.Path, text: str) -> None:
    """Waits until the journal has a text. Raises AssertionError."""
    for _ in range(600):
        if text in (folder / "XYZ.journal.csv").read_text("ascii"):
            return
        time.sleep(0.1)
    raise AssertionError(text)


def test_an_order_is_told_in_its_order(tmp_path: pathlib.Path) -> None:
    """Its change comes before its end, though a start knows of both what number they were to have.
    """
    peer, asked, journal = killed(tmp_path, behind_an_answer)
    assert asked == []
    assert [it[11] for it in peer.got] == ["a1", "f1", "c1", "c2", "last"]
    assert [it.get(150, "") for it in peer.got] == ["0", "", "5", "4", "0"]
    assert journal.count(",change,") == journal.count(",delete,") == 1

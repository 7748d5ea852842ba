"""ClOrdIDs: each is of one message of the day, also where that was refused, also after a restart;
what comes again as PossResend is answered as it was, and not done again.
"""
import pathlib
import re
import time

import fixing
import pytest
import served
from callauction.venue import Client, copies
from fix_messages import NO_ORDER, picked
from fix_venues import killable, on, reset
from fixing import FixFields, FixMessage, Peer

USED = "this ClOrdID was used"
MADE_BEFORE = "its TransactTime (60) is before this day began, of which nothing is done today"
AGAIN = (97, "Y")


def answer(
    peer: Peer, kind: str, client: str, pairs: FixFields, *head: tuple[int, str]
) -> FixMessage:
    """The answer to a message with this id."""
    peer.say(kind, [(11, client), *pairs, (60, fixing.stamp())], [*head])
    return peer.take(lambda it: it.get(11) == client and it[35] in "89r")


def status(peer: Peer, client: str, side: str) -> FixMessage:
    """The answer to an OrderStatusRequest."""
    peer.say("H", [(11, client), (55, "XYZ"), (54, side)])
    return peer.take(lambda it: it.get(11) == client and it[35] == "8")


ORDER: FixFields = [(55, "XYZ"), (54, "1"), (38, "10"), (40, "2"), (44, "2.00")]
REFUSED: dict[str, tuple[str, FixFields]] = {
    "tick": ("D", [*ORDER[:-1], (44, "2.001")]),
    "quantity": ("D", [*ORDER[:2], (38, "0"), *ORDER[3:]]),
    "symbol": ("D", [(55, "NONE"), *ORDER[1:]]),
    "cancel": ("F", [(41, "none"), *ORDER[:2]]),
    "replace": ("G", [(41, "none"), *ORDER]),
    "mass": ("q", [(530, "7"), (55, "XYZ")]),
}
"""Messages that are refused."""


def test_an_id_that_was_refused_is_used(tmp_path: pathlib.Path) -> None:
    port = served.free_port()
    with killable(tmp_path, fixing.day_of(port, "ALICE")) as day:
        peer = Peer(port, "ALICE")
        peer.logon(fixing.token_of(tmp_path / "venue", "ALICE"))
        for client, (kind, pairs) in REFUSED.items():
            first = answer(peer, kind, client, pairs)
            assert USED not in first[58], first
        for how in ("", "begun again", "reset"):
            if how == "reset":
                assert reset(day.venue, "ALICE")[0] == 200
                peer = Peer(port, "ALICE")
            if how:
                day.again()
                peer.logon(fixing.token_of(tmp_path / "venue", "ALICE"))
            for client in REFUSED:
                found = answer(peer, "D", client, ORDER)
                assert (found[150], found[103], found[58]) == ("8", "6", USED), client
        assert answer(peer, "D", "new", ORDER)[150] == "0"


def test_an_id_is_of_the_day_with_all_its_rounds(tmp_path: pathlib.Path) -> None:
    """A session goes on over rounds, and so do its ids; each entry has its own in all of them."""
    port = served.free_port()
    with on(tmp_path, fixing.day_of(port, "ALICE"), port, "ALICE") as (venue, [peer]):
        venue.do("start")
        assert answer(peer, "D", "a1", ORDER)[17] == "XYZ.1"
        venue.do("uncross")
        venue.do("next", round=2)
        venue.do("start")
        found = answer(peer, "D", "a1", ORDER)
        while found[39] == "C":  # the first one's end
            found = peer.take(lambda it: it.get(11) == "a1")
        assert picked(found, 150, 103, 58) == ("8", "6", USED)
        assert answer(peer, "D", "a2", ORDER)[17] == "XYZ.round2.1"


@pytest.mark.parametrize("is_begun_again", [False, True])
def test_orders_of_a_round_that_is_over(tmp_path: pathlib.Path, is_begun_again: bool) -> None:
    """What is asked of them is answered by what they came to; nothing changes them, or others."""
    port, folder = served.free_port(), tmp_path / "venue"
    with killable(tmp_path, fixing.day_of(port, "ALICE")) as day:
        peer = Peer(port, "ALICE")
        peer.logon(fixing.token_of(folder, "ALICE"))
        assert answer(peer, "D", "a1", ORDER)[17] == "XYZ.1"
        ask: FixFields = [(55, "XYZ"), (54, "2"), (38, "6"), (40, "2"), (44, "2.00")]
        assert answer(peer, "D", "a2", ask)[17] == "XYZ.2"
        assert answer(peer, "D", "a3", [*ask[:-1], (44, "3.00")])[17] == "XYZ.3"
        day.venue.do("uncross")
        day.venue.do("next", round=2)
        day.venue.do("start")
        if is_begun_again:
            day.again()
            peer.logon(fixing.token_of(folder, "ALICE"))
        peer.all()
        assert answer(peer, "D", "b1", ORDER)[37] == "XYZ.round2.1"
        text = "it was of round 1, which is over"
        for client, side, result in (
            ("a1", "1", ("XYZ.1", "I", "C", "6", "0")),
            ("a2", "2", ("XYZ.2", "I", "2", "6", "0")),
            ("a3", "2", ("XYZ.3", "I", "C", "0", "0")),
        ):
            found = status(peer, client, side)
            assert picked(found, 37, 150, 39, 14, 151, 58) == (*result, text)
        found = answer(peer, "D", "a2", ask, AGAIN)
        assert picked(found, 37, 150, 39, 14, 58) == ("XYZ.2", "I", "2", "6", text)
        found = answer(peer, "F", "c1", [(41, "a1"), (55, "XYZ"), (54, "1")])
        ended = "the order has expired, and was of round 1, which is over"
        assert picked(found, 35, 37, 39, 102, 58) == ("9", "XYZ.1", "C", "0", ended)
        found = answer(peer, "G", "c2", [(41, "a2"), *ask])
        ended = "the order is filled, and was of round 1, which is over"
        assert picked(found, 35, 37, 39, 102, 58) == ("9", "XYZ.2", "2", "0", ended)
        found = status(peer, "b1", "1")
        assert picked(found, 37, 39, 151, 58) == ("XYZ.round2.1", "0", "10", "")


def test_a_round_that_begins_while_an_order_is_looked_for(tmp_path: pathlib.Path) -> None:
    """The answer waits for what the uncross before it did; its order has ended with its round."""
    port, folder, program = served.free_port(), tmp_path / "venue", tmp_path / "slow"
    text = '#!/bin/sh\ncase "$*" in *--journal*) ;; *) sleep 3 ;; esac\nexec "{}" "$@"\n'
    program.write_text(text.format(served.program()))
    program.chmod(0o755)
    (tmp_path / "day.toml").write_text(fixing.day_of(port, "ALICE"))
    words = ["--day", tmp_path / "day.toml", "--folder", folder, "--port", served.free_port()]
    venue = served.started(*words, CALLBOARD=str(program))
    try:
        peer = Peer(port, "ALICE")
        peer.logon(fixing.token_of(folder, "ALICE"))
        venue.do("start")
        assert answer(peer, "D", "a1", ORDER)[17] == "XYZ.1"
        venue.do("uncross")
        peer.say("H", [(11, "a1"), (55, "XYZ"), (54, "1")])
        time.sleep(1.0)  # it is looked for
        venue.do("next", round=2)
        found = peer.take(lambda it: it.get(150) == "I")
        text = "it was of round 1, which is over"
        assert picked(found, 37, 39, 151, 58) == ("XYZ.1", "C", "0", text)
        venue.end()
    finally:
        venue.child.kill()
        venue.child.communicate()


def test_a_possible_resend_of_another_day(tmp_path: pathlib.Path) -> None:
    """By its TransactTime it was made before: it isn't done today, and its ClOrdID isn't used."""
    port = served.free_port()
    with on(tmp_path, fixing.day_of(port, "ALICE"), port, "ALICE") as (venue, [peer]):
        venue.do("start")
        peer.say("D", [(11, "a1"), *ORDER, (60, "20260102-09:00:00.123")], [AGAIN])
        found = peer.take(lambda it: it.get(11) == "a1")
        assert picked(found, 17, 150, 39, 58) == ("R.ALICE.2", "8", "8", MADE_BEFORE)
        found = status(peer, "a1", "1")
        assert picked(found, 150, 39, 103, 58) == ("I", "8", "5", NO_ORDER)
        assert answer(peer, "D", "a1", ORDER, AGAIN)[17] == "XYZ.1"


def test_ids_after_resets(tmp_path: pathlib.Path) -> None:
    """One of several answers to the message 2 has another id than the answer to a message after the
    second reset; the orders came by the pages.
    """
    port = served.free_port()
    with on(tmp_path, fixing.day_of(port, "ALICE"), port, "ALICE") as (venue, [peer]):
        token = fixing.token_of(tmp_path / "venue", "ALICE")
        venue.do("start")
        with Client(venue.url, token) as me:
            for _ in range(4):
                me.enter("bid", 10, "2.00")
        assert peer.say("AF", [(584, "s1"), (585, "7")]) == 2
        ids = [it[17] for it in peer.all() if it.get(150) == "I"]
        assert len(ids) == 4
        for _ in range(2):
            assert reset(venue, "ALICE")[0] == 200
            peer = Peer(port, "ALICE")
            peer.logon(token)
        for number in range(3):
            peer.say("H", [(11, f"none{number}"), (55, "XYZ"), (54, "1")])
        ids += [it[17] for it in peer.all() if it.get(150) == "I"]
        assert len(ids) == len({*ids}) == 7, ids


def test_a_store_that_a_reset_did_not_empty(tmp_path: pathlib.Path) -> None:
    """What the client sends again from it as PossDup isn't done again; it is told what became of
    it, or why it was refused.
    """
    port = served.free_port()
    with on(tmp_path, fixing.day_of(port, "ALICE"), port, "ALICE") as (venue, [peer]):
        token = fixing.token_of(tmp_path / "venue", "ALICE")
        venue.do("start")
        first = answer(peer, "D", "d1", ORDER)
        assert first[150] == "0"
        refused = answer(peer, "D", "d2", [*ORDER[:-1], (44, "2.001")])
        assert reset(venue, "ALICE")[0] == 200
        peer = Peer(port, "ALICE")
        peer.logon(token)
        peer.all()
        again = (43, "Y"), (122, fixing.stamp())
        found = answer(peer, "D", "d1", ORDER, *again)
        assert (found[150], found[39], found[37]) == ("I", "0", first[37])
        found = answer(peer, "D", "d2", ORDER, *again)
        assert (found[150], found[103], found[58]) == ("8", refused[103], refused[58])
        for client in ("d1", "d2"):
            assert answer(peer, "D", client, ORDER)[58] == USED


@pytest.mark.parametrize("is_begun_again", [False, True])
def test_a_mass_cancel_is_done_once(tmp_path: pathlib.Path, is_begun_again: bool) -> None:
    port = served.free_port()
    with killable(tmp_path, fixing.day_of(port, "ALICE")) as day:
        peer = Peer(port, "ALICE")
        peer.logon(fixing.token_of(tmp_path / "venue", "ALICE"))
        asked: FixFields = [(530, "1"), (55, "XYZ")]
        assert answer(peer, "D", "d1", ORDER)[150] == "0"
        peer.say("q", [(11, "q1"), *asked, (60, fixing.stamp())])
        first = peer.take(lambda it: it[35] == "r")
        assert (first[531], first[533]) == ("1", "1")
        assert answer(peer, "D", "d2", ORDER)[150] == "0"
        if is_begun_again:
            day.again()
            peer.logon(fixing.token_of(tmp_path / "venue", "ALICE"))
        found = answer(peer, "q", "q1", asked, AGAIN)
        of_message = {34, 37, 52, 60, 9, 10}
        assert found[37] != first[37]
        assert {it: found[it] for it in found if it not in of_message} == {
            it: first[it] for it in first if it not in of_message
        }
        for client in ("q1", "d1"):
            found = answer(peer, "q", client, asked)
            assert (found[531], found[532], found[533], found[58]) == ("0", "99", "0", USED)
        assert answer(peer, "D", "d3", [*ORDER[:-1], (44, "2.001")])[150] == "8"
        if is_begun_again:
            day.again()
            peer.logon(fixing.token_of(tmp_path / "venue", "ALICE"))
        for client in ("d1", "d3"):
            found = answer(peer, "q", client, asked, AGAIN)
            assert (found[531], found[532], found[533], found[58]) == ("0", "99", "0", USED)
        peer.say("H", [(11, "d2"), (55, "XYZ"), (54, "1")])
        assert peer.take(lambda it: it.get(150) == "I")[39] == "0"


def restored(folder: pathlib.Path, name: str, port: int) -> tuple[list[tuple[str, ...]], str]:
    """The ids of what ALICE does in a folder that is restored from a copy, and of its mark: before
    and after a kill the same.
    """
    (folder / name).mkdir()
    copies.restore(folder / "copy", folder / name / "venue", served.program())
    ids: list[list[tuple[str, ...]]] = []
    with killable(folder / name, fixing.day_of(port, "ALICE")) as day:
        assert reset(day.venue, "ALICE")[0] == 200
        peer = Peer(port, "ALICE")
        peer.logon(fixing.token_of(folder / name / "venue", "ALICE"))
        peer.all()
        answer(peer, "D", "b1", [(55, "XYZ"), (54, "2"), *ORDER[2:]])
        answer(peer, "D", "b2", ORDER)
        day.venue.do("uncross")
        peer.take(lambda it: it.get(150) == "F" and it[11] == "b1")
        day.venue.do("next", round=2)
        day.venue.do("start")
        peer.take(lambda it: it.get(150) == "C")
        answer(peer, "D", "b3", ORDER)
        ids.append([picked(it, 11, 17, 37, 880) for it in peer.got])
        day.again()
        assert reset(day.venue, "ALICE")[0] == 200
        again = Peer(port, "ALICE")
        again.logon(fixing.token_of(folder / name / "venue", "ALICE"))
        ids.append([picked(it, 11, 17, 37, 880) for it in again.all()])
    assert ids[0] == ids[1]
    return ids[0], ids[0][1][1].split(".")[1]


def test_ids_after_a_restore(tmp_path: pathlib.Path) -> None:
    """What was done after the copy was made is lost, and its ids are no other's: not of the day
    that is restored, nor of another that is restored from the same copy.
    """
    port = served.free_port()
    with on(tmp_path, fixing.day_of(port, "ALICE"), port, "ALICE") as (venue, [peer]):
        venue.do("start")
        assert answer(peer, "D", "a1", ORDER)[17] == "XYZ.1"
        venue.do("uncross")
        copies.backup(tmp_path / "venue", tmp_path / "copy")
        venue.do("start")
        assert answer(peer, "D", "a2", ORDER)[17] == "XYZ.3"
    found, mark = restored(tmp_path, "first", port)
    assert re.fullmatch("v[0-9a-f]{6}", mark)
    assert found == [
        ("a1", "XYZ.1", "XYZ.1", ""),
        ("b1", f"XYZ.{mark}.3", f"XYZ.{mark}.2", ""),
        ("b2", f"XYZ.{mark}.4", f"XYZ.{mark}.3", ""),
        ("a1", f"XYZ.{mark}.5.1b", "XYZ.1", f"XYZ.{mark}.1"),
        ("b1", f"XYZ.{mark}.5.1a", f"XYZ.{mark}.2", f"XYZ.{mark}.1"),
        ("b2", f"XYZ.{mark}.end.x3", f"XYZ.{mark}.3", ""),
        ("b3", f"XYZ.round2.{mark}.1", f"XYZ.round2.{mark}.1", ""),
    ]
    assert restored(tmp_path, "second", port)[1] != mark


def ends(folder: pathlib.Path, port: int, *rounds: int) -> list[list[str]]:
    """The ids of the ends of ALICE's orders in a folder that is restored from a copy, once these
    rounds have begun there: before and after a kill.
    """
    copies.restore(folder.parent / "copy", folder / "venue", served.program())
    found = []
    with killable(folder, fixing.day_of(port, "ALICE")) as day:
        for number in rounds:
            day.venue.do("uncross")
            day.venue.do("next", round=number)
        for _ in range(2):
            assert reset(day.venue, "ALICE")[0] == 200
            peer = Peer(port, "ALICE")
            peer.logon(fixing.token_of(folder / "venue", "ALICE"))
            found.append([it[17] for it in peer.all() if it.get(150) == "C"])
            day.again()
    return found


@pytest.mark.parametrize("is_over", [False, True])
def test_what_ends_after_a_restore(tmp_path: pathlib.Path, is_over: bool) -> None:
    """The end of a round that was lost is another one; one that the copy has stays what it was."""
    port = served.free_port()
    with on(tmp_path, fixing.day_of(port, "ALICE"), port, "ALICE") as (venue, [peer]):
        venue.do("start")
        assert answer(peer, "D", "a1", ORDER)[17] == "XYZ.1"
        venue.do("uncross")
        if not is_over:
            copies.backup(tmp_path / "venue", tmp_path / "copy")
        venue.do("next", round=2)
        assert peer.take(lambda it: it.get(150) == "C")[17] == "XYZ.end.x1"
        if is_over:
            copies.backup(tmp_path / "venue", tmp_path / "copy")
    (tmp_path / "again").mkdir()
    before, after = ends(tmp_path / "again", port, *([] if is_over else [2]))
    assert before == after and len(before) == 1
    form = "XYZ.end.x1" if is_over else r"XYZ\.v[0-9a-f]{6}\.end\.x1"
    assert re.fullmatch(form, before[0])


def refusals(folder: pathlib.Path, port: int) -> list[str]:
    """The ids of what ALICE is refused in a folder that is restored from a copy: after a reset,
    after a kill, and after one more reset.
    """
    copies.restore(folder.parent / "copy", folder / "venue", served.program())
    wrong: FixFields = [*ORDER[:-1], (44, "2.001")]
    ids: list[str] = []
    with killable(folder, fixing.day_of(port, "ALICE")) as day:
        for how in ("reset", "kill", "reset"):
            if how == "reset":
                assert reset(day.venue, "ALICE")[0] == 200
                peer = Peer(port, "ALICE")
            else:
                day.again()
            peer.logon(fixing.token_of(folder / "venue", "ALICE"))
            ids.append(answer(peer, "D", f"c{len(ids)}", wrong)[17])
    return ids


def test_answers_after_a_restore(tmp_path: pathlib.Path) -> None:
    """Those that were lost have other ids than those of a session that is reset after it, in any
    folder that is restored from the copy.
    """
    port = served.free_port()
    wrong: FixFields = [*ORDER[:-1], (44, "2.001")]
    with on(tmp_path, fixing.day_of(port, "ALICE"), port, "ALICE") as (venue, [peer]):
        venue.do("start")
        assert answer(peer, "D", "a1", wrong)[17] == "R.ALICE.2"
        venue.do("uncross")
        copies.backup(tmp_path / "venue", tmp_path / "copy")
        assert reset(venue, "ALICE")[0] == 200
        peer = Peer(port, "ALICE")
        peer.logon(fixing.token_of(tmp_path / "venue", "ALICE"))
        assert answer(peer, "D", "a2", wrong)[17] == "R.ALICE.1.2"
    marks = []
    for name in ("first", "second"):
        (tmp_path / name).mkdir()
        ids = refusals(tmp_path / name, port)
        mark = ids[0].split(".")[2].partition("-")[0]
        assert re.fullmatch("v[0-9a-f]{6}", mark)
        epochs = [f"R.ALICE.{mark}-1.", f"R.ALICE.{mark}-1.", f"R.ALICE.{mark}-2."]
        assert [it.rpartition(".")[0] + "." for it in ids] == epochs and len({*ids}) == 3
        assert [ids[0], ids[2]] == [f"{epochs[0]}2", f"{epochs[2]}2"]
        marks.append(mark)
    assert marks[0] != marks[1]

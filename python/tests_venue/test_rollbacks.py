"""Journals that were put back, lost or changed: nothing that was answered is executed again."""
import asyncio
import json
import os
import pathlib
import re
import shutil
import time
from collections.abc import Callable
from typing import Any

import judged
import psutil
import pytest
import served
from callauction.venue import AsyncClient, Client
from callauction.venue.recovery import (
    Entry,
    JournalDigest,
    JournalMark,
    RecoveryError,
    RolledBackError,
    known_entries,
    mark_of,
)
from callauction.venue.venue import LOOK_SECONDS
from conftest import FAST
from patience import until
from served import Served
from speaking import hello, said
from watched import looked, measured

TWO = FAST + '[[instrument]]\nname = "OLD"\n[[instrument]]\nname = "SOUND"\n'
ANSWERED, KEPT = 15, 6
ENTRIES = [Entry(place, f"1,delete,{place}", "deleted") for place in range(1, 4)]
OF_TWO = "584dfd9ab8db19624f2addd0ce8c86b3450353b3416cd59e3a298424c768f169"
"""What sha256sum prints of the lines of the first two."""


# ---- marks


def test_a_mark_of_the_same_entries() -> None:
    mark = JournalDigest(ENTRIES[:2]).mark
    assert mark == JournalMark(2, OF_TWO)
    mark.check(ENTRIES)
    mark.check(ENTRIES[:2])
    JournalMark().check([])
    JournalMark(3).check(ENTRIES)  # as earlier versions wrote it, without a digest


def test_a_journal_with_fewer_entries() -> None:
    with pytest.raises(RolledBackError) as found:
        JournalDigest(ENTRIES).mark.check(ENTRIES[:1])
    assert str(found.value) == (
        "the journal is an older one: it has 1 entries, and the log knows of 3"
    )


def test_a_journal_with_other_entries() -> None:
    other = [ENTRIES[0], Entry(2, "1,delete,2", "refused 5 UnknownOrder"), ENTRIES[2]]
    with pytest.raises(RolledBackError) as found:
        JournalDigest(ENTRIES).mark.check(other)
    assert str(found.value) == (
        "the journal is another one: its first 2 entries aren't those of which the log knows"
    )
    with pytest.raises(RolledBackError) as found:
        # of a log that has no earlier mark
        JournalMark(3, JournalDigest(ENTRIES).mark.sha256).check(other)
    assert str(found.value) == (
        "the journal is another one: its first 3 entries aren't those of which the log knows"
    )


@pytest.mark.parametrize("count", [1, 3])
def test_a_journal_whose_entries_differ_from_the_first_on(count: int) -> None:
    """It is no older one, also where it has fewer entries, by a mark of the first one."""
    other = [Entry(place, f"2,delete,{place}", "deleted") for place in range(1, count + 1)]
    lines = [{"kind": "mark", "entries": it.entries, "sha256": it.sha256}
             for it in (JournalDigest(ENTRIES[:1]).mark, JournalDigest(ENTRIES).mark)]
    for mark in (JournalDigest(ENTRIES).mark, mark_of(lines)):
        with pytest.raises(RolledBackError) as found:
            mark.check(other)
        assert str(found.value) == ROLLED_BACK["another day's"]


@pytest.mark.parametrize("behind, said", [
    (
        "1,delete,4,deleted\n1,delete,5,deleted",
        "the journal is a longer one: it has 5 entries, and the log knows of 3",
    ),
    ("1,delete,4,deleted\nmy notes\n", ""),  # which the program calls damaged
    ("", ""),
])
def test_entries_behind_the_room_of_a_journal(
    tmp_path: pathlib.Path, behind: str, said: str
) -> None:
    path = tmp_path / "XYZ.journal.csv"
    lines = "".join(f"{it.record},{it.reply}\n" for it in ENTRIES)
    path.write_text("the day\n" + lines + "\0" * 4096 + behind + "\0" * 20)
    try:
        assert (known_entries(path, JournalDigest(ENTRIES).mark), said) == (ENTRIES, "")
    except RecoveryError as fault:
        assert str(fault) == said


# ---- venues


def answered_day(folder: pathlib.Path) -> tuple[str, list[str]]:
    """A day on two instruments with ANSWERED answers each, which has ended: the member's token, and
    the replies.
    """
    with served.served(folder, TWO) as venue:
        token = venue.join("Anna")
        replies = []
        for name in ("OLD", "SOUND"):
            venue.do("start", instrument=name)
        with Client(venue.url, token) as me:
            for name in ("OLD", "SOUND"):
                for _ in range(ANSWERED):
                    replies.append(me.enter("bid", 1, "2.00", instrument=name).reply)
    return token, replies


def first_entries(text: str, count: int) -> str:
    """A journal that has its first entries alone."""
    return "".join(text.splitlines(keepends=True)[: count + 1])


def state_of(venue: Served, token: str, name: str) -> Any:
    status, found = venue.call(f"api/look/state?instrument={name}", token=token)
    assert status == 200, found
    return found


def again(venue: Served, token: str, number: int, name: str) -> Any:
    """What is answered to a message of the day before that is sent again."""
    order = {"type": "enter", "number": number, "side": "bid", "quantity": 1, "price": "2.00"}
    text = json.dumps(order | {"instrument": name})
    return asyncio.run(said(venue, hello(token), text, count=2))[1]


ROLLED_BACK = {
    "older": "the journal is an older one: it has 6 entries, and the log knows of 15",
    "missing": "the journal is missing, and the log knows of 15 entries",
    "another day's": (
        "the journal is another one: its entries differ from the day's from the first on"
    ),
    "longer": "the journal is a longer one: it has 18 entries, and the log knows of 15",
}


@pytest.mark.parametrize("what", ["older", "missing", "another day's"])
def test_a_journal_that_was_put_back(tmp_path: pathlib.Path, what: str) -> None:
    token, _ = answered_day(tmp_path)
    journal = tmp_path / "venue/OLD.journal.csv"
    right = journal.read_text()
    if what == "older":
        journal.write_text(first_entries(right, KEPT))
    elif what == "another day's":
        journal.write_text(renumbered(right))
    else:
        journal.unlink()
    wrong = journal.read_bytes() if journal.exists() else None
    with served.served(tmp_path, TWO) as venue:
        assert state_of(venue, token, "OLD")["halted"] == ROLLED_BACK[what]
        for number in (1, 10):
            assert again(venue, token, number, "OLD")["error"] == "halted"
        for word in ("start", "end", "uncross", "freeze"):
            asked = {"do": word, "instrument": "OLD"}
            assert venue.call("api/operator", asked, venue.operator)[0] in (409, 503)
        with Client(venue.url, token) as me:
            assert me.enter("bid", 1, "2.00", instrument="SOUND").entry == ANSWERED + 1
        again_halted = {"error": "halted", "text": f"OLD: {ROLLED_BACK[what]}"}
        asked = {"do": "resume"}
        assert venue.call("api/operator", asked, venue.operator) == (503, again_halted)
        assert state_of(venue, token, "OLD")["halted"] == ROLLED_BACK[what]
        assert (journal.read_bytes() if journal.exists() else None) == wrong
        journal.write_text(right)
        journal.chmod(0o600)
        venue.do("resume")
        assert state_of(venue, token, "OLD")["halted"] is None
        found = again(venue, token, 10, "OLD")
        assert (found["entry"], found["reply"], found["again"]) == (10, "entered 10", True)
        with Client(venue.url, token) as me:
            assert me.enter("bid", 1, "2.00", instrument="OLD").entry == ANSWERED + 1
        text = venue.call("api/download/journal/OLD", token=venue.operator)[1]
        assert judged.is_lawful(text) and text.startswith(right)


def renumbered(text: str) -> str:
    """A lawful journal of as many entries, one of which is another."""
    head, first, *rest = text.splitlines()
    return "\n".join([head, first.replace("bid,1,200", "bid,2,200"), *rest, ""])


ADDED = "".join(f"1,enter,bid,1,200,entered {it}\n" for it in (16, 17, 18))
PUT: dict[str, tuple[Callable[[str], str], str]] = {
    "an older one": (lambda it: first_entries(it, KEPT), ROLLED_BACK["older"]),
    "another day's": (lambda it: renumbered(it), ROLLED_BACK["another day's"]),
    "another day's, with fewer entries": (
        lambda it: first_entries(renumbered(it), KEPT), ROLLED_BACK["another day's"],
    ),
    "one with entries more": (lambda it: it + ADDED, ROLLED_BACK["longer"]),
    "one with entries behind its room": (
        lambda it: it + "\0" * 8192 + ADDED, ROLLED_BACK["longer"],
    ),
}
"""What is put into the place of a journal, and what is said of it."""


@pytest.mark.parametrize("what", PUT)
def test_a_journal_that_is_put_back_while_its_program_runs(
    tmp_path: pathlib.Path, what: str
) -> None:
    """It is called what it is, also where somebody resumes once more."""
    put, why = PUT[what]
    with served.served(tmp_path, FAST) as venue:
        token = venue.join("Anna")
        venue.do("start")
        journal = tmp_path / "venue/XYZ.journal.csv"
        with Client(venue.url, token) as me:
            for _ in range(ANSWERED):
                me.enter("bid", 1, "2.00")
            right = journal.read_bytes()
            journal.rename(tmp_path / "right")
            journal.write_text(put(right.decode().rstrip("\0")))
            journal.chmod(0o600)
            for child in psutil.Process(venue.child.pid).children():
                child.kill()
            until(lambda: bool(me.look("state")["halted"]))
            assert me.look("state")["halted"] == why
            asked = {"do": "resume"}
            again_halted = {"error": "halted", "text": f"XYZ: {why}"}
            for _ in range(2):
                assert venue.call("api/operator", asked, venue.operator) == (503, again_halted)
            (tmp_path / "right").rename(journal)
            venue.do("resume")
            assert me.look("state")["halted"] is None
            assert me.enter("bid", 1, "2.00").entry == ANSWERED + 1


def changed_byte(journal: pathlib.Path, place: int) -> None:
    """Another digit in a line of a journal, which is as long as before and as old."""
    about = journal.stat()
    lines = journal.read_bytes().split(b"\n")
    lines[place] = re.sub(rb"\d", lambda it: b"7" if it[0] == b"6" else b"6", lines[place], count=1)
    with journal.open("r+b") as file:
        file.write(b"\n".join(lines))
    os.utime(journal, ns=(about.st_atime_ns, about.st_mtime_ns))


CHANGED: dict[str, tuple[Callable[[pathlib.Path], object], str]] = {
    "an entry": (
        lambda it: changed_byte(it, 3),
        "the journal is another one: its first 3 entries aren't those of which the log knows",
    ),
    "the first entry": (lambda it: changed_byte(it, 1), ROLLED_BACK["another day's"]),
    "the first line": (
        lambda it: changed_byte(it, 0),
        "the journal is another one: its first line isn't the day's",
    ),
    "cut": (lambda it: os.truncate(it, 0), ROLLED_BACK["older"].replace("6 entries", "0 entries")),
    "gone": (lambda it: it.unlink(), ROLLED_BACK["missing"]),
    "open": (lambda it: it.chmod(0o620), "{} may be written by other users: chmod go-w"),
}
"""What others do to a journal whose program runs and is asked nothing."""


@pytest.mark.parametrize("what", CHANGED)
def test_a_journal_that_others_change_while_the_day_runs(tmp_path: pathlib.Path, what: str) -> None:
    """It is seen although nobody enters an order; nothing is lost where it is put back."""
    change, why = CHANGED[what]
    journal = tmp_path / "venue/XYZ.journal.csv"
    with served.served(tmp_path, FAST) as venue:
        token = venue.join("Anna")
        venue.do("start")
        with Client(venue.url, token) as me:
            for _ in range(ANSWERED):
                me.enter("bid", 1, "2.00")
            if what == "the first line":
                time.sleep(2 * LOOK_SECONDS)  # it goes on while nothing is changed
                assert me.look("state")["halted"] is None
            right = journal.read_bytes()
            change(journal)
            until(lambda: bool(me.look("state")["halted"] == why.format(journal)))
            journal.unlink(missing_ok=True)
            journal.write_bytes(right)
            journal.chmod(0o600)
            venue.do("resume")
            assert me.enter("bid", 1, "2.00").entry == ANSWERED + 1
        venue.child.terminate()
        _, error = venue.child.communicate(timeout=served.SECONDS)
        said = f"venue: XYZ halted: {why.format(journal)}"
        told = ": put the right file back, then `resume`" if why.startswith("the journal") else ""
        assert error.splitlines() == [said + told, "venue: XYZ goes on"]


def test_a_journal_without_entries_that_is_gone(tmp_path: pathlib.Path) -> None:
    """It is begun anew: nothing was in it."""
    with served.served(tmp_path, FAST) as venue:
        token = venue.join("Anna")
        venue.do("start")
        (tmp_path / "venue/XYZ.journal.csv").unlink()
        until(lambda: bool(state_of(venue, token, "XYZ")["halted"] == "the journal is missing"))
        venue.do("resume")
        with Client(venue.url, token) as me:
            assert me.enter("bid", 1, "2.00").entry == 1


def test_the_log_has_times_and_sources(tmp_path: pathlib.Path) -> None:
    with served.served(tmp_path, FAST) as venue:
        token = venue.join("Anna")
        venue.do("start")
        with Client(venue.url, token) as me:
            me.enter("bid", 1, "2.00")
        venue.do("uncross")
    lines = [json.loads(line) for line in (tmp_path / "venue/venue.log").read_text().splitlines()]
    times = [line["time"] for line in lines]
    assert times == sorted(times) and times[0] > 1.7e9
    sources = {(line["kind"], line.get("from")) for line in lines}
    here = "127.0.0.1"
    assert {("member", here), ("phase", here), ("sent", here), ("start", None)} <= sources
    last = [line for line in lines if line["kind"] == "mark"][-1]
    assert last["entries"] == 2 and re.fullmatch("[0-9a-f]{64}", last["sha256"])


def test_a_journal_of_an_earlier_round(tmp_path: pathlib.Path) -> None:
    """The round that is played goes on; operations, and who asks for results, are told."""
    with served.served(tmp_path, FAST) as venue:
        token = venue.join("Anna")
        venue.do("start")
        with Client(venue.url, token) as me:
            me.enter("bid", 1, "2.00")
        venue.do("uncross")
        venue.do("next", round=2)
    journal = tmp_path / "venue/XYZ.journal.csv"
    journal.rename(tmp_path / "right")
    port = served.free_port()
    url = f"http://127.0.0.1:{port}"
    with served.served(tmp_path, FAST, "--metrics", f"127.0.0.1:{port}") as venue:
        why = "the journal is missing, and the log knows of 2 entries"
        status, text = looked(f"{url}/healthz")
        assert (status, json.loads(text)["halted"]) == (503, {"XYZ of round 1": why})
        until(
            lambda: measured(url)["callboard_halted"] == {("XYZ",): 0, ("XYZ of round 1",): 1}
        )
        venue.do("start")
        with Client(venue.url, token) as me:
            assert me.enter("bid", 1, "2.00").entry == 1
        for kind in ("results", "trades", "report"):
            status, found = venue.call(f"api/download/{kind}/XYZ", token=venue.operator)
            assert (status, found["error"]) == (503, "halted")
        (tmp_path / "right").rename(journal)
        venue.do("resume")
        until(lambda: looked(f"{url}/healthz")[0] == 200)
        assert venue.call("api/download/results/XYZ", token=venue.operator)[0] == 200
        text = venue.call("api/download/journal/XYZ?round=1", token=venue.operator)[1]
        assert judged.is_lawful(text) and "entered 1" in text


AWAY = "venue.log.1"
CHANGES: dict[str, tuple[Callable[[pathlib.Path], object], Callable[[pathlib.Path], object]]] = {
    "moved": (
        lambda log: log.rename(log.with_name(AWAY)),
        lambda log: log.with_name(AWAY).rename(log),
    ),
    "replaced": (
        lambda log: (log.rename(log.with_name(AWAY)), log.write_text("")),
        lambda log: log.with_name(AWAY).rename(log),
    ),
    "copied and cut": (
        lambda log: (shutil.copy(log, log.with_name(AWAY)), log.write_bytes(b"")),
        lambda log: log.write_bytes(log.with_name(AWAY).read_bytes()),
    ),
    "lengthened": (
        lambda log: log.write_bytes(log.read_bytes() + b"x" * 5000),
        lambda log: log.write_bytes(log.read_bytes()[:-5000]),
    ),
    "gone with its folder": (
        lambda log: log.parent.rename(log.parent.with_name("other")),
        lambda log: log.parent.with_name("other").rename(log.parent),
    ),
}
"""What others do to the log of a day that runs, as to keep it short, and how it is put back."""


@pytest.mark.parametrize("what", CHANGES)
def test_a_log_that_others_change_while_it_is_written(tmp_path: pathlib.Path, what: str) -> None:
    """Nothing that would be lost is answered."""
    change, put_back = CHANGES[what]
    log = tmp_path / "venue/venue.log"
    text = "the venue's log can't be written: it was changed by others"
    with served.served(tmp_path, FAST) as venue:
        token = venue.join("Anna")
        venue.do("start")

        def halted() -> bool:
            return bool(venue.call("api/look/state", token=token)[1]["halted"] == text)

        async def ask() -> None:
            async with AsyncClient(venue.url, token) as me, asyncio.timeout(served.SECONDS):
                assert (await me.enter("bid", 1, "2.00")).entry == 1
                await asyncio.sleep(0.5)  # the log has its mark
                change(log)
                late = asyncio.create_task(me.enter("bid", 2, "2.00"))
                await asyncio.to_thread(until, halted)
                asked = "api/operator", {"do": "resume"}, venue.operator
                status, found = await asyncio.to_thread(venue.call, *asked)
                assert (status, found) == (503, {"error": "halted", "text": text})
                assert not late.done()
                put_back(log)
                await asyncio.to_thread(venue.do, "resume")
                assert (await late).entry == 2

        asyncio.run(ask())
    with served.served(tmp_path, FAST) as venue:
        with Client(venue.url, token) as me:
            assert me.enter("bid", 3, "2.00").entry == 3

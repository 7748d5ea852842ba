"""A program that a killed venue has left, and others who have its journal."""
import asyncio
import contextlib
import json
import pathlib
import signal
import subprocess
import sys
import time
from collections.abc import Iterator

import psutil
import pytest
import served
from callauction.venue import Client, leftovers, runs
from callauction.venue.config import DayTerms, Plan
from callauction.venue.leftovers import Program
from callauction.venue.metrics import halts_of
from callauction.venue.venue import Venue
from conftest import FAST
from patience import until

SLEEPS = ("/bin/sleep", "1000")
HOLDS = """
import fcntl, os, sys, time
file = os.open(sys.argv[1], os.O_RDWR)
print("it waits", flush=True)
fcntl.flock(file, fcntl.LOCK_EX)
time.sleep(1000)
"""
"""Takes the lock of a file as soon as it may."""
OTHER_FIRST = "the journal is another one: its first line isn't the day's"


def left_hanging(folder: pathlib.Path) -> tuple[str, psutil.Process]:
    """A member's token, and the program that a venue has left which was killed while that hung."""
    with served.served(folder, FAST) as venue:
        token = venue.join("Anna")
        venue.do("start")
        with Client(venue.url, token) as me:
            assert me.enter("bid", 1, "2.00").entry == 1
        [program] = psutil.Process(venue.child.pid).children()
        program.send_signal(signal.SIGSTOP)
        venue.child.kill()
        venue.child.wait(served.SECONDS)
    return token, program


def start_failed(folder: pathlib.Path) -> tuple[int, str]:
    """The status and the line of a start that fails."""
    words = ["--day", folder / "day.toml", "--folder", folder / "venue"]
    child = subprocess.run(
        served.words_of(*words, "--port", served.free_port()),
        env=served.environment(),
        capture_output=True,
        text=True,
        timeout=served.SECONDS,
    )
    return child.returncode, child.stderr


def test_a_program_that_hangs_and_whose_venue_was_killed(tmp_path: pathlib.Path) -> None:
    """It is the last run's by its number and its start, and ended; the day goes on."""
    token, program = left_hanging(tmp_path)
    try:
        with served.served(tmp_path, FAST) as venue:
            with Client(venue.url, token) as me:
                assert me.enter("bid", 1, "2.00").entry == 2
            assert not program.is_running() or program.status() == psutil.STATUS_ZOMBIE
            venue.child.terminate()
            said = venue.child.communicate(timeout=served.SECONDS)[1]
        assert said == (
            f"venue: XYZ: process {program.pid}, the program of the last run, has its journal and "
            "doesn't end: it was ended\n"
        )
    finally:
        if program.is_running():
            program.kill()


@contextlib.contextmanager
def holding(journal: pathlib.Path) -> Iterator[int]:
    """The number of a process that is no program and has a journal."""
    words = [sys.executable, "-c", HOLDS, str(journal)]
    with subprocess.Popen(words, stdout=subprocess.PIPE) as child:
        try:
            assert child.stdout is not None and child.stdout.readline() == b"it waits\n"
            time.sleep(0.5)
            yield child.pid
            assert child.poll() is None
        finally:
            child.kill()


@pytest.mark.parametrize("has_entries", [False, True])
def test_who_has_a_journal_and_is_no_program(tmp_path: pathlib.Path, has_entries: bool) -> None:
    """It is named, with what to do, and lives on; the status is one of a start that is tried again.
    Nobody is told to begin a day anew that has entries.
    """
    with served.served(tmp_path, FAST) as venue:
        token = venue.join("Anna")
        venue.do("start")
        if has_entries:
            with Client(venue.url, token) as me:
                assert me.enter("bid", 1, "2.00").entry == 1
    with holding(tmp_path / "venue/XYZ.journal.csv") as pid:
        do = "then start again" if has_entries else "or --folder NEW begins anew"
        text = f"journal in use by process {pid}: `kill -9 {pid}` ends it: {do}"
        assert start_failed(tmp_path) == (3, f"venue: XYZ: {text}\n")


STOPS = """#!{python}
import fcntl, os, pathlib, signal, sys
stop = pathlib.Path({folder!r}, "stop")
if stop.exists() and "--journal" in sys.argv:
    path = sys.argv[sys.argv.index("--journal") + 1]
    if pathlib.Path(path).parent.name == "venue":
        fcntl.flock(os.open(path, os.O_RDWR), fcntl.LOCK_EX)
        stop.write_text(str(os.getpid()))
        os.kill(os.getpid(), signal.SIGSTOP)
os.execv({program!r}, [{program!r}, *sys.argv[1:]])
"""
"""A program that stops where it is told to, once it has opened its journal."""


def test_a_program_that_hung_before_its_venue_knew_of_it(tmp_path: pathlib.Path) -> None:
    """The log has nothing of it; it is known by its command line, and ended."""
    program, stop = tmp_path / "program", tmp_path / "stop"
    text = STOPS.format(python=sys.executable, folder=str(tmp_path), program=served.program())
    program.write_text(text)
    program.chmod(0o700)
    with served.served(tmp_path, FAST, CALLBOARD=str(program)) as venue:
        token = venue.join("Anna")
        venue.do("start")
        with Client(venue.url, token) as me:
            assert me.enter("bid", 1, "2.00").entry == 1
    stop.write_text("")
    words = ["--day", tmp_path / "day.toml", "--folder", tmp_path / "venue"]
    words += ["--port", served.free_port()]
    env = served.environment(CALLBOARD=str(program))
    child = subprocess.Popen(served.words_of(*words), env=env, stderr=subprocess.DEVNULL)
    until(lambda: stop.read_text() != "")
    hung = psutil.Process(int(stop.read_text()))
    child.kill()
    child.wait(served.SECONDS)
    stop.unlink()
    try:
        with served.served(tmp_path, FAST, CALLBOARD=str(program)) as venue:
            with Client(venue.url, token) as me:
                assert me.enter("bid", 1, "2.00").entry == 2
            assert not hung.is_running() or hung.status() == psutil.STATUS_ZOMBIE
    finally:
        if hung.is_running():
            hung.kill()


def test_which_processes_were_left(tmp_path: pathlib.Path) -> None:
    """This program with this journal, that leads a session, and whose parent is no venue."""
    journal, other = tmp_path / "XYZ.journal.csv", tmp_path / "other"
    journal.write_text("")
    other.write_text("")
    program = tmp_path / "program"
    program.write_text("import time; time.sleep(1000)")
    words = [sys.executable, str(program), "--live", "--journal"]
    parent = [sys.executable, "-c", "import subprocess, sys; "
              "print(subprocess.Popen(sys.argv[2:], start_new_session=True).pid, flush=True); "
              "input()"]

    def is_left(path: str, whose: str, named: str = str(program)) -> bool:
        command = [*parent, whose, *words, path]
        pipe = subprocess.PIPE
        with subprocess.Popen(command, stdin=pipe, stdout=pipe, cwd=tmp_path) as child:
            assert child.stdin is not None and child.stdout is not None
            pid = int(child.stdout.readline())
            try:
                until(lambda: psutil.Process(pid).cmdline() != [])  # as its start isn't done yet
                return leftovers.is_left(pid, named, journal)
            finally:
                psutil.Process(pid).kill()
                child.kill()

    assert is_left(str(journal), "shell") and is_left(journal.name, "shell")
    assert not is_left(str(other), "shell") and not is_left(str(tmp_path / "none"), "shell")
    assert not is_left(str(journal), "shell", str(other))
    assert not is_left(str(journal), "callauction.venue")
    own = subprocess.Popen([*words, str(journal)], start_new_session=True)
    other_words = subprocess.Popen(SLEEPS, start_new_session=True)
    try:
        assert not leftovers.is_left(own.pid, str(program), journal)  # whose parent this is
        assert not leftovers.is_left(other_words.pid, str(program), journal)
        assert not leftovers.is_left(1 << 22, str(program), journal)
    finally:
        for child in (own, other_words):
            child.kill()
            child.wait(served.SECONDS)


@pytest.mark.asyncio
async def test_who_has_a_journal_while_the_day_runs(
    tmp_path: pathlib.Path, monkeypatch: pytest.MonkeyPatch, caplog: pytest.LogCaptureFixture
) -> None:
    """It is told to operations; to all who ask that another has it."""
    monkeypatch.setattr(runs, "IN_USE_SECONDS", 1.0)
    venue = Venue(DayTerms(is_synced=False, plan=Plan(call=0)), tmp_path, served.program())
    await venue.open()
    board = venue.rounds.now.boards["XYZ"]
    words = [sys.executable, "-c", HOLDS, str(tmp_path / "XYZ.journal.csv")]
    async with asyncio.timeout(served.SECONDS):
        with subprocess.Popen(words, stdout=subprocess.PIPE) as child:
            try:
                assert child.stdout is not None and child.stdout.readline() == b"it waits\n"
                await asyncio.sleep(0.5)
                while not halts_of(venue):
                    if board.engine.outbox.process is not None:  # which may have it sooner again
                        board.engine.outbox.process.kill()
                    await asyncio.sleep(0.5)
            finally:
                child.kill()
        assert halts_of(venue) == {"XYZ": "journal in use"}
        assert [it.getMessage() for it in caplog.records] == [
            f"XYZ: its journal is in use by process {child.pid}: `kill -9 {child.pid}` ends it",
            "XYZ halted: journal in use: end the process that has it, then `resume`",
        ]
        assert await venue.starts.resume() == ["XYZ"] and halts_of(venue) == {}
        await venue.close()


def test_whose_number_a_program_has_since(tmp_path: pathlib.Path) -> None:
    with subprocess.Popen(SLEEPS) as child:
        found = Program.of(child.pid)
        assert found is not None and found == Program.of(child.pid)
        assert Program.kept_in(json.loads(json.dumps(found.kept()))) == found
        for other in (
            Program(found.pid, found.began + 1, found.boot),
            Program(found.pid, found.began, "another run"),
        ):
            assert not other.end()
        time.sleep(0.2)
        assert child.poll() is None and found.end()
        assert child.wait(served.SECONDS) == -signal.SIGKILL
    assert not found.end() and Program.of(child.pid) is None
    assert Program.kept_in({}) is None


def test_who_has_a_file(tmp_path: pathlib.Path) -> None:
    path = tmp_path / "file"
    path.write_text("")
    assert leftovers.holders_of(path) == leftovers.holders_of(tmp_path / "none") == []
    with path.open("r+") as file, subprocess.Popen(SLEEPS, stdin=file) as child:
        assert leftovers.holders_of(path) == [child.pid]
        child.kill()
    with path.open() as file, subprocess.Popen(SLEEPS, stdin=file) as child:
        assert leftovers.holders_of(path) == []  # who reads it isn't in anybody's way
        child.kill()
    assert leftovers.how_to_end([]) == ""


def test_processes_that_cant_be_seen(
    tmp_path: pathlib.Path, monkeypatch: pytest.MonkeyPatch
) -> None:
    path = tmp_path / "file"
    path.write_text("")
    with path.open("r+") as file, subprocess.Popen(SLEEPS, stdin=file) as child:
        monkeypatch.setattr(leftovers, "PROCESSES", tmp_path / "none")
        assert leftovers.holders_of(path) == []
        child.kill()


def foreign(journal: pathlib.Path) -> bytes:
    """The journal of another day, without entries."""
    return journal.read_bytes().split(b"\n")[0].replace(b"1000", b"999") + b"\n"


@pytest.mark.parametrize("is_early", [False, True])
def test_a_foreign_journal_without_entries(tmp_path: pathlib.Path, is_early: bool) -> None:
    """It halts its instrument whenever it came, and the right one lets it go on."""
    with served.served(tmp_path, FAST) as venue:
        token = venue.join("Anna")
        journal, right = tmp_path / "venue/XYZ.journal.csv", tmp_path / "right"
        other = foreign(journal)
        assert other != journal.read_bytes().split(b"\n")[0] + b"\n"
        if not is_early:
            time.sleep(7)  # it was looked at
        journal.rename(right)
        journal.write_bytes(other)
        journal.chmod(0o600)
        last = time.monotonic() + 30
        while (halted := venue.call("api/look/state", token=token)[1]["halted"]) is None:
            assert time.monotonic() < last
            time.sleep(0.2)
        assert halted == OTHER_FIRST
        right.rename(journal)
        venue.do("resume")
        time.sleep(7)
        assert venue.call("api/look/state", token=token)[1]["halted"] is None
        venue.do("start")
        with Client(venue.url, token) as me:
            assert me.enter("bid", 1, "2.00").entry == 1


def test_another_days_journal_at_a_start(tmp_path: pathlib.Path) -> None:
    """It isn't an older one of this day; put back, the right one goes on without a start."""
    with served.served(tmp_path, FAST) as venue:
        token = venue.join("Anna")
        venue.do("start")
        with Client(venue.url, token) as me:
            assert me.enter("bid", 1, "2.00").entry == 1
    journal, right = tmp_path / "venue/XYZ.journal.csv", tmp_path / "right"
    other = foreign(journal)
    journal.rename(right)
    journal.write_bytes(other)
    journal.chmod(0o600)
    with served.served(tmp_path, FAST) as venue:
        assert venue.call("api/look/state", token=token)[1]["halted"] == OTHER_FIRST
        right.rename(journal)
        venue.do("resume")
        with Client(venue.url, token) as me:
            assert me.enter("bid", 1, "2.00").entry == 2

"""Programs and disks that hang: the day halts and says so, others go on, and a signal ends the
venue in time.
"""
import asyncio
import contextlib
import pathlib
import signal
import subprocess
import sys
import time
from collections.abc import Iterator

import crowd
import judged
import psutil
import pytest
import served
from callauction.venue import AsyncClient, Client, process
from callauction.venue.process import Process
from conftest import FAST
from hanging import ANSWER_SECONDS, asking, ends_in_time, program_of
from patience import TIMED, tmp_path  # noqa: F401
from served import Served

pytestmark = TIMED

TWO = FAST + '[[instrument]]\nname = "HUNG"\n[[instrument]]\nname = "SOUND"\n'
LATE = 3.0
"""How much later it may be seen on a machine that does much else."""
MOST_WAIT = 1.0
"""Seconds that an order of another instrument may wait meanwhile, half of the time."""
HALTED = "the program hasn't answered for 10 s"


@contextlib.contextmanager
def two(folder: pathlib.Path) -> Iterator[tuple[Served, str]]:
    """A venue of two instruments in their calls, and a member's token."""
    with served.served(folder, TWO) as venue:
        token = venue.join("Anna")
        for name in ("HUNG", "SOUND"):
            venue.do("start", instrument=name)
        yield venue, token


async def hang(venue: Served, token: str) -> tuple[float, list[float], str]:
    """An order to a program that hangs: when the day has halted, how long orders to the other one
    waited until then, and why it halted.
    """
    async with AsyncClient(venue.url, token) as me, asyncio.timeout(served.SECONDS):
        assert (await me.enter("bid", 1, "2.00", instrument="HUNG")).entry == 1
        program_of(venue, "HUNG").suspend()
        begin = time.monotonic()
        late = asyncio.create_task(me.enter("bid", 2, "2.00", instrument="HUNG"))
        waits = []
        while (halted := (await me.look("state", "HUNG"))["halted"]) is None:
            sent = time.monotonic()
            await me.enter("bid", 1, "2.00", instrument="SOUND")
            waits.append(time.monotonic() - sent)
            await asyncio.sleep(0.1)
        took = time.monotonic() - begin
        assert not late.done()
        await asyncio.to_thread(venue.do, "resume")
        assert (await late).entry == 2
        assert (await me.enter("bid", 3, "2.00", instrument="HUNG")).entry == 3
        return took, waits, str(halted)


def test_a_program_that_hangs(tmp_path: pathlib.Path) -> None:
    with two(tmp_path) as (venue, token):
        took, waits, halted = asyncio.run(hang(venue, token))
        assert halted == HALTED
        assert ANSWER_SECONDS - 1 < took < ANSWER_SECONDS + LATE, took
        assert len(waits) > 20 and sorted(waits)[len(waits) // 2] < MOST_WAIT, waits
        text = venue.call("api/download/journal/HUNG", token=venue.operator)[1]
        assert judged.is_lawful(text) and len(judged.entries(text)) == 3


def test_a_machine_that_stands_still(tmp_path: pathlib.Path) -> None:
    """The venue and its program are stopped together, longer than an answer may take."""
    with two(tmp_path) as (venue, token):

        async def ask() -> int:
            async with AsyncClient(venue.url, token) as me, asyncio.timeout(served.SECONDS):
                assert (await me.enter("bid", 1, "2.00", instrument="HUNG")).entry == 1
                program, own = program_of(venue, "HUNG"), psutil.Process(venue.child.pid)
                program.suspend()
                late = asyncio.create_task(me.enter("bid", 2, "2.00", instrument="HUNG"))
                await asyncio.sleep(1)
                own.suspend()
                await asyncio.to_thread(time.sleep, ANSWER_SECONDS + process.STILL_SECONDS)
                own.resume()
                await asyncio.sleep(1)
                program.resume()
                entry = (await late).entry
                assert (await me.look("state", "HUNG"))["halted"] is None
                return entry

        assert asyncio.run(ask()) == 2


@pytest.mark.parametrize("is_asked", [False, True], ids=["idle", "with an order"])
def test_a_venue_ends_while_its_program_hangs(tmp_path: pathlib.Path, is_asked: bool) -> None:
    with two(tmp_path) as (venue, token):

        async def ask() -> None:
            async with AsyncClient(venue.url, token) as me:
                assert (await me.enter("bid", 1, "2.00", instrument="HUNG")).entry == 1
                program_of(venue, "HUNG").suspend()
                if is_asked:
                    task = asyncio.create_task(me.enter("bid", 2, "2.00", instrument="HUNG"))
                    await asyncio.wait({task}, timeout=1)
                    assert not task.done()
                    task.cancel()

        asyncio.run(ask())
        child = program_of(venue, "HUNG")
        assert ends_in_time(venue.child) == (0, "")
        assert not child.is_running()
    with served.served(tmp_path, TWO) as venue:
        text = venue.call("api/download/journal/HUNG", token=venue.operator)[1]
        assert judged.entries(text)[0] == ("1,enter,bid,1,200", "entered 1")


HANGING = """
import sys, threading
from callauction.venue import log
from callauction.venue.__main__ import main

write = log.Log._write
def hangs(self, data):
    if b'"record":"1,enter,bid,77,' in data:
        threading.Event().wait(SECONDS)
    write(self, data)
log.Log._write = hangs
log.WRITE_SECONDS = 1.0
sys.argv[0] = "venue"
sys.exit(main())
"""
"""A venue whose log's disk hangs at an order of 77 shares, for these SECONDS or for good."""
SLOW = "the venue's log can't be written: it waits for the disk for more than 1 s"


@contextlib.contextmanager
def hanging(folder: pathlib.Path, seconds: float | None) -> Iterator[tuple[Served, str]]:
    """Such a venue in its call, with an order, and the token of its member."""
    (folder / "day.toml").write_text(FAST)
    words = [sys.executable, "-c", f"SECONDS = {seconds}\n{HANGING}"]
    words += ["--day", str(folder / "day.toml"), "--folder", str(folder / "venue")]
    words += ["--port", str(served.free_port())]
    pipe = subprocess.PIPE
    with subprocess.Popen(
        words, env=served.environment(), stdout=pipe, stderr=pipe, text=True
    ) as child:
        try:
            venue = served.begun(child)
            token = venue.join("Anna")
            venue.do("start")
            with Client(venue.url, token) as me:
                assert me.enter("bid", 1, "2.00").entry == 1
            yield venue, token
        finally:
            child.kill()


def test_a_venue_ends_while_its_disk_hangs(tmp_path: pathlib.Path) -> None:
    with hanging(tmp_path, None) as (venue, token):
        halted, _ = asyncio.run(halts(venue, token))
        assert halted == SLOW
        status, error = ends_in_time(venue.child)
        assert (status, error.splitlines()[-1]) == (3, "venue: not ended within 4.5 s: venue.log")


def test_a_venue_goes_on_once_its_disk_does(tmp_path: pathlib.Path) -> None:
    """By itself: what waited is answered."""
    with hanging(tmp_path, 5) as (venue, token):
        halted, entry = asyncio.run(halts(venue, token, is_slow=True))
        assert (halted, entry) == (SLOW, 2)
        venue.child.terminate()
        _, error = venue.child.communicate(timeout=served.SECONDS)
        told = [f"venue: the venue halted: {SLOW}", "venue: the venue goes on"]
        assert (venue.child.returncode, error.splitlines()) == (0, told)


async def halts(venue: Served, token: str, is_slow: bool = False) -> tuple[str, int]:
    """Why the day halts at an order of 77 shares, to those who look, and where it is only slow the
    order's entry.
    """
    async with AsyncClient(venue.url, token) as me, asyncio.timeout(served.SECONDS):
        task = asyncio.create_task(me.enter("bid", 77, "2.00"))
        while (halted := (await me.look("state"))["halted"]) is None:
            await asyncio.sleep(0.05)
        if is_slow:
            entry = (await task).entry
            assert (await me.look("state"))["halted"] is None
            return str(halted), entry
        task.cancel()
        return str(halted), 0


NEVER_BEGINS = "#!/bin/sh\nexec sleep 1000\n"


@pytest.mark.asyncio
async def test_a_file_that_is_too_long_is_no_signal(tmp_path: pathlib.Path) -> None:
    """A write that fails says to the program that a file may not be longer."""
    program = tmp_path / "program"
    look = f"grep SigIgn /proc/$$/status > {tmp_path}/ignored"
    program.write_text(f"#!/bin/sh\n{look}\necho journal 0 entries >&2\ncat > /dev/null\n")
    program.chmod(0o755)
    found = Process([str(program)], lambda fault: None)
    assert await found.start() == 0
    await found.stop()
    ignored = int((tmp_path / "ignored").read_text().split()[1], 16)
    assert ignored >> (signal.SIGXFSZ - 1) & 1


def test_a_program_that_never_begins(tmp_path: pathlib.Path) -> None:
    path = tmp_path / "never"
    path.write_text(NEVER_BEGINS)
    path.chmod(0o755)
    words = served.words_of("--folder", tmp_path / "venue", "--port", 0)
    pipe = subprocess.PIPE
    with subprocess.Popen(
        words, env=served.environment(CALLBOARD=str(path)), stdout=pipe, stderr=pipe, text=True
    ) as child:
        while not (programs := psutil.Process(child.pid).children()):
            time.sleep(0.05)
        time.sleep(0.5)
        assert ends_in_time(child) == (0, "")
        assert not any(it.is_running() for it in programs)


ENDING = """#!/bin/sh
[ -e "{folder}/torn" ] && {{ echo "$(cat "{folder}/torn")" >&2; exit 1; }}
exec "{program}" "$@"
"""


@pytest.mark.parametrize("text", ["journal changed by others", "journal X: not a journal"])
def test_a_program_that_refuses_its_journal(tmp_path: pathlib.Path, text: str) -> None:
    path = tmp_path / "ending"
    path.write_text(ENDING.format(folder=tmp_path, program=served.program()))
    path.chmod(0o755)
    with served.served(tmp_path, FAST, CALLBOARD=str(path)) as venue:
        token = venue.join("Anna")
        venue.do("start")
        with Client(venue.url, token) as me:
            assert me.enter("bid", 1, "2.00").entry == 1
            (tmp_path / "torn").write_text(text)
            for child in psutil.Process(venue.child.pid).children():
                child.kill()
            last = time.monotonic() + served.SECONDS
            while me.look("state")["halted"] is None:
                assert time.monotonic() < last
                time.sleep(0.02)
            assert me.look("state")["halted"] == text


HANGING_ENDS = """
import asyncio, sys
from callauction.venue import __main__ as venue, http

class Hanging:
    files = 0
    async def begin(self, tls):
        return "hangs    here"
    def shut(self):
        print("shut", flush=True)
    async def end(self):
        await asyncio.Event().wait()
    def measures(self):
        return {}

async def hangs(self, request):
    await asyncio.Event().wait()

if "front" in WHAT:
    venue.fronts_of = lambda venue, program: [Hanging()]
http.Site._schema = hangs
sys.argv[0] = "venue"
sys.exit(venue.main())
"""
"""A venue with a page that hangs, and where WHAT says so with a front that hangs at its end."""
PARTS = ("front", "page", "program", "members")
MANY = 100


def members(venue: Served, count: int) -> list[str]:
    """The tokens of as many members."""
    return [venue.join(f"Member {place}") for place in range(count)]


@pytest.mark.parametrize("what", [*((it,) for it in PARTS), PARTS], ids="-".join)
def test_an_end_leaves_the_tables_whatever_hangs(
    tmp_path: pathlib.Path, what: tuple[str, ...]
) -> None:
    """All is ended side by side, within the time that a venue has to end."""
    (tmp_path / "day.toml").write_text(TWO)
    words = [sys.executable, "-c", f"WHAT = {what}\n{HANGING_ENDS}"]
    words += ["--day", str(tmp_path / "day.toml"), "--folder", str(tmp_path / "venue")]
    words += ["--port", str(served.free_port()), "--metrics", f"127.0.0.1:{served.free_port()}"]
    pipe = subprocess.PIPE
    with subprocess.Popen(
        words, env=served.environment(), stdout=pipe, stderr=pipe, text=True
    ) as child, contextlib.ExitStack() as stack:
        stack.callback(child.kill)
        venue = served.begun(child)
        tokens = members(venue, MANY if "members" in what else 1)
        for name in ("HUNG", "SOUND"):
            venue.do("start", instrument=name)
        with Client(venue.url, tokens[0]) as me:
            assert me.enter("bid", 1, "2.00", instrument="HUNG").entry == 1
        if "page" in what:
            stack.enter_context(asking(venue))
        if "program" in what:
            program_of(venue, "HUNG").suspend()
        if "members" in what:
            stack.enter_context(crowd.busy(venue, tokens, 0.05, "SOUND"))
            time.sleep(2)
        assert ends_in_time(child) == (0, "")
    left = {it.name for it in (tmp_path / "venue").iterdir()}
    assert {"results.csv", "HUNG.members.csv", "SOUND.members.csv"} <= left

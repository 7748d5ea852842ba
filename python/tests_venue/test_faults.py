"""Slow and silent clients, full disks, and folders that a venue can't go on with."""
import asyncio
import contextlib
import json
import os
import pathlib
import shutil
import signal
import subprocess
import sys
import time
from collections.abc import Callable, Iterator

import aiohttp
import judged
import psutil
import pytest
import served
from callauction.venue import Answer, AsyncClient, Client, VenueError, clock
from callauction.venue import venue as venues
from callauction.venue.config import DayTerms, Plan
from callauction.venue.venue import Venue
from conftest import FAST
from machines import ON_SMALL_DISK, on_a_clock
from patience import TIMED, until
from served import Served, ended
from speaking import hello


# ---- clients


MOST_WAIT = 5.0
"""Seconds that an order may wait beside slow clients, half the time: without end where it waits for
them.
"""
FLOOD = """
import asyncio, sys, aiohttp
async def flood(web, url, hello):
    async with web.ws_connect(url) as socket:
        await socket.send_str(hello)
        while True:
            await socket.send_str('{"type":"delete","number":1,"order":1}')
            await asyncio.sleep(0)
async def main(url, hello):
    async with aiohttp.ClientSession() as web:
        await asyncio.gather(*(flood(web, url, hello) for _ in range(5)))
asyncio.run(main(*sys.argv[1:]))
"""
"""Connections that never read, and ask for more answers than any buffer has room for."""


@TIMED
def test_slow_clients_hold_up_nobody(tmp_path: pathlib.Path) -> None:
    day = "sync = false\n[phases]\ncall = 0\n[members]\nrate = 100\nburst = 500"
    with served.served(tmp_path, day) as venue:
        slow, quick = venue.join("Slow"), venue.join("Quick")
        venue.do("start")
        words = [sys.executable, "-c", FLOOD, f"{venue.url}api/socket", hello(slow)]
        with subprocess.Popen(words) as flooding:
            try:
                time.sleep(2)
                process = psutil.Process(venue.child.pid)
                before = process.memory_info().rss
                with Client(venue.url, quick) as me:
                    waits = sorted(wait_of(me) for _ in range(40))
                assert process.memory_info().rss - before < 20 << 20
                assert flooding.poll() is None
            finally:
                flooding.kill()
        assert waits[len(waits) // 2] < MOST_WAIT, waits


def wait_of(me: Client) -> float:
    """How long an order waits for its answer."""
    begin = time.monotonic()
    assert me.enter("bid", 1, "2.00").reply.startswith("entered")
    return time.monotonic() - begin


async def is_sent_away(venue: Served, text: str) -> bool:
    """Whether a connection that says this is ended."""
    async with aiohttp.ClientSession() as web, asyncio.timeout(served.SECONDS):
        async with web.ws_connect(f"{venue.url}api/socket") as socket:
            await socket.send_str(text)
            while (await socket.receive()).type is aiohttp.WSMsgType.TEXT:
                pass
            return True


def test_too_much_at_once_is_refused(venue: Served) -> None:
    token = venue.join("Anna")
    assert asyncio.run(is_sent_away(venue, '{"type":"hello","token":"' + "x" * 10_000))
    for size in (65_536, 100_000):
        found = venue.call("api/join", {"code": "x" * size, "name": "x"})
        assert found == (413, "a body has at most 65536 bytes")
    assert venue.call("api/look/state", token=token)[0] == 200


# ---- the program


def test_a_program_that_is_killed_is_started_again(venue: Served) -> None:
    token = venue.join("Anna")
    venue.do("start")
    with Client(venue.url, token) as me:
        for number in range(1, 6):
            assert me.enter("bid", 1, "2.00").entry == number
            for child in psutil.Process(venue.child.pid).children():
                child.kill()
    journal = venue.call("api/download/journal/XYZ", token=venue.operator)[1]
    assert len(judged.entries(journal)) == 5


SLOW = """#!/bin/sh
echo $$ >> "{folder}/begun"
[ $(wc -l < "{folder}/begun") -gt 1 ] && sleep 1
exec "{program}" "$@"
"""


def test_a_venue_that_ends_while_its_program_is_started_again(tmp_path: pathlib.Path) -> None:
    path, begun = tmp_path / "slow", tmp_path / "begun"
    path.write_text(SLOW.format(folder=tmp_path, program=served.program()))
    path.chmod(0o755)
    with served.served(tmp_path, FAST, CALLBOARD=str(path)) as venue:
        for child in psutil.Process(venue.child.pid).children():
            child.kill()
        until(lambda: len(begun.read_text().split()) == 2)
    assert not psutil.pid_exists(int(begun.read_text().split()[1]))


DYING = """#!/bin/sh
[ -e "{folder}/dead" ] && kill -9 $$
exec "{program}" "$@"
"""


def test_a_program_that_always_dies_halts_the_day(tmp_path: pathlib.Path) -> None:
    path = tmp_path / "dying"
    path.write_text(DYING.format(folder=tmp_path, program=served.program()))
    path.chmod(0o755)
    with served.served(tmp_path, FAST, CALLBOARD=str(path)) as venue:
        token = venue.join("Anna")
        venue.do("start")
        with Client(venue.url, token) as me:
            assert me.enter("bid", 1, "2.00").entry == 1
            (tmp_path / "dead").touch()
            for child in psutil.Process(venue.child.pid).children():
                child.kill()
            until(lambda: bool(me.look("state")["halted"]))
            assert me.look("state")["halted"] == "the program was ended by signal 9"
            with pytest.raises(VenueError) as found:
                me.enter("bid", 1, "2.00")
            assert found.value.code == "halted"
            (tmp_path / "dead").unlink()
            venue.do("resume")
            until(lambda: me.look("state")["halted"] is None)
            until(lambda: enters(me))


def enters(me: Client) -> bool:
    """Whether an order is taken."""
    with contextlib.suppress(VenueError):
        return me.enter("bid", 1, "2.00").entry > 0
    return False


LYING = """#!/bin/sh
"{program}" "$@" | sed -u -e '{change}'
"""


def lying(folder: pathlib.Path, change: str) -> str:
    """The path of a program whose answers are changed by a command of sed."""
    path = folder / "lying"
    path.write_text(LYING.format(program=served.program(), change=change))
    path.chmod(0o755)
    return str(path)


@pytest.mark.parametrize("place", [1, 4])
def test_a_program_that_loses_an_entry(tmp_path: pathlib.Path, place: int) -> None:
    program = lying(tmp_path, f"s/^3: /{place}: /")
    with served.served(tmp_path, FAST, CALLBOARD=program) as venue:
        token = venue.join("Anna")
        venue.do("start")

        async def orders() -> None:
            async with AsyncClient(venue.url, token) as me:
                assert [(await me.enter("bid", 1, "2.00")).entry for _ in range(2)] == [1, 2]
                third = asyncio.create_task(me.enter("bid", 1, "2.00"))
                async with asyncio.timeout(served.SECONDS):
                    while (halted := (await me.look("state"))["halted"]) is None:
                        await asyncio.sleep(0.02)
                assert halted == f"the program answers entry {place} after entry 2"
                await asyncio.wait({third}, timeout=2)
                assert not third.done()
                third.cancel()

        asyncio.run(orders())


def test_a_program_without_views(tmp_path: pathlib.Path) -> None:
    program = lying(tmp_path, "s/^show.*/record 1: bad member/")
    ran = subprocess.run(
        served.words_of("--folder", tmp_path / "venue", "--port", 0),
        env=served.environment(CALLBOARD=program),
        capture_output=True,
        text=True,
        timeout=served.SECONDS,
    )
    error = "venue: XYZ: the program answers 'record 1: bad member' to show"
    do = "name the callboard of this version by CALLBOARD"
    assert (ran.returncode, ran.stderr) == (2, f"{error}: {do}\n")


# ---- clocks


@pytest.mark.parametrize("call, jump, is_ended", [(900, 7200, False), (3, -7200, True)])
def test_a_clock_that_is_set(
    tmp_path: pathlib.Path, call: int, jump: int, is_ended: bool
) -> None:
    """A call ends neither sooner nor later where the machine's clock goes on or back by hours."""
    with on_a_clock(tmp_path, f"sync = false\n[phases]\ncall = {call}\n") as venue:
        token = venue.join("Anna")
        venue.do("start")
        (tmp_path / "jump").write_text(str(jump))
        with Client(venue.url, token) as me:
            begin = time.monotonic()
            while time.monotonic() < begin + (60 if is_ended else 2):
                state = me.look("state")
                if state["phase"] == "ended":
                    break
                time.sleep(0.1)
            assert (state["phase"] == "ended") == is_ended, state
            assert is_ended or call - 60 < state["ends"] - state["now"] < call


@pytest.mark.parametrize("is_before", [False, True])
def test_a_clock_that_was_set_back_before_a_start(tmp_path: pathlib.Path, is_before: bool) -> None:
    """A call has left what it had, also at the next start; before the kill, or after it."""
    day = "sync = false\n[phases]\ncall = 900\n"
    with on_a_clock(tmp_path, day) as venue:
        token = venue.join("Anna")
        venue.do("start")
        if is_before:
            (tmp_path / "jump").write_text("-7200")
        with Client(venue.url, token) as me:
            me.enter("bid", 1, "2.00")
        venue.child.kill()
        venue.child.wait(served.SECONDS)
    (tmp_path / "jump").write_text("-7200")
    said = []
    for _ in range(2):
        with on_a_clock(tmp_path, day) as venue:
            state = venue.call("api/look/state", token=token)[1]
            venue.child.kill()
            said += venue.child.communicate(timeout=served.SECONDS)[1].splitlines()
        assert state["phase"] == "call" and 600 < state["ends"] - state["now"] < 900, state
    assert len(said) == 1 and "the clock is 7" in said[0], said
    lines = (tmp_path / "venue/venue.log").read_text().splitlines()
    starts = [json.loads(line) for line in lines if '"kind":"boot"' in line]
    assert [7000 < it.get("behind", 0) < 7300 for it in starts] == [False, True, False]


@pytest.mark.asyncio
@pytest.mark.parametrize("is_orderly", [False, True])
async def test_a_quiet_call_before_a_clock_was_set_back(
    tmp_path: pathlib.Path, monkeypatch: pytest.MonkeyPatch, is_orderly: bool
) -> None:
    """A call in which nothing comes has left what it had as the venue ended."""
    monkeypatch.setattr(venues, "LOOK_SECONDS", 600 if is_orderly else 0.1)
    day = DayTerms(is_synced=False, plan=Plan(call=900))
    for name in ("left", "copy"):
        (tmp_path / name).mkdir()
    first = Venue(day, tmp_path / "left", served.program())
    await first.open()
    first.rounds.now.boards["XYZ"].auctions.start_call()
    await asyncio.sleep(3)
    left = 900 - 3
    if is_orderly:
        await first.close()
    shutil.copytree(tmp_path / "left", tmp_path / "copy", dirs_exist_ok=True)
    lines = (tmp_path / "copy/venue.log").read_text().splitlines()
    assert sum('"kind":"time"' in line for line in lines) <= 3 / 0.1 + 2
    monkeypatch.setattr(clock, "BEGAN", clock.BEGAN - 7200)
    second = Venue(day, tmp_path / "copy", served.program())
    await second.open()
    ends = second.rounds.now.boards["XYZ"].auctions.state.ends
    assert ends is not None and left - 2 < ends - clock.now() < left + 1
    await second.close()
    if not is_orderly:
        await first.close()


# ---- full disks


@contextlib.contextmanager
def on_small_disk(folder: pathlib.Path, what: str, size: str) -> Iterator[Served]:
    """A venue whose journal, or whose whole folder, is on a disk of this size."""
    (folder / "day.toml").write_text(FAST)
    words = served.words_of(
        *("--day", folder / "day.toml", "--folder", folder / "venue", "--port", served.free_port())
    )
    before = ["unshare", "-rm", "sh", "-c", ON_SMALL_DISK, "sh", str(folder), what, size]
    pipe = subprocess.PIPE
    with subprocess.Popen(
        [*before, *words], env=served.environment(), stdout=pipe, stderr=pipe, text=True
    ) as child:
        try:
            yield served.begun(child)
        finally:
            child.kill()


async def fill(me: AsyncClient) -> tuple[list[Answer], "asyncio.Task[Answer]"]:
    """Sends orders until the day halts, and a while longer: the answers, and what waits."""
    answers: list[Answer] = []
    while True:
        sent = asyncio.create_task(me.enter("bid", 1, "2.00"))
        done: set[asyncio.Task[Answer]] = set()
        async with asyncio.timeout(served.SECONDS):
            while not done and (await me.look("state"))["halted"] is None:
                done, _ = await asyncio.wait({sent}, timeout=0.5)
        done, _ = await asyncio.wait({sent}, timeout=0 if done else 2)
        if not done:
            return answers, sent
        answers.append(sent.result())


async def full_disk(venue: Served, token: str, enlarge: Callable[[], None]) -> tuple[str, int]:
    """A day whose disk is full, until it is larger: why it halted, and how many were answered."""
    async with AsyncClient(venue.url, token) as me:
        answers, waits = await fill(me)
        halted = (await me.look("state"))["halted"]
        with pytest.raises(VenueError) as found:
            await me.enter("bid", 1, "2.00")
        assert found.value.code == "halted"
        assert [it.entry for it in answers] == [*range(1, len(answers) + 1)]
        asked = "api/operator", {"do": "resume"}, venue.operator
        status, said = await asyncio.to_thread(venue.call, *asked)
        assert (status, said["error"]) == (503, "halted")
        assert said["text"].removeprefix("XYZ: ").startswith((FULL_JOURNAL, FULL_LOG)), said
        enlarge()
        await asyncio.to_thread(venue.do, "resume")
        async with asyncio.timeout(served.SECONDS):
            assert (await waits).entry == len(answers) + 1
            assert (await me.enter("bid", 1, "2.00")).entry == len(answers) + 2
        return halted, len(answers) + 2


FULL_JOURNAL = "journal failed"
FULL_LOG = "the venue's log can't be written: No space left"


@pytest.mark.parametrize(
    "what, size, texts",
    [("journal", "16k", (FULL_JOURNAL,)), ("all", "40k", (FULL_LOG, FULL_JOURNAL))],
)
def test_a_full_disk(
    tmp_path: pathlib.Path, what: str, size: str, texts: tuple[str, ...]
) -> None:
    with on_small_disk(tmp_path, what, size) as venue:
        token = venue.join("Anna")
        venue.do("start")
        small = str(tmp_path / "small")
        words = ["nsenter", "-t", str(venue.child.pid), "-U", "-m", "--preserve-credentials"]

        def enlarge() -> None:
            subprocess.run([*words, "mount", "-o", "remount,size=4m", small], check=True)

        halted, count = asyncio.run(full_disk(venue, token, enlarge))
        assert halted.startswith(texts)  # where both are on it, whichever comes to its end first
        journal = venue.call("api/download/journal/XYZ", token=venue.operator)[1]
        assert len(judged.entries(journal)) == count > 50
        assert judged.is_lawful(journal)
        venue.child.kill()
        said = venue.child.communicate(timeout=served.SECONDS)[1].splitlines()
    [failed] = [place for place, it in enumerate(said) if ": resume, from 127.0.0.1 isn't" in it]
    goes_on = [place for place, it in enumerate(said) if it.endswith(" goes on")]
    assert goes_on and min(goes_on) > failed, said


FULL = """
import errno, sys
from callauction.venue import log
from callauction.venue.__main__ import main
def fails(self, data):
    raise OSError(errno.ENOSPC, "No space left on device")
log.Log._write = fails
sys.argv[0] = "venue"
sys.exit(main())
"""
"""A venue whose log's disk is full from the begin on."""


def test_a_venue_that_begins_on_a_full_disk(tmp_path: pathlib.Path) -> None:
    """It ends, as nobody could have it resume."""
    words = [sys.executable, "-c", FULL, "--folder", str(tmp_path / "venue"), "--port", "0"]
    ran = subprocess.run(
        words,
        env=served.environment(),
        capture_output=True,
        text=True,
        timeout=served.SECONDS,
    )
    assert (ran.returncode, ran.stdout) == (3, ""), ran.stderr
    text = f"venue: {tmp_path}/venue/venue.log: No space left on device: make room"
    assert ran.stderr.splitlines()[-1] == text


# ---- folders


BACK = ": put the right file, or the last copy, back"
AS_IT_WAS = ": take the day as it was, or --folder NEW begins anew"

def day_before(folder: pathlib.Path, day: str = FAST) -> list[object]:
    """A day with one order, which has ended: the words that go on with it."""
    with served.served(folder, day) as venue:
        token = venue.join("Anna")
        venue.do("start")
        with Client(venue.url, token) as me:
            me.enter("bid", 1, "2.00")
    return ["--day", folder / "day.toml", "--folder", folder / "venue", "--port", 0]


def test_a_day_goes_on(tmp_path: pathlib.Path) -> None:
    words = day_before(tmp_path)
    log = tmp_path / "venue/venue.log"
    with open(log, "a") as file:
        file.write('{"kind":"sent","instr')
    again = served.started(*words)
    try:
        assert again.call("api/operator", {"do": "start"}, again.operator)[0] == 409
        again.do("uncross")
    finally:
        again.end()
    assert '"instr{' not in log.read_text()


def test_the_end_of_a_journal_is_put_aside(tmp_path: pathlib.Path) -> None:
    """What was cut off as it was written, and that is said."""
    words = day_before(tmp_path)
    with open(tmp_path / "venue/XYZ.journal.csv", "a") as file:
        file.write("1,enter,bid")
    venue = served.started(*words)
    venue.child.terminate()
    _, error = venue.child.communicate(timeout=served.SECONDS)
    name = "XYZ.journal.csv.cut-1"
    text = "XYZ: the end of its journal was no whole line, and was put aside"
    assert error == f"venue: {text}: {name} has it\n"
    assert (tmp_path / "venue" / name).read_text() == "1,enter,bid"
    venue = served.started(*words)
    venue.child.terminate()
    assert venue.child.communicate(timeout=served.SECONDS)[1] == ""


def test_a_journal_of_another_day(tmp_path: pathlib.Path) -> None:
    words = day_before(tmp_path)
    (tmp_path / "day.toml").write_text(FAST + '[[instrument]]\nlow = "0.02"\n')
    status, error = ended(*words)
    assert status == 2 and "another day: low of XYZ was 0.01, and is 0.02;" in error
    log = tmp_path / "venue/venue.log"
    lines = log.read_text().splitlines(keepends=True)
    log.write_text("".join(line for line in lines if '"kind":"day"' not in line))
    assert ended(*words) == (2, f"venue: XYZ: journal of another day: low{AS_IT_WAS}\n")


def test_a_journal_with_an_entry_more(tmp_path: pathlib.Path) -> None:
    words = day_before(tmp_path)
    journal = tmp_path / "venue/XYZ.journal.csv"
    journal.write_text(journal.read_text() + "1,enter,bid,1,200,entered 2\n")
    text = "venue: XYZ: the journal is a longer one: it has 2 entries, and the log knows of 1"
    assert ended(*words) == (1, f"{text}{BACK}\n")
    log = tmp_path / "venue/venue.log"
    lines = log.read_text().splitlines(keepends=True)
    log.write_text("".join(line for line in lines if '"XYZ"' not in line))
    text = f"venue: XYZ: the journal has entries, and the log none of its messages{BACK}\n"
    assert ended(*words) == (1, text)


def test_a_log_with_a_fault(tmp_path: pathlib.Path) -> None:
    words = day_before(tmp_path)
    log = tmp_path / "venue/venue.log"
    lines = log.read_text().splitlines(keepends=True)
    log.write_text("".join([lines[0], "nonsense\n", *lines[1:]]))
    status, error = ended(*words)
    assert (status, error) == (1, f"venue: {log}: line 2 is no line of a log{BACK}\n")


@pytest.mark.parametrize("content", [b"somebody's notes", b"\x7fELF\0\0\0", b"\xff" * 5000])
def test_another_file_in_the_place_of_the_log(tmp_path: pathlib.Path, content: bytes) -> None:
    """It stays as it was; NULs alone, or half a line, are what a crash leaves."""
    log = tmp_path / "venue/venue.log"
    log.parent.mkdir(mode=0o700)
    log.write_bytes(content)
    log.chmod(0o600)
    status, error = ended("--folder", tmp_path / "venue", "--port", 0)
    assert (status, error) == (1, f"venue: {log}: its end is no line of a log{BACK}\n")
    assert log.read_bytes() == content
    log.write_bytes(b"\0" * 300)
    status, error = ended("--folder", tmp_path / "venue", "--listen", "127.0.0.1", "--check")
    assert (status, error) == (0, "")


def test_a_venue_ends_by_a_signal(venue: Served) -> None:
    token = venue.join("Anna")
    programs = psutil.Process(venue.child.pid).children()
    with Client(venue.url, token):
        os.kill(venue.child.pid, signal.SIGINT)
        _, error = venue.child.communicate(timeout=served.SECONDS)
        assert (venue.child.returncode, error) == (0, "")
    assert not any(it.is_running() for it in programs)

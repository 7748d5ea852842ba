"""How a venue ends by signals that come in bursts, and goes on beside what hangs: who reads what it
says, or the program of its check.
"""
import csv
import os
import pathlib
import random
import re
import signal
import subprocess
import sys
import time

import pytest
import served
from callauction.venue import checking
from callauction.venue.config import DayTerms, Plan
from callauction.venue.messages import OrderMessage
from callauction.venue.process import ProcessError
from callauction.venue.venue import Venue
from conftest import FAST
from patience import TIMED

BURST = (signal.SIGTERM, signal.SIGINT, signal.SIGHUP)
PAUSE = 0.002
HUNG_UP = "venue: there is no certificate that could be taken anew"


def burst(child: "subprocess.Popen[str]", numbers: tuple[signal.Signals, ...]) -> None:
    """Sends a process these signals, one after the other, until it has ended."""
    while child.poll() is None:
        child.send_signal(random.choice(numbers))
        time.sleep(PAUSE)


@TIMED
@pytest.mark.parametrize("count", range(3))
def test_signals_in_bursts(tmp_path: pathlib.Path, count: int) -> None:
    with served.served(tmp_path, FAST) as venue:
        token = venue.join("Anna")
        venue.do("start")
        for place in range(10):
            body = {"do": "message", "text": f"message {place}"}
            assert venue.call("api/operator", body, venue.operator)[0] == 200
        begin = time.monotonic()
        burst(venue.child, BURST)
        assert time.monotonic() - begin < 5 + 3
        _, error = venue.child.communicate(timeout=served.SECONDS)
        assert venue.child.returncode == 0, error
        assert all(it.startswith(HUNG_UP) for it in error.splitlines()), error
    with served.served(tmp_path, FAST) as venue:
        assert venue.call("api/look/state", token=token)[1]["phase"] == "call"


def test_hangups_in_bursts(tmp_path: pathlib.Path) -> None:
    """They hold up nobody."""
    with served.served(tmp_path, FAST) as venue:
        for _ in range(500):
            venue.child.send_signal(signal.SIGHUP)
        assert venue.call("api/day")[0] == 200
        venue.child.terminate()
        _, error = venue.child.communicate(timeout=served.SECONDS)
        assert venue.child.returncode == 0
        assert 1 <= len(error.splitlines()) < 5


def full_pipe() -> tuple[int, int]:
    """A pipe that takes nothing more, and that nobody reads."""
    theirs, ours = os.pipe()
    os.set_blocking(ours, False)
    try:
        while True:
            os.write(ours, bytes(4096))
    except BlockingIOError:
        os.set_blocking(ours, True)
    return theirs, ours


def test_a_terminal_that_takes_nothing_holds_up_nobody(tmp_path: pathlib.Path) -> None:
    theirs, full = full_pipe()
    words = served.words_of("--folder", tmp_path / "venue", "--port", served.free_port())
    with subprocess.Popen(
        words, env=served.environment(), stdout=subprocess.PIPE, stderr=full, text=True
    ) as child:
        child.stderr = open(theirs, encoding="latin-1")
        try:
            venue = served.begun(child)
            for _ in range(3):
                child.send_signal(signal.SIGHUP)  # of which it would say something
            token = venue.join("Anna")
            venue.do("start")
            assert venue.call("api/look/state", token=token)[1]["phase"] == "call"
            child.terminate()
            assert child.wait(served.SECONDS) == 0
        finally:
            child.kill()
            os.close(full)


def test_a_check_of_a_program_that_hangs(
    tmp_path: pathlib.Path, monkeypatch: pytest.MonkeyPatch
) -> None:
    program = tmp_path / "program"
    program.write_text("#!/bin/sh\nexec sleep 1000\n")
    program.chmod(0o700)
    monkeypatch.setattr(checking, "START_SECONDS", 0.2)
    with pytest.raises(ProcessError, match="the program hasn't ended for 0.2 s"):
        checking.check_words(str(program), ())


def test_a_check_of_a_program_that_a_signal_ends(tmp_path: pathlib.Path) -> None:
    program = tmp_path / "program"
    program.write_text("#!/bin/sh\nkill -SEGV $$\n")
    program.chmod(0o700)
    words = served.words_of("--check", "--port", 0, "--folder", tmp_path / "venue")
    ran = subprocess.run(
        words, env=served.environment(CALLBOARD=str(program)), capture_output=True, text=True
    )
    text = "venue: the program was ended by signal 11: install the program anew\n"
    assert (ran.returncode, ran.stdout, ran.stderr) == (3, "", text)


@pytest.mark.asyncio
async def test_the_tables_have_the_trades_of_an_uncross_just_before(tmp_path: pathlib.Path) -> None:
    plan = Plan(call=0)
    venue = Venue(DayTerms(is_synced=False, plan=plan), tmp_path, served.program())
    await venue.open()
    board = venue.rounds.now.boards["XYZ"]
    board.auctions.start_call()
    for name, side in (("Anna", "bid"), ("Bert", "ask")):
        member, _ = await venue.join(venue.members.codes.by_name[""], name)
        answer, _ = venue.submit(member, OrderMessage(1, "XYZ", f"enter,{side},5,200"))
        await answer
    assert (await board.auctions.uncross()).endswith(" trades 1")
    await venue.close()
    with open(tmp_path / "results.csv", newline="", encoding="utf-8-sig") as file:
        rows = {it["name"]: it for it in csv.DictReader(file) if it["round"] == "1"}
    assert (rows["Anna"]["bought"], rows["Bert"]["sold"]) == ("5", "5")


LONG = """
import atexit, gc, sys
from callauction.venue import __main__ as venue
from callauction.venue.audience import Audience

kept = []
def dismissed(self, dismiss=Audience.dismiss):
    kept.extend([it] for it in range(COUNT))
    dismiss(self)
Audience.dismiss = dismissed
atexit.register(lambda: print(len(gc.get_objects()), flush=True))
sys.argv[0] = "venue"
sys.exit(venue.main())
"""
"""A venue that has as many objects at its end as a day leaves, and says to how many of all Python's
collector would look as the process ends: for some million that took many seconds.
"""
COUNT = 300_000


def test_an_end_after_a_long_day(tmp_path: pathlib.Path) -> None:
    words = [sys.executable, "-c", f"COUNT = {COUNT}\n{LONG}", "--folder", str(tmp_path / "venue")]
    words += ["--port", str(served.free_port())]
    pipe = subprocess.PIPE
    with subprocess.Popen(
        words, env=served.environment(), stdout=pipe, stderr=pipe, text=True
    ) as child:
        served.begun(child)
        child.terminate()
        said, error = child.communicate(timeout=served.SECONDS)
    assert (child.returncode, error) == (0, "")
    assert int(said.splitlines()[-1]) < COUNT / 10


def begins(child: "subprocess.Popen[str]") -> None:
    """Waits until the code of a venue has begun: Python itself takes SIGINT before. Raises
    AssertionError where that stays so.
    """
    status = pathlib.Path(f"/proc/{child.pid}/status")
    caught = re.compile(r"^SigCgt:\s+(\w+)$", re.M)
    last, was_caught = time.monotonic() + 5, False
    while time.monotonic() < last:
        found = caught.search(status.read_text())
        is_caught = found is not None and bool(int(found[1], 16) & 2)
        if was_caught and not is_caught:
            return
        was_caught = is_caught
        time.sleep(0.001)
    raise AssertionError("SIGINT leaves a trace")


@TIMED
@pytest.mark.parametrize("number", BURST)
def test_a_signal_while_it_starts(tmp_path: pathlib.Path, number: signal.Signals) -> None:
    """It ends at once, or as soon as it can, without a trace, and the next start goes on."""
    folder, pipe = tmp_path / "venue", subprocess.PIPE
    words = served.words_of("--folder", folder, "--port", served.free_port())
    for place in range(12):
        with subprocess.Popen(
            words, env=served.environment(), stdout=pipe, stderr=pipe, stdin=pipe, text=True
        ) as child:
            begins(child)
            time.sleep(0.08 * place)
            child.send_signal(number)
            if number is signal.SIGHUP:
                time.sleep(1)
                child.terminate()
            _, error = child.communicate(timeout=served.SECONDS)
        allowed = (0, -number) if number is not signal.SIGHUP else (0, -number, -signal.SIGTERM)
        assert child.returncode in allowed, (place, error)
        assert all(it.startswith(HUNG_UP) for it in error.splitlines()), error
    ran = subprocess.run(
        [*words, "--check"], env=served.environment(), capture_output=True, text=True
    )
    assert (ran.returncode, ran.stderr) == (0, "")

"""A venue that gets no thread, as where its memory is limited: it ends, or halts, by a sentence.
What Python's collector looks at while one runs.
"""
import gc
import pathlib
import subprocess
import sys
import weakref

import psutil
import pytest
import served
from callauction.venue import serving
from patience import until

BEGIN = """
import sys, threading
from callauction.venue.__main__ import main
begin = threading.Thread.start
def start(thread):
    if thread.name.startswith(%r):
        raise RuntimeError("can't start new thread")
    begin(thread)
threading.Thread.start = start
sys.exit(main())
"""
"""A venue in which threads of some names can't be started."""
LOG, FIRST, SECOND, READS = "log", "waitpid-0", "waitpid-1", "asyncio"
"""The threads that write the log, that wait for the end of the first and the second program, and
that read a journal.
"""


def words_without(thread: str, folder: pathlib.Path) -> list[str]:
    """The command line of such a venue."""
    words = ["--folder", str(folder / "venue"), "--port", str(served.free_port())]
    return [sys.executable, "-c", BEGIN % thread, *words]


@pytest.mark.parametrize(
    "thread, text",
    [
        (LOG, "out of memory: end others, or give more memory"),
        (
            FIRST,
            "XYZ: the program can't be run: can't start new thread: name callboard by CALLBOARD; "
            "where it is that, end others, or give more memory",
        ),
    ],
)
def test_a_venue_that_gets_no_thread(tmp_path: pathlib.Path, thread: str, text: str) -> None:
    words, environment = words_without(thread, tmp_path), served.environment()
    ran = subprocess.run(
        words, env=environment, capture_output=True, text=True, timeout=served.SECONDS
    )
    assert (ran.returncode, ran.stdout, ran.stderr) == (3, "", f"venue: {text}\n")


def test_a_journal_that_no_thread_reads(tmp_path: pathlib.Path) -> None:
    with served.served(tmp_path):
        pass
    words, environment = words_without(READS, tmp_path), served.environment()
    ran = subprocess.run(
        words, env=environment, capture_output=True, text=True, timeout=served.SECONDS
    )
    text = f"venue: {tmp_path}/venue/XYZ.journal.csv: can't start new thread"
    told = (3, "", f"{text}: end others, or give more memory\n")
    assert (ran.returncode, ran.stdout, ran.stderr) == told


def test_a_program_that_isnt_run_again(tmp_path: pathlib.Path) -> None:
    pipe, environment = subprocess.PIPE, served.environment()
    words = words_without(SECOND, tmp_path)
    with subprocess.Popen(words, env=environment, stdout=pipe, stderr=pipe, text=True) as child:
        try:
            venue = served.begun(child)
            token = venue.join("Anna")
            [program] = psutil.Process(child.pid).children()
            program.kill()
            halted = "the program can't be run: can't start new thread"
            look = ("api/look/state", None, token)
            until(lambda: bool(venue.call(*look)[1]["halted"] == halted))
            child.terminate()
            _, error = child.communicate(timeout=served.SECONDS)
            assert (child.returncode, error) == (0, f"venue: XYZ halted: {halted}\n")
        finally:
            child.kill()


COLLECTS = """
import gc, sys
from callauction.venue import __main__, serving
begin = serving.collect_rarely
def collect_rarely():
    begin()
    print("frozen", gc.get_freeze_count(), *gc.get_threshold(), file=sys.stderr)
serving.collect_rarely = collect_rarely
sys.exit(__main__.main())
"""
"""A venue that says what of its objects no collection looks at, and when others do."""


def test_a_collection_looks_at_what_is_new(tmp_path: pathlib.Path) -> None:
    """Not at what there was as the venue began, which held up orders, and not after each few."""
    pipe, environment = subprocess.PIPE, served.environment()
    words = [sys.executable, "-c", COLLECTS, "--folder", str(tmp_path / "venue")]
    words += ["--port", str(served.free_port())]
    with subprocess.Popen(words, env=environment, stdout=pipe, stderr=pipe, text=True) as child:
        try:
            served.begun(child)
            child.terminate()
            _, error = child.communicate(timeout=served.SECONDS)
        finally:
            child.kill()
    word, frozen, first, *_ = error.split()
    assert word == "frozen" and int(frozen) > 10_000 and int(first) >= 10_000


class Node:
    """What holds itself, and nobody else does."""

    def __init__(self) -> None:
        self.itself = self


def test_what_nobody_holds_is_collected_by_itself() -> None:
    """Also with these thresholds: memory doesn't grow by what connections leave."""
    before, there = gc.get_threshold(), weakref.WeakSet[Node]()
    gc.set_threshold(*serving.COLLECTOR_THRESHOLDS)
    try:
        for _ in range(10 * serving.COLLECTOR_THRESHOLDS[0]):
            there.add(Node())
    finally:
        gc.set_threshold(*before)
    assert len(there) <= 2 * serving.COLLECTOR_THRESHOLDS[0]

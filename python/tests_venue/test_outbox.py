"""What is sent to a program: once it is on the log's disk, to the run that goes on, each once."""
import asyncio
from collections.abc import Callable, Sequence
from typing import cast

import pytest
from callauction.venue.log import Log
from callauction.venue.outbox import Outbox
from callauction.venue.process import AnswerCallback, Process
from callauction.venue.recovery import Entry, MemberMessage

pytestmark = pytest.mark.asyncio


class SlowLog:
    """In the place of a log, whose lines are on the disk once the test says so."""

    def __init__(self) -> None:
        self.lines: list[str] = []
        self._thens: list[Callable[[], None]] = []

    def append(self, text: str, then: Callable[[], None]) -> None:
        self.lines += text.split("\n")
        self._thens.append(then)

    def write(self) -> None:
        thens, self._thens = self._thens, []
        for then in thens:
            then()

    async def written(self) -> None:
        self.write()
        await asyncio.sleep(0)


class BegunRun:
    """In the place of a run of the program: what it was sent at once, again and again."""

    def __init__(self, takes_more: bool = True) -> None:
        self.sent: list[str] = []
        self.takes_more = takes_more

    def send(self, records: Sequence[str], answer: Sequence[AnswerCallback]) -> None:
        self.sent.append(" ".join(records))


def outbox_of(disk: SlowLog) -> Outbox:
    return Outbox("XYZ", cast(Log, disk), lambda sent, line: None)


def put(outbox: Outbox, record: str, is_first: bool = False) -> "asyncio.Future[Entry]":
    return outbox.put(MemberMessage("Anna", ord(record), record), is_first)


def begin(outbox: Outbox, run: BegunRun) -> list[str]:
    """Begins a run: what was said of that."""
    said: list[str] = []
    outbox.begin(cast(Process, run), "start", lambda: said.append("begun"))
    return said


async def test_what_comes_at_once_is_sent_at_once() -> None:
    outbox, run = outbox_of(disk := SlowLog()), BegunRun()
    said = begin(outbox, run)
    put(outbox, "a")
    assert (said, run.sent, outbox.waiting) == ([], [], 1)
    await disk.written()
    put(outbox, "b")
    put(outbox, "c")
    assert (said, run.sent) == (["begun"], ["a"])
    await disk.written()
    assert (run.sent, outbox.waiting) == (["a", "b c"], 3)


async def test_another_run_is_sent_first_what_isnt_answered() -> None:
    """Also what came while none ran, and each once, whatever reaches the disk when."""
    outbox, run, other = outbox_of(disk := SlowLog()), BegunRun(), BegunRun()
    begin(outbox, run)
    put(outbox, "a")
    put(outbox, "b")
    await disk.written()
    outbox.settle(outbox.unanswered[0], Entry(1, "a", "entered 1"))
    put(outbox, "c")
    outbox.end()
    put(outbox, "d")
    begin(outbox, other)
    put(outbox, "e")
    await disk.written()
    assert (run.sent, other.sent) == (["a b"], ["b c d", "e"])
    kept = [line.split('"record":"')[1][0] if "record" in line else line for line in disk.lines]
    assert "".join(kept) == "startabcdstartbcde"


async def test_what_is_held_waits_until_it_is_released_as_often() -> None:
    outbox, run = outbox_of(disk := SlowLog()), BegunRun()
    begin(outbox, run)
    outbox.hold()
    outbox.hold()
    answer = put(outbox, "a")
    put(outbox, "b", is_first=True)
    outbox.release()
    await disk.written()
    assert (run.sent, outbox.waiting) == (["b"], 2)
    outbox.release()
    await disk.written()
    assert run.sent == ["b", "a"] and not answer.done()


async def test_a_run_that_ends_at_once_is_sent_nothing_more() -> None:
    """Nor is what was about to be sent to it sent twice to the next one."""
    outbox, run, other = outbox_of(disk := SlowLog()), BegunRun(), BegunRun()
    begin(outbox, run)
    disk.write()
    put(outbox, "a")
    disk.write()
    outbox.end()
    begin(outbox, other)
    await disk.written()
    assert (run.sent, other.sent) == ([], ["a"])


async def test_a_run_in_whose_place_another_begins_is_sent_nothing() -> None:
    outbox, run, other = outbox_of(disk := SlowLog()), BegunRun(), BegunRun()
    said = begin(outbox, run)
    begin(outbox, other)
    put(outbox, "a")
    await disk.written()
    assert (said, run.sent, other.sent) == ([], [], ["a"])


async def test_a_run_that_ends_before_its_start_is_written_is_sent_nothing() -> None:
    outbox, run = outbox_of(disk := SlowLog()), BegunRun(takes_more=False)
    said = begin(outbox, run)
    put(outbox, "a")
    await disk.written()
    assert (said, run.sent, outbox.process, outbox.waiting) == ([], [], None, 1)

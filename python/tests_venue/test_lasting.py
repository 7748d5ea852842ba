"""What is done again and again as long as a venue runs: a fault of one time ends none of it, and is
said.
"""
import asyncio
import pathlib
import socket
from collections.abc import AsyncIterator, Callable, Coroutine
from typing import Any

import pytest
import pytest_asyncio
import served
from callauction.venue import auctions, listening, looks, notices, robots, supervising
from callauction.venue import venue as venues
from callauction.venue.config import DayTerms, Plan
from callauction.venue.gates import Gate, Gates, Stage
from callauction.venue.log import Log
from callauction.venue.venue import Venue
from lasting import SOON, Once, has_said

pytestmark = pytest.mark.asyncio


@pytest_asyncio.fixture
async def inside(
    tmp_path: pathlib.Path, monkeypatch: pytest.MonkeyPatch
) -> AsyncIterator[Venue]:
    """A venue that runs in this loop, and does all again and again at once."""
    for module, name in (
        (auctions, "TICK"), (looks, "LEAST_PAUSE"), (robots, "TURN_SECONDS"),
        (venues, "LOOK_SECONDS"),
    ):
        monkeypatch.setattr(module, name, SOON)
    venue = Venue(DayTerms(is_synced=False, plan=Plan(call=0)), tmp_path, served.program())
    await venue.open()
    yield venue
    await venue.close()


async def test_the_clock_of_calls(
    inside: Venue, monkeypatch: pytest.MonkeyPatch, caplog: pytest.LogCaptureFixture
) -> None:
    once = Once()
    monkeypatch.setattr(inside.rounds.now.boards["XYZ"].auctions, "keep_time", once)
    await once.again()
    assert has_said(caplog)


async def test_the_looks_at_a_program(
    inside: Venue, monkeypatch: pytest.MonkeyPatch, caplog: pytest.LogCaptureFixture
) -> None:
    once, board = Once(), inside.rounds.now.boards["XYZ"]
    monkeypatch.setattr(board.looks, "_look", once.later)
    async with asyncio.timeout(30.0):
        while not once.done.is_set():
            board.looks.touch()
            await asyncio.sleep(SOON)
    assert has_said(caplog)


async def test_the_robots(
    inside: Venue, monkeypatch: pytest.MonkeyPatch, caplog: pytest.LogCaptureFixture
) -> None:
    once = Once()
    inside.members.join_robot("R1", "zero")
    inside.rounds.now.boards["XYZ"].auctions.start_call()
    monkeypatch.setattr(robots, "window", lambda board: 0.0)
    monkeypatch.setattr(robots.Robots, "_play", once)
    monkeypatch.setattr(robots, "waits", lambda robot, board: False)
    inside.members.join_robot("R2", "zero")
    await once.again()
    assert has_said(caplog)


@pytest.mark.parametrize("fault", ["clock", "journal", "log"])
async def test_the_look_every_few_seconds(
    inside: Venue,
    monkeypatch: pytest.MonkeyPatch,
    caplog: pytest.LogCaptureFixture,
    fault: str,
) -> None:
    once = Once()
    if fault == "clock":
        monkeypatch.setattr(inside.time, "look", once)
    elif fault == "journal":
        monkeypatch.setattr(inside.rounds.now.boards["XYZ"].engine, "look", once.later)
    else:
        monkeypatch.setattr(inside.log, "look", once.later)
    await once.again()
    assert has_said(caplog)


async def ends_by_itself(work: Coroutine[Any, Any, None], once: Once) -> bool:
    """Whether some work ends before it is done again."""
    task = asyncio.get_running_loop().create_task(work)
    again = asyncio.get_running_loop().create_task(once.again())
    done, _ = await asyncio.wait({task, again}, return_when=asyncio.FIRST_COMPLETED)
    task.cancel()
    again.cancel()
    return task in done


async def test_the_counts_of_lines(
    monkeypatch: pytest.MonkeyPatch, caplog: pytest.LogCaptureFixture
) -> None:
    once = Once()
    monkeypatch.setattr(notices, "REPEAT_SECONDS", SOON)
    monkeypatch.setattr(notices, "write_left_out", once)
    assert not await ends_by_itself(notices.write_counts(), once)
    assert has_said(caplog)


async def test_the_signs_of_life(
    monkeypatch: pytest.MonkeyPatch, caplog: pytest.LogCaptureFixture
) -> None:
    once = Once()
    monkeypatch.setattr(supervising, "notify", once)
    assert not await ends_by_itself(supervising.live(SOON), once)
    assert has_said(caplog)


async def test_what_follows_from_the_log(
    tmp_path: pathlib.Path, caplog: pytest.LogCaptureFixture
) -> None:
    once, log = Once(), Log(tmp_path / "log", False)
    running = asyncio.get_running_loop().create_task(log.run())
    log.append("{}", once)
    log.append("{}", once)
    await once.again()
    log.close()
    await running
    assert has_said(caplog) and log.path.read_text("ascii") == "{}\n{}\n"


class Silent(asyncio.Transport):
    """A transport that can't say how much is unsent, or can and has been ended."""

    def __init__(self, is_broken: bool) -> None:
        super().__init__()
        self.is_broken, self.is_over = is_broken, False

    def get_write_buffer_size(self) -> int:
        if self.is_broken:
            raise ZeroDivisionError("broken")
        return 1

    def abort(self) -> None:
        self.is_over = True


def swept(stage: Stage, is_broken: bool, found: Gates) -> Silent:
    """A connection that is due to be ended."""
    gate, transport = Gate("a", socket.socket(), 0.0, stage, unsent=1), Silent(is_broken)
    assert found.enter(gate)
    found.begun(gate, transport)
    return transport


async def test_who_is_broken_keeps_no_other_from_being_swept(
    caplog: pytest.LogCaptureFixture,
) -> None:
    """Whether it waits or is known; each fault is said."""
    found = Gates()
    pairs = [
        (swept(stage, True, found), swept(stage, False, found))
        for stage in (Stage.KNOWN, Stage.WAITING)
    ]
    found.sweep()
    assert [(broken.is_over, other.is_over) for broken, other in pairs] == [(False, True)] * 2
    assert has_said(caplog) and len(caplog.records) == 2


async def listening_at(found: Gates, made: Callable[[], asyncio.Protocol]) -> tuple[Any, int]:
    """A listener, and its port."""
    sockets = listening.sockets_at("127.0.0.1", 0)
    return listening.Listener(found, sockets, made, None), sockets[0].getsockname()[1]


async def test_the_sweep_of_connections(
    monkeypatch: pytest.MonkeyPatch, caplog: pytest.LogCaptureFixture
) -> None:
    once, found = Once(), Gates()
    monkeypatch.setattr(listening, "SWEEP_SECONDS", SOON)
    monkeypatch.setattr(found, "sweep", once)
    listener, _ = await listening_at(found, asyncio.Protocol)
    await once.again()
    listener.close()
    assert has_said(caplog)


async def test_a_connection_that_cant_be_taken_keeps_out_no_other(
    monkeypatch: pytest.MonkeyPatch, caplog: pytest.LogCaptureFixture
) -> None:
    """A connection that can't be taken keeps no other from being taken."""
    once, found = Once(), Gates()
    monkeypatch.setattr(found, "enter", once)
    listener, port = await listening_at(found, asyncio.Protocol)
    for _ in range(2):
        _, writer = await asyncio.open_connection("127.0.0.1", port)
        writer.close()
    await once.again()
    listener.close()
    assert has_said(caplog)

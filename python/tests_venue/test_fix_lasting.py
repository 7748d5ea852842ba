"""What the FIX front does again and again: a fault of one time, or of one connection, is nobody
else's matter, and is said.
"""
import asyncio
import pathlib
import types
from collections.abc import Coroutine
from typing import Any, cast

import pytest
from callauction.fix import front, wires
from callauction.fix.connections import Connections
from callauction.fix.sent import Outbound, SentMessages
from lasting import SOON, Once, has_said

pytestmark = pytest.mark.asyncio
Kept = pytest.LogCaptureFixture


class Wired:
    """In the place of a connection, which takes nothing where it is broken."""

    seat = None
    address = "192.0.2.1"

    def __init__(self, is_broken: bool) -> None:
        self._is_broken, self.said, self.why = is_broken, b"", ""

    def send(self, data: bytes, is_last: bool) -> None:
        if self._is_broken:
            raise ZeroDivisionError("broken")
        self.said += data

    def cut(self, why: str) -> None:
        self.why = why


async def test_a_broken_connection_silences_no_other(tmp_path: pathlib.Path, caplog: Kept) -> None:
    """Nor a later word to it, and it is ended."""
    both = {1: Wired(True), 2: Wired(False)}
    outbound = Outbound(SentMessages(tmp_path, False), cast(Any, both), lambda: None)
    those = [(1, b"first", 0, False), (2, b"second", 0, False)]
    outbound.engine = cast(Any, types.SimpleNamespace(outgoing=lambda: those))
    for _ in range(2):
        outbound.send_out()
    await asyncio.sleep(0)
    assert both[2].said == b"secondsecond" and both[1].why and not both[2].why
    assert has_said(caplog)


class Slow(asyncio.Transport):
    """A transport that ends and has something unsent, and how often that is looked at."""

    def __init__(self) -> None:
        super().__init__()
        self.looks, self.closes = 0, 0

    def is_closing(self) -> bool:
        return self.closes > 0

    def close(self) -> None:
        self.closes += 1

    def get_write_buffer_size(self) -> int:
        self.looks += 1
        return 1


async def test_a_connection_that_ends_is_looked_at_until_it_is_lost(
    monkeypatch: pytest.MonkeyPatch,
) -> None:
    """It is closed once; what it hadn't taken as it was lost is nothing to wait for."""
    monkeypatch.setattr(wires, "LINGER_SECONDS", SOON)
    those: dict[int, wires.Wire] = {}
    wire = wires.Wire(cast(Any, types.SimpleNamespace(wires=those)))
    those[wire.number], slow = wire, Slow()
    wire._transport = slow
    for _ in range(2):
        wire.end()
    await asyncio.sleep(10 * SOON)
    assert slow.closes == 1 and slow.looks > 1
    those.clear()
    await asyncio.sleep(3 * SOON)
    looks = slow.looks
    await asyncio.sleep(10 * SOON)
    assert slow.looks == looks


async def test_a_write_that_fails_is_tried_again(tmp_path: pathlib.Path) -> None:
    once, outbound = Once(), Outbound(SentMessages(tmp_path, False), {}, lambda: None)
    outbound.engine = cast(Any, types.SimpleNamespace(stored=lambda: once() or []))
    with pytest.raises(ZeroDivisionError):
        outbound.write()
    assert not outbound.is_writing
    outbound.write()
    assert outbound.is_writing and once.count == 2


async def is_done_again(work: Coroutine[Any, Any, None], once: Once, news: asyncio.Event) -> bool:
    """Whether some work is done again after a fault, where there are news."""
    task = asyncio.get_running_loop().create_task(work)
    for _ in range(100):
        news.set()
        await asyncio.sleep(SOON)
        if once.done.is_set():
            break
    ended = task.done()
    task.cancel()
    return once.done.is_set() and not ended


async def test_the_clock_of_the_sessions(monkeypatch: pytest.MonkeyPatch, caplog: Kept) -> None:
    once, one = Once(), front.FixFront.__new__(front.FixFront)
    monkeypatch.setattr(front, "TICK", SOON)
    one._sent = cast(Any, types.SimpleNamespace(log=types.SimpleNamespace(retry=once)))
    assert await is_done_again(one._tick(), once, asyncio.Event())
    assert has_said(caplog)


async def test_what_sessions_asked_for(caplog: Kept) -> None:
    """Of all that changes."""
    once, one = Once(), Connections.__new__(Connections)
    one.news, one.outbound = asyncio.Event(), cast(Any, types.SimpleNamespace(send=print))
    seat = types.SimpleNamespace(name="ALICE", feeds=types.SimpleNamespace(send=once))
    one.on = cast(Any, types.SimpleNamespace(
        items=lambda: [(seat, types.SimpleNamespace(is_slow=False))]))
    assert await is_done_again(one.feed(), once, one.news)
    assert has_said(caplog)

"""Turns: in which order connections are looked at, counted in rounds of the loop, not in time."""
import asyncio
import contextlib
import pathlib
import socket
import ssl
from collections.abc import Callable
from typing import Any

import pytest
from callauction.venue.gates import Gate, Gates, Stage
from callauction.venue.passing import HEAD_SLICE, PassingProtocol, Secured, size_of_slice
from callauction.venue.turns import Turns
from certificates import certificate
from listeners import NoTransport

REQUEST = b"GET /api/day HTTP/1.1\r\nHost: 127.0.0.1\r\n\r\n"
STRANGERS, ADDRESSES, ROUNDS = 250, 5, 100
HeardSlices = list[tuple[str, bytes]]
pytestmark = pytest.mark.asyncio


class Inner(asyncio.Protocol):
    """Writes down what is passed on to it."""

    def __init__(self, name: str, heard: HeardSlices) -> None:
        self._name, self._heard = name, heard

    def data_received(self, data: bytes) -> None:
        self._heard.append((self._name, data))


class FailingProtocol(asyncio.Protocol):
    """Takes nothing."""

    def data_received(self, data: bytes) -> None:
        raise ZeroDivisionError


class ClosingProtocol(asyncio.Protocol):
    """Ends its connection as soon as something is said."""

    def connection_made(self, transport: asyncio.BaseTransport) -> None:
        self._transport = transport

    def data_received(self, data: bytes) -> None:
        self._transport.close()


def passed(
    found: Gates, inner: asyncio.Protocol, address: str = "a", **more: Any
) -> PassingProtocol:
    """A connection from an address."""
    one = PassingProtocol(found, Gate(address, socket.socket(), 0.0, **more), inner)
    one.connection_made(NoTransport())
    return one


async def test_strangers_take_turns_behind_who_is_known() -> None:
    """One request of them in each round of the loop, however many wait and however much each says;
    of one speaker one more. Of each address as many as of each other one.
    """
    found, heard = Gates(), HeardSlices()
    for place in range(STRANGERS):
        address = f"10.0.0.{place % ADDRESSES}" if place < 20 else "10.0.0.0"
        passed(found, Inner(address, heard), address).data_received(REQUEST * 30)
    assert heard == []
    passed(found, Inner("Anna", heard), speaker="Anna").data_received(REQUEST * 3)
    passed(found, Inner("known", heard), stage=Stage.KNOWN).data_received(b"an order")
    assert heard == [("known", b"an order")]
    for number in range(1, ROUNDS + 1):
        await asyncio.sleep(0)
        names = [name for name, _ in heard]
        assert names.count("Anna") == min(3, number)
        assert len(names) == 1 + number + min(3, number)
    assert {data for _, data in heard[1:]} == {REQUEST}
    first = [name for name, _ in heard if name.startswith("10.")]
    assert first[:ADDRESSES] == [f"10.0.0.{place}" for place in range(ADDRESSES)]
    assert all(first.count(f"10.0.0.{place}") == ROUNDS // ADDRESSES for place in range(ADDRESSES))


async def test_one_speaker_comes_as_often_as_another_however_many_connections_it_has() -> None:
    found, heard = Gates(), HeardSlices()
    for name in ["Bad"] * STRANGERS + ["Anna"]:
        passed(found, Inner(name, heard), speaker=name).data_received(REQUEST)
    await asyncio.sleep(0)
    await asyncio.sleep(0)
    assert [name for name, _ in heard] == ["Bad", "Anna"]


class Far:
    """The far end of a connection by TLS to a venue that isn't there."""

    def __init__(
        self, found: Gates, tls: ssl.SSLContext, inner: Callable[[Gate], asyncio.Protocol]
    ) -> None:
        context = ssl.create_default_context()
        context.check_hostname, context.verify_mode = False, ssl.CERT_NONE
        self._heard, self._said = ssl.MemoryBIO(), ssl.MemoryBIO()
        self.end = context.wrap_bio(self._heard, self._said)
        self.line = NoTransport()
        done = asyncio.get_running_loop().create_future()
        gate = Gate("a", socket.socket(), 0.0)
        self._near = Secured(found, gate, inner(gate), tls, done)
        self._near.connection_made(self.line)

    def shake_hands(self) -> None:
        """Takes what came of the handshake, and goes on with it."""
        self._heard.write(self.line.taken())
        with contextlib.suppress(ssl.SSLWantReadError):
            self.end.do_handshake()
        self.say()

    def leave(self) -> bool:
        """Says that nothing more comes: whether the connection stays."""
        leave: Any = self._near.eof_received
        return bool(leave())

    def say(self) -> None:
        """Sends all that was written."""
        text = self._said.read()
        self._near.get_buffer(-1)[: len(text)] = text
        self._near.buffer_updated(len(text))


def of_server(folder: pathlib.Path) -> ssl.SSLContext:
    """The TLS of a venue."""
    words = certificate(folder, "venue")
    found = ssl.create_default_context(ssl.Purpose.CLIENT_AUTH)
    found.load_cert_chain(words[1], words[3])
    return found


async def test_tls_keeps_little_more_than_is_deciphered_at_once(tmp_path: pathlib.Path) -> None:
    """While what it gave before isn't looked at, so that what it gives then is little too."""
    context, found, heard = of_server(tmp_path), Gates(), HeardSlices()
    one = Far(found, context, lambda gate: PassingProtocol(found, gate, Inner("one", heard)))
    for _ in range(2):
        one.shake_hands()
        await asyncio.sleep(0)
    for is_read in (True, True, False):
        assert one.line.is_read
        one.end.write(b"x" * 4050)
        one.say()
        await asyncio.sleep(0)
        await asyncio.sleep(0)
        assert one.line.is_read == is_read
    for _ in range(30):
        await asyncio.sleep(0)
    assert one.line.is_read and sum(len(data) for _, data in heard) == 12_150


async def test_who_leaves_while_its_connection_is_ended_is_gone(tmp_path: pathlib.Path) -> None:
    """By TLS, whose end waits for what wasn't looked at."""
    context, found = of_server(tmp_path), Gates()
    one = Far(found, context, lambda gate: PassingProtocol(found, gate, ClosingProtocol()))
    for _ in range(2):
        one.shake_hands()
        await asyncio.sleep(0)
    one.end.write(b"x" * 3000)
    one.say()
    await asyncio.sleep(0)
    assert one.leave() and not one.line.is_over
    for _ in range(9):
        await asyncio.sleep(0)
    assert one.line.is_over


async def test_who_is_closed_twice_at_its_turn_harms_nobody(tmp_path: pathlib.Path) -> None:
    """By TLS: asyncio's transport then takes no calls."""
    context, found, faults = of_server(tmp_path), Gates(), []
    asyncio.get_running_loop().set_exception_handler(lambda _, why: faults.append(why))

    class Twice(ClosingProtocol):
        def data_received(self, data: bytes) -> None:
            super().data_received(data)
            super().data_received(data)

    one = Far(found, context, lambda gate: PassingProtocol(found, gate, Twice()))
    for _ in range(2):
        one.shake_hands()
        await asyncio.sleep(0)
    one.end.write(b"x" * 3000)
    one.say()
    for _ in range(9):
        await asyncio.sleep(0)
    assert not faults


async def test_what_is_said_by_tls_takes_turns_too(tmp_path: pathlib.Path) -> None:
    """Of all that has come at once, one handshake is gone on with in each round of the loop, and
    the records of one are read.
    """
    context, found, heard = of_server(tmp_path), Gates(), HeardSlices()
    those = [Far(found, context, lambda gate: Inner("one", heard)) for _ in range(20)]
    for each in those:
        each.shake_hands()
    for number in range(1, len(those) + 1):
        await asyncio.sleep(0)
        assert [bool(each.line.said) for each in those].count(True) == number
        assert [each.line.is_read for each in those].count(True) == number
    for each in those:
        each.shake_hands()
    for _ in range(len(those) + 1):
        await asyncio.sleep(0)
    for each in those:
        for _ in range(100):
            each.end.write(b"x")
        each.say()
    for number in range(1, len(those) + 1):
        await asyncio.sleep(0)
        assert len(heard) == number
    assert {data for _, data in heard} == {b"x" * 100}


async def test_who_waits_is_not_read() -> None:
    found = Gates()
    one = passed(found, Inner("one", HeardSlices()))
    one.data_received(REQUEST * 2)
    assert isinstance(one._transport, NoTransport) and not one._transport.is_read
    await asyncio.sleep(0)
    assert not one._transport.is_read
    await asyncio.sleep(0)
    assert one._transport.is_read


async def test_who_has_ended_takes_no_turn() -> None:
    found, heard = Gates(), HeardSlices()
    gone = [passed(found, Inner("gone", heard)) for _ in range(9)]
    for each in gone:
        each.data_received(REQUEST)
    passed(found, Inner("there", heard)).data_received(REQUEST)
    for each in gone:
        each.connection_lost(None)
    await asyncio.sleep(0)
    assert heard == [("there", REQUEST)]


@pytest.mark.parametrize("stage", [Stage.WAITING, Stage.KNOWN])
async def test_a_fault_ends_its_own_connection_alone(stage: Stage) -> None:
    found, heard, faults = Gates(), HeardSlices(), []
    loop = asyncio.get_running_loop()
    loop.set_exception_handler(lambda _, context: faults.append(context["exception"]))
    bad, good = passed(found, FailingProtocol(), stage=stage), passed(found, Inner("good", heard))
    good.data_received(REQUEST)
    try:
        bad.data_received(REQUEST)
    except ZeroDivisionError as fault:
        faults.append(fault)
    await asyncio.sleep(0)
    await asyncio.sleep(0)
    assert heard == [("good", REQUEST)] and [*map(type, faults)] == [ZeroDivisionError]
    assert isinstance(bad._transport, NoTransport) and bad._transport.is_over


async def test_turns_go_on_after_a_while_without_any() -> None:
    turns = Turns()
    taken: list[int] = []

    def take() -> bool:
        taken.append(len(taken))
        return True

    for number in range(3):
        turns.wait("one", take)
        await asyncio.sleep(0)
        assert taken == [*range(number + 1)]
        await asyncio.sleep(0)


async def test_a_slice_has_one_head_at_most() -> None:
    for text, size in [
        (REQUEST * 2, len(REQUEST)),
        (REQUEST.replace(b"\r", b"") * 2, len(REQUEST) - 3),
        (b"\r\n\r\n" * 9, 4),
        (b"x" * 5000, HEAD_SLICE),
        (b"x" * HEAD_SLICE + b"\n\n", HEAD_SLICE),
    ]:
        assert size_of_slice(bytearray(text)) == size


async def test_who_speaks_gives_way_last() -> None:
    """Of those that wait, where there are too many connections."""
    found = Gates(9, 3)
    own = [Gate("a", socket.socket(), 0.0, speaker=name) for name in ("Anna", "", "Bert")]
    for each in (*own, Gate("a", socket.socket(), 0.0, speaker="Carl")):
        assert found.enter(each)
    assert own[1] not in found._all and len(found) == 3
    assert found.enter(Gate("a", socket.socket(), 0.0))
    assert own[0] not in found._all and own[2] in found._all

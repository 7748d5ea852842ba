"""What a connection says is taken no faster than it may say more: of those that are somebody's at
once, of the others one request in each round of the loop, so that whole requests hold up nobody
either.
"""
import asyncio
import functools
import re
import ssl
from asyncio import sslproto

from callauction.venue.gates import HEAD_SECONDS, MOST_UNTAKEN, Gate, Gates, Stage

SLICE, HEAD_SLICE = 8192, 1024
"""Bytes of a connection that are looked at before it is the turn of the others: of one that is
known, each two of whose slices have a whole message, and of another.
"""
END_OF_HEAD = re.compile(rb"\n\r?\n")
MOST_READ = 32_768
"""What is read of a connection at once, or kept by TLS to read into. Of the 262,144 bytes that
asyncio reads thousands that wait would fill a gigabyte.
"""
MOST_DECIPHERED = 4096
"""What is deciphered at once of who isn't known: as many as 180 of the smallest records."""
BUSY_SECONDS, ASKED_SECONDS, IN_VAIN_SECONDS = 0.005, 0.05, 0.5
"""How long until it is tried again to look at more of who is known; of who has a request that isn't
begun; how long after as much had no message.
"""


class PassingProtocol(asyncio.Protocol):
    """The protocol of a connection, which says what comes of it to the gates, and passes it on in
    slices, no sooner than it may say more: aiohttp bounds neither the requests nor the empty
    messages that wait.
    """

    def __init__(self, gates: Gates, gate: Gate, inner: asyncio.Protocol) -> None:
        self._gates, self._gate, self._inner = gates, gate, inner
        self._transport: asyncio.Transport | None = None
        self._rest = bytearray()
        self._is_waiting = False

    def connection_made(self, transport: asyncio.BaseTransport) -> None:
        """It may speak."""
        assert isinstance(transport, asyncio.Transport)
        self._transport = transport
        if hasattr(transport, "max_size"):
            transport.max_size = MOST_READ
        if hasattr(transport, "set_read_buffer_limits"):
            transport.set_read_buffer_limits(MOST_DECIPHERED)
        self._gates.begun(self._gate, transport)
        self._inner.connection_made(transport)

    def connection_lost(self, fault: Exception | None) -> None:
        """It has ended."""
        self._rest.clear()
        self._gates.leave(self._gate)
        self._inner.connection_lost(fault)

    def data_received(self, data: bytes) -> None:
        """It says this."""
        self._rest += data
        if self._is_waiting:
            self._read_on(False)
        elif self._gate.stage is Stage.KNOWN:
            self._look()
        else:
            self._read_on(False)
            self._look_later(0.0)

    def _look_later(self, seconds: float) -> None:
        """Looks at more of it: after these seconds, and where nobody is known at its turn."""
        self._is_waiting = True
        loop = asyncio.get_running_loop()
        if seconds:
            loop.call_later(seconds, self._look_later, 0.0)
        elif self._gate.stage is Stage.KNOWN:
            loop.call_soon(self._look)
        else:
            self._gates.wait(self._gate, self._look)

    def _look(self) -> bool:
        """Passes on a slice, if it may, and says when the next one is looked at: whether it did."""
        self._is_waiting = False
        seconds = self._seconds()
        is_passed = bool(self._rest) and not seconds and self._is_open()
        if is_passed:
            self._pass_on()
        if self._rest and self._is_open():
            self._look_later(seconds)
        self._read_on(not self._rest)
        return is_passed

    def _pass_on(self) -> None:
        """Passes on a slice; what can't be passed on ends the connection."""
        size = SLICE if self._gate.stage is Stage.KNOWN else size_of_slice(self._rest)
        taken = bytes(self._rest[:size])
        del self._rest[:size]
        self._gate.untaken += len(taken)
        try:
            self._inner.data_received(taken)
        except Exception:
            self._gate.close()
            raise

    def _seconds(self) -> float:
        """How long it has to wait until it may say more."""
        gate = self._gate
        if gate.stage is not Stage.KNOWN:
            if gate.untaken >= MOST_UNTAKEN:
                return IN_VAIN_SECONDS
            return ASKED_SECONDS if getattr(self._inner, "_messages", ()) else 0.0
        if gate.is_held:
            return BUSY_SECONDS
        if gate.untaken >= SLICE:
            gate.untaken = 0
            return IN_VAIN_SECONDS
        return 0.0

    def _is_open(self) -> bool:
        """Whether it has begun, and isn't about to end."""
        return self._transport is not None and not self._transport.is_closing()

    def _read_on(self, is_wanted: bool) -> None:
        """Reads more of it, or nothing for now; of one that ends TLS takes what is left of it."""
        if not self._is_open():
            self._rest.clear()
        if self._transport is None:
            return
        if is_wanted or not self._rest:
            self._transport.resume_reading()
        else:
            self._transport.pause_reading()

    def eof_received(self) -> bool | None:
        """It says nothing more."""
        return self._inner.eof_received()

    def pause_writing(self) -> None:
        """It takes nothing more for now."""
        self._inner.pause_writing()

    def resume_writing(self) -> None:
        """It takes more."""
        self._inner.resume_writing()


def size_of_slice(rest: bytearray) -> int:
    """How many bytes are looked at next of who isn't known: no more than one head."""
    found = END_OF_HEAD.search(rest, 0, HEAD_SLICE)
    return found.end() if found else HEAD_SLICE


class Closable(sslproto._SSLProtocolTransport):
    """The transport of a connection by TLS, which is closed once: closed twice, asyncio's takes no
    calls any more, not even what asks how much is unsent.
    """

    def close(self) -> None:
        """Ends it once all was sent, unless it is ending."""
        if not self.is_closing():
            super().close()


class Secured(sslproto.SSLProtocol):
    """TLS of a connection, which goes on at its turns until somebody is known: a step of the
    handshake, or a block of the smallest records, may cost as much as some requests. `done` ends
    with the handshake.
    """

    max_size = MOST_READ

    def __init__(
        self,
        gates: Gates,
        gate: Gate,
        inner: asyncio.Protocol,
        context: ssl.SSLContext,
        done: "asyncio.Future[None]",
    ) -> None:
        super().__init__(
            asyncio.get_running_loop(),
            inner,
            context,
            done,
            server_side=True,
            ssl_handshake_timeout=HEAD_SECONDS,  # type: ignore[arg-type]
        )
        self._gates, self._gate = gates, gate

    def _get_app_transport(self) -> sslproto._SSLProtocolTransport:
        """The transport that it gives to who serves it."""
        if self._app_transport is None:
            self._app_transport = Closable(asyncio.get_running_loop(), self)
        return self._app_transport

    def get_buffer(self, n: int) -> memoryview:
        """Where what it says next is put."""
        found: memoryview = super().get_buffer(n)
        return found if self._gate.stage is Stage.KNOWN else found[:MOST_DECIPHERED]

    def buffer_updated(self, nbytes: int) -> None:
        """It says this."""
        if self._gate.stage is Stage.KNOWN:
            super().buffer_updated(nbytes)
        elif isinstance(self._transport, asyncio.Transport):
            self._transport.pause_reading()
            self._gates.wait(self._gate, functools.partial(self._go_on, nbytes))

    def _go_on(self, nbytes: int) -> bool:
        """Goes on with what it said, and reads on unless it has much to take: whether it did."""
        transport = self._transport
        if not isinstance(transport, asyncio.Transport) or transport.is_closing():
            return False
        super().buffer_updated(nbytes)
        if not transport.is_closing() and not getattr(self, "_ssl_reading_paused", False):
            transport.resume_reading()
        return True

"""Sockets that listen, and what takes the connections that come there."""
import asyncio
import dataclasses
import errno
import socket
import ssl
from collections.abc import Callable

from callauction.venue.background import going_on
from callauction.venue.gates import HEAD_SECONDS, Gate, Gates
from callauction.venue.logger import NOTICES
from callauction.venue.networks import network_of
from callauction.venue.passing import PassingProtocol, Secured

SWEEP_SECONDS = 0.5
BACKLOG = 1024
ACCEPT_PAUSE = 0.1
"""Seconds until connections are taken again after that failed."""


@dataclasses.dataclass
class Tls:
    """By what connections begin TLS; another context may take its place, for those that come then.
    """

    context: ssl.SSLContext


class Listener:
    """Takes connections at sockets that listen, and serves them by protocols."""

    def __init__(
        self,
        gates: Gates,
        sockets: list[socket.socket],
        protocol: Callable[[], asyncio.Protocol],
        tls: Tls | None,
    ) -> None:
        self._gates, self._sockets, self._protocol, self._tls = gates, sockets, protocol, tls
        self._serving: set[asyncio.Task[None]] = set()
        loop = asyncio.get_running_loop()
        self._tasks = [loop.create_task(self._accept(it)) for it in sockets]
        self._tasks.append(loop.create_task(self._sweep()))

    def close(self) -> None:
        """Takes nothing more, also of those who come at this moment; once."""
        sockets, self._sockets = self._sockets, []
        for each in sockets:
            asyncio.get_running_loop().remove_reader(each)
        for task in [*self._tasks, *self._serving]:
            task.cancel()
        for each in sockets:
            each.close()

    async def _sweep(self) -> None:
        """Ends what waits too long."""
        while True:
            await asyncio.sleep(SWEEP_SECONDS)
            with going_on("the look at connections"):
                self._gates.sweep()

    async def _accept(self, listening: socket.socket) -> None:
        """Takes what comes at a socket."""
        loop = asyncio.get_running_loop()
        while True:
            await asyncio.sleep(0)  # what gave way ends before the next one is taken
            try:
                accepted, peer = await loop.sock_accept(listening)
            except OSError as fault:
                NOTICES.warning("a connection can't be taken: %s", fault.strerror)
                await asyncio.sleep(ACCEPT_PAUSE)
                continue
            with going_on("a connection's begin"):
                self._take(accepted, str(peer[0]))

    def _take(self, accepted: socket.socket, address: str) -> None:
        """Takes a connection from an address, or refuses it."""
        loop = asyncio.get_running_loop()
        gate = Gate(network_of(address), accepted, loop.time() + HEAD_SECONDS)
        if not self._gates.enter(gate):
            NOTICES.warning("too many connections: one of %s is refused", gate.address)
            accepted.close()
            return
        gate.task = loop.create_task(self._serve(gate))
        self._serving.add(gate.task)
        gate.task.add_done_callback(self._serving.discard)

    async def _serve(self, gate: Gate) -> None:
        """Begins to serve a connection; what is wrong with its TLS is nobody else's matter."""
        inner = PassingProtocol(self._gates, gate, self._protocol())
        try:
            await self._begin(gate, inner)
        except (OSError, asyncio.CancelledError):
            pass
        if gate.transport is None:
            self._gates.leave(gate)
            gate.socket.close()

    async def _begin(self, gate: Gate, inner: PassingProtocol) -> None:
        """Connects who serves a connection, after the handshake where there is TLS. Raises OSError.
        """
        loop = asyncio.get_running_loop()
        if self._tls is None:
            await loop.connect_accepted_socket(lambda: inner, gate.socket)
            return
        done: asyncio.Future[None] = loop.create_future()
        secured = Secured(self._gates, gate, inner, self._tls.context, done)
        transport, _ = await loop.connect_accepted_socket(lambda: secured, gate.socket)
        try:
            await done
        except BaseException:
            transport.close()
            raise


def why_not(host: str, port: int, fault: OSError, other: str = "another") -> str:
    """Why nothing can listen there, and what to do."""
    do = "end who does, or take" if fault.errno == errno.EADDRINUSE else "take"
    return f"can't listen on {host}, port {port}: {fault.strerror}: {do} {other}"


def sockets_at(host: str, port: int) -> list[socket.socket]:
    """Sockets that listen on a host. Raises OSError."""
    found = bound(host, port)
    listen(found)
    return found


def listen(sockets: list[socket.socket]) -> None:
    """Lets bound sockets listen."""
    for each in sockets:
        each.listen(BACKLOG)


def bound(host: str, port: int) -> list[socket.socket]:
    """Sockets that nobody else may listen at, and that don't yet. Raises OSError."""
    found: list[socket.socket] = []
    rows = socket.getaddrinfo(host, port, type=socket.SOCK_STREAM, flags=socket.AI_PASSIVE)
    try:
        for family, kind, protocol, _, address in dict.fromkeys(rows):
            each = socket.socket(family, kind, protocol)
            found.append(each)
            each.setsockopt(socket.SOL_SOCKET, socket.SO_REUSEADDR, 1)
            if family == socket.AF_INET6:
                each.setsockopt(socket.IPPROTO_IPV6, socket.IPV6_V6ONLY, 1)
            each.bind((address[0], port, *address[2:]))
            port = each.getsockname()[1]  # the others too, where the system has chosen it
            each.setblocking(False)
    except OSError:
        for each in found:
            each.close()
        raise
    return found

"""Where members come by FIX: the address, the connections, who logs on and off on them, and what is
said there.
"""
import asyncio
import contextlib
import functools
import re
import socket
from collections.abc import Callable, Coroutine, Iterator, Mapping
from typing import Any

from callauction.fix.seats import Seat
from callauction.fix.sent import MOST_AT_ONCE, Outbound, SentMessages
from callauction.fix.tags import Tag, Type, now
from callauction.fix.wires import STATES, Wire
from callauction.venue import listening
from callauction.venue.background import going_on
from callauction.venue.gates import Gates
from callauction.venue.listening_address import AddressError
from callauction.venue.logger import NOTICES
from callauction.venue.messages import ERRORS
from callauction.venue.venue import Venue

CLIENT_REFUSES = "Received BusinessMessageReject"
"""How what the module says begins of what a client refuses, in texts of its own."""
LOGON_REFUSED = "a Logon is refused: "
"""How what the module says of a Logon that isn't taken begins."""
LOGOUT_SECONDS, LOGOUT_PAUSE = 1.0, 0.01
"""How long the answer to a Logout waits for what was said before: clients wait for 2 s or longer.
"""
MOST_CONNECTIONS, MOST_OF_ADDRESS = 256, 64
"""Connections at once, and those of one address on which nobody has logged on."""
DIGITS = re.compile("[0-9]+")
"""What differs in texts of one kind."""
REMOVED = "the operator has removed this member, whose orders are cancelled"
"""Why a session ends, in its Logout."""


class Connections:
    """The connections by their numbers, and on which each session is. Where it `is_ready`, as it is
    once it `has_begun`, sessions may begin, but for those that are `resetting`; `news` is set where
    something has changed that one asked for. `start` begins a task of the front.
    """

    def __init__(
        self, venue: Venue, sent: SentMessages, start: Callable[[Coroutine[Any, Any, None]], object]
    ) -> None:
        self.venue: Venue = venue
        self.start = start
        self.gates = Gates(MOST_CONNECTIONS, MOST_OF_ADDRESS)
        self.wires: dict[int, Wire] = {}
        self.on: dict[Seat, Wire] = {}
        self.outbound: Outbound = Outbound(sent, self.wires, self.wake)
        self.seats: Mapping[str, Seat] = {}
        self.resetting: set[Seat] = set()
        self.is_ready = self._is_woken = False
        self._due: dict[Seat, None] = {}
        self._turns = 0
        self.news, self.has_begun = asyncio.Event(), asyncio.Event()

    def name(self) -> str:
        """All that are there, by their CompIDs, else their addresses; empty for none."""
        wires = [*self.wires.values()]
        found = ", ".join(it.seat.comp_id if it.seat else it.address for it in wires)
        return found and f"connections by FIX of {found}"

    # ---- who comes and goes

    def accepts(self, session: str, password: bytes) -> bool:
        """Whether a session takes a Logon with this password. One that is on a connection takes
        none, but that has to show that somebody is there.
        """
        seat = self.seats[session]
        if not self.is_ready or seat.epoch.owed or seat in self.resetting:
            return False
        if not seat.takes(password.decode("latin-1")):
            return False
        if (wire := self.on.get(seat)) is not None and wire.expect_answer():
            self.outbound.send(seat, Type.TEST_REQUEST, [(Tag.TEST_REQ_ID, now())], [])
        return True

    def connected(self, wire: Wire) -> int:
        """A connection has come: its number."""
        number = self.outbound.engine.connect()
        self.wires[number] = wire
        return number

    def heard(self, wire: Wire) -> Seat | None:
        """Something was said on a connection, which is to be taken: whose it is."""
        self.drain(wire)
        return wire.seat or self.seats.get(self.outbound.engine.session_on(wire.number))

    def begun(self, wire: Wire) -> None:
        """A connection is somebody's now."""
        assert wire.seat is not None
        self.on[wire.seat] = wire
        if wire.member is not None:
            self.venue.audience.enter(wire)
            self.venue.audience.show_members()

    def leave(self, wire: Wire, code: str) -> None:
        """Ends the session of a connection, for one of the ERRORS of messages: a removed member's
        once it was told of its orders. Where the venue ends, all do.
        """
        is_removed = wire.member is not None and wire.member.is_removed
        if code != "halted":
            self.start(self._leave(wire, REMOVED if is_removed else ERRORS[code]))

    async def _leave(self, wire: Wire, text: str) -> None:
        """Ends the session of a connection, once its orders are taken out where they are."""
        if text == REMOVED and wire.seat is not None:
            await wire.seat.taken_out()
        if wire.number in self.wires:
            self.outbound.engine.log_out(wire.number, text)
            self.drain()

    async def log_off(self, wire: Wire) -> None:
        """Answers a connection's Logout, and what QuickFIX makes of it, once all is answered that
        was said before, or soon.
        """
        loop = asyncio.get_running_loop()
        last = loop.time() + LOGOUT_SECONDS
        while wire.seat is not None and wire.seat.is_awaiting and loop.time() < last:
            await asyncio.sleep(LOGOUT_PAUSE)
        if wire.number in self.wires:
            wire.is_ending = False  # where that is refused
            self.outbound.engine.log_off(wire.number)
            self.drain()

    def lost(self, wire: Wire) -> None:
        """A connection has ended."""
        self.wires.pop(wire.number, None)
        self.outbound.engine.lost(wire.number)
        self.drain()
        if wire.seat is None:
            return
        self.on.pop(wire.seat, None)
        wire.seat.feeds.clear()
        if self.is_ready:
            wire.seat.lost()
        self.venue.audience.leave(wire)

    # ---- what changes

    def watch(self, seat: Seat) -> None:
        """A session hears of what changes."""
        if (wire := self.on.get(seat)) is not None:
            wire.topics = STATES
            if wire.member is None:
                self.venue.audience.enter(wire)

    async def feed(self) -> None:
        """Sends sessions what they asked for of what has changed, as fast as they read it."""
        while True:
            await self.news.wait()
            self.news.clear()
            for seat, wire in [*self.on.items()]:
                with going_on(f"fix: what {seat.name} asked for of what changes"):
                    if not wire.is_slow:
                        seat.feeds.send(functools.partial(self.outbound.send, seat))

    # ---- what was said

    def drain(self, wire: Wire | None = None) -> None:
        """Learns what has happened to sessions, and what they have said, which is to be taken; a
        Logon that is refused came on this connection.
        """
        self.wake()
        for what, session, text in self.outbound.engine.events():
            said = text.decode("latin-1")
            if what == "begins":
                self.seats[session].begins(said)
                continue
            source = f", from {wire.address}" if wire and said.startswith(LOGON_REFUSED) else ""
            form = CLIENT_REFUSES if said.startswith(CLIENT_REFUSES) else DIGITS.sub("", said)
            kind = {"of": f"{what} {session} {form}{source}"}
            NOTICES.info("fix: %s %s %s%s", what, session, said, source, extra=kind)
        for session, given, rows in self.outbound.engine.said():
            seat = self.seats[session]
            seat.inbound.put(given, rows)
            self._due[seat] = None

    def wake(self) -> None:
        """Takes soon what sessions have said, and sends what they have to send."""
        if not self._is_woken:
            self._is_woken = True
            asyncio.get_running_loop().call_soon(self.flush)

    def flush(self) -> None:
        """Takes what sessions have said, and sends what they have to send."""
        self._is_woken, self._turns = False, 0
        self.take()
        if self._due:
            self.wake()
        self.outbound.send_out()

    def take(self) -> None:
        """Takes what sessions have said, of a few before the log and the program see to that."""
        while self._due and self._turns < MOST_AT_ONCE:
            seat = next(iter(self._due))
            del self._due[seat]
            self._turns += 1
            seat.inbound.turn()


class FixAddress:
    """The address at which connections come."""

    def __init__(self, host: str, port: int) -> None:
        self._host, self._port = host, port
        self._sockets: list[socket.socket] = []
        self._listener: listening.Listener | None = None

    @contextlib.contextmanager
    def _taking(self) -> Iterator[None]:
        """Raises AddressError where the address can't be had."""
        try:
            yield
        except OSError as fault:
            text = listening.why_not(self._host, self._port, fault, "another `address`")
            raise AddressError(f"fix: {text}") from None

    def bind(self) -> None:
        """Has the address. Raises AddressError where it can't be had."""
        with self._taking():
            self._sockets = listening.bound(self._host, self._port)

    def open(self) -> str:
        """Has connections wait: the line that says where. Raises AddressError."""
        with self._taking():
            listening.listen(self._sockets)
        host = f"[{self._host}]" if ":" in self._host else self._host
        return f"fix      {host}:{self._sockets[0].getsockname()[1]}"

    def listen(self, connections: Connections, tls: listening.Tls | None) -> None:
        """Takes connections, with this TLS."""
        made = functools.partial(Wire, connections)
        self._listener = listening.Listener(connections.gates, self._sockets, made, tls)

    def shut(self) -> None:
        """Takes no connection more."""
        if self._listener is not None:
            self._listener.close()
        for each in self._sockets:
            each.close()

"""A connection by FIX. It is read no faster than what it says is taken and what it is sent is read,
and it takes no more than a share of the time.
"""
import asyncio
import time
from typing import TYPE_CHECKING

from callauction.fix.seats import Seat
from callauction.venue.gates import Gate
from callauction.venue.json_types import Json
from callauction.venue.logger import NOTICES
from callauction.venue.members import VenueMember

if TYPE_CHECKING:
    from callauction.fix.connections import Connections

MOST_UNSENT = 1 << 24
"""Bytes that a connection may leave unread; then it ends, and the store has the rest."""
MOST_TOOK = 0.001
"""Seconds that something said may take before others have their turn first."""
STATES = frozenset({"states"})
"""What a connection hears of whose session asked for what changes."""
ANSWER_SECONDS = 5.0
"""How long the connection of a session that logs on once more may say nothing: then nobody is there
any more, and the next Logon is taken.
"""
LINGER_SECONDS = 5.0
"""How long a connection that was ended may stay where its client doesn't end it too."""
UNREAD = f"it left more than {MOST_UNSENT} bytes unread"
SILENT = f"it said nothing for {ANSWER_SECONDS:g} s, and its session logs on once more"
BUSY_SHARE = 4
"""How often that time passes before more is read of it."""


class Wire(asyncio.Protocol):
    """A connection, whose bytes QuickFIX reads. To the venue it is a watcher who is shown nothing
    but which boards have changed.
    """

    def __init__(self, host: "Connections") -> None:
        self._host = host
        self.number, self.role = 0, "member"
        self.member: VenueMember | None = None
        self.is_leaving = False
        self.topics: frozenset[str] = frozenset()
        self._is_left = self._is_full = self._is_paused = False
        self._is_asked = self.is_ending = False
        self._why = ""
        self._rests_until = 0.0
        self.seat: Seat | None = None

    def connection_made(self, transport: asyncio.BaseTransport) -> None:
        """It may speak."""
        assert isinstance(transport, asyncio.Transport)
        self._transport = transport
        self._gate: Gate = self._host.gates.of(transport)
        self.number = self._host.connected(self)

    def data_received(self, data: bytes) -> None:
        """It says this."""
        self._is_asked = False
        self._gate.is_held = True
        begin = time.thread_time()  # others may have the processor meanwhile
        self._is_left = self._is_full = self._host.outbound.engine.feed(self.number, data)
        took = time.thread_time() - begin
        if took > MOST_TOOK:
            loop = asyncio.get_running_loop()
            self._rests_until = loop.time() + BUSY_SHARE * took
            loop.call_later(BUSY_SHARE * took, self.go_on)
        seat = self._host.heard(self)
        if seat is not None and self.seat is None:
            self._begun(seat)
        is_within = self._host.outbound.engine.is_within(self.number)
        if seat is not None and (seat.inbound.is_busy or is_within):
            self._gate.untaken = 0
        self._host.take()
        if not self.is_ending and self._host.outbound.engine.is_leaving(self.number):
            self.is_ending = True
            self._host.start(self._host.log_off(self))
        self.go_on()

    @property
    def address(self) -> str:
        """From where it came."""
        return self._gate.address

    def _begun(self, seat: Seat) -> None:
        """It is somebody's now."""
        self.seat, self.member = seat, seat.watcher
        self.role = "member" if self.member is not None else "operator"
        seat.address, seat.inbound.heard = self._gate.address, self.go_on
        self._gate.known()
        self._host.begun(self)

    @property
    def is_slow(self) -> bool:
        """Whether it has more to read than it reads."""
        return self._is_paused or self._is_full

    def go_on(self) -> None:
        """Reads on, where it may."""
        is_busy = self.seat is not None and self.seat.inbound.is_busy
        if self.is_slow or is_busy or self._is_resting() or self._transport.is_closing():
            return
        if self._is_left:
            self.data_received(b"")
        else:
            self._gate.is_held = False

    def _is_resting(self) -> bool:
        """Whether others have their turn first."""
        if self._rests_until and asyncio.get_running_loop().time() >= self._rests_until:
            self._rests_until = 0.0
        return self._rests_until > 0.0

    def send(self, data: bytes, is_last: bool) -> None:
        """Sends bytes; nothing more is said after the last ones."""
        if self._transport.is_closing():
            return
        if self._is_full:
            self._is_full = False
            self._host.news.set()
        self._transport.write(data)
        if self._transport.get_write_buffer_size() > MOST_UNSENT:
            self.cut(UNREAD)
        elif is_last:
            self.end()
        elif self._is_left:
            asyncio.get_running_loop().call_soon(self.go_on)

    def offer(self, key: str, message: Json) -> None:
        """Says that a board has changed; all else are messages of the session."""
        if self.seat is not None and message.get("type") == "state":
            self.seat.feeds.new.add(message["instrument"])
            self._host.news.set()

    def leave(self, code: str) -> None:
        """Ends its session, for one of the ERRORS of messages."""
        self.is_leaving = True
        self._host.leave(self, code)

    def expect_answer(self) -> bool:
        """Ends it where nothing is said in time: whether it is to be asked now if somebody is
        there, as it isn't yet.
        """
        if self._is_asked:
            return False
        self._is_asked = True
        asyncio.get_running_loop().call_later(ANSWER_SECONDS, self._check_answered)
        return True

    def _check_answered(self) -> None:
        """Ends where nothing was said, and not for what is still to be taken."""
        is_busy = self.seat is not None and self.seat.inbound.is_busy
        if self._is_asked and not is_busy:
            self.cut(SILENT)
        self._is_asked = False

    def end(self) -> None:
        """Ends once all was sent, and soon after that where its client doesn't end it too."""
        if not self._transport.is_closing():
            self._transport.close()
            asyncio.get_running_loop().call_later(LINGER_SECONDS, self._check_ended)

    def _check_ended(self) -> None:
        """Ends at once, where all was sent and it is still there."""
        if self.number not in self._host.wires:
            return
        if self._transport.get_write_buffer_size():
            asyncio.get_running_loop().call_later(LINGER_SECONDS, self._check_ended)
        else:
            self._transport.abort()

    def cut(self, why: str) -> None:
        """Ends at once, for this reason."""
        self._why = self._why or why
        self._transport.abort()

    def pause_writing(self) -> None:
        """It reads too slowly for now."""
        self._is_paused = self._gate.is_held = True

    def resume_writing(self) -> None:
        """It has read what it was sent."""
        self._is_paused = False
        self._host.news.set()
        self.go_on()

    def connection_lost(self, fault: Exception | None) -> None:
        """It has ended, which is said of a session's where the venue hasn't logged it out."""
        why = self._why or self._gate.why or (f"{fault}" if fault else "")
        if self.seat is not None and why:
            session = self.seat.session
            kind = {"of": f"end {session}"}
            NOTICES.info("fix: event %s a connection is ended: %s", session, why, extra=kind)
        self._host.lost(self)

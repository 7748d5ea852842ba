"""The FIX front of a venue: sessions of members, beside those who come by pages or WebSocket.

What a session was sent is in a file of the venue's folder, or follows from the log, which has what
it said.
"""
import asyncio
import contextlib
import functools
import pathlib
import tempfile
from collections.abc import Callable, Collection, Coroutine
from typing import Any

from callauction.fix._quickfix import Engine
from callauction.fix.connections import MOST_CONNECTIONS, Connections, FixAddress
from callauction.fix.epochs import Epoch
from callauction.fix.reports import Reports
from callauction.fix.resets import ENDS, reset
from callauction.fix.seats import CopySeat, Seat
from callauction.fix.sent import MOST_AT_ONCE, SentMessages
from callauction.fix.settings import settings_of
from callauction.fix.tags import FIX44, FIXT, pairs_of
from callauction.venue import ending, tokens
from callauction.venue.background import going_on
from callauction.venue.book import OPERATOR
from callauction.venue.fix_terms import FixTerms
from callauction.venue.listening import Tls
from callauction.venue.listening_address import AddressError
from callauction.venue.logger import NOTICES
from callauction.venue.messages import MessageError
from callauction.venue.venue import Venue

TICK, START_PAUSE = 1.0, 0.5
LAST_BYTES_SECONDS = 0.5
"""How long the end waits for the last bytes."""
OTHER_FILES = 8
OWED_SECONDS, OWED_PAUSE = 8.0, 0.02
"""How long connections wait for reports that are made again: clients wait for 10 s, or longer."""
COUNTED = {
    "received": "messages that came by FIX",
    "sent": "messages that were sent by FIX",
    "rejects": "messages by FIX that refuse one, 35=3 and 35=j",
    "resends": "messages by FIX that were sent again",
}
"""What the module counts."""


class FixFront:
    """The FIX sessions of a venue, which hears all entries of its boards from the venue's opening
    on, and listens from `begin` to `shut`.
    """

    files = MOST_CONNECTIONS + OTHER_FILES

    def __init__(self, venue: Venue, terms: FixTerms, program: str) -> None:
        self._venue, self._door = venue, FixAddress(terms.host, terms.port)
        self._sent = SentMessages(venue.folder, venue.day.is_synced)
        self._connections = Connections(venue, self._sent, self._start)
        self._outbound = self._connections.outbound
        self._reports = Reports(self._connections, program, self._fail)
        self._seats: list[Seat] = []
        for comp_id, name in {**terms.sessions, terms.copy: OPERATOR}.items():
            if comp_id:
                epoch = Epoch(comp_id, self._sent.epochs[comp_id], self._sent.marks[comp_id])
                made = CopySeat if comp_id == terms.copy else Seat
                begin = FIXT if comp_id in terms.fix50 else FIX44
                seat = made(name, begin, epoch, self._connections, self._reports)
                self._seats.append(seat)
        self._outbound.seats = self._connections.seats = {it.session: it for it in self._seats}
        self._reports.by_member = {it.name: it for it in self._seats}
        self._tasks: set[asyncio.Task[None]] = set()
        self._listening: asyncio.Task[None] | None = None
        self._counts: Callable[[], dict[str, int]] = dict
        self._steps = 0
        venue.on_entry = self._reports.entered
        venue.reset_session = functools.partial(reset, self._connections, self._reports)

    def measures(self) -> dict[str, tuple[str, float]]:
        """What operations see of it: sessions that are on, and messages since its begin."""
        counts = self._counts()
        found: dict[str, tuple[str, float]] = {}
        on = len(self._connections.on)
        found["fix_sessions_connected"] = "sessions by FIX that are connected", on
        for name, what in COUNTED.items():
            found[f"fix_{name}_total"] = what, counts.get(name, 0)
        return found

    # ---- begin and end

    async def begin(self, tls: Tls | None) -> str:
        """Listens, with this TLS: the line that says where. Raises AddressError."""
        self._door.bind()
        try:
            with tempfile.TemporaryDirectory() as folder:
                sessions = {it.comp_id: it.begin for it in self._seats}
                text = settings_of(pathlib.Path(folder), sessions)
                self._outbound.engine = Engine(text, self._connections.accepts)
                self._counts = self._outbound.engine.counts
        except (RuntimeError, OSError) as fault:
            raise AddressError(f"fix: {fault}") from None
        if not self._venue.starts.waiting:
            await self._begin()
        else:
            self._start(self._begin())
        self._start(self._sent.log.run())
        self._start(self._tick())
        self._start(self._connections.feed())
        line = self._door.open()
        self._listening = self._start(self._listen(tls))
        return line

    async def _listen(self, tls: Tls | None) -> None:
        """Takes connections, which wait for a while where a session owes reports, as it can't begin
        before they are made again.
        """
        loop = asyncio.get_running_loop()
        last = loop.time() + OWED_SECONDS
        while any(it.epoch.owed for it in self._seats) and loop.time() < last:
            await asyncio.sleep(OWED_PAUSE)
        self._door.listen(self._connections, tls)

    async def _begin(self) -> None:
        """Finds what was sent and what was taken, and sends what wasn't; then sessions may begin.
        """
        while self._venue.starts.waiting:
            await asyncio.sleep(START_PAUSE)
        for seat in self._seats:
            await self._admit(seat)
            await self._recall(seat)
            seat.lost()
            found = self._outbound.engine.expected(seat.session)
            if (last := seat.epoch.expected()) != found:
                NOTICES.info("%s: message %d is expected again", seat.session, last)
                self._outbound.engine.set_expected(seat.session, last)
        self._connections.is_ready = True
        self._connections.has_begun.set()
        self._reports.begin()
        for seat in self._seats:
            self._start(self._serve(seat))

    async def _recall(self, seat: Seat) -> None:
        """Finds what a session was sent, and may have been sent. Before it may begin each report
        that it is owed is stored under the number that the log says, where it comes after what is
        before it on its board, else after all of them.
        """
        session, engine = seat.session, self._outbound.engine
        await self._learn_former(seat)
        sent = await self._restore_sent(seat)
        passed = await self._pass_over(seat)
        seat.epoch.owe([sent, *passed])
        last = max([engine.next(session) - 1, *seat.epoch.owed.values()])
        engine.set_next(session, last + 1)
        self._sent.reach(session, last)

    async def _learn_former(self, seat: Seat) -> None:
        """Learns of what a session was sent before its last reset."""
        for text in self._sent.former.pop(seat.session, []):
            seat.clients.learn(pairs_of(text), seat.epoch)
            await self._give_way()

    async def _restore_sent(self, seat: Seat) -> Collection[int]:
        """Stores again what was written that a session was sent: under which numbers."""
        sent = self._sent.earlier(seat.session)
        for number, (text, since) in sent.items():
            self._outbound.engine.restore(seat.session, number, text)
            seat.recall(pairs_of(text), since)
            await self._give_way()
        return sent

    async def _pass_over(self, seat: Seat) -> list[range]:
        """Passes over what a session was sent and isn't sent again: its numbers."""
        session, engine = seat.session, self._outbound.engine
        passed = self._sent.passed(session)
        for it in passed:
            engine.set_next(session, max(engine.next(session) - 1, it.last) + 1)
            for event in it.events:
                seat.epoch.recall(event, it.last, it.since)
            await self._give_way()
        return [range(it.first, it.last + 1) for it in passed]

    async def _give_way(self) -> None:
        """Lets others have their turn after a few of many steps: a program that has answered is
        taken for one that hangs where nobody hears it.
        """
        self._steps += 1
        if self._steps % MOST_AT_ONCE == 0:
            await asyncio.sleep(0)

    async def _admit(self, seat: Seat) -> None:
        """Has the venue know the member of a session, whose password a file keeps if it is new: not
        one that another has had, of whom the CompID was before.
        """
        venue, role = self._venue, f"fix.{seat.comp_id}"
        if seat.name != OPERATOR and venue.members.named(seat.name) is None:
            token = tokens.secret_of(venue.folder, role)
            if venue.members.is_given(token):
                token = tokens.new_secret_of(venue.folder, role)
            try:
                await venue.admit(seat.name, token)
            except MessageError as fault:
                NOTICES.error("fix: %s can't be a member: %s", seat.name, fault.text)

    async def _serve(self, seat: Seat) -> None:
        """Takes what a session says; a fault of it is nobody else's matter."""
        try:
            await seat.inbound.serve()
        except Exception:
            NOTICES.critical("fix: %s has failed: start the venue again", seat.name, exc_info=True)

    async def _tick(self) -> None:
        """Lets sessions know the time, and ends the orders of a round that was left."""
        while True:
            await asyncio.sleep(TICK)
            with going_on("fix: the clock of its sessions"):
                self._go_by_clock()

    def _go_by_clock(self) -> None:
        """What a second brings."""
        self._sent.log.retry()
        self._outbound.engine.tick()
        self._connections.drain()
        if not self._outbound.is_writing and self._sent.waits(self._outbound.engine):
            self._outbound.write()
        self._reports.end_before(self._venue.rounds.now.number)

    def _start(self, work: "Coroutine[Any, Any, None]") -> "asyncio.Task[None]":
        """Begins a task, which ends with the front; a fault of one ends the front."""

        def ended(task: "asyncio.Task[None]") -> None:
            self._tasks.discard(task)
            if not task.cancelled() and (fault := task.exception()):
                self._fail(fault)

        task = asyncio.get_running_loop().create_task(work)
        self._tasks.add(task)
        task.add_done_callback(ended)
        return task

    def _fail(self, fault: BaseException) -> None:
        """Ends by a fault."""
        NOTICES.critical("the FIX front has failed: start the venue again", exc_info=fault)
        self._end()

    def _end(self) -> None:
        """Takes nothing more, and ends all connections."""
        self._connections.is_ready = False
        self.shut()
        for task in [*self._tasks]:
            task.cancel()
        for wire in self._connections.wires.values():
            wire.end()

    def shut(self) -> None:
        """Takes no connection more."""
        if self._listening is not None:
            self._listening.cancel()
        self._door.shut()

    async def end(self) -> None:
        """Logs all sessions out, where that can be written soon, and ends."""
        self._connections.is_ready = False
        for number in self._connections.wires:
            with contextlib.suppress(RuntimeError):
                self._outbound.engine.log_out(number, ENDS)
        self._connections.flush()
        with (
            ending.until_done(self._connections.name),
            contextlib.suppress(TimeoutError),
        ):
            async with asyncio.timeout(LAST_BYTES_SECONDS):
                await self._outbound.written()
        self._end()
        self._sent.log.close()

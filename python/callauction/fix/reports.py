"""What members are told: the entries of a board, in their order, each as soon as it is there."""
import asyncio
import functools
from collections.abc import Callable, Mapping

from callauction.fix.board_orders import SAID, Orders, Report
from callauction.fix.connections import Connections
from callauction.fix.seats import Seat
from callauction.fix.sent import Sending
from callauction.fix.tags import FixFields, Tag, is_recent, now
from callauction.fix.uncrosses import seen_at
from callauction.venue.book import OPERATOR
from callauction.venue.downloads import DownloadError
from callauction.venue.instrument_board import InstrumentBoard
from callauction.venue.logger import NOTICES
from callauction.venue.phases import UNCROSSED
from callauction.venue.recovery import Entry, MemberMessage

AGAIN_PAUSE = 1.0
"""Seconds until the program is asked again for what an uncross did."""
MOST_AGE = 2
"""Seconds after which the time in the log is none at which the report of a command was sent."""


class Stream:
    """What is sent of a board; those who wait for an entry go on once that was sent."""

    def __init__(
        self, board: InstrumentBoard, program: str, tell: Callable[[Report], None]
    ) -> None:
        self.board, self.orders = board, Orders(board)
        self._program, self._tell = program, tell
        self._entries: asyncio.Queue[tuple[MemberMessage, Entry]] = asyncio.Queue()
        self._place = self._trades = 0
        self._waiting: list[tuple[int, asyncio.Future[None]]] = []
        self._is_free = False

    def put(self, message: MemberMessage, entry: Entry) -> None:
        """The board has one entry more: what a member's came to is sent at once where nothing is
        before it.
        """
        if self._is_free and message.member != OPERATOR:
            self._entered(message, entry)
        else:
            self._is_free = False
            self._entries.put_nowait((message, entry))

    @property
    def is_late(self) -> bool:
        """Whether an entry wasn't sent yet."""
        return self._place < self.board.engine.journal.count

    async def until_now(self) -> None:
        """Waits until all entries so far were sent."""
        while self.is_late:
            reached: asyncio.Future[None] = asyncio.get_running_loop().create_future()
            self._waiting.append((self.board.engine.journal.count, reached))
            await reached

    def end_before(self, number: int) -> None:
        """Sends what ends with the board, where that is of a round before this one."""
        is_behind = self.board.identity.round < number and not self.is_late
        for report in self.orders.over() if is_behind else ():
            self._tell(report)

    async def run(self) -> None:
        """Sends what entries came to; what comes after an uncross waits for what that did."""
        while True:
            self._is_free = self._entries.empty()
            message, entry = await self._entries.get()
            if message.member != OPERATOR:
                self._entered(message, entry)
                continue
            if UNCROSSED.match(entry.reply):
                await self._uncrossed(entry.place)
            self._reach(entry.place)

    def _entered(self, message: MemberMessage, entry: Entry) -> None:
        """Sends what the entry of a member came to, but that it is refused what the venue itself
        asked for, as the order had ended before.
        """
        report = self.orders.take(message, entry)
        if not (SAID in message.note and entry.reply.startswith("refused")):
            self._tell(report)
        self._reach(entry.place)

    async def _uncrossed(self, place: int) -> None:
        """Sends what an uncross did."""
        while True:
            try:
                seen = await seen_at(self.board, self._program, place, self._trades)
                break
            except DownloadError as fault:
                NOTICES.error("what %s did isn't known yet: %s", self.orders.event(place), fault)
                await asyncio.sleep(AGAIN_PAUSE)
        self._trades += len(seen.trades)
        for report in self.orders.uncrossed(place, seen):
            self._tell(report)

    def _reach(self, place: int) -> None:
        """All up to this entry were sent."""
        self._place = place
        if not self._waiting:
            return
        for number, reached in [*self._waiting]:
            if number <= place and not reached.done():
                reached.set_result(None)
        self._waiting = [it for it in self._waiting if it[0] > place]


class Reports:
    """The streams of boards, which go on in tasks where sessions may begin, and what they have to
    tell the sessions of members; one that fails ends the front.
    """

    def __init__(
        self, connections: Connections, program: str, fail: Callable[[BaseException], None]
    ) -> None:
        self._connections, self._program, self._fail = connections, program, fail
        self.by_member: Mapping[str, Seat] = {}
        self._streams: dict[str, Stream] = {}

    def begin(self) -> None:
        """Sends what boards say from now on."""
        for stream in [*self._streams.values()]:
            self._connections.start(stream.run())

    def stream(self, board: InstrumentBoard) -> Stream:
        """The stream of a board."""
        key = board.identity.key
        if key not in self._streams:
            tell = functools.partial(self.tell, board=key)
            self._streams[key] = Stream(board, self._program, tell)
            if self._connections.is_ready:
                self._connections.start(self._streams[key].run())
        return self._streams[key]

    def former(self, board: InstrumentBoard) -> list[Stream]:
        """The streams of the same instrument's boards of earlier rounds, the last one first."""
        instrument, number = board.identity.instrument, board.identity.round
        boards = ((it, it.board.identity) for it in self._streams.values())
        found = [it for it, of in boards if of.instrument == instrument and of.round < number]
        return sorted(found, key=lambda it: -it.board.identity.round)

    async def until_now(self) -> None:
        """Waits until all entries so far were sent."""
        for stream in [*self._streams.values()]:
            await stream.until_now()

    def late(self) -> list[InstrumentBoard]:
        """The boards of which entries weren't sent yet."""
        return [it.board for it in self._streams.values() if it.is_late]

    def end_before(self, number: int) -> None:
        """Ends the orders of rounds that were left before this one."""
        for stream in self._streams.values():
            stream.end_before(number)

    def entered(self, board: InstrumentBoard, message: MemberMessage, entry: Entry | None) -> None:
        """A message has its entry, or never had one."""
        seat = self.by_member.get(message.member)
        if seat is not None and message.number < 0:
            seat.entered(board, message, entry)
        if entry is not None:
            try:
                self.stream(board).put(message, entry)
            except Exception as fault:  # it is nobody else's
                self._fail(fault)

    def tell(self, report: Report, board: str = "") -> None:
        """Sends a member what it wasn't sent yet; what is of a board comes in its order."""
        seat = self.by_member.get(report.member)
        if seat is None:
            return
        epoch = seat.epoch
        seat.clients.told(report.type, report.pairs)
        if report.event not in epoch.told:
            self._tell_new(seat, report, epoch.reached[board])
        if board:
            epoch.reached[board] = max(epoch.reached[board], epoch.told[report.event])

    def _tell_new(self, seat: Seat, report: Report, before: int) -> None:
        """Stores a report under the number by which an earlier run may have sent it, else sends it.
        It can't have been sent by one that isn't greater than that of what was before it.
        """
        epoch, outbound = seat.epoch, self._connections.outbound
        promised = epoch.promised.pop(report.event, 0)
        time = report.time or now()
        pairs: FixFields = [*report.pairs, (Tag.TRANSACT_TIME, time)]
        if (owed := epoch.owed.pop(report.event, 0)) > before:
            outbound.engine.store(seat.session, owed, report.type, pairs, time)
            epoch.told[report.event] = owed
            return
        if promised and not is_recent(time, MOST_AGE):
            promised = 0
        how = Sending(promised, time, report.passes)
        number = outbound.send(seat, report.type, pairs, report.groups, how)
        epoch.told[report.event] = number
        if number == promised:
            outbound.sent.follows(seat.session, promised)
        outbound.send_many()

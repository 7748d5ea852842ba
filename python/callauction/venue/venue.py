"""A venue: its rounds, its members and who is connected to it. It knows who may speak; prices,
trades and replies are those of the programs.
"""
import asyncio
import contextlib
import functools
import pathlib
from collections.abc import Awaitable, Callable, Coroutine, Iterator
from typing import Any

from callauction.venue import config, downloads, ending, last_quarter, owned, room, tokens
from callauction.venue.auctions import TICK
from callauction.venue.audience import Audience
from callauction.venue.background import going_on
from callauction.venue.groups import Groups
from callauction.venue.halts import Halts
from callauction.venue.instrument_board import InstrumentBoard
from callauction.venue.leaving import Removal
from callauction.venue.log import VERSION, Line, Log, check_version
from callauction.venue.log_replay import Past
from callauction.venue.logger import NOTICES
from callauction.venue.members import Done, Members, NameTakenError, VenueMember
from callauction.venue.messages import MessageError, OrderMessage
from callauction.venue.recovery import Entry, MemberMessage, Settled
from callauction.venue.robots import Robots
from callauction.venue.rounds import Rounds
from callauction.venue.sheets import SIGNATURE
from callauction.venue.starts import Starts, starting
from callauction.venue.timekeeping import Timekeeper
from callauction.venue.values import Values
from callauction.venue.venue_parts import VenueParts

LOOK_SECONDS = 5.0
"""How often the venue looks whether others have changed a journal that its program writes."""
CLOSE_SECONDS, LOG_SECONDS = 3.25, 0.5
"""How long the end of the venue waits for its programs and fronts, then for the log's last lines.
"""
LOG = "venue.log"
Heard = Callable[[InstrumentBoard, MemberMessage, Entry | None], None]
"""What is called with each message of a board once it has its entry; also with those of earlier
runs, as the venue opens, and then with None for one that was never executed.
"""
Reset = Callable[[str], Awaitable[None]]
OTHER_DEVICE = "this member goes on at another device"
"""What a device is told whose member came again by a new code."""


class Venue:
    """A venue in a folder, which has its log, its tokens and its journals."""

    def __init__(self, day: config.DayTerms, folder: pathlib.Path, program: str) -> None:
        self.day, self.folder = day, folder
        self.log = Log(folder / LOG, day.is_synced)
        self.time, self.halts = Timekeeper(self.log), Halts(self.log)
        self.members = Members(day.members, self.log)
        self.rounds = Rounds(day, folder, program, self.log)
        whom = self.log, self.members, self.rounds
        self.audience = Audience(day, *whom, self.halts)
        self.values = Values(*whom, self.audience)
        parts = VenueParts(day, *whom, self.audience, self.values, self.halts)
        self.past = Past(parts)
        self.starts = Starts(parts, self.past, self._start_task)
        self.groups = Groups(parts, self.starts)
        self.certificate_ends: float | None = None
        self.certificate_names: list[str] = []
        self.on_entry: Heard = lambda board, message, entry: None
        self.reset_session: Reset = no_sessions
        self.secrets = {role: tokens.secret_of(folder, role) for role in ("operator", "beamer")}
        self._is_low = False
        self._tasks: set[asyncio.Task[None]] = set()
        self._robots = Robots(self.members, self.rounds, self.halts, self.submit)
        self._log_task: asyncio.Task[None] | None = None
        self.halts.on_change, self.rounds.on_board = self._all_changed, self._connect
        self.starts.on_reopened = self.groups.begin
        self.rounds.all.append(self.rounds.new(1, day.treatment(1)))

    def _connect(self, board: InstrumentBoard) -> None:
        """Hears of a new board, which hears of the audience and the members."""
        looks, auctions, audience = board.looks, board.auctions, self.audience
        board.engine.on_change = functools.partial(self._changed, board)
        board.on_entry = lambda message, entry: self.on_entry(board, message, entry)
        board.commands.codes = functools.partial(self._codes_of, board)
        looks.wanted, looks.wants_ladder = audience.wanted, audience.has_viewers
        looks.on_shown = functools.partial(audience.show_news, board)
        auctions.on_late = functools.partial(self._note_late, board)
        auctions.has_venue_halted = lambda: self.halts.halted is not None

    def _codes_of(self, board: InstrumentBoard) -> list[str]:
        """The code of the class, where there is one, and the names that have a code of their own
        and are on a board, or may come to it: as many as it takes.
        """
        members = {name: self.members.named(name) for name in self.day.own_codes}
        there = [it for it in members.values() if it and not it.is_removed]
        here = [it.name for it in there if it.group == board.identity.group]
        later = [name for name, it in members.items() if it is None]
        names = [*here, *later][: config.MOST_TRADERS]
        has_class = self.day.members.is_open or "" in self.members.codes.by_name
        return [*[last_quarter.CLASS_CODE] * has_class, *names]

    def _changed(self, board: InstrumentBoard) -> None:
        """A program halted or runs again, or the venue."""
        self.halts.say(board.identity.key, board.engine.halted)
        self.audience.show_changed(board)

    def _all_changed(self) -> None:
        """The venue halted or goes on."""
        for board in self.rounds.now.boards.values():
            self._changed(board)

    def _note_late(self, board: InstrumentBoard) -> None:
        """A call has ended before those who were away could do anything."""
        self.audience.round_view.late[board.identity.name] = self.time.say_late(board)
        self.audience.round_view.show_to_operator()

    # ---- begin and end

    async def open(self) -> int:
        """Goes on from the log and the journals: how many entries they have. Raises LogError,
        OtherDayError, ProcessError, RecoveryError, OSError.
        """
        lines = self.log.lines()
        self.rounds.restores += (line for line in lines if line["kind"] == "restored")
        self._log_task = asyncio.create_task(self.log.run())
        if not lines:
            self.log.note(kind="venue", version=VERSION)
        self._learn(lines)
        boot = self.time.learn(lines)
        settled: dict[str, Settled] = {}
        for key, board in self.rounds.boards.items():
            with starting(key):
                found = await self.starts.opened(board, lines)
            if found is not None:
                settled[key] = found
        if "behind" not in boot:  # a start that is refused leaves the log as it was
            self.log.note(**boot)
        self.past.replay(lines, settled)
        self.members.codes.begin()
        await self.log.check_written()
        self._remove_tables()
        for key in settled:
            with starting(key):
                await self.starts.begin(self.rounds.boards[key])
        self.time.has_opened = True
        self.groups.begin()
        self._start_task(self._robots.run())
        self._start_task(self._look())
        return sum(board.engine.journal.count for board in self.rounds.boards.values())

    def _learn(self, lines: list[Line]) -> None:
        """Takes the day and the rounds of the log. Raises LogError and OtherDayError."""
        check_version(lines, self.log.path)
        self.past.learn_day(lines, self.folder)
        if not any(line["kind"] == "round" for line in lines):
            self.rounds.note(self.rounds.now)
        self.rounds.learn(lines)

    async def _look(self) -> None:
        """Looks every few seconds whether the machine's clock was set, and whether the journals and
        the log are as they were written.
        """
        while True:
            length = self.log.length
            await asyncio.sleep(LOOK_SECONDS)
            with going_on("the look at the clock and the disk"):
                self.time.look()
                self._look_at_disk()
                if self.members.arrivals.take_change():
                    self.audience.show_members()
                if self.log.length == length:
                    self.time.note(self.rounds.now.boards.values())
            for board in [*self.rounds.now.boards.values()]:
                with going_on(f"the look at the journal of {board.engine.name}"):
                    await board.engine.look()
            with going_on("the look at the log"):
                await self.log.look()

    def _look_at_disk(self) -> None:
        """Says once that the disk gets full, until there is room again."""
        with contextlib.suppress(OSError):
            left = room.free(self.folder)
            if left < room.LOW_BYTES and not self._is_low:
                NOTICES.warning(room.DISK_NEARLY_FULL.format(self.folder, left // room.MIB))
            self._is_low = left < (2 * room.LOW_BYTES if self._is_low else room.LOW_BYTES)

    def _start_task(self, work: Coroutine[Any, Any, None]) -> asyncio.Task[None]:
        """A task of the venue, which ends with it, or where the log can't be written."""

        async def done() -> None:
            with contextlib.suppress(OSError):
                await work

        task = asyncio.create_task(done())
        self._tasks.add(task)
        task.add_done_callback(self._tasks.discard)
        task.add_done_callback(lambda _: work.close())  # which was never begun at an early end
        return task

    async def close(self, *fronts: Coroutine[Any, Any, None]) -> None:
        """Ends all programs, at the same time what goes on beside them and these fronts; leaves
        tables of names and results as soon as the programs have ended, and ends the log last. What
        hangs is left behind. Raises OSError where the tables can't be written.
        """
        loop = asyncio.get_running_loop()
        last = loop.time() + CLOSE_SECONDS
        own = {*self._tasks}
        for task in own:
            task.cancel()
        closing = [asyncio.create_task(work) for work in fronts]
        programs = [asyncio.create_task(board.end()) for board in self.rounds.boards.values()]
        await asyncio.wait(programs, timeout=CLOSE_SECONDS)
        try:
            self._leave_tables()
        finally:
            if beside := {*own, *closing}:
                await asyncio.wait(beside, timeout=last - loop.time())
            ending.leave()
            self.time.note(self.rounds.now.boards.values())
            self.log.close()
            if self._log_task is not None:
                await asyncio.wait([self._log_task], timeout=LOG_SECONDS)
        for task in (*programs, *closing):
            if task.done():
                task.result()

    def _tables(self) -> Iterator[tuple[str, bytes]]:
        """The names of each board's members, and the results of all rounds that were seen, by the
        names of their files.
        """
        for key, board in self.rounds.boards.items():
            if board.engine.is_open:
                names = downloads.numbers_table(board, self.members.title_of)
                yield f"{key}{downloads.NAMES_FILE}", names
        if self.rounds.are_seen and self.lesson("").rounds:
            results = downloads.results_table(self.lesson(""))
            yield downloads.RESULTS_FILE, SIGNATURE.encode("utf-8") + results

    def _leave_tables(self) -> None:
        """Writes the tables beside the journals. Raises OSError, which names those that can't be.
        """
        faults: dict[str, OSError] = {}
        with ending.until_done(lambda: "the tables of results"):
            for name, content in self._tables():
                try:
                    owned.write(self.folder / name, content)
                except OSError as fault:
                    faults[str(self.folder / name)] = fault
        for first in faults.values():
            raise OSError(first.errno, first.strerror, ", ".join(faults))

    def _remove_tables(self) -> None:
        """Removes the tables of an earlier end, which aren't those of a day that goes on. Raises
        OSError.
        """
        names = [f"{key}{downloads.NAMES_FILE}" for key in self.rounds.boards]
        for name in (*names, downloads.RESULTS_FILE):
            (self.folder / name).unlink(missing_ok=True)

    # ---- members

    def role_of(self, token: str) -> tuple[str, VenueMember | None]:
        """Whose a token is. Raises MessageError."""
        for role, secret in self.secrets.items():
            if tokens.is_same_secret(token, secret):
                return role, None
        member = self.members.of_token(token)
        if member is None:
            raise MessageError("bad_token", OTHER_DEVICE * self.members.was_token(token))
        return "member", member

    async def join(self, code: str, name: str, address: str = "") -> tuple[VenueMember, str]:
        """A member and its token, for somebody at this address. Raises MessageError."""
        self.halts.check_running()
        before = {it.name: it.is_removed for it in self.members.everybody}
        member, token = self.members.join(code, name, address)
        if member.name not in before:
            await self.groups.place([member])
        elif before[member.name]:
            await self.groups.place_again(member)
            for board in self.rounds.boards_of(member).values():
                board.come_back(member.name)
                self.audience.show_gains(board)
        try:
            await self.halts.noted()
        except MessageError:
            member.is_unanswered |= member.name not in before
            raise
        member.is_unanswered = False
        self.audience.send_away(member)
        self.audience.show_members()
        return member, token

    async def admit(self, name: str, token: str) -> VenueMember:
        """The member of this name; where there is none, a new one with this token. Raises
        MessageError, also where the log can't be written now: it is a member once it can.
        """
        if found := self.members.named(name):
            return found
        member = self.members.admit(name, token)
        await self.groups.place([member])
        self.log.append("", self.audience.show_members)
        await self.halts.noted()
        return member

    async def remove(self, members: list[VenueMember]) -> Removal:
        """Removes members, whose open orders are deleted, also those that aren't answered yet,
        before the next command of anybody is taken; waits for that but where it has halted.
        """
        for member in members:
            self._take_leave(member)
        found, boards = Removal(members), self.rounds.now.boards.values()
        tasks = {board: self._start_task(found.take_out(board)) for board in boards}
        for board in boards:
            self.audience.show_gains(board)
        self.audience.show_members()
        for board, task in tasks.items():
            if not await self._await_removal(board, task):
                found.halted.append(board.identity.name)
        return found

    def _take_leave(self, member: VenueMember) -> None:
        """Ends what a member has here and on its boards, but for its open orders."""
        self.members.remove(member)
        self.audience.send_away(member)
        for board in self.rounds.boards_of(member).values():
            board.leave(member.name)

    async def _await_removal(self, board: InstrumentBoard, task: asyncio.Task[None]) -> bool:
        """Waits until a board has deleted the orders of those who were removed, or has halted:
        whether they are deleted.
        """
        while not (await asyncio.wait([task], timeout=TICK))[0]:
            if board.engine.halted or self.halts.halted:
                break
        return task.done() and board.engine.is_open

    async def add_robots(self, kind: str, count: int) -> list[str]:
        """More robots of a kind: their names. Raises MessageError."""
        self.halts.check_running()
        found: list[VenueMember] = []
        number = 0
        while len(found) < count:
            number += 1
            with contextlib.suppress(NameTakenError):
                found.append(self.members.join_robot(f"Robot {number}", kind))
        await self.groups.place(found)
        self.audience.show_members()
        return [it.title for it in found]

    async def readmit(self, member: VenueMember) -> str:
        """Lets a member that was removed come again: its code."""
        code = self.members.codes.give(member.name, tokens.new_code())
        self.audience.show_members()
        return code

    def submit(
        self, member: VenueMember, order: OrderMessage
    ) -> "tuple[asyncio.Future[Entry], bool]":
        """Sends a member's message, or finds that it was sent: its entry, once it is there, and
        whether it was. Raises MessageError.
        """
        if member.is_removed:
            raise MessageError("bad_token")
        board = self.rounds.named_board(order.instrument, member)
        instrument = board.identity.instrument
        if done := member.done.get(order.number):
            if (done.instrument, done.record) != (instrument, order.record):
                raise MessageError("number_used")
            return done.answer, True
        self.halts.check_running()
        answer = board.submit(member.name, order)
        member.keep(order.number, Done(instrument, order.record, answer))
        return answer, False

    def lesson(self, program: str) -> downloads.Lesson:
        """What the operator may take home."""
        rounds = [it for it in self.rounds.all if it.has_begun]
        return downloads.Lesson(self.day, rounds, self.members, program, self.past.began)


async def no_sessions(name: str) -> None:
    """There is no front that has sessions. Raises MessageError."""
    raise MessageError("bad_message", "this day has no sessions by FIX")

"""How the boards of a venue start: from what its log and their journals have of earlier runs, in a
new round or group, and again after a halt.
"""
import asyncio
import contextlib
from collections.abc import Callable, Coroutine, Iterator
from typing import Any

from callauction.venue.instrument_board import InstrumentBoard
from callauction.venue.leaving import withdrawn
from callauction.venue.log import Line
from callauction.venue.log_replay import Past
from callauction.venue.messages import MessageError
from callauction.venue.owned import OwnerError
from callauction.venue.process import ProcessError
from callauction.venue.recovery import (
    JournalMark, RecoveryError, RolledBackError, Settled, mark_of, program_of, runs_of,
)
from callauction.venue.timekeeping import is_shift
from callauction.venue.venue_parts import VenueParts

RESUME_SECONDS = 20.0
"""How long a program that is tried again is waited for, longer than it may wait for its journal."""
BOARD_FAULTS = (ProcessError, RecoveryError, OwnerError, OSError)
"""Why a board can't be opened."""
Begun = Callable[[Coroutine[Any, Any, None]], "asyncio.Task[None]"]


class Starts:
    """The starts of a venue's boards, of which one after the other is opened again (`reopening`),
    with the lines of the log that are `waiting` until it is known what the journal has.
    `on_reopened` is called once one was.
    """

    def __init__(self, parts: VenueParts, past: Past, begun: Begun) -> None:
        self._log, self._halts = parts.log, parts.halts
        self._members, self._rounds = parts.members, parts.rounds
        self._past, self._begun = past, begun
        self.waiting: dict[str, list[Line]] = {}
        self.reopening = asyncio.Lock()
        self.on_reopened: Callable[[], None] = lambda: None

    # ---- one board

    async def opened(self, board: InstrumentBoard, lines: list[Line]) -> Settled | None:
        """What became of a board's messages; None where its journal isn't the one of which the log
        knows: it halts then, until that is put back. Raises what Engine.open raises.
        """
        key = board.identity.key
        own = [line for line in lines if line.get("instrument") == key or is_shift(line)]
        try:
            runs = runs_of(own).get(key, [])
            found = await board.engine.open(runs, mark_of(own), program_of(own))
        except RolledBackError as fault:
            self.waiting[key] = own
            board.engine.halt(str(fault))
            return None
        self.waiting.pop(key, None)
        return found

    async def open_new(self, board: InstrumentBoard) -> None:
        """Starts the program of a new board, which halts where that fails."""
        try:
            await board.engine.open([], JournalMark())
            await self._log.written()  # the program runs from then on
            await board.begin()
            board.run()
        except BOARD_FAULTS as fault:
            if not board.engine.is_open:
                self.waiting[board.identity.key] = []
            board.engine.halt_by(fault)

    async def begin(self, board: InstrumentBoard) -> None:
        """Begins to look at a board, and deletes there what was left where the venue was killed as
        it removed somebody; one of an earlier round is looked at once. Raises ProcessError.
        """
        if board in self._rounds.now.boards.values():
            await board.begin()
            for member in self._members.everybody:
                if member.is_removed and member.group == board.identity.group:
                    withdrawn(member, board)
            board.run()
            return
        await board.looks.look()
        await board.end()

    async def _open_again(self, board: InstrumentBoard) -> None:
        """Opens a board whose journal was put back, or whose program may begin now, or halts again.
        """
        key = board.identity.key
        async with self.reopening:
            if (lines := self.waiting.get(key)) is None:
                return
            board.commands.hold_for([])
            try:
                found = await self.opened(board, lines)
                if found is not None:
                    self._past.replay(lines, {key: found})
                    await self._log.written()  # the program runs from then on
                    await self.begin(board)
                    self.on_reopened()
                    board.engine.on_change()
            except BOARD_FAULTS as fault:
                board.engine.halt_by(fault)
            board.commands.release_after([])

    # ---- what has halted

    async def resume(self, instrument: str | None = None) -> list[str]:
        """Tries again what had halted, of the boards those of one instrument where it is named, and
        waits for what comes of it: what that was. Raises MessageError with the reason of what has
        halted again.
        """
        halted = [
            it
            for it in self._rounds.boards.values()
            if instrument in (None, it.identity.instrument) and self._has_halted(it)
        ]
        resumed = ["the venue"] * (self._halts.halted is not None)
        resumed += [it.identity.key for it in halted]
        self._log.retry()
        try:
            await self._log.check_written()
        except OSError as fault:
            raise MessageError("halted", self._halts.halted or str(fault)) from None
        self._halts.log_goes_on()
        whys = await self._try_again(halted)
        texts = "; ".join(f"{key}: {why}" for key, why in whys.items() if why)
        if text := self._halts.halted or texts:
            raise MessageError("halted", text)
        return resumed

    async def _try_again(self, halted: list[InstrumentBoard]) -> dict[str, str | None]:
        """Begins or resumes boards: by their keys why they have halted again, if so."""
        tried = []
        for board in halted:
            if board.identity.key in self.waiting:
                tried.append((board, self._begun(self._open_again(board))))
            else:
                board.engine.resume()
                tried.append((board, self._begun(self._resumed(board))))
        if tried:
            await asyncio.wait({task for _, task in tried}, timeout=RESUME_SECONDS)
        late = f"the program hasn't answered for {RESUME_SECONDS:g} s"
        return {it.identity.key: it.engine.halted if task.done() else late for it, task in tried}

    async def _resumed(self, board: InstrumentBoard) -> None:
        """Waits for what comes of a board that is tried again, and begins with one that had halted
        before that was done. Raises OSError where the log can't be written.
        """
        await board.engine.resumed()
        async with self.reopening:
            is_of_now = board in self._rounds.now.boards.values()
            has_begun = board.has_run if is_of_now else board.looks.is_seen
            if board.engine.halted is None and not has_begun:
                try:
                    await self.begin(board)
                except ProcessError as fault:
                    board.engine.halt(str(fault))

    def _has_halted(self, board: InstrumentBoard) -> bool:
        """Whether a board of this round, or one that wasn't seen yet, has halted, or it isn't known
        what its journal has.
        """
        counts = board in self._rounds.now.boards.values() or not board.looks.is_seen
        has_halted = counts and board.engine.halted is not None
        return has_halted or board.identity.key in self.waiting


@contextlib.contextmanager
def starting(key: str) -> Iterator[None]:
    """Notes at a fault which board it is that can't start."""
    try:
        yield
    except (ProcessError, RecoveryError) as fault:
        fault.add_note(f"{key}: ")
        raise

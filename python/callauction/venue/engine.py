"""The engine of an instrument: its program, which is started again where it ends.

Each message is on the log's disk before the program has it, and no message is answered but by an
entry of the journal. A program that ends is started again on its journal; what it had executed is
answered from there, and what it hadn't is sent again. A journal that is older than the log, or
another one, halts it, and so does a program that doesn't answer.
"""
import asyncio
import contextvars
import pathlib
import re
from collections.abc import Callable, Sequence
from typing import Any

from callauction.venue.journal import InstrumentJournal
from callauction.venue.leftovers import Program
from callauction.venue.log import Log
from callauction.venue.logger import NOTICES
from callauction.venue.messages import MessageError
from callauction.venue.outbox import Outbox, UnansweredMessage
from callauction.venue.owned import OwnerError
from callauction.venue.process import Process, ProcessError
from callauction.venue.recovery import (
    Entry, JournalMark, MemberMessage, RecoveryError, Run, Settled, matched, settled,
)
from callauction.venue.runs import MOST_ENDS, RETRY_SECONDS, InUseError, Runs

ENTERED = re.compile(r"(\d+): (.*)")
NO_CALLS = ("calls are reserved for the operator", "too many commands")
HELD = "%s: its journal is in use%s"


class Engine:
    """An engine, begun by `open`: its journal, the runs of its program by these words, and the
    outbox of what is sent to it. `on_change` is called where it halts, or goes on. Until `is_open`
    what became of the messages of earlier runs isn't known, and nothing may be submitted.
    """

    def __init__(self, name: str, words: Sequence[str], journal: pathlib.Path, log: Log) -> None:
        self.name, self._log = name, log
        self.journal = InstrumentJournal(name, journal, log)
        self.runs = Runs(words, self.journal, self._ended)
        self.outbox = Outbox(name, log, self._answered)
        self.halted: str | None = None
        self.is_open = False
        self.on_change: Callable[[], None] = lambda: None
        self.restarts = self._ends = 0
        self._is_closed = self._is_tried = False
        self._restart: asyncio.Task[None] | None = None

    # ---- begin and end

    async def open(
        self, runs: Sequence[Run], mark: JournalMark, left: Program | None = None
    ) -> Settled:
        """Starts the program: what became of the messages of earlier runs. `mark` is the last that
        the log has, and `left` the program of the last run. Raises ProcessError, RecoveryError,
        OwnerError, and OSError where the journal can't be read; RolledBackError where nothing is to
        be executed on this journal.
        """
        self.runs.left = left
        process, entries = await self.runs.begin(mark)
        try:
            found = settled(runs, entries)
        except RecoveryError:
            await process.stop()
            raise
        self.journal.begin(entries)
        self.is_open, self.halted = True, None
        self._is_closed = False  # also of a round that is over, whose journal was put back
        self._begin(process)
        if process.has_ended:
            self._ended(ProcessError("", -1))
        return found

    async def close(self) -> None:
        """Ends the program, which answers before what it has read, as long as it does so soon."""
        self._is_closed = True
        if self._restart is not None:
            self._restart.cancel()
            await asyncio.wait([self._restart])
        await self.runs.stop()
        self.journal.note_mark()

    # ---- messages and views

    def submit(self, message: MemberMessage, is_first: bool = False) -> "asyncio.Future[Entry]":
        """Sends a message that wasn't sent before, `is_first` before those that are held: its
        entry, once it is there. The future's exception is a MessageError where the program takes no
        more commands, or halts while the message is held. Raises MessageError until it is open.
        """
        self.check_known()
        return self.outbox.put(message, is_first)

    def check_known(self) -> None:
        """Raises MessageError while it isn't known what its journal has of earlier runs."""
        if not self.is_open:
            raise MessageError("halted", self.halted or "")

    async def show(self, views: Sequence[str]) -> list[list[str]]:
        """What the program answers to these views, all of one moment. Raises ProcessError where it
        doesn't run, ends meanwhile, or knows no such view.
        """
        if self.outbox.process is None:
            raise ProcessError("the program doesn't run", -1)
        found = await self.outbox.process.show(views)
        self._ends = 0
        return found

    def note(self, kind: str, **line: Any) -> None:
        """Writes a line about its instrument to the log."""
        self._log.note(kind=kind, instrument=self.name, **line)

    # ---- the program

    def _begin(self, process: Process) -> None:
        """Writes after which entries a run begins, and sends to it what isn't answered."""
        program = Program.of(process.pid)
        kept = program.kept() if program else {}
        start = self.journal.line("start", first=self.journal.first, **kept)
        self.outbox.begin(process, start, lambda: self.on_change())

    def _answered(self, sent: UnansweredMessage, line: str) -> None:
        """Takes the answer to a message, unless the program is no longer trusted; one that has lost
        an entry, or made one up, isn't.
        """
        if self._is_given_up:
            return
        self._ends = 0
        if found := ENTERED.fullmatch(line):
            place, count = int(found[1]), self.journal.count
            if place == count + 1:
                self._settle(sent, Entry(place, sent.message.record, found[2]))
            else:
                self._give_up(f"the program answers entry {place} after entry {count}")
            return
        text = line.partition(": ")[2]
        code = "no_calls" if text in NO_CALLS else "bad_message"
        self.outbox.refuse(sent, MessageError(code))

    def _settle(self, sent: UnansweredMessage, entry: Entry) -> None:
        """A message has its entry; an uncross is marked before the lines of what follows it."""
        self.journal.add(entry, is_marked=not sent.message.member)
        self.outbox.settle(sent, entry)

    async def look(self) -> None:
        """Halts where the journal isn't as the program has written it, as far as it was answered:
        each entry after it would be lost.
        """
        process = self.outbox.process
        if process is None or self.halted is not None:
            return
        try:
            await self.journal.check()
        except (RecoveryError, OwnerError) as fault:
            if process is self.outbox.process:
                self._give_up(str(fault))
        except OSError as fault:  # no file, or no thread, for now
            NOTICES.warning("%s: its journal can't be looked at: %s", self.name, fault)

    def _give_up(self, text: str) -> None:
        """Ends the program, and halts."""
        if self._is_given_up:
            return
        process = self.outbox.process
        self.halt(text)
        self.outbox.end()
        if process is not None:
            process.give_up()

    def _ended(self, fault: ProcessError) -> None:
        """The program has ended."""
        self.outbox.end()
        if self.is_open and not self._is_closed and not self._is_given_up:
            self._restart = asyncio.get_running_loop().create_task(self._start_again(fault))

    async def _start_again(self, fault: ProcessError) -> None:
        """Starts the program again after this end, or halts."""
        self._ends += 1
        if fault.is_final or self._ends > MOST_ENDS:
            self.halt(fault.text)
            return
        try:
            process, entries = await self.runs.begin(self.journal.mark)
        except (ProcessError, RecoveryError, OwnerError, OSError) as found:
            self.halt_by(found)
            return
        try:
            self._catch_up(entries)
        except RecoveryError as found:
            self.halt(str(found))
            await process.stop()
        else:
            self._begin(process)
            if fault.text:
                self.restarts += 1
                NOTICES.warning("%s: %s, and is started again", self.name, fault.text)

    def _catch_up(self, entries: list[Entry]) -> None:
        """Answers what the last run had executed and not answered. Raises RecoveryError."""
        those = self.outbox.unanswered
        found = matched((it.message for it in those), entries[self.journal.count :])
        for sent, (_, entry) in zip(those, found):
            if entry is not None:
                self._settle(sent, entry)

    # ---- halts

    @property
    def _is_given_up(self) -> bool:
        """Whether it has halted, and nobody tries it again."""
        return self.halted is not None and not self._is_tried

    @property
    def refusal(self) -> MessageError:
        """How it refuses while it has halted."""
        return MessageError("halted", f"{self.name} has halted; nothing was done")

    def halt(self, text: str) -> None:
        """Takes nothing more, until it is tried again."""
        self.halted, self._is_tried = text or "the program doesn't run", False
        for sent in self.outbox.let_go():
            sent.refuse(self.refusal)
        self.on_change()

    def halt_by(self, fault: Exception) -> None:
        """Halts by a fault; who has the journal is said to operations alone."""
        if isinstance(fault, InUseError) and fault.by:
            NOTICES.warning(HELD, self.name, fault.by)
        self.halt(str(fault))

    def resume(self) -> None:
        """Tries again after a halt, which lasts until `resumed` has seen that it goes on; one that
        isn't open yet is to be opened again.
        """
        if self.halted is None or self._is_tried or not self.is_open:
            return
        self._is_tried, self._ends = True, 0
        self._is_closed = False  # also of a round that is over, and that wasn't seen
        again = self._start_again(ProcessError("", -1))
        nobody = contextvars.Context()  # what follows isn't asked for by who resumes
        self._restart = asyncio.get_running_loop().create_task(again, context=nobody)

    async def resumed(self) -> None:
        """Waits for what comes of a try: the program answers again, after all that waited, or has
        halted again. Raises OSError where the log can't be written.
        """
        while self._is_tried and not self._is_closed:
            await self._log.check_written()  # the program runs from then on
            try:
                await self.show(["show"])
            except ProcessError:
                await asyncio.sleep(RETRY_SECONDS)
                continue
            if self._is_tried:
                self.halted, self._is_tried = None, False
                self.on_change()

"""The proved program with its journal, as a process: records go in, answers come out in order."""
import asyncio
import collections
import contextlib
import os
import re
import select
import signal
from collections.abc import Callable, Sequence

from callauction.statuses import FAILED

AnswerCallback = Callable[[list[str]], None]
"""What is called with the lines of an answer."""
LISTED = re.compile(r"show (?:ladder|trades|orders) (\d+)$")
OPENED = re.compile(r"journal (\d+) entries$")
IN_USE = "journal in use"
OUTPUT_BLOCK = 1 << 18
MOST_ERROR = 4096
ANSWER_SECONDS = 10.0
"""How long the program may say nothing while something waits for its answer."""
STILL_SECONDS = 5.0
"""Where this process looks later than it wanted by as much, it stood still itself, perhaps with the
program, as on a machine that was stopped: then the program has its time once more.
"""
START_SECONDS = 60.0
"""How long it may take to go on with a journal."""
STOP_SECONDS, KILL_SECONDS = 2.0, 0.5
"""How long its end is waited for, first by itself, then by a signal."""


_running: set[int] = set()
"""The numbers of all processes that were started and haven't ended."""


def kill_all() -> None:
    """Ends all programs at once, from any thread."""
    for pid in [*_running]:
        kill_group(pid)


def kill_group(pid: int) -> None:
    """Ends a process that leads a group, and what it has started."""
    with contextlib.suppress(ProcessLookupError, PermissionError):
        os.killpg(pid, signal.SIGKILL)


class ProcessError(Exception):
    """The program ended, or never came to answer: `text` is what it said, `status` its status,
    below 0 for a signal.
    """

    def __init__(self, text: str, status: int) -> None:
        super().__init__(text)
        self.text, self.status = text, status

    @property
    def is_final(self) -> bool:
        """Whether it would end so again: it said why."""
        return self.status > 0 and bool(self.text)


class Pipe:
    """The end of a pipe into which whole records are written. A write of at most PIPE_BUF bytes is
    all or nothing, so the program is never given a part of a record, whoever is killed when.
    """

    def __init__(self, file: int) -> None:
        self._file = file
        os.set_blocking(file, False)
        self._blocks: collections.deque[bytes] = collections.deque()
        self._waits = False

    @property
    def is_open(self) -> bool:
        """Whether the program's input goes on."""
        return self._file >= 0

    def write(self, records: Sequence[str]) -> None:
        """Writes these records, now or as soon as there is room."""
        block = b""
        for record in records:
            data = record.encode("ascii") + b"\n"
            if len(block) + len(data) > select.PIPE_BUF:
                self._blocks.append(block)
                block = b""
            block += data
        self._blocks.append(block)
        if not self._waits:
            self._go_on()

    def _go_on(self) -> None:
        """Writes as much as the pipe takes."""
        loop = asyncio.get_running_loop()
        while self._blocks:
            try:
                os.write(self._file, self._blocks[0])
            except BlockingIOError:
                if not self._waits:
                    loop.add_writer(self._file, self._go_on)
                    self._waits = True
                return
            except OSError:
                self._blocks.clear()
                break
            self._blocks.popleft()
        if self._waits:
            loop.remove_writer(self._file)
            self._waits = False

    def close(self) -> None:
        """Ends the program's input."""
        if not self.is_open:
            return
        if self._waits:
            asyncio.get_running_loop().remove_writer(self._file)
            self._waits = False
        self._blocks.clear()
        os.close(self._file)
        self._file = -1


class Process:
    """A run of the program, started by `start`. When it has ended, or doesn't answer in time,
    `on_end` is called with why; the answers that didn't come are never called then.
    """

    def __init__(self, words: Sequence[str], on_end: Callable[[ProcessError], None]) -> None:
        self._words, self._on_end = words, on_end
        self._answers: collections.deque[AnswerCallback] = collections.deque()
        self._listed: list[str] = []
        self._missing = 0
        self._views: set[asyncio.Future[None]] = set()
        self._rest = b""
        self._error = b""
        self._since = self._due = 0.0
        self._watch: asyncio.TimerHandle | None = None
        self.has_ended = False

    async def start(self) -> int:
        """Starts the program: how many entries its journal has. Raises ProcessError. Where it is
        cancelled, the program has ended too.
        """
        await self._begin()
        _running.add(self._child.pid)
        try:
            count = await asyncio.wait_for(self._entries(), START_SECONDS)
        except asyncio.TimeoutError:
            self._pipe.close()
            await self._left()
            text = f"the program hasn't begun for {START_SECONDS:g} s"
            raise ProcessError(text, FAILED) from None
        except asyncio.CancelledError:
            self._pipe.close()
            await self._left(STOP_SECONDS)
            raise
        if count is not None:
            self._error = b""
            self._task = asyncio.create_task(self._read())
            return count
        self._pipe.close()
        await self._left(STOP_SECONDS)
        raise self._fault(self._child.returncode or 0)

    async def _begin(self) -> None:
        """Begins the process. Raises ProcessError."""
        theirs, ours = os.pipe2(os.O_CLOEXEC)
        self._pipe = Pipe(ours)
        try:
            self._child = await asyncio.create_subprocess_exec(
                *self._words,
                stdin=theirs,
                stdout=asyncio.subprocess.PIPE,
                stderr=asyncio.subprocess.PIPE,
                start_new_session=True,
                restore_signals=False,  # a file that is too long is a failed write, and no signal
            )
        except (OSError, RuntimeError) as fault:  # or no thread that waits for its end
            self._pipe.close()
            why = fault.strerror if isinstance(fault, OSError) else fault
            raise ProcessError(f"the program can't be run: {why}", FAILED) from None
        finally:
            os.close(theirs)

    async def _entries(self) -> int | None:
        """How many entries it says that its journal has; None where it ends before."""
        assert self._child.stderr is not None
        while line := await self._child.stderr.readline():
            self._error += line
            if found := OPENED.match(line.decode("ascii", "replace").rstrip("\n")):
                return int(found[1])
        return None

    @property
    def pid(self) -> int:
        """The number of its process."""
        return self._child.pid

    @property
    def takes_more(self) -> bool:
        """Whether it runs, and its input hasn't ended."""
        return not self.has_ended and self._pipe.is_open

    def send(self, records: Sequence[str], answer: Sequence[AnswerCallback]) -> None:
        """Sends records, and gives each answer to the function of its record."""
        loop = asyncio.get_running_loop()
        if not self._answers:
            self._since = loop.time()
        self._answers.extend(answer)
        self._pipe.write(records)
        if self._watch is None:
            self._look_in(ANSWER_SECONDS)

    async def show(self, views: Sequence[str]) -> list[list[str]]:
        """What it answers to these views, all of one moment. Raises ProcessError where it ends
        meanwhile, or knows no such view.
        """
        found: list[list[str]] = []
        shown: asyncio.Future[None] = asyncio.get_running_loop().create_future()

        def take(lines: list[str]) -> None:
            found.append(lines)
            if len(found) == len(views) and not shown.done():
                shown.set_result(None)

        self._views.add(shown)
        self.send(views, [take] * len(views))
        try:
            await shown
        finally:
            self._views.discard(shown)
        for view, lines in zip(views, found):
            if not lines[0].startswith("show "):
                raise ProcessError(f"the program answers '{lines[0]}' to {view}", 2)
        return found

    def _look_in(self, seconds: float) -> None:
        """Looks at the program in a while."""
        loop = asyncio.get_running_loop()
        self._due = loop.time() + seconds
        self._watch = loop.call_at(self._due, self._look)

    def _look(self) -> None:
        """Gives the program up where it hasn't answered in time."""
        loop = asyncio.get_running_loop()
        self._watch = None
        if self.has_ended or not self._answers:
            return
        if loop.time() - self._due > STILL_SECONDS:
            self._since = loop.time()
        left = self._since + ANSWER_SECONDS - loop.time()
        if left > 0:
            self._look_in(left)
            return
        self.kill()  # perhaps in vain, as where it waits for a disk
        self._end(ProcessError(f"the program hasn't answered for {ANSWER_SECONDS:g} s", FAILED))

    def kill(self) -> None:
        """Ends it at once, and what it has started."""
        if self._child.returncode is None:
            kill_group(self._child.pid)

    async def _left(self, seconds: float = 0.0) -> None:
        """Waits until its process has ended, and ends it after these seconds; one that no signal
        ends is left behind.
        """
        ended = asyncio.ensure_future(self._waited())
        await asyncio.wait({ended}, timeout=seconds)
        self.kill()
        await asyncio.wait({ended}, timeout=KILL_SECONDS)

    async def _waited(self) -> int:
        """Waits until its process has ended: the status."""
        status = await self._child.wait()
        _running.discard(self._child.pid)
        return status

    async def stop(self) -> None:
        """Ends its input, waits until it has ended, and ends it where that takes too long."""
        self._pipe.close()
        done, _ = await asyncio.wait({self._task}, timeout=STOP_SECONDS)
        if not done:
            self.kill()
            await asyncio.wait({self._task}, timeout=KILL_SECONDS)

    def give_up(self) -> None:
        """Kills it. Nothing more of it is taken, and its end isn't told."""
        self._leave(ProcessError("the program was given up", -1))
        self.kill()

    def _leave(self, fault: ProcessError) -> None:
        """Nothing more of it is taken."""
        self.has_ended = True
        self._answers.clear()
        for shown in self._views:
            if not shown.done():
                shown.set_exception(fault)

    def _end(self, fault: ProcessError) -> None:
        """It has ended, which is told, where it wasn't given up."""
        if not self.has_ended:
            self._leave(fault)
            self._on_end(fault)

    async def _read(self) -> None:
        """Takes the answers until the program ends."""
        output, errors = self._child.stdout, self._child.stderr
        assert output is not None and errors is not None
        error = asyncio.create_task(errors.read(MOST_ERROR))
        while block := await output.read(OUTPUT_BLOCK):
            *lines, self._rest = (self._rest + block).split(b"\n")
            self._since = asyncio.get_running_loop().time()
            for line in lines:
                self._take(line.decode("ascii", "replace"))
        self._error = await error
        self._pipe.close()
        self._end(self._fault(await self._waited()))

    def _take(self, line: str) -> None:
        """Takes a line: an answer, or a part of one."""
        if self.has_ended:
            return
        if self._missing:
            self._listed.append(line)
            self._missing -= 1
        else:
            self._listed = [line]
            found = LISTED.match(line)
            self._missing = int(found[1]) if found else 0
        if not self._missing:
            if not self._answers:
                self.kill()  # it answers what nobody asked
                return
            self._answers.popleft()(self._listed)

    def _fault(self, status: int) -> ProcessError:
        """What it said at its end."""
        text = self._error.decode("utf-8", "replace").strip().partition("\n")[0]
        if status < 0:
            return ProcessError(f"the program was ended by signal {-status}", status)
        return ProcessError(text, status)

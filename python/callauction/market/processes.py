"""The workers of a market on one machine: processes, each of which runs the program on one file
after another. Nothing listens; what is asked and found goes through pipes.
"""
import collections
import contextlib
import os
import pickle
import select
import signal
import subprocess
import sys
from collections.abc import Iterator

from callauction import finder
from callauction.market.rows import Found, found_of
from callauction.market.task import FileResult, Request
from callauction.market.worker import LENGTH
from callauction.market.workers import WORKERS_ENDED, MarketError, largest_first

WORKER = "callauction.market.worker"
"""The module that a worker runs."""
AHEAD = 3
"""How many files a worker has at once: one that the program runs on, one before, one after."""
ANSWERS_BLOCK = 1 << 16
"""How many bytes of answers are read at a time."""


class Worker:
    """A process that examines files. It leads a process group, to which the program belongs that it
    runs, and whose end ends both. Raises OSError where it can't be started.
    """

    def __init__(self, request: Request, is_alone: bool) -> None:
        """A worker is alone with a file on which another one ended."""
        paths = os.pathsep.join(filter(None, sys.path))
        self.process = subprocess.Popen(
            [sys.executable or "python3", "-P", "-m", WORKER],
            stdin=subprocess.PIPE,
            stdout=subprocess.PIPE,
            bufsize=0,
            env={**os.environ, "PYTHONPATH": paths},
            start_new_session=True,
        )
        assert self.process.stdin is not None and self.process.stdout is not None
        self.asked, self.out = self.process.stdin, self.process.stdout
        self.name = f"{os.uname().nodename}:{self.process.pid}:{self.process.pid}"
        self.is_alone = is_alone
        self.paths: list[str] = []
        """The files that it has."""
        self.rest = b""
        """A part of an answer."""
        self.send(request)

    def send(self, value: object) -> None:
        """Gives the process a value. One that has ended takes none, which is heard from it next."""
        with contextlib.suppress(BrokenPipeError):
            self.asked.write(pickle.dumps(value))

    def give(self, path: str) -> None:
        """Gives the process a file."""
        self.paths.append(path)
        self.send(path)

    def answers(self) -> list[FileResult]:
        """What it says since this was asked. Raises EOFError where it has ended."""
        text = os.read(self.out.fileno(), ANSWERS_BLOCK)
        if not text:
            raise EOFError
        self.rest += text
        found = []
        while len(self.rest) >= (end := LENGTH + int.from_bytes(self.rest[:LENGTH], "little")):
            found.append(pickle.loads(self.rest[LENGTH:end]))
            self.rest = self.rest[end:]
        return found

    def end(self) -> None:
        """Ends the process, and the program that it runs, and waits until it has ended."""
        with self.process, contextlib.suppress(ProcessLookupError):
            os.killpg(self.process.pid, signal.SIGKILL)


class Crew:
    """The workers of one run, each of which has some of its files at a time."""

    def __init__(self, request: Request, files: list[str]) -> None:
        self.request = request
        self.left = collections.deque(path for _, path in largest_first(files))
        self.suspects: collections.deque[str] = collections.deque()
        """Files of workers that ended. Each gets one of its own, so that none has to answer for
        another one.
        """
        self.all: dict[int, Worker] = {}
        """The workers by what is read of them."""
        self.poll = select.poll()

    def start(self, count: int) -> None:
        """Starts a worker with this many files, fewer where no more are left, and none where none
        is. Raises MarketError.
        """
        files = self.suspects or self.left
        if not files:
            return
        try:
            worker = Worker(self.request, files is self.suspects)
        except OSError as fault:
            raise MarketError(f"a worker can't be started: {fault.strerror}") from fault
        self.all[worker.out.fileno()] = worker
        self.poll.register(worker.out, select.POLLIN)
        worker.give(files.popleft())
        for _ in range(1, count):
            self.ask(worker)

    def ask(self, worker: Worker) -> None:
        """Gives a worker one more file, and a None where there are no more for it."""
        if self.left and not worker.is_alone:
            worker.give(self.left.popleft())
        else:
            worker.send(None)

    def heard(self, worker: Worker) -> list[Found]:
        """What a worker says, which gets more files; of one that ended see ended. Raises
        MarketError.
        """
        try:
            answers = worker.answers()
        except EOFError:
            return self.ended(worker)
        for path, *_ in answers:
            worker.paths.remove(path)
            self.ask(worker)
        return [found_of(answer, worker.name) for answer in answers]

    def ended(self, worker: Worker) -> list[Found]:
        """What is known of the files of a worker that ended, which another one follows. Raises
        MarketError.
        """
        self.poll.unregister(worker.out)
        del self.all[worker.out.fileno()]
        worker.end()
        if not worker.is_alone:
            self.suspects += worker.paths
        self.start(AHEAD)
        lost = worker.paths if worker.is_alone else []
        return [found_of((path, {"fault": WORKERS_ENDED}, None, ""), "") for path in lost]

    def results(self, count: int) -> Iterator[list[Found]]:
        """What is found of the files by this many workers. Raises MarketError."""
        missing = len(self.left)
        try:
            for _ in range(count):
                self.start(1)
            for worker in [*self.all.values()] * (AHEAD - 1):
                self.ask(worker)
            while missing:
                for number, _ in self.poll.poll():
                    found = self.heard(self.all[number])
                    missing -= len(found)
                    yield found
        finally:
            for worker in self.all.values():
                worker.end()


class Processes:
    """Processes of this machine, one for each core where their number isn't given."""

    def __init__(self, count: int | None = None) -> None:
        self.count = count or len(os.sched_getaffinity(0))

    def digest(self, path: str | None) -> str:
        """The digest of the program. Raises MarketError where there is none."""
        try:
            return finder.program_digest(path)
        except FileNotFoundError as fault:
            raise MarketError(f"there is no program: {fault}") from fault

    def results(self, files: list[str], request: Request) -> Iterator[list[Found]]:
        """What was found of the files, some at a time as they are done. Raises MarketError."""
        return Crew(request, files).results(self.count)

"""Runs commands beside each other, as cores and memory allow, the longest first.

A task is a command, run at the top of the repository, in a process group and with a folder for
temporary files of its own. It may need what other tasks make (products), and is begun once all of
that is there. One that runs alone is begun when nothing else runs and nothing else can be begun.
One that proves is begun where 4 GiB are free, any other where 1 GiB is, or where nothing runs. What
a task prints goes to a file.
"""
import contextlib
import dataclasses
import math
import os
import pathlib
import re
import shutil
import signal
import subprocess
import time
from collections.abc import Callable, Iterator

import machine
import wording

TURN = 0.05  # seconds between two looks at what runs
GIB_OF_A_TASK = 1  # that have to be free where a task begins that proves nothing
SECONDS_TO_GROW = 60.0  # after which a check of proofs has the memory that it needs
UNKNOWN_SECONDS = 1e6  # of a task that never ended well: it comes early
PATIENCE = 20.0
"""For how many seconds a task that is broken off is waited for, once it is asked to end."""
LATE = 124
"""The status of a task that was ended after its time, and ended well then."""
MARK = "CALLBOARD_CHECK"
"""A variable of the environment by which the processes of a task are found: its mark, after those
of what the run itself is a part of.
"""


class TaskError(Exception):
    """Why a task can't run, or a product isn't there."""


KEPT = re.compile(r"^(rt: \S+) is kept: .*$")
"""What the gate says of a crate that an earlier run proved, in place of that it is proved."""


@dataclasses.dataclass(frozen=True)
class Product:
    """What a task makes: its name, the lines that the task prints before it is there (where there
    is none, it is there once the task has ended well), and what takes it, which raises TaskError.
    """

    name: str
    lines: frozenset[str] = frozenset()
    take: Callable[[], None] = lambda: None
    is_at_end: bool = False
    """Whether it is there at a good end too, where its lines weren't printed."""


@dataclasses.dataclass(frozen=True)
class Task:
    """A command, asked for when it is begun (raises TaskError, OSError), the products that it needs
    and those that it gives, whether it runs alone, whether it proves, and for how many seconds it
    may run: then it is ended.
    """

    name: str
    words: Callable[[], list[str]]
    needs: frozenset[str] = frozenset()
    gives: tuple[Product, ...] = ()
    is_alone: bool = False
    is_proof: bool = False
    most_seconds: float = math.inf


@dataclasses.dataclass(frozen=True)
class Ended:
    """How a task ended: its status (None where it wasn't begun), why it wasn't begun or was ended,
    its seconds, and the file of what it printed.
    """

    task: Task
    status: int | None
    why: str
    seconds: float
    log: pathlib.Path


class Viewer:
    """What hears of the tasks as they run."""

    def begun(self, task: Task) -> None:
        """A task has begun."""

    def printed(self, task: Task, line: str) -> None:
        """A task has printed a line."""

    def ended(self, how: Ended) -> None:
        """A task has ended, or can't be begun."""

    def turn(self, running: list[str]) -> None:
        """These run now; called many times a second."""


def marked(mark: str) -> Iterator[int]:
    """The processes that have this mark in their environment, as far as it can be seen."""
    head = f"{MARK}=".encode()
    for folder in pathlib.Path("/proc").glob("[0-9]*"):
        with contextlib.suppress(OSError):
            for variable in (folder / "environ").read_bytes().split(b"\0"):
                if variable.startswith(head) and mark.encode() in variable[len(head) :].split():
                    yield int(folder.name)


class Running:
    """A task that runs. Raises OSError, TaskError where it can't be begun."""

    def __init__(
        self, task: Task, log: pathlib.Path, top: pathlib.Path, room: pathlib.Path
    ) -> None:
        """Begins a task at a folder, with a file for what it prints and a room to be made."""
        self.task, self.log, self.room = task, log, room
        self.begin = time.monotonic()
        self.mark = f"{room.parent.name}.{room.name}"
        self.awaited = {product: set(product.lines) for product in task.gives}
        self.rest = b""
        words, outer = task.words(), os.environ.get(MARK, "")
        room.mkdir()
        room.chmod(0o755)  # as some tests run as nobody
        with open(log, "wb") as out:
            self.child = subprocess.Popen(
                words,
                cwd=top,
                env=os.environ | {"TMPDIR": str(room), MARK: f"{outer} {self.mark}"},
                stdin=subprocess.DEVNULL,
                stdout=out,
                stderr=subprocess.STDOUT,
                process_group=0,
            )
        self.out = open(log, "rb")

    def new_lines(self, is_last: bool) -> Iterator[str]:
        """The lines that it printed since the last look; a line that isn't whole only where
        nothing more comes. Raises OSError.
        """
        *lines, self.rest = (self.rest + self.out.read()).split(b"\n")
        if is_last and self.rest:
            lines.append(self.rest)
        yield from (line.decode(errors="replace") for line in lines)

    def products_of(self, line: str) -> Iterator[Product]:
        """The products that are there once this line is printed."""
        said = KEPT.sub(r"\1 proved", line)
        for product, lines in self.awaited.items():
            if said in lines:
                lines.remove(said)
                if not lines:
                    yield product

    def seconds(self) -> float:
        """How long it has run."""
        return time.monotonic() - self.begin

    def is_overdue(self) -> bool:
        """Whether it still runs after its time."""
        return self.child.poll() is None and self.seconds() > self.task.most_seconds

    def send(self, how: signal.Signals) -> None:
        """Sends a signal to all of its group."""
        with contextlib.suppress(ProcessLookupError, PermissionError):
            os.killpg(self.child.pid, how)

    def clean(self) -> None:
        """Ends what it left running, and takes its temporary files away."""
        self.send(signal.SIGKILL)
        for process in marked(self.mark):
            with contextlib.suppress(ProcessLookupError, PermissionError):
                os.kill(process, signal.SIGKILL)
        self.out.close()
        shutil.rmtree(self.room, ignore_errors=True)


def send_all(tasks: list[Running], how: signal.Signals) -> None:
    """Sends a signal to the groups of those that still run."""
    for it in tasks:
        if it.child.poll() is None:
            it.send(how)


def wait_all(tasks: list[Running], most: float) -> None:
    """Waits until all have ended, for at most so many seconds."""
    last = time.monotonic() + most
    for it in tasks:
        with contextlib.suppress(subprocess.TimeoutExpired):
            it.child.wait(max(0.0, last - time.monotonic()))


def ask_to_end(tasks: list[Running]) -> None:
    """Ends tasks: one that proves by SIGTERM, another as by Ctrl-C, so that tests say where they
    were and take away what they made; what doesn't end is killed.
    """
    for it in tasks:
        it.send(signal.SIGTERM if it.task.is_proof else signal.SIGINT)
    wait_all(tasks, PATIENCE)
    send_all(tasks, signal.SIGTERM)
    wait_all(tasks, PATIENCE)
    send_all(tasks, signal.SIGKILL)
    for it in tasks:
        it.child.wait()


def stop(tasks: list[Running]) -> None:
    """Ends tasks with all that they began."""
    ask_to_end(tasks)
    for it in tasks:
        it.clean()


class Schedule:
    """The tasks that are left, those that run, and the products that are there or won't be."""

    def __init__(
        self,
        tasks: list[Task],
        there: set[str],
        seconds: dict[str, float],
        jobs: int,
        viewer: Viewer,
    ) -> None:
        """Of tasks, the products that are there already, how long each task took the last time, and
        how many may run at once.
        """
        self.left, self.jobs, self.viewer = list(tasks), jobs, viewer
        self.there = set(there)
        made = {product.name for task in tasks for product in task.gives} | self.there
        needed = {name for task in tasks for name in task.needs}
        self.lacking = {name: f"nothing makes {name}" for name in needed - made}
        self.running: list[Running] = []
        self.way = ways(tasks, seconds)

    def run(self, top: pathlib.Path, logs: pathlib.Path, rooms: pathlib.Path) -> None:
        """Runs all, with what they print in files NAME.log. Raises KeyboardInterrupt, with what
        still ran in `running`, all ended.
        """
        try:
            while self.left or self.running:
                self.give_up(logs)
                self.fill(top, logs, rooms)
                self.viewer.turn([it.task.name for it in self.running])
                time.sleep(TURN)
                self.look()
        finally:
            stop(self.running)

    def give_up(self, logs: pathlib.Path) -> None:
        """Ends the tasks whose products won't be there."""
        for task in [*self.left]:
            why = [self.lacking[it] for it in sorted(task.needs) if it in self.lacking]
            if why:
                self.left.remove(task)
                self.end(Ended(task, None, why[0], 0.0, logs / f"{task.name}.log"))

    def end(self, how: Ended) -> None:
        """A task has ended: what it made without a line is there, and what isn't there won't be."""
        for product in how.task.gives:
            if product.name not in self.there:
                why = how.why or f"{how.task.name} made no {product.name}: see {how.log.name}"
                if how.status == 0 and (product.is_at_end or not product.lines):
                    self.take(product)
                else:
                    self.lacking.setdefault(product.name, why)
        self.viewer.ended(how)

    def take(self, product: Product) -> None:
        """A product is there, unless it can't be taken."""
        try:
            product.take()
            self.there.add(product.name)
        except (TaskError, OSError) as fault:
            self.lacking[product.name] = str(fault)

    def fill(self, top: pathlib.Path, logs: pathlib.Path, rooms: pathlib.Path) -> None:
        """Begins tasks as long as there is room, the longest way first."""
        ready = [task for task in self.left if task.needs <= self.there]
        for task in sorted(ready, key=lambda task: -self.way[task.name]):
            beside = [it for it in ready if not it.is_alone and it in self.left]
            if task.is_alone and beside or not self.has_room(task):
                continue
            self.left.remove(task)
            log = logs / f"{task.name}.log"
            if task.is_alone:
                os.sync()  # so that it doesn't wait for a disk that writes what others wrote
            try:
                self.running.append(Running(task, log, top, rooms / task.name))
                self.viewer.begun(task)
            except (TaskError, OSError) as fault:
                self.end(Ended(task, None, str(fault), 0.0, log))

    def has_room(self, task: Task) -> bool:
        """Whether a task can be begun beside those that run."""
        if not self.running:
            return True
        if len(self.running) >= self.jobs or task.is_alone:
            return False
        if any(it.task.is_alone for it in self.running):
            return False
        young = [it for it in self.running if it.seconds() < SECONDS_TO_GROW]
        needed = machine.GIB_OF_A_CHECK * sum(it.task.is_proof for it in young)
        needed += machine.GIB_OF_A_CHECK if task.is_proof else GIB_OF_A_TASK
        return machine.free_gib() >= needed

    def look(self) -> None:
        """Looks at what was printed, and which tasks have ended, or are to be ended."""
        for it in [*self.running]:
            why = ""
            if it.is_overdue():
                ask_to_end([it])
                why = f"ended after {wording.clock_text(it.task.most_seconds)}, its longest time"
            status = it.child.poll()
            for line in it.new_lines(is_last=status is not None):
                self.viewer.printed(it.task, line)
                for product in it.products_of(line):
                    self.take(product)
            if status is not None:
                self.running.remove(it)
                it.clean()
                status = status or LATE if why else status
                self.end(Ended(it.task, status, why, it.seconds(), it.log))


def ways(tasks: list[Task], seconds: dict[str, float]) -> dict[str, float]:
    """For each task how long the longest chain from it on takes, over those that need what it
    makes, in seconds.
    """
    found: dict[str, float] = {}

    def way(task: Task) -> float:
        if task.name not in found:
            made = {product.name for product in task.gives}
            after = [way(it) for it in tasks if it.needs & made]
            found[task.name] = seconds.get(task.name, UNKNOWN_SECONDS) + max(after, default=0.0)
        return found[task.name]

    return {task.name: way(task) for task in tasks}

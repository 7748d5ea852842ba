#!/usr/bin/env python3
"""Proves and builds crates, with progress on standard error: `build/program.py [CRATE..]`.

Builds the program where no crate is named, and whatever is below.

Crates that don't use each other are proved at once, as cores and memory allow. Those with the
longest way to the program above them have all cores (at most four jobs), and what is proved beside
them takes what they leave (`nice`). The toolchain works in a crate's folder and in those below it,
and of two crates that use a third it lets the second wait. So each is proved in a room of its own,
out/build/rooms/CRATE, with a copy of its text and of what was built below it, and what is made
there is moved to the crate's own out/. On a terminal one line is rewritten; elsewhere each crate
has a line of its own. What is proved is kept, so a build that was interrupted goes on where it
stopped. How long each crate took is kept in out/build/seconds.txt, and the log of each in
out/build/CRATE.log. A new clone takes build/crate_seconds.txt for it, which `build/program.py
--keep-seconds` makes of a run's. The status is 0 where all is built, 1 where a crate failed, which
is named with its log, and 2 where a build can't begin.
"""
import argparse
import contextlib
import dataclasses
import fcntl
import os
import pathlib
import shutil
import signal
import subprocess
import sys
import time
from collections.abc import Iterator

from machine import GIB_OF_A_CHECK, cores, free_gib
from toolchain import crate_lines, crates_below, is_program
from wording import clock_text, plural

TOP = pathlib.Path(__file__).resolve().parent.parent
PROGRAM = "callboard"
LOGS = TOP / "out/build"
SECONDS = LOGS / "seconds.txt"
ROOMS = LOGS / "rooms"
NO_CRATES_HERE = ROOMS / "MODULE.bazel"  # a file that keeps `rt ci` out of the rooms
KEPT_SECONDS = TOP / "build/crate_seconds.txt"
MOST_JOBS = 4  # that one crate can use
UNKNOWN = 60.0  # seconds taken for a crate that no run has proved
BESIDE_JOBS = 2  # of a crate that is proved beside those with the longest way
NEAR_LONGEST = 0.9  # a way that counts among the longest, as a part of the longest
TURN = 0.2  # seconds between two looks at what runs
SECONDS_BETWEEN_LOOKS = 5.0  # at a folder that is in use


class CannotBuildError(Exception):
    """Why a build can't begin."""


class CrateFailedError(Exception):
    """Which crate failed, and where its log is."""


@dataclasses.dataclass(frozen=True)
class Took:
    """What a crate took at its last whole proof, in seconds, beside others, and in the processor's
    seconds.
    """

    seconds: float = UNKNOWN
    processor: float = UNKNOWN


def seconds_in(file: pathlib.Path) -> dict[str, Took]:
    """What each crate took by a file; none where there is no such file, or it is none of these. A
    row without the processor's seconds has the others for them.
    """
    found = {}
    with contextlib.suppress(OSError, ValueError):
        for line in file.read_text(encoding="utf-8").splitlines():
            name, *numbers = line.partition("#")[0].split() or [""]
            if numbers:
                found[name] = Took(float(numbers[0]), float(numbers[-1]))
    return found


def write_seconds(file: pathlib.Path, of: dict[str, Took], head: str = "") -> None:
    """Writes what each crate took, those of the repository in its order. Raises OSError."""
    rows = [f"{it} {of[it].seconds:.1f} {of[it].processor:.1f}\n" for it in of]
    file.write_text(head + "".join(rows), encoding="utf-8")


def keep_seconds() -> None:
    """Makes the list for new clones, of what is known here. Raises OSError, CannotBuildError."""
    here = seconds_in(SECONDS)
    known = {name: here[name] for name in crate_lines(TOP) if name in here}
    if not known:
        raise CannotBuildError(f"no run has written {SECONDS} yet")
    head = f"# By build/program.py --keep-seconds, of a run on {plural(cores(), 'core')}:\n"
    head += "# each crate, its seconds beside others, and the processor's.\n"
    write_seconds(KEPT_SECONDS, known, head)


def seconds_to_top(crates: dict[str, list[str]], known: dict[str, Took]) -> dict[str, float]:
    """For each crate how long the longest chain from it to the top takes, in seconds."""
    found: dict[str, float] = {}
    for name in reversed(crates):
        above = [found[it] for it in found if name in crates[it]]
        found[name] = known.get(name, Took()).seconds + max(above, default=0.0)
    return found


class Progress:
    """The line on a terminal, or a line a crate elsewhere."""

    def __init__(self, count: int, about: float) -> None:
        self.count, self.begin = count, time.monotonic()
        self.about = f" of about {clock_text(about)}"
        self.is_terminal = sys.stderr.isatty()

    def say(self, text: str) -> None:
        """A line that stays."""
        clear = "\r\033[K" if self.is_terminal else ""
        print(f"{clear}callboard: {text}", file=sys.stderr, flush=True)

    def show(self, running: list[str], done: int) -> None:
        """What runs now, on a terminal."""
        if self.is_terminal:
            since = clock_text(time.monotonic() - self.begin)
            names = ", ".join(running)
            text = f"callboard: proving {names} ({done} of {self.count} done), {since}{self.about}"
            width = shutil.get_terminal_size().columns - 1
            print(f"\r\033[K{text[:width]}", end="", file=sys.stderr, flush=True)

    def crate_done(self, name: str, done: int, seconds: float) -> None:
        """That a crate is proved."""
        if not self.is_terminal:
            since = clock_text(time.monotonic() - self.begin)
            self.say(f"{name} proved in {seconds:.0f} s ({done} of {self.count}), {since}")

    def end(self) -> None:
        """That all is built."""
        took = clock_text(time.monotonic() - self.begin)
        self.say(f"proved and built in {took} on {plural(cores(), 'core')}")


def link(one: str, other: str) -> str:
    """Gives a file a second name, or copies it where the two places can't share one. The toolchain
    removes a file before it makes it anew, and writes into none. Raises OSError.
    """
    try:
        os.link(one, other)
    except OSError:
        shutil.copyfile(one, other)
    return other


def link_folder(one: pathlib.Path, other: pathlib.Path) -> None:
    """Gives a folder's files second names in another folder, where there is one. Raises OSError."""
    if one.is_dir():
        shutil.copytree(one, other, copy_function=link)


class Room:
    """Where a crate is proved: a folder with its text, that of the crates below it, and what was
    built of these, among other rooms. Raises OSError.
    """

    def __init__(self, name: str, rooms: pathlib.Path = ROOMS) -> None:
        self.name = name
        self.top = rooms / name
        self.crate = self.top / "crates" / name

    def furnish(self, below: list[str]) -> None:
        """Makes the room, with what was kept of the crate, for which these are below."""
        shutil.rmtree(self.top, ignore_errors=True)
        for name in [*below, self.name]:
            own = TOP / "crates" / name
            shutil.copytree(own, self.top / "crates" / name, ignore=shutil.ignore_patterns("out"))
            link_folder(own / "out/rlib", self.top / "crates" / name / "out/rlib")
        link_folder(TOP / "crates" / self.name / "out/incremental", self.crate / "out/incremental")
        shutil.copyfile(TOP / "HANDLES", self.top / "HANDLES")
        lines = crate_lines(TOP)
        (self.top / "crates.txt").write_text("".join(lines[it] for it in [*below, self.name]))

    def take_back(self) -> None:
        """Moves what was made of the crate to its own folder, and takes the room away."""
        own = TOP / "crates" / self.name / "out"
        own.mkdir(exist_ok=True)
        for made in (self.crate / "out").glob("*"):
            to = own / made.name
            if to.is_dir():
                shutil.rmtree(to)
            os.replace(made, to)
        shutil.rmtree(self.top, ignore_errors=True)


@contextlib.contextmanager
def held(name: str) -> Iterator[bool]:
    """Keeps the toolchain out of a crate's folder meanwhile. Whether it could: elsewhere it works
    there.
    """
    folder = os.open(TOP / "crates" / name, os.O_RDONLY)
    try:
        fcntl.flock(folder, fcntl.LOCK_EX | fcntl.LOCK_NB)
        yield True
    except BlockingIOError:
        yield False
    finally:
        os.close(folder)


@dataclasses.dataclass
class Running:
    """A crate that is being proved, where, and what keeps others out of its folder."""

    child: subprocess.Popen[bytes]
    room: Room
    lock: contextlib.ExitStack
    begin: float

    def ended(self) -> tuple[int, float] | None:
        """Its status and the processor's seconds for it, once it has ended."""
        ended, status, usage = os.wait4(self.child.pid, os.WNOHANG)
        if not ended:
            return None
        self.child.returncode = os.waitstatus_to_exitcode(status)
        return self.child.returncode, usage.ru_utime + usage.ru_stime

    def ask(self) -> None:
        """Asks it to end."""
        with contextlib.suppress(ProcessLookupError):
            os.killpg(self.child.pid, signal.SIGTERM)

    def stop(self) -> None:
        """Waits until it has ended, and keeps what was done. Raises OSError."""
        self.child.wait()
        self.end()

    def end(self) -> None:
        """Takes back what was made. Raises OSError."""
        with self.lock:
            self.room.take_back()


def start(name: str, below: list[str], jobs: int, is_first: bool) -> Running | None:
    """Begins to prove and build a crate, unless its folder is in use. Raises OSError.

    It gets a process group and no session of its own: Linux gives sessions equal shares of the
    cores, whatever `nice` says (autogroups).
    """
    with contextlib.ExitStack() as lock:
        if not lock.enter_context(held(name)):
            return None
        room = Room(name)
        room.furnish(below)
        words = ["rt", "run" if is_program(TOP, name) else "lib", "--jobs", str(jobs)]
        with open(LOGS / f"{name}.log", "wb") as log:
            child = subprocess.Popen(
                words if is_first else ["nice", *words],
                cwd=room.crate,
                stdin=subprocess.DEVNULL,
                stdout=log,
                stderr=subprocess.STDOUT,
                process_group=0,
            )
        return Running(child, room, lock.pop_all(), time.monotonic())
    return None


class Build:
    """The crates that are still to be proved, those that are being proved, and what is done."""

    def __init__(self, crates: dict[str, list[str]]) -> None:
        self.crates, self.here = crates, seconds_in(SECONDS)
        known = seconds_in(KEPT_SECONDS) | self.here
        self.to_top = seconds_to_top(crates, known)
        self.done: set[str] = set()
        self.running: dict[str, Running] = {}
        self.cores = cores()
        self.most = max(1, min(self.cores, int(free_gib() // GIB_OF_A_CHECK)))
        processor = sum(known.get(name, Took()).processor for name in crates)
        about = max(*self.to_top.values(), processor / self.cores)
        self.progress = Progress(len(crates), about)
        is_known = all(name in self.here for name in crates)
        how = "as the last time here" if is_known else "as a run elsewhere took"
        minutes = plural(max(1, round(about / 60)), "minute")
        self.progress.say(f"about {minutes} on {plural(self.cores, 'core')}, {how}")

    def ready(self) -> list[str]:
        """The crates that can be begun, the longest way to the program first."""
        found = [
            name
            for name, below in self.crates.items()
            if name not in self.done
            and name not in self.running
            and all(it in self.done for it in below)
        ]
        return sorted(found, key=lambda name: -self.to_top[name])

    def fill(self) -> None:
        """Begins crates as long as there are cores and memory for them. Raises OSError."""
        longest = max((self.to_top[it] for it in self.crates if it not in self.done), default=0.0)
        for name in self.ready():
            if len(self.running) >= self.most:
                return
            is_first = self.to_top[name] >= NEAR_LONGEST * longest
            jobs = min(MOST_JOBS if is_first else BESIDE_JOBS, self.cores)
            running = start(name, self.crates[name], jobs, is_first)
            if running:
                self.running[name] = running
            elif not self.running:
                self.progress.say(f"waiting for another rt to finish in crates/{name}")
                time.sleep(SECONDS_BETWEEN_LOOKS)

    def take_in(self) -> None:
        """Takes in the crates that have ended. Raises CrateFailedError and OSError."""
        for name, it in [*self.running.items()]:
            ended = it.ended()
            if ended is None:
                continue
            del self.running[name]
            it.end()
            if ended[0] != 0:
                raise CrateFailedError(f"{name} isn't proved: see {LOGS / name}.log")
            self.done.add(name)
            self.learn(name, Took(time.monotonic() - it.begin, ended[1]))
            self.progress.crate_done(name, len(self.done), time.monotonic() - it.begin)

    def learn(self, name: str, took: Took) -> None:
        """Writes down what a crate took, where it was more than a look at what was kept. Raises
        OSError.
        """
        if took.processor > self.here.get(name, Took(0.0, 0.0)).processor / 2:
            self.here[name] = took
            known = {it: self.here[it] for it in crate_lines(TOP) if it in self.here}
            write_seconds(SECONDS, known)

    def stop(self) -> None:
        """Ends what runs, and keeps what was done. Raises OSError."""
        for it in self.running.values():
            it.ask()
        while self.running:
            self.running.popitem()[1].stop()

    def run(self) -> None:
        """Proves and builds all. A program then counts as made when the build began, also where
        nothing of it had changed. Raises CrateFailedError, OSError.
        """
        begin = time.time()
        try:
            while len(self.done) < len(self.crates):
                self.fill()
                self.progress.show([*self.running], len(self.done))
                time.sleep(TURN)
                self.take_in()
        finally:
            self.stop()
        for name in self.crates:
            if is_program(TOP, name):
                os.utime(TOP / "crates" / name / "out" / name, (begin, begin))
        self.progress.end()


def interrupt(number: int, frame: object) -> None:
    """Ends the build, once, so that nothing of it is left running and all that was done is kept."""
    for it in (signal.SIGINT, signal.SIGTERM):
        signal.signal(it, lambda number, frame: None)
    raise KeyboardInterrupt


def build(names: list[str]) -> None:
    """Proves and builds these crates, and whatever is below. Raises CannotBuildError,
    CrateFailedError, OSError, KeyboardInterrupt.
    """
    if shutil.which("rt") is None:
        raise CannotBuildError("there is no rt: put the toolchain on the path")
    lines = crate_lines(TOP)
    for name in names:
        if name not in lines:
            raise CannotBuildError(f"crates.txt has no crate {name}")
    ROOMS.mkdir(parents=True, exist_ok=True)
    NO_CRATES_HERE.touch()
    try:
        for left in [it.name for it in ROOMS.iterdir() if it.is_dir() and it.name in lines]:
            with held(left) as is_free:  # where no other build works in it: one was killed
                if is_free:
                    Room(left).take_back()
        Build(crates_below(TOP, *names)).run()
    finally:
        with contextlib.suppress(OSError):
            if [*ROOMS.iterdir()] == [NO_CRATES_HERE]:  # `rt ci` refuses such a file
                NO_CRATES_HERE.unlink()
                ROOMS.rmdir()


def main() -> int:
    parser = argparse.ArgumentParser(
        prog="build/program.py", description="Proves and builds crates, the program first of all."
    )
    parser.add_argument("crates", nargs="*", metavar="CRATE", help="the program, where none is")
    text = "make build/crate_seconds.txt of what is known here"
    parser.add_argument("--keep-seconds", action="store_true", help=text)
    asked = parser.parse_args()
    for it in (signal.SIGINT, signal.SIGTERM):
        if signal.getsignal(it) is not signal.SIG_IGN:
            signal.signal(it, interrupt)
    try:
        keep_seconds() if asked.keep_seconds else build(asked.crates or [PROGRAM])
    except CrateFailedError as fault:
        print(f"callboard: {fault}", file=sys.stderr)
        return 1
    except CannotBuildError as fault:
        print(f"callboard: {fault}", file=sys.stderr)
        return 2
    except OSError as fault:
        print(f"callboard: can't build here: {fault}", file=sys.stderr)
        return 2
    except KeyboardInterrupt:
        print("\ncallboard: stopped; run again, it goes on from here", file=sys.stderr)
        return 130
    return 0


if __name__ == "__main__":
    sys.exit(main())

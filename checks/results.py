"""What is printed of the test command's parts as they end, and what is kept of them."""
import functools
import re
import shutil
import signal
import subprocess
import sys
import time

import built
import machine
from check_parts import Part
from passes import Passes, Seconds, digest_of
from schedule import Ended, Schedule, Task, Viewer
from wording import clock_text, plural

COUNTS = re.compile(r"(\d+) passed, (\d+) failed")
MOST_NAMED = 3  # of the parts that took longest


def counts_of(how: Ended) -> tuple[int, int]:
    """How many passed and how many failed of a part that has ended. Raises OSError."""
    if how.status is None:
        return 0, 1
    lines = how.log.read_text(encoding="utf-8", errors="replace").split("\n")
    last = next((line.strip() for line in reversed(lines) if line.strip()), "")
    counts = COUNTS.fullmatch(last)
    is_well = how.status == 0
    passed, failed = map(int, counts.groups()) if counts else (int(is_well), int(not is_well))
    return passed, failed + (not is_well and failed == 0)


@functools.cache
def kit() -> str:
    """The toolchain, if there is one."""
    if shutil.which("rt") is None:
        return ""
    return subprocess.run(["rt", "version"], capture_output=True, text=True).stdout


def sources() -> str:
    """A digest of the sources and the toolchain. Raises OSError, CalledProcessError."""
    return digest_of(built.TOP, kit())


class Results(Viewer):
    """Prints a line for each part as it ends, and keeps what passed and how long it took."""

    def __init__(
        self, parts: list[Part], shows: bool, seconds: Seconds, passes: Passes | None = None
    ) -> None:
        """Of the parts that run."""
        self.parts = {part.name: part for part in parts}
        self.shows, self.passes, self.seconds = shows, passes, seconds
        self.begin = time.monotonic()
        self.passed = self.failed = 0
        self.is_changed = False
        self.took: dict[str, float] = {}
        self.is_terminal = sys.stderr.isatty()
        self.line = ""

    def say(self, text: str) -> None:
        """A line that stays."""
        self.clear()
        print(text, flush=True)

    def clear(self) -> None:
        """Takes the line of the progress away."""
        if self.line:
            print("\r\033[K", end="", file=sys.stderr, flush=True)
            self.line = ""

    def begun(self, task: Task) -> None:
        if self.shows:
            what = self.parts[task.name].what if task.name in self.parts else "proves and builds"
            print(f"check: {task.name}: {what}", file=sys.stderr, flush=True)

    def printed(self, task: Task, line: str) -> None:
        if self.shows:
            self.say(f"{task.name}: {line.rstrip()}")

    def turn(self, running: list[str]) -> None:
        if self.is_terminal and not self.shows:
            since = clock_text(time.monotonic() - self.begin)
            failed = f", {self.failed} failed" if self.failed else ""
            done = f"{len(self.took)} of {len(self.parts)} parts done{failed}"
            line = f"check: {', '.join(running)} ({done}), {since}"
            line = line[: shutil.get_terminal_size().columns - 1]
            if line != self.line:
                print(f"\r\033[K{line}", end="", file=sys.stderr, flush=True)
                self.line = line

    def ended(self, how: Ended) -> None:
        counts = counts_of(how)
        is_table = [part.is_table for part in self.parts.values()] == [True]
        if counts[1] or is_table:
            self.show_why(how)
        elif how.seconds > self.seconds.of.get(how.task.name, 0.0) / 2:
            self.seconds.add(how.task.name, how.seconds)
        if how.task.name in self.parts:
            self.result(how.task.name, counts, how.seconds)
            if self.passes and not counts[1] and not self.is_changed:
                self.keep(self.passes, how.task.name, counts[0], how.seconds)

    def keep(self, passes: Passes, name: str, passed: int, seconds: float) -> None:
        """Keeps that a part passed, unless the sources were changed meanwhile. Raises OSError."""
        self.is_changed = sources() != passes.sources
        if self.is_changed:
            self.say("check: sources were changed meanwhile: nothing more is kept for --resume")
        else:
            passes.add(name, passed, seconds)

    def show_why(self, how: Ended) -> None:
        """Prints what a task has printed, where it wasn't shown already."""
        lines = [how.why] if how.why else []
        if how.status is not None and not self.shows:
            lines[:0] = how.log.read_text(encoding="utf-8", errors="replace").splitlines()
        for line in lines:
            self.say(f"{how.task.name}: {line.rstrip()}")
        if how.status is not None and how.status < 0:
            self.say(f"{how.task.name}: ended by {signal.Signals(-how.status).name}")

    def result(self, name: str, counts: tuple[int, int], seconds: float, when: str = "") -> None:
        """Prints the line of a part, and counts it."""
        verdict = "FAILED" if counts[1] else "ok"
        of = f"{counts[0]} of {sum(counts)} passed, {seconds:.1f} s{when}"
        self.say(f"check: {name}: {verdict}: {of}")
        self.passed, self.failed = self.passed + counts[0], self.failed + counts[1]
        self.took[name] = seconds

    def broken_off(self, schedule: Schedule) -> None:
        """Prints what ran and what didn't, which counts as failed."""
        self.clear()
        running = [it for it in schedule.running if it.task.name in self.parts]
        for it in running:
            self.say(f"check: {it.task.name}: BROKEN OFF: after {it.seconds():.1f} s")
        left = [task.name for task in schedule.left if task.name in self.parts]
        if left:
            self.say(f"check: not run: {' '.join(left)}")
        self.say("check: broken off; ./check --resume goes on with what passed")
        self.failed += len(running) + len(left)

    def close(self, jobs: int) -> None:
        """Prints how long all took, the parts that took longest, and the counts."""
        seconds = time.monotonic() - self.begin
        longest = sorted(self.took, key=lambda name: -self.took[name])[:MOST_NAMED]
        named = ", ".join(f"{name} {clock_text(self.took[name])}" for name in longest)
        of = f"{plural(machine.cores(), 'core')}, {jobs} at once"
        those = f"; the longest: {named}" if named else ""
        self.say(f"check: {clock_text(seconds)} on {of}{those}")
        self.say(f"{self.passed} passed, {self.failed} failed")

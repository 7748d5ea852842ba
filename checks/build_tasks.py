"""What the parts of the test command need, and the tasks that build it.

Where the gate is among the parts, the program, its tests and the clock of bench/ are those that it
proved and built, and nothing else is taken for them; the library is built over the crates that it
proved. Else each is taken as it is, where it is newer than all sources, or built.
"""
import functools
import os
import pathlib
import shutil
import sys
import time
from collections.abc import Iterator

import built
import library_over_gate
from schedule import Product, Task, TaskError

sys.path.insert(0, str(built.TOP / "build"))

import program  # noqa: E402
import toolchain  # noqa: E402

PROGRAM, TESTS, CLOCK, LIBRARY = "PROGRAM", "TESTS", "CLOCK", "LIBRARY"
"""Words of a command that mean what is built."""
PROVED = "PROVED"
"""The crates below the library's, as the gate proved them."""
LIBRARIES = "LIBRARIES"
"""The folder of what the gate proved and others stand on: LIBRARIES/CRATE/CRATE.rlib."""
KEPT = built.TOP / "out/check/gate"
"""Where what the gate built is kept for the parts, and for a run that goes on."""
LINES = {
    PROGRAM: "rt: callboard proved",
    TESTS: "rt: callboard: its tests are proved",
    CLOCK: "rt: clock proved",
}
"""What the gate prints once these are built."""


def libraries() -> list[str]:
    """The crates that others stand on, lowest first. Raises OSError."""
    named = toolchain.named_by(built.TOP)
    below = {name for crate in named.values() for name in crate}
    return [name for name in toolchain.crates_below(built.TOP, *named) if name in below]


def usual_files() -> dict[str, pathlib.Path]:
    """Where what the gate builds lies when it is built elsewhere."""
    return {PROGRAM: built.PROGRAM, TESTS: built.TESTS, CLOCK: built.CLOCK}


class Builds:
    """What of the program, its tests, the clock and the library is there, and what builds the rest.
    """

    def __init__(
        self, needed: set[str], has_gate: bool, is_gate_done: bool, rooms: pathlib.Path
    ) -> None:
        """Of those that are needed; whether the gate is to run, or has passed on the same sources;
        and where temporary folders are.
        """
        self.begin = time.time()
        self.needed, self.has_gate, self.is_gate_done = needed, has_gate, is_gate_done
        self.gate = rooms / ".gate"  # no part has such a name
        self.files = {**usual_files(), LIBRARY: built.ARCHIVE, LIBRARIES: KEPT / "libraries"}
        by_gate = {name: KEPT / self.files[name].name for name in LINES}
        if has_gate or is_gate_done and all(file.is_file() for file in by_gate.values()):
            self.files |= by_gate
        self.there = set() if has_gate else {name for name in needed if self.is_there(name)}

    def is_there(self, name: str) -> bool:
        """Whether this is built of the sources as they are."""
        file = self.files[name]
        if name == LIBRARIES:
            return self.is_gate_done and file.is_dir()
        return file.is_file() if file.parent == KEPT else built.is_current(file)

    def path(self, name: str) -> str:
        """The path that a command has for this."""
        return str(built.LIBRARY if name == LIBRARY else self.files[name])

    def of_gate(self) -> tuple[Product, ...]:
        """What the gate makes."""
        below = frozenset(f"rt: {name} proved" for name in library_over_gate.crates_below())
        found = [
            Product(
                name, frozenset({line}), is_at_end=True, take=functools.partial(self.keep, name)
            )
            for name, line in LINES.items()
        ]
        lines = frozenset(f"rt: {name} proved" for name in libraries())
        libraries_there = Product(LIBRARIES, lines, take=self.keep_libraries)
        return (*found, Product(PROVED, below), libraries_there)

    def keep(self, name: str) -> None:
        """Keeps a file that the gate built, where the parts look, and where ./callboard does.
        Raises OSError.
        """
        usual = usual_files()[name]
        for to in (self.files[name], usual):
            to.parent.mkdir(parents=True, exist_ok=True)
            begun = to.with_name(f".{to.name}.{os.getpid()}")
            shutil.copy(self.gate / usual.relative_to(built.TOP), begun)
            os.utime(begun, (self.begin, self.begin))  # a source that was changed since is newer
            os.replace(begun, to)

    def keep_libraries(self) -> None:
        """Keeps the libraries that the gate proved, which takes them away at its end. Raises
        OSError.
        """
        shutil.rmtree(self.files[LIBRARIES], ignore_errors=True)
        for name in libraries():
            own = self.gate / "crates" / name / "out/rlib"
            program.link_folder(own, self.files[LIBRARIES] / name)

    def drop_libraries(self) -> None:
        """Takes them away: they fill a gigabyte."""
        shutil.rmtree(self.files[LIBRARIES], ignore_errors=True)

    def tasks(self) -> Iterator[Task]:
        """What builds what isn't there, each after the one before it."""
        if self.has_gate:
            if LIBRARY in self.needed:
                words = library_over_gate.words(self.gate)
                yield self.task(LIBRARY, words, frozenset({PROVED}))
            return
        before: frozenset[str] = frozenset()
        for name in (PROGRAM, TESTS, CLOCK, LIBRARY):
            if name in self.needed - self.there:
                yield self.task(name, built.words_of(self.files[name]), before)
                before = frozenset({name})

    def made(self, name: str) -> None:
        """Takes what was built. Raises TaskError where it isn't there, OSError."""
        try:
            built.made(self.files[name], self.begin)
        except built.NotBuiltError as fault:
            raise TaskError(str(fault)) from None

    def task(self, name: str, words: list[str], needs: frozenset[str]) -> Task:
        """The task that builds this so."""
        product = Product(name, take=lambda: self.made(name))
        return Task(f"build_{name.lower()}", lambda: words, needs, (product,), is_proof=True)

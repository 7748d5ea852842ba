#!/usr/bin/env python3
"""An installed package, as the parts of the test command use it: Debian's below its root's usr, one
of ./install, a wheel in its environment, or the folder of a tarball.

`checks/package.py PREFIX` looks at its files: whether all are there, and those that are no binaries
as this repository has them. Prints each that isn't, and `N passed, N failed`; the status is 0 where
nothing failed.
"""
import enum
import glob
import gzip
import pathlib
import subprocess
import sys
from collections.abc import Iterator

import built

sys.path.insert(0, str(built.TOP / "build"))

import installed  # noqa: E402
import installed_files  # noqa: E402
import passes  # noqa: E402
import version  # noqa: E402
from build_tasks import LIBRARY, PROGRAM  # noqa: E402
from schedule import Task, TaskError  # noqa: E402

PACKAGE = "PACKAGE"
"""A word of a command that means the folder of the package for Python."""
PREFIX = "PREFIX"
"""A word of a command that means the folder below which all is."""
PLACES = {
    PROGRAM: ["bin/callboard", "callboard", "lib/python3*/*-packages/callauction/bin/callboard"],
    LIBRARY: ["lib/libcallauction.a", "lib/*/libcallauction.a"],
    PACKAGE: ["lib/python3*/*-packages/callauction"],
}
"""Where each is below a prefix."""
NAMES = {PROGRAM: "program", LIBRARY: "library for C", PACKAGE: "package for Python"}
OF_PYTHON = PLACES[PACKAGE][0]
UNIT = "callboard-venue@.service"


class Kind(enum.Enum):
    """How a package was installed."""

    DEBIAN = "packages of Debian"
    INSTALL = "what ./install installs"
    WHEEL = "a wheel"
    TARBALL = "a tarball"


HOLDS = {
    Kind.DEBIAN: {PROGRAM, LIBRARY, PACKAGE},
    Kind.INSTALL: {PROGRAM, LIBRARY, PACKAGE},
    Kind.WHEEL: {PROGRAM, PACKAGE},
    Kind.TARBALL: {PROGRAM},
}
"""What packages of a kind have where all of them are installed."""


class Package:
    """What is installed below a prefix."""

    def __init__(self, prefix: pathlib.Path, rooms: pathlib.Path) -> None:
        """Looks at a prefix. Raises TaskError where it has no program of this version."""
        self.prefix, self.rooms = prefix.resolve(), rooms
        found = {name: self.find(places) for name, places in PLACES.items()}
        self.files = {name: file for name, file in found.items() if file} | {PREFIX: self.prefix}
        if PROGRAM not in self.files:
            raise TaskError(f"{prefix} has no program {' or '.join(PLACES[PROGRAM][:2])}")
        words = [str(self.files[PROGRAM]), "--version"]
        said = subprocess.run(words, capture_output=True, text=True).stdout.strip()
        if said != f"callboard {version.version()}":
            tested = version.version()
            raise TaskError(f"{prefix} has '{said}', and these are the tests of {tested}")

    def find(self, places: list[str]) -> pathlib.Path | None:
        """The first of these places that is there."""
        found = [it for place in places for it in sorted(self.prefix.glob(place)) if it.exists()]
        return found[0] if found else None

    def kind(self) -> Kind:
        """How it was installed."""
        match self.files[PROGRAM].relative_to(self.prefix).parts[0]:
            case "bin":
                is_listed = (self.prefix / installed.LIST).is_file()
                return Kind.INSTALL if is_listed else Kind.DEBIAN
            case "lib":
                return Kind.WHEEL
        return Kind.TARBALL

    def foreign(self, needs: frozenset[str]) -> str:
        """The first of these that no package of its kind has, in words; empty where there is none.
        """
        return next((NAMES[it] for it in NAMES if it in needs - HOLDS[self.kind()]), "")

    def wanted(self) -> Iterator[tuple[str, bytes | None]]:
        """The places of its files below the prefix, as glob takes them, each with the text that is
        wanted, None where it is a binary. Raises OSError.
        """
        kind = self.kind()
        lib = installed_files.MULTIARCH if kind is Kind.DEBIAN else "lib"
        for item in installed_files.program_texts() if kind is not Kind.WHEEL else []:
            place = installed_files.in_tarball(item.place) if kind is Kind.TARBALL else item.place
            is_packed = kind is Kind.DEBIAN and "/man/" in place
            yield f"{place}.gz" if is_packed else place, item.content
        if kind is Kind.TARBALL:
            yield "CHANGELOG.md", (built.TOP / "CHANGELOG.md").read_bytes()
        if LIBRARY in HOLDS[kind]:
            yield from ((item.place, item.content) for item in installed_files.library_texts(lib))
            yield from ((f"{lib}/{name}", None) for name in installed_files.LIBRARY_FILES)
        if PACKAGE in HOLDS[kind]:
            yield from self.wanted_of_python()
        if kind is Kind.DEBIAN:
            unit = (built.TOP / "packaging/debian" / UNIT).read_bytes()
            yield f"../lib/systemd/system/{UNIT}", unit
            yield f"{OF_PYTHON}/fix/_quickfix.*.so", None

    def wanted_of_python(self) -> Iterator[tuple[str, bytes | None]]:
        """As wanted(), of the package for Python."""
        sources = "python/callauction/"
        for name in passes.files_of(built.TOP):
            if name.startswith(sources):
                place = f"{OF_PYTHON}/{name.removeprefix(sources)}"
                yield place, (built.TOP / name).read_bytes()
        yield f"{OF_PYTHON}/_native.*.so", None

    def fault_at(self, place: str, text: bytes | None) -> str:
        """What is wrong with a file that is wanted; empty where nothing is. Raises OSError."""
        found = sorted(glob.glob(place, root_dir=self.prefix))
        if not found or not (self.prefix / found[0]).is_file():
            return f"{self.prefix} has no {place}"
        held = (self.prefix / found[0]).read_bytes()
        if place.endswith(".gz"):
            held = gzip.decompress(held)
        is_other = not held if text is None else held != text
        return f"{self.prefix / found[0]} is another one" if is_other else ""

    def path(self, name: str) -> str:
        """The path that a command has for this. Raises TaskError where it isn't there, OSError."""
        if name not in self.files:
            raise TaskError(f"{self.prefix} has no {NAMES[name]}")
        if name == PACKAGE:
            return str(self.files[PACKAGE].parent)
        return str(self.library() if name == LIBRARY else self.files[name])

    def library(self) -> pathlib.Path:
        """A folder as library/build writes it, of the library that is installed. Raises OSError."""
        folder = self.rooms / ".library"  # no part has such a name
        if not folder.is_dir():
            folder.mkdir()
            lib = self.files[LIBRARY].parent
            for name in installed_files.LIBRARY_FILES:
                (folder / name).symlink_to(lib / name)
            for name in ("callauction.h", "callauction.hpp"):
                (folder / name).symlink_to(self.prefix / "include" / name)
            text = installed_files.package_text("${pcfiledir}", ".", ".")
            (folder / "callauction.pc").write_bytes(text)
        return folder

    def tasks(self) -> list[Task]:
        """What builds it: nothing."""
        return []


def main() -> int:
    """Looks at the files of a package; answers the status."""
    if len(sys.argv) != 2:
        print("usage: checks/package.py PREFIX", file=sys.stderr)
        return 2
    prefix = pathlib.Path(sys.argv[1])
    try:
        package = Package(prefix, rooms=prefix)  # where nothing is made
        found = [package.fault_at(place, text) for place, text in package.wanted()]
    except (TaskError, OSError) as fault:
        print(f"{fault}\n0 passed, 1 failed")
        return 1
    faults = [fault for fault in found if fault]
    print("\n".join([*faults, f"{len(found) - len(faults)} passed, {len(faults)} failed"]))
    return int(bool(faults))


if __name__ == "__main__":
    sys.exit(main())

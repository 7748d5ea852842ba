"""Where the built program, its tests and the built library lie, and how they come to be there."""
import os
import pathlib
import subprocess
import sys
import time

TOP = pathlib.Path(__file__).resolve().parent.parent
FOLDER = TOP / "crates/callboard"
PROGRAM = FOLDER / "out/callboard"
TESTS = FOLDER / "out/callboard_tests"
CLOCK = TOP / "crates/clock/out/clock"
LIBRARY = TOP / "out/library"
ARCHIVE = LIBRARY / "libcallauction.a"


class NotBuiltError(Exception):
    """There is no built program, or no built tests or library, for the reason in its text."""


def newest_source() -> float:
    """When a file that the program or the library is built from was last changed, in seconds since
    1970.
    """
    files = [TOP / "crates.txt", TOP / "library/build", *(TOP / "library").glob("*.[ch]*")]
    for part in ("src", "specs", "proofs"):
        files += (TOP / "crates").glob(f"*/{part}/**/*")
    return max(file.stat().st_mtime for file in files if file.is_file())


def is_current(file: pathlib.Path) -> bool:
    """Whether this built file is there and no source is newer."""
    return file.is_file() and file.stat().st_mtime >= newest_source()


def words_of(file: pathlib.Path) -> list[str]:
    """The command that proves and builds PROGRAM, TESTS, CLOCK or ARCHIVE."""
    if file == ARCHIVE:
        return [str(TOP / "library/build"), str(LIBRARY)]
    if file == TESTS:
        return ["env", "-C", str(FOLDER), "rt", "test"]
    if file == CLOCK:
        return ["env", "-C", str(CLOCK.parent.parent), "rt", "run"]
    return [sys.executable, str(TOP / "build/program.py")]


def made(file: pathlib.Path, begin: float) -> None:
    """What was built since this time, of the sources as they were then: one that was changed
    meanwhile is newer. Raises NotBuiltError where the file isn't there.
    """
    if not file.is_file():
        raise NotBuiltError(f"{file.name} was not built")
    os.utime(file, (begin, begin))


def ensure(file: pathlib.Path) -> str:
    """The path of PROGRAM, TESTS, CLOCK or ARCHIVE, which is proved and built here unless a build
    newer than all sources is there. Raises NotBuiltError where that fails.
    """
    if not is_current(file):
        begin = time.time()
        words = words_of(file)
        ran = subprocess.run(words, stdin=subprocess.DEVNULL, capture_output=True, text=True)
        if ran.returncode != 0:
            last = " / ".join((ran.stdout + ran.stderr).strip().splitlines()[-3:])
            raise NotBuiltError(f"{words[-1]} built no {file.name}: {last}")
        made(file, begin)
    return str(file)


def ensure_library() -> str:
    """The folder of the built library, as ensure() has its archive. Raises NotBuiltError."""
    ensure(ARCHIVE)
    return str(LIBRARY)

"""A venue one of whose logs can be held: while FOLDER/NAME.hold is there, NAME isn't written, as on
a disk that is slow. `python3 held.py WORDS` is `python3 -m callauction.venue WORDS`.
"""
import contextlib
import pathlib
import runpy
import subprocess
import sys
import time
from collections.abc import Iterator

HERE = pathlib.Path(__file__).resolve()
sys.path.insert(0, str(HERE.parent))  # also where PYTHONSAFEPATH is set

import served  # noqa: E402
from callauction.venue.log import Log  # noqa: E402

PAUSE = 0.01
LOG, SENT = "venue.log", "fix.sent"
"""The log of what members said, and that of what sessions were sent."""


def hold_of(log: pathlib.Path) -> pathlib.Path:
    """The file that holds a log while it is there."""
    return log.with_name(f"{log.name}.hold")


@contextlib.contextmanager
def held_venue(*words: object) -> Iterator[served.Served]:
    """A venue whose logs can be held, once it listens, which is killed at the end."""
    command = [sys.executable, str(HERE), *map(str, words)]
    pipe, env = subprocess.PIPE, served.environment()
    child = subprocess.Popen(command, env=env, stdout=pipe, stderr=pipe, text=True)
    try:
        yield served.begun(child)
    finally:
        child.kill()
        child.communicate()


def main() -> None:
    """Runs the venue."""
    write = Log._write

    def wait_and_write(log: Log, data: bytes) -> None:
        """Writes once nothing holds the log."""
        while hold_of(log.path).exists():
            time.sleep(PAUSE)
        write(log, data)

    setattr(Log, "_write", wait_and_write)
    runpy.run_module("callauction.venue", run_name="__main__", alter_sys=True)


if __name__ == "__main__":
    main()

"""Venues on a machine with a small disk, or with a clock that is set."""
import contextlib
import pathlib
import subprocess
import sys
from collections.abc import Iterator

import served
from served import Served

ON_SMALL_DISK = """
set -e
folder=$1 journal=$2 size=$3; shift 3
mkdir -p "$folder/venue" "$folder/small"
mount -t tmpfs -o "size=$size,mode=0700" tmpfs "$folder/small"
if [ "$journal" = journal ]; then
    touch "$folder/small/journal" "$folder/venue/XYZ.journal.csv"
    mount --bind "$folder/small/journal" "$folder/venue/XYZ.journal.csv"
else
    mount --bind "$folder/small" "$folder/venue"
fi
exec "$@"
"""
"""Runs a command where a small disk has the journal alone, or the whole folder of the venue."""
JUMPING = """
import pathlib, sys, time

real, jump = time.time, pathlib.Path({path!r})
time.time = lambda: real() + (float(jump.read_text()) if jump.exists() else 0)
from callauction.venue.__main__ import main
sys.exit(main())
"""
"""A venue on a machine whose clock is set by as many seconds as a file says, once it is there."""


@contextlib.contextmanager
def on_a_clock(folder: pathlib.Path, day: str) -> Iterator[Served]:
    """A venue whose clock is set by the file `jump`."""
    (folder / "day.toml").write_text(day)
    words = ["--day", folder / "day.toml", "--folder", folder / "venue"]
    words += ["--port", served.free_port()]
    text, pipe = JUMPING.format(path=str(folder / "jump")), subprocess.PIPE
    with subprocess.Popen(
        [sys.executable, "-c", text, *map(str, words)],
        env=served.environment(),
        stdout=pipe,
        stderr=pipe,
        text=True,
    ) as child:
        try:
            found = served.begun(child)
            yield found
            found.end()
        finally:
            child.kill()

#!/usr/bin/env python3
"""Runs the program's code without any proof: `build/unproved.py [OPTIONS] < ORDERS`.

The toolchain compiles the code as it is, with checks at run time, in a minute or two, and keeps
nothing. Standard output, the status and the program's own lines on standard error are those of the
program; a first line on standard error says that the run is unproved. An input of more than 65,536
bytes is refused, as such a run has 60 seconds and may print 1 MiB, and so is --live, as all of the
input is read before the run begins. The status is 3 where nothing could be run.
"""
import pathlib
import re
import shutil
import subprocess
import sys

FOLDER = pathlib.Path(__file__).resolve().parent.parent / "crates/callboard"
MOST_BYTES = 65_536
ENDED = re.compile(rb"^checked: ended status=(\d+)\n", re.MULTILINE)


def say(text: str) -> None:
    """A line on standard error."""
    print(f"callboard: {text}", file=sys.stderr, flush=True)


def main() -> int:
    if shutil.which("rt") is None:
        say("there is no rt: put the toolchain on the path")
        return 3
    if "--live" in sys.argv:
        say("an unproved run reads its whole input first, so --live wants the built program")
        return 3
    if sys.stdin.isatty():
        say("reads order records from the terminal; end them with Ctrl-D")
    given = sys.stdin.buffer.read(MOST_BYTES + 1)
    if len(given) > MOST_BYTES:
        say(f"an unproved run takes at most {MOST_BYTES:,} bytes; build the program for more")
        return 3
    say(
        "this run is unproved: the code is compiled as it is, which takes a minute or two each "
        "time, since the toolchain keeps nothing of it"
    )
    run = subprocess.run(
        ["rt", "try", "--", *sys.argv[1:]], cwd=FOLDER, input=given, capture_output=True
    )
    sys.stdout.buffer.write(run.stdout)
    sys.stdout.flush()
    ended = ENDED.search(run.stderr)
    own = run.stderr[: ended.start()] if ended else run.stderr
    sys.stderr.buffer.write(own)
    return int(ended[1]) if ended else 3


if __name__ == "__main__":
    sys.exit(main())

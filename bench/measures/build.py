"""How long the first `./callboard` takes (build/program.py, `progress`) beside a plain `rt run`
(`plain`).

Each builds the program from nothing in a copy of the last commit, one after the other, so that
both have the same cores for themselves: run it on a quiet machine. What checks in other checkouts
of this machine have kept isn't used, and isn't touched: each crate of a copy has a folder of kept
work, with nothing in it, which the toolchain then takes in place of another checkout's, and its
text ends with a comment of the run's own, so that no library built elsewhere is of the same text.
Prints a row for each with its seconds, the seconds of the processor, what the machine's host took
of the cores meanwhile, and the load of the machine before and after, and at the end their ratio.
"""
import argparse
import contextlib
import dataclasses
import os
import pathlib
import resource
import secrets
import shutil
import subprocess
import sys
import tempfile
import time

import measuring
import tables

PLAIN = ["rt", "run"]
WAYS = ("progress", "plain")


@dataclasses.dataclass
class Built:
    """What a build took: seconds, seconds of the processor, and those that the host took."""

    seconds: float
    processor: float
    stolen: float


def stolen_seconds() -> float:
    """What the host has taken of the cores that may be used, in seconds of one; 0 if unknown."""
    cores = {f"cpu{core}" for core in os.sched_getaffinity(0)}
    ticks = 0
    with contextlib.suppress(OSError), open("/proc/stat", encoding="ascii") as table:
        for row in map(str.split, table):
            if row[0] in cores and len(row) > 8:
                ticks += int(row[8])
    return ticks / os.sysconf("SC_CLK_TCK")


def fresh_copy(to: pathlib.Path) -> None:
    """A copy of the last commit that begins from nothing, and that no other checkout can serve.

    Raises OSError, subprocess.CalledProcessError.
    """
    to.mkdir()
    words = ["git", "archive", "HEAD"]
    archive = subprocess.run(words, cwd=measuring.TOP, capture_output=True, check=True)
    subprocess.run(["tar", "-x"], cwd=to, input=archive.stdout, check=True)
    mark = f"\n// {secrets.token_hex(16)}\n"
    for crate in (to / "crates").iterdir():
        (crate / "out/incremental").mkdir(parents=True)
        for root in (crate / "src/lib.rt", crate / "src/main.rt"):
            if root.exists():
                root.write_text(root.read_text(encoding="utf-8") + mark, encoding="utf-8")


def build(way: str, copy: pathlib.Path) -> Built:
    """Builds the program so in a copy, with its output in build.log there.

    Raises OSError, subprocess.CalledProcessError.
    """
    program = copy / "crates/callboard"
    words, folder = PLAIN, program
    if way == "progress":
        words, folder = [sys.executable, str(copy / "build/program.py")], copy
    before = resource.getrusage(resource.RUSAGE_CHILDREN)
    begin, stolen = time.perf_counter(), stolen_seconds()
    with open(copy / "build.log", "wb") as log:
        subprocess.run(
            words,
            cwd=folder,
            stdin=subprocess.DEVNULL,
            stdout=log,
            stderr=subprocess.STDOUT,
            check=True,
        )
    seconds = time.perf_counter() - begin
    after = resource.getrusage(resource.RUSAGE_CHILDREN)
    if not (program / "out/callboard").exists():
        raise OSError(f"{copy}/build.log: no program was built")
    used = after.ru_utime + after.ru_stime - before.ru_utime - before.ru_stime
    return Built(seconds, used, stolen_seconds() - stolen)


def measured(way: str, room: pathlib.Path) -> Built:
    """Builds the program so in a copy of its own, and prints a row. Raises OSError,
    subprocess.CalledProcessError.
    """
    fresh_copy(room / way)
    load = os.getloadavg()[0]
    it = build(way, room / way)
    times = [f"{seconds:.0f}" for seconds in (it.seconds, it.processor, it.stolen)]
    cores = str(len(os.sched_getaffinity(0)))
    tables.row(way, cores, *times, f"{load:.1f}", f"{os.getloadavg()[0]:.1f}")
    return it


def measure(asked: argparse.Namespace) -> bool:
    if asked.cores:
        cores = sorted(os.sched_getaffinity(0))
        if not 1 <= asked.cores <= len(cores):
            sys.exit(f"bench: build: there are {len(cores)} cores")
        os.sched_setaffinity(0, cores[: asked.cores])
    room = pathlib.Path(tempfile.mkdtemp(prefix="callboard-build-"))
    columns = ["s", "processor, s", "the host took, s", "load before", "load after"]
    tables.head("build", "cores", *columns)
    found: dict[str, Built] = {}
    try:
        for way in [asked.way] if asked.way else WAYS:
            found[way] = measured(way, room)
    except (OSError, subprocess.CalledProcessError) as fault:
        print(f"bench: build: {fault}: see build.log in {room}", file=sys.stderr)
        return False
    if len(found) == len(WAYS):
        print(f"\nprogress : plain {found['progress'].seconds / found['plain'].seconds:.2f}")
    shutil.rmtree(room)
    return True

"""Answers to records as they come (`--live`).

Prints two tables. The first has for each file the milliseconds of its run and of the same records
through `--live` in bulk, which take turns, the processor's of both, how many times the run's that
takes, and the peak memory of both in MiB. The second has the microseconds of a round trip over two
pipes, from the sending of a record to its answer, of the program and of `cat`, which gives back
what it is sent: the mean of the best run, and of the middle one. All is right where both print the
same lines, and no file takes more than 1.5 times its run.
"""
import argparse
import os
import statistics
import subprocess
import tempfile
import time

import measuring
from measuring import File, Program
from tables import head, row

MOST_TIMES = 1.5
RECORD = b"1,ask\n"


def lines_of(command: list[str], file: File) -> bytes:
    """What a command prints for a file. Raises CalledProcessError."""
    with open(file.path, "rb") as stdin:
        run = subprocess.run(command, stdin=stdin, stdout=subprocess.PIPE, check=True)
    return run.stdout


def print_bulk(program: Program, files: list[File], runs: int) -> bool:
    """Prints what the files take in bulk. Whether the lines are the same, and none takes too
    much.
    """
    is_right = True
    names = ["its run", "--live in bulk"]
    columns = [f"{name}, ms" for name in names] + [f"{name}, processor" for name in names]
    head("file", *columns, "ratio", *[f"{name}, MiB" for name in names], "lines")
    for file in files:
        command = [*program.words, *file.words]
        live = [*command, "--live", "--reserve", "0"]
        is_same = lines_of(command, file) == lines_of(live, file)
        own, bulk = measuring.in_turns([command, live], file.path, runs)
        ratio = bulk.seconds / own.seconds
        is_right &= is_same and ratio <= MOST_TIMES
        figures = [own.milliseconds, bulk.milliseconds]
        figures += [own.processor_milliseconds, bulk.processor_milliseconds, f"{ratio:.2f}"]
        rooms = [f"{it.memory:.1f}" for it in (own, bulk)]
        row(file.kind, *figures, *rooms, "the same" if is_same else "others")
    return is_right


def round_trip(command: list[str], trips: int) -> float:
    """The mean seconds of a round trip. Raises OSError."""
    with subprocess.Popen(command, stdin=subprocess.PIPE, stdout=subprocess.PIPE) as child:
        assert child.stdin is not None and child.stdout is not None
        sending, answering = child.stdin.fileno(), child.stdout.fileno()
        begin = 0.0
        for trip in range(-100, trips):  # the first ones aren't counted
            if trip == 0:
                begin = time.perf_counter()
            os.write(sending, RECORD)
            answer = os.read(answering, 4096)
            while not answer.endswith(b"\n"):
                answer += os.read(answering, 4096)
        seconds = time.perf_counter() - begin
        child.stdin.close()
    return seconds / trips


def print_trips(program: Program, trips: int, runs: int) -> None:
    """Prints the microseconds of a round trip."""
    head("round trip over pipes", "best run, us", "middle run, us")
    commands = {"--live": [*program.words, *measuring.ROOM, "--live"], "cat": ["cat"]}
    found: dict[str, list[float]] = {name: [] for name in commands}
    for _ in range(runs):
        for name, command in commands.items():
            found[name].append(round_trip(command, trips) * 1e6)
    for name, times in found.items():
        row(name, f"{min(times):.1f}", f"{statistics.median(times):.1f}")


def measure(asked: argparse.Namespace) -> bool:
    program = measuring.our_program(asked.program)
    with tempfile.TemporaryDirectory() as folder:
        files = measuring.written(asked.count, asked.only, folder)
        is_right = print_bulk(program, files, asked.runs)
    print()
    print_trips(program, asked.trips, asked.runs)
    return is_right

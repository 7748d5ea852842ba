"""A market: the audit of all instruments with their prices, beside shells' ways to the same.

Each file is audited with its results, by a plain loop of the shell over bench/market_file.sh, by
one that audits it without them before (`two-runs`), by GNU parallel and by xargs over the first,
and by `python3 -m callauction.market audit`, from its start to its end, and without its start
(`run`; the processor's time is the whole's). The market is to take at most so many times what the
faster of the shells' ways takes with as many workers. Prints a table of these, what was wanted, and
a table of the splits with their peak memory. All is right where each found what
bench/write_market.py changed, and all is as wanted. --entries and --instruments name the market,
which is written to --keep where it isn't there. Needs Debian's python3-pandas, python3-tqdm and
parallel.
"""
import argparse
import csv
import dataclasses
import os
import pathlib
import random
import re
import resource
import shutil
import subprocess
import sys
import tempfile
import time

import measuring
import tables

sys.path.insert(0, str(measuring.TOP / "build"))

import debian  # noqa: E402

BENCH = measuring.TOP / "bench"
MODULES = ("pandas", "tqdm")

MOST_OF_SHELLS, LEAST_OF_TWICE, MOST_MEMORY = 1.15, 1.8, 1.2
"""What is wanted: times the time of the faster shell's way, times the speed with twice the workers,
and times the memory with four times the rows.
"""
SPLIT_INSTRUMENTS = 2_000
CLOSING = re.compile(r"instruments \d+, entries \d+, .* seconds ([\d.]+),")
LOOP = 'for file in "$1"/*.csv; do sh "$2" "$file"; done'
TWO_RUNS = (
    'for file in "$1"/*.csv; do "$CALLBOARD" --audit < "$file" > /dev/null; sh "$2" "$file"; done'
)
PARALLEL = 'printf "%s\\n" "$1"/*.csv | parallel --will-cite -j "$3" sh "$2" {}'
XARGS = 'printf "%s\\n" "$1"/*.csv | xargs -n 1 -P "$3" sh "$2"'
SHELLS = {"loop": LOOP, "two-runs": TWO_RUNS, "parallel": PARALLEL, "xargs": XARGS}


@dataclasses.dataclass(frozen=True)
class Task:
    """The files, where outputs go, the Python that has what is needed, and the environment that
    names the program.
    """

    files: pathlib.Path
    work: pathlib.Path
    interpreter: str
    environment: dict[str, str]


Times = tuple[float, float]
"""Seconds, and seconds of the processor."""
Best = dict[tuple[str, int], Times]
"""The best times, by what ran and the number of workers."""


def keep_best(best: Best, kind: str, workers: int, times: Times) -> None:
    known = best.get((kind, workers), times)
    best[kind, workers] = min(times[0], known[0]), min(times[1], known[1])


def processor_seconds() -> float:
    """What all children that have ended took of the processor."""
    usage = resource.getrusage(resource.RUSAGE_CHILDREN)
    return usage.ru_utime + usage.ru_stime


def run_shell(kind: str, workers: int, task: Task) -> Times:
    """The times of a shell's way, whose output goes to a file."""
    given = [str(task.files), str(BENCH / "market_file.sh"), str(workers)]
    words = ["bash", "-c", SHELLS[kind], kind, *given]
    begin, used = time.perf_counter(), processor_seconds()
    with open(task.work / f"{kind}.txt", "w", encoding="ascii") as out:
        subprocess.run(words, stdout=out, env=task.environment, check=True)
    return time.perf_counter() - begin, processor_seconds() - used


def run_market(workers: int, task: Task) -> tuple[Times, float]:
    """The times of the command from start to end, and the seconds that it prints itself."""
    words = [task.interpreter, "-m", "callauction.market", "audit", str(task.files)]
    words += ["--workers", str(workers), "-o", str(task.work / "market.csv")]
    begin, used = time.perf_counter(), processor_seconds()
    ran = subprocess.run(words, stdout=subprocess.PIPE, env=task.environment, text=True)
    times = time.perf_counter() - begin, processor_seconds() - used
    found = CLOSING.search(ran.stdout)
    if not found:
        sys.exit(f"bench: market: the audit ended with {ran.returncode}: {ran.stdout}")
    return times, float(found[1])


def measured(task: Task, counts: list[int], runs: int) -> Best:
    """The best times of each way, with each of these counts of workers."""
    best: Best = {}
    for _ in range(runs):
        for kind in ("loop", "two-runs"):
            keep_best(best, kind, 1, run_shell(kind, 1, task))
        for workers in counts:
            for kind in ("parallel", "xargs"):
                keep_best(best, kind, workers, run_shell(kind, workers, task))
            whole, inner = run_market(workers, task)
            keep_best(best, "market", workers, whole)
            keep_best(best, "run", workers, (inner, whole[1]))
    return best


def changed_in(task: Task) -> tuple[dict[str, tuple[int, int]], int]:
    """What the result says is unlawful: how many of each instrument and the first; and how many
    entries there are.
    """
    with open(task.work / "market.csv", encoding="ascii") as text:
        rows = list(csv.DictReader(text))
    found = {
        row["instrument"]: (int(row["unlawful"]), int(row["first_unlawful"]))
        for row in rows
        if row["unlawful"] not in ("", "0")
    }
    return found, sum(int(row["entries"] or 0) for row in rows)


def expected(task: Task) -> dict[str, tuple[int, int]]:
    """What bench/write_market.py changed."""
    lines = (task.files / "changed.txt").read_text(encoding="ascii").splitlines()
    return {name: (int(count), int(first)) for name, count, first in map(str.split, lines)}


def shells_agree(task: Task, entries: int) -> bool:
    """Whether each shell's way found as many entries, and as many instruments unlawful."""
    for kind in SHELLS:
        lines = (task.work / f"{kind}.txt").read_text(encoding="ascii").splitlines()
        counted = sum(int(line.split()[1]) for line in lines if line.startswith("entries "))
        bad = sum(line.startswith("audit bad") for line in lines)
        if (counted, bad) != (entries, len(expected(task))):
            print(f"{kind} found {counted} entries and {bad} unlawful instruments")
            return False
    return True


def seconds_of_shells(best: Best, workers: int) -> float:
    """The time of the faster of the shells' ways with this many workers."""
    return min(best[kind, workers][0] for kind in ("parallel", "xargs"))


def print_times(best: Best, entries: int) -> None:
    """Prints the table of what was measured."""
    columns = ["seconds", "processor, s", "entries a second", "times the shells'"]
    tables.head("workers", "what", *columns)
    for (kind, workers), (seconds, processor) in sorted(best.items(), key=lambda it: it[0][1]):
        cells = [f"{seconds:.2f}", f"{processor:.2f}", f"{entries / seconds:,.0f}"]
        times = f"{seconds / seconds_of_shells(best, workers):.2f}"
        tables.row(str(workers), kind, *cells, times)


def is_fast_enough(best: Best, counts: list[int]) -> bool:
    """Prints what was wanted of each count of workers: whether all was reached."""
    is_right = True
    for workers in counts:
        times = best["market", workers][0] / seconds_of_shells(best, workers)
        print(f"{times:.2f} of the shells' time with {workers} workers, {MOST_OF_SHELLS} wanted")
        is_right &= times <= MOST_OF_SHELLS
    return is_right


def is_wanted(best: Best, counts: list[int]) -> bool:
    """Prints what was wanted: whether it was reached."""
    once = best["loop", 1][0] / best["two-runs", 1][0]
    print(f"{once:.2f} of the time with two runs a file")
    is_right = is_fast_enough(best, counts)
    for few, many in zip(counts, counts[1:]):
        speed = best["run", few][0] / best["run", many][0]
        print(f"{speed:.2f} times the speed with {many} workers in place of {few}", end="")
        print(f", {LEAST_OF_TWICE} wanted on free cores" if many == 2 * few else "")
    if {1, 2} <= set(counts):
        is_right &= best["run", 1][0] / best["run", 2][0] >= LEAST_OF_TWICE
    return is_right


def write_table(path: pathlib.Path, rows: int) -> None:
    """Writes a table of orders of instruments in turn, by dice."""
    dice = random.Random(rows)
    with open(path, "w", encoding="ascii") as out:
        out.write("instrument,member,command,side,quantity,limit,reply\n")
        for place in range(rows):
            side, tick = ("bid", "ask")[place & 1], dice.randrange(1, 1_001)
            name = dice.randrange(SPLIT_INSTRUMENTS)
            out.write(f"I{name:05},{place & 3},enter,{side},{place % 900 + 1},{tick},\n")


def split_table(rows: int, task: Task) -> tuple[float, float]:
    """Splits a table of `rows` rows: the seconds, and the peak memory in MiB."""
    table, figures = task.work / "table.csv", task.work / "figures"
    write_table(table, rows)
    measured = [sys.executable, measuring.TOP / "checks/measured.py", figures]
    split = [task.interpreter, "-m", "callauction.market", "split", table]
    run = [*map(str, [*measured, *split, "--into", task.work / "split"])]
    subprocess.run(run, env=task.environment, stdout=subprocess.DEVNULL, check=True)
    seconds, _, peak = map(float, figures.read_text(encoding="ascii").split())
    shutil.rmtree(task.work / "split")
    return seconds, peak / 1024


def print_splits(rows: int, task: Task) -> bool:
    """Prints what splitting takes: whether the memory stays."""
    tables.head("rows", "seconds", "rows a second", "MiB")
    peaks = []
    for count in (rows // 4, rows // 2, rows):
        seconds, peak = split_table(count, task)
        tables.row(f"{count:,}", f"{seconds:.1f}", f"{count / seconds:,.0f}", f"{peak:.0f}")
        peaks.append(peak)
    times = peaks[-1] / peaks[0]
    print(f"{times:.2f} times the memory for four times the rows, {MOST_MEMORY} wanted")
    return times <= MOST_MEMORY


def ready(asked: argparse.Namespace, work: pathlib.Path) -> Task:
    """The files, written where they aren't there, and read once."""
    interpreter = debian.python_with(MODULES)
    program = measuring.our_program(asked.program).words[0]
    environment = os.environ | {
        "CALLBOARD": os.path.abspath(program),
        "PYTHONPATH": str(work),
        "LC_ALL": "C",
    }
    shutil.copytree(measuring.TOP / "python/callauction", work / "callauction")
    environment.pop("PYTHONDONTWRITEBYTECODE", None)  # a package is compiled when it is installed
    files: pathlib.Path = asked.keep / f"{asked.instruments}-{asked.entries}"
    if not files.is_dir():
        words = [BENCH / "write_market.py", files, "--instruments", asked.instruments]
        words += ["--entries", asked.entries]
        subprocess.run([interpreter, *map(str, words)], env=environment, check=True)
    for file in files.glob("*.csv"):
        file.read_bytes()
    return Task(files, work, interpreter, environment)


def measure(asked: argparse.Namespace) -> bool:
    lacking = [tool for tool in ("parallel", "xargs") if not shutil.which(tool)]
    if lacking:
        sys.exit(f"bench: market: there is no {lacking[0]}; Debian has it")
    counts = sorted(map(int, asked.workers.split(",")))
    with tempfile.TemporaryDirectory() as work:
        task = ready(asked, pathlib.Path(work))
        best = measured(task, counts, asked.runs)
        found, entries = changed_in(task)
        print_times(best, entries)
        is_right = found == expected(task) and shells_agree(task, entries)
        print("\nall found what was changed" if is_right else "\nnot all found what was changed")
        is_right &= is_wanted(best, counts)
        if asked.rows:
            print()
            is_right &= print_splits(asked.rows, task)
    return is_right

"""Sessions that keep a journal (`--live --journal FILE`).

Prints two tables. The first has the answers a second, to records one by one over pipes and to a
file in bulk, without a journal, with one that isn't synced and with one that is, and how many times
the time without a journal those take; and the syncs a second of the journals' folder, each of a
line that is written over zeros. The second has the milliseconds of a session that goes on with the
journal of that file and has no record to answer, beside an audit of it, and the peak memory of both
in MiB. All that is compared takes turns. All is right where a session prints the same lines with
and without a journal, its journal is the one that a run of the file prints, a journal that isn't
synced takes no more than 1.3 times the time without one, and going on with it no more than 1.3
times its audit.
"""
import argparse
import os
import pathlib
import tempfile
import time

import measuring
from measures import live, run
from measuring import Measured, Program
from tables import head, row

KIND = "mixed-1000"
MOST_TIMES_UNSYNCED = 1.3
MOST_TIMES_AUDIT = 1.3
LINE = b"1,ask,no price bid - ask -\n"
SYNCS = 2_000
NAMES = ["--live", "--sync none", "--journal"]
QUIET = ["/bin/sh", "-c", 'exec "$0" "$@" 2> /dev/null']
"""Before each command: a session with a journal says on standard error how many entries it has."""


def syncs_a_second(folder: pathlib.Path) -> float:
    """How many lines a second are each written over zeros and synced. Raises OSError."""
    with open(folder / "syncs", "wb", buffering=0) as file:
        file.write(bytes(SYNCS * len(LINE)))
        os.fsync(file.fileno())
        begin = time.perf_counter()
        for place in range(SYNCS):
            os.pwrite(file.fileno(), LINE, place * len(LINE))
            os.fdatasync(file.fileno())
        return SYNCS / (time.perf_counter() - begin)


def sessions(program: Program, words: list[str], kept: pathlib.Path) -> list[list[str]]:
    """The commands of a session without a journal, with one that isn't synced, and with one that
    is.
    """
    alone = [*QUIET, *program.words, *words, "--live", "--reserve", "0"]
    journal = [*alone, "--journal", str(kept)]
    return [alone, [*journal, "--sync", "none"], journal]


def is_kept(commands: list[list[str]], file: measuring.File, printed: bytes) -> bool:
    """Whether all sessions print the same lines, and a journal is what was printed as the file's.
    Raises CalledProcessError and OSError.
    """
    kept = pathlib.Path(commands[2][-1])
    lines = live.lines_of(commands[0], file)
    is_same = True
    for command in commands[1:]:
        kept.unlink(missing_ok=True)
        is_same &= live.lines_of(command, file) == lines and kept.read_bytes() == printed
    return is_same


def print_answers(
    program: Program, file: measuring.File, kept: pathlib.Path, trips: int, runs: int
) -> bool:
    """Prints the answers a second. Whether a journal that isn't synced takes no more than it may.
    Raises CalledProcessError and OSError.
    """
    one_by_one = [float("inf")] * len(NAMES)
    bulk = [Measured() for _ in NAMES]
    syncs = 0.0
    for _ in range(runs):
        syncs = max(syncs, syncs_a_second(kept.parent))
        for place, command in enumerate(sessions(program, measuring.ROOM, kept)):
            kept.unlink(missing_ok=True)
            one_by_one[place] = min(one_by_one[place], live.round_trip(command, trips))
        for place, command in enumerate(sessions(program, file.words, kept)):
            kept.unlink(missing_ok=True)
            bulk[place] = bulk[place].best(measuring.once(command, file.path))
    with open(file.path, "rb") as records:
        count = sum(1 for _ in records)
    ways = {"one by one": one_by_one, "in bulk": [it.seconds / count for it in bulk]}
    columns = [f"{name}, answers a second" for name in NAMES]
    head("records", *columns, *[f"{name} : {NAMES[0]}" for name in NAMES[1:]], "at most", "syncs")
    is_right = True
    for way, seconds in ways.items():
        ratios = [it / seconds[0] for it in seconds[1:]]
        is_right &= ratios[0] <= MOST_TIMES_UNSYNCED
        rates = [f"{1 / it:,.0f}" for it in seconds]
        cells = [f"{ratio:.2f}" for ratio in ratios]
        row(way, *rates, *cells, f"{MOST_TIMES_UNSYNCED}", f"{syncs:,.0f}")
    return is_right


def print_going_on(
    program: Program, file: measuring.File, journal: pathlib.Path, runs: int
) -> bool:
    """Prints what it takes to go on with a journal, beside its audit. Whether that is no more than
    it may be.
    """
    audit = [*QUIET, *program.words, "--audit"]
    going_on = sessions(program, file.words, journal)[2]
    nothing = pathlib.Path(os.devnull)
    own = Measured(memory=measuring.peak_memory(audit, journal))
    other = Measured(memory=measuring.peak_memory(going_on, nothing))
    for _ in range(runs):
        own = own.best(measuring.once(audit, journal))
        other = other.best(measuring.once(going_on, nothing))
    ratio = other.seconds / own.seconds
    with open(journal, "rb") as lines:
        entries = sum(1 for _ in lines) - 1
    columns = ["--audit, ms", "going on, ms", "--audit, processor", "going on, processor"]
    head("entries", *columns, "ratio", "at most", "--audit, MiB", "going on, MiB")
    figures = [own.milliseconds, other.milliseconds]
    figures += [own.processor_milliseconds, other.processor_milliseconds, f"{ratio:.2f}"]
    rooms = [f"{it.memory:.1f}" for it in (own, other)]
    row(f"{entries:,}", *figures, f"{MOST_TIMES_AUDIT}", *rooms)
    return ratio <= MOST_TIMES_AUDIT


def measure(asked: argparse.Namespace) -> bool:
    program = measuring.our_program(asked.program)
    out = measuring.TOP / "out"  # on the disk, where a folder for temporary files may be in memory
    out.mkdir(exist_ok=True)
    with tempfile.TemporaryDirectory(dir=out) as folder:
        [file] = measuring.written(asked.count, KIND, folder)
        kept = pathlib.Path(folder) / "kept.csv"
        journal = run.journal_of([*program.words, *file.words], file.path, folder)
        commands = sessions(program, file.words, kept)
        is_right = is_kept(commands, file, journal.read_bytes())
        print("lines and journal:", "the same" if is_right else "OTHERS", end="\n\n")
        is_right &= print_answers(program, file, kept, asked.trips, asked.runs)
        print()
        is_right &= print_going_on(program, file, journal, asked.runs)
    return is_right

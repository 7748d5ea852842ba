"""The program on order files, beside csv's bare loop and peers.

A peer (`--peer NAME=COMMAND`) is any other program that takes the same options and reads the same
files. Prints five tables. The first counts the replies of each file by what they are, and names the
peers that print other lines. The second has for each file the milliseconds of each (the best run;
all take turns), the wall's and the processor's, with `csv` for `clock records`, which reads each
record by the toolchain's `csv` and does nothing with it. The third has how many times each peer's
processor time ours takes, and how many times ours less csv's takes. The fourth has the peak memory
of each in MiB, and the instructions a command (by callgrind, on a file of 20,000 commands, the
empty file's taken off, where valgrind is installed). The fifth has the program alone, in other
forms than lines, beside the file's own run; an audit reads the journal that the program made of
the file. All is right where all print the same lines, no command was refused, and no form takes
more than it may.
"""
import argparse
import collections
import hashlib
import os
import pathlib
import re
import shutil
import subprocess
import sys
import tempfile

import measuring
from measuring import File, Measured, Program
from tables import head, row

COMMANDS_OF_INSTRUCTIONS = 20_000
FORMS = [("mixed-1000", "journal", 1.4), ("mixed-1000", "audit", 1.6), ("ladder", "book", 1.5)]
"""A kind of file, what is asked of it, and how many times the file's own run that may take."""
KINDS = {
    "entered": "entered",
    "changed": "changed",
    "deleted": "deleted",
    "price": "prices shown",
    "no": "best limits shown",
    "trade": "trades told",
    "opening": "uncrosses",
    "intraday": "uncrosses",
    "closing": "uncrosses",
    "refused": "refused",
}
COLUMNS = [*dict.fromkeys(KINDS.values())]


def answers(command: list[str], path: pathlib.Path) -> tuple[collections.Counter[str], str]:
    """The replies to a file, counted by what they are, and a hash of all lines."""
    counts: collections.Counter[str] = collections.Counter()
    made = hashlib.sha256()
    with open(path, encoding="ascii") as stdin:
        with subprocess.Popen(command, stdin=stdin, stdout=subprocess.PIPE) as child:
            assert child.stdout is not None
            for line in child.stdout:
                made.update(line)
                word = line.split(b": ", 1)[-1].split(maxsplit=1)[0].decode("ascii", "replace")
                counts[KINDS.get(word, word)] += 1
    return counts, made.hexdigest()


def instructions(command: list[str], path: pathlib.Path | None) -> int:
    """The instructions of a run on a file, or on no bytes, as callgrind counts them."""
    tool = ["valgrind", "--tool=callgrind", "--callgrind-out-file=/dev/null"]
    with open(path or os.devnull, encoding="ascii") as stdin:
        run = subprocess.run(
            [*tool, *command],
            stdin=stdin,
            stdout=subprocess.DEVNULL,
            stderr=subprocess.PIPE,
            text=True,
            check=True,
        )
    found = re.search(r"Collected : (\d+)", run.stderr)
    if not found:
        sys.exit(f"valgrind counted nothing of {command[0]}")
    return int(found[1])


def instructions_of_a_command(command: list[str], path: pathlib.Path) -> str:
    """The instructions a command, the empty file's taken off; empty where there is no valgrind."""
    if shutil.which("valgrind") is None:
        return ""
    with open(path, encoding="ascii") as records:
        count = sum(1 for _ in records)
    return f"{(instructions(command, path) - instructions(command, None)) / count:,.0f}"


def print_replies(programs: list[Program], files: list[File]) -> bool:
    """Prints how each file is answered. Whether all programs print the same, and nothing is
    refused.
    """
    is_right = True
    head("file", "commands", *COLUMNS, "other lines")
    for file in files:
        found = [answers([*program.words, *file.words], file.path) for program in programs]
        counts, lines = found[0]
        others = [program.name for program, (_, theirs) in zip(programs, found) if theirs != lines]
        cells = [f"{counts[column]:,}" for column in COLUMNS]
        row(file.kind, f"{sum(counts.values()):,}", *cells, ", ".join(others) or "none")
        is_right &= not others and counts["refused"] == 0
    return is_right


def print_times(
    loop: Program, programs: list[Program], files: list[File], runs: int
) -> list[list[Measured]]:
    """Prints what csv's loop and each program take for each file. Gives what was measured, a list
    a file, the loop's first.
    """
    names = [program.name for program in [loop, *programs]]
    head("file", *[f"{name}, ms" for name in names], *[f"{it}, processor" for it in names])
    found: list[list[Measured]] = []
    for file in files:
        commands = [loop.words, *[[*program.words, *file.words] for program in programs]]
        found.append(measuring.in_turns(commands, file.path, runs))
        walls = [it.milliseconds for it in found[-1]]
        row(file.kind, *walls, *[it.processor_milliseconds for it in found[-1]])
    return found


def print_ratios(
    programs: list[Program], files: list[File], found: list[list[Measured]]
) -> None:
    """Prints how many times each peer's processor time the program takes, whole and less csv's."""
    ours, *peers = [program.name for program in programs]
    whole = [f"{ours} : {peer}" for peer in peers]
    head("file", f"{ours} : csv", *whole, *[f"{ours} less csv : {peer}" for peer in peers])
    for file, (loop, own, *others) in zip(files, found):
        ratios = [own.processor / other.processor for other in [loop, *others]]
        ratios += [(own.processor - loop.processor) / other.processor for other in others]
        row(file.kind, *[f"{ratio:.2f}" for ratio in ratios])


def print_room(
    programs: list[Program], files: list[File], found: list[list[Measured]], folder: str
) -> None:
    """Prints the peak memory that was measured of each program on each file, and counts the
    instructions a command.
    """
    names = [program.name for program in programs]
    head("file", *[f"{name}, MiB" for name in names], *[f"{it}, instructions" for it in names])
    for file, (_, *all_measured) in zip(files, found):
        short = measuring.write(file.kind, COMMANDS_OF_INSTRUCTIONS, folder)
        counts = [
            instructions_of_a_command([*program.words, *file.words], short) for program in programs
        ]
        row(file.kind, *[f"{measured.memory:.1f}" for measured in all_measured], *counts)


def journal_of(command: list[str], path: pathlib.Path, folder: str) -> pathlib.Path:
    """Writes the journal of a file, and gives its path. Raises CalledProcessError."""
    made = pathlib.Path(folder) / f"{path.stem}.journal.csv"
    with open(path, "rb") as stdin, open(made, "wb") as stdout:
        subprocess.run([*command, "--print", "journal"], stdin=stdin, stdout=stdout, check=True)
    return made


def print_forms(program: Program, files: list[File], runs: int, folder: str) -> bool:
    """Prints what the program takes for other forms than lines. Whether none takes more than it
    may.
    """
    is_right = True
    head("file", "form", "ms", "processor", "the file's own run, ms", "ratio", "at most", "MiB")
    for kind, form, most in FORMS:
        for file in [file for file in files if file.kind == kind]:
            own, other = measured_form(program, file, form, runs, folder)
            ratio = other.seconds / own.seconds
            is_right &= ratio <= most
            figures = other.milliseconds, other.processor_milliseconds, own.milliseconds
            row(kind, form, *figures, f"{ratio:.2f}", f"{most}", f"{other.memory:.1f}")
    return is_right


def measured_form(
    program: Program, file: File, form: str, runs: int, folder: str
) -> tuple[Measured, Measured]:
    """What a file's own run takes, and what this form of it takes in turns with it."""
    command = [*program.words, *file.words]
    asked, source = [*command, "--print", form], file.path
    if form == "audit":
        asked, source = [*program.words, "--audit"], journal_of(command, file.path, folder)
    own, other = Measured(), Measured(memory=measuring.peak_memory(asked, source))
    for _ in range(runs):
        own = own.best(measuring.once(command, file.path))
        other = other.best(measuring.once(asked, source))
    return own, other


def measure(asked: argparse.Namespace) -> bool:
    ours = measuring.our_program(asked.program)
    loop = Program("csv", [measuring.our_clock(asked.clock), "records"])
    programs = [ours, *asked.peer]
    with tempfile.TemporaryDirectory() as folder:
        files = measuring.written(asked.count, asked.only, folder)
        is_right = print_replies(programs, files)
        print()
        found = print_times(loop, programs, files, asked.runs)
        print()
        print_ratios(programs, files, found)
        print()
        print_room(programs, files, found, folder)
        print()
        is_right &= print_forms(ours, files, asked.runs, folder)
    return is_right

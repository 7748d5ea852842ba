"""What the measures share: the files, and what a command takes."""
import argparse
import dataclasses
import os
import pathlib
import re
import shlex
import shutil
import subprocess
import sys
import tempfile

import orders

TOP = pathlib.Path(__file__).resolve().parent.parent
MOST_COMMANDS = 1_000_000
ROOM = ["--open", "65536", "--calls", "1048576"]
FILES = [
    ("mixed-1000", MOST_COMMANDS, ROOM),
    ("mixed-65536", MOST_COMMANDS, ["--high", "65536", *ROOM]),
    ("trading", 65_535, ROOM),
    ("asks", MOST_COMMANDS, ROOM),
    ("ladder", 131_075, ["--high", "65536", *ROOM]),
]
"""Each kind of file, how many commands it has at most, and the options that it is run with."""
KINDS = [kind for kind, _, _ in FILES]


@dataclasses.dataclass(frozen=True)
class Program:
    """A program that reads order files: its name in the tables, and the words of its command."""

    name: str
    words: list[str]


@dataclasses.dataclass(frozen=True)
class Measured:
    """What was measured of a command: the best seconds, the best seconds of the processor, the
    peak memory in MiB.
    """

    seconds: float = float("inf")
    processor: float = float("inf")
    memory: float = 0.0

    def best(self, other: "Measured") -> "Measured":
        """The better times of the two, and the greater memory."""
        return Measured(
            min(self.seconds, other.seconds),
            min(self.processor, other.processor),
            max(self.memory, other.memory),
        )

    @property
    def milliseconds(self) -> str:
        """The wall's, as it is printed in a table."""
        return f"{self.seconds * 1000:.0f}"

    @property
    def processor_milliseconds(self) -> str:
        """The processor's, as it is printed in a table."""
        return f"{self.processor * 1000:.0f}"


@dataclasses.dataclass(frozen=True)
class File:
    """A kind of file, where it lies, and the options that it is run with."""

    kind: str
    path: pathlib.Path
    words: list[str]


def program_of(text: str) -> Program:
    """A program as it is named on the command line: `NAME=COMMAND`, or a command alone, which is
    then named by its file and its words. Raises ArgumentTypeError where there is no such program.
    """
    named = re.fullmatch(r"([\w ,-]+)=(.*)", text)
    words = shlex.split(named[2] if named else text)
    if not words or shutil.which(words[0]) is None:
        raise argparse.ArgumentTypeError(f"'{text}' names no program")
    name = named[1] if named else " ".join([pathlib.Path(words[0]).name, *words[1:]])
    return Program(name, words)


def write(kind: str, count: int, folder: str) -> pathlib.Path:
    """Writes a file of `count` commands, and gives its path."""
    path = pathlib.Path(folder) / f"{kind}-{count}.csv"
    with open(path, "w", encoding="ascii") as out:
        out.writelines(line + "\n" for line in orders.records(kind, count))
    return path


def written(most: int, kind_alone: str | None, folder: str) -> list[File]:
    """Writes the files, of at most `most` commands each, or one of them alone."""
    return [
        File(kind, write(kind, min(count, most), folder), words)
        for kind, count, words in FILES
        if kind_alone in (None, kind)
    ]


def once(command: list[str], path: pathlib.Path) -> Measured:
    """Runs a command on a file, and gives its times. Exits where the command fails."""
    with open(path, encoding="ascii") as stdin, tempfile.NamedTemporaryFile("r") as figures:
        words = [sys.executable, str(TOP / "checks/measured.py"), figures.name, *command]
        status = subprocess.run(words, stdin=stdin, stdout=subprocess.DEVNULL, check=False)
        if status.returncode != 0:
            sys.exit(f"{command[0]} ended with {status.returncode} on {path.name}")
        seconds, processor, _ = map(float, figures.read().split())
    return Measured(seconds, processor)


def peak_memory(command: list[str], path: pathlib.Path) -> float:
    """Runs a command on a file, and gives its peak memory in MiB. Exits where the command fails, or
    GNU time isn't installed.

    GNU time starts it: a child begins with the peak memory of what starts it, which is 10 MiB of
    a program in Python, and of GNU time one or two.
    """
    if shutil.which("time") is None:
        sys.exit("there is no GNU time: Debian has it in time")
    with open(path, encoding="ascii") as stdin, tempfile.NamedTemporaryFile("r") as figures:
        words = ["time", "--format", "%M", "--output", figures.name, *command]
        status = subprocess.run(words, stdin=stdin, stdout=subprocess.DEVNULL, check=False)
        if status.returncode != 0:
            sys.exit(f"{command[0]} ended with {status.returncode} on {path.name}")
        return int(figures.read()) / 1024


def in_turns(commands: list[list[str]], path: pathlib.Path, runs: int) -> list[Measured]:
    """Runs commands on a file in turns, `runs` times each, and gives what each took."""
    found = [Measured(memory=peak_memory(command, path)) for command in commands]
    for _ in range(runs):
        found = [it.best(once(command, path)) for it, command in zip(found, commands)]
    return found


def our_program(path: str | None) -> Program:
    """The program, at this path, or proved and built. Raises CalledProcessError where it can't
    be.
    """
    if not path:
        subprocess.run([str(TOP / "callboard"), "--help"], stdout=subprocess.DEVNULL, check=True)
    return Program("ours", [path or str(TOP / "crates/callboard/out/callboard")])


def our_clock(path: str | None) -> str:
    """The program of crates/clock, at this path, or proved and built. Exits where it isn't
    proved.
    """
    if path:
        return path
    print("proving and building clock, which takes minutes at first", file=sys.stderr)
    made = subprocess.run(
        ["rt", "run"],
        cwd=TOP / "crates/clock",
        stdin=subprocess.DEVNULL,
        stdout=subprocess.PIPE,
        stderr=subprocess.STDOUT,
        text=True,
        check=False,
    )
    if made.returncode != 0:
        sys.exit(f"{made.stdout}clock isn't proved")
    return str(TOP / "crates/clock/out/clock")


def our_library(path: str | None) -> pathlib.Path:
    """The built library, at this path, or proved and built. Raises CalledProcessError."""
    if path:
        return pathlib.Path(path).resolve()
    print("proving and building the library, which takes minutes at first", file=sys.stderr)
    made = TOP / "out/library"
    subprocess.run([str(TOP / "library/build"), str(made)], check=True, stdout=sys.stderr)
    return made


def compiled(source: str, library: pathlib.Path, folder: str) -> str:
    """Compiles a program of this folder with the library. Raises CalledProcessError."""
    made = str(pathlib.Path(folder) / pathlib.Path(source).stem)
    words = ["cc", "-std=c11"] if source.endswith(".c") else ["c++", "-std=c++17"]
    words += ["-D_POSIX_C_SOURCE=200809L", "-O2", "-Wall", "-Wextra"]
    words += [f"-I{library}", str(TOP / "bench" / source), str(library / "libcallauction.a")]
    subprocess.run([*words, "-pthread", "-o", made], check=True)
    return made


Figures = dict[str, list[float]]
"""What was printed in all runs, by its name."""


def collect_figures(
    command: list[str], found: Figures, environment: dict[str, str] | None = None, units: int = 0
) -> None:
    """Runs a command that prints lines `NAME.. NUMBER`, with `units` words after the number, and
    keeps its numbers. Raises CalledProcessError.
    """
    run = subprocess.run(
        command, stdout=subprocess.PIPE, text=True, check=True, env=environment
    )
    for line in run.stdout.splitlines():
        words = line.split()
        *name, number = words[: len(words) - units]
        found.setdefault(" ".join(name), []).append(float(number))


def model_of_processor() -> str:
    """What the processor calls itself, empty where nobody says."""
    try:
        text = pathlib.Path("/proc/cpuinfo").read_text(encoding="utf-8", errors="replace")
    except OSError:
        return ""
    found = re.search(r"^model name\s*: (.*)$", text, re.MULTILINE)
    return found[1] if found else ""


def governor() -> str:
    """How the first core's clock is governed, `unknown` where the machine doesn't say."""
    path = pathlib.Path("/sys/devices/system/cpu/cpu0/cpufreq/scaling_governor")
    return path.read_text(encoding="ascii").strip() if path.is_file() else "unknown"


def state_of_machine() -> str:
    """A line on the machine at this moment: cores, load of the last minute, governor, model."""
    cores = len(os.sched_getaffinity(0))
    load, _, _ = os.getloadavg()
    model = model_of_processor() or "a processor without a name"
    return f"{cores} cores, load {load:.1f}, governor {governor()}, {model}"

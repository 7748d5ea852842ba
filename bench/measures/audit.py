"""The audit of an extract: a day of one instrument, the same with one trade changed, and a day of
many instruments, each beside bench/plain_audit.py.

Prints a table of the seconds, those of the processor and the peak memory, and what was wanted. All
is right where the lawful files are lawful, the changed trade is found, plain_audit agrees, and all
is as wanted. bench/write_extract.py writes the files. Needs what python/build needs, and Debian's
python3-pandas and python3-tqdm.
"""
import argparse
import dataclasses
import os
import pathlib
import re
import subprocess
import sys
import tempfile

import measuring
from tables import head, row

sys.path.insert(0, str(measuring.TOP / "build"))
sys.path.insert(0, str(measuring.TOP / "bench"))

import debian  # noqa: E402
import write_extract  # noqa: E402

MANY = 500
"""How many instruments there are, where there are many; they have a 38th more rows."""
REFERENCE = "20.050"
TERMS = ["--reference", REFERENCE, "--tick-size", "0.005"]
LAWFUL, UNLAWFUL = 0, 4
MOST_PROCESSOR, MOST_MEMORY, MOST_SECONDS = 6.0, 600.0, 9.0
"""What is wanted: seconds of the processor and MiB for one instrument, seconds for many."""


@dataclasses.dataclass(frozen=True)
class Taken:
    """What a command took at best: seconds, those of the processor, and MiB at its peak; and its
    last status and output.
    """

    seconds: float = float("inf")
    processor: float = float("inf")
    memory: float = 0.0
    status: int = 0
    text: str = ""

    def best(self, last: "Taken") -> "Taken":
        """The better times of the two, and what else the last one has."""
        seconds, processor = min(self.seconds, last.seconds), min(self.processor, last.processor)
        return dataclasses.replace(last, seconds=seconds, processor=processor)


def run(words: list[str], environment: dict[str, str]) -> Taken:
    """Runs a command once."""
    with tempfile.NamedTemporaryFile("r") as figures:
        command = [sys.executable, str(measuring.TOP / "checks/measured.py"), figures.name, *words]
        ran = subprocess.run(command, stdout=subprocess.PIPE, env=environment, text=True)
        seconds, processor, memory = map(float, figures.read().split())
    return Taken(seconds, processor, memory / 1024, ran.returncode, ran.stdout)


def with_a_changed_trade(path: pathlib.Path) -> pathlib.Path:
    """The extract with another bid in its last trade but one."""
    lines = path.read_text(encoding="ascii").splitlines()
    names = lines[0].split(",")
    trades = [place for place, line in enumerate(lines) if ",trade," in line]
    cells = lines[trades[-2]].split(",")
    cells[names.index("bid")] = lines[1].split(",")[names.index("order")]
    lines[trades[-2]] = ",".join(cells)
    changed = path.with_name("changed.csv")
    changed.write_text("\n".join([*lines, ""]), encoding="ascii")
    return changed


def is_right(name: str, ours: Taken, plain: Taken) -> bool:
    """Whether both found what is in a file."""
    if name == "changed":
        found = re.search(r"^findings (\d+)$", ours.text, re.MULTILINE)
        differs = plain.text != "differing 0\n"
        return ours.status == UNLAWFUL and found is not None and found[1] == "1" and differs
    return ours.status == LAWFUL and plain.text == "differing 0\n"


def measure(asked: argparse.Namespace) -> bool:
    interpreter = debian.python_with(("cffi", "numpy", "Python.h", "pandas", "tqdm"))
    library = measuring.our_library(asked.library)
    program = measuring.our_program(asked.program)
    with tempfile.TemporaryDirectory() as folder:
        package = f"{folder}/package"
        build = [str(measuring.TOP / "python/build"), str(library), package]
        subprocess.run(build, check=True, stdout=sys.stderr)
        environment = os.environ | {"PYTHONPATH": package, "CALLBOARD": program.words[0]}
        one, many = pathlib.Path(folder, "one.csv"), pathlib.Path(folder, "many.csv")
        write_extract.write(one, asked.extract)
        write_extract.write(many, asked.extract + asked.extract // 38, MANY)
        files = {"one": one, "changed": with_a_changed_trade(one), "many": many}
        return compared(files, interpreter, environment, asked.runs)


def compared(
    files: dict[str, pathlib.Path], interpreter: str, environment: dict[str, str], runs: int
) -> bool:
    """Prints the tables; answers whether all is right and as wanted."""
    good = True
    kinds = ("audit", "plain Python")
    head("file", "rows", *[f"{kind}, {it}" for kind in kinds for it in ("s", "processor", "MiB")])
    for name, path in files.items():
        ours, plain = Taken(), Taken()
        words = [interpreter, "-m", "callauction", "audit", str(path), *TERMS]
        words += ["--by", "isin"] * (name == "many")
        model = [interpreter, str(measuring.TOP / "bench/plain_audit.py"), str(path), REFERENCE]
        for _ in range(runs):
            ours = ours.best(run(words, environment))
            plain = plain.best(run(model, environment))
        count = path.read_bytes().count(b"\n") - 1
        row(name, f"{count:,}", *figures(ours), *figures(plain))
        good &= is_right(name, ours, plain)
        if name == "one":
            good &= ours.processor <= MOST_PROCESSOR and ours.memory <= MOST_MEMORY
        if name == "many":
            good &= ours.seconds <= MOST_SECONDS
    print(f"wanted: one at most {MOST_PROCESSOR} s of the processor and {MOST_MEMORY:.0f} MiB, ")
    print(f"many at most {MOST_SECONDS} s: {'reached' if good else 'not reached'}")
    return good


def figures(taken: Taken) -> list[str]:
    return [f"{taken.seconds:.1f}", f"{taken.processor:.1f}", f"{taken.memory:.0f}"]

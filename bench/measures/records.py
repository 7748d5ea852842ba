"""What reading records alone takes.

For each file these take turns: `clock records`, which reads each record through the toolchain's
`csv` and does nothing with it; the same loop over the crate `csv` (bench/csv_crate, built for the
same processor, x86-64-v2, over the crate as Debian has it: `apt-get install cargo
librust-csv-dev`); the program itself; and each peer, as `run` takes it. Prints for each the best of
the runs in milliseconds, the wall's and the processor's, and how many times the first's the
program takes. All is right where the two loops find the same number of records.
"""
import argparse
import os
import pathlib
import shutil
import subprocess
import sys
import tempfile

import measuring
import tables
from measuring import Program

REGISTRY = pathlib.Path("/usr/share/cargo/registry")
CRATE = measuring.TOP / "bench/csv_crate"


def crate_program(folder: str) -> str:
    """Builds the loop over the crate `csv` in this folder, and gives its path. Exits where cargo
    or the crate isn't there.
    """
    if shutil.which("cargo") is None or not any(REGISTRY.glob("csv-1.*")):
        sys.exit("bench: records: Debian has what it needs in cargo and librust-csv-dev")
    copy = pathlib.Path(folder) / "csv_crate"
    shutil.copytree(CRATE, copy)
    debian = [
        "source.crates-io.replace-with='debian'",
        f"source.debian.directory='{REGISTRY}'",
    ]
    subprocess.run(
        ["cargo", "build", "--release", "--offline", "--quiet"]
        + [word for line in debian for word in ("--config", line)],
        cwd=copy,
        env={**os.environ, "RUSTFLAGS": "-C target-cpu=x86-64-v2"},
        check=True,
    )
    return str(copy / "target/release/csv_records")


def found_by(program: Program, path: pathlib.Path) -> str:
    """What a loop prints of a file: how many records it found. Raises CalledProcessError."""
    with open(path, encoding="ascii") as stdin:
        run = subprocess.run(program.words, stdin=stdin, capture_output=True, check=True, text=True)
    return run.stdout.strip()


def measure(asked: argparse.Namespace) -> bool:
    is_right = True
    with tempfile.TemporaryDirectory() as folder:
        loops = [
            Program("csv", [measuring.our_clock(asked.clock), "records"]),
            Program("crate csv", [crate_program(folder)]),
        ]
        readers = [measuring.our_program(asked.program), *asked.peer]
        names = [program.name for program in [*loops, *readers]]
        columns = [f"{name}, ms" for name in names]
        tables.head("file", *columns, *[f"{name}, processor" for name in names], "ours : csv")
        for file in measuring.written(asked.count, asked.only, folder):
            one, other = [found_by(loop, file.path) for loop in loops]
            if one != other:
                print(f"{file.kind}: {one} by csv, {other} by the crate csv")
                is_right = False
            commands = [loop.words for loop in loops]
            commands += [[*reader.words, *file.words] for reader in readers]
            found = measuring.in_turns(commands, file.path, asked.runs)
            cells = [it.milliseconds for it in found]
            cells += [it.processor_milliseconds for it in found]
            ratio = found[2].processor / found[0].processor
            tables.row(file.kind, *cells, f"{ratio:.2f}")
    return is_right

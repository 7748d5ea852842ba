#!/usr/bin/env python3
"""Builds the library over what the gate proved: `checks/library_over_gate.py GATE FOLDER`.

GATE is the copy of the sources in which the gate runs (checks/gate.py), and FOLDER is where
library/build puts the library. Of the crates only that of the library itself is proved once more,
as the gate proves it and keeps nothing of it. Ends as what it runs does.
"""
import pathlib
import subprocess
import sys
import tempfile

import built

sys.path.insert(0, str(built.TOP / "build"))

import toolchain  # noqa: E402

HERE = pathlib.Path(__file__).resolve()
LIBRARY = "auction_c"
JOBS = "2"  # of the proof of the library's crate


def words(gate: pathlib.Path) -> list[str]:
    """The command that builds the library where it is usual, over what the gate in a folder proved.
    """
    return [sys.executable, str(HERE), str(gate), str(built.LIBRARY)]


def crates_below() -> list[str]:
    """The crates below the library's, lowest first. Raises OSError."""
    return [name for name in toolchain.crates_below(built.TOP, LIBRARY) if name != LIBRARY]


def archive_words(gate: pathlib.Path, archive: pathlib.Path) -> list[str]:
    """The command that proves and builds the library's crate over the libraries that the gate
    proved. Raises OSError, CalledProcessError.
    """
    crates = gate / "crates"
    found = toolchain.words(built.TOP, "build", LIBRARY, lambda it: crates / it / "out/rlib")
    found += ["--toolchain", f"{toolchain.kit()}/toolchain", "--backend", "llvm"]
    return [*found, "--jobs", JOBS, "-o", str(archive)]


def build(gate: pathlib.Path, folder: pathlib.Path) -> int:
    """Builds the library over what a gate proved: the status. Raises OSError, CalledProcessError.
    """
    with tempfile.TemporaryDirectory() as work:
        archive = pathlib.Path(work) / f"lib{LIBRARY}.a"
        proof = archive_words(gate, archive)
        proved = subprocess.run(proof, cwd=gate / "crates" / LIBRARY)
        if proved.returncode != 0:
            return proved.returncode
        packing = [str(built.TOP / "library/build"), "--archive", str(archive), str(folder)]
        return subprocess.run(packing).returncode


def main() -> int:
    """Builds it; answers the status."""
    if len(sys.argv) != 3:
        print(__doc__, file=sys.stderr)
        return 2
    return build(pathlib.Path(sys.argv[1]), pathlib.Path(sys.argv[2]))


if __name__ == "__main__":
    sys.exit(main())

#!/usr/bin/env python3
"""Runs the toolchain's gate on a copy of the sources: `checks/gate.py FOLDER [CRATE..]`.

`rt ci` keeps every other `rt` out of the crates that it proves, and sets aside what they have
built. In a copy it does so beside whatever works in the repository, and what is edited meanwhile
changes nothing. The copy has the files that git has or would add, in the folder, which mustn't be
there yet. The wrong bodies of the crates named are left out of it. Prints what `rt ci` prints, and
ends as it does.
"""
import os
import pathlib
import shutil
import sys

import built
import passes

HERE = pathlib.Path(__file__).resolve()
NICE = 10
"""How far the proofs leave the cores to what runs beside them, some of which waits for times."""


def copy(folder: pathlib.Path, tried: list[str]) -> None:
    """Makes a repository of its own, with a copy of the sources, without the wrong bodies of the
    crates that are tried elsewhere. Raises OSError.
    """
    folder.mkdir()
    (folder / ".git").mkdir()  # where the gate has its lock
    left_out = tuple(f"crates/{name}/must-fail/" for name in tried)
    for name in passes.files_of(built.TOP):
        if name.startswith(left_out):
            continue
        file, to = built.TOP / name, folder / name
        if file.is_symlink() or file.is_file():
            to.parent.mkdir(parents=True, exist_ok=True)
            shutil.copy2(file, to, follow_symlinks=False)


def words(folder: pathlib.Path, tried: list[str]) -> list[str]:
    """The command that runs the gate in this folder, without the wrong bodies of these crates."""
    return [sys.executable, str(HERE), str(folder), *tried]


def main() -> int:
    """Makes the copy and becomes the gate in it; answers 2 where no folder is named."""
    if len(sys.argv) < 2:
        print(__doc__, file=sys.stderr)
        return 2
    folder, *tried = sys.argv[1:]
    copy(pathlib.Path(folder), tried)
    os.chdir(folder)
    os.nice(NICE)
    sys.stdout.flush()
    os.execvp("rt", ["rt", "ci"])


if __name__ == "__main__":
    sys.exit(main())

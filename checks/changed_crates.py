#!/usr/bin/env python3
"""Proves the crates changed since a commit, with those above: `checks/changed_crates.py COMMIT`.

What earlier builds have proved is taken as it is, as build/program.py does. Tests and wrong bodies
are left to the gate. Prints the crates, what build/program.py prints, and `N passed, N failed`,
which counts the crates; the status is 0 where all are proved.
"""
import pathlib
import subprocess
import sys

TOP = pathlib.Path(__file__).resolve().parent.parent
sys.path.insert(0, str(TOP / "build"))

import toolchain  # noqa: E402

UPSTREAM = "origin/main"
PARTS = {"src", "specs", "proofs"}


def output_of(*words: str) -> str:
    """What git prints. Raises CalledProcessError."""
    ran = subprocess.run(["git", *words], cwd=TOP, capture_output=True, text=True, check=True)
    return ran.stdout


def usual_commit() -> str:
    """The commit that this branch left origin's main at, or HEAD where there is no such branch.
    Raises CalledProcessError.
    """
    known = ["git", "rev-parse", "--quiet", "--verify", UPSTREAM]
    if subprocess.run(known, cwd=TOP, capture_output=True).returncode == 0:
        return output_of("merge-base", UPSTREAM, "HEAD").strip()
    return output_of("rev-parse", "HEAD").strip()


def changed_files(commit: str) -> list[str]:
    """The files that differ from a commit, or that git would add. Raises CalledProcessError."""
    differing = output_of("diff", "--name-only", "--no-renames", "-z", commit)
    new = output_of("ls-files", "--others", "--exclude-standard", "-z")
    return [name for name in (differing + new).split("\0") if name]


def changed(commit: str) -> list[str]:
    """The crates whose sources or line of crates.txt changed since a commit, and those above, the
    lowest first. Raises OSError, CalledProcessError.
    """
    parts = [name.split("/") for name in changed_files(commit)]
    found = {it[1] for it in parts if len(it) > 3 and it[0] == "crates" and it[2] in PARTS}
    now = toolchain.crate_lines(TOP)
    if ["crates.txt"] in parts:
        before = output_of("show", f"{commit}:crates.txt").splitlines(keepends=True)
        found |= {name for name in now if now[name] not in before}
    own = toolchain.crates_below(TOP, *now)
    return [name for name in own if {name, *own[name]} & found]


def main() -> int:
    """Proves what changed; answers the status."""
    if len(sys.argv) != 2:
        print("usage: checks/changed_crates.py COMMIT", file=sys.stderr)
        return 2
    names = changed(sys.argv[1])
    print(f"changed since {sys.argv[1]}, with those above: {' '.join(names) or 'no crate'}")
    sys.stdout.flush()
    words = [sys.executable, str(TOP / "build/program.py"), *names]
    status = subprocess.run(words).returncode if names else 0
    print(f"{0 if status else max(1, len(names))} passed, {int(status != 0)} failed")
    return status


if __name__ == "__main__":
    sys.exit(main())

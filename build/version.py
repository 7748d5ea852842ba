#!/usr/bin/env python3
"""The version: `build/version.py [--release]` prints it as the source of the program has it, which
prints it for --version; packages and pages are made from there. It is typed in the library's
header, in callauction/__init__.py and in CHANGELOG.md too, which tests compare with that. With
--release it has the commit, as 2026.11.26+g8026dcd.
"""
import pathlib
import re
import subprocess
import sys

TOP = pathlib.Path(__file__).resolve().parent.parent
SOURCE = TOP / "crates/settings/src/options.rt"
CONSTANT = re.compile(r'^const VERSION: &str = "([0-9.]+)";$', re.MULTILINE)
DIGITS = 7


def version() -> str:
    """The version. Raises OSError, and ValueError where the source has none."""
    found = CONSTANT.search(SOURCE.read_text(encoding="utf-8"))
    if not found:
        raise ValueError(f"{SOURCE} has no VERSION")
    return found[1]


def release_version() -> str:
    """The version of a release: with the commit, and `changed` where files of it are, or where
    there are others. Raises what `version` raises, and CalledProcessError.
    """

    def of_git(*words: str) -> str:
        ran = subprocess.run(["git", *words], cwd=TOP, capture_output=True, text=True, check=True)
        return ran.stdout.strip()

    commit = of_git("rev-parse", f"--short={DIGITS}", "HEAD")
    changed = of_git("status", "--porcelain")
    return f"{version()}+g{commit}{'.changed' if changed else ''}"


if __name__ == "__main__":
    print(release_version() if sys.argv[1:] == ["--release"] else version())

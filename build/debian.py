#!/usr/bin/env python3
"""Finds a Python that has what a script needs of Debian's packages, as another one may be first on
the path.

A script of Python begins with `debian.run_with("python/build", "cffi", "numpy")`, which starts it
again under such a Python. A script of the shell asks for its path:
`build/debian.py bench/python cffi numpy`.
"""
import functools
import os
import shutil
import subprocess
import sys

VERSION = (3, 11)
PACKAGES = {
    "mypy": "mypy",
    "Python.h": "python3-dev",
    "prometheus_client": "python3-prometheus-client",
    "pytest_aiohttp": "python3-pytest-aiohttp",
    "pytest_rerunfailures": "python3-pytest-rerunfailures",
    "pytest_timeout": "python3-pytest-timeout",
}
"""Debian's package of a module, or of a header, whose name isn't python3-MODULE."""
LOOK = f"""
import importlib.util, os, sys, sysconfig
include = sysconfig.get_path("include")
for name in sys.argv[1:]:
    is_header = name.endswith(".h")
    there = os.path.exists(include + "/" + name) if is_header else importlib.util.find_spec(name)
    if not there:
        print(name)
sys.exit(sys.version_info < {VERSION})
"""
"""Prints which of the modules and headers named a Python lacks."""


class MissingModulesError(Exception):
    """What is lacking, and which package of Debian has it."""


@functools.cache
def lacking(python: str, names: tuple[str, ...]) -> list[str] | None:
    """Which of these modules and headers this Python lacks; None where it is too old, or none."""
    try:
        ran = subprocess.run([python, "-c", LOOK, *names], capture_output=True, text=True)
    except OSError:
        return None
    return ran.stdout.split() if ran.returncode == 0 else None


def pythons() -> list[str]:
    """The Pythons to look at: Debian's, and that on the path."""
    found = ["/usr/bin/python3", shutil.which("python3"), sys.executable]
    return [*dict.fromkeys(python for python in found if python)]


def package(name: str) -> str:
    """Debian's package of a module or a header."""
    return PACKAGES.get(name, f"python3-{name}")


def missing(names: tuple[str, ...]) -> list[str]:
    """What to say of each of these modules and headers that is lacking; none where a Python has
    all.
    """
    found = [gaps for python in pythons() if (gaps := lacking(python, names)) is not None]
    if not found:
        wanted = ".".join(map(str, VERSION))
        return [f"there is no python3 of version {wanted} or later: Debian has it in python3"]
    fewest = min(found, key=len)
    return [f"there is no {name} for Python: Debian has it in {package(name)}" for name in fewest]


def python_with(names: tuple[str, ...]) -> str:
    """The path of a Python with these modules and headers. Raises MissingModulesError, which
    names the first that is lacking.
    """
    for python in pythons():
        if lacking(python, names) == []:
            return python
    raise MissingModulesError(missing(names)[0])


def run_with(script: str, *names: str) -> None:
    """Starts this script again under a Python with these modules and headers, unless this one has
    them. Raises SystemExit, with one line, where there is none.
    """
    if lacking(sys.executable, names) == []:
        return
    try:
        python = python_with(names)
    except MissingModulesError as fault:
        raise SystemExit(f"{script}: {fault}") from None
    os.execv(python, [python, *sys.argv])


if __name__ == "__main__":
    try:
        print(python_with(tuple(sys.argv[2:])))
    except MissingModulesError as gap:
        sys.exit(f"{sys.argv[1]}: {gap}")

"""Builds the module `_quickfix`: `python3 -m callauction.fix.build`, in the folder that the
variable CALLAUCTION_FIX names, else beside its source. With --sanitized it is one that ends where
it errs with memory, for tests.
"""
import os
import pathlib
import shutil
import subprocess
import sys
import sysconfig
from collections.abc import Sequence

from callauction import fix

SHIM_SOURCE = pathlib.Path(__file__).with_name("shim.cpp")
SUFFIX = sysconfig.get_config_var("EXT_SUFFIX")
QUICKFIX = pathlib.Path("/usr/include/quickfix")
HEADERS = (QUICKFIX / "Session.h", pathlib.Path("/usr/include/pybind11/functional.h"))
NEEDED = "g++ libquickfix-dev pybind11-dev python3-dev"
"""Debian's packages by which it is built."""
MISSING = (
    "[fix] needs the module of QuickFIX: the package callboard-fix has it, or apt-get install "
    f"{NEEDED}, then python3 -m callauction.fix.build"
)
OPTIONS = (
    *("-std=c++14", "-O2", "-fPIC", "-shared", "-fvisibility=hidden", "-Wall", "-Wextra"),
    *("-Wno-deprecated", "-Wno-deprecated-declarations"),
)
"""QuickFIX's headers have exceptions in their types, which C++17 refuses."""
SANITIZED = ("-fsanitize=address,undefined", "-fno-sanitize-recover=all", "-g", "-O1")


class BuildError(Exception):
    """The module can't be built; the text says why."""


def target() -> pathlib.Path:
    """Where the module is, or is to be."""
    named = os.environ.get(fix.VARIABLE)
    return (pathlib.Path(named) if named else SHIM_SOURCE.parent) / f"_quickfix{SUFFIX}"


def is_built() -> bool:
    """Whether the module is there, and no older than its source."""
    found = target()
    return found.exists() and found.stat().st_mtime >= SHIM_SOURCE.stat().st_mtime


def build(options: Sequence[str] = ()) -> pathlib.Path:
    """Builds the module, unless it is there: where it is. Raises BuildError, and OSError."""
    found = target()
    if is_built():
        return found
    if shutil.which("g++") is None or not all(it.exists() for it in HEADERS):
        raise BuildError(MISSING)
    found.parent.mkdir(parents=True, exist_ok=True)
    begun = found.with_name(f"{found.name}.{os.getpid()}.new")
    include = ["-I", sysconfig.get_path("include"), "-isystem", str(QUICKFIX)]
    words = ["g++", *OPTIONS, *options, *include, str(SHIM_SOURCE), "-o", str(begun), "-lquickfix"]
    ran = subprocess.run(words, capture_output=True, text=True)
    if ran.returncode != 0:
        raise BuildError(f"{ran.stderr.strip()}\n{MISSING}")
    begun.rename(found)
    return found


def main() -> int:
    """Builds the module; answers the status."""
    if sys.argv[1:] not in ([], ["--sanitized"]):
        print("callauction.fix.build: the one word may be --sanitized", file=sys.stderr)
        return 2
    try:
        print(build(SANITIZED if sys.argv[1:] else ()))
        return 0
    except (BuildError, OSError) as fault:
        print(f"callauction.fix.build: {fault}", file=sys.stderr)
        return 1


if __name__ == "__main__":
    sys.exit(main())

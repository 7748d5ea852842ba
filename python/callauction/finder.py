"""Where the built program `callboard` is. It needs neither the library nor another package."""
import hashlib
import os
import pathlib
import shutil

VARIABLE = "CALLBOARD"
HELD = pathlib.Path(__file__).with_name("bin") / "callboard"
"""Where a wheel of this package holds it."""
BUILT = pathlib.Path(__file__).resolve().parents[2] / "crates/callboard/out/callboard"
"""Where it is built, in the repository that has this package's sources."""


def program_path() -> str:
    """The path of the program: what the variable CALLBOARD names, or else the one that came with
    this package in a wheel, or `callboard` on the path, or the one that was built in the repository
    that has this package.

    Raises FileNotFoundError where there is none, or CALLBOARD names no file that can be run.
    """
    named = os.environ.get(VARIABLE)
    if named:
        found = shutil.which(named)
        if not found:
            raise FileNotFoundError(f"{VARIABLE} names no program: {named}")
        return os.path.abspath(found)
    found = shutil.which(str(HELD)) or shutil.which("callboard") or shutil.which(str(BUILT))
    if not found:
        raise FileNotFoundError(
            f"there is no program callboard: build it, and name it by {VARIABLE} or have it on PATH"
        )
    return os.path.abspath(found)


def program_digest(path: str | None = None) -> str:
    """The SHA-256 of the program with this path, or of the one that is found here, in hexadecimal
    digits. Raises OSError.
    """
    with open(path or program_path(), "rb") as file:
        return hashlib.file_digest(file, "sha256").hexdigest()

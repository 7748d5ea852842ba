"""The library in this process: the module that python/build makes, or a sentence that says how to
get it.
"""
import sys
from pathlib import Path

NATIVE = "callauction._native"


def missing(folder: Path) -> str:
    """What to do where the package in this folder has no library for this Python."""
    builds = "library/build /tmp/callauction && python/build /tmp/callauction /tmp/python"
    found = next(folder.glob("_native.*.so"), None)
    if found is None:
        return (
            f"{folder} has no built library: run `{builds}` in the repository and set "
            "PYTHONPATH=/tmp/python, or install the wheel"
        )
    version = ".".join(map(str, sys.version_info[:2]))
    return (
        f"the library of {folder}, {found.name}, is built for another Python than this {version}: "
        f"use /usr/bin/python3, or run `{builds}` by this one"
    )


try:
    from callauction._native import ffi as ffi
    from callauction._native import lib as lib
except ModuleNotFoundError as fault:
    if fault.name != NATIVE:
        raise
    raise ModuleNotFoundError(missing(Path(__file__).parent), name=NATIVE) from None

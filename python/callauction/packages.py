"""What the command line needs beside Python, and from where it is installed."""
import importlib
import sys

from callauction.statuses import FAILED

PACKAGES = ("numpy", "pandas", "tqdm", "matplotlib")
"""The modules whose packages have their names: python3-NAME of Debian, and NAME of pip."""


def said_of_fault(fault: BaseException) -> str:
    """What a fault says, and where a module that is missing is to be had."""
    name = fault.name or "" if isinstance(fault, ModuleNotFoundError) else ""
    if name.partition(".")[0] not in PACKAGES:
        return str(fault)
    name = name.partition(".")[0]
    return f"{fault}: Debian has it in python3-{name}, or pip install {name}"


def check_start() -> None:
    """Ends this process by a line and its status where a module is missing that all commands need.
    """
    try:
        for name in ("numpy", "pandas"):
            importlib.import_module(name)
    except ModuleNotFoundError as fault:
        print(f"callauction: {said_of_fault(fault)}", file=sys.stderr)
        sys.exit(FAILED)

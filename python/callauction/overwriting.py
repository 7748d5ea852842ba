"""What a command reads isn't what it writes: the evidence of a verdict stays as it was."""
import os
import stat
from collections.abc import Mapping

STANDARD_INPUT, STANDARD_OUTPUT = 0, 1
File = str | os.PathLike[str] | int
"""A path, or the number of an open file."""


class OverwriteError(ValueError):
    """A file that is to be written is one that is read, or another one that is written."""


def refuse_overwriting(read: Mapping[str, File | None], written: Mapping[str, File | None]) -> None:
    """Raises OverwriteError where a file that is to be written is one that is read, or two that are
    written are one, by any path, link or open file. Both have names for the message, and None is
    no file.
    """
    taken = {name: file for name, file in read.items() if file is not None}
    for name, file in written.items():
        if file is None:
            continue
        other = next((it for it in taken if _are_one(taken[it], file)), None)
        if other is not None:
            shown = name if isinstance(file, int) else f"{name} {file}"
            raise OverwriteError(f"{shown} would overwrite {other}")
        taken[name] = file


def _are_one(one: File, other: File) -> bool:
    """Whether two names are of one file, there or not yet, that has a content (no device has)."""
    try:
        return stat.S_ISREG(os.stat(one).st_mode) and os.path.samefile(one, other)
    except OSError:
        if isinstance(one, int) or isinstance(other, int):
            return False
        return os.path.realpath(one) == os.path.realpath(other)

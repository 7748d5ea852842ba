"""The instruments that a market is expected to have."""
import collections
import os
import pathlib
from collections.abc import Iterable

from callauction.market.instrument_names import printable
from callauction.market.rows import Row
from callauction.market.workers import MarketError

MISSING, SURPLUS = "expected, and there is no file", "not expected"
"""The faults of an instrument without a file, and of a file without an instrument in the list."""


def read_list(path: str | os.PathLike[str]) -> list[str]:
    """The instruments of a list, a line each; blank lines and a byte order mark say nothing. Raises
    OSError, and MarketError for an instrument that is there twice.
    """
    text = pathlib.Path(path).read_bytes().removeprefix(b"\xef\xbb\xbf")
    found = [printable(line.strip()) for line in text.splitlines() if line.strip()]
    twice = [name for name, count in collections.Counter(found).items() if count > 1]
    if twice:
        raise MarketError(f"{path} has {twice[0]} twice")
    return found


def compared_with(
    files: dict[str, str], expected: Iterable[str] | None
) -> tuple[dict[str, str], list[Row]]:
    """The files of the expected instruments, all where there is no list; and the rows of those that
    have no file, and of files that nobody expects, which are not run.
    """
    if expected is None:
        return files, []
    wanted = set(expected)
    rows = [Row(name, fault=MISSING) for name in wanted - files.keys()]
    rows += [Row(name, fault=SURPLUS) for name in files.keys() - wanted]
    return {name: path for name, path in files.items() if name in wanted}, rows

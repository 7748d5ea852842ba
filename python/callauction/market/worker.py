"""A worker of a market on one machine: `python3 -m callauction.market.worker`.

It reads pickles from standard input, a request and then the paths of files until a None, and writes
an answer for each file to standard output, behind how many bytes it has. Processes starts it, in
the process that asked for the market, so both trust each other.
"""
import os
import pickle
import sys
from collections.abc import Iterator
from typing import IO

from callauction.market.task import examine_each

LENGTH = 4
"""How many bytes say how many an answer has, the lowest first."""


def paths_asked(asked: IO[bytes]) -> Iterator[str]:
    """The paths that are asked for, as they come. Raises EOFError where the input ends before."""
    while (path := pickle.load(asked)) is not None:
        yield path


def main() -> None:
    """Examines files until there are no more, or nobody is left to whom it could say something."""
    asked, out = sys.stdin.buffer, sys.stdout.buffer
    try:
        request = pickle.load(asked)
        for answer in map(pickle.dumps, examine_each(paths_asked(asked), request)):
            out.write(len(answer).to_bytes(LENGTH, "little") + answer)
            out.flush()
    except (EOFError, BrokenPipeError):
        os._exit(0)  # without another try to write what is left


if __name__ == "__main__":
    main()

"""What of a venue isn't done yet that has to be before it can end, by names for operations: the
last line of one that takes too long has them.
"""
import asyncio
import contextlib
import dataclasses
import functools
import pathlib
import sys
import threading
from collections.abc import Callable, Iterator

PACKAGE = str(pathlib.Path(__file__).parents[1])


@dataclasses.dataclass(eq=False)
class Undone:
    """What isn't done, and gives its name, empty where there is nothing to name."""

    name: Callable[[], str]


_all: dict[Undone, None] = {}


@contextlib.contextmanager
def until_done(name: Callable[[], str]) -> Iterator[None]:
    """What is done meanwhile, in whichever thread, has this name, also once it was left behind."""
    undone = Undone(name)
    _all[undone] = None
    try:
        yield
    except asyncio.CancelledError:
        raise
    except BaseException:
        del _all[undone]
        raise
    del _all[undone]


def leave() -> None:
    """What isn't done now is left behind, and keeps the name that it has."""
    for it in [*_all]:
        it.name = functools.partial(str, it.name())


def left() -> list[str]:
    """The names of all that isn't done, each once; where there is none, what the venue's first
    thread does.
    """
    found = dict.fromkeys(it.name() for it in [*_all])
    return [*filter(None, found)] or [f"what the venue does at {line_of_first_thread()}"]


def line_of_first_thread() -> str:
    """The line of this package in which the first thread is."""
    frame = sys._current_frames()[threading.main_thread().ident or 0]
    while frame.f_back is not None and not frame.f_code.co_filename.startswith(PACKAGE):
        frame = frame.f_back
    return f"{pathlib.Path(frame.f_code.co_filename).name}:{frame.f_lineno}"

"""How far a long run has come, as a progress bar shows it."""
from collections.abc import Iterable
from typing import Protocol, TypeVar

AnyStep = TypeVar("AnyStep")


class Progress(Protocol):
    """What the steps of a run are taken through; `iter` shows nothing."""

    def __call__(self, steps: Iterable[AnyStep], /) -> Iterable[AnyStep]:
        ...

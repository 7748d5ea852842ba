"""A reading of a day that isn't the first one: what is read otherwise, and why."""
import dataclasses
from collections.abc import Callable

from callauction.verdict.rows import Rows
from callauction.verdict.rules import Rules

ReadDay = tuple[Rows, Rules]


@dataclasses.dataclass(frozen=True)
class OtherReading:
    """What is read otherwise, and why."""

    apply: Callable[[ReadDay], ReadDay]
    why: str
    keeps_values: bool = False
    """Whether what stands in both readings is shown with the first one's values."""


def of_rows(change: Callable[[Rows], Rows], why: str) -> OtherReading:
    """What changes the rows of a day alone."""
    return OtherReading(lambda day: (change(day[0]), day[1]), why)

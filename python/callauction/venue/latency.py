"""How long answers took."""
import bisect
from collections.abc import Iterator

BOUNDS = (0.001, 0.0025, 0.005, 0.01, 0.025, 0.05, 0.1, 0.25, 0.5, 1.0, 2.5, 5.0, 10.0)
"""Seconds; a time counts for the first of them that isn't below it."""


class Times:
    """How many answers took at most as long as each of BOUNDS, and all together."""

    def __init__(self) -> None:
        self._counts = [0] * (len(BOUNDS) + 1)
        self.total = 0.0

    def add(self, seconds: float) -> None:
        """An answer took this long."""
        self._counts[bisect.bisect_left(BOUNDS, seconds)] += 1
        self.total += seconds

    def buckets(self) -> Iterator[tuple[str, int]]:
        """Each bound, and how many answers took no longer; last that of all."""
        count = 0
        for bound, more in zip((*map(str, BOUNDS), "+Inf"), self._counts):
            count += more
            yield bound, count

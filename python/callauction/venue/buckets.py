"""How fast somebody may speak."""
import time
from collections.abc import Callable


class Bucket:
    """Lets through `rate` messages a second, and `burst` at once after a while of silence."""

    def __init__(
        self, rate: float, burst: int, clock: Callable[[], float] = time.monotonic
    ) -> None:
        self._rate, self._burst, self._clock = rate, burst, clock
        self._left, self._last = float(burst), clock()

    def has_room(self) -> bool:
        """Whether one more message may come now."""
        now = self._clock()
        self._left = min(self._burst, self._left + (now - self._last) * self._rate)
        self._last = now
        return self._left >= 1

    def is_full(self) -> bool:
        """Whether as many may come at once as ever."""
        return self.has_room() and self._left >= self._burst

    def takes(self) -> bool:
        """Whether one more message may come now, which then counts."""
        found = self.has_room()
        self._left -= found
        return found

    def charge(self, count: int) -> None:
        """Counts this many more, for which later ones wait where there isn't room."""
        self._left -= count

"""Turns: what came from many is looked at one after the other, one in each round of the loop.

So what a round takes doesn't grow with how many wait, and who needn't wait, such as a member that
has said who it is, is answered after as few of them as its answer takes rounds.
"""
import asyncio
import collections
from collections.abc import Callable

Take = Callable[[], bool]
"""Takes a turn: whether there was something to take."""


class Turns:
    """Those who wait for their turn, by their names: each name comes as often as each other one,
    however many wait under it.
    """

    def __init__(self) -> None:
        self._waiting: dict[str, collections.deque[Take]] = {}
        self._is_going_on = False

    def wait(self, name: str, take: Take) -> None:
        """Calls this when it is its turn under a name."""
        self._waiting.setdefault(name, collections.deque()).append(take)
        if not self._is_going_on:
            self._is_going_on = True
            asyncio.get_running_loop().call_soon(self._go_on)

    def _go_on(self) -> None:
        """Gives a turn to the first who takes something, and the others theirs in later rounds."""
        try:
            while self._waiting and not self._first()():
                pass
        finally:
            self._is_going_on = bool(self._waiting)
            if self._is_going_on:
                asyncio.get_running_loop().call_soon(self._go_on)

    def _first(self) -> Take:
        """Who is next; its name comes again behind all others."""
        name = next(iter(self._waiting))
        those = self._waiting.pop(name)
        found = those.popleft()
        if those:
            self._waiting[name] = those
        return found

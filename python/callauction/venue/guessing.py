"""How fast codes may be guessed."""
import asyncio
import itertools
import time
from collections.abc import Callable

from callauction.venue.buckets import Bucket
from callauction.venue.networks import network_of

WRONG_RATE, WRONG_BURST = 1.0, 60
"""Wrong codes of all together, a second and at once, before each code waits for its turn."""
TURN_RATE = 20.0
"""Codes that are looked at in a second from then on."""
MOST_WAITING = 200
MOST_COUNTED_NAMES = 10_000
WIDE_NETWORK_BITS = 16, 32
"""The bits of a wide network of IPv4 and of IPv6: few guessers have many of them."""
Rank = tuple[int, int, int, int]


class Counts:
    """How often each of some names was counted, of the last MOST_COUNTED_NAMES names."""

    def __init__(self) -> None:
        self._counts: dict[str, int] = {}

    def __getitem__(self, name: str) -> int:
        return self._counts.get(name, 0)

    def add(self, name: str) -> None:
        """Counts a name once more."""
        self._counts[name] = self._counts.pop(name, 0) + 1
        if len(self._counts) > MOST_COUNTED_NAMES:
            del self._counts[next(iter(self._counts))]

    def clear(self) -> None:
        """Forgets all names."""
        self._counts.clear()


class Guesses:
    """Slows down who guesses codes, wherever they come from. While wrong codes are few, each code
    is looked at once. Else each waits for its turn: first those of connections, then those of
    addresses, then those of wide networks that gave fewer wrong ones, so that a right code comes to
    its turn beside guessers, also where these have thousands of addresses.
    """

    def __init__(self, clock: Callable[[], float] = time.monotonic) -> None:
        self._wrong = Bucket(WRONG_RATE, WRONG_BURST, clock)
        self._counts = Counts(), Counts(), Counts()
        self._waiting: dict[Rank, asyncio.Future[bool]] = {}
        self._places = itertools.count()
        self._turns: asyncio.Task[None] | None = None

    def wrong(self, address: str, connection: str) -> bool:
        """A code was wrong: whether from now on each code waits for its turn."""
        are_few = self._wrong.is_full()
        for counts, name in zip(self._counts, counted_names(address, connection)):
            if are_few:
                counts.clear()
            counts.add(name)
        return not self._wrong.takes()

    async def turn(self, address: str, connection: str) -> bool:
        """Waits until a code may be looked at; False where too many wait that gave fewer wrong
        ones.
        """
        if not self._waiting and self._wrong.has_room():
            return True
        names = counted_names(address, connection)
        first, second, third = (counts[it] for counts, it in zip(self._counts, names))
        turn: asyncio.Future[bool] = asyncio.get_running_loop().create_future()
        self._waiting[first, second, third, next(self._places)] = turn
        if len(self._waiting) > MOST_WAITING:
            self._give(max(self._waiting), False)
        if self._turns is None or self._turns.done():
            self._turns = asyncio.create_task(self._take_turns())
        return await turn

    async def _take_turns(self) -> None:
        """Lets one after the other."""
        while self._waiting:
            await asyncio.sleep(1 / TURN_RATE)
            while self._waiting and not self._give(min(self._waiting), True):
                pass

    def _give(self, rank: Rank, may: bool) -> bool:
        """Says to one that waits whether it may: whether it still waits."""
        turn = self._waiting.pop(rank)
        if turn.done():
            return False
        turn.set_result(may)
        return True


def counted_names(address: str, connection: str) -> tuple[str, str, str]:
    """By what wrong codes are counted: the connection, its address, and the wide network of it."""
    return connection, network_of(address), network_of(address, *WIDE_NETWORK_BITS)

"""How fast new members come from one address, so that nobody who has the code takes all places: as
many at once as the day says, as a class behind one address has, then one every few seconds. Who
comes again by a code or a token of its own isn't counted.
"""
import dataclasses
import time
from collections.abc import Callable

from callauction.venue.buckets import Bucket
from callauction.venue.logger import NOTICES
from callauction.venue.messages import MessageError
from callauction.venue.networks import network_of

JOIN_SECONDS = 3.0
"""Seconds from one new member to the next of an address that has had as many as may be at once."""
SLOW_SECONDS = 60.0
"""How long it is said that an address is slowed, after somebody of it was refused."""
MOST_ADDRESSES, MOST_NAMED = 1000, 5
"""How many addresses are known, and how many of who came last from one are named."""
JOIN_LATER = f"many have joined from this address: one more can each {JOIN_SECONDS:g} s"
CLOSE_JOINING = (
    "if that isn't the class, Close joining on the teacher's page, New code for all, and Remove "
    "who is wrong there"
)
"""What to do where others than the class may have joined."""
SLOWED = "joins from %s are slowed: %s members came from there, lastly %s; %s"
ALL_TAKEN = "all %s places are taken, lastly by %s; %s"


@dataclasses.dataclass
class Origin:
    """An address: what lets its new members through, who came since that was full, and when one was
    refused last.
    """

    bucket: Bucket
    names: list[str] = dataclasses.field(default_factory=list)
    refused: float | None = None


class Arrivals:
    """The new members of a venue by their addresses, of each of which `most` may come at once; any
    number where that is 0.
    """

    def __init__(self, most: int, clock: Callable[[], float] = time.monotonic) -> None:
        self._most, self._clock = most, clock
        self._origins: dict[str, Origin] = {}
        self._told: list[str] = []

    def check(self, address: str) -> None:
        """Raises MessageError where one more of an address has to wait."""
        if not address or not self._most:
            return
        where = network_of(address)
        found = self._origins.pop(where, None) or Origin(self._new_bucket())
        self._origins[where] = found
        if len(self._origins) > MOST_ADDRESSES:
            del self._origins[next(iter(self._origins))]
        if found.bucket.is_full():
            found.names.clear()
            found.refused = None
        if not found.bucket.has_room():
            if not self._is_slowed(found):
                last = last_of(found.names)
                NOTICES.warning(SLOWED, where, len(found.names), last, CLOSE_JOINING)
            found.refused = self._clock()
            raise MessageError("join_later", JOIN_LATER)

    def came(self, address: str, name: str) -> None:
        """A new member came from an address that was checked."""
        if found := self._origins.get(network_of(address)):
            found.bucket.charge(1)
            found.names.append(name)

    def slowed(self) -> dict[str, list[str]]:
        """Who came last from addresses that are slowed, by these."""
        return {it: found.names for it, found in self._origins.items() if self._is_slowed(found)}

    def take_change(self) -> bool:
        """Whether other addresses are slowed than when this was taken last."""
        before, self._told = self._told, [*self.slowed()]
        return before != self._told

    def _new_bucket(self) -> Bucket:
        """What lets through as many as may come."""
        return Bucket(1 / JOIN_SECONDS, self._most, self._clock)

    def _is_slowed(self, found: Origin) -> bool:
        """Whether somebody of an address was refused a short while ago."""
        return found.refused is not None and self._clock() - found.refused < SLOW_SECONDS


def last_of(names: list[str]) -> str:
    """Who came last."""
    return ", ".join(names[-MOST_NAMED:])

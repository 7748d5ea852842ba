"""Who is connected to a venue, as what is shown reaches it."""
from typing import Protocol

from callauction.venue.json_types import Json
from callauction.venue.members import VenueMember


class Watcher(Protocol):
    """Somebody who is connected: `role` is member, operator or beamer."""

    role: str
    member: VenueMember | None
    topics: frozenset[str]

    @property
    def is_leaving(self) -> bool:
        """Whether the connection is to end."""

    def offer(self, key: str, message: Json) -> None:
        """Shows a message, unless a later one with its key comes before it is sent."""

    def leave(self, code: str) -> None:
        """Ends the connection, for one of the ERRORS of messages."""


Watchers = dict[Watcher, None]
"""All who are connected, in the order in which they came."""

"""Who is connected to a venue of the same loop, without a network."""
import asyncio
from typing import Any

from callauction.venue.json_types import Json
from callauction.venue.members import VenueMember
from callauction.venue.messages import TOPICS


class Hearer:
    """A member who is connected, or the operator, and what was last said to it by each key."""

    is_leaving = False

    def __init__(self, member: VenueMember | None = None) -> None:
        self.member, self.role = member, "member" if member else "operator"
        self.topics = frozenset(TOPICS)
        self.said: dict[str, Json] = {}

    def offer(self, key: str, message: Json) -> None:
        self.said[key] = message

    def leave(self, code: str) -> None:
        raise AssertionError(code)


class NoTransport(asyncio.Transport):
    """A transport of a connection that isn't there."""

    is_read = True
    is_over = False
    said = b""

    def pause_reading(self) -> None:
        self.is_read = False

    def resume_reading(self) -> None:
        self.is_read = True

    def is_closing(self) -> bool:
        return self.is_over

    def abort(self) -> None:
        self.is_over = True

    def close(self) -> None:
        self.is_over = True

    def get_extra_info(self, name: str, default: Any = None) -> Any:
        return default

    def write(self, data: bytes | bytearray | memoryview) -> None:
        self.said += bytes(data)

    def taken(self) -> bytes:
        """What was said since this was asked for the last time."""
        said, self.said = self.said, b""
        return said

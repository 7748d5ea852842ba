"""What calls of an auction raise beside TypeError, ValueError and MemoryError."""
from collections.abc import Callable, Mapping

from callauction.arrays import Structs
from callauction.words import Refusal


class AuctionError(Exception):
    """The base of all of these."""


class ClosedError(AuctionError):
    """The object holds no auction: it was closed, or its opening failed."""


class BusyError(AuctionError):
    """Another call of this auction is running, in another thread or around this one."""


class RefusedError(AuctionError):
    """The auction refused a command that was given with check=True. It counts as a call, and left
    all else as it was.
    """

    def __init__(self, refusal: Refusal) -> None:
        super().__init__(refusal)
        self.refusal = refusal

    def __str__(self) -> str:
        return f"refused {self.refusal.value} {self.refusal.name}"


class NotAppliedError(AuctionError):
    """A command wasn't applied, and none after it.

    `applied` says how many commands of the call were applied before it, and `replies` are their
    replies, an array of REPLY of that length, of a board's member of RECEIPT (None where the call
    was of one command).
    """

    def __init__(self, text: str, applied: int = 0, replies: Structs | None = None) -> None:
        super().__init__(text)
        self.applied = applied
        self.replies = replies


class FullError(NotAppliedError):
    """No call is left to the member: max_calls were made, or those that are left are the
    operator's.
    """


class NoCommandError(NotAppliedError, ValueError):
    """A struct of an array is no command."""


class NotEnteredError(AuctionError):
    """A day refused orders that were carried over to it; it entered the others.

    `refused` has why, by the ids of the day before, and `replies` are the replies to all of them,
    an array of REPLY, of a board of RECEIPT.
    """

    def __init__(self, refused: Mapping[int, Refusal], replies: Structs) -> None:
        super().__init__(refused, replies)
        self.refused, self.replies = refused, replies

    def __str__(self) -> str:
        first = [f"{id} {refusal.name}" for id, refusal in [*self.refused.items()][:_NAMED]]
        more = ", .." if len(self.refused) > _NAMED else ""
        count = f"{len(self.refused)} of {len(self.replies)} orders"
        return f"{count} weren't entered: {', '.join(first)}{more}"


_NAMED = 5
"""How many orders that weren't entered the text names."""


def close_after(raised: BaseException | None, name: str, close: Callable[[], object]) -> None:
    """Closes what a `with` block had that raised this, or nothing. Where closing fails, what the
    block raised goes on with a note of it; else raises the fault.
    """
    try:
        close()
    except Exception as fault:
        if raised is None:
            raise
        raised.add_note(f"the {name} isn't closed: {fault}")

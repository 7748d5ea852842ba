"""How members leave: their open orders are deleted, before the next command of anybody is taken."""
import asyncio
import dataclasses
from collections.abc import Coroutine
from typing import Any

from callauction.venue.instrument_board import InstrumentBoard
from callauction.venue.members import Done, VenueMember
from callauction.venue.messages import OrderMessage
from callauction.venue.recovery import Entry


@dataclasses.dataclass(frozen=True)
class Deletion:
    """The deletion of an order of a member who was removed, on a board of this name."""

    member: VenueMember
    board: str
    order: int
    answer: "asyncio.Future[Entry]"

    @property
    def is_done(self) -> bool:
        """Whether it was answered, and the order is deleted."""
        return self.answer.exception() is None and self.answer.result().reply == "deleted"


@dataclasses.dataclass
class Removal:
    """Members who were removed, and what became of their orders: which were deleted, and the boards
    that have halted, where that is done once they go on.
    """

    members: list[VenueMember]
    deleted: list[Deletion] = dataclasses.field(default_factory=list)
    halted: list[str] = dataclasses.field(default_factory=list)

    def take_out(self, board: InstrumentBoard) -> Coroutine[Any, Any, None]:
        """Deletes the open orders of those members on a board, once it is known which these are:
        the board takes nothing else before.
        """
        gone = [it for it in self.members if it.group == board.identity.group]
        names = {it.name for it in gone}
        board.commands.hold_for(names)

        async def taken_out() -> None:
            sent = [it for member in gone for it in member.waiting(board.identity.instrument)]
            if sent:
                await asyncio.wait([it.answer for it in sent])
            deletions = [it for member in gone for it in withdrawn(member, board)]
            board.commands.release_after(names)
            if deletions:
                await asyncio.wait([it.answer for it in deletions])
            self.deleted += [it for it in deletions if it.is_done]

        return taken_out()


def withdrawn(member: VenueMember, board: InstrumentBoard) -> list[Deletion]:
    """Deletes the open orders of a member who was removed, each once, where that can be."""
    asked = {it.record: it.answer for it in member.waiting(board.identity.instrument)}
    found = []
    for order in board.commands.open_orders(member.name) if board.engine.is_open else ():
        sent = OrderMessage(member.last + 1, board.terms.name, f"delete,{order}")
        answer = asked.get(sent.record) or withdraw(member, board, sent)
        found.append(Deletion(member, board.identity.name, order, answer))
    return found


def withdraw(
    member: VenueMember, board: InstrumentBoard, order: OrderMessage
) -> "asyncio.Future[Entry]":
    """Sends the deletion of an order of a member in any phase. Raises MessageError."""
    answer = board.commands.withdraw(member.name, order)
    member.keep(order.number, Done(board.identity.instrument, order.record, answer))
    return answer

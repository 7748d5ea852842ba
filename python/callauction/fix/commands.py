"""The commands of a session to boards, and those that aren't answered yet."""
import asyncio
import contextlib
import functools
from collections.abc import Collection
from typing import TYPE_CHECKING

from callauction.fix.board_orders import CLIENT, NUMBER, ORIGIN, SAID, SINCE, TIME, WHEN
from callauction.fix.refusals import refuse
from callauction.fix.tags import Given, Tag, now
from callauction.venue.instrument_board import InstrumentBoard
from callauction.venue.leaving import withdraw
from callauction.venue.messages import MessageError, OrderMessage
from callauction.venue.recovery import Entry

if TYPE_CHECKING:
    from callauction.fix.seats import Seat

MOST_UNANSWERED = 256
"""Commands of a member to a board that aren't answered yet."""
HALT_PAUSE = 0.1
"""Seconds between two looks at whether a board has halted whose answer is waited for."""
GONE = "the connection has ended, or its venue: CancelOrdersOnDisconnect (8013=Y)"
Answers = Collection["asyncio.Future[Entry]"]


class SessionCommands:
    """What a session has sent to boards; each answer that is waited for has its board."""

    def __init__(self, seat: "Seat") -> None:
        self._seat = seat
        self.unanswered: dict[asyncio.Future[Entry], InstrumentBoard] = {}

    def is_full(self, given: Given) -> bool:
        """Whether as much waits for answers of a message's board as may, which hasn't halted."""
        if len(self.unanswered) < MOST_UNANSWERED:
            return False
        name = given.get(Tag.SYMBOL)
        boards = self.unanswered.values()
        waiting = [it for it in boards if name in (it.identity.instrument, it.identity.name)]
        return len(waiting) >= MOST_UNANSWERED and waiting[0].engine.halted is None

    def waits_for(self, board: InstrumentBoard) -> Answers:
        """The answers of a board that are waited for."""
        return [it for it, where in self.unanswered.items() if where is board]

    async def until_answered(self, board: InstrumentBoard, answers: Answers) -> None:
        """Waits for answers of a board. Raises MessageError where one is left as it halts."""
        waiting = {it for it in answers if not it.done()}
        while waiting:
            self._seat.venue.halts.check_running()
            if board.engine.halted is not None:
                instrument = board.identity.instrument
                raise MessageError("halted", f"{instrument} has halted and hasn't answered")
            _, waiting = await asyncio.wait(waiting, timeout=HALT_PAUSE)

    async def until_known(self, board: InstrumentBoard) -> None:
        """Waits until what was sent to a board is answered. Raises MessageError where it halts."""
        await self.until_answered(board, self.waits_for(board))
        await self._seat.reports.stream(board).until_now()

    # ---- what is sent

    def submit(
        self, given: Given, number: int, board: InstrumentBoard, record: str, time: str = ""
    ) -> None:
        """Sends a command, with its ids beside it in the log. Raises MessageError."""
        seat, epoch, client = self._seat, self._seat.epoch, given[Tag.CL_ORD_ID]
        own, following = epoch.number_of(number), seat.outbound.engine.next(seat.session)
        note = {CLIENT: client, WHEN: now()}
        if promised := epoch.promise(following):
            note[NUMBER] = str(promised)
        if since := seat.outbound.since(seat, following):
            note[SINCE] = str(since)
        if Tag.ORIG_CL_ORD_ID in given:
            note[ORIGIN] = given[Tag.ORIG_CL_ORD_ID]
        if time:
            note[TIME] = time
        order = OrderMessage(-own.key, board.terms.name, record, note)
        answer, _ = seat.venue.submit(seat.member, order)
        epoch.submitted(number, promised)
        seat.clients.numbers[client] = own
        self.unanswered[answer] = board
        answer.add_done_callback(lambda it: self._answered(given, number, it))

    def _answered(self, given: Given, number: int, answer: "asyncio.Future[Entry]") -> None:
        """A command was answered, perhaps by a fault: then it wasn't executed."""
        self.unanswered.pop(answer, None)
        fault = None if answer.cancelled() else answer.exception()
        if isinstance(fault, MessageError):
            self._seat.epoch.awaited.pop(number, None)
            refuse(self._seat, given, self._seat.epoch.refusal_of(number), fault)

    def deletion(
        self, board: InstrumentBoard, order: int, message: int, note: dict[str, str]
    ) -> OrderMessage:
        """The deletion of an order, as one more part of a message, or of none (0)."""
        key = self._seat.epoch.next_part(message).key
        return OrderMessage(-key, board.terms.name, f"delete,{order}", note)

    async def withdraw(self) -> None:
        """Deletes the open orders that the session has entered, in any phase: its connection was
        lost. What isn't answered yet is deleted once it is, as a board that has halted may be long
        in that.
        """
        for board in self._seat.boards():
            await self._seat.reports.stream(board).until_now()
            for held in self._seat.open_orders(board):
                if held.client:
                    self._delete(board, held.order)
            for answer in self.waits_for(board):
                if not answer.done():
                    answer.add_done_callback(functools.partial(self._withdraw_late, board))

    def _withdraw_late(self, board: InstrumentBoard, answer: "asyncio.Future[Entry]") -> None:
        """Deletes the order of an answer that has come once the connection was lost."""
        entry = None if answer.cancelled() or answer.exception() else answer.result()
        if entry is not None and entry.order is not None:
            self._delete(board, entry.order)

    def _delete(self, board: InstrumentBoard, order: int) -> None:
        """Sends the deletion of an order, where that can be."""
        with contextlib.suppress(MessageError):
            deletion = self.deletion(board, order, 0, {SAID: GONE})
            withdraw(self._seat.member, board, deletion)

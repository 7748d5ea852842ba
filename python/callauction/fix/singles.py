"""What members ask of one order: NewOrderSingle, OrderCancelRequest, OrderCancelReplaceRequest and
OrderStatusRequest.
"""
from typing import TYPE_CHECKING, Any

from callauction.fix.board_orders import Held, ended_text
from callauction.fix.order_fields import (
    RESTRICTIONS_BY_TIME, check_beside, check_client, check_kept, check_side, is_sent_again,
    left_of, peak_of, price_of, shares_of, side_of,
)
from callauction.fix.refusals import (
    DUPLICATE, ORDER_ENDED, UNKNOWN_ORDER, UNSUPPORTED, USED, PendingError, SeatError, tell_again,
)
from callauction.fix.tags import DAY, Exec, FixFields, Given, Status, Tag, Type
from callauction.venue import messages
from callauction.venue.messages import MessageError
from callauction.venue.phases import Phase

if TYPE_CHECKING:
    from callauction.fix.reports import Stream
    from callauction.fix.seats import Seat

PENDING = {"enter": Status.PENDING_NEW, "change": Status.PENDING_REPLACE}
PENDING["delete"] = Status.PENDING_CANCEL
"""What an order is whose command isn't answered yet."""


async def enter(seat: "Seat", rows: FixFields, given: Given, number: int) -> None:
    """NewOrderSingle. Raises MessageError."""
    if not await is_known(seat, given, number):
        enter_new(seat, given, number)


def enter_new(seat: "Seat", given: Given, number: int) -> None:
    """Sends an order whose ClOrdID is new. Raises MessageError."""
    check_client(given)
    time = given.get(Tag.TIME_IN_FORCE, DAY)
    if time not in RESTRICTIONS_BY_TIME:
        raise SeatError(UNSUPPORTED, "TimeInForce is 0, 1, 2 or 7")
    asked: dict[str, Any] = {
        "side": side_of(given),
        "only": RESTRICTIONS_BY_TIME[time],
        "quantity": shares_of(given, Tag.ORDER_QTY),
        "price": price_of(given),
    }
    if peak := peak_of(given):
        asked["peak"] = int(peak)
    board = seat.board(given)
    check_beside(given, board)
    seat.commands.submit(given, number, board, messages.enter_record(board.terms, asked), time)


async def edit(seat: "Seat", rows: FixFields, given: Given, number: int) -> None:
    """OrderCancelRequest and OrderCancelReplaceRequest. Raises MessageError."""
    if await is_known(seat, given, number):
        return
    check_beside(given, seat.board(given))
    held, stream = await settled(seat, given, given[Tag.ORIG_CL_ORD_ID])
    if held is None:
        raise SeatError(UNKNOWN_ORDER, "there is no order of this OrigClOrdID")
    check_side(given, held)
    if of_round := former_round(seat, given, stream):
        raise SeatError(ORDER_ENDED, f"{ended_text(held)}, and {of_round}")
    if not held.open:
        is_over = seat.board(given).auctions.state.phase is Phase.OVER
        raise SeatError(ORDER_ENDED, ended_text(held, is_over))
    asked: dict[str, Any] = {"type": "delete", "order": held.order, "number": number}
    if given[Tag.MSG_TYPE] == Type.REPLACE:
        check_kept(given, held)
        left = left_of(shares_of(given, Tag.ORDER_QTY), held)
        asked |= {"type": "change", "price": price_of(given), "quantity": left}
    board = seat.board(given)
    board.auctions.check_open()
    seat.commands.submit(given, number, board, messages.order_of(board.terms, asked).record)


async def show(seat: "Seat", rows: FixFields, given: Given, number: int) -> None:
    """OrderStatusRequest. Raises MessageError."""
    check_beside(given, seat.board(given))
    held, stream = await settled(seat, given, given[Tag.CL_ORD_ID])
    if held is None:
        raise SeatError(UNKNOWN_ORDER, "there is no order of this ClOrdID in this day")
    check_side(given, held)
    asked = Tag.ORD_STATUS_REQ_ID
    more: FixFields = [(asked, given[asked])] if asked in given else []
    tell_status(seat, given, held, stream, number, more)


async def settled(seat: "Seat", given: Given, client: str) -> "tuple[Held | None, Stream]":
    """The order that an id names and its stream, once what was sent before is answered. Raises
    MessageError, PendingError where it isn't answered as its board has halted.
    """
    board, epoch = seat.board(given), seat.epoch.number
    number = seat.clients.numbers.get(client)
    if number and number.epoch == epoch and number.message > int(given[Tag.MSG_SEQ_NUM]):
        return None, seat.reports.stream(board)  # this one comes again, and was before that
    if done := seat.member.done.get(-number.key) if number else None:
        try:
            await seat.commands.until_answered(board, [done.answer])
        except MessageError as fault:
            raise PendingError(PENDING[done.record.partition(",")[0]], fault.text) from None
    await seat.reports.stream(board).until_now()
    held, stream = seat.known(board, client)
    await stream.until_now()
    stream.end_before(seat.board(given).identity.round)  # which may have begun since
    return held, stream


async def is_known(seat: "Seat", given: Given, number: int) -> bool:
    """Whether an id was another message's, and this one is sent again: what became of the order is
    said then, or why it was refused. Raises MessageError where it is none.
    """
    if not seat.clients.is_used(given, seat.epoch.number_of(number)):
        return False
    if not is_sent_again(given):
        raise SeatError(DUPLICATE, USED)
    held, stream = await settled(seat, given, given[Tag.CL_ORD_ID])
    refused = seat.clients.refused.get(given[Tag.CL_ORD_ID])
    is_new = given[Tag.MSG_TYPE] == Type.ENTER
    if held is not None:
        tell_status(seat, given, held, stream, number, [])
    elif refused is not None and is_new == (refused[0] == Type.REPORT):
        tell_again(seat, seat.epoch.refusal_of(number), *refused)
    else:
        raise SeatError(DUPLICATE, USED)
    return True


def tell_status(
    seat: "Seat", given: Given, held: Held, stream: "Stream", number: int, more: FixFields
) -> None:
    """Says what an order is, as the answer to a message."""
    if of_round := former_round(seat, given, stream):
        more = [*more, (Tag.TEXT, f"it {of_round}")]
    event = seat.epoch.refusal_of(number)
    seat.reports.tell(stream.orders.report(held, event, Exec.STATUS, more))


def former_round(seat: "Seat", given: Given, stream: "Stream") -> str:
    """Of which earlier round a stream is, empty for none."""
    number = stream.board.identity.round
    is_former = number < seat.board(given).identity.round
    return f"was of round {number}, which is over" if is_former else ""

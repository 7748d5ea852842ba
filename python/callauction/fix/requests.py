"""What members ask of many orders at once, and of all instruments: OrderMassCancelRequest,
OrderMassStatusRequest, SecurityListRequest.
"""
import asyncio
from typing import TYPE_CHECKING

from callauction.fix.board_orders import Held, Orders
from callauction.fix.order_fields import CURRENCY, is_sent_again, side_of
from callauction.fix.refusals import (
    ALL, DUPLICATE, UNKNOWN_ORDER, UNSUPPORTED, USED, SeatError, tell_mass_answer,
    tell_mass_cancelled,
)
from callauction.fix.tags import OTHER_REASON, Exec, FixFields, Given, RepeatingGroups, Tag, Type
from callauction.venue.instrument_board import InstrumentBoard
from callauction.venue.messages import MessageError
from callauction.venue.recovery import Entry

if TYPE_CHECKING:
    from callauction.fix.seats import Seat

OF_ONE, OF_ALL = "1", "7"
"""MassCancelRequestType and MassStatusReqType: of an instrument, of all."""
LIST_OF_ONE, LIST_OF_ALL = "0", "4"
"""SecurityListRequestType."""
REPORTS_A_MESSAGE = 10
"""How many reports of a mass status count as a message of its member."""


def boards_of(seat: "Seat", given: Given, tag: int, one: str, every: str) -> list[InstrumentBoard]:
    """The boards that a request asks for by this tag. Raises MessageError."""
    if given[tag] == one and Tag.SYMBOL in given:
        return [seat.board(given)]
    if given[tag] != every or Tag.SYMBOL in given:
        raise SeatError(UNSUPPORTED, f"tag {tag:d} is {one} with a Symbol, or {every} without")
    return seat.boards()


def orders_of(seat: "Seat", given: Given, board: InstrumentBoard) -> list[Held]:
    """The open orders of a request on a board, perhaps of one side. Raises MessageError."""
    side = side_of(given) if Tag.SIDE in given else ""
    return [it for it in seat.open_orders(board) if side in ("", it.side)]


async def cancel_all(seat: "Seat", rows: FixFields, given: Given, number: int) -> None:
    """OrderMassCancelRequest: deletes orders, then says how many, and where some stay open, once
    more to one that is sent again. Raises MessageError where no order can be deleted
    now.
    """
    if seat.clients.is_used(given, seat.epoch.number_of(number)):
        answer = seat.clients.mass.get(given[Tag.CL_ORD_ID])
        if not is_sent_again(given) or not answer:
            raise SeatError(DUPLICATE, USED)
        tell_mass_answer(seat, seat.epoch.refusal_of(number), answer)
        return
    boards = boards_of(seat, given, Tag.MASS_CANCEL_REQUEST_TYPE, OF_ONE, OF_ALL)
    kind = given[Tag.MASS_CANCEL_REQUEST_TYPE]
    note = {ALL: f"{kind} {given[Tag.CL_ORD_ID]}"}
    deleting = (deleted(seat, given, it, number, note) for it in boards)
    found = await asyncio.gather(*deleting)
    faults = {board: fault for board, fault in zip(boards, found) if fault is not None}
    left = [it for it in faults if it.commands.awaits(seat.name) or orders_of(seat, given, it)]
    texts = (f"{it.identity.instrument} ({faults[it].text})" for it in left)
    text = f"not cancelled, and still open: {', '.join(texts)}"
    if not seat.epoch.deleted[number] and (left or len(faults) == len(boards)):
        raise SeatError(OTHER_REASON, text) if left else faults[boards[0]]
    more: FixFields = [(Tag.MASS_CANCEL_RESPONSE, kind)]
    more += [(Tag.MASS_CANCEL_REJECT_REASON, OTHER_REASON), (Tag.TEXT, text)] if left else []
    tell_mass_cancelled(seat, given, seat.epoch.refusal_of(number), more)


async def deleted(
    seat: "Seat", given: Given, board: InstrumentBoard, number: int, note: dict[str, str]
) -> MessageError | None:
    """Deletes the orders of a mass cancel on a board, as parts of a message: why one may stay open,
    None where none does.
    """
    sent: list[asyncio.Future[Entry]] = []
    try:
        await seat.commands.until_known(board)
        seat.venue.halts.check_running()
        board.auctions.check_open()
        try:
            for it in orders_of(seat, given, board):
                part = seat.commands.deletion(board, it.order, number, note)
                sent.append(seat.venue.submit(seat.member, part)[0])
        finally:
            await seat.commands.until_answered(board, sent)
            await seat.reports.stream(board).until_now()
        for answer in sent:
            answer.result()
    except MessageError as fault:
        return fault
    return None


async def show_all(seat: "Seat", rows: FixFields, given: Given, number: int) -> None:
    """OrderMassStatusRequest: a report of each open order, the last with the instruments that have
    halted before they answered all. Raises MessageError where there is none.
    """
    found: list[tuple[Orders, Held]] = []
    late: list[str] = []
    for board in boards_of(seat, given, Tag.MASS_STATUS_REQ_TYPE, OF_ONE, OF_ALL):
        try:
            await seat.commands.until_known(board)
        except MessageError:
            late.append(board.identity.instrument)
        orders = seat.reports.stream(board).orders
        found += [(orders, it) for it in orders_of(seat, given, board)]
    text = f"halted, and what was sent isn't answered yet: {', '.join(late)}" if late else ""
    if not found:
        raise SeatError(UNKNOWN_ORDER, f"there is no open order{'; ' * bool(text)}{text}")
    request = (Tag.MASS_STATUS_REQ_ID, given[Tag.MASS_STATUS_REQ_ID])
    for place, (orders, held) in enumerate(found, 1):
        is_last = place == len(found)
        event = seat.epoch.refusal_of(number if is_last else f"{number}-{place}")
        more: FixFields = [request, (Tag.TOT_NUM_REPORTS, str(len(found)))]
        more.append((Tag.LAST_RPT_REQUESTED, "Y" if is_last else "N"))
        more += [(Tag.TEXT, text)] if text and is_last else []
        report = orders.report(held, event, Exec.STATUS, more)
        report.passes = True
        seat.reports.tell(report)
    seat.member.bucket.charge(len(found) // REPORTS_A_MESSAGE)


async def show_list(seat: "Seat", rows: FixFields, given: Given, number: int) -> None:
    """SecurityListRequest. Raises MessageError."""
    boards = boards_of(seat, given, Tag.SECURITY_LIST_REQUEST_TYPE, LIST_OF_ONE, LIST_OF_ALL)
    head: FixFields = [
        (Tag.SECURITY_REQ_ID, given[Tag.SECURITY_REQ_ID]),
        (Tag.SECURITY_RESPONSE_ID, seat.epoch.refusal_of(number)),
        (Tag.SECURITY_REQUEST_RESULT, "0"),
        (Tag.TOT_NO_RELATED_SYM, str(len(boards))),
    ]
    listed = [instrument_row(it) for it in boards]
    groups: RepeatingGroups = [(Tag.NO_RELATED_SYM, Tag.SYMBOL, listed)]
    seat.outbound.send(seat, Type.LIST, head, groups)


def instrument_row(board: InstrumentBoard) -> FixFields:
    """An instrument in a list."""
    terms = board.terms
    row: FixFields = [(Tag.SYMBOL, board.identity.instrument)]
    row += [(Tag.CURRENCY, terms.currency)] if CURRENCY.fullmatch(terms.currency) else []
    row += [
        (Tag.MIN_PRICE_INCREMENT, format(terms.grid.tick_size, "f")),
        (Tag.LOW_LIMIT_PRICE, terms.price(terms.low)),
        (Tag.HIGH_LIMIT_PRICE, terms.price(terms.high)),
    ]
    return row + ([(Tag.TEXT, terms.title)] if terms.title else [])

"""From the rows of a frame to a journal: the entries of each row, and the prices of the day."""
from decimal import Decimal
from typing import Any

from callauction.auction import Auction
from callauction.frame_rows import EVENTS, FRAME_SIDES, RESTRICTIONS, RESULTS, FrameRow
from callauction.limits import MOST_CALLS, MOST_MEMBERS, MOST_TICKS
from callauction.prices import BadCellError, Grid, argument
from callauction.words import (
    Change,
    Command,
    Delete,
    Enter,
    Entered,
    Indicate,
    OpenOrder,
    ReadTrade,
    Refusal,
    Refused,
    Reply,
    Restriction,
    Uncross,
)
from callauction.written import fields_of, text_of

SHARED = MOST_MEMBERS - 1
"""The numbers that members have; more members share them. Number 0 is the operator's."""
_AT_FAULT = {
    Refusal.BAD_QUANTITY: "quantity",
    Refusal.BAD_LIMIT: "price",
    Refusal.BAD_PEAK: "peak",
    Refusal.PAST_AUCTION: "restriction",
}
"""The column of what a refused order is refused for; for the others it is the order."""


class Conversion:
    """A journal on its way: the entries so far, and an auction that took their commands."""

    def __init__(self, grid: Grid, auction: Auction) -> None:
        self.grid, self.auction = grid, auction
        self.orders: dict[Any, tuple[int, Any, object]] = {}
        """By the frame's id of an order: the journal's id, the frame's member, and the row."""
        self.numbers: dict[Any, int] = {}
        self.lines: list[str] = []
        self.entries: list[tuple[object, Any, str, Any, Any]] = []
        self.trades = 0

    def add(self, row: FrameRow) -> None:
        """Adds the entries of a row. Raises FrameError."""
        match row.word("event", EVENTS):
            case "new":
                self._new(row)
            case "replace":
                self._replace(row)
            case "cancel":
                self._cancel(row)
            case "uncross":
                self._uncross(row)
            case "trade":
                self._trade(row)

    def _new(self, row: FrameRow) -> None:
        order, member = row.name("order"), row.name("member")
        if order in self.orders:
            raise row.fault("order", f"was entered before, in row {self.orders[order][2]}")
        side = FRAME_SIDES[row.word("side", FRAME_SIDES)]
        restriction = Restriction.NONE
        if row.get("restriction") is not None:
            restriction = RESTRICTIONS[row.word("restriction", RESTRICTIONS)]
        quantity, peak = row.needed_whole("quantity"), row.whole("peak")
        command = Enter(side, quantity, row.tick(self.grid), peak, restriction)
        reply = self._write(row, member, command, "", order)
        if isinstance(reply, Refused):
            column = _AT_FAULT.get(reply.refusal, "order")
            raise row.fault(column, f"can't be entered: {text_of(reply)}")
        assert isinstance(reply, Entered)
        self.orders[order] = reply.id, member, row.label

    def _cancel(self, row: FrameRow) -> None:
        """A cancel of less than what is open is a change, which keeps the place in time."""
        order, id, member = self._known(row, "order")
        part = row.whole("quantity")
        status = self.auction.order_status(self.numbers[member], id) if part else None
        if part and isinstance(status, OpenOrder) and part < status.quantity:
            change = Change(id, status.quantity - part, status.limit)
            self._write(row, member, change, "", order)
        else:
            self._write(row, member, Delete(id), "deleted", order)

    def _replace(self, row: FrameRow) -> None:
        order, id, member = self._known(row, "order")
        command = Change(id, row.needed_whole("quantity"), row.tick(self.grid))
        kept = row.get("kept")
        if kept not in (None, True, False):
            raise row.fault("kept", "is neither true nor false")
        recorded = "" if kept is None else "changed kept" if kept else "changed moved"
        reply = self._write(row, member, command, recorded, order)
        if isinstance(reply, Refused) and not recorded:
            # The other system changed it: a text that is no lawful reply makes it a finding.
            self.lines[-1] += "changed"

    def _uncross(self, row: FrameRow) -> None:
        """A price that is known with its volume and surplus is the reply to an ask before it, or,
        with the auction and its trades, that to the uncross.
        """
        auction = row.word("auction", RESULTS) if row.get("auction") is not None else None
        price, trades = self._published(row), row.whole("trades")
        if price and auction == "interrupted":
            self._write(row, None, Uncross(), f"interrupted {price}")
        elif price and auction and trades is not None:
            self._write(row, None, Uncross(), f"{auction} {price} trades {trades}")
        elif price:
            self._write(row, None, Indicate(), price)
            self._write(row, None, Uncross(), "")
        else:
            is_none = row.get("price") is None and row.whole("quantity") == 0
            is_told = is_none and auction not in (None, "interrupted")
            self._write(row, None, Uncross(), f"{auction} no price" if is_told else "")

    def _published(self, row: FrameRow) -> str:
        """The text of a published price, empty where a part of it isn't known."""
        tick, volume, surplus = row.tick(self.grid), row.whole("quantity"), row.whole("surplus")
        if tick is None or volume is None or surplus is None:
            return ""
        side = "none"
        if surplus:
            side = FRAME_SIDES[row.word("side", FRAME_SIDES)].name.lower()
        return f"price {tick} volume {volume} surplus {surplus} {side}"

    def _trade(self, row: FrameRow) -> None:
        _, bid, _ = self._known(row, "bid")
        _, ask, _ = self._known(row, "ask")
        tick = row.tick(self.grid)
        if tick is None:
            raise row.fault("price", "is missing")
        self.trades += 1
        text = f"trade {bid} {ask} {row.needed_whole('quantity')} at {tick}"
        self._write(row, None, ReadTrade(self.trades), text)

    def _known(self, row: FrameRow, column: str) -> tuple[Any, int, Any]:
        """The frame's id of an order that was entered, the journal's id, and the member."""
        order = row.name(column)
        if order not in self.orders:
            raise row.fault(column, "is the id of no order before it")
        id, member, _ = self.orders[order]
        if column == "order" and row.get("member") is not None and row.name("member") != member:
            raise row.fault("member", f"isn't {member!r}, who entered order {order!r}")
        return order, id, member

    def _write(
        self, row: FrameRow, member: Any, command: Command, recorded: str, order: Any = None
    ) -> Reply:
        """Adds an entry, by the operator where there is no member; the library's reply to it."""
        if len(self.lines) == MOST_CALLS:
            raise row.fault("event", f"is one entry more than the {MOST_CALLS:,} of a journal")
        number = 0
        if member is not None:
            number = self.numbers.setdefault(member, 1 + len(self.numbers) % SHARED)
        self.lines.append(f"{number},{fields_of(command)},{recorded}")
        self.entries.append((row.label, row.cells.get("time"), row.cells["event"], order, member))
        return self.auction.apply(number, command)


def argument_ticks(name: str, value: object, grid: Grid) -> int:
    """The ticks of a decimal argument. Raises ValueError."""
    try:
        return grid.tick(argument(name, value))
    except BadCellError as fault:
        raise ValueError(f"{name} {value} {fault}") from None


def price_bounds(
    rows: list[FrameRow], size: Decimal, reference: Decimal, low: object, high: object
) -> tuple[Decimal, Decimal]:
    """The lowest and the highest price of the day. Raises FrameError for the first row whose price
    makes these more than 65,536 ticks.
    """
    plain, most = Grid(size), (MOST_TICKS - 1) * size
    lowest = reference if low is None else argument("low", low)
    highest = reference if high is None else argument("high", high)
    for name, value in (("reference", reference), ("low", lowest), ("high", highest)):
        argument_ticks(name, value, plain)
    if not lowest <= reference <= highest or highest - lowest > most:
        raise ValueError(
            f"low {lowest}, reference {reference} and high {highest} must rise, over at most "
            f"{MOST_TICKS:,} ticks"
        )
    for row in rows:
        price = row.price() if row.get("event") in ("new", "replace") else None
        if price is None:
            continue
        row.tick(plain)
        lowest = min(lowest, price) if low is None else lowest
        highest = max(highest, price) if high is None else highest
        if highest - lowest > most:
            other = highest if price == lowest else lowest
            raise row.fault("price", f"and {other} are more than {MOST_TICKS:,} ticks apart")
    return lowest, highest

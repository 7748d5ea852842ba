"""What a session answers to a view, by the rules of docs/FORMATS.md.

It shares no code with the program. A view is a record whose first field is `show`.
"""
from collections.abc import Iterator

from checks.model.day import Day, Options, Order
from checks.model.files import number
from checks.model.tables import record

FIELDS = {"day": (2, 2), "ladder": (2, 2), "trades": (3, 3), "orders": (2, 3)}


class ViewFault(Exception):
    """The first fault of a view, in the words of an answer."""


def table(name: str, rows: list[str]) -> str:
    """Rows, after a line that says how many they are."""
    return f"show {name} {len(rows)}\n" + "".join(rows)


def ladder_rows(day: Day) -> Iterator[str]:
    """The shares bid and asked at market, if there are any, and at each limit, the highest
    first.
    """
    for limit in [None, *reversed(day.limits())]:
        there = [order for order in day.counted() if order.limit == limit]
        bids, asks = (
            sum(order.quantity for order in there if order.side == side) for side in ("bid", "ask")
        )
        if there:
            yield record("market" if limit is None else limit, bids, asks)


def trade_rows(day: Day, first: int) -> Iterator[str]:
    """The trades of the day from this number on."""
    for place, found in enumerate(day.tape, 1):
        if place >= first:
            yield record(place, found.bid, found.ask, found.quantity, found.tick)


def filled(day: Day, order: Order) -> int:
    """The shares of an order that the day's trades have executed."""
    return sum(trade.quantity for trade in day.tape if order.id in (trade.bid, trade.ask))


def order_rows(day: Day, member: int | None) -> Iterator[str]:
    """The open orders of all members or of one: bids and then asks, each by price and time."""
    for side in ("bid", "ask"):
        mine = [order for order in day.book.values() if order.side == side]
        for order in sorted(mine, key=Order.rank):
            if member in (None, order.member):
                yield record(
                    order.id,
                    order.member,
                    order.side,
                    "market" if order.limit is None else order.limit,
                    order.quantity,
                    order.quantity if order.peak is None else min(order.peak, order.quantity),
                    filled(day, order),
                    order.restriction,
                )


def numbered(fields: list[str], least: int, most: int) -> int:
    """The number in a view's third field, within these ends. Raises ViewFault."""
    found = number(fields[2])
    if found is None or not least <= found <= most:
        raise ViewFault("bad field 3")
    return found


def view_text(fields: list[str], day: Day, calls: int, options: Options) -> str:
    """What is answered to a view on a day of these options after `calls` calls. Raises
    ViewFault.
    """
    if len(fields) == 1:
        return f"show {day.display()}\n"
    word = fields[1]
    if word not in FIELDS:
        raise ViewFault("bad command")
    least, most = FIELDS[word]
    if not least <= len(fields) <= most:
        raise ViewFault("wrong number of fields")
    if word == "day":
        left = options["calls"] - calls
        name = day.kind() or "over"
        return f"show day {name} reference {day.reference} calls {calls} left {left}\n"
    if word == "ladder":
        return table(word, [*ladder_rows(day)])
    if word == "trades":
        return table(word, [*trade_rows(day, numbered(fields, 1, 2**32 - 1))])
    member = numbered(fields, 0, options["members"] - 1) if len(fields) > 2 else None
    return table(word, [*order_rows(day, member)])

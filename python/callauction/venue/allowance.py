"""How much of an instrument's day one member may have, so that none ends it for the others: open
orders, their shares and their value, and commands.
"""
from collections.abc import Iterable, Mapping

from callauction.venue.bounds import Bound
from callauction.venue.holdings import Own, RecordEffect, Ways, possible_orders
from callauction.venue.messages import MessageError


def check_bound(
    bound: Bound, record: str, open_: dict[int, Own], records: list[str], calls: int, high: int
) -> None:
    """Raises MessageError where a member may not have this record beside its open orders, its
    records that aren't answered, and its commands so far. What takes out or lessens may always be,
    while an order is open.
    """
    if calls >= bound.calls and not takes_out(record, open_, records):
        raise above(f"{bound.calls} commands a day")
    count = len(open_) + sum(it.startswith("enter") for it in records)
    if record.startswith("enter") and count >= bound.orders:
        raise above(f"{bound.orders} open orders")
    if bound.quantity is None and bound.value is None:
        return
    step = RecordEffect.of(record, *possible_orders(open_, records))
    for order in step.after:
        check_open(bound, order, step, high)


def check_last(calls: int, most: int) -> None:
    """Raises MessageError where a member with these commands may have no more of the last ones."""
    if calls >= most:
        raise above(f"{most} commands, while a quarter of the day's is left,")


def takes_out(record: str, open_: Mapping[int, Own], records: Iterable[str]) -> bool:
    """Whether a record deletes an open order, and none that isn't answered does."""
    word, _, number = record.partition(",")
    return word == "delete" and int(number) in open_ and record not in records


def check_open(bound: Bound, order: Own, step: RecordEffect, high: int) -> None:
    """Raises MessageError where an order can't be open beside others; what lessens it may be."""
    shares, value = sizes(step.others, high)
    least_shares = min((it.quantity for it in step.before), default=-1)
    least_value = min((it.value(high) for it in step.before), default=-1)
    if bound.quantity is not None and order.quantity > max(bound.quantity - shares, least_shares):
        raise above(f"{bound.quantity} shares in open orders")
    if bound.value is not None and order.value(high) > max(bound.value - value, least_value):
        raise above(f"a value of {bound.worth:f} in orders")


def above(what: str) -> MessageError:
    """A member has too much."""
    return MessageError("above_limit", f"a member has at most {what} of an instrument")


def sizes(orders: Iterable[Ways], high: int) -> tuple[int, int]:
    """The most shares of orders, and their greatest value in ticks times shares; at market at the
    highest tick.
    """
    shares = value = 0
    for ways in orders:
        shares += max(it.quantity for it in ways)
        value += max(it.value(high) for it in ways)
    return shares, value

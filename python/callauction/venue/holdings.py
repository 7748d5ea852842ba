"""What a member may enter where the teacher limits it: no more than its value covers, than the
shares or the money that it has, or nothing that could trade with an order of its own.

All open orders count as if they were executed, market bids at the highest price, and so do those
that aren't answered yet; an order whose change isn't answered counts as it is and as it may become.
"""
import dataclasses
from collections.abc import Iterable, Mapping
from decimal import Decimal
from typing import Self

from callauction.venue.accounts import MemberFill, position
from callauction.venue.gains import ShareValue
from callauction.venue.messages import MessageError
from callauction.venue.treatments import Limits
from callauction.words import MARKET


@dataclasses.dataclass(frozen=True)
class Own:
    """An order of a member, or one that it asks for: its limit is None at market."""

    side: str
    quantity: int
    limit: int | None

    def meets(self, other: "Own") -> bool:
        """Whether the two could trade with each other."""
        if self.side == other.side:
            return False
        bid, ask = (self, other) if self.side == "bid" else (other, self)
        return bid.limit is None or ask.limit is None or bid.limit >= ask.limit

    def value(self, high: int) -> int:
        """Its value in ticks times shares; at market at this highest tick."""
        return self.quantity * (high if self.limit is None else self.limit)


Ways = list[Own]
"""What an order may be: as it is, and as each record that isn't answered may make it."""


def order_entered(fields: list[str]) -> Own:
    """The order of a record after `enter`."""
    side, quantity, limit = fields[:3]
    return Own(side, int(quantity), None if limit == MARKET else int(limit))


def changed(before: Own, fields: list[str]) -> Own:
    """An order after a change, by its record after `change`."""
    _, quantity, limit = fields
    return Own(before.side, int(quantity), None if limit == MARKET else int(limit))


def changed_new(new: Iterable[Ways], fields: list[str]) -> Ways:
    """What one of new orders may be after a change, by its record after `change`."""
    sides = sorted({it.side for ways in new for it in ways})
    return [changed(Own(side, 0, None), fields) for side in sides]


def possible_orders(
    open_: Mapping[int, Own], records: Iterable[str]
) -> tuple[dict[int, Ways], list[Ways]]:
    """What each open order of a member may be, and the new ones that records ask for which aren't
    answered. What a change makes of an order that isn't known, which may be a new one, is one more.
    """
    own = {number: [it] for number, it in open_.items()}
    new: list[Ways] = []
    for record in records:
        word, *fields = record.split(",")
        if word == "enter":
            new.append([order_entered(fields)])
        elif word == "change" and (ways := own.get(int(fields[0]))):
            ways.append(changed(ways[0], fields))
        elif word == "change" and new:
            new.append(changed_new(new, fields))
    return own, new


@dataclasses.dataclass(frozen=True)
class RecordEffect:
    """What a record makes: what its order may be after it, nothing where it makes none larger;
    what it may be before, nothing where it is new; all other orders.
    """

    after: Ways
    before: Ways
    others: list[Ways]

    @classmethod
    def of(cls, record: str, own: Mapping[int, Ways], new: list[Ways]) -> Self:
        """What a record makes beside what `possible_orders` has found."""
        word, *fields = record.split(",")
        if word == "enter":
            return cls([order_entered(fields)], [], [*own.values(), *new])
        number = int(fields[0])
        before = own.get(number, [])
        others = [*(ways for order, ways in own.items() if order != number), *new]
        if word != "change":
            return cls([], before, others)
        if before:
            return cls([changed(before[0], fields)], before, others)
        return cls(changed_new(new, fields), [], others)


@dataclasses.dataclass(frozen=True)
class Holding:
    """What a member has: its value; its fills, and those since its value was handed out; its open
    orders, and its records that aren't answered. `high` is the highest tick, `tick_size` what one
    is in money.
    """

    value: ShareValue | None
    fills: list[MemberFill]
    since: list[MemberFill]
    orders: dict[int, Own]
    waiting: list[str]
    high: int
    tick_size: Decimal = Decimal(1)

    def check(self, limits: Limits, record: str) -> None:
        """Raises MessageError where the limits refuse the record of a message."""
        step = RecordEffect.of(record, *possible_orders(self.orders, self.waiting))
        for order in step.after:
            self._check(limits, order, step)

    def _check(self, limits: Limits, order: Own, step: RecordEffect) -> None:
        """Raises MessageError where an order can't be beside others; what lessens it may be."""
        others = step.others
        if not limits.has_own_trades and any(order.meets(it) for ways in others for it in ways):
            raise MessageError("own_trade")
        is_more = order.quantity > min((it.quantity for it in step.before), default=-1)
        if limits.is_covered and is_more:
            self._check_covered(order, others)
        if limits.shares is not None and order.side == "ask" and is_more:
            left = limits.shares + position(self.fills) - shares_of(others, "ask")
            check_shares_left("no_shares", order.quantity, left)
        if limits.money is not None and order.side == "bid":
            cost = order.value(self.high)
            least = min((it.value(self.high) for it in step.before), default=-1)
            left = limits.money - spent(self.fills) - self._cost(others)
            if cost > max(least, left):
                money = format(max(0, left) * self.tick_size, "f")
                raise MessageError("no_money", f"at most {money} more can be spent")

    def _check_covered(self, order: Own, others: list[Ways]) -> None:
        """Raises MessageError where the value doesn't cover an order beside these."""
        is_bid = order.side == "bid"
        own = self.value.quantity if self.value and self.value.side == order.side else 0
        held = position(self.since) if is_bid else -position(self.since)
        check_shares_left("not_covered", order.quantity, own - held - shares_of(others, order.side))

    def _cost(self, orders: Iterable[Ways]) -> int:
        """What the bids among these cost at most, in ticks times shares."""
        return sum(
            max((it.value(self.high) for it in ways if it.side == "bid"), default=0)
            for ways in orders
        )


def check_shares_left(code: str, quantity: int, left: int) -> None:
    """Raises MessageError where an order has more shares than there is room for."""
    if quantity > left:
        raise MessageError(code, f"at most {max(0, left)} shares more can be entered on this side")


def shares_of(orders: Iterable[Ways], side: str) -> int:
    """The most shares that the orders of a side may have."""
    return sum(max((it.quantity for it in ways if it.side == side), default=0) for ways in orders)


def spent(fills: Iterable[MemberFill]) -> int:
    """What was paid less what came in, in ticks times shares."""
    return sum(it.tick * (it.quantity if it.side == "bid" else -it.quantity) for it in fills)

"""The bounds of what one member may have of an instrument: allowance.py has what they mean."""
import dataclasses
from decimal import Decimal

from callauction.limits import MOST_CALLS, MOST_MEMBERS, MOST_OPEN
from callauction.venue.fields import Fields

EIGHTH, LEAST = 8, 64
"""Where a day says nothing: an eighth of the orders and of the commands, at least these."""
MOST_SHARES = 1_000_000_000_000


@dataclasses.dataclass(frozen=True)
class Bound:
    """The most that a member may have of one instrument: open orders; their shares, and their value
    in ticks times shares, None for no bound; commands of the day, and of these, None for no bound,
    while the last quarter is used: as many as each would have if an instrument's members were as
    many as it takes, at least LEAST, and what last_quarter.py says. `worth` is that value as money.
    """

    orders: int
    calls: int
    quantity: int | None = None
    value: int | None = None
    worth: Decimal = Decimal(0)
    last_calls: int | None = None


@dataclasses.dataclass(frozen=True)
class Bounds:
    """What a day's file says of them: 0 for the share of the instrument, or for no bound."""

    orders: int = 0
    quantity: int = 0
    value: Decimal = Decimal(0)
    calls: int = 0

    def of(self, most_open: int, most_calls: int, tick_size: Decimal) -> Bound:
        """The bound of an instrument that has at most as many open orders and commands."""
        return Bound(
            self.orders or max(LEAST, most_open // EIGHTH),
            self.calls or max(LEAST, most_calls // EIGHTH),
            self.quantity or None,
            int(self.value / tick_size) if self.value else None,
            self.value,
            None if self.calls else max(LEAST, most_calls // (MOST_MEMBERS - 1)),
        )


def bounds_from(fields: Fields) -> Bounds:
    """The bounds of a table. Raises ConfigError."""
    value = fields.price("value")
    found = Bounds(
        orders=fields.whole("orders", 0, 0, MOST_OPEN),
        quantity=fields.whole("quantity", 0, 0, MOST_SHARES),
        value=Decimal(value or "0"),
        calls=fields.whole("calls", 0, 0, MOST_CALLS),
    )
    fields.ended()
    return found

"""What the trades of a day brought those who made them: see gains_of."""
import dataclasses
import math
from collections.abc import Iterator, Mapping

import pandas

from callauction.outcomes import Playable, outcomes_of

GAINS = ("order", "member", "side", "value", "offered", "traded", "gain")
"""The columns of the gains of orders: a row for each order."""
GAINED = ("member", "bought", "sold", "gain")
"""The columns of the gains of members."""


@dataclasses.dataclass(frozen=True)
class Gains:
    """The gains of a day: a frame of orders (GAINS) and one of members (GAINED), the sum
    of the gains, and the greatest sum that any trades among the offered shares could have. All
    gains are ticks times shares.
    """

    orders: pandas.DataFrame
    members: pandas.DataFrame
    total: float
    possible: float

    @property
    def efficiency(self) -> float | None:
        """The share of the possible gain that was made; None where no gain was possible."""
        return self.total / self.possible if self.possible else None

    def __str__(self) -> str:
        share = "" if self.efficiency is None else f", efficiency {self.efficiency:.1%}"
        return f"gain {shown(self.total)} of {shown(self.possible)} possible{share}"


def shown(number: float) -> str:
    """A sum of ticks times shares, in which thousands are parted."""
    return f"{number:,.0f}" if number == int(number) else f"{number:,.2f}"


def gains_of(day: Playable, values: Mapping[int, float] | pandas.Series) -> Gains:
    """What each order, each member and all of them gained by the trades of a day.

    `values` says by an order's id what a share is worth to its member, in ticks: what a buyer would
    pay at most, a seller take at least. An order without a value is taken at its limit. A share
    that is bought gains its value less the price, one that is sold the price less its value. The
    most that was possible matches the shares that took part in the auctions, of the highest values
    bid with those of the lowest values offered. A day is what outcomes.Playable says.

    Raises ProgramError, and ValueError for a value that is no finite number and for a market order
    without a value.
    """
    orders = outcomes_of(day)
    worth = [
        _worth(values, id, None if pandas.isna(limit) else limit)
        for id, limit in zip(orders["order"], orders["limit"])
    ]
    sign = orders["side"].map({"bid": 1, "ask": -1})
    gains = sign * (worth * orders["traded"] - orders["paid"]) + 0.0
    frame = orders.assign(value=worth, gain=gains.astype("float64"))[list(GAINS)]
    return Gains(frame, _members(frame), float(frame["gain"].sum()), most_possible(frame))


def _worth(values: Mapping[int, float] | pandas.Series, id: int, limit: int | None) -> float:
    """What a share of the order with this id is worth to its member: its limit without a value."""
    value = values.get(id)
    if value is None:
        value = limit
    if value is None:
        raise ValueError(f"values: market order {id} has none")
    if not math.isfinite(found := float(value)):
        raise ValueError(f"values: that of order {id}, {value}, is no finite number")
    return found


def _members(orders: pandas.DataFrame) -> pandas.DataFrame:
    """The gains of members, each of its orders together."""
    rows = []
    for member, those in orders.groupby("member"):
        traded, side = those["traded"], those["side"]
        bought, sold = int(traded[side == "bid"].sum()), int(traded[side == "ask"].sum())
        rows.append((member, bought, sold, float(those["gain"].sum())))
    return pandas.DataFrame(rows, columns=list(GAINED))


def most_possible(orders: pandas.DataFrame) -> float:
    """The greatest gain of any trades among the offered shares of these orders (GAINS)."""
    bids = _best_first(orders[orders["side"] == "bid"], is_bid=True)
    asks = _best_first(orders[orders["side"] == "ask"], is_bid=False)
    gain = 0.0
    (value, bid), (cost, ask) = next(bids), next(asks)
    while value > cost:
        shares = min(bid, ask)
        gain += shares * (value - cost)
        bid, ask = bid - shares, ask - shares
        value, bid = (value, bid) if bid else next(bids)
        cost, ask = (cost, ask) if ask else next(asks)
    return gain


def _best_first(orders: pandas.DataFrame, is_bid: bool) -> Iterator[tuple[float, int]]:
    """The values and offered shares of orders, the best values first, and then one that nobody
    trades with.
    """
    rising = orders[orders["offered"] > 0].sort_values("value", ascending=not is_bid)
    yield from zip(rising["value"].tolist(), rising["offered"].tolist())
    yield (-math.inf if is_bid else math.inf), 0

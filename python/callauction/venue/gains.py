"""What members gain where values were handed out: a bid's owner has a value for each share, an
ask's a cost. A gain is the money that came in, less the money that went out, and what the shares
are worth that are left, or the cost of those that were sold.
"""
import dataclasses
import itertools
from collections.abc import Iterable, Sequence

Fills = Iterable[tuple[str, int, int]]
"""The side, shares and tick of each fill."""


@dataclasses.dataclass(frozen=True)
class ShareValue:
    """What a member was handed out: it may buy (`bid`) or sell (`ask`) `quantity` shares, each of
    which is worth this, in ticks, or costs it.
    """

    side: str
    tick: int
    quantity: int


@dataclasses.dataclass(frozen=True)
class Uncovered:
    """What shares come to that no value covers, in ticks: each bought one is worth `bought`, each
    sold one costs `sold`. No value may lie outside of the two: else members could gain what nobody
    was handed out.
    """

    bought: int
    sold: int

    def covers(self, tick: int) -> bool:
        """Whether a value may be this."""
        return self.bought <= tick <= self.sold


def worth_of(value: ShareValue | None, shares: int, uncovered: Uncovered) -> int:
    """What a member's shares are worth, bought less sold, in ticks times shares: below 0 where more
    were sold. Who was handed out nothing has no share covered.
    """
    own = 0 if value is None else value.tick
    most = 0 if value is None or value.side == "ask" else value.quantity
    least = 0 if value is None or value.side == "bid" else -value.quantity
    covered = min(max(shares, least), most)
    rest = shares - covered
    return covered * own + rest * (uncovered.bought if rest > 0 else uncovered.sold)


def gain_in_ticks(value: ShareValue | None, fills: Fills, uncovered: Uncovered) -> int:
    """What these fills gain, in ticks times shares: each counts, whatever its side."""
    shares = money = 0
    for side, quantity, tick in fills:
        bought = quantity if side == "bid" else -quantity
        shares += bought
        money -= bought * tick
    return money + worth_of(value, shares, uncovered)


def used_of(value: ShareValue, fills: Fills) -> int:
    """How many of a value's shares these fills have used."""
    held = sum(quantity if side == value.side else -quantity for side, quantity, _ in fills)
    return min(max(held, 0), value.quantity)


def most_gain(values: Sequence[ShareValue]) -> int:
    """The most that all could gain together, whatever they traded: above each cost and below each
    value, as many shares as can meet there.
    """
    ticks = sorted({it.tick for it in values})
    return sum((end - begin) * shares_at(values, begin) for begin, end in itertools.pairwise(ticks))


@dataclasses.dataclass(frozen=True)
class Predicted:
    """Where demand and supply of values meet: any price from `low` to `high`, in ticks, at which
    `volume` shares are traded, which all gain, or up to `most` where those are too of whom both
    gain nothing.
    """

    low: int
    high: int
    volume: int
    most: int


def predicted(values: Sequence[ShareValue]) -> Predicted | None:
    """What would be traded if all bid and asked their values, None where nobody gains by it."""
    ticks = sorted({it.tick for it in values})
    volume = max((shares_at(values, tick) for tick in ticks), default=0)
    if not volume:
        return None
    bids, asks = (steps_of(values, side) for side in ("bid", "ask"))
    low = max(tick_at(asks, volume), tick_at(bids, volume + 1, 0))
    high = min(tick_at(bids, volume), tick_at(asks, volume + 1, ticks[-1]))
    bought = max(total for tick, total in bids if tick >= high)
    sold = max(total for tick, total in asks if tick <= low)
    return Predicted(low, high, volume, min(bought, sold))


def steps_of(values: Sequence[ShareValue], side: str) -> list[tuple[int, int]]:
    """The ticks of the values of a side, the best first, and the shares up to each."""
    ordered = sorted((it for it in values if it.side == side), key=lambda it: it.tick)
    if side == "bid":
        ordered.reverse()
    totals = itertools.accumulate(it.quantity for it in ordered)
    return [(it.tick, total) for it, total in zip(ordered, totals)]


def tick_at(steps: Sequence[tuple[int, int]], share: int, default: int = 0) -> int:
    """The tick of the share of this number, from 1; the default where there is no such share."""
    return next((tick for tick, total in steps if total >= share), default)


def shares_at(values: Sequence[ShareValue], tick: int) -> int:
    """The shares that can meet above this tick: worth more to who buys, and costing no more."""
    bids = sum(it.quantity for it in values if it.side == "bid" and it.tick > tick)
    asks = sum(it.quantity for it in values if it.side == "ask" and it.tick <= tick)
    return min(bids, asks)

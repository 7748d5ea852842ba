"""A thousand zero-intelligence agents in one auction, day after day, and a picture at the end.

    PYTHONPATH=/tmp/python /usr/bin/python3 examples/agents.py agents.png

Each agent has a value of a share; half of them buy, and half sell. On each day it enters one order
whose limit is drawn at random, but never at a loss: a buyer's is at most the value, a seller's at
least. What isn't executed gets another limit before the next of the day's three auctions. Members
are 0 to 255, so the agents share one: the client of an order is the number of its agent.
"""
import dataclasses
import sys
import time
from typing import Any

import matplotlib.pyplot as pyplot
import numpy
from callauction import Auction, AuctionKind, CommandTag, Side, Uncrossed, commands

AGENTS, DAYS, SHARES, MEMBER = 1_000, 100, 100, 1
LOW, HIGH, REFERENCE = 100, 300, 200
TICKS = numpy.arange(LOW, HIGH + 1)
IS_BUYER = numpy.arange(AGENTS) % 2 == 0
SIDES = numpy.where(IS_BUYER, Side.BID, Side.ASK)


@dataclasses.dataclass
class Curves:
    """The shares that would be bought, and those that would be sold, at each of TICKS."""

    demand: Any
    supply: Any

    @classmethod
    def of(cls, bids: Any, asks: Any) -> "Curves":
        """The curves of the shares bid and offered at each tick."""
        return cls(bids[::-1].cumsum()[::-1], asks.cumsum())

    @property
    def crossing(self) -> float:
        """The middle of the ticks with the most executable volume."""
        volume = numpy.minimum(self.demand, self.supply)
        return float(TICKS[volume == volume.max()].mean())

    def draw(self, axes: Any, words: str, line: str) -> None:
        """Draws both, the ticks upright."""
        edges = numpy.arange(LOW, HIGH + 2) - 0.5
        for shares, color, name in (
            (self.demand, "#0069a6", "demand"),
            (self.supply, "#b34700", "supply"),
        ):
            axes.stairs(
                shares, edges, orientation="horizontal", baseline=None, color=color, linestyle=line,
                label=f"{name} of {words}",
            )  # fmt: skip


def limits_of(values: Any, is_buyer: Any, dice: numpy.random.Generator) -> Any:
    """A limit for each of these agents, at random between its value and the best price for it."""
    return numpy.where(is_buyer, dice.integers(LOW, values + 1), dice.integers(values, HIGH + 1))


class Day:
    """A day of all agents: the curves of its opening, the price of each auction, NaN without one,
    and its gains, in ticks times shares.
    """

    def __init__(self, auction: Auction, values: Any, dice: numpy.random.Generator) -> None:
        self.auction, self.values, self.dice = auction, values, dice
        self.prices: list[float] = []
        self.gains: list[int] = []
        auction.reset()
        limits = limits_of(values, IS_BUYER, dice)
        agents = numpy.arange(AGENTS)
        orders = commands(member=MEMBER, side=SIDES, quantity=SHARES, limit=limits, client=agents)
        auction.apply_many(orders)
        self.curves = Curves.of(*auction.ladder())
        self.uncross()
        for _ in range(len(AuctionKind) - 1):
            self.change_limits()
            self.uncross()

    def change_limits(self) -> None:
        """Another limit for each order that is open."""
        left = self.auction.orders()
        agents = left["client"]
        limits = limits_of(self.values[agents], IS_BUYER[agents], self.dice)
        self.auction.apply_many(
            commands(
                tag=CommandTag.CHANGE, member=MEMBER, id=left["id"], quantity=left["quantity"],
                limit=limits,
            )
        )  # fmt: skip

    def uncross(self) -> None:
        """The next auction of the day, and what it brought."""
        reply, done = self.auction.uncross_orders()
        assert isinstance(reply, Uncrossed)
        self.prices.append(numpy.nan if reply.price is None else reply.price.tick)
        gains = (self.values[done["client"]] - done["tick"]) * done["filled"].astype(int)
        self.gains.append(int(numpy.where(done["side"] == Side.BID, gains, -gains).sum()))


def most_possible(values: Any) -> int:
    """What all agents gain at most: the highest values of buyers with the lowest of sellers."""
    gains = numpy.sort(values[IS_BUYER])[::-1] - numpy.sort(values[~IS_BUYER])
    return int(gains[gains > 0].sum()) * SHARES


def draw(path: str, values: Any, days: list[Day], words: str) -> None:
    """The curves of the last opening beside those of the values, and the prices of all days."""
    those = (values[IS_BUYER], values[~IS_BUYER])
    counts = [numpy.bincount(each - LOW, minlength=len(TICKS)) for each in those]
    worth = Curves.of(*(count * SHARES for count in counts))
    figure, (left, right) = pyplot.subplots(
        1, 2, figsize=(10, 4.6), layout="constrained", sharey=True, width_ratios=(3, 2)
    )
    days[-1].curves.draw(left, "orders", "-")
    worth.draw(left, "values", ":")
    left.set(xlabel="quantity (shares)", ylabel="limit and price (ticks)", title="the last opening")
    left.xaxis.set_major_formatter("{x:,.0f}")
    left.legend(fontsize="small", loc="center right")
    for place, (kind, mark) in enumerate(zip(AuctionKind, "o+x")):
        prices = [day.prices[place] for day in days]
        right.plot(range(1, DAYS + 1), prices, mark, markersize=4, label=kind.name.lower())
    right.axhline(worth.crossing, color="#5c5c5c", linestyle=":", label="where the values cross")
    right.set(xlabel="day", title=words)
    right.legend(fontsize="small")
    figure.savefig(path)


def main(path: str) -> None:
    dice = numpy.random.default_rng(1)
    values = dice.integers(LOW, HIGH + 1, AGENTS)
    begin = time.perf_counter()
    with Auction(LOW, HIGH, REFERENCE) as auction:
        days = [Day(auction, values, dice) for _ in range(DAYS)]
    seconds = time.perf_counter() - begin
    gains = numpy.cumsum(numpy.mean([day.gains for day in days], axis=0)) / most_possible(values)
    words = ", ".join(f"{share:.0%}" for share in gains)
    draw(path, values, days, f"efficiency {words}")
    prices = numpy.array([day.prices for day in days])
    low, high = numpy.nanmin(prices), numpy.nanmax(prices)
    print(f"{DAYS} days of {AGENTS:,} agents in {seconds:.1f} s")
    print(f"prices from {low:.0f} to {high:.0f}, efficiency after each auction {words}")


if __name__ == "__main__":
    main(sys.argv[1] if len(sys.argv) > 1 else "agents.png")

#!/usr/bin/env python3
"""An audit of an extract in plain Python, which is measured beside the package:
`bench/plain_audit.py FILE REFERENCE`. It reads the rows one by one and keeps the open orders in a
dictionary; at each uncross it computes the price, the fills and the trades by the rules of
docs/MODEL.md, and compares them. Prints how much differs.

It knows no doubt, no interruption and no restriction, so it does less than what it is beside.
"""
import csv
import itertools
import sys
from collections.abc import Iterator

Order = list[int]
"""A side (0 a bid), a price in thousandths (0 a market order) and the open shares."""
Trade = tuple[str, str, int]


def ladder(orders: dict[str, Order], side: int) -> tuple[int, dict[int, int]]:
    """The shares of a side's market orders, and of its limit orders by price."""
    market, limits = 0, dict[int, int]()
    for of, price, shares in orders.values():
        if of != side:
            continue
        if price:
            limits[price] = limits.get(price, 0) + shares
        else:
            market += shares
    return market, limits


def price_of(orders: dict[str, Order], reference: int) -> tuple[int, int, int]:
    """The price (0 for none), the volume, and the surplus, below 0 on the ask side."""
    (market_bids, bids), (market_asks, asks) = ladder(orders, 0), ladder(orders, 1)
    prices = sorted({*bids, *asks})
    supply = list(itertools.accumulate((asks.get(it, 0) for it in prices), initial=market_asks))[1:]
    falling = (bids.get(it, 0) for it in reversed(prices))
    demand = list(itertools.accumulate(falling, initial=market_bids))[:0:-1]
    if not prices:
        volume = min(market_bids, market_asks)
        return (reference if volume else 0), volume, market_bids - market_asks
    found = [(-min(d, s), abs(d - s), p, d - s) for p, d, s in zip(prices, demand, supply)]
    best = min(each[:2] for each in found)
    if not best[0]:
        return 0, 0, 0
    those = [each for each in found if each[:2] == best]
    above = [each for each in those if each[3] > 0]
    below = [each for each in those if each[3] < 0]
    low = above[-1] if above else those[0]
    high = below[0] if below else those[-1]
    if above and not below:
        low = high = above[-1]
    if below and not above:
        low = high = below[0]
    ends = sorted([low, high], key=lambda each: each[2])
    price = min(max(reference, ends[0][2]), ends[1][2])
    at = ends[0] if price <= ends[0][2] else ends[1]
    return price, -best[0], at[3]


def fills(
    orders: dict[str, Order], side: int, price: int, volume: int
) -> Iterator[tuple[str, int]]:
    """The executed orders of a side in their priority, with their shares."""
    sign = 1 if side else -1
    those = [
        (sign * at if at else -(10**12), order, shares)
        for order, (of, at, shares) in orders.items()
        if of == side and (not at or sign * (price - at) >= 0)
    ]
    those.sort(key=lambda each: each[0])
    for _, order, shares in those:
        done = min(shares, volume)
        if not done:
            return
        volume -= done
        yield order, done


def trades(bids: list[tuple[str, int]], asks: list[tuple[str, int]]) -> Iterator[Trade]:
    """Both sides laid end to end."""
    left = asks[::-1]
    for bid, shares in bids:
        while shares:
            ask, open_shares = left.pop()
            done = min(shares, open_shares)
            yield bid, ask, done
            shares -= done
            if done < open_shares:
                left.append((ask, open_shares - done))


class Day:
    """The open orders of an instrument in the order of time, and what is due of its last auction.
    """

    def __init__(self, reference: int) -> None:
        self.orders: dict[str, Order] = {}
        self.reference = reference
        self.due: set[Trade] = set()
        self.differing = 0

    def take(self, row: dict[str, str]) -> None:
        """A row of the extract."""
        event, order = row["event"], row["order"]
        price = int(row["price"].replace(".", "")) if row["price"] else 0
        if event == "new":
            self.orders[order] = [int(row["side"] == "ask"), price, int(row["quantity"])]
        elif event == "replace":
            self.replace(order, price, int(row["quantity"]))
        elif event == "cancel":
            self.orders.pop(order, None)
        elif event == "uncross":
            self.uncross(row, price)
        else:
            trade = row["bid"], row["ask"], int(row["quantity"])
            self.differing += trade not in self.due
            self.due.discard(trade)

    def replace(self, order: str, price: int, shares: int) -> None:
        side, was, open_shares = self.orders[order]
        if was != price or shares > open_shares:
            del self.orders[order]
        self.orders[order] = [side, price, shares]

    def uncross(self, row: dict[str, str], published: int) -> None:
        """Compares the result, and executes the lawful one."""
        price, volume, surplus = price_of(self.orders, self.reference)
        side = "bid" if surplus > 0 else "ask" if surplus else "none"
        found = (price, volume, abs(surplus), side)
        self.differing += found != (
            published, int(row["quantity"]), int(row["surplus"]), row["side"]
        )  # fmt: skip
        both = [[*fills(self.orders, of, price, volume)] for of in (0, 1)]
        self.differing += len(self.due) > 0
        self.due = {*trades(*both)}
        for order, done in itertools.chain(*both):
            self.orders[order][2] -= done
            if not self.orders[order][2]:
                del self.orders[order]
        self.reference = price or self.reference


def main() -> int:
    days: dict[str, Day] = {}
    with open(sys.argv[1], encoding="ascii", newline="") as text:
        for row in csv.DictReader(text):
            name = row.get("isin", "")
            if name not in days:
                days[name] = Day(int(sys.argv[2].replace(".", "")))
            days[name].take(row)
    print("differing", sum(day.differing + bool(day.due) for day in days.values()))
    return 0


if __name__ == "__main__":
    sys.exit(main())

#!/usr/bin/env python3
"""Writes a lawful extract for a measure: `bench/write_extract.py FILE ROWS [INSTRUMENTS]`. Of each
instrument three auctions, in each phase as many new orders, replaces and cancels; what is published
is what bench/plain_audit.py computes. The rows of instruments are mixed as they come in time.
"""
import csv
import itertools
import pathlib
import random
import sys
from collections.abc import Iterator

from plain_audit import Day, fills, price_of, trades

COLUMNS = ("time", "isin", "event", "order", "member", "side", "price", "quantity", "surplus",
           "auction", "trades", "bid", "ask")  # fmt: skip
REFERENCE = 20_050
MOST_OPEN = 55_000
STARTS = (8 * 3600, 12 * 3600, 17 * 3600)
SIDES = ("bid", "ask")
Row = dict[str, object]


def shown(price: int) -> str:
    """A price of thousandths as a decimal."""
    return f"{price / 1000:.3f}" if price else ""


class Writer:
    """A day of an instrument, row by row."""

    def __init__(self, name: str, rows: int, seed: int) -> None:
        self.name, self.rows = name, rows
        self.chance = random.Random(seed)
        self.day = Day(REFERENCE)
        self.ids: list[str] = []
        self.count = 0
        self.member: dict[str, str] = {}

    def phases(self) -> Iterator[tuple[float, Row]]:
        """The rows of the day with their seconds."""
        for start, auction in zip(STARTS, ("opening", "intraday", "closing")):
            steps = self.rows // 3
            for step in range(steps):
                seconds = start + 3000 * step / steps
                yield seconds, {"time": clock(seconds), "isin": self.name, **self.step()}
            for row in self.uncross(auction):
                yield start + 3001, {"time": clock(start + 3001), "isin": self.name, **row}

    def step(self) -> Row:
        """A row of an order."""
        chance, orders = self.chance, self.day.orders
        kind = chance.random() + (len(orders) > MOST_OPEN) * 0.5
        order = chance.choice(self.ids) if self.ids else ""
        if kind < 0.5 or order not in orders:
            return self.enter()
        row: Row = {"order": order, "member": self.member[order]}
        if kind < 0.8:
            price = orders[order][1] if chance.random() < 0.5 else self.price()
            quantity = max(1, orders[order][2] + chance.choice((-10, -5, 20)))
            self.day.replace(order, price, quantity)
            return {"event": "replace", **row, "price": shown(price), "quantity": quantity}
        del orders[order]
        return {"event": "cancel", **row}

    def price(self) -> int:
        if self.chance.random() < 0.03:
            return 0
        return REFERENCE + 5 * round(self.chance.gauss(0, 25))

    def enter(self) -> Row:
        self.count += 1
        order = f"{self.name[-4:]}{self.count:08X}"
        self.ids.append(order)
        if len(self.ids) > MOST_OPEN:
            self.ids = [it for it in self.ids if it in self.day.orders]
        side, price = self.chance.randrange(2), self.price()
        quantity = self.chance.choice((10, 50, 100, 300, 1000))
        self.day.orders[order] = [side, price, quantity]
        self.member[order] = f"M{self.chance.randrange(200)}"
        named = {"order": order, "member": self.member[order], "side": SIDES[side]}
        return {"event": "new", **named, "price": shown(price), "quantity": quantity}

    def uncross(self, auction: str) -> Iterator[Row]:
        """The rows of a result, after which the book has what it leaves."""
        day = self.day
        price, volume, surplus = price_of(day.orders, day.reference)
        both = [[*fills(day.orders, side, price, volume)] for side in (0, 1)]
        made = [*trades(*both)]
        side = "bid" if surplus > 0 else "ask" if surplus else "none"
        yield {"event": "uncross", "side": side, "price": shown(price), "quantity": volume,
               "surplus": abs(surplus), "auction": auction, "trades": len(made)}  # fmt: skip
        for bid, ask, shares in made:
            yield {"event": "trade", "price": shown(price), "quantity": shares, "auction": auction,
                   "bid": bid, "ask": ask}  # fmt: skip
        for order, done in itertools.chain(*both):
            day.orders[order][2] -= done
            if not day.orders[order][2]:
                del day.orders[order]
        day.reference = price or day.reference


def clock(seconds: float) -> str:
    """Seconds of a day as a time."""
    minute, second = divmod(seconds, 60)
    return f"2026-11-24T{int(minute) // 60:02}:{int(minute) % 60:02}:{second:09.6f}"


def write(path: pathlib.Path, rows: int, instruments: int = 1) -> None:
    """Writes the extract, with the column isin where it is of several instruments."""
    writers = [Writer(f"DE{k:010}", rows // instruments, k) for k in range(instruments)]
    found = [row for writer in writers for row in writer.phases()]
    found.sort(key=lambda each: each[0])
    names = COLUMNS if instruments > 1 else [name for name in COLUMNS if name != "isin"]
    with open(path, "w", encoding="ascii", newline="") as out:
        table = csv.DictWriter(out, names, extrasaction="ignore", lineterminator="\n")
        table.writeheader()
        table.writerows(row for _, row in found)


if __name__ == "__main__":
    write(pathlib.Path(sys.argv[1]), int(sys.argv[2]), int(sys.argv[3]) if sys.argv[3:] else 1)

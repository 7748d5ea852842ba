#!/usr/bin/env python3
"""Writes the order files that speed is measured on: `orders.py KIND COUNT`, COUNT commands.

The same KIND and COUNT always give the same file. No command of any is refused, on a board of the
options that `bench/bench run` gives it: which orders are open is known here, so each change and
each delete names one that is, by its own member, and the book never fills.

- `mixed-1000`, `mixed-65536`: entries until a book of 3,000 orders over 1,000 ticks, or of 60,000
  over 65,536, is there, and then 10 % asks, 25 % changes, and as many entries as deletes, so that
  the book stays within a tenth of that. Changes and deletes take one of the 3,000 orders that came
  last. Limits lie around the middle, so that an ask finds a price.
- `trading`: three auctions of a third of the commands each. Bids and asks of the same quantity all
  in all, in an order of their own, meet at one tick, and all are filled whole by the uncross.
- `asks`: nothing but asks for the indicative price, on an empty book.
- `ladder`: three auctions, with an order at each tick before each uncross: bids at the even ticks,
  asks at the odd ones, all of the same quantity. Half of them are filled whole by the uncross, and
  before the next one others come in their place. 131,075 commands make 65,536 ticks.
"""
import random
import sys
from collections.abc import Iterator

MEMBERS = 4
MOST_SHARES = 1_000
RECENT = 3_000
BOOKS = {"mixed-1000": (1_000, 3_000), "mixed-65536": (65_536, 60_000)}  # ticks, open orders
TRADING_TICK = 500
LADDER_SHARES = 100
MOST_TICKS = 65_536
MOST_OPEN = 65_536


class Market:
    """The orders that are open, with their members, and the dice that say what comes next."""

    def __init__(self, ticks: int, dice: random.Random) -> None:
        self.ticks, self.dice = ticks, dice
        self.open: list[tuple[int, int]] = []  # member and id
        self.next_id = 1

    def terms(self) -> str:
        """A quantity in shares and a limit in ticks, near the middle of the ladder."""
        middle, spread = self.ticks // 2, max(10, self.ticks // 20)
        tick = min(self.ticks, max(1, round(self.dice.gauss(middle, spread))))
        return f"{self.dice.randint(1, MOST_SHARES)},{tick}"

    def enter(self) -> str:
        """A new order, which is accepted: its terms are good, and the book has room."""
        member = self.dice.randrange(MEMBERS)
        self.open.append((member, self.next_id))
        self.next_id += 1
        return f"{member},enter,{self.dice.choice(['bid', 'ask'])},{self.terms()}"

    def recent(self) -> int:
        """The place of one of the open orders that came last."""
        return self.dice.randrange(max(0, len(self.open) - RECENT), len(self.open))

    def change(self) -> str:
        """Other terms for an open order."""
        member, order = self.open[self.recent()]
        return f"{member},change,{order},{self.terms()}"

    def delete(self) -> str:
        """An open order goes."""
        place = self.recent()
        member, order = self.open[place]
        self.open[place] = self.open[-1]
        self.open.pop()
        return f"{member},delete,{order}"


def mixed(ticks: int, size: int, count: int, dice: random.Random) -> Iterator[str]:
    """Commands on a book of `size` orders, or of half of them where there are too few commands."""
    market = Market(ticks, dice)
    size = min(size, count // 2)
    for _ in range(size):
        yield market.enter()
    for _ in range(count - size):
        roll = dice.random()
        is_low, is_high = len(market.open) * 10 <= size * 9, len(market.open) * 11 >= size * 12
        if roll < 0.10:
            yield f"{dice.randrange(MEMBERS)},ask"
        elif roll < 0.35 and market.open:
            yield market.change()
        elif is_low or not market.open or (roll < 0.675 and not is_high):
            yield market.enter()
        else:
            yield market.delete()


def auction(commands: int, dice: random.Random) -> Iterator[str]:
    """Orders that fill each other whole, and the uncross; an ask where they would be uneven."""
    pairs = (commands - 1) // 2
    if commands % 2 == 0:
        yield "0,ask"
    bids = [dice.randint(1, 9) * 100 for _ in range(pairs)]
    asks = bids.copy()
    dice.shuffle(asks)
    for bid, ask in zip(bids, asks):
        for side, quantity in (("bid", bid), ("ask", ask)):
            yield f"{dice.randrange(MEMBERS)},enter,{side},{quantity},{TRADING_TICK}"
    yield "0,uncross"


def trading(count: int, dice: random.Random) -> Iterator[str]:
    """Three auctions, and questions for the first trade where the count isn't a multiple of 3."""
    for _ in range(3):
        yield from auction(count // 3, dice)
    for _ in range(count % 3):
        yield "0,trade,1"


def ladder_orders(ticks: list[int], dice: random.Random) -> Iterator[str]:
    """An order at each of these ticks, in an order of their own."""
    dice.shuffle(ticks)
    for tick in ticks:
        side = "ask" if tick % 2 else "bid"
        yield f"{dice.randrange(MEMBERS)},enter,{side},{LADDER_SHARES},{tick}"


def ladder(count: int, dice: random.Random) -> Iterator[str]:
    """Three auctions with an order at each tick, and asks before the last uncross where the count
    isn't that of such a file.

    Demand and supply meet in the middle of the ticks, of which there are a multiple of four: the
    bids above it and the asks below it are filled, whatever the reference.
    """
    ticks = min(MOST_TICKS, (count - 3) // 8 * 4)
    filled = [tick for tick in range(1, ticks + 1) if (tick > ticks // 2) == (tick % 2 == 0)]
    yield from ladder_orders(list(range(1, ticks + 1)), dice)
    yield "0,uncross"
    yield from ladder_orders(filled, dice)
    yield "0,uncross"
    yield from ladder_orders(filled, dice)
    for _ in range(count - 3 - 2 * ticks):
        yield "0,ask"
    yield "0,uncross"


def records(kind: str, count: int) -> Iterator[str]:
    """The records of a file, without their line ends.

    Raises KeyError for another kind, and ValueError for a count of trading or of ladder that is
    too small for three auctions, or of trading that has more orders in one than may be open.
    """
    dice = random.Random(20261122)
    if kind == "trading":
        if not 9 <= count <= 3 * MOST_OPEN:
            raise ValueError(f"{count} commands of trading")
        return trading(count, dice)
    if kind == "ladder":
        if count < 11:
            raise ValueError(f"{count} commands of ladder")
        return ladder(count, dice)
    if kind == "asks":
        return ("1,ask" for _ in range(count))
    ticks, size = BOOKS[kind]
    return mixed(ticks, size, count, dice)


def main() -> None:
    kind, count = sys.argv[1], int(sys.argv[2])
    sys.stdout.writelines(line + "\n" for line in records(kind, count))


if __name__ == "__main__":
    main()

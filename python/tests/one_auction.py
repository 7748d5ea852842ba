"""Auctions from the book at the end of the call phase, by the checks' own model."""
import dataclasses
import random
from collections.abc import Iterator
from typing import Any

import pandas
from callauction.verdict import Verdict, audit_auction
from extracts import price_of

from checks.model import day as model

LOW, HIGH = 995, 1010
AUCTIONS = ("opening", "intraday", "closing")


@dataclasses.dataclass
class Resting:
    """An order of the continuous book."""

    order: str
    member: str
    side: str
    tick: int | None
    open: int
    restriction: str
    time: str
    sequence: int


@dataclasses.dataclass
class Auction:
    """An auction of the day: the book at the end of its call phase, and what was published."""

    name: str
    book: pandas.DataFrame
    published: dict[str, Any]
    reference: str

    def audit(self, **options: Any) -> Verdict:
        return audit_auction(self.book, self.published, reference=self.reference, **options)


class Market:
    """A day of continuous trading with three auctions: between these an order trades at once with
    the best ones of the other side, at their prices, and rests with what is left.
    """

    def __init__(self, seed: int) -> None:
        self.chance = random.Random(seed)
        self.book: list[Resting] = []
        self.reference = self.chance.randint(LOW, HIGH)
        self.count = 0

    def auctions(self) -> Iterator[Auction]:
        for number, name in enumerate(AUCTIONS):
            for _ in range(self.chance.randint(0, 8) if number else 0):
                self.trade_at_once(self.new_order(is_limited=True))
            for _ in range(self.chance.randint(0, 8)):
                self.book.append(self.new_order(is_limited=False))
            yield self.auction(number, name)

    def new_order(self, is_limited: bool) -> Resting:
        chance = self.chance
        self.count += 1
        tick = None if not is_limited and chance.random() < 0.2 else chance.randint(LOW, HIGH)
        restriction = "" if is_limited else chance.choice(["", "", "", "closing"])
        second = self.count // 3
        return Resting(
            f"A{self.count:04}",
            chance.choice(["Adler", "Birk", "Cohn"]),
            chance.choice(["bid", "ask"]),
            tick,
            chance.choice([10, 20, 50, 60]),
            restriction,
            f"{9 + second // 60:02}:{second % 60:02}:00",
            self.count,
        )

    def trade_at_once(self, order: Resting) -> None:
        """Trades an order with those of the other side that it meets, and rests it."""
        sign = 1 if order.side == "bid" else -1
        others = [it for it in self.book if it.side != order.side and not it.restriction]
        for other in sorted(others, key=lambda it: sign * (it.tick or 0)):
            if order.tick is None or other.tick is None or sign * (order.tick - other.tick) < 0:
                continue
            shares = min(order.open, other.open)
            order.open -= shares
            other.open -= shares
            self.reference = other.tick if shares else self.reference
        self.book = [it for it in [*self.book, order] if it.open > 0]

    def auction(self, number: int, name: str) -> Auction:
        """The auction by the model, whose fills leave the book."""
        day = model.Day(LOW, HIGH, self.reference, 1000, None)
        day.auction = number
        for it in self.book:
            day.apply(1, ("enter", it.side, it.tick, it.open, None, it.restriction))
        book, reference = self.frame(), price_of(self.reference)
        reply = day.apply(0, ("uncross",)).split()
        published: dict[str, Any] = {"auction": name, "price": "no price"}
        if reply[1] == "price":
            published = dict(auction=name, price=price_of(int(reply[2])), volume=int(reply[4]),
                             surplus=int(reply[6]), side=reply[7])
        rows = [(self.book[it.bid - 1].order, self.book[it.ask - 1].order, it.quantity,
                 price_of(it.tick)) for it in day.tape]
        trades = pandas.DataFrame(rows, columns=["bid", "ask", "quantity", "price"])
        published["trades"] = self.chance.choice([trades, trades.sample(frac=1, random_state=1)])
        for trade in day.tape:
            self.book[trade.bid - 1].open -= trade.quantity
            self.book[trade.ask - 1].open -= trade.quantity
        self.book = [it for it in self.book if it.open > 0]
        self.reference = day.reference
        return Auction(name, book, published, reference)

    def frame(self) -> pandas.DataFrame:
        """The book in any order of its rows; time and sequence say the priority."""
        rows = [(it.order, it.member, it.side, price_of(it.tick) or None, it.open, it.restriction,
                 it.time, it.sequence) for it in self.book]
        columns = ["order", "member", "side", "price", "open", "restriction", "time", "sequence"]
        found = pandas.DataFrame(rows, columns=columns)
        return found.sample(frac=1, random_state=self.count) if len(found) else found

"""Extracts for tests: random days by the checks' own model of the rules (checks/model), as
another system records them, in many shapes, and with planted faults.
"""
import copy
import dataclasses
import random
import sys
from collections.abc import Callable
from decimal import Decimal
from pathlib import Path
from typing import Any

TOP = Path(__file__).resolve().parent.parent.parent
sys.path.insert(0, str(TOP))

from checks.model import day as model  # noqa: E402

AUCTIONS = ("opening", "intraday", "closing")
LOW, HIGH = 995, 1010
OPERATOR, FIRST = 0, 1
Rows = list[dict[str, Any]]
RESULTS = ("price", "quantity", "surplus", "side", "auction", "trades")
"""What is published in a row uncross."""


@dataclasses.dataclass
class Extract:
    """A recorded day: its rows in the columns of an extract, as texts, and its first reference.

    `lawful` has for each row uncross the tick (None for no price), the number of trades and of
    filled orders, and whether it was interrupted.
    """

    rows: Rows
    reference: str
    range: str | None
    lawful: list["Outcome"]

    def copy(self) -> "Extract":
        return copy.deepcopy(self)

    def places(self, event: str) -> list[int]:
        """The places of the rows of an event."""
        return [place for place, row in enumerate(self.rows) if row["event"] == event]


@dataclasses.dataclass(frozen=True)
class Outcome:
    """What the model gives at an uncross."""

    tick: int | None
    trades: int
    filled: int
    is_interrupted: bool


def price_of(tick: int | None) -> str:
    """The price of a tick as a text; empty for none."""
    return "" if tick is None else str(Decimal(tick) / 100)


class Recorder:
    """A day of the model that is recorded row by row."""

    def __init__(self, chance: random.Random) -> None:
        self.chance = chance
        self.reference = chance.randint(LOW, HIGH)
        self.range = chance.choice([None, None, None, 1, 3])
        self.day = model.Day(LOW, HIGH, self.reference, 1000, self.range)
        self.rows: Rows = []
        self.lawful: list[Outcome] = []
        self.seconds = 9 * 3600
        self.gone: list[int] = []

    def add(self, event: str, **cells: object) -> None:
        """A row, some time after the one before it."""
        self.seconds += self.chance.choice([0, 1, 1, 7])
        clock = divmod(self.seconds, 3600)
        minute, second = divmod(clock[1], 60)
        given = {name: str(it) for name, it in cells.items() if it not in (None, "")}
        time = f"{clock[0]:02}:{minute:02}:{second:02}"
        self.rows.append({"event": event, "time": time, **given})

    def enter(self) -> None:
        chance, day = self.chance, self.day
        side = chance.choice(["bid", "ask"])
        limit = None if chance.random() < 0.2 else chance.randint(LOW + 1, HIGH - 1)
        quantity = chance.choice([10, 20, 50, 60, 1500])
        peak = chance.choice([5, 10]) if limit and chance.random() < 0.15 else None
        restriction = chance.choice([""] * 6 + ["opening", "closing"])
        member = chance.randint(1, 3)
        reply = day.apply(member, ("enter", side, limit, quantity, peak, restriction))
        if reply.startswith("entered"):
            id = int(reply.split()[1])
            self.add("new", order=f"N{id}", member=f"M{member}", side=side, quantity=quantity,
                     price=price_of(limit), peak=peak, restriction=restriction)

    def replace(self) -> None:
        order = self._some_order()
        if order is None:
            return
        chance = self.chance
        limit = order.limit if chance.random() < 0.5 else chance.randint(LOW + 1, HIGH - 1)
        quantity = max(1, order.quantity + chance.choice([-5, 0, 5, 30]))
        reply = self.day.apply(order.member, ("change", order.id, limit, quantity))
        if reply.startswith("changed"):
            self.add("replace", order=f"N{order.id}", member=f"M{order.member}", side=order.side,
                     quantity=quantity, price=price_of(limit),
                     kept="true" if reply == "changed kept" else "false")

    def cancel(self) -> None:
        order = self._some_order()
        if order is None:
            return
        part = self.chance.choice([None, None, 5])
        if part is not None and part < order.quantity:
            left = order.quantity - part
            self.day.apply(order.member, ("change", order.id, order.limit, left))
        else:
            part = None
            self.day.apply(order.member, ("delete", order.id))
            self.gone.append(order.id)
        self.add("cancel", order=f"N{order.id}", member=f"M{order.member}", quantity=part)

    def uncross(self) -> None:
        """The uncross and the trades, in the order in which they were made."""
        auction, done = self.day.kind(), len(self.day.tape)
        reply = self.day.apply(OPERATOR, ("uncross",))
        words = reply.split()
        trades = self.day.tape[done:]
        self.seconds += 60
        tick = int(words[2]) if words[1] == "price" else None
        orders = {("bid", it.bid) for it in trades} | {("ask", it.ask) for it in trades}
        is_interrupted = words[0] == "interrupted"
        self.lawful.append(Outcome(tick, len(trades), len(orders), is_interrupted))
        if tick is None:
            self.add("uncross", auction=auction, quantity="0")
        else:
            count = None if is_interrupted else len(trades)
            self.add("uncross", auction=words[0], price=price_of(tick), quantity=words[4],
                     surplus=words[6], side=words[7], trades=count)
        for each in trades:
            self.add("trade", bid=f"N{each.bid}", ask=f"N{each.ask}", quantity=each.quantity,
                     price=price_of(tick), bid_member=f"M{each.bid_member}",
                     ask_member=f"M{each.ask_member}", auction=auction)
            self.rows[-1]["time"] = self.rows[-1 - trades.index(each) - 1]["time"]
        self.seconds += 60

    def _some_order(self) -> Any:
        orders = list(self.day.book.values())
        return self.chance.choice(orders) if orders else None


def random_day(seed: int, most: int = 10) -> Extract:
    """A whole day of three auctions, each with up to `most` events before it."""
    chance = random.Random(seed)
    recorder = Recorder(chance)
    steps: list[Callable[[], None]] = [recorder.enter] * 6 + [recorder.replace, recorder.cancel]
    while recorder.day.kind():
        for _ in range(chance.randint(0, most)):
            chance.choice(steps)()
        recorder.uncross()
    span = None if recorder.range is None else price_of(recorder.range)
    return Extract(recorder.rows, price_of(recorder.reference), span, recorder.lawful)

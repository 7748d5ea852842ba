"""What the lessons of python/notebooks use: small books, exercises that look at what was to be
kept, and a slider. All prices and trades are the proved library's and program's.
"""
import dataclasses
import math
import numbers
from collections.abc import Callable, Mapping, Sequence
from typing import Any, cast

import pandas

from callauction import plot
from callauction.library import ffi, lib
from callauction.limits import MOST_QUANTITY
from callauction.outcomes import queue_of
from callauction.pages import counted
from callauction.reasons import Explanation
from callauction.recording import RecordedAuction
from callauction.words import Refused, Reply, Side
from callauction.written import text_of

BID, ASK = Side.BID, Side.ASK
LessonOrder = tuple[Side, int, int | None]
"""An order of a lesson: its side, its shares, and its limit in ticks, None at market."""
LOW, HIGH = 1, 1000
"""The lowest and the highest tick of a lesson's auctions."""


def auction_of(
    *orders: LessonOrder, reference: int = 200, range: int | None = None
) -> RecordedAuction:
    """An auction with these orders, the first one of member 1, the second one of member 2 and so
    on. Raises RefusedError for one that is refused.
    """
    auction = RecordedAuction(low=LOW, high=HIGH, reference=reference, range=range)
    for member, (side, quantity, limit) in enumerate(orders, 1):
        auction.enter(member, side, quantity, limit, check=True)
    return auction


def show(auction: RecordedAuction, command: int | None = None) -> Explanation:
    """Draws the book, and answers why it has its price."""
    plot.book(auction, command)
    return auction.explain(command)


def said(reply: Reply) -> str:
    """A reply as the program prints it, with the reason of a refusal."""
    if isinstance(reply, Refused):
        return f"refused: {ffi.string(lib.callauction_refusal_text(reply.refusal)).decode()}"
    return text_of(reply)


def executed(auction: RecordedAuction) -> pandas.Series:
    """The shares of each order, by its number, that an uncross now executes."""
    orders = queue_of(auction).orders.set_index("order").sort_index()
    return cast(pandas.Series, orders["executed"])


# ---- exercises


@dataclasses.dataclass(frozen=True)
class Exercise:
    """A book that is kept, and what it is to become by `more` orders that are added to it.

    Wanted are, where they are said: the `price` in ticks, by the `rule` that the table of books
    names; the shares that an uncross executes of orders, by their numbers (`executed`); the pairs
    of a bid and an ask that trade (`pairs`). With `is_off_limits` the price is to be the limit of
    no order. An added order is to have this `side` and `quantity`, and with `is_market` no limit.
    """

    kept: Sequence[LessonOrder]
    more: int = 1
    reference: int = 200
    range: int | None = None
    price: int | None = None
    rule: str | None = None
    executed: Mapping[int, int] = dataclasses.field(default_factory=dict)
    pairs: Sequence[tuple[int, int]] | None = None
    is_off_limits: bool = False
    side: Side | None = None
    quantity: int | None = None
    is_market: bool = False

    def check(self, *added: object, reference: object = None, **others: object) -> str:
        """Whether the kept book and these orders are what is wanted: `solved`, or what is missing.
        An order is `(side, shares, limit)`. A `reference` other than the exercise's is taken only
        where no order may be added. Whatever is given, the answer is a sentence.
        """
        if any(map(_has_dots, [*added, reference, *others.values()])):
            return f"not yet: {self._wanted()} in the place of the dots"
        fault = self._added_fault(added, reference) if not others else self._form()
        if fault:
            return f"not yet: {fault}"
        opened = self.reference if reference is None else cast(int, reference)
        with RecordedAuction(LOW, HIGH, opened, range=self.range) as auction:
            for member, order in enumerate([*self.kept, *cast("list[LessonOrder]", added)], 1):
                reply = auction.enter(member, *order)
                if isinstance(reply, Refused):
                    return f"not yet: order {member} is {said(reply)}"
            missing = [*self._price_faults(auction), *self._trade_faults(auction)]
            if not missing:
                return "solved"
            return "\n".join(["not yet:", *missing, *auction.explain()])

    def _wanted(self) -> str:
        """What is to be given."""
        return "put side, shares and limit of an order" if self.more else "put a reference"

    def _form(self) -> str:
        """How it is given."""
        return (
            "give an order in brackets of its own, check((side, shares, limit))"
            if self.more
            else "give no order but a reference, such as check(reference=300)"
        )

    def _added_fault(self, added: Sequence[object], reference: object) -> str:
        """What is wrong with the orders themselves, or with a reference that is to be kept."""
        if any(isinstance(it, str) or not isinstance(it, Sequence) for it in added):
            return self._form()
        if len(added) != self.more:
            if not self.more:
                return self._form()
            were = "was" if len(added) <= 1 else "were"
            kept = f"the {counted(len(self.kept), 'order')} of the book"
            more = counted(self.more, "order")
            return f"add {more} to {kept}; {len(added) or 'none'} {were} added"
        if reference is not None and self.more:
            return f"keep the reference, {self.reference}"
        if reference is not None and not _is_tick(reference):
            return f"the reference is a tick from {LOW} to {HIGH}, not {_shown(reference)}"
        for place, order in enumerate(added, len(self.kept) + 1):
            if fault := _order_fault(cast("Sequence[object]", order)) or self._other_fault(order):
                return f"order {place}: {fault}"
        return ""

    def _other_fault(self, order: Any) -> str:
        """In what an order isn't as it was asked for."""
        side, quantity, limit = order
        if self.side not in (None, side):
            return f"its side is to be {cast(Side, self.side).name}"
        if self.quantity not in (None, quantity):
            return f"it is to have {self.quantity:,} shares"
        if self.is_market and limit is not None:
            return "it is to be at market: its limit is None"
        return ""

    def _price_faults(self, auction: RecordedAuction) -> list[str]:
        """What is wrong with the price and its rule."""
        book = auction.book()
        found = book[book["rule"] != ""]
        if not len(found):
            wants = self.price is not None or self.rule is not None or self.is_off_limits
            return ["there is no price"] if wants else []
        price, rule = int(found["limit"].iloc[0]), found["rule"].iloc[0]
        faults = []
        if self.price not in (None, price):
            faults.append(f"the price is {price}, and not {self.price}")
        if self.rule not in (None, rule):
            faults.append(f"the rule is {rule}, and not {self.rule}")
        has_orders = (book["bid"] > 0) | (book["ask"] > 0)
        limits = [int(limit) for limit in book["limit"][has_orders].dropna()]
        if self.is_off_limits and price in limits:
            faults.append(f"the price, {price}, is the limit of an order")
        return faults

    def _trade_faults(self, auction: RecordedAuction) -> list[str]:
        """What is wrong with what an uncross would execute."""
        queue = queue_of(auction)
        executed = {} if queue.is_interrupted else dict(
            zip(queue.orders["order"].tolist(), queue.orders["executed"].tolist())
        )
        faults = [
            f"order {order} executes {executed.get(order, 0):,} shares, and not {shares:,}"
            for order, shares in self.executed.items()
            if executed.get(order, 0) != shares
        ]
        if queue.is_interrupted:
            faults.append("the uncross is interrupted")
        pairs = [(int(trade["bid"]), int(trade["ask"])) for trade in queue.trades]
        if self.pairs is not None and sorted(pairs) != sorted(self.pairs):
            with_whom = ", ".join(f"{bid} with {ask}" for bid, ask in pairs) or "none"
            faults.append(f"the trades, bid with ask: {with_whom}")
        return faults


def _order_fault(order: Sequence[object]) -> str:
    """What is wrong with an order as such: `(side, shares, limit)`."""
    if len(order) != 3:
        parts = "1 part" if len(order) == 1 else f"{len(order)} parts"
        return f"it has {parts}, and not three: (side, shares, limit)"
    side, quantity, limit = order
    if side is not BID and side is not ASK:
        return f"its side is BID or ASK, not {_shown(side)}"
    if not _is_whole(quantity) or not 1 <= cast(int, quantity) <= MOST_QUANTITY:
        return f"its shares are a whole number from 1 to {MOST_QUANTITY:,}, not {_shown(quantity)}"
    if limit is not None and not _is_tick(limit):
        return f"its limit is a tick from {LOW} to {HIGH}, or None at market, not {_shown(limit)}"
    return ""


def _has_dots(given: object) -> bool:
    """Whether this is the dots of the notebook, or has them."""
    return given is ... or (isinstance(given, tuple | list) and any(it is ... for it in given))


def _is_tick(number: object) -> bool:
    """Whether this is a tick of a lesson's auctions."""
    return _is_whole(number) and LOW <= cast(int, number) <= HIGH


def _is_whole(number: object) -> bool:
    """Whether this is a whole number: numpy's are, a bool isn't."""
    return isinstance(number, numbers.Integral) and not isinstance(number, bool)


def _shown(value: object) -> str:
    """A wrong value as it was written, cut where it is long."""
    text = repr(value)
    return text if len(text) <= 30 else f"{text[:27]}..."


@dataclasses.dataclass(frozen=True)
class Experiment:
    """An exercise on one number: `measure` is what a choice brings, in these `words` (a format of
    one number), and is to be from `low` to `high`. A choice is from `least` to `most`.
    """

    measure: Callable[[float], float]
    words: str
    low: float
    high: float
    least: float
    most: float

    def check(self, *given: object, **named: object) -> str:
        """Whether this choice, one number, brings what is wanted: `solved`, or what it brings
        instead. Whatever is given, the answer is a sentence.
        """
        choices = [*given, *named.values()]
        if any(it is ... for it in choices):
            return "not yet: put a number in the place of the dots"
        span = f"from {self.least:g} to {self.most:g}"
        if len(choices) != 1:
            return f"not yet: choose one number {span}, such as check({self.least:g})"
        [choice] = choices
        is_number = isinstance(choice, numbers.Real) and not isinstance(choice, bool)
        if not is_number or not self.least <= cast(float, choice) <= self.most:
            return f"not yet: choose a number {span}, not {_shown(choice)}"
        found = self.measure(float(cast(float, choice)))
        words = self.words.format(found)
        if not math.isfinite(found) or not self.low <= found <= self.high:
            return f"not yet: {words}, and not {self.low:g} to {self.high:g}"
        return f"solved: {words}"


# ---- a slider


def slide(orders: Sequence[LessonOrder], place: int, limits: Sequence[int]) -> None:
    """A slider that moves the limit of the order at this place, from 0 on, through `limits`: the
    book, and price, volume and surplus against the limit. All pictures are in the cell, so that it
    needs nothing but the browser, and moves in a stored notebook too. Out of a notebook the picture
    of the order's own limit is shown.
    """
    import matplotlib.pyplot as pyplot

    from callauction.lesson_slider import draw_moved, moved, slider_of  # which needs this module

    found = moved(orders, place, limits)
    own = orders[place][2]
    start = own if own is not None and own in limits else limits[0]
    if not _is_in_notebook():
        draw_moved(orders, place, start, found)
        pyplot.show()
        return
    from IPython.display import HTML, display

    display(HTML(slider_of(orders, place, limits, start, found)))


def _is_in_notebook() -> bool:
    """Whether a notebook shows what is displayed."""
    try:
        from IPython import get_ipython
    except ImportError:
        return False
    return hasattr(get_ipython(), "kernel")

"""The day of a call auction by the rules of docs/MODEL.md: its orders, its price, its trades, the
reply to each command.

It shares no code with the program. Limits and prices are ticks, quantities are shares. A limit of
None is a market order's.
"""
import collections
import dataclasses
import itertools
from typing import Any

KINDS = ["opening", "intraday", "closing"]
NAMES = {
    1: "BadQuantity",
    2: "BadLimit",
    3: "BadPeak",
    4: "BookFull",
    5: "UnknownOrder",
    6: "NotOperator",
    7: "DayOver",
    8: "NoSuchTrade",
    9: "PastAuction",
}
MOST_QUANTITY = 1_000_000_000
MOST_TICKS = 65_536

Words = tuple[Any, ...]
"""A command: its word, and then what it brings, as the methods of Day take it."""
Call = tuple[int, Words]
"""A member and its command."""
Options = dict[str, Any]
"""The numbers of a day by the names of the program's options; a range of None is none."""


class OpenFault(Exception):
    """What two options say together is bad, in the words of standard error."""


@dataclasses.dataclass(slots=True)
class Order:
    """An open order: whose it is, and what is open of it, in shares."""

    id: int
    member: int
    side: str
    limit: int | None
    quantity: int
    peak: int | None
    restriction: str

    def is_eligible(self, tick: int) -> bool:
        """Whether it may trade at this tick."""
        if self.limit is None:
            return True
        return self.limit >= tick if self.side == "bid" else self.limit <= tick

    def rank(self) -> tuple[int, int]:
        """Its rank on its side, the best first: market orders, and then by the limit."""
        if self.limit is None:
            return 0, 0
        return 1, -self.limit if self.side == "bid" else self.limit


@dataclasses.dataclass(frozen=True, slots=True)
class Trade:
    """A trade of the day: the auction that made it, each order's id and member, shares, tick."""

    auction: str
    bid: int
    bid_member: int
    ask: int
    ask_member: int
    quantity: int
    tick: int


@dataclasses.dataclass(frozen=True, slots=True)
class Decision:
    """The tick of the auction price and the rule that decided it, None and empty where there is no
    price; and the best limits, which rise.
    """

    tick: int | None
    rule: str
    best: list[int]


NO_PRICE = Decision(None, "", [])

Span = tuple[Order, int, int]
"""An order with the begin and the end of its fill among all shares that its side trades."""


class Day:
    """The state of the day: the book in time order, the reference, the tape, the current auction
    (3: over).
    """

    def __init__(
        self, low: int, high: int, reference: int, max_open: int, price_range: int | None
    ) -> None:
        self.low, self.high, self.reference = low, high, reference
        self.max_open, self.range = max_open, price_range
        self.book: dict[int, Order] = {}
        self.next_id = 1
        self.tape: list[Trade] = []
        self.auction, self.extended = 0, False

    # ---- the book and its price

    def kind(self) -> str:
        """The name of the current auction; empty when the day is over."""
        return KINDS[self.auction] if self.auction < 3 else ""

    def counted(self) -> list[Order]:
        """The orders that count in the current auction."""
        kind = self.kind()
        return [order for order in self.book.values() if order.restriction in ("", kind)]

    def eligible(self, side: str, tick: int) -> list[Order]:
        """Those of a side that may trade at this tick."""
        return [
            order for order in self.counted() if order.side == side and order.is_eligible(tick)
        ]

    def demand(self, tick: int) -> int:
        """The shares bid at this tick or above, or at market."""
        return sum(order.quantity for order in self.eligible("bid", tick))

    def supply(self, tick: int) -> int:
        """The shares asked at this tick or below, or at market."""
        return sum(order.quantity for order in self.eligible("ask", tick))

    def curves(self, limits: list[int]) -> tuple[list[int], list[int]]:
        """Demand and supply at each of these limits, which rise and are all that there are."""
        at: collections.Counter[tuple[str, int | None]] = collections.Counter()
        for order in self.counted():
            at[order.side, order.limit] += order.quantity
        bids = itertools.accumulate(
            (at["bid", tick] for tick in reversed(limits)), initial=at["bid", None]
        )
        asks = itertools.accumulate((at["ask", tick] for tick in limits), initial=at["ask", None])
        return [*bids][:0:-1], [*asks][1:]

    def limits(self) -> list[int]:
        """The ticks that are a limit of an order that counts; they rise."""
        return sorted({order.limit for order in self.counted() if order.limit is not None})

    def decision(self) -> Decision:
        """The auction price, which rule decided it, and the best limits."""
        limits = self.limits()
        if not limits:
            market = min(self.demand(self.reference), self.supply(self.reference))
            return Decision(self.reference, "market", []) if market > 0 else NO_PRICE
        best = best_limits(limits, *self.curves(limits))
        ticks = [tick for tick, _ in best]
        if not best:
            return NO_PRICE
        if len(best) == 1:
            return Decision(ticks[0], "single", ticks)
        if all(gap > 0 for _, gap in best):
            return Decision(max(ticks), "highest", ticks)
        if all(gap < 0 for _, gap in best):
            return Decision(min(ticks), "lowest", ticks)
        if all(gap == 0 for _, gap in best):
            lower, upper = min(ticks), max(ticks)
        else:
            lower = max(tick for tick, gap in best if gap > 0)
            upper = min(tick for tick, gap in best if gap < 0)
        if self.reference >= upper:
            return Decision(upper, "reference", ticks)
        kept = lower if self.reference <= lower else self.reference
        return Decision(kept, "reference", ticks)

    def price(self) -> int | None:
        """The tick of the auction price, or None."""
        return self.decision().tick

    def price_text(self, tick: int) -> str:
        """What is shown of the price at this tick."""
        demand, supply = self.demand(tick), self.supply(tick)
        side = "bid" if demand > supply else "ask" if demand < supply else "none"
        return f"price {tick} volume {min(demand, supply)} surplus {abs(demand - supply)} {side}"

    def display(self) -> str:
        """What an ask is answered: the price, or the best bid and ask."""
        tick = self.price()
        if tick is not None:
            return self.price_text(tick)
        limited = [
            (order.side, order.limit) for order in self.counted() if order.limit is not None
        ]
        bids = [tick for side, tick in limited if side == "bid"]
        asks = [tick for side, tick in limited if side == "ask"]
        best_bid, best_ask = max(bids, default="-"), min(asks, default="-")
        return f"no price bid {best_bid} ask {best_ask}"

    # ---- commands

    def own(self, member: int, order: int) -> Order | None:
        """The member's open order with this id."""
        found = self.book.get(order)
        return found if found and found.member == member else None

    def bad_terms(self, limit: int | None, quantity: int) -> int | None:
        """The refusal of a limit and a quantity."""
        if not 1 <= quantity <= MOST_QUANTITY:
            return 1
        if limit is not None and not self.low <= limit <= self.high:
            return 2
        return None

    def apply(self, member: int, words: Words) -> str:
        """The reply to a command, which the state follows."""
        refused = self.refusal(member, words)
        if refused:
            return f"refused {refused} {NAMES[refused]}"
        reply: str = getattr(self, words[0])(member, *words[1:])
        return reply

    def refusal(self, member: int, words: Words) -> int | None:
        """The number of the refusal of a command, None where it isn't refused."""
        word = words[0]
        if not self.kind() and word not in ("status", "trade"):
            return 7
        if word == "uncross" and member != 0:
            return 6
        if word == "enter":
            _, _, limit, quantity, peak, restriction = words
            bad = self.bad_terms(limit, quantity)
            if bad:
                return bad
            if peak is not None and (peak == 0 or peak > quantity or limit is None):
                return 3
            if restriction == "opening" and self.auction != 0:
                return 9
            return 4 if len(self.book) >= self.max_open else None
        if word == "change":
            _, order, limit, quantity = words
            bad = self.bad_terms(limit, quantity)
            if bad:
                return bad
            found = self.own(member, order)
            if found and found.peak is not None and limit is None:
                return 3
            return None if found else 5
        if word in ("delete", "status"):
            return None if self.own(member, words[1]) else 5
        if word == "trade":
            return None if 1 <= words[1] <= len(self.tape) else 8
        return None

    def enter(
        self,
        member: int,
        side: str,
        limit: int | None,
        quantity: int,
        peak: int | None,
        restriction: str,
    ) -> str:
        """Enters an order, which is allowed: the text of its reply."""
        order = Order(self.next_id, member, side, limit, quantity, peak, restriction)
        self.book[order.id] = order
        self.next_id += 1
        return f"entered {order.id}"

    def change(self, member: int, order: int, limit: int | None, quantity: int) -> str:
        """Changes a member's open order: the text of its reply."""
        found = self.book[order]
        kept = found.limit == limit and quantity <= found.quantity
        if not kept:
            self.book[order] = self.book.pop(order)
        found.limit, found.quantity = limit, quantity
        return "changed kept" if kept else "changed moved"

    def delete(self, member: int, order: int) -> str:
        """Takes an open order out: the text of its reply."""
        del self.book[order]
        return "deleted"

    def status(self, member: int, order: int) -> str:
        """The text of what is open of an order."""
        found = self.book[order]
        limit = "market" if found.limit is None else f"at {found.limit}"
        visible = found.quantity if found.peak is None else min(found.peak, found.quantity)
        return f"order {found.side} {found.quantity} {limit} visible {visible}"

    def ask(self, member: int) -> str:
        """The text of what is shown."""
        return self.display()

    def trade(self, member: int, place: int) -> str:
        """The text of a trade of the day, by its number from 1 on."""
        found = self.tape[place - 1]
        return f"trade {found.bid} {found.ask} {found.quantity} at {found.tick}"

    def uncross(self, member: int) -> str:
        """Determines the price and executes: the text of its reply."""
        kind, tick = self.kind(), self.price()
        may_interrupt = self.range is not None and not self.extended
        if tick is not None and may_interrupt and abs(tick - self.reference) > (self.range or 0):
            self.extended = True
            return f"interrupted {self.price_text(tick)}"
        text = f"{kind} no price"
        if tick is not None:
            text = f"{kind} {self.price_text(tick)}"
            trades = self.execute(tick)
            text += f" trades {len(trades)}"
            self.tape += trades
            self.reference = tick
        kept = (order for order in self.book.values() if order.restriction != kind)
        self.book = {order.id: order for order in kept}
        self.auction, self.extended = self.auction + 1, False
        return text

    def execute(self, tick: int) -> list[Trade]:
        """Takes the fills out of the book, and gives the trades."""
        volume = min(self.demand(tick), self.supply(tick))
        bids = fills(sorted(self.eligible("bid", tick), key=Order.rank), volume)
        asks = fills(sorted(self.eligible("ask", tick), key=Order.rank), volume)
        kind = self.kind()
        trades = [
            Trade(kind, bid.id, bid.member, ask.id, ask.member, shares, tick)
            for bid, ask, shares in overlaps(bids, asks)
        ]
        for order, begin, end in bids + asks:
            order.quantity -= end - begin
        self.book = {order.id: order for order in self.book.values() if order.quantity > 0}
        return trades


def best_limits(
    limits: list[int], demands: list[int], supplies: list[int]
) -> list[tuple[int, int]]:
    """The limits with the most volume, if there is any, and among those the least surplus: each
    with what demand is above supply at it, in shares. They rise as the limits do.
    """
    curves = list(zip(limits, demands, supplies))
    most = max(min(demand, supply) for _, demand, supply in curves)
    if most == 0:
        return []
    largest = [
        (tick, demand - supply) for tick, demand, supply in curves if min(demand, supply) == most
    ]
    least = min(abs(gap) for _, gap in largest)
    return [(tick, gap) for tick, gap in largest if abs(gap) == least]


def fills(ranked: list[Order], volume: int) -> list[Span]:
    """Each order that trades with the span of its fill, the spans laid end to end up to the
    volume.
    """
    spans, begin = [], 0
    for order in ranked:
        end = min(volume, begin + order.quantity)
        if end > begin:
            spans.append((order, begin, end))
        begin = end
    return spans


def overlaps(bids: list[Span], asks: list[Span]) -> list[tuple[Order, Order, int]]:
    """Each pair whose spans have shares in common, with how many, from the first share on."""
    found = []
    bid_place = ask_place = 0
    while bid_place < len(bids) and ask_place < len(asks):
        bid, bid_begin, bid_end = bids[bid_place]
        ask, ask_begin, ask_end = asks[ask_place]
        shares = min(bid_end, ask_end) - max(bid_begin, ask_begin)
        if shares > 0:
            found.append((bid, ask, shares))
        if bid_end <= ask_end:
            bid_place += 1
        else:
            ask_place += 1
    return found


def opened(options: Options) -> Day:
    """The day that these options open. Raises OpenFault where it can't be opened."""
    low, high, reference = options["low"], options["high"], options["reference"]
    if low > high or high - low + 1 > MOST_TICKS:
        raise OpenFault("bad bounds")
    if not low <= reference <= high:
        raise OpenFault("bad reference")
    return Day(low, high, reference, options["open"], options["range"])

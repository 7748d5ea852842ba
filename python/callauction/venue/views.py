"""What the program shows of a day (`show`), read as numbers: ticks and shares."""
import collections
import dataclasses
import re
from collections.abc import Sequence
from typing import Self

from callauction.words import MARKET

INDICATED = re.compile(r"price (\d+) volume (\d+) surplus (\d+) (bid|ask|none)")
BEST = re.compile(r"no price bid (\d+|-) ask (\d+|-)")
DAY_SHOWN = re.compile(r"show day (\w+) reference (\d+) calls (\d+) left (\d+)$")


@dataclasses.dataclass(frozen=True, slots=True)
class Indication:
    """The indicative price with its volume and surplus, or else the best bid and ask."""

    price: int | None = None
    volume: int = 0
    surplus: int = 0
    side: str = "none"
    bid: int | None = None
    ask: int | None = None

    @classmethod
    def of(cls, text: str) -> Self:
        """What a text of the program says, perhaps with words around it. Raises ValueError."""
        if found := INDICATED.search(text):
            return cls(int(found[1]), int(found[2]), int(found[3]), found[4])
        if found := BEST.search(text):
            bid, ask = (None if it == "-" else int(it) for it in found.groups())
            return cls(bid=bid, ask=ask)
        return cls()


@dataclasses.dataclass(frozen=True, slots=True)
class DayView:
    """Where the day is: the auction, or `over`; the reference price; the commands so far and how
    many are left.
    """

    auction: str
    reference: int
    calls: int
    left: int

    @classmethod
    def of(cls, text: str) -> Self:
        """What the program's line says. Raises ValueError."""
        found = DAY_SHOWN.match(text)
        if not found:
            raise ValueError(text)
        return cls(found[1], int(found[2]), int(found[3]), int(found[4]))


@dataclasses.dataclass(frozen=True, slots=True)
class Level:
    """The shares bid and asked at a limit, None being market orders."""

    limit: int | None
    bid: int
    ask: int


@dataclasses.dataclass(frozen=True, slots=True)
class DayTrade:
    """A trade of the day by its number, from 1: its two orders, shares and tick."""

    number: int
    bid: int
    ask: int
    quantity: int
    tick: int


@dataclasses.dataclass(frozen=True, slots=True)
class MemberOrder:
    """An open order and the number of its member; `filled` shares of it were executed."""

    order: int
    member: int
    side: str
    limit: int | None
    open: int
    visible: int
    filled: int
    restriction: str


def limit_of(text: str) -> int | None:
    """A tick, or None for a market order."""
    return None if text == MARKET else int(text)


def levels_in_view(lines: Sequence[str]) -> list[Level]:
    """The rows of `show,ladder`. Raises ValueError."""
    rows = (line.split(",") for line in lines[1:])
    return [Level(limit_of(limit), int(bid), int(ask)) for limit, bid, ask in rows]


def visible_levels(orders: Sequence[MemberOrder], auction: str) -> list[Level]:
    """What all may see of a book: the visible shares at each limit of the orders that count in this
    auction, as `show,ladder` has the whole ones.
    """
    shares: collections.Counter[tuple[int | None, str]] = collections.Counter()
    for it in orders:
        if it.restriction in ("", auction):
            shares[it.limit, it.side] += it.visible
    limits = {limit for limit, _ in shares}
    falling = sorted(limits, key=lambda it: (it is not None, -(it or 0)))
    return [Level(it, shares[it, "bid"], shares[it, "ask"]) for it in falling]


def trades_in_view(lines: Sequence[str]) -> list[DayTrade]:
    """The rows of `show,trades`. Raises ValueError."""
    return [DayTrade(*map(int, line.split(","))) for line in lines[1:]]


def orders_in_view(lines: Sequence[str]) -> list[MemberOrder]:
    """The rows of `show,orders`. Raises ValueError."""
    found = []
    for line in lines[1:]:
        order, member, side, limit, open_, visible, filled, restriction = line.split(",")
        whose, shares = (int(order), int(member)), (int(open_), int(visible), int(filled))
        found.append(MemberOrder(*whose, side, limit_of(limit), *shares, restriction))
    return found

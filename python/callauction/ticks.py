"""Prices in money as ticks, exactly: see Ticks."""
import operator
import re
from collections.abc import Iterable
from decimal import Decimal

import numpy
from numpy.typing import NDArray

from callauction.limits import MOST_NUMBER
from callauction.prices import BadCellError, Grid, argument, tick_size_of

_PLAIN = re.compile(r"(-(?=[0-9.]*[1-9]))?[0-9]+(\.[0-9]+)?", re.ASCII)
_TOO_MUCH, _LEAST = Decimal(1_000_000_000), Decimal("0.000000001")
"""Of money: what a price isn't, and the unit in which it is whole."""


class Ticks:
    """The prices of an instrument as ticks: tick t is the price `base + t * tick_size`.

        cents = Ticks("0.01")
        auction.enter(1, Side.BID, 500, limit=cents.of("199.75"))
        cents.price(19975)  # Decimal("199.75")

    Money is a text such as "199.75", without spaces, a Decimal, an int, or a float, which means the
    shortest decimal that gives it: below 1,000,000,000, with at most nine decimals. Nothing is
    rounded. A tick is from 0 to 4,294,967,295. So they are in callauction.hpp, which has no base.
    Raises ValueError for a tick size that isn't above 0, and for what is no such number.
    """

    __slots__ = ("_grid",)

    def __init__(self, tick_size: object, base: object = 0) -> None:
        _of_grid("tick_size", tick_size)
        self._grid = Grid(tick_size_of(tick_size), _of_grid("base", base))

    def __repr__(self) -> str:
        base = f", {self.base}" if self.base else ""
        return f"Ticks({self.tick_size}{base})"

    def __eq__(self, other: object) -> bool:
        """Whether both have the same tick size and base."""
        if not isinstance(other, Ticks):
            return NotImplemented
        return self._grid == other._grid

    def __hash__(self) -> int:
        return hash(self._grid)

    @property
    def tick_size(self) -> Decimal:
        """How far one tick is from the next, in money."""
        return self._grid.tick_size

    @property
    def base(self) -> Decimal:
        """What tick 0 is in money."""
        return self._grid.base

    def of(self, price: object) -> int:
        """The tick of a price. Raises ValueError where the price is no such number, lies between
        two ticks, or has no tick from 0 to 4,294,967,295.
        """
        try:
            tick = self._grid.tick(_money("price", price))
        except BadCellError:
            of_base = f" from {self.base}" if self.base else ""
            raise ValueError(
                f"price {price} is no multiple of the tick size {self.tick_size}{of_base}"
            ) from None
        if not 0 <= tick <= MOST_NUMBER:
            raise ValueError(f"price {price} is tick {tick:,}, which isn't from 0 to 4,294,967,295")
        return tick

    def of_many(self, prices: Iterable[object]) -> NDArray[numpy.int64]:
        """The ticks of prices, for a column of `commands`. Raises ValueError for the first bad one.
        """
        ticks = []
        for place, price in enumerate(prices):
            try:
                ticks.append(self.of(price))
            except ValueError as fault:
                raise ValueError(f"element {place}: {fault}") from None
        return numpy.array(ticks, numpy.int64)

    def price(self, tick: int) -> Decimal:
        """The price of a tick, exactly. Raises TypeError where the tick is no integer, and
        ValueError where it isn't from 0 to 4,294,967,295, or its price not below 1,000,000,000.
        """
        if not 0 <= operator.index(tick) <= MOST_NUMBER:
            raise ValueError(f"tick {tick} isn't from 0 to 4,294,967,295")
        found = self._grid.price(tick)
        if abs(found) >= _TOO_MUCH:
            raise ValueError(f"tick {tick} has a price that isn't below 1,000,000,000")
        return found


def _money(name: str, value: object) -> Decimal:
    """A decimal argument. Raises ValueError where it is none below 1,000,000,000."""
    if isinstance(value, str) and not _PLAIN.fullmatch(value):
        raise ValueError(f"{name} {value!r} is no decimal number")
    found = argument(name, value)
    if abs(found) >= _TOO_MUCH:
        raise ValueError(f"{name} {value} isn't below 1,000,000,000")
    return found


def _of_grid(name: str, value: object) -> Decimal:
    """A tick size or a base: a decimal below 1,000,000,000 with at most nine decimals. Raises
    ValueError where it is none.
    """
    found = _money(name, value)
    if found % _LEAST:
        raise ValueError(f"{name} {value} has more than nine decimals")
    return found

"""Prices as exact decimals and as ticks."""
import dataclasses
import decimal
import re
from decimal import Decimal

from callauction.limits import MOST_NUMBER, MOST_TICK

_PLAIN = re.compile(r"[+-]?[0-9]{1,30}(\.[0-9]{1,30})?", re.ASCII)
_EXACT = decimal.Context(prec=80, traps=[decimal.Inexact, decimal.InvalidOperation])


class BadCellError(ValueError):
    """A cell has no value of its kind; the text says what is wrong with it."""


def decimal_of(value: object) -> Decimal:
    """The exact decimal of an int, a Decimal, a text such as `20.05`, or a float, which means
    the shortest decimal that gives it. Raises BadCellError.
    """
    if isinstance(value, float):
        value = format(Decimal(repr(float(value))), "f")
    if isinstance(value, Decimal) and value.is_finite() and abs(value.adjusted()) < 30:
        value = format(value, "f")
    text = str(value).strip()
    if isinstance(value, bool) or not _PLAIN.fullmatch(text):
        raise BadCellError("is no decimal number")
    return Decimal(text)


def number_of(value: object) -> Decimal | None:
    """The exact decimal of a value, None where it is none."""
    try:
        return decimal_of(value)
    except BadCellError:
        return None


def whole_of(value: object) -> int:
    """The whole number that an int, a text of digits or a float says. Raises BadCellError where it
    says none from 0 to 4,294,967,295.
    """
    found = decimal_of(value)
    if found != found.to_integral_value() or not 0 <= found <= MOST_NUMBER:
        raise BadCellError(f"is no whole number from 0 to {MOST_NUMBER:,}")
    return int(found)


def argument(name: str, value: object, shown: object = None) -> Decimal:
    """A decimal argument, which a fault shows as it is or as it was said. Raises ValueError."""
    try:
        return decimal_of(value)
    except BadCellError as fault:
        raise ValueError(f"{name} {value if shown is None else shown!r} {fault}") from None


@dataclasses.dataclass(frozen=True)
class Grid:
    """The prices that a day may have: tick t is the price `base + t * tick_size`."""

    tick_size: Decimal
    base: Decimal = Decimal(0)

    def price(self, tick: int) -> Decimal:
        """The price of a tick, exactly."""
        return _EXACT.add(self.base, _EXACT.multiply(int(tick), self.tick_size))

    def tick(self, price: Decimal) -> int:
        """The tick of a price. Raises BadCellError where it is no multiple of the tick size."""
        distance = _EXACT.subtract(price, self.base)
        if _EXACT.remainder(distance, self.tick_size):
            raise BadCellError(f"is no multiple of the tick size {self.tick_size}")
        return int(_EXACT.divide_int(distance, self.tick_size))


def grid_of(tick_size: object, low: Decimal, high: Decimal) -> Grid:
    """The grid of prices from `low` to `high`: tick t is t tick sizes where these are ticks from 1
    to 1,000,000, and else `low` is tick 1.

    Raises ValueError where the tick size isn't above 0.
    """
    plain = Grid(tick_size_of(tick_size))
    if plain.tick(low) >= 1 and plain.tick(high) <= MOST_TICK:
        return plain
    return Grid(plain.tick_size, _EXACT.subtract(low, plain.tick_size))


def tick_size_of(value: object) -> Decimal:
    """A tick size. Raises ValueError where it isn't above 0."""
    found = argument("tick_size", value)
    if found <= 0:
        raise ValueError(f"tick_size {value!r} isn't above 0")
    return found

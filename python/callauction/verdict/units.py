"""Prices that stand for others: of another unit, as cents beside euros, or with the noise that
numbers have in binary, as 19.990000000000002 of a spreadsheet.
"""
import dataclasses
import decimal
import math
from collections.abc import Mapping
from decimal import Decimal
from fractions import Fraction

import numpy

from callauction.verdict.rows import Kind, Rows
from callauction.verdict.rules import Rules

NOISE = 16
"""How many units in the last place of a double may be its noise."""
EXACT = decimal.Context(prec=13)
"""As many digits as a double has of any decimal beside such noise."""
NOISY = "prices with the noise of binary numbers, read as those next to them"
NEAR = 5
"""How many times the reference, or how small a part of it, prices of its unit may be."""
CENTS = (Decimal("0.01"), Decimal(100))
LOST_SIGN = (Decimal("0.1"), Decimal("0.001"), Decimal("0.0001"))
"""What whole prices are multiplied by that have lost their sign of decimals, as CENTS for two.
"""


def _in_other_unit(rows: Rows, reference: Decimal) -> dict[int, Decimal]:
    """By its number each price that is far from the reference, and near to it in another unit."""
    if reference <= 0:
        return {}
    used = numpy.unique(rows.price[(rows.kind >= Kind.NEW) & (rows.price >= 0)]).tolist()
    both = ((number, _near(rows.prices[number], reference)) for number in used)
    return {number: price for number, price in both if price is not None}


def _near(price: Decimal, reference: Decimal) -> Decimal | None:
    """A price that is far from the reference in a unit in which it is near; None for others."""
    low, high = reference / NEAR, reference * NEAR
    factors = (*CENTS[::-1], *(LOST_SIGN if price == price.to_integral_value() else ()))
    if low <= price <= high:
        return None
    return next((price * it for it in factors if low <= price * it <= high), None)


def why_two_units(rows: Rows, reference: Decimal) -> str:
    """Why some prices may be in another unit than the reference; empty where none seems to be."""
    other = _in_other_unit(rows, reference)
    if not other:
        return ""
    number = min(other)
    price, meant = rows.prices[number], other[number]
    how = ", in cents?" if meant / price in CENTS else " without its sign of decimals?"
    return f"is the price {price} {meant:f}{how}"


def in_one_unit(rows: Rows, reference: Decimal) -> Rows:
    """The rows with such prices in the unit of the reference."""
    return _repriced(rows, _in_other_unit(rows, reference))


def _repriced(rows: Rows, other: Mapping[int, Decimal]) -> Rows:
    """The rows with other prices, by the numbers of theirs."""
    both = [other.get(number, price) for number, price in enumerate(rows.prices)]
    prices = sorted({*rows.prices, *both})
    places = {price: at for at, price in enumerate(prices)}
    numbers = numpy.array([places[price] for price in both], "i4")
    price = numpy.where(rows.price >= 0, numbers[numpy.maximum(rows.price, 0)], rows.price)
    return dataclasses.replace(rows, price=price.astype("i4"), prices=prices)


# ---- the noise of binary numbers


def _meant(price: Decimal, tick_size: Decimal | None) -> Decimal:
    """The one multiple of a tick size within the noise of a price; the price where it is one, or
    none is so near, or two are. Where the size isn't known it is the decimal of 13 digits.
    """
    noise = NOISE * Fraction(math.ulp(float(price)))
    if tick_size is None:
        short = Decimal(f"{EXACT.plus(price).normalize():f}")
        return short if 0 < abs(Fraction(short) - Fraction(price)) <= noise else price
    exact, size = Fraction(price), Fraction(tick_size)
    near = round(exact / size)
    is_noisy = (exact / size).denominator != 1 and abs(exact - near * size) <= noise
    return near * tick_size if is_noisy and 2 * noise < size else price


def without_noise(rows: Rows, rules: Rules) -> tuple[Rows, Rules]:
    """The rows and the rules with such prices as they are meant."""
    size, used = rules.tick_size, {*numpy.unique(rows.price).tolist()}
    both = {number: _meant(price, size) for number, price in enumerate(rows.prices)}
    other = {number: it for number, it in both.items() if it != rows.prices[number]}
    said = ("reference", "low", "high", "second_reference")
    given = {name: getattr(rules, name) for name in said}
    rules = dataclasses.replace(
        rules, **{name: _meant(it, size) for name, it in given.items() if it is not None}
    )
    if not other:
        return rows, rules
    number = min({*other} & used or other)
    count = max(1, int(numpy.isin(rows.price, [*other]).sum()))
    rows.notes[f"{NOISY}, such as {rows.prices[number]} as {other[number]:f}"] += count
    return _repriced(rows, other), rules

"""Replaces that have no price: the order's price may be as it was, or another that isn't known."""
import dataclasses
import functools
from collections.abc import Iterator

import numpy
import pandas

from callauction.verdict.cells import Codes
from callauction.verdict.other_reading import OtherReading, of_rows
from callauction.verdict.rows import Doubt, Kind, PriceCode, Rows

UNCHANGED = "replaces have no price: is it unchanged? --market says the word for market orders"
MOST_UNPRICED = 5
"""How many replaces without a price are read each alone as of the price before."""


def unpriced(rows: Rows) -> Iterator[OtherReading]:
    """What replaces without a price may say: the price as before, all or each of a few, or one that
    isn't known, but where orders are entered without one and a replace says an unchanged one.
    """
    price, says_again = _filled_prices(rows)
    these = numpy.flatnonzero(price != rows.price)
    if rows.has_market or not len(these):
        return
    yield of_rows(functools.partial(_priced, price), UNCHANGED)
    if not says_again or (rows.price[rows.of(Kind.NEW)] != PriceCode.MARKET).all():
        yield of_rows(_without_prices, UNCHANGED)
        return
    for place in these.tolist() if 1 < len(these) <= MOST_UNPRICED else ():
        alone = numpy.where(numpy.arange(len(price)) == place, price, rows.price)
        yield of_rows(functools.partial(_priced, alone), UNCHANGED)


def _filled_prices(rows: Rows) -> tuple[Codes, bool]:
    """The prices with those of replaces without one as before, and whether a replace says an
    unchanged one.
    """
    these = rows.of(Kind.NEW, Kind.REPLACE)
    order = these[numpy.lexsort((these, rows.key[these].astype("i8")))]
    at, is_replace = rows.price[order], rows.kind[order] == Kind.REPLACE
    last = numpy.maximum.accumulate(
        numpy.where((at != PriceCode.MARKET) | ~is_replace, numpy.arange(len(order)), 0)
    )
    price = rows.price.copy()
    price[order] = at[last]
    says_again = is_replace[1:] & (at[1:] != PriceCode.MARKET) & (at[1:] == at[last[:-1]])
    return price, bool(says_again.any())


def _priced(price: Codes, rows: Rows) -> Rows:
    """The rows with these prices, without replaces that repeat one of their order and time then."""
    price = numpy.where((rows.kind == Kind.NEW) | (rows.kind == Kind.REPLACE), price, rows.price)
    these = rows.of(Kind.REPLACE)
    frame = pandas.DataFrame({
        "key": rows.key[these], "group": rows.group[these], "price": price[these],
        "quantity": rows.quantity[these], "kept": rows.kept[these], "id": rows.new_id[these],
    })  # fmt: skip
    kind = rows.kind.copy()
    kind[these[frame.duplicated().to_numpy()]] = Kind.BAD
    return dataclasses.replace(rows, price=price, kind=kind)


def _without_prices(rows: Rows) -> Rows:
    """The rows, of which replaces without a price aren't read, as each may have another one, but
    for those that kept their place, which another limit would lose.
    """
    found = dataclasses.replace(rows, kind=rows.kind.copy(), bad=[*rows.bad])
    these = rows.of(Kind.REPLACE)
    for place in these[(rows.price[these] == PriceCode.MARKET) & (rows.kept[these] != 1)].tolist():
        found.refuse(place, UNCHANGED, Doubt.BOOKS)
    return found

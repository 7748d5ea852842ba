"""Rows of an extract that can't be read: each is refused with its reason, and what it leaves in
doubt. Of results a cell that can't be read is missing.
"""
import fractions
import functools
import re
from collections.abc import Iterable
from decimal import Decimal
from typing import Any

import numpy

from callauction.verdict.cells import Mask
from callauction.verdict.column_words import (
    KEPT_NUMBERS, SIDE_NUMBERS, SURPLUS_SIDE_NUMBERS, Columns,
)  # fmt: skip
from callauction.verdict.columns import EVENTS
from callauction.verdict.rows import (
    RESTRICTIONS, SAID_AUCTIONS, AuctionCode, BadRow, CellCode, Doubt, Kind, PriceCode, Rows,
)  # fmt: skip

NO_AUCTION = "a trade of continuous trading (audit-auction judges auctions of such days)"
ZEROS = "orders at the price 0, read as market orders (--low 0 reads limits)"
_DOUBTS = {
    Kind.NEW: Doubt.ORDER,
    Kind.TRADE: Doubt.TRADES,
    Kind.FILL: Doubt.TRADES,
    Kind.BUST: Doubt.BUST,
}
"""What a row of each kind leaves in doubt that can't be read; of others the books."""
_NO_WHOLE = "is no whole number from 0 to 4,294,967,295"
_NO_DECIMAL = "is no decimal number"


def look_at_orders(rows: Rows, columns: Columns, is_market: Mask) -> None:
    """Refuses rows of no event, and those of orders that can't be read."""
    kind = rows.kind
    for place in numpy.flatnonzero(kind < 0):
        cell = columns.cells("event").text(int(place))
        text = "event is missing"
        if cell:
            text = f"event {cell!r} {_none_of(EVENTS)}{_meaning('event', cell)}"
        rows.bad.append(BadRow(int(place), rows.labels[place], text, Doubt.ANY, int(place)))
    kind[kind < 0] = Kind.BAD
    is_new, is_cancel = kind == Kind.NEW, kind == Kind.CANCEL
    is_limit = is_new | (kind == Kind.REPLACE)
    _refuse_cells(rows, columns, (is_limit | is_cancel) & (rows.key < 0), "order", "")
    _refuse_cells(rows, columns, is_new & (rows.side <= 0), "side", _none_of(SIDE_NUMBERS))
    if not rows.has_market:
        rows.price[is_limit & (rows.price == PriceCode.EMPTY)] = PriceCode.MARKET
    quantity = is_limit & (rows.quantity < 0) | is_cancel & (rows.quantity == CellCode.BAD)
    _refuse_cells(rows, columns, quantity, "quantity", _NO_WHOLE)
    unread = rows.price < PriceCode.MARKET
    if columns.reading.market:
        unread |= rows.price == PriceCode.MARKET
    _refuse_cells(rows, columns, is_limit & unread & ~is_market, "price", _NO_DECIMAL)
    restriction = is_new & (rows.restriction == CellCode.BAD)
    _refuse_cells(rows, columns, restriction, "restriction", _none_of(RESTRICTIONS))
    kept = (kind == Kind.REPLACE) & (rows.kept == CellCode.BAD)
    _refuse_cells(rows, columns, kept, "kept", _none_of(KEPT_NUMBERS))
    rows.price[is_limit & is_market] = PriceCode.MARKET


def look_at_executions(rows: Rows, columns: Columns) -> None:
    """Refuses rows of trades, of fills and of their busts that can't be read."""
    kind = rows.kind
    rows.price[(kind > Kind.UNCROSS) & (rows.price == PriceCode.EMPTY)] = PriceCode.UNSAID
    is_alone = (kind == Kind.BUST) & (rows.key >= 0) & (rows.bid < 0) & (rows.ask < 0)
    is_trade = (kind == Kind.TRADE) | (kind == Kind.BUST) & ~is_alone
    is_fill = (kind == Kind.FILL) | is_alone
    both = is_trade | is_fill
    for place in numpy.flatnonzero(both & (rows.auction == AuctionCode.CONTINUOUS)):
        rows.refuse(place, NO_AUCTION, Doubt.BOOKS)
    _refuse_cells(rows, columns, is_fill & (rows.key < 0), "order", "")
    _refuse_cells(rows, columns, is_trade & (rows.bid < 0), "bid", "")
    _refuse_cells(rows, columns, is_trade & (rows.ask < 0), "ask", "")
    _refuse_cells(rows, columns, both & (rows.quantity < 0), "quantity", _NO_WHOLE)
    _refuse_cells(rows, columns, both & (rows.price < PriceCode.MARKET), "price", _NO_DECIMAL)
    named = (rows.auction == CellCode.BAD) | (rows.auction == AuctionCode.INTERRUPTED)
    _refuse_cells(rows, columns, both & named, "auction", _none_of(SAID_AUCTIONS[1:-1]))


def look_at_results(rows: Rows, columns: Columns) -> None:
    """Refuses the cells of uncrosses that can't be read, which are missing from then on."""
    uncross = rows.kind == Kind.UNCROSS
    rows.price[uncross & (rows.price == PriceCode.EMPTY)] = PriceCode.UNSAID
    rows.auction[uncross & (rows.auction == AuctionCode.CONTINUOUS)] = CellCode.BAD
    volume = columns.wholes("volume")
    rows.quantity = numpy.where(uncross & (volume != CellCode.MISSING), volume, rows.quantity)
    unread = uncross & (rows.price < PriceCode.NO_PRICE)
    _refuse_cells(rows, columns, unread, "price", _NO_DECIMAL)
    rows.price[unread] = PriceCode.UNSAID
    without = (rows.price == PriceCode.UNSAID) & (rows.quantity == 0)
    rows.price[uncross & (without | _is_zero(rows) & (rows.quantity == 0))] = PriceCode.NO_PRICE
    cells: list[tuple[str, Any, str]] = [
        ("quantity", rows.quantity, _NO_WHOLE),
        ("surplus", rows.surplus, _NO_WHOLE),
        ("trades", rows.count, _NO_WHOLE),
        ("side", rows.side, _none_of(SURPLUS_SIDE_NUMBERS)),
        ("auction", rows.auction, _none_of(SAID_AUCTIONS[1:])),
    ]
    for name, values, why in cells:
        unread = uncross & (values == CellCode.BAD)
        _refuse_cells(rows, columns, unread, name, why)
        values[unread] = CellCode.MISSING


def _refuse_cells(rows: Rows, columns: Columns, which: Mask, name: str, why: str) -> None:
    """Notes rows whose cell of a column is missing or unread, for `why`; of results it alone."""
    for place in numpy.flatnonzero(which & (rows.kind != Kind.BAD)).tolist():
        text = _why_unread(rows, columns, place, name, why)
        if rows.kind[place] == Kind.UNCROSS:
            rows.bad.append(BadRow(place, rows.labels[place], text, Doubt.ITEM, place))
        else:
            rows.refuse(place, text, _DOUBTS.get(int(rows.kind[place]), Doubt.BOOKS))


def _why_unread(rows: Rows, columns: Columns, place: int, name: str, why: str) -> str:
    """What can't be read in a row, for the reason `why`, and what helps."""
    cell = columns.cells(name).text(place) if name in columns.names else ""
    if not cell:
        return f"{name} is missing"
    text, kind = f"{name} {cell!r} {why}", rows.kind[place]
    if name == "price" and cell.isalpha() and kind in (Kind.NEW, Kind.REPLACE):
        text += f" (--market {cell} reads a market order)"
    if name == "price" and re.search(r"[$€£¥]|\d ?[A-Z]{3}$|^[A-Z]{3} ?\d", cell):
        text += " (is it with a currency? leave that out)"
    if name == "price" and columns.reading.decimal == "." and re.fullmatch(r"-?\d+,\d+", cell):
        text += " (--decimal , says what parts decimals)"
    if name == "quantity" and re.search(r"\d\D\d{3}$", cell):
        text += " (--thousands says what parts thousands)"
    return text + _meaning(name, cell) * (name in ("side", "kept"))


def _none_of(words: Iterable[str]) -> str:
    return f"is none of {', '.join(words)}"


def _meaning(name: str, cell: str) -> str:
    """Which option says what a word of a column means; empty for a cell that is no word."""
    if not re.fullmatch(r"[^\W\d_]+(?:[ -][^\W\d_]+)*", cell):
        return ""
    said = f"{name}:{cell}=OURS"
    return f" (--values {repr(said) if ' ' in cell else said} says what it means)"


def _is_zero(rows: Rows) -> Mask:
    """Which prices are 0."""
    zero = rows.prices.index(Decimal(0)) if Decimal(0) in rows.prices else PriceCode.UNREAD
    found: Mask = rows.price == zero
    return found


def read_zeros(rows: Rows, said: Iterable[Decimal]) -> None:
    """Makes orders at the price 0 market orders, and refuses them where these have a word; takes
    the prices of trades where all are 0; and reads 0 as no price in results without a volume.
    Nothing is done where a price that is said is 0, or one is below it.
    """
    is_zero = _is_zero(rows)
    below = (rows.price >= 0) & (rows.price < rows.price[is_zero].max(initial=0))
    if not is_zero.any() or below.any() or min(said) <= 0:
        return
    made = (rows.kind == Kind.TRADE) | (rows.kind == Kind.FILL)
    if is_zero[made].all():
        rows.price[made] = PriceCode.UNSAID
    idle = is_zero & (rows.kind == Kind.UNCROSS) & (rows.quantity == CellCode.MISSING)
    rows.price[idle] = PriceCode.NO_PRICE
    zero = is_zero & ((rows.kind == Kind.NEW) | (rows.kind == Kind.REPLACE))
    if not rows.has_market:
        rows.price[zero] = PriceCode.MARKET
        rows.notes[ZEROS] += int(zero.sum())
        return
    for place in numpy.flatnonzero(zero):
        doubt = _DOUBTS.get(int(rows.kind[place]), Doubt.BOOKS)
        rows.refuse(place, "price 0 is no limit (--market 0 reads a market order)", doubt)


def refuse_limits(
    rows: Rows, tick_size: Decimal | None, low: Decimal | None, high: Decimal | None
) -> None:
    """Refuses rows of orders whose limit is no multiple of the tick size, or outside the bounds."""
    why = _why_not(tuple(rows.prices), tick_size, low, high)
    if not why:
        return
    bad = numpy.zeros(len(rows.prices) + 1, bool)
    bad[[*why]] = True
    is_limit = ((rows.kind == Kind.NEW) | (rows.kind == Kind.REPLACE)) & (rows.price >= 0)
    for place in numpy.flatnonzero(is_limit & bad[rows.price]):
        doubt = Doubt.ORDER if rows.kind[place] == Kind.NEW else Doubt.BOOKS
        number = int(rows.price[place])
        rows.refuse(place, f"price {rows.prices[number]} {why[number]}", doubt)


@functools.lru_cache(maxsize=8)
def _why_not(
    prices: tuple[Decimal, ...], tick_size: Decimal | None, low: Decimal | None,
    high: Decimal | None,
) -> dict[int, str]:  # fmt: skip
    """By the number of a price why no order may have it as its limit."""
    found = {}
    size = None if tick_size is None else fractions.Fraction(tick_size)
    for number, price in enumerate(prices):
        if size is not None and (fractions.Fraction(price) / size).denominator != 1:
            found[number] = f"is no multiple of the tick size {tick_size}"
        elif low is not None and price < low:
            found[number] = f"is below low {low}"
        elif high is not None and price > high:
            found[number] = f"is above high {high}"
    return found

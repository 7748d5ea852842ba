"""What the library copies into new arrays, of an auction or of a board: `call` is how that calls
it, and raises the exception of its error.
"""
from collections.abc import Callable
from typing import Any

import numpy

from callauction.arguments import number
from callauction.arrays import Shares, Structs, joined
from callauction.library import ffi
from callauction.words import Config, MarketOrders

_Call = Callable[..., None]
_AT_ONCE = 1024
"""How many structs are copied by one call of the library."""
_MOST_SEEN = (1 << 63) - 1


def all_of(
    call: _Call, function: Any, name: str, kind: "numpy.dtype[numpy.void]", most: int, *of: Any
) -> Structs:
    """The structs, at most as many, that this function of the library writes, which have this name
    in C. Raises MemoryError.
    """
    found, copied = numpy.empty(most, kind), ffi.new("size_t *")
    written = ffi.from_buffer(f"{name}[]", found, require_writable=True)
    call(function, *of, written, len(written), copied)
    return joined(found[: copied[0]])


def after(
    call: _Call, function: Any, name: str, kind: "numpy.dtype[numpy.void]", seen: int, *more: Any
) -> Structs:
    """All structs after the first `seen`, in pieces. Raises TypeError or ValueError for a bad
    number.
    """
    seen = number("seen", seen, _MOST_SEEN)
    found: list[Structs] = []
    copied = ffi.new("size_t *", _AT_ONCE)
    while copied[0] == _AT_ONCE:
        piece = numpy.zeros(_AT_ONCE, kind)
        written = ffi.from_buffer(f"{name}[]", piece, require_writable=True)
        call(function, seen, written, _AT_ONCE, copied, *more)
        found.append(piece[: copied[0]])
        seen += _AT_ONCE
    return joined(*found)


def ladder(
    call: _Call, function: Any, config: Config, *more: Any
) -> tuple[Shares, Shares, MarketOrders]:
    """The shares bid and offered at each tick, and those of the market orders."""
    ticks = config.high - config.low + 1
    bids, asks = numpy.zeros(ticks, numpy.uint64), numpy.zeros(ticks, numpy.uint64)
    market = ffi.new("callauction_market_orders *")
    given = [ffi.from_buffer("uint64_t[]", it, require_writable=True) for it in (bids, asks)]
    call(function, *given, ticks, market, *more)
    return bids, asks, MarketOrders(market.bids, market.asks)

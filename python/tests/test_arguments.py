"""Wrong types and numbers out of range: the argument is named, and nothing is changed."""
import decimal
import fractions
from collections.abc import Callable
from typing import Any

import numpy
import pytest
from callauction import Auction, ClosedError, Entered, NoPrice, Restriction, Side

BID = Side.BID
NO_INTEGERS = [
    "5",
    b"5",
    5.0,
    None,
    [5],
    5j,
    object(),
    decimal.Decimal(5),
    fractions.Fraction(5),
    numpy.float32(5),
    numpy.float64(5),
    True,
    numpy.bool_(True),
    numpy.array([5, 6]),
]

Call = Callable[[Auction, Any], object]
CALLS: list[tuple[str, int, Call]] = [
    ("member", 2**8, lambda a, value: a.enter(value, BID, 1)),
    ("quantity", 2**64, lambda a, value: a.enter(1, BID, value)),
    ("limit", 2**32, lambda a, value: a.enter(1, BID, 1, value)),
    ("peak", 2**64, lambda a, value: a.enter(1, BID, 1, 1, value)),
    ("client", 2**64, lambda a, value: a.enter(1, BID, 1, client=value)),
    ("member", 2**8, lambda a, value: a.change(value, 1, 1)),
    ("id", 2**32, lambda a, value: a.change(1, value, 1)),
    ("quantity", 2**64, lambda a, value: a.change(1, 1, value)),
    ("limit", 2**32, lambda a, value: a.change(1, 1, 1, value)),
    ("member", 2**8, lambda a, value: a.delete(value, 1)),
    ("id", 2**32, lambda a, value: a.delete(1, value)),
    ("member", 2**8, lambda a, value: a.order_status(value, 1)),
    ("id", 2**32, lambda a, value: a.order_status(1, value)),
    ("member", 2**8, lambda a, value: a.indicate(value)),
    ("member", 2**8, lambda a, value: a.read_trade(value, 1)),
    ("number", 2**32, lambda a, value: a.read_trade(1, value)),
    ("member", 2**8, lambda a, value: a.uncross(value)),
    ("seen", 2**63, lambda a, value: a.trades(value)),
    ("low", 2**32, lambda a, value: Auction(low=value)),
    ("high", 2**32, lambda a, value: Auction(high=value)),
    ("reference", 2**32, lambda a, value: Auction(reference=value)),
    ("max_open", 2**32, lambda a, value: Auction(max_open=value)),
    ("max_calls", 2**32, lambda a, value: Auction(max_calls=value)),
    ("range", 2**32, lambda a, value: Auction(range=value)),
    ("reserve", 2**32, lambda a, value: Auction(reserve=value)),
]
MAY_BE_NONE = {"limit", "peak", "range"}


def fails(fault: type[Exception], name: str, call: Call, value: object) -> None:
    """This call with this value raises the fault, which begins with the argument's name, and
    changes nothing.
    """
    with Auction() as auction:
        with pytest.raises(fault, match=f"^{name} must be "):
            call(auction, value)
        assert auction.calls == 0
        assert auction.enter(1, BID, 1, 1) == Entered(1)


@pytest.mark.parametrize("name, beyond, call", CALLS)
def test_what_is_no_integer_is_refused(name: str, beyond: int, call: Call) -> None:
    for value in NO_INTEGERS:
        if value is not None or name not in MAY_BE_NONE:
            fails(TypeError, name, call, value)


@pytest.mark.parametrize("name, beyond, call", CALLS)
def test_integers_out_of_range_are_refused(name: str, beyond: int, call: Call) -> None:
    for value in (-1, beyond, 2**100, -(2**100), numpy.int64(-1)):
        fails(ValueError, name, call, value)


def test_integers_of_numpy_are_integers() -> None:
    low, open_orders, member, quantity, limit = (
        numpy.int64(3),
        numpy.uint16(7),
        numpy.uint8(1),
        numpy.int32(5),
        numpy.uint64(9),
    )
    with Auction(low=low, max_open=open_orders) as auction:  # type: ignore[arg-type]
        entered = auction.enter(member, BID, quantity, limit)  # type: ignore[arg-type]
        assert entered == Entered(1)
        assert auction.display() == NoPrice(9, None)


@pytest.mark.parametrize("side", [1, "bid", None, Restriction.OPENING_ONLY])
def test_what_is_no_side_is_refused(side: object) -> None:
    fails(TypeError, "side", lambda auction, value: auction.enter(1, value, 1), side)


def test_no_order_has_the_side_none() -> None:
    fails(ValueError, "side", lambda auction, value: auction.enter(1, value, 1), Side.NONE)


@pytest.mark.parametrize("restriction", [1, "opening", None, BID])
def test_what_is_no_restriction_is_refused(restriction: object) -> None:
    fails(
        TypeError,
        "restriction",
        lambda auction, value: auction.enter(1, BID, 1, restriction=value),
        restriction,
    )


@pytest.mark.parametrize("command", [None, "ask", 5, {}, Auction, object()])
def test_what_is_no_command_is_refused(command: object) -> None:
    fails(TypeError, "command", lambda auction, value: auction.apply(1, value), command)


@pytest.mark.parametrize(
    "config, names",
    [
        ({"low": 0}, "low, high"),
        ({"low": 300, "high": 200}, "low, high"),
        ({"high": 1_000_001}, "low, high"),
        ({"high": 65_537}, "low, high"),
        ({"reference": 0}, "reference"),
        ({"reference": 1001}, "reference"),
        ({"low": 0, "reference": 0, "max_open": 0}, "low, high"),
        ({"reference": 0, "max_open": 0}, "reference"),
        ({"max_open": 0}, "max_open, max_calls"),
        ({"max_open": 65_537}, "max_open, max_calls"),
        ({"max_calls": 0}, "max_open, max_calls"),
        ({"max_calls": 1_048_577}, "max_open, max_calls"),
    ],
)
def test_a_bad_config_is_named(config: dict[str, int], names: str) -> None:
    with pytest.raises(ValueError, match=f"^{names}: "):
        Auction(**config)


def test_the_greatest_config_is_opened() -> None:
    with Auction(934_465, 1_000_000, 1_000_000, 65_536, 1_048_576, 2**32 - 1) as auction:
        assert len(auction.ladder()[0]) == 65_536


def test_unknown_and_missing_arguments_are_refused() -> None:
    with pytest.raises(TypeError):
        Auction(members=4)  # type: ignore[call-arg]
    with Auction() as auction, pytest.raises(TypeError):
        auction.enter(1, BID)  # type: ignore[call-arg]


class Changing:
    """An integer that is first none and then one."""

    asked = 0

    def __index__(self) -> int:
        self.asked += 1
        return -1 if self.asked == 1 else 5


class Calling:
    """An integer that enters an order, when it is asked for."""

    def __init__(self, auction: Auction) -> None:
        self.auction = auction

    def __index__(self) -> int:
        self.auction.enter(1, BID, 1, 1)
        return 5


class Closing(Calling):
    """An integer that closes the auction, when it is asked for."""

    def __index__(self) -> int:
        self.auction.close()
        return 5


class Failing:
    """One that raises another error than a TypeError."""

    def __index__(self) -> int:
        raise KeyError("no")


def test_integers_of_strange_classes_leave_the_auction_as_it_was() -> None:
    with Auction() as auction:
        with pytest.raises(ValueError):
            auction.enter(1, BID, Changing())  # type: ignore[arg-type]
        with pytest.raises(KeyError):
            auction.enter(1, BID, Failing())  # type: ignore[arg-type]
        assert auction.calls == 0
        # What an argument does when it is asked for comes before the call.
        assert auction.enter(1, BID, Calling(auction)) == Entered(2)  # type: ignore[arg-type]
        with pytest.raises(ClosedError):
            auction.enter(1, BID, Closing(auction))  # type: ignore[arg-type]


def test_an_object_that_was_never_opened_is_closed() -> None:
    auction = Auction.__new__(Auction)
    with pytest.raises(ClosedError):
        auction.indicate(1)
    assert auction.is_closed
    auction.close()

"""Money as ticks: exactly, or not at all."""
from decimal import Decimal
from typing import Any

import hypothesis
import pytest
from callauction import Ticks
from hypothesis import strategies


@pytest.mark.parametrize(
    "tick_size, price, tick",
    [
        ("0.01", "199.75", 19975),
        ("0.01", 199.75, 19975),
        ("0.01", 1.15, 115),  # 1.15 / 0.01 is 114.99999999999999
        ("0.01", Decimal("0.07"), 7),
        ("0.01", 3, 300),
        ("0.05", "20.05", 401),
        ("0.05", "0", 0),
        (5, "1000", 200),
        (0.5, "1.50", 3),
    ],
)
def test_a_price_is_a_tick(tick_size: object, price: object, tick: int) -> None:
    ticks = Ticks(tick_size)
    assert ticks.of(price) == tick
    assert ticks.price(tick) == Decimal(str(price))


@pytest.mark.parametrize(
    "price, fault",
    [
        ("199.755", "price 199.755 is no multiple of the tick size 0.01"),
        (0.1 + 0.2, "price 0.30000000000000004 is no multiple of the tick size 0.01"),
        ("-0.01", "price -0.01 is tick -1, which isn't from 0 to 4,294,967,295"),
        ("42949672.96", "price 42949672.96 is tick 4,294,967,296, which isn't"),
        ("1,50", "price '1,50' is no decimal number"),
        (" 1", "price ' 1' is no decimal number"),
        ("1 ", "price '1 ' is no decimal number"),
        ("+1", "price '\\+1' is no decimal number"),
        ("1\n", "price '1.n' is no decimal number"),
        ("-0.0", "price '-0.0' is no decimal number"),
        ("1000000000", "price 1000000000 isn't below 1,000,000,000$"),
        ("0.0000000001", "price 0.0000000001 is no multiple of the tick size 0.01"),
        (float("nan"), "price nan is no decimal number"),
        (float("inf"), "price inf is no decimal number"),
        (True, "price True is no decimal number"),
        (None, "price None is no decimal number"),
    ],
)
def test_a_price_that_is_no_tick_is_refused(price: Any, fault: str) -> None:
    with pytest.raises(ValueError, match=f"^{fault}"):
        Ticks("0.01").of(price)


def test_ticks_count_from_their_base() -> None:
    ticks = Ticks("0.25", base="-10")
    assert (ticks.of("-9.75"), ticks.price(1), ticks.tick_size, ticks.base) == (
        1, Decimal("-9.75"), Decimal("0.25"), Decimal(-10)
    )  # fmt: skip
    assert repr(ticks) == "Ticks(0.25, -10)" and repr(Ticks("0.01")) == "Ticks(0.01)"
    with pytest.raises(ValueError, match="price 1.1 is no multiple of the tick size 0.25 from -10"):
        ticks.of("1.1")


def test_ticks_of_one_grid_are_equal() -> None:
    assert Ticks("0.05") == Ticks(0.05) == Ticks("0.050") and Ticks("0.05") != Ticks("0.01")
    assert Ticks("0.25", base=-10) == Ticks("0.25", "-10.0") != Ticks("0.25")
    assert len({Ticks("0.05"), Ticks("0.050"), Ticks("0.5")}) == 2
    assert Ticks("0.05") != "0.05"


@pytest.mark.parametrize(
    "tick_size, tick, fault",
    [
        ("0.01", -1, "tick -1 isn't from 0 to 4,294,967,295"),
        ("0.01", 10**15, "tick 1000000000000000 isn't from 0 to 4,294,967,295"),
        ("0.01", 1 << 32, "tick 4294967296 isn't from 0 to 4,294,967,295"),
        ("0.3", 3_333_333_334, "tick 3333333334 has a price that isn't below 1,000,000,000"),
        ("999999999", 2, "tick 2 has a price that isn't below 1,000,000,000"),
    ],
)
def test_a_tick_without_a_price_is_refused(tick_size: str, tick: int, fault: str) -> None:
    with pytest.raises(ValueError, match=f"^{fault}$"):
        Ticks(tick_size).price(tick)


def test_the_greatest_ticks_are_exact() -> None:
    assert Ticks("0.01").price(4_294_967_295) == Decimal("42949672.95")
    assert Ticks("0.3").price(3_333_333_333) == Decimal("999999999.9")
    assert Ticks("0.000000001").of("4.2949672950") == 4_294_967_295  # a zero behind
    assert Ticks("999999999").of("00000000000999999999") == 1
    assert Ticks("1", base="-999999999").price(0) == -999_999_999


NO_SIZES = ("0.0000000001", "1000000000", " 1", "+1")
NO_BASES = ("-1000000000", "0.0000000001")


@pytest.mark.parametrize(
    "given",
    [("0",), ("-1",), ("x",), (None,), ("0.01", "x"), *(("0.01", base) for base in NO_BASES)]
    + [(size,) for size in NO_SIZES],
)
def test_what_is_no_grid_is_refused(given: tuple[Any, ...]) -> None:
    with pytest.raises(ValueError, match="^(tick_size|base) "):
        Ticks(*given)


def test_a_column_of_prices_becomes_ticks() -> None:
    assert Ticks("0.01").of_many(["1.15", 2.3]).tolist() == [115, 230]
    with pytest.raises(ValueError, match="^element 1: price 0.001 is no multiple"):
        Ticks("0.01").of_many(["1.15", "0.001"])
    with pytest.raises(TypeError):
        Ticks("0.01").price(1.5)  # type: ignore[arg-type]


SIZES = strategies.decimals("0.0001", "1000", places=4)


@hypothesis.settings(deadline=None, database=None)
@hypothesis.given(SIZES, strategies.integers(0, 4_294_967_295))
def test_a_tick_comes_back(tick_size: Decimal, tick: int) -> None:
    ticks = Ticks(tick_size)
    if tick_size * tick >= 1_000_000_000:
        with pytest.raises(ValueError, match="^tick [0-9]+ has a price that isn't below"):
            ticks.price(tick)
        return
    assert ticks.of(ticks.price(tick)) == tick
    assert ticks.of(str(ticks.price(tick))) == tick

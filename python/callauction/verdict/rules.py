"""What a day was opened with: see Rules."""
import dataclasses
import math
from collections.abc import Sequence
from decimal import Decimal
from fractions import Fraction

from callauction.prices import argument, tick_size_of
from callauction.words import AUCTIONS


@dataclasses.dataclass(frozen=True)
class Range:
    """How far a price may lie from a reference: a distance, or so much of it as `width` is of
    `whole`, which is 100 for a percentage.
    """

    width: Decimal
    whole: Decimal | None = None

    def limit(self, reference: Decimal) -> Fraction:
        """The distance from a reference that a price may still have."""
        if self.whole is None:
            return Fraction(self.width)
        return Fraction(self.width) * abs(Fraction(reference)) / abs(Fraction(self.whole))

    def is_out(self, price: Decimal, reference: Decimal) -> bool:
        """Whether a price is beyond the range."""
        return abs(Fraction(price) - Fraction(reference)) > self.limit(reference)

    def bounds(self, reference: Decimal, tick_size: Decimal | None) -> tuple[Decimal, Decimal]:
        """The lowest and the highest price in the range: multiples of a tick size that is known."""
        center, gap = Fraction(reference), self.limit(reference)
        if tick_size is None:
            return _decimal(center - gap), _decimal(center + gap)
        size = Fraction(tick_size)
        low, high = math.ceil((center - gap) / size), math.floor((center + gap) / size)
        return low * tick_size, high * tick_size

    def __str__(self) -> str:
        return f"{self.width:f} %" if self.whole == 100 else f"{self.width:f}"


def _decimal(number: Fraction) -> Decimal:
    return Decimal(number.numerator) / Decimal(number.denominator)


def range_of(name: str, value: object) -> Range | None:
    """The range of an argument: a decimal, or a text such as `2%`. Raises ValueError."""
    if value is None:
        return None
    is_percent = isinstance(value, str) and value.strip().endswith("%")
    width = argument(name, str(value).strip()[:-1].strip() if is_percent else value, value)
    if width < 0:
        raise ValueError(f"{name} {value} is below 0")
    return Range(width, Decimal(100) if is_percent else None)


@dataclasses.dataclass(frozen=True)
class Rules:
    """What a day was opened with: the first reference, how far a price may lie from the reference
    (None for any distance), the step between two prices where it is known, the bounds of prices,
    and its auctions; and a second reference with its range, where there is one.
    """

    reference: Decimal
    tick_size: Decimal | None = None
    range: Range | None = None
    low: Decimal | None = None
    high: Decimal | None = None
    auctions: tuple[str, ...] = AUCTIONS
    has_totals: bool = False
    """Whether replaces say the total of an order, and not what is open."""
    may_have_totals: bool = False
    """Whether it isn't said which of both they say."""
    second: Range | None = None
    second_reference: Decimal | None = None

    @property
    def prices(self) -> list[Decimal]:
        """The prices that are said."""
        said = (self.reference, self.low, self.high, self.second_reference)
        return [it for it in said if it is not None]

    @property
    def due(self) -> list[int]:
        """The numbers of its auctions."""
        return [AUCTIONS.index(name) for name in self.auctions]

    @property
    def has_range(self) -> bool:
        """Whether a range is said, so that an uncross may be interrupted."""
        return self.range is not None or self.second is not None

    def ranges(self, reference: Decimal, second: Decimal | None) -> list[tuple[Range, Decimal]]:
        """The ranges around the present references, each with its own."""
        both = ((self.range, reference), (self.second, second))
        return [(span, at) for span, at in both if span is not None and at is not None]


@dataclasses.dataclass(frozen=True)
class SaidTerms:
    """What a day was opened with, as it is said: the arguments of audit_events."""

    reference: object
    tick_size: object = None
    range: object = None
    low: object = None
    high: object = None
    auctions: Sequence[str] = AUCTIONS
    second_reference: object = None
    second_range: object = None

    def rules(self, quantity: str = "") -> Rules:
        """The rules of the day; `quantity` is what replaces say, as a reading has it. Raises
        ValueError.
        """
        strange = [name for name in self.auctions if name not in AUCTIONS]
        if strange or not self.auctions:
            said = ", ".join(self.auctions)
            raise ValueError(f"auctions {said!r} must be of {', '.join(AUCTIONS)}")
        low, high, second = map(self._number, ("low", "high", "second_reference"))
        reference = argument("reference", self.reference)
        if low is not None and reference < low:
            raise ValueError(f"reference {reference} is below low {low}")
        if high is not None and reference > high:
            raise ValueError(f"reference {reference} is above high {high}")
        first, other = map(range_of, ("range", "second_range"), (self.range, self.second_range))
        if (second is None) != (other is None):
            raise ValueError("second_reference and second_range: one needs the other")
        size = None if self.tick_size is None else tick_size_of(self.tick_size)
        return Rules(
            reference, size, first, low, high, tuple(self.auctions), quantity == "total",
            not quantity, other, second,
        )  # fmt: skip

    def _number(self, name: str) -> Decimal | None:
        """The decimal that is said of this; None for none. Raises ValueError."""
        value = getattr(self, name)
        return None if value is None else argument(name, value)

"""How an extract is read: see Reading."""
import dataclasses
import re
from collections.abc import Collection, Mapping
from typing import Literal

from callauction.prices import number_of

_BLANKS = " \xa0\u2009\u202f"
"""What a program may write where a person sees a blank between thousands."""
_FIRST_GROUP = re.compile(r"[-+]?\d{1,3}")
"""The digits before the first sign of thousands."""


@dataclasses.dataclass(frozen=True)
class Reading:
    """How an extract is read: nothing of it is needed for one as verdict.columns has it."""

    columns: Mapping[str, str] = dataclasses.field(default_factory=dict)
    """By our name of a column the table's, such as `{"order": "OrderID"}`; for rows of one kind as
    `{"trade.price": "LastPx"}`, where an empty name is no column; `Date+Time` joins several.
    """
    values: Mapping[str, Mapping[str, str]] = dataclasses.field(default_factory=dict)
    """By our name of a column what its words mean, such as `{"side": {"B": "bid", "S": "ask"}}`."""
    separator: str = ","
    decimal: str = "."
    thousands: str = ""
    encoding: str = "utf-8"
    where: Collection[str] = ()
    """Conditions on the table's own columns, such as `status != REJECTED`: rows must meet all."""
    market: Collection[str] = ()
    """Words or numbers in `price` of a market order; with any an empty price is a fault."""
    quantity: Literal["", "open", "total"] = ""
    """What the quantity of a replace is: open after it, or with what was executed before; empty is
    open, as long as the other reading doesn't make a day lawful.
    """
    sort: bool = False
    """Whether rows are sorted by time, then by sequence, then as they come."""
    dates: Literal["", "dmy", "mdy"] = ""
    """What dates with strokes are, as 3/4/2026; empty for what all of them may be."""
    ignore: Collection[str] = ()
    """Columns that are passed over; `*` is each unknown one."""
    pair: str = ""
    """The column with one text in both rows of a trade, each of an order and its side."""
    results: Literal["rows", "trades"] = "rows"
    """Whether auctions without a row `uncross`, which trades name, have their trades' price."""
    unrestricted: bool = False
    """Whether no order is for one auction alone, where no column `restriction` says it."""
    format: Literal["csv", "fix"] = "csv"
    """What a file is: CSV, or a log of FIX messages (verdict.fix)."""

    def said(self, value: object) -> object:
        """What is said of a price beside a file, plain where it has the file's sign of decimals."""
        if not isinstance(value, str) or self.decimal not in value:
            return value
        number = self.plain(value.removesuffix("%"))
        return value if number_of(number) is None else number + "%" * value.endswith("%")

    def plain(self, text: str) -> str:
        """A number's text with the signs of this reading made plain, those of thousands that don't
        part three digits as question marks.
        """
        if self.thousands:
            text = self._without_thousands(text)
        return text if self.decimal == "." else text.replace(".", "?").replace(self.decimal, ".")

    def _without_thousands(self, text: str) -> str:
        signs = _BLANKS if self.thousands in {*_BLANKS} else self.thousands
        if self.decimal in signs:  # 1.000 shares beside a price of 10.02
            return _without_signs(text.strip(), signs)
        whole, sign, rest = text.strip().partition(self.decimal)
        number = _without_signs(whole, signs) + sign + rest
        return "".join("?" if it in signs else it for it in number)


def _without_signs(number: str, signs: str) -> str:
    """A whole number without these signs, where they part groups of three digits; else as it is."""
    first, *others = re.split(f"[{re.escape(signs)}]", number)
    if not _FIRST_GROUP.fullmatch(first):
        return number
    is_parted = all(len(it) == 3 and it.isdecimal() for it in others)
    return "".join([first, *others]) if is_parted else number

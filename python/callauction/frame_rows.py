"""A row of a frame of order events: its cells by their columns, and the words that it may have."""
import dataclasses
from collections.abc import Iterable
from decimal import Decimal
from typing import Any

from callauction.frame_cells import FrameError, cell_of
from callauction.prices import BadCellError, Grid, decimal_of, whole_of
from callauction.words import AUCTIONS, RESTRICTED, RESTRICTION_WORDS, Side

EVENTS = ("new", "replace", "cancel", "uncross", "trade")
FRAME_SIDES = {"bid": Side.BID, "buy": Side.BID, "ask": Side.ASK, "sell": Side.ASK}
RESTRICTIONS = {word: RESTRICTION_WORDS[word] for word in RESTRICTED}
RESULTS = (*AUCTIONS, "interrupted")


@dataclasses.dataclass(frozen=True)
class FrameRow:
    """A row of a frame, by its label."""

    label: object
    cells: dict[str, Any]

    def get(self, column: str) -> Any:
        """A cell, None where it is missing. Raises FrameError for none of a single value."""
        try:
            return cell_of(self.cells.get(column))
        except BadCellError as fault:
            raise self.fault(column, str(fault)) from None

    def fault(self, column: str, why: str) -> FrameError:
        """The error of this column."""
        return FrameError(self.label, column, self.cells.get(column), why)

    def needed(self, column: str) -> Any:
        """A cell that may not be missing."""
        found = self.get(column)
        if found is None:
            raise self.fault(column, "is missing")
        return found

    def name(self, column: str) -> Any:
        """An id or a member, which pandas may have made a float."""
        found = self.needed(column)
        return int(found) if isinstance(found, float) and found.is_integer() else found

    def word(self, column: str, words: Iterable[str]) -> str:
        """One of these words."""
        found = self.needed(column)
        if found not in words:
            raise self.fault(column, f"is none of {', '.join(words)}")
        return str(found)

    def whole(self, column: str) -> int | None:
        """A whole number, None where it is missing."""
        found = self.get(column)
        try:
            return None if found is None else whole_of(found)
        except BadCellError as fault:
            raise self.fault(column, str(fault)) from None

    def needed_whole(self, column: str) -> int:
        """A whole number that may not be missing."""
        self.needed(column)
        return self.whole(column) or 0

    def price(self) -> Decimal | None:
        """The price, None where it is missing."""
        found = self.get("price")
        try:
            return None if found is None else decimal_of(found)
        except BadCellError as fault:
            raise self.fault("price", str(fault)) from None

    def tick(self, grid: Grid) -> int | None:
        """The tick of the price, None where it is missing."""
        found = self.price()
        try:
            return None if found is None else grid.tick(found)
        except BadCellError as fault:
            raise self.fault("price", str(fault)) from None

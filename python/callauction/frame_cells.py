"""What is in a cell of a frame."""
from decimal import Decimal
from typing import Any

import pandas

from callauction.prices import BadCellError


class FrameError(ValueError):
    """A row of a frame can't be written into a journal: `row` is its label in the frame's index,
    `column` and `value` say what is wrong there.
    """

    def __init__(self, row: object, column: str, value: object, why: str) -> None:
        super().__init__(f"row {row}: {column} {_shown(value)}{why}")
        self.row, self.column, self.value = row, column, value


def _shown(value: object) -> str:
    """A value as an error shows it: nothing for a missing one, and no float for a whole number."""
    if isinstance(value, Decimal):
        return f"{value} "
    if pandas.api.types.is_scalar(value) and pandas.isna(value):
        return ""
    return f"{value:.0f} " if isinstance(value, float) and value.is_integer() else f"{value!r} "


def cell_of(value: object) -> Any:
    """The value of a cell, None where it is missing or empty. Raises BadCellError for a value that
    is no scalar.
    """
    if isinstance(value, Decimal):
        return None if value.is_nan() else value
    if not pandas.api.types.is_scalar(value):
        raise BadCellError("is no single value")
    return None if pandas.isna(value) or value == "" else value

"""Columns of numbers as an array of commands, of which nothing is cut: see commands."""
import math
import operator
from collections.abc import Mapping, Sequence
from typing import TYPE_CHECKING, Any, TypeAlias

import numpy
from numpy.typing import NDArray

from callauction.arrays import COMMAND, Structs
from callauction.words import (
    MARKET,
    RESTRICTION_WORDS,
    SIDE_WORDS,
    TAG_WORDS,
    CommandTag,
    Restriction,
    Side,
)

if TYPE_CHECKING:
    import pandas

Column: TypeAlias = "int | Sequence[object] | NDArray[Any] | pandas.Series | None"
"""One number for all commands, or a number for each."""
NAMES = ("tag", "member", "side", "quantity", "limit", "peak", "id", "restriction", "client")
"""The columns that commands may have: the fields of COMMAND, whose flags follow from them."""
DEFAULTS = {"tag": CommandTag.ENTER, "member": 1, "restriction": Restriction.NONE}
_OF_ID = (CommandTag.CHANGE, CommandTag.DELETE, CommandTag.ORDER_STATUS, CommandTag.READ_TRADE)
NEEDED = {
    name: numpy.isin(range(len(CommandTag) + 1), tags)
    for name, tags in (
        ("side", (CommandTag.ENTER,)),
        ("quantity", (CommandTag.ENTER, CommandTag.CHANGE)),
        ("id", _OF_ID),
    )
}
"""By its tag, whether a command needs a value of these columns."""
ALWAYS = ("tag", "member", "restriction")
"""The columns of which each command has a value."""
ALLOWED: dict[str, tuple[type, range]] = {
    "tag": (CommandTag, range(1, len(CommandTag) + 1)),
    "side": (Side, range(len(Side))),
    "restriction": (Restriction, range(len(Restriction))),
}
"""The columns whose numbers are those of an enumeration."""
RANGES = {
    name: ALLOWED[name][1] if name in ALLOWED else range(1 << 8 * COMMAND[name].itemsize)
    for name in NAMES
}
"""The numbers that a column may have."""
WORDS: dict[str, Mapping[str, int | None]] = {
    "tag": TAG_WORDS,
    "side": SIDE_WORDS,
    "restriction": RESTRICTION_WORDS,
    "limit": {MARKET: None},
}
"""By their columns, the words of files and frames that stand for a number, or for none."""
FLAGGED = ("limit", "peak")
"""The columns that have a flag in COMMAND."""
EXACT = 1 << 53
"""A float up to this is one whole number or none."""


def commands(
    frame: "Mapping[str, Column] | pandas.DataFrame | None" = None,
    /,
    *,
    tag: Column = None,
    member: Column = None,
    side: Column = None,
    quantity: Column = None,
    limit: Column = None,
    peak: Column = None,
    id: Column = None,
    restriction: Column = None,
    client: Column = None,
) -> Structs:
    """An array of COMMAND for `apply_many`, of columns or of a frame with these columns: orders of
    member 1, where neither a `tag` (CommandTag) nor a `member` is given.

    A column is one number for all commands, or a list, an array or a Series of a number for each.
    The words of files and frames are taken too: `enter`, `change`, `delete`, `status`, `ask`,
    `trade`, `uncross`; `bid`, `ask`; `opening`, `closing` and an empty word, as in a column `only`;
    `market` as a limit, and digits in a column that has it. An empty cell is missing. Columns of
    several numbers have one length. An order without a limit (None, or `<NA>`) is a market order,
    one without a peak no iceberg order. READ_TRADE has its number as `id`. An order's `client` is
    any number of your own, 0 to 2^64 - 1.

    Nothing is cut or rounded: raises TypeError for what is no number or is a bool, and ValueError
    for a fraction, NaN, a number that its field can't hold or a masked one, a number that a command
    needs and hasn't, and columns of several lengths. The text begins with the column's name.
    """
    values = (tag, member, side, quantity, limit, peak, id, restriction, client)
    keywords = zip(NAMES, values)
    given = _given(frame, {name: column for name, column in keywords if column is not None})
    return _array_of({name: _Column(name, value) for name, value in (DEFAULTS | given).items()})


def _array_of(columns: "dict[str, _Column]") -> Structs:
    """The columns as an array of COMMAND. Raises ValueError as commands does."""
    found = numpy.zeros(_length(columns), COMMAND)
    for name, column in columns.items():
        found[name] = column.values
        if name in FLAGGED:
            found[f"has_{name}"] = True if column.is_there is None else column.is_there
    for name in NEEDED:
        _check_needed(found, name, columns.get(name))
    return found


def _given(
    frame: "Mapping[str, Column] | pandas.DataFrame | None", keywords: dict[str, Column]
) -> dict[str, Any]:
    """The columns of a frame and those of keywords. Raises TypeError."""
    if not (frame is None or isinstance(frame, Mapping) or hasattr(frame, "columns")):
        raise TypeError(f"frame must be a mapping or frame of columns, not {type(frame).__name__}")
    found: dict[str, Any] = {} if frame is None else {str(name): frame[name] for name in frame}
    for name in found:
        if name not in NAMES:
            raise TypeError(f"{name} is no column of commands: these are {', '.join(NAMES)}")
        if name in keywords:
            raise TypeError(f"{name} is in the frame and given beside it")
    return found | keywords


def _length(columns: "dict[str, _Column]") -> int:
    """How many commands these columns are. Raises ValueError where their lengths differ."""
    lengths = {name: column.length for name, column in columns.items() if column.length is not None}
    counts = set(lengths.values())
    if len(counts) > 1:
        words = ", ".join(f"{name} {count:,}" for name, count in lengths.items())
        raise ValueError(f"columns must have one length, not {words}")
    return counts.pop() if counts else 1


def _check_needed(found: Structs, name: str, column: "_Column | None") -> None:
    """Raises ValueError where a command needs this column and has no value of it."""
    lacking = NEEDED[name][found["tag"]]
    if name == "side":
        lacking &= found[name] == Side.NONE
    elif column is not None:
        lacking &= False if column.is_there is None else ~column.is_there
    if lacking.any():
        place = int(numpy.flatnonzero(lacking)[0])
        kind = CommandTag(int(found["tag"][place])).name
        wanted = "BID or ASK" if name == "side" else "a number"
        raise ValueError(f"{name}: element {place} must be {wanted}, as {kind} needs it")


class _Column:
    """The numbers of a column, and which of them are there, None for all; `length` is None for one
    number.
    """

    def __init__(self, name: str, value: Any) -> None:
        """Raises TypeError or ValueError."""
        self.values: NDArray[Any]
        self.is_there: NDArray[numpy.bool_] | None = None
        self.length: int | None = None
        value = _plain(name, value)
        if isinstance(value, numpy.ndarray) and value.dtype.kind in "biuf":
            _check_numbers(name, value)
            self.values, self.length = value, len(value)
        elif isinstance(value, numpy.ndarray | Sequence) and not isinstance(value, str | bytes):
            self._take(name, [*value])
            self.length = len(value)
        else:
            self._take(name, [value])

    def _take(self, name: str, listed: Sequence[object]) -> None:
        """Takes numbers one by one; in a column that is text for its word MARKET, digits too."""
        if name == "limit" and any(isinstance(it, str) and it == MARKET for it in listed):
            listed = [int(it) if isinstance(it, str) and it.isdecimal() else it for it in listed]
        numbers = [_number(name, place, value) for place, value in enumerate(listed)]
        if None in numbers:
            self.is_there = numpy.array([number is not None for number in numbers], bool)
        self.values = numpy.array([number or 0 for number in numbers], COMMAND[name])


def _plain(name: str, value: Any) -> Any:
    """A Series as an array, one of no dimension as its number, and what is neither as it is. Raises
    ValueError for an array that is masked, or of more dimensions.
    """
    if hasattr(value, "to_numpy"):
        value = value.to_numpy()
    if not isinstance(value, numpy.ndarray):
        return value
    if isinstance(value, numpy.ma.MaskedArray):
        hidden = numpy.flatnonzero(value.mask)
        if len(hidden):
            hint = ": None is an order without it" if name in FLAGGED else ""
            raise ValueError(f"{name}: element {hidden[0]} is masked{hint}")
        value = value.data
    if value.ndim > 1:
        raise ValueError(f"{name} must have one dimension, not {value.ndim}")
    return value if value.ndim else value.item()


def _check_numbers(name: str, array: NDArray[Any]) -> None:
    """Raises TypeError for an array of bools, and ValueError where its field can't hold a number
    of this array as it is.
    """
    if array.dtype.kind == "b":
        raise TypeError(f"{name} must be integers, not bool")
    if not len(array):
        return
    least, most = array.min().item(), array.max().item()
    is_good = RANGES[name][0] <= least and most <= RANGES[name][-1]
    if array.dtype.kind == "f":
        is_good = is_good and most <= EXACT and bool((array == numpy.floor(array)).all())
    if not is_good:
        for place, value in enumerate(array.tolist()):
            _number(name, place, value)


def _number(name: str, place: int, value: object) -> int | None:
    """The number that an element of a column is, None where it is missing. Raises TypeError for one
    that isn't a number, and ValueError for one that its field can't hold as it is, and for one that
    each command has.
    """
    words = WORDS.get(name, {})
    if isinstance(value, str) and value in words:
        return words[value]
    if value is None or type(value).__name__ == "NAType" or isinstance(value, str) and not value:
        if name in ALWAYS:
            raise ValueError(f"{name}: element {place} is missing")
        return None
    if isinstance(value, bool | numpy.bool_):
        raise TypeError(f"{name}: element {place} must be an integer, not bool")
    if isinstance(value, float | numpy.floating):
        value = _whole(name, place, float(value))
    try:
        number = operator.index(value)  # type: ignore[arg-type]
    except TypeError:
        kind = type(value).__name__
        if words and isinstance(value, str):
            kind += f" (words: {', '.join(map(repr, words))})"
        raise TypeError(f"{name}: element {place} must be an integer, not {kind}") from None
    allowed = RANGES[name]
    if number not in allowed:
        text = f"must be from {allowed[0]} to {allowed[-1]}, not {number}"
        if name in ALLOWED:
            text = f"must be one of {ALLOWED[name][0].__name__}, not {number}"
        raise ValueError(f"{name}: element {place} {text}")
    return number


def _whole(name: str, place: int, value: float) -> int:
    """The whole number that an element of a column is. Raises ValueError where it is none, or so
    great that a float may not have it exactly.
    """
    if value.is_integer() and abs(value) <= EXACT:
        return int(value)
    text = f"{name}: element {place}, {value}, is no exact whole number"
    if math.isnan(value) and name not in ALWAYS:
        text += ': where it is missing, give None, or a Series.astype("Int64")'
    raise ValueError(text)

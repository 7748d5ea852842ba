"""The conditions that an extract's rows are to meet, such as `status != REJECTED`."""
import dataclasses
import re
from collections.abc import Callable, Collection, Mapping, Sequence
from decimal import Decimal

import numpy

from callauction.prices import number_of
from callauction.verdict import times
from callauction.verdict.cells import Mask, Source
from callauction.verdict.columns import ColumnError, ExtractError
from callauction.verdict.reading import Reading

_CONDITION = re.compile(r"\s*(?P<name>.+?)\s*(?P<sign>==|!=|<=|>=|<|>)\s*(?P<value>.*?)\s*")
_COMPARED: dict[str, Callable[[Decimal, Decimal], bool]] = {
    "<": lambda left, right: left < right,
    "<=": lambda left, right: left <= right,
    ">": lambda left, right: left > right,
    ">=": lambda left, right: left >= right,
}


class ConditionError(ValueError):
    """The words of a condition are wrong; one line."""


@dataclasses.dataclass(frozen=True)
class Condition:
    """A condition on a column of the table."""

    name: str
    sign: str
    value: str

    def met(self, texts: list[str], reading: Reading) -> list[bool]:
        """Which of these texts meet it: by text for == and !=, as numbers or as times for the
        others. Raises ExtractError for a text that is neither, ConditionError for a value.
        """
        if self.sign in ("==", "!="):
            return [(text == self.value) == (self.sign == "==") for text in texts]
        dates = reading.dates or times.strokes_of(map(times.date_text, [self.value, *texts]))
        wanted = _comparable(self.value, reading, dates)
        if wanted is None:
            raise ConditionError(f"where: {self.value!r} is neither a number nor a time")
        found = {text: _comparable(text, reading, dates) for text in texts}
        odd = next((text for text, value in found.items() if value is None), None)
        if odd is not None:
            raise ExtractError(f"where: {self.name} has {odd!r}, neither a number nor a time")
        return [it is not None and _COMPARED[self.sign](it, wanted) for it in found.values()]


def _comparable(text: str, reading: Reading, dates: str) -> Decimal | None:
    """The number or the time that a text is, None where it is neither."""
    number = number_of(reading.plain(text))
    return times.seconds(text, dates) if number is None else number


def condition_of(text: str, columns: Collection[str]) -> Condition:
    """The condition that a text says. Raises ConditionError, and ColumnError."""
    found = _CONDITION.fullmatch(text)
    if not found or "==" in found["value"] or "!=" in found["value"]:
        raise ConditionError(f"where {text!r} is no condition such as 'status != REJECTED'")
    if found["name"] not in columns:
        raise ColumnError(f"where: the table has no column {found['name']!r}")
    return Condition(found["name"], found["sign"], found["value"].strip("'\""))


def rows_meeting(source: Source, asked: Sequence[Condition], reading: Reading) -> Mask:
    """Which rows meet all conditions; an empty cell meets == and != alone."""
    met = numpy.ones(len(source), bool)
    for condition in asked:
        codes, texts = source.cells(condition.name).texts()
        missing = condition.sign in ("==", "!=") and condition.met([""], reading)[0]
        met &= numpy.array([*condition.met(texts, reading), missing])[codes]
    return met


def rows_too_early(
    source: Source, asked: Sequence[Condition], names: Mapping[str, str], reading: Reading,
    met: Mask,
) -> Mask:  # fmt: skip
    """Of the rows that fail conditions, which fail those alone that ask for a later time."""
    time = names.get("time")
    others = [it for it in asked if it.name != time or it.sign not in (">", ">=")]
    if len(others) == len(asked):
        return numpy.zeros(int((~met).sum()), bool)
    return rows_meeting(source, others, reading)[~met]

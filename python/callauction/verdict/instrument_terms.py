"""What the days of instruments were opened with, as a table has it or a command line says."""
import os
from collections.abc import Mapping
from typing import Any, NamedTuple

import pandas

from callauction.prices import number_of
from callauction.verdict.columns import ColumnError, ExtractError, hint_of, refuse_unknown
from callauction.verdict.reading import Reading
from callauction.words import AUCTIONS

TERMS = (
    "reference", "tick_size", "range", "low", "high", "auctions", "second_reference",
    "second_range",
)  # fmt: skip
"""What a day is opened with: the columns of a table of days beside that of the instruments."""
NO_TICK_SIZE = "none"
"""The tick size of an instrument for which it depends on the price."""

Name = tuple[str, ...]
"""The texts of an instrument's columns."""
Terms = dict[str, Any]
"""What a day was opened with, as the arguments of audit_events."""


class Days(NamedTuple):
    """What the days of instruments were opened with, by the texts of these columns."""

    columns: Name
    terms: Mapping[Name, Mapping[str, object]]


class TermsError(ValueError):
    """What a day was opened with isn't known; one line that says what to do."""


def days_of(source: pandas.DataFrame | str | os.PathLike[str] | None, by: str) -> Days:
    """What the day of each instrument was opened with, of a frame or a CSV file, which may have
    some of several columns `by` alone. Raises ColumnError, OSError, and ExtractError for one that
    is there twice with other terms.
    """
    if source is None:
        return Days((), {})
    is_frame = isinstance(source, pandas.DataFrame)
    frame: pandas.DataFrame = source
    if not is_frame:
        with open(source, encoding="utf-8-sig", newline="") as file:
            separator = max(",;\t", key=file.readline().count)
        frame = pandas.read_csv(
            source, sep=separator, dtype="str", keep_default_na=False, skip_blank_lines=False
        ).fillna("")
        frame = frame.set_axis(range(2, 2 + len(frame)))[frame.ne("").any(axis=1).to_numpy()]
    columns = tuple(name for name in dict.fromkeys([by, *by.split(",")]) if name in frame)
    if not columns:
        raise ColumnError(f"the days have no column {by!r}{hint_of(by, frame)}")
    refuse_unknown(frame.columns, (*columns, *TERMS))
    terms, labels = dict[Name, Mapping[str, object]](), dict[Name, object]()
    for label, row in zip(frame.index, frame.to_dict("records")):
        key = tuple(str(row[name]) for name in columns)
        own = {str(name): it for name, it in row.items() if name in TERMS and it != "" and it == it}
        if _numbered(terms.setdefault(key, own)) != _numbered(own):
            raise ExtractError(
                f"the days have {','.join(key)} twice, in rows {labels[key]} and {label}, with "
                "other terms: leave one out"
            )
        labels.setdefault(key, label)
    return Days(columns, terms)


def _numbered(terms: Mapping[str, object]) -> dict[str, object]:
    """Terms with numbers as such, so that 20 is 20.00."""
    return {name: number_of(it) if number_of(it) is not None else it for name, it in terms.items()}


def terms_of(given: Mapping[str, object], reading: Reading) -> Terms:
    """The arguments of an audit, which may have a file's signs. Raises TermsError for a lack."""
    missing = [f"--{it.replace('_', '-')}" for it in TERMS[:2] if given.get(it) is None]
    if missing:
        raise TermsError(
            f"there are order events: say {' and '.join(missing)} (the last price "
            "before the day is the reference; the tick size is none where it depends on the price)"
        )
    auctions = given.get("auctions") or AUCTIONS
    found: Terms = {name: reading.said(given.get(name)) for name in TERMS}
    found["auctions"] = auctions.split(",") if isinstance(auctions, str) else auctions
    if found["tick_size"] == NO_TICK_SIZE:
        found["tick_size"] = None
    return found

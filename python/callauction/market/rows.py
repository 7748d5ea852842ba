"""What is known of an instrument's file: see Row."""
import csv
import dataclasses
import io
import os
import pathlib
import typing
from collections.abc import Iterable
from typing import TYPE_CHECKING, Any

from callauction.market.files import replacing
from callauction.market.forms import OVER
from callauction.market.instrument_names import guarded, instrument_of, line_of, unguarded

if TYPE_CHECKING:
    import pandas

    from callauction.market.task import FileResult


@dataclasses.dataclass(frozen=True, slots=True)
class Row:
    """What the program says of an instrument's file. None is what it wasn't asked or didn't say:
    of an auction that didn't take place, or had no price, and after a fault.

    Counts are of entries and of trades, prices are in ticks, volumes and surpluses in shares.
    """

    instrument: str
    """Its name in printable form: see names.printable."""
    entries: int | None = None
    compared: int | None = None
    """How many entries have a recorded reply, which the audit compared with the lawful one."""
    unlawful: int | None = None
    """How many recorded replies differ from the lawful ones."""
    first_unlawful: int | None = None
    """The number, from 1, of the first entry with an unlawful reply."""
    day: str | None = None
    """`over`, or the auction that the day is in: `opening`, `intraday` or `closing`."""
    auctions: int | None = None
    """How many auctions of the day ended, with or without a price."""
    opening_price: int | None = None
    opening_volume: int | None = None
    opening_surplus: int | None = None
    opening_side: str | None = None
    """The side of the surplus: bid, ask or none."""
    intraday_price: int | None = None
    intraday_volume: int | None = None
    intraday_surplus: int | None = None
    intraday_side: str | None = None
    closing_price: int | None = None
    closing_volume: int | None = None
    closing_surplus: int | None = None
    closing_side: str | None = None
    trades: int | None = None
    """How many trades the day had."""
    seconds: float | None = None
    """How long the program ran on the file. It alone differs from run to run."""
    fault: str | None = None
    """Why the rest is missing: what the program says of the file, or why it couldn't run."""

    def is_complete(self) -> bool:
        """Whether each reply was compared, and the day is over."""
        return not self.fault and self.compared == self.entries and self.day == OVER


@dataclasses.dataclass(frozen=True, slots=True)
class Found:
    """A row as it comes, with what a later run needs to take it over."""

    row: Row
    worker: str = ""
    """The worker that ran the program."""
    size: int | None = None
    """The bytes of the file."""
    digest: str = ""
    """The SHA-256 of the file, empty where it wasn't asked for."""


def found_of(answer: "FileResult", worker: str) -> Found:
    """What this worker found of a file."""
    path, columns, size, digest = answer
    if "fault" in columns:
        columns["fault"] = line_of(columns["fault"])
    return Found(Row(instrument_of(path), **columns), worker, size, digest)


COLUMNS = {field.name: field.type for field in dataclasses.fields(Row)}
"""The columns of a row with their types."""
WRITTEN = [name for name in COLUMNS if name != "seconds"]
"""The columns of a result's file: all that a second run gives the same."""


def cells(row: Row, names: Iterable[str]) -> list[object]:
    """The fields of a record with these columns of a row: what is None is empty, and no spreadsheet
    runs a text.
    """
    values = (getattr(row, name) for name in names)
    return ["" if it is None else guarded(it) if isinstance(it, str) else it for it in values]


def read_cell(name: str, cell: str) -> Any:
    """What a field of a record says of this column. Raises ValueError for a bad number."""
    if cell == "" and name != "instrument":
        return None
    kinds = typing.get_args(COLUMNS[name]) or (COLUMNS[name],)
    return unguarded(cell) if kinds[0] is str else kinds[0](cell)


def record_of(fields: Iterable[object]) -> str:
    """A CSV record with these fields, and its line end."""
    out = io.StringIO()
    csv.writer(out, lineterminator="\n").writerow(fields)
    return out.getvalue()


def write_rows(rows: Iterable[Row], path: pathlib.Path) -> None:
    """Writes rows to a CSV file, in the order of their instruments; it takes the path's place when
    it is whole. Raises OSError.
    """
    with replacing(path) as out:
        out.write(record_of(WRITTEN).encode())
        for row in sorted(rows, key=lambda row: row.instrument):
            out.write(record_of(cells(row, WRITTEN)).encode())
        out.flush()
        os.fsync(out.fileno())


def read_rows(path: str | pathlib.Path) -> list[Row]:
    """The rows of a file that write_rows made, each text as it was. Raises OSError, ValueError."""
    with open(path, encoding="utf-8", newline="") as text:
        records = csv.reader(text)
        if next(records, None) != WRITTEN:
            raise ValueError(f"{path} is no result of a market")
        return [row_of(record) for record in records]


def row_of(record: list[str]) -> Row:
    """The row of a record of WRITTEN. Raises ValueError."""
    if len(record) != len(WRITTEN):
        raise ValueError(f"a record of {len(record)} fields in place of {len(WRITTEN)}")
    return Row(**{name: read_cell(name, cell) for name, cell in zip(WRITTEN, record)})


def frame(rows: Iterable[Row]) -> "pandas.DataFrame":
    """A pandas frame of rows, in the order of their instruments: integers as Int64, texts as
    string, both with <NA> for None, seconds as float64.
    """
    import pandas

    kinds = {int: "Int64", str: "string", float: "float64"}
    ordered = sorted(rows, key=lambda row: row.instrument)
    columns = {}
    for name, kind in COLUMNS.items():
        kind = (typing.get_args(kind) or (kind,))[0]
        columns[name] = pandas.array([getattr(row, name) for row in ordered], dtype=kinds[kind])
    return pandas.DataFrame(columns)

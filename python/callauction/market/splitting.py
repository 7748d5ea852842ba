"""A table of a whole market, split into a journal for each instrument. See split."""
import bz2
import collections
import csv
import gzip
import io
import itertools
import lzma
import os
import pathlib
import shutil
import tempfile
from collections.abc import Callable, Collection, Iterable, Iterator, Sequence
from operator import itemgetter
from typing import IO, TYPE_CHECKING, TypeAlias, cast

from callauction.market.files import locked
from callauction.market.instrument_names import file_of
from callauction.overwriting import refuse_overwriting
from callauction.words import MARKET

if TYPE_CHECKING:
    import dask.dataframe
    import pandas

TableSource: TypeAlias = (
    "str | os.PathLike[str] | pandas.DataFrame | dask.dataframe.DataFrame | Iterable[TableSource]"
)
"""The path of a CSV or Parquet file, a frame, or several of these."""
Picker = Callable[[Sequence[str]], Iterable[str]]
"""What picks the fields of a record from a row's cells."""

DAY = {
    "low": "1",
    "high": "1000",
    "reference": "200",
    "members": "4",
    "open": "4096",
    "calls": "65536",
    "range": "",
}
"""The numbers of a day record in their order, with the program's defaults."""
CELLS = (
    "member",
    "command",
    "side",
    "quantity",
    "limit",
    "peak",
    "only",
    "id",
    "number",
    "reply",
)
"""The columns of the table beside that of the instruments."""
NEEDED = ("member", "command")
SPECIAL = ',"\r\n'
"""What a field is quoted for."""
OPENERS: dict[str, Callable[..., IO[str]]] = {".gz": gzip.open, ".bz2": bz2.open, ".xz": lzma.open}
"""What opens a file with this end of its name."""
ROWS = 100_000
"""How many rows are read and written together, where the table doesn't come in partitions."""


def picked(*names: str) -> Picker:
    """What picks the fields of a record from a row's cells."""
    return itemgetter(*map(CELLS.index, ("member", "command", *names, "reply")))


RESTRICTION, PEAK = CELLS.index("only"), CELLS.index("peak")
ENTER = picked("side", "quantity", "limit", "peak", "only")
WITH_PEAK = picked("side", "quantity", "limit", "peak")
WITHOUT_PEAK = picked("side", "quantity", "limit")
FIELDS = {
    "enter": ENTER,
    "change": picked("id", "quantity", "limit"),
    "delete": picked("id"),
    "status": picked("id"),
    "trade": picked("number"),
}
NONE = picked()
"""The fields of a command that brings nothing, and of one that is none, which the program says."""


class TableError(Exception):
    """The table can't be split, or that of the days not be read: what is wrong, and where."""


# ---- what is read


def partitions_of(table: TableSource) -> "Iterator[pandas.DataFrame]":
    """The pandas frames that a table consists of, one at a time, in their order."""
    if isinstance(table, str | os.PathLike):
        yield from frames_of(pathlib.Path(table))
    elif hasattr(table, "npartitions"):
        of_dask = cast("dask.dataframe.DataFrame", table)
        for place in range(of_dask.npartitions):
            yield of_dask.get_partition(place).compute()
    elif hasattr(table, "iloc"):
        frame = cast("pandas.DataFrame", table)
        for begin in range(0, len(frame), ROWS):
            yield frame.iloc[begin : begin + ROWS]
    else:
        for part in table:
            yield from partitions_of(part)


def frames_of(path: pathlib.Path) -> "Iterator[pandas.DataFrame]":
    """The frames of a file: of Parquet by its row groups, else of CSV with a header. Raises
    OSError, and TableError where the file is bad or Parquet can't be read here.
    """
    try:
        if path.suffix in (".parquet", ".pq"):
            import dask.dataframe

            yield from partitions_of(dask.dataframe.read_parquet(path, split_row_groups=True))
        else:
            yield from frames_of_csv(path)
    except (ImportError, RuntimeError, ValueError, EOFError, csv.Error, lzma.LZMAError) as fault:
        raise TableError(f"{path}: {' '.join(str(fault).split())}") from fault


def frames_of_csv(path: pathlib.Path) -> "Iterator[pandas.DataFrame]":
    """The frames of a CSV file, whose cells are texts. A byte order mark, blank lines, and commas
    after a row say nothing. Raises OSError, ValueError, csv.Error, and TableError for a row that
    is longer than the header.
    """
    import pandas

    with OPENERS.get(path.suffix, open)(path, "rt", encoding="utf-8-sig", newline="") as text:
        records = filter(None, csv.reader(text, strict=True))
        names: list[str] = next(records, [])
        checked_names(names or [""], str(path))
        begin = 1
        while some := list(itertools.islice(records, ROWS)):
            for place, record in enumerate(some):
                if any(record[len(names) :]):
                    raise TableError(f"{path}: row {begin + place} is longer than the header")
            columns = itertools.zip_longest(*some, fillvalue="")
            yield pandas.DataFrame(dict(zip(names, columns)), columns=names, dtype=object)
            begin += len(some)


def checked_names(names: Sequence[object], where: str) -> None:
    """Raises TableError where a column has no name, or two have the same."""
    for place, name in enumerate(names):
        if not name:
            raise TableError(f"{where}: column {place + 1} has no name")
        if name in names[:place]:
            raise TableError(f"{where}: the column {name!r} is there twice")


def checked_columns(
    frame: "pandas.DataFrame",
    needed: Collection[str],
    known: Collection[str],
    ignore: Collection[str],
    what: str,
) -> None:
    """Raises TableError where a frame lacks a column, has one twice, or has one that says nothing
    here and isn't to be ignored.
    """
    from callauction.verdict.columns import ColumnError, refuse_unknown

    names = frame.columns.tolist()
    checked_names(names, what)
    for name in needed:
        if name not in names:
            raise TableError(f"{what}: there is no column {name!r}")
    try:
        refuse_unknown(names, [*dict.fromkeys((*needed, *known))], ignore)
    except ColumnError as fault:
        raise TableError(f"{what}: {fault}") from fault


def texts(column: "pandas.Series") -> list[str]:
    """The cells of a column as texts: see text_of."""
    values = column.tolist()
    try:
        "".join(values)
    except TypeError:
        return list(map(text_of, values))
    return list(values)


def text_of(value: object) -> str:
    """A cell as a text. What is missing is empty, and a whole number has no point: pandas makes a
    column of floats of integers with gaps.
    """
    if isinstance(value, float):
        return "" if value != value else str(int(value)) if value.is_integer() else str(value)
    return "" if value is None or str(value) in ("<NA>", "NaT") else str(value)


def fields(frame: "pandas.DataFrame", name: str) -> list[str]:
    """The fields of a column as records have them: those of a column that isn't there are
    empty, and an order without a limit is a market order.
    """
    found = texts(frame[name]) if name in frame else [""] * len(frame)
    if name == "limit":
        found = [text or MARKET for text in found]
    joined = "".join(found)
    return list(map(quoted, found)) if any(mark in joined for mark in SPECIAL) else found


def quoted(text: str) -> str:
    """A field in quotes where it needs them."""
    if not any(mark in text for mark in SPECIAL):
        return text
    out = io.StringIO()
    csv.writer(out, lineterminator="").writerow([text])
    return out.getvalue()


def records_of(frame: "pandas.DataFrame", by: str) -> Iterator[tuple[str, str]]:
    """The instrument of each row, and its entry in the shortest form."""
    rows = zip(*(fields(frame, name) for name in CELLS))
    for instrument, row in zip(texts(frame[by]), rows):
        pick = FIELDS.get(row[1], NONE)
        if pick is ENTER and not row[RESTRICTION]:
            pick = WITH_PEAK if row[PEAK] else WITHOUT_PEAK
        yield instrument, ",".join(pick(row)) + "\n"


def days_of(days: TableSource, by: str, ignore: Collection[str]) -> dict[str, str]:
    """The day record of each instrument that has a row in this table. Raises TableError."""
    found: dict[str, str] = {}
    for frame in partitions_of(days):
        checked_columns(frame, (by,), DAY, ignore, "the days")
        columns = [texts(frame[name]) if name in frame else [""] * len(frame) for name in DAY]
        for instrument, *row in zip(texts(frame[by]), *columns):
            if instrument in found:
                raise TableError(f"the days have {instrument!r} twice")
            found[instrument] = day_record(row)
    return found


def day_record(numbers: Iterable[str]) -> str:
    """The day record with these numbers, of which empty ones are the program's defaults."""
    filled = (number or default for number, default in zip(numbers, DAY.values()))
    return ",".join(["day", *map(quoted, filled)]) + "\n"


# ---- what is written


class Journals:
    """The journals that are written, in a folder of their own until they are whole."""

    def __init__(
        self, begun: pathlib.Path, days: dict[str, str] | None, by: str, ignore: Collection[str]
    ) -> None:
        self.begun, self.days, self.by, self.ignore = begun, days, by, ignore
        self.files: dict[str, str] = {}
        """The name of each instrument's file."""
        self.rows = 0

    def begin(self, instrument: str) -> None:
        """Begins an instrument's journal. Raises TableError where it has no day, or no file can be
        named for it, and OSError.
        """
        if self.days is not None and instrument not in self.days:
            raise TableError(f"the days have no row for {instrument!r}")
        try:
            name = file_of(instrument)
        except ValueError as fault:
            raise TableError(str(fault)) from fault
        day = day_record(DAY.values()) if self.days is None else self.days[instrument]
        with self.opened(name) as out:
            out.write(day)
        self.files[instrument] = name

    def opened(self, name: str) -> IO[str]:
        """A journal, open at its end. Raises OSError."""
        return open(self.begun / name, "a", encoding="utf-8", errors="surrogateescape")

    def check(self, frame: "pandas.DataFrame") -> None:
        """Raises TableError where a frame has other columns, or a second header."""
        checked_columns(frame, (self.by, *NEEDED), CELLS, self.ignore, "the table")
        members = texts(frame["member"])
        if "member" in members:
            row = self.rows + members.index("member") + 1
            raise TableError(f"the table: row {row} has 'member' as member, as a header")
        self.rows += len(members)

    def add(self, frame: "pandas.DataFrame") -> None:
        """Adds the entries of a frame. Raises TableError, OSError."""
        self.check(frame)
        entries: dict[str, list[str]] = collections.defaultdict(list)
        for instrument, entry in records_of(frame, self.by):
            entries[instrument].append(entry)
        for instrument, those in entries.items():
            if instrument not in self.files:
                self.begin(instrument)
            with self.opened(self.files[instrument]) as out:
                out.writelines(those)

    def finish(self, folder: pathlib.Path, read: Collection[str]) -> list[str]:
        """Moves the journals to their folder: their paths, in the order of the instruments. Raises
        OverwriteError where one would take the place of a file that is read.
        """
        names = [self.files[instrument] for instrument in sorted(self.files)]
        tables = {path: path for path in read}
        for name in names:
            refuse_overwriting(tables, {"the journal": folder / name})
        for name in names:
            os.replace(self.begun / name, folder / name)
        return [str(folder / name) for name in names]


def table_paths(table: "TableSource | None") -> list[str]:
    """The paths of the files that a table consists of; none of what can be read once."""
    if isinstance(table, str | os.PathLike):
        return [os.fspath(table)]
    parts = table if isinstance(table, list | tuple) else ()
    return [path for part in parts for path in table_paths(part)]


def split(
    table: TableSource,
    by: str = "instrument",
    *,
    days: "TableSource | None" = None,
    ignore: Collection[str] = (),
    folder: str | os.PathLike[str] = ".",
) -> list[str]:
    """Writes a journal for each instrument of a table, and gives their paths in the order of the
    instruments.

    The table has a row for each entry, those of an instrument in the order in which the board took
    them: a pandas or Dask frame, the path of a CSV or Parquet file, or several of these. Its
    columns are `by`, `member`, `command`, those of CELLS that its commands have, and those to
    `ignore`. It is read partition by partition, of which one is in memory at a time.

    `days` is a table with a row for each instrument: `by` and the columns of DAY. Numbers that it
    doesn't have, and without it all, are the program's defaults.

    The journals take their places in `folder`, and those of files with the same names, when all
    are whole; at an error nothing is left of them. What a field says is no matter here: the program
    refuses what is bad. Raises TableError, InUse where another split or run writes to
    the folder, OverwriteError where a journal would take the place of a table, and OSError where
    something can't be read or written.
    """
    place = pathlib.Path(folder)
    place.mkdir(parents=True, exist_ok=True)
    with locked(place):
        openings = None if days is None else days_of(days, by, ignore)
        begun = pathlib.Path(tempfile.mkdtemp(prefix=".callauction-", dir=place))
        try:
            journals = Journals(begun, openings, by, ignore)
            for frame in partitions_of(table):
                journals.add(frame)
            return journals.finish(place, [*table_paths(table), *table_paths(days)])
        finally:
            shutil.rmtree(begun)

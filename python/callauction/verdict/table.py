"""What was read of an extract: see Table."""
import dataclasses
from collections.abc import Mapping
from typing import NamedTuple

import numpy
import pandas

from callauction.verdict.cells import Ints, Short, Source

ROW = "row"
"""The name of the index: a row of a file is named by its line, one of a frame by its label."""


class End(NamedTuple):
    """The end of a file: its last row's name and time, and whether that row may be cut."""

    label: object
    time: str
    is_cut: bool


@dataclasses.dataclass(frozen=True)
class Table:
    """What was read: the rows that meet all conditions, and those that don't; `short` has the lines
    of a file that have another number of fields than its header, and says so.
    """

    source: Source
    short: Short = ()
    dropped: Source | None = None
    names: Mapping[str, str] = dataclasses.field(default_factory=dict)
    """By our name of a column the table's own."""
    notes: Mapping[str, int] = dataclasses.field(default_factory=dict)
    """What else was met in a file, and how often."""
    end: "End | None" = None
    dates: str = ""
    """What dates with strokes are (times.STROKES), empty where that isn't known."""
    totals: object = None
    """The name of a file's last row, where that seems to have totals."""
    is_whole: bool = True
    """Whether numbers of sequences that it hasn't are missing, as they aren't of a book."""
    others: Ints | None = None
    """The numbers of a log's messages, each in its session, which may begin above 1."""

    @property
    def left_out(self) -> int:
        """How many rows don't meet all conditions."""
        return 0 if self.dropped is None else len(self.dropped)

    @property
    def frame(self) -> pandas.DataFrame:
        """The texts of our columns under an index of row names, empty where there is none."""
        columns = {ours: self.source.cells(theirs).texts() for ours, theirs in self.names.items()}
        texts = {
            name: numpy.array([*found, ""], "object")[codes]
            for name, (codes, found) in columns.items()
        }
        return pandas.DataFrame(texts, pandas.Index(self.source.labels, name=ROW))

    def take(self, rows: Ints) -> "Table":
        """Some of the rows that meet all conditions."""
        return dataclasses.replace(self, source=self.source.take(rows))

"""A desk's extract: a lawful day with trades in each auction, as rows and as CSV; changes of it,
and its audit.
"""
import csv
import functools
import io
from collections.abc import Callable
from decimal import Decimal
from pathlib import Path

import pytest
from callauction.__main__ import main
from damage import ORDERS, places, timed_day
from extracts import Extract, Rows

Change = Callable[[Rows], Rows | None]
"""Changes the rows of the base day, or answers others in their place."""
UNCROSS, TRADE = "uncross", "trade"


@functools.cache
def base_day(is_interrupted: bool = False) -> Extract:
    """A day with trades and a price in each auction, with an interruption or without."""
    for seed in range(1000):
        found = timed_day(seed, 20)
        stops = any(outcome.is_interrupted for outcome in found.lawful)
        ended = [outcome for outcome in found.lawful if not outcome.is_interrupted]
        if stops == is_interrupted and min(outcome.trades for outcome in ended) > 1:
            if stops or found.range is None:
                return found
    raise LookupError


def text_of(rows: Rows, separator: str = ",") -> str:
    """The rows as a CSV file."""
    names = dict.fromkeys(name for row in rows for name in row)
    columns = [*dict.fromkeys(["event", "order", "side", "price", "quantity", *names])]
    out = io.StringIO(newline="")
    writer = csv.DictWriter(out, columns, delimiter=separator, lineterminator="\n")
    writer.writeheader()
    writer.writerows(rows)
    return out.getvalue()


def cells(event: str, column: str, change: Callable[[str], str], most: int = 10**6) -> Change:
    """Changes a column of an event's rows, where there is a cell."""

    def changed(rows: Rows) -> None:
        for place in [at for at in places(rows, *event.split("|")) if rows[at].get(column)][:most]:
            rows[place][column] = change(rows[place][column])

    return changed


def all_cells(column: str, change: Callable[[str], str]) -> Change:
    """Changes a column of all rows, where there is a cell."""
    return cells("new|replace|cancel|uncross|trade|fill", column, change)


def by_order(rows: Rows) -> Rows:
    """The rows of each order together, by its id."""
    return sorted(rows, key=lambda row: (row.get("order", "~"), row["time"]))


def as_fills(rows: Rows) -> Rows:
    """The rows with two fills in place of each trade."""
    found: Rows = []
    for row in rows:
        if row["event"] != TRADE:
            found.append(row)
            continue
        for side in ("bid", "ask"):
            those = {name: row[name] for name in ("time", "quantity", "price", "auction")}
            found.append({"event": "fill", "order": row[side], **those})
    return found


LINE = ["--tick-size", "0.01"]


def audited(content: str | bytes, words: list[str], folder: Path) -> int:
    """The status of the audit of a file."""
    path = folder / "day.csv"
    path.write_bytes(content if isinstance(content, bytes) else content.encode())
    reference = [] if "--reference" in words else ["--reference", base_day().reference]
    if "minus 20" in words:
        words = [f"--reference={Decimal(base_day().reference) - 20}"]
    return main(["audit", str(path), *LINE, *reference, *words])


OPENING = """event,order,side,price,quantity,surplus,auction
new,A,bid,20.45,10,,
new,B,ask,20.45,10,,
uncross,,none,20.45,10,0,opening
"""


def base_rows(rows: Rows | None = None) -> Rows:
    """A copy of the rows of the base day, or of these."""
    return [dict(row) for row in rows or base_day().rows]


Printed = pytest.CaptureFixture[str]


def split(rows: Rows) -> tuple[Rows, Rows]:
    """The rows of orders, and those of results."""
    orders = [row for row in rows if row["event"] in ORDERS]
    return orders, [row for row in rows if row["event"] not in ORDERS]


def refused(rows: Rows, words: list[str], folder: Path, printed: Printed) -> str:
    """The one line with which an extract is refused."""
    assert audited(text_of(rows), words, folder) == 1
    found = printed.readouterr()
    assert found.err.count("\n") == 1 and not found.out
    return found.err

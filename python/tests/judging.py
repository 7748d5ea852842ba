"""The verdict on a recorded day, as a frame or as a file."""
from pathlib import Path
from typing import Any

import pandas
from callauction.verdict import Verdict, audit_events, shapes
from extracts import Extract, Rows


def frame_of(rows: Rows) -> pandas.DataFrame:
    """The rows as a frame with the columns that each extract has."""
    names = dict.fromkeys(name for row in rows for name in row)
    columns = [*dict.fromkeys(["event", "order", "side", "price", "quantity", *names])]
    return pandas.DataFrame(rows, columns=columns, dtype="object")


def judged(extract: Extract, **options: Any) -> Verdict:
    """The verdict on an extract as a frame."""
    terms: dict[str, Any] = dict(reference=extract.reference, range=extract.range, tick_size="0.01")
    return audit_events(frame_of(extract.rows), **terms | options)


def read_as(shape: str, text: str, extract: Extract, path: Path) -> Verdict:
    path.write_text(text, encoding="utf-8")
    return audit_events(
        path, reference=extract.reference, range=extract.range, tick_size="0.01",
        reading=shapes.reading_of(shape),
    )  # fmt: skip


def judged_rows(rows: Rows, terms: dict[str, Any]) -> Verdict:
    """The verdict on rows with these terms."""
    return audit_events(frame_of(rows), **terms)

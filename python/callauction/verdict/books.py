"""Auctions from their books and what was published: of frames, or of files, one or many."""
import argparse
import dataclasses
import io
from collections.abc import Mapping

import numpy
import pandas

from callauction.prices import argument
from callauction.progress import Progress
from callauction.verdict.audited import Audited
from callauction.verdict.audits import verdict_on_table
from callauction.verdict.cells import Short
from callauction.verdict.columns import EVENT_COLUMNS, ColumnError, ExtractError, refuse_unknown
from callauction.verdict.events import orders_in_time, rows_of, said_in
from callauction.verdict.extract import read_table
from callauction.verdict.extract_files import file_of
from callauction.verdict.findings import Verdict
from callauction.verdict.instrument_terms import TERMS, days_of, terms_of
from callauction.verdict.instruments import InstrumentTable, instrument_table_of
from callauction.verdict.reading import Reading
from callauction.verdict.rows import Kind, Rows
from callauction.verdict.rules import Rules, SaidTerms
from callauction.verdict.table import Table
from callauction.words import AUCTIONS


def verdicts_on_books(
    files: Mapping[str, bytes], reading: Reading, asked: argparse.Namespace, watch: Progress
) -> list[Audited]:
    """The verdicts on auctions of files: books, then what was published. Raises as audit_events."""
    table = _table(files, reading, asked.by)
    reading = dataclasses.replace(reading, format="csv", sort=False)
    terms = {name: vars(asked)[name] for name in TERMS}
    if asked.by is None:
        codes = numpy.zeros(len(table.source), "i4")
        rules = SaidTerms(**terms_of(terms, reading)).rules()
        instruments = InstrumentTable(table, reading, "", codes, ("",), {"": rules})
    else:
        days = days_of(asked.days, asked.by)
        instruments = instrument_table_of(table, reading, asked.by, days, terms)
    own = _rules(instruments, asked.auctions is not None)
    instruments = dataclasses.replace(instruments, rules=own, is_explained=asked.explain)
    return [*instruments.one_by_one(None, watch)]


def _table(files: Mapping[str, bytes], reading: Reading, by: str | None) -> Table:
    """One table of all files, whose rows are named by line and file: the orders in their time, then
    what was published. A file without a column of events has open orders, or results.
    """
    endings = [f" of {name}" if len(files) > 1 else "" for name in files]
    read = [*map(_frame_of, files.values(), endings, [reading] * len(files))]
    theirs = reading.columns.get("event", "event")
    if theirs != "event" and not any(theirs in frame for frame, _ in read):
        raise ColumnError(f"columns: no file has a column {theirs!r}")
    events = ("new", "uncross")
    frames = [_with_events(frame, reading, event) for (frame, _), event in zip(read, events)]
    plain = dataclasses.replace(reading, format="csv", sort=False)
    table = read_table(pandas.concat(frames), plain, by)
    short = tuple(line for _, lines in read for line in lines)
    table = dataclasses.replace(table, short=short, is_whole=False)
    orders, others = orders_in_time(table, plain)
    return table.take(numpy.concatenate([orders, others]))


def _frame_of(content: bytes, ending: str, reading: Reading) -> tuple[pandas.DataFrame, Short]:
    """The rows of a file under the names of their lines, and its short lines."""
    table = file_of(io.BytesIO(content), reading)
    source = table.source
    labels = [f"{line}{ending}" for line in source.labels] if ending else source.labels
    frame = pandas.DataFrame(index=labels)
    for column in source.names:
        codes, texts = source.cells(column).texts()
        frame[column] = numpy.array([*texts, ""], "object")[codes]
    return frame, tuple((f"{line}{ending}", why) for line, why in table.short)


def _with_events(frame: pandas.DataFrame, reading: Reading, event: str) -> pandas.DataFrame:
    """A file's rows with a column of events, under the names of the other file where this one has
    ours; a book's may have our other names of columns.
    """
    columns = reading.columns
    others = {ours: theirs for ours, theirs in columns.items() if theirs not in frame}
    column = columns.get("event", "event")
    if column not in frame and "event" not in frame:
        others |= {
            theirs: ours for theirs, ours in BOOK_NAMES.items()
            if ours not in frame and ours not in columns and theirs not in columns.values()
        }  # fmt: skip
    frame = frame.rename(columns=others)
    return frame if column in frame else frame.assign(**{column: event})


def _rules(instruments: InstrumentTable, is_named: bool) -> dict[str, Rules | str]:
    """What each auction, which its result names or else is said, was opened with, or its fault."""
    kinds, auctions, restrictions = said_in(instruments.table, instruments.reading)
    found: dict[str, Rules | str] = {}
    uncrosses = numpy.flatnonzero((kinds == Kind.UNCROSS) & (instruments.codes >= 0))
    named: dict[str, list[int]] = {}
    for place in uncrosses.tolist():
        name = instruments.names[instruments.codes[place]]
        named.setdefault(name, []).append(int(auctions[place]))
    owners = numpy.unique(instruments.codes[(restrictions > 0) & (instruments.codes >= 0)])
    restricted = {instruments.names[code] for code in owners.tolist()}
    for name, rules in instruments.rules.items():
        if isinstance(rules, str) or name not in instruments.names:
            found[name] = rules
            continue
        those = named.get(name, [])
        is_said = is_named and not any(0 < it <= len(AUCTIONS) for it in those)
        said = rules.auctions[0] if is_said else None
        try:
            auction = auction_of(those, said, name in restricted)
            found[name] = dataclasses.replace(rules, auctions=(auction,))
        except ValueError as fault:
            found[name] = str(fault)
    return found


# ---- one auction of frames


BOOK_COLUMNS = (
    "order", "member", "side", "price", "quantity", "peak", "restriction", "time", "sequence",
)  # fmt: skip
"""The columns of a book: `quantity` is what is open, `price` is missing for a market order."""
BOOK_NAMES = {"open": "quantity", "limit": "price", "only": "restriction"}
PUBLISHED = ("price", "volume", "quantity", "surplus", "side", "auction", "trades", "fills")
"""What may have been published of an auction."""
NOT_NAMED = "an order is for one auction alone: say which auction this is"
PUBLISHED_ROW = "published"
"""The name of the row of what was published."""


def audit_auction(
    book: pandas.DataFrame,
    published: Mapping[str, object] | pandas.DataFrame,
    *,
    reference: object,
    auction: str | None = None,
    range: object = None,
    tick_size: object = None,
    low: object = None,
    high: object = None,
    second_reference: object = None,
    second_range: object = None,
    reading: Reading = Reading(),
) -> Verdict:
    """The verdict on one auction, from the orders that were open at the end of its call phase.

    `book` has a row for each open order: `order`, `side`, `price` (missing for a market order, or a
    market word of `reading`), `quantity` (what is open), and where there are such `member`, `peak`,
    `restriction`, `time` and `sequence`, which say the priority in time; without them it is that of
    the rows. `published` has what was published: `price`, `volume`, `surplus`, `side`, `auction`,
    `trades` (how many, or a frame with `bid`, `ask`, `quantity` and where known `price`,
    `bid_member`, `ask_member`) and `fills` (a frame with `order`, `quantity`, `price`), as far as
    it is known; or it is a frame of events `uncross`, `trade` and `fill`, as of an extract.
    `auction` is which one it is, where that isn't published and an order is for one auction alone.

    The other arguments, the verdict and what is raised are as of audit_events.
    """
    frame = _book_events(book, reading)
    events = pandas.concat([frame, _published_events(published)])
    read = dataclasses.replace(reading, columns={}, where=(), sort=False, ignore=())
    table = read_table(events, read)
    table = table.take(numpy.concatenate(orders_in_time(table, read)))
    table = dataclasses.replace(table, is_whole=False)
    rows = rows_of(table, read, [argument("reference", reference)])
    said = SaidTerms(
        reference, tick_size, range, low, high, (_held(rows, auction),), second_reference,
        second_range,
    )  # fmt: skip
    return verdict_on_table(table, read, said.rules("open"))


def _held(rows: Rows, said: str | None) -> str:
    """Which auction the rows are of. Raises ValueError."""
    named = rows.auction[rows.of(Kind.UNCROSS)].tolist()
    if len(named) != 1:
        raise ValueError(f"published has {len(named)} uncrosses, and not one")
    is_restricted = bool((rows.restriction[rows.of(Kind.NEW)] > 0).any())
    return auction_of(named, said, is_restricted)


def auction_of(named: list[int], said: str | None, is_restricted: bool) -> str:
    """The auction that is said or that the one result names; else any, where no order is for one
    alone, as it decides nothing. Raises ValueError.
    """
    if len(named) != 1:
        how = "" if named else ": --published FILE says what was published of it"
        raise ValueError(f"it has {len(named)} rows uncross, and not one{how}")
    if said is not None or 0 < named[0] <= len(AUCTIONS):
        return said or AUCTIONS[named[0] - 1]
    if is_restricted:
        raise ValueError(NOT_NAMED)
    return AUCTIONS[0]


def _book_events(book: pandas.DataFrame, reading: Reading) -> pandas.DataFrame:
    """The orders of a book as rows `new`."""
    names = {theirs: ours for ours, theirs in reading.columns.items()}
    frame = book.rename(columns={**BOOK_NAMES, **names})
    refuse_unknown(frame.columns, BOOK_COLUMNS, reading.ignore)
    for name in ("order", "side", "price", "quantity"):
        if name not in frame:
            raise ColumnError(f"the book has no column {name}")
    return frame[[name for name in BOOK_COLUMNS if name in frame]].assign(event="new")


def _published_events(published: Mapping[str, object] | pandas.DataFrame) -> pandas.DataFrame:
    """What was published as rows `uncross`, `trade` and `fill`."""
    if isinstance(published, pandas.DataFrame):
        refuse_unknown(published.columns, (*EVENT_COLUMNS,))
        return published if "event" in published else published.assign(event="uncross")
    refuse_unknown(published, PUBLISHED)
    row: dict[str, object] = {"event": "uncross"}
    row |= {name: it for name, it in published.items() if not isinstance(it, pandas.DataFrame)}
    parts = [pandas.DataFrame([row], [PUBLISHED_ROW], dtype="object")]
    for name, event in (("trades", "trade"), ("fills", "fill")):
        frame = published.get(name)
        if isinstance(frame, pandas.DataFrame):
            refuse_unknown(frame.columns, (*EVENT_COLUMNS,))
            parts.append(frame.assign(event=event))
        elif name == "fills" and frame is not None:
            raise ExtractError("fills must be a frame with order and quantity")
    return pandas.concat(parts)

"""What verdicts print and write: with what they are of and by, a row for each instrument and each
finding.
"""
import argparse
import datetime
import hashlib
import json
import pathlib
import shlex
import sys
from collections.abc import Iterable, Iterator, Mapping, Sequence

import numpy
import pandas

import callauction
from callauction import finder
from callauction.market.instrument_names import guarded
from callauction.prices import number_of
from callauction.program import found_program
from callauction.verdict import shapes
from callauction.verdict.audited import FAULT, RECORD, Audited, instruments_frame, worst_of
from callauction.verdict.audits import short_rows
from callauction.verdict.columns import EVENT_COLUMNS, EVENTS, ExtractError
from callauction.verdict.coverage import Coverage
from callauction.verdict.events import rows_of
from callauction.verdict.findings import STATUSES, counts_of, lines_of
from callauction.verdict.instrument_terms import Days
from callauction.verdict.instruments import instrument_table_of
from callauction.verdict.reading import Reading
from callauction.verdict.table import Table

FACTS = ("version", "program_sha256", "file_sha256", "date", "command")
"""The version, the SHA-256 of the program and of each file that was read, in their order (the days
and the shape last), the time of the audit, and the command that repeats it with its options:
columns of each row.
"""


def show(found: list[Audited], asked: argparse.Namespace, contents: Sequence[bytes]) -> int:
    """Prints verdicts on what was read, and writes the files that are asked for: the status, which
    `asked` has before the first line, as nobody may read these. Raises ExtractError and ValueError
    where no instrument can be judged, and OSError.
    """
    facts = facts_of(contents, asked)
    status = asked.status = STATUSES[worst_of(each.word for each in found)]
    write_asked(found, asked, facts)
    if asked.json:
        print("\n".join(json.dumps({**each.plain(), **facts}) for each in found))
    refuse_unjudged(found)
    if not asked.json:
        print_lines(found, asked)
    return status


def write_asked(
    found: list[Audited], asked: argparse.Namespace, facts: Mapping[str, str]
) -> None:
    """Writes the files that are asked for. Raises OSError."""
    if asked.findings is not None:
        write_findings(found, asked.findings, facts)
    if asked.output is not None:
        write_rows(found, asked.output, facts)


def refuse_unjudged(found: list[Audited]) -> None:
    """Raises ExtractError or ValueError where no instrument can be judged, with the first fault."""
    if found and all(each.fault for each in found):
        line, more = _named(found[0].name, found[0].fault), len(found) - 1
        line += f" (and {more:,} more can't be judged)" * bool(more)
        raise ExtractError(line) if any(each.is_unread for each in found) else ValueError(line)


def print_lines(found: list[Audited], asked: argparse.Namespace) -> None:
    """Prints verdicts as lines: what was met in reading, the findings, the counts, the verdict."""
    for each in found:
        for line in each.remarks or [each.fault] * bool(each.fault):
            remark(each.name, line)
        ranges = each.ranges if len(found) == 1 or asked.explain else ()
        for line in (*each.lines, *ranges):
            print(line if line.startswith(" ") else _named(each.name, line))
    _print_end(found)


def remark(name: str, line: str) -> None:
    """Prints what was met in reading an instrument, on standard error."""
    print(f"callauction: {_named(name, line)}", file=sys.stderr)


def _named(name: str, line: str) -> str:
    return f"{name}, {line}" if name else line


def _print_end(found: list[Audited]) -> None:
    """Prints the counts and the verdict on all instruments together."""
    sums = (sum(getattr(it, name) for it in found) for name in ("bad_rows", "findings", "doubtful"))
    if open_ones := sum(it.name != "" and it.word == FAULT for it in found):
        print(f"not judged {open_ones:,} of {sum(it.name != '' for it in found):,}")
    print("\n".join(counts_of(*sums)))
    names = dict.fromkeys(name for each in found for name in each.coverage.counts)
    print("\n".join(Coverage({name: _sum(found, name) for name in names}).lines()))
    print(worst_of(each.word for each in found))


def _sum(found: list[Audited], name: str) -> tuple[int, int]:
    counts = [each.coverage.counts.get(name, (0, 0)) for each in found]
    return sum(compared for compared, _ in counts), sum(of for _, of in counts)


def understood(table: Table, reading: Reading, asked: argparse.Namespace) -> Iterator[str]:
    """How each column was understood, and how many rows of each event there are."""
    codes = None
    if asked.by:
        instruments = instrument_table_of(table, reading, asked.by, Days((), {}), {})
        known = numpy.flatnonzero(instruments.codes >= 0)
        table, codes = table.take(known), instruments.codes[known]
    rows = rows_of(table, reading, (), codes)
    if asked.shape is not None:
        yield f"shape: {shapes.path_of(asked.shape)}"
    for ours, meaning in EVENT_COLUMNS.items():
        theirs = table.names.get(ours)
        yield f"{ours}: not in the table" if theirs is None else f"{ours}: {theirs} ({meaning})"
    if asked.by:
        yield f"by: {asked.by}, {len(instruments.names)} instruments"
        if lost := int((instruments.codes < 0).sum()):
            yield f"rows without {asked.by} {lost}"
    for number, event in enumerate(EVENTS):
        yield f"rows {event} {int((rows.kind == number).sum())}"
    yield f"rows left out {table.left_out}"
    bad = [*rows.bad, *short_rows(table, rows, reading)]
    yield from lines_of(bad)
    yield f"bad rows {len(bad)}"
    notes = {**table.notes, **(+rows.notes)}
    yield from (f"{name}: {count}" for name, count in notes.items())


def facts_of(contents: Iterable[bytes], asked: argparse.Namespace) -> dict[str, str]:
    """What a verdict on files is of and by (FACTS). Raises ShapeError, OSError, and ProgramError
    where there is no program.
    """
    digest = finder.program_digest(found_program())
    now = datetime.datetime.now(datetime.UTC).isoformat(timespec="seconds")
    every = [*contents, *(path.read_bytes() for path in _files_of(vars(asked)))]
    files = " ".join(hashlib.sha256(content).hexdigest() for content in every)
    command = shlex.join(["python3", "-P", "-m", "callauction", *asked.words])
    return dict(zip(FACTS, (callauction.__version__, digest, files, now, command)))


def _files_of(options: Mapping[str, str | None]) -> Iterator[pathlib.Path]:
    """The files that the options of an extract name, which decide as its rows do."""
    days, shape = options.get("days"), options.get("shape")
    if days is not None:
        yield pathlib.Path(days)
    if shape is not None:
        yield shapes.path_of(shape)


def write_rows(found: Iterable[Audited], path: str, facts: Mapping[str, str]) -> None:
    """Writes a row for each instrument, as CSV."""
    _write(instruments_frame(each.row() for each in found).assign(**facts), path)


def _write(frame: pandas.DataFrame, path: str) -> None:
    """Writes a frame as CSV, of which no spreadsheet runs a text; numbers stay as they are."""

    def plain(cell: object) -> object:
        return guarded(cell) if isinstance(cell, str) and number_of(cell) is None else cell

    texts = frame.select_dtypes("object")
    frame.assign(**{name: texts[name].map(plain) for name in texts}).to_csv(path, index=False)


def write_findings(found: Iterable[Audited], path: str, facts: Mapping[str, str]) -> None:
    """Writes all findings, as JSON where the name of the file ends so, else as CSV."""
    records = [record for each in found for record in each.records]
    frame = pandas.DataFrame(records, columns=[*RECORD]).assign(**facts)
    if path.endswith(".json"):
        frame.to_json(path, orient="records", indent=1)
    else:
        _write(frame, path)

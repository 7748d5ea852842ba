"""The commands of verdicts: what is audited by the options of a command line."""
import argparse
import dataclasses
import io
import re
from collections.abc import Mapping

import pandas

from callauction.program import NO_JOURNAL, BadFileError, Day, found_program
from callauction.progress import Progress
from callauction.statuses import DONE
from callauction.verdict import books
from callauction.verdict.audited import Audited, audited
from callauction.verdict.audits import audit_events, audit_journal
from callauction.verdict.columns import ColumnError, ExtractError
from callauction.verdict.events import plain_frame
from callauction.verdict.extract import read_table
from callauction.verdict.extract_files import GZIP
from callauction.verdict.findings import Verdict
from callauction.verdict.instrument_terms import TERMS, Days, days_of, terms_of
from callauction.verdict.instruments import InstrumentTable, instrument_table_of
from callauction.verdict.options import UsageError, reading_asked
from callauction.verdict.reading import Reading
from callauction.verdict.table import Table
from callauction.verdict.verdict_output import remark, show, understood

_RECORD = re.compile(rb"(?:\xef\xbb\xbf)?\"?(?:day\"?,\"?\d|\d+\"?,)")
"""How a journal or an order file begins; an extract begins with the names of its columns."""


def is_recorded(content: bytes, asked: argparse.Namespace) -> bool:
    """Whether a file is a journal or an order file, and no extract, which a shape makes it."""
    is_shaped = vars(asked).get("shape") is not None
    return not is_shaped and not content.startswith(GZIP) and bool(_RECORD.match(content))


def table_asked(content: bytes, asked: argparse.Namespace) -> tuple[Table, Reading]:
    """The table of an extract. Raises as read_table, with the options that help."""
    reading = reading_asked(asked)
    try:
        return read_table(io.BytesIO(content), reading, vars(asked).get("by")), reading
    except ColumnError as fault:
        unknown = r"unknown column '([^']*(?:isin|symbol|instrument|wkn))'"
        found = re.search(unknown, str(fault), re.IGNORECASE)
        by = f"; --by {found[1]} judges each instrument by itself" if found else ""
        why = f"{fault}{by}; --columns OURS=THEIRS maps one, --ignore NAME passes it over"
        raise ColumnError(why) from None


def plain_table(content: bytes, asked: argparse.Namespace) -> pandas.DataFrame:
    """An extract's rows in our columns, words and numbers. Raises as read_table, and UsageError for
    what a journal hasn't.
    """
    table, reading = table_asked(content, asked)
    if reading.pair:
        raise UsageError(
            "--pair: a journal has a trade in one row: leave these rows out by --where, such as "
            "'ExecType != F', and say --pair ''"
        )
    if reading.quantity == "total":
        raise UsageError("--quantity total: a journal needs what is open behind a replace")
    if table.short:
        line, why = table.short[0]
        raise ExtractError(f"row {line}: {why}")
    return plain_frame(table, reading)


def instrument_table(content: bytes, asked: argparse.Namespace) -> InstrumentTable:
    """The instruments of an extract. Raises as read_table."""
    table, reading = table_asked(content, asked)
    terms = {name: vars(asked)[name] for name in TERMS}
    found = instrument_table_of(table, reading, asked.by, _days_of(asked), terms)
    return dataclasses.replace(found, is_explained=vars(asked).get("explain", False))


def _days_of(asked: argparse.Namespace) -> Days:
    """The days of a file. Raises ExtractError, which names the file, and OSError."""
    try:
        return days_of(asked.days, asked.by)
    except ValueError as fault:
        raise ExtractError(f"{asked.days}: {fault}") from fault


def audited_extract(content: bytes, asked: argparse.Namespace, watch: Progress = iter) -> Verdict:
    """The verdict on an extract of one instrument. Raises as audit."""
    table, reading = table_asked(content, asked)
    terms = {name: vars(asked)[name] for name in TERMS}
    return audit_events(table, reading=reading, watch=watch, **terms_of(terms, reading))


def verdicts_on_extract(
    content: bytes, asked: argparse.Namespace, watch: Progress
) -> list[Audited]:
    """The verdicts on an extract's instruments. Raises as audit."""
    if asked.by is None:
        return [audited("", audited_extract(content, asked, watch), asked.explain)]
    those = instrument_table(content, asked)
    for line in those.remarks.items():
        remark("", "%s: %d" % line)
    return [*those.one_by_one(None, watch)]


def audit_auctions(files: Mapping[str, bytes], asked: argparse.Namespace, watch: Progress) -> int:
    """Prints the verdict on auctions from their books: the status. Raises as audit."""
    found_program()
    found = books.verdicts_on_books(files, reading_asked(asked), asked, watch)
    return show(found, asked, [*files.values()])


def audit(content: bytes, asked: argparse.Namespace, watch: Progress = iter) -> int:
    """Prints the verdict on a journal or an extract: the status. Raises UsageError, ExtractError,
    ColumnError, ValueError and ProgramError.
    """
    if is_recorded(content, asked):
        try:
            journal = audit_journal(Day(content))
        except BadFileError as fault:
            if fault.text != NO_JOURNAL:
                raise
            why = f"{NO_JOURNAL}, and no header of an extract, which names its columns"
            raise ExtractError(why) from None
        print(journal)
        return journal.status
    if asked.check:
        table, reading = table_asked(content, asked)
        print("\n".join(understood(table, reading, asked)))
        return DONE
    found_program()  # where there is none no day is judged, as findings are told by it
    return show(verdicts_on_extract(content, asked, watch), asked, [content])

"""The command line: `python3 -P -m callauction report|audit|audit-auction|plot|convert`, each with
`--help`.

The statuses are the program's: 0; 1 for a bad file; 2 for a bad command line or a day that can't be
opened; 3 where the program or the library is missing, or a read or a write failed; 4 where an audit
finds something unlawful; and 5 where it finds nothing unlawful, but not all was published or
compared. An error is one line on standard error. What needs the library is imported where it is
used, so that an audit runs without it.
"""
import argparse
import functools
import os
import pathlib
import sys
from collections.abc import Collection, Iterable
from typing import TYPE_CHECKING, Any, NoReturn

from callauction import packages

packages.check_start()  # before what needs pandas

from callauction.frame_cells import FrameError  # noqa: E402
from callauction.overwriting import (  # noqa: E402
    STANDARD_INPUT, STANDARD_OUTPUT, refuse_overwriting,
)
from callauction.program import DAY_FIELDS, Day, ProgramError  # noqa: E402
from callauction.statuses import BAD_DAY, BAD_FILE, DONE, FAILED  # noqa: E402
from callauction.tables import book_at, books_of  # noqa: E402
from callauction.verdict import command, shapes, verdict_output  # noqa: E402
from callauction.verdict.columns import ColumnError, ExtractError  # noqa: E402
from callauction.verdict.options import add_options, add_reading, reading_asked  # noqa: E402

if TYPE_CHECKING:
    from callauction.journal import Journal
    from callauction.progress import Progress

SECONDS = 2
"""Work that takes longer shows how far it is."""
CONVERTED = ("reference", "low", "high", "range")

_BAD_FILES = (
    FrameError,
    ColumnError,
    ExtractError,
    UnicodeDecodeError,
)
"""What says that a file is a bad one."""


def watched(steps: Iterable[Any], **words: Any) -> Any:
    """The steps, with a bar on standard error that says how far they are, where they take long and
    that is a terminal.
    """
    import tqdm

    is_shown = sys.stderr.isatty()
    return tqdm.tqdm(
        steps, delay=SECONDS, leave=False, file=sys.stderr, disable=not is_shown, **words
    )


class Parser(argparse.ArgumentParser):
    """A parser whose errors are one line."""

    def error(self, message: str) -> NoReturn:
        """Prints the fault on standard error, and ends with BAD_DAY."""
        self.exit(BAD_DAY, f"{self.prog}: {message}\n")


def main(words: list[str] | None = None) -> int:
    """Runs a command line; answers the status."""
    asked = _parser().parse_args(words)
    asked.words = sys.argv[1:] if words is None else words
    try:
        _refuse_overwriting(asked)
        asked.status = asked.run(asked)
        sys.stdout.flush()
        return int(asked.status)
    except BrokenPipeError:  # the rest of a text that nobody reads is given up
        os.dup2(os.open(os.devnull, os.O_WRONLY), sys.stdout.fileno())
        return int(vars(asked).get("status", FAILED))
    except ProgramError as fault:
        return _fail("\n".join([fault.text, *getattr(fault, "__notes__", [])]), fault.status)
    except (OSError, MemoryError, ModuleNotFoundError) as fault:
        return _fail(packages.said_of_fault(fault) or "out of memory", FAILED)
    except _BAD_FILES as fault:
        return _fail(str(fault), BAD_FILE)
    except ValueError as fault:
        return _fail(str(fault), BAD_DAY)


def _refuse_overwriting(asked: argparse.Namespace) -> None:
    """Raises OverwriteError where a command line would write to a file that it reads, and
    ShapeError.
    """
    options = vars(asked)
    shape = options.get("shape")
    read = {name: options.get(name) for name in ("published", "days", "worth")}
    read["file"] = STANDARD_INPUT if asked.file == "-" else asked.file
    read["shape"] = None if shape is None else shapes.path_of(shape)
    written = {f"--{name}": options.get(name) for name in ("output", "findings", "orders")}
    refuse_overwriting(
        {f"the {name} that is read": it for name, it in read.items()},
        {**written, "the standard output": STANDARD_OUTPUT},
    )


def _fail(text: str, status: int) -> int:
    """Prints a fault as one line on standard error; answers the status."""
    print(f"callauction: {' / '.join(text.splitlines())}", file=sys.stderr)
    return status


def _parser() -> argparse.ArgumentParser:
    """What reads the command line: a command with its options."""
    parser = Parser(
        prog="callauction", description="Pictures, reports and audits of a day of call auctions."
    )
    commands = parser.add_subparsers(required=True, metavar="COMMAND")
    made = {
        name: commands.add_parser(name, help=text, description=text, epilog=_AFTER)
        for name, text in _COMMANDS.items()
    }
    runs = {
        "report": _report, "audit": _audit, "audit-auction": _audit_auction, "plot": _plot,
        "convert": _convert,
    }  # fmt: skip
    for name, run in runs.items():
        made[name].add_argument("file", help="the file to read, - for standard input")
        made[name].set_defaults(run=run)
    _add_own_options(made)
    return parser


def _add_own_options(made: dict[str, Parser]) -> None:
    """The options of each command."""
    for name in ("report", "plot", "convert"):
        made[name].add_argument("-o", "--output", required=True, help="the file to write")
    _add_pictures(made["plot"])
    _add_day(made["report"], [name for name in DAY_FIELDS if name not in CONVERTED])
    made["report"].add_argument(
        "--worth", help="of a day: a CSV file with the columns order and value, in ticks"
    )
    for name in ("audit", "audit-auction", "report"):
        add_options(made[name])
    for name in ("audit", "audit-auction"):
        _add_verdicts(made[name])
    made["audit"].add_argument("--check", action="store_true", help="say how a file is understood")
    made["audit-auction"].add_argument(
        "--published", help="the file of what was published, where the books' hasn't it"
    )
    add_reading(made["convert"])
    _add_conversion(made["convert"])
    made["convert"].add_argument("--orders", help="also write a CSV file of our ids and theirs")


def _add_verdicts(parser: argparse.ArgumentParser) -> None:
    """The options of how verdicts are written."""
    parser.add_argument(
        "-o", "--output", type=functools.partial(_file, ("csv",)),
        help="write a row for each instrument, as CSV",
    )  # fmt: skip
    parser.add_argument(
        "--findings", type=functools.partial(_file, ("csv", "json")),
        help="write all findings, or that there are none, as CSV, or as .json",
    )  # fmt: skip
    parser.add_argument("--json", action="store_true", help="print a line of JSON each")
    text = "explain each finding, of doubts the first of a reason"
    parser.add_argument("--explain", action="store_true", help=text)


OTHER_FORMS = (".csv", ".json", ".pdf", ".png", ".svg", ".txt", ".xlsx")
"""Endings of files that are no page."""


def _refuse_form(path: str) -> None:
    """Raises ValueError for a file of a report whose name says that it is no page."""
    if pathlib.Path(path).suffix.casefold() in OTHER_FORMS:
        raise ValueError(f"{path}: a report is HTML: name it so, such as day.html")


def _file(forms: Collection[str], path: str) -> str:
    """A file that is written in one of these forms, by the ending of its name. Raises
    ArgumentTypeError for the ending of another form.
    """
    ending = pathlib.Path(path).suffix.casefold()
    if ending not in ("", ".txt", *(f".{form}" for form in forms)):
        raise argparse.ArgumentTypeError(f"{path}: what is written is {' or '.join(forms)}")
    return path


_COMMANDS = {
    "report": "write the report of an order file, a journal or an extract as an HTML file",
    "audit": "say whether what was published is lawful: of a journal or an extract",
    "audit-auction": "say whether what was published of auctions is lawful: of their books alone",
    "plot": "draw a book, the course of the day, or who trades with whom",
    "convert": "make a journal of a CSV file of order events",
}
"""What each command does."""
_AFTER = "docs/FORMATS.md has order files, journals and statuses; docs/AUDIT.md has extracts."


def _add_pictures(parser: argparse.ArgumentParser) -> None:
    """The options of a picture: of its day, and which one it is."""
    _add_day(parser, DAY_FIELDS)
    parser.add_argument("--command", type=int, help="the uncross, by its number")
    pictures = parser.add_mutually_exclusive_group()
    pictures.add_argument("--course", action="store_true", help="draw the course of the day")
    pictures.add_argument("--allocation", action="store_true", help="draw who trades with whom")
    parser.add_argument("--tick-size", help="the step between two prices, for prices as axes")


def _add_day(parser: argparse.ArgumentParser, names: Iterable[str]) -> None:
    """The options of an order file."""
    group = parser.add_argument_group("the day of an order file (a journal has its own)")
    for name in names:
        group.add_argument(f"--{name}", type=int, metavar="N")


def _add_conversion(parser: argparse.ArgumentParser) -> None:
    """The options of a CSV file of order events."""
    group = parser.add_argument_group("a CSV file of order events (prices are decimals)")
    group.add_argument("--tick-size", required=True, help="the step between two prices")
    group.add_argument("--reference", required=True, help="the last price before the day")
    group.add_argument("--low", help="the lowest price (that of the orders)")
    group.add_argument("--high", help="the highest price (that of the orders)")
    group.add_argument("--range", help="how far a price may lie from the reference")


# ---- the commands


def _content(file: str) -> bytes:
    """The bytes of a file, or those of standard input for `-`. Raises OSError."""
    return sys.stdin.buffer.read() if file == "-" else pathlib.Path(file).read_bytes()


def _day(asked: argparse.Namespace, content: bytes) -> Day:
    """The day of a file and the options of a command. Raises ValueError."""
    options = vars(asked)
    given = [(name, options[name]) for name in DAY_FIELDS if options[name] is not None]
    words = [(f"--{name}", str(int(value))) for name, value in given]
    return Day(content, tuple(word for pair in words for word in pair))


def _report(asked: argparse.Namespace) -> int:
    """Writes the page of a day, or of an extract, which a file is that is no journal and no order
    file: the status.
    """
    from callauction import report

    title = "A day of call auctions" if asked.file == "-" else pathlib.Path(asked.file).name
    _refuse_form(asked.output)
    content, watch = _content(asked.file), _watch("auctions")
    if not command.is_recorded(content, asked) and content:
        _report_extract(content, title, asked)
        return DONE
    values, size = _values(asked.worth), asked.tick_size
    facts, day = verdict_output.facts_of([content], asked), _day(asked, content)
    text = report.html_of(day, title, watch, values, size, facts)
    pathlib.Path(asked.output).write_text(text, encoding="utf-8")
    return DONE


def _report_extract(content: bytes, title: str, asked: argparse.Namespace) -> None:
    """Writes the page of an extract, with `--by` one of all its instruments, and one of each that
    isn't lawful.
    """
    from callauction.verdict import page

    facts, path = verdict_output.facts_of([content], asked), pathlib.Path(asked.output)
    if asked.by is not None:
        instruments = command.instrument_table(content, asked)
        page.write_instruments(instruments, path, title, facts, _watch("instruments"))
        return
    verdict = command.audited_extract(content, asked, _watch("auctions"))
    text = page.html_of(verdict, title, _watch("pages"), facts)
    path.write_text(text, encoding="utf-8")


def _values(file: str | None) -> dict[int, float] | None:
    """What a file of values says. Raises ValueError where it has other columns."""
    import pandas

    if file is None:
        return None
    found = pandas.read_csv(file)
    if not {"order", "value"} <= {*found.columns}:
        raise ValueError("worth: the columns are order and value")
    return dict(zip(found["order"].astype(int), found["value"].astype(float)))


def _watch(unit: str) -> "Progress":
    """What shows how far a command is, in these units."""
    bar: Any = functools.partial(watched, unit=f" {unit}")  # mypy: a partial isn't generic
    found: Progress = bar
    return found


def _plot(asked: argparse.Namespace) -> int:
    """Writes the picture that is asked for: of the day's course, of an allocation, or of a book."""
    from matplotlib.figure import Figure

    from callauction import plot
    from callauction.course import course_of, reference_of

    day, size = _day(asked, _content(asked.file)), asked.tick_size
    figure = Figure(figsize=plot.SIZE, layout="constrained")
    axes = figure.subplots()
    if asked.course:
        plot.indicative(course_of(day, _watch("steps")), tick_size=size, ax=axes)
    elif asked.allocation:
        plot.allocation(day, asked.command, tick_size=size, ax=axes)
    else:
        book = book_at(books_of(day), asked.command)
        plot.book(book, reference=reference_of(day, book), tick_size=size, ax=axes)
    figure.savefig(asked.output)
    return DONE


def _journal(asked: argparse.Namespace) -> "Journal":
    """The journal of a CSV file of order events. Raises ValueError."""
    from callauction import journal

    frame = command.plain_table(_content(asked.file), asked)
    said = reading_asked(asked).said
    options: dict[str, Any] = {name: said(getattr(asked, name)) for name in CONVERTED}
    return journal.from_frame(frame, said(asked.tick_size), watch=_watch("rows"), **options)


def _convert(asked: argparse.Namespace) -> int:
    """Writes the journal of order events, and with `--orders` their ids: the status."""
    made = _journal(asked)
    made.save(asked.output)
    if asked.orders:
        made.orders.to_csv(asked.orders)
    return DONE


def _audit_auction(asked: argparse.Namespace) -> int:
    """Prints the verdict on auctions, of their books and of what was published: the status."""
    files = [asked.file] + [asked.published] * (asked.published is not None)
    contents = {pathlib.Path(file).name: _content(file) for file in files}
    if len(contents) < len(files):
        raise ValueError("both files have one name")
    return command.audit_auctions(contents, asked, _watch("parts"))


def _audit(asked: argparse.Namespace) -> int:
    """Prints the verdict on a journal or an extract: the status."""
    return command.audit(_content(asked.file), asked, _watch("parts"))


if __name__ == "__main__":
    sys.exit(main())

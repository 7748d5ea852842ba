"""The command line of a market: `python3 -m callauction.market audit DIR`; --help has the rest."""
import argparse
import io
import pathlib
import sys

from callauction.market.command import examine_files, split_table
from callauction.market.forms import FORMS
from callauction.market.instrument_names import SUFFIX

EPILOG = """statuses: 0 all is lawful and was compared; 4 a reply is unlawful; 5 nothing is
unlawful, but a reply was not recorded, a day is not over or a journal was cut; 1 a file or a table
is bad, whether or not a reply is unlawful; 2 the words are wrong, or another run writes the
result; 3 there is no program, no scheduler or no worker, or a result can't be written; 130 broken
off"""

LEAST_MIB = 8
"""Below it a signal may end the program, whose stack and static data take some."""


def positive(text: str) -> int:
    """A whole number above zero. Raises ValueError for another text."""
    if int(text) < 1:
        raise ValueError(text)
    return int(text)


def enough(text: str) -> int:
    """MiB of memory. Raises ArgumentTypeError where the program might be ended by a signal."""
    if not text.isdecimal() or int(text) < LEAST_MIB:
        raise argparse.ArgumentTypeError(f"{text!r} isn't a number from {LEAST_MIB} on")
    return int(text)


def add_run_options(verb: argparse.ArgumentParser) -> None:
    """The options of what runs the program."""
    verb.add_argument("paths", nargs="+", metavar="DIR", help=f"a folder of {SUFFIX} files, or one")
    verb.add_argument("--expect", metavar="LIST", help="the instruments, a line each")
    verb.add_argument("-o", "--output", type=pathlib.Path, metavar="FILE", help="the result, CSV")
    verb.add_argument("--resume", action="store_true", help="go on where a run to FILE stopped")
    verb.add_argument(
        "--memory",
        type=enough,
        metavar="MIB",
        help=f"of a run on a file, at least {LEAST_MIB} (64, and 8 times it)",
    )
    verb.add_argument(
        "--seconds", type=positive, metavar="N", help="of a run on a file (60, and 60 for 4 MiB)"
    )
    where = verb.add_mutually_exclusive_group()
    where.add_argument("--workers", type=positive, metavar="N", help="on this machine (its cores)")
    where.add_argument("--scheduler", metavar="tls://HOST:PORT", help="that of a Dask cluster")
    for name in ("ca", "cert", "key"):
        verb.add_argument(f"--tls-{name}", metavar="FILE", help=f"the {name} for it, PEM")
    verb.add_argument(
        "--insecure",
        action="store_true",
        help="take a scheduler tcp://HOST:PORT: whoever reaches its port can run code as its user",
    )


def arguments() -> argparse.ArgumentParser:
    """What reads the words of the command line."""
    parser = argparse.ArgumentParser(
        prog="python3 -m callauction.market",
        description="Runs the program callboard on the files of a market, an instrument each.",
        epilog=EPILOG,
    )
    verbs = parser.add_subparsers(dest="verb", required=True, metavar="{audit,run,split}")
    audit = verbs.add_parser("audit", help="the unlawful replies of journals, and the prices")
    run = verbs.add_parser("run", help="what the program prints of files, in some forms")
    run.add_argument("--print", action="append", required=True, choices=list(FORMS), dest="forms")
    run.add_argument("--into", metavar="FOLDER", help="keep what is printed in this folder")
    for verb in (audit, run):
        add_run_options(verb)
    table = verbs.add_parser("split", help="a journal for each instrument of a table")
    table.add_argument("table", nargs="+", metavar="TABLE", help="CSV or Parquet files, in order")
    table.add_argument("--by", default="instrument", metavar="COLUMN", help="(instrument)")
    table.add_argument("--days", metavar="TABLE", help="the day of each instrument")
    table.add_argument(
        "--ignore", action="append", default=[], metavar="COLUMN", help="pass a column over"
    )
    table.add_argument("--into", default=".", metavar="FOLDER", help="where the journals go (.)")
    return parser


def main() -> int:
    """Runs the command line of a market; answers the status."""
    asked = arguments().parse_args()
    for stream in (sys.stdout, sys.stderr):
        if isinstance(stream, io.TextIOWrapper):
            stream.reconfigure(errors="backslashreplace")
    return split_table(asked) if asked.verb == "split" else examine_files(asked)


if __name__ == "__main__":
    sys.exit(main())

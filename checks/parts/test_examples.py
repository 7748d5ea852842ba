"""The program on each file of examples/: what it prints is compared with the files beside it.

An order file is run for its lines, also record by record (--live), and for its journal, trades and
book, which examples/forms has; its journal is run for the same and audited. The journals of
examples/audits are audited. README's session is held. The journals are compared with the records
and the lines that they have in them. The files of examples/floors are run on a board. The stored
run of the program, which `rt ci` makes, is the audit of examples/audits/changed.csv: its status
isn't 0.
"""
import itertools
import pathlib
import subprocess
from collections.abc import Iterator

import pytest

from checks import built
from checks.parts.sessions import Session

EXAMPLES = built.TOP / "examples"
FORMS = ["journal", "trades", "book"]
UNLAWFUL = 4  # the status of an audit that finds a reply unlawful
DAY = {
    "--low": "1",
    "--high": "1000",
    "--reference": "200",
    "--members": "4",
    "--open": "4096",
    "--calls": "65536",
    "--range": "",
}
"""The options of a day record in its order, with the defaults."""
CRATE = built.FOLDER
MOST_SECONDS = 60  # of one run of the program
Example = tuple[list[str], str, str]
"""The words, the records and the printed lines of an example."""
Row = tuple[str, list[str], str, int, str]
"""A name, the words of a run, its input, and the status and the text that are wanted."""


def stored(name: str) -> Example:
    """An example as its files have it. Raises OSError where one is missing."""
    options = EXAMPLES / f"{name}.args"
    words = options.read_text().split() if options.exists() else []
    return words, (EXAMPLES / f"{name}.csv").read_text(), (EXAMPLES / f"{name}.txt").read_text()


def run_by_gate() -> Row:
    """The program's stored run. Raises OSError where a file of it is missing."""
    words, records, lines, status = (
        (CRATE / name).read_text() for name in ("args", "stdin", "stdout", "status")
    )
    return "the stored run", words.split(), records, int(status), lines


def form_of(name: str, form: str) -> str:
    """What an example prints in this form. Raises OSError where the file is missing."""
    return (EXAMPLES / "forms" / f"{name}.{form}.csv").read_text()


def run_table(examples: dict[str, Example]) -> Iterator[Row]:
    """The runs of the order files and of their journals, in all forms."""
    for name, (words, records, lines) in examples.items():
        journal = form_of(name, "journal")
        yield name, words, records, 0, lines
        yield f"{name}, record by record", [*words, "--live"], records, 0, lines
        yield f"{name}, its journal", [], journal, 0, lines
        for form in FORMS:
            printed = form_of(name, form)
            yield f"{name}, {form}", [*words, "--print", form], records, 0, printed
            yield f"{name}, {form} of its journal", ["--print", form], journal, 0, printed
        count = len(records.splitlines())
        legal = f"entries {count}\ncompared {count}\nunlawful 0\naudit legal\n"
        yield f"{name}, audit", ["--audit"], journal, 0, legal


def audit_table() -> Iterator[Row]:
    """The audits of journals with replies that are left out or changed."""
    for file in sorted((EXAMPLES / "audits").glob("*.csv")):
        text = file.with_suffix(".txt").read_text()
        status = 0 if text.endswith("audit legal\n") else UNLAWFUL
        yield f"{file.stem}, audit", ["--audit"], file.read_text(), status, text


def floor_table() -> Iterator[Row]:
    """The runs on a board."""
    for file in sorted((EXAMPLES / "floors").glob("*.csv")):
        words = file.with_suffix(".args").read_text().split()
        text = file.with_suffix(".txt").read_text()
        yield f"{file.stem}, on a board", words, file.read_text(), 0, text


STORED = {path.stem: stored(path.stem) for path in sorted(EXAMPLES.glob("*.csv"))}
STORED_RUN = run_by_gate()
ROWS: list[Row] = [STORED_RUN, *run_table(STORED), *audit_table(), *floor_table()]


@pytest.mark.parametrize("name", STORED)
def test_the_journal_has_the_records_and_the_lines(name: str) -> None:
    """Its first record is the day of the words."""
    words, records, lines = STORED[name]
    options = DAY | dict(zip(words[::2], words[1::2]))
    texts = (line.split(": ", 1)[1] for line in lines.splitlines())
    entries = (f"{entry},{text}\n" for entry, text in zip(records.splitlines(), texts))
    assert form_of(name, "journal") == f"day,{','.join(options.values())}\n{''.join(entries)}"


@pytest.mark.parametrize("row", ROWS, ids=[row[0] for row in ROWS])
def test_the_run_prints_what_is_stored(program: str, row: Row) -> None:
    _, words, text, status, wanted = row
    run = subprocess.run(
        [program, *words], input=text, capture_output=True, text=True, timeout=MOST_SECONDS
    )
    assert (run.returncode, run.stdout) == (status, wanted), run.stderr


def readme_block(begin: str) -> list[str]:
    """The lines of README's block that begins so, without their indent. Raises ValueError."""
    lines = (built.TOP / "README.md").read_text().splitlines()
    first = lines.index(begin)
    return [line[4:] for line in itertools.takewhile(str.strip, lines[first:])]


def test_readme_prints_the_first_example() -> None:
    _, _, lines = STORED["opening"]
    assert readme_block("    1: entered 1") == lines.splitlines()


def test_the_session_of_readme_answers_as_it_says(program: str, tmp_path: pathlib.Path) -> None:
    command, *lines = readme_block("    ./callboard --live --journal today.csv")
    records, said = lines[1::2], [lines[0], *lines[2::2]]
    session = Session([program, *command.split()[1:-1], str(tmp_path / "today.csv")], False)
    try:
        session.hears("", f"{said[0]}\n")
        for record, answer in zip(records, said[1:], strict=True):
            session.send(f"{record}\n".encode())
            session.hears(f"{answer}\n", "")
        session.end_input()
        session.ends(1)
    finally:
        session.close()

"""Each measure of bench/ once, in its smallest form, so that none is broken unseen: it ends well,
each table has rows, and each row as many cells as the head. What it measured says nothing.

`python3 -m pytest checks/parts/test_bench.py --program P --clock C --library FOLDER`; what isn't
named is proved and built first, where it isn't current.
"""
import pathlib
import subprocess
import sys

import pytest

from checks import built

sys.path.insert(0, str(built.TOP / "bench"))

from tables import apart  # noqa: E402

BENCH = built.TOP / "bench/bench"
LEFT_OUT = {"build", "records"}
"""The measure that proves all anew, which takes half an hour, and the one that builds a crate by
Debian's Rust, which nothing else here needs.
"""
WRONG = ("Traceback", "NOT whole", "not all found")
"""What a measure says that went wrong, or whose programs gave wrong results."""
Tables = list[list[str]]
"""The rows of each table of a text, from its head on."""


def names() -> list[str]:
    """The names of the measures."""
    ran = subprocess.run([BENCH, "--list"], capture_output=True, text=True, check=True)
    return [line.split()[0] for line in ran.stdout.splitlines()]


def tables_in(text: str) -> Tables:
    """The tables of a text."""
    found: Tables = []
    is_within = False
    for line in text.splitlines():
        if line.startswith("|") and not is_within:
            found.append([])
        is_within = line.startswith("|")
        if is_within:
            found[-1].append(line)
    return found


@pytest.fixture(scope="session", name="given")
def words_of_what_is_built(pytestconfig: pytest.Config, program: str) -> list[str]:
    """The words that name what is measured. Raises built.NotBuiltError."""
    option = pytestconfig.option
    clock = option.clock or built.ensure(built.CLOCK)
    library = option.library or built.ensure_library()
    paths = {"--program": program, "--clock": clock, "--library": library}
    return [it for name, path in paths.items() for it in (name, str(pathlib.Path(path).resolve()))]


@pytest.mark.parametrize("name", [it for it in names() if it not in LEFT_OUT])
def test_each_measure_prints_its_tables(name: str, given: list[str]) -> None:
    words = [sys.executable, str(BENCH), name, "--smallest", *given]
    ran = subprocess.run(words, capture_output=True, text=True, timeout=600)
    assert ran.returncode == 0, ran.stdout + ran.stderr
    assert not any(word in ran.stdout + ran.stderr for word in WRONG), ran.stdout + ran.stderr
    tables = tables_in(ran.stdout)
    assert tables
    for head, line, *rows in tables:
        assert rows and set(line) <= set("| -")
        assert {row.count("|") for row in rows} == {head.count("|")}


def test_a_measure_that_is_broken_is_seen(given: list[str]) -> None:
    """A program that does nothing is measured as one that fails."""
    words = [sys.executable, str(BENCH), "journal", "--smallest", *given, "--program", "/bin/true"]
    ran = subprocess.run(words, capture_output=True, text=True, timeout=600)
    assert ran.returncode != 0


TABLE = """| what | ms | times |
| --- | --- | --- |
| ours | 1,000 | 1.00 |
| peer | 100.0 | 2.00 |
"""


@pytest.mark.parametrize(
    ("old", "new", "rows"),
    [
        ("1,000", "1,049", []),
        ("1,000", "1,060", ["| ours | 1,060 | 1.00 |"]),
        ("100.0", "94.0", ["| peer | 94.0 | 2.00 |"]),
        ("1.00", "1.01", []),
        ("2.00", "-", ["| ours | 1,000 | 1.00 |", "| peer | 100.0 | - |"]),
        ("what", "an hour", []),
    ],
)
def test_runs_agree_where_each_number_is_near(old: str, new: str, rows: list[str]) -> None:
    assert apart(TABLE, TABLE.replace(old, new)) == rows

"""What the parts that run the program share: which program it is, and the closing line.

`python3 -m pytest checks/parts/test_live.py --program PROGRAM -k NAME` runs single cases; without
--program they take the built program, which is proved and built first where it isn't current.
"""
import pathlib
import sys

import pytest
from _pytest.terminal import TerminalReporter

sys.path.insert(0, str(pathlib.Path(__file__).resolve().parent.parent.parent))

from checks import built  # noqa: E402
from checks.counts import Counts  # noqa: E402

Tables = dict[str, list[str]]
"""The rows of tables by their heads."""
TABLES: pytest.StashKey[Tables] = pytest.StashKey()


def pytest_addoption(parser: pytest.Parser) -> None:
    """Takes the options of these tests."""
    parser.addoption("--program", help="the built program")
    parser.addoption("--library", help="what library/build wrote")
    parser.addoption("--clock", help="the built program of crates/clock")
    parser.addoption("--tests", action="append", default=[], help="built tests of a crate")


def pytest_configure(config: pytest.Config) -> None:
    """Prepares a run by its options."""
    config.pluginmanager.register(Counts())
    none: Tables = {}
    config.stash[TABLES] = none


def pytest_terminal_summary(terminalreporter: TerminalReporter, config: pytest.Config) -> None:
    """Prints the tables that tests have added rows to."""
    for head, rows in config.stash[TABLES].items():
        columns = head.count("|") - 1
        for line in (head, "|" + " --- |" * columns, *rows):
            terminalreporter.write_line(line)


@pytest.fixture(scope="session")
def program(pytestconfig: pytest.Config) -> str:
    """The path of the built program. Raises built.NotBuiltError."""
    found = pytestconfig.option.program or built.ensure(built.PROGRAM)
    return str(pathlib.Path(found).resolve())


@pytest.fixture(scope="session")
def tables(pytestconfig: pytest.Config) -> Tables:
    """The rows of tables that are printed at the end, by their heads."""
    return pytestconfig.stash[TABLES]

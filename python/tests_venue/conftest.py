"""The program, or its double, for the tests of a venue, and venues that most of them need.

CALLBOARD names the built program; where it names none, the double of stand_in.py is run.
"""
import os
import pathlib
from collections.abc import AsyncIterator, Iterator

import hypothesis
import pytest
import pytest_asyncio
import served
from callauction.fix.tags import FIX44, FIXT
from callauction.venue.config import DayTerms, Plan
from callauction.venue.venue import Venue

FAST = """
sync = false
[phases]
call = 0
[limits]
orders = 65536
calls = 1048576
[members]
joins = 0
rate = 100000
burst = 100000
"""
"""A day whose calls end by the operator alone, and whose members may join and speak as fast as they
can.
"""


def pytest_configure(config: pytest.Config) -> None:
    """A client of aiohttp whose handshake failed leaves its connection to the garbage collector,
    which may run in any later test.
    """
    config.addinivalue_line("filterwarnings", "ignore:unclosed:ResourceWarning")
    os.umask(0o022)  # a day's file that its group may write is refused
    slow = [hypothesis.HealthCheck.too_slow]  # as a machine may be that has much else to do
    hypothesis.settings.register_profile("patient", deadline=None, suppress_health_check=slow)
    hypothesis.settings.load_profile("patient")


@pytest.fixture(scope="session", autouse=True)
def program() -> str:
    """The path of the program."""
    os.environ["CALLBOARD"] = served.program()
    return served.program()


@pytest.fixture
def seed() -> int:
    """Of random cases: the same in each run, or VENUE_SEED. A test that fails prints it."""
    found = int(os.environ.get("VENUE_SEED", "0"))
    print("VENUE_SEED", found)
    return found


@pytest.fixture
def venue(tmp_path: pathlib.Path) -> Iterator[served.Served]:
    """A venue with one instrument, before its first call."""
    with served.served(tmp_path, FAST) as found:
        yield found


@pytest_asyncio.fixture
async def inside(tmp_path: pathlib.Path) -> AsyncIterator[Venue]:
    """A venue that runs in this loop."""
    day = DayTerms(is_synced=False, plan=Plan(call=0))
    venue = Venue(day, tmp_path, served.program())
    await venue.open()
    yield venue
    await venue.close()


@pytest.fixture(params=[FIX44, FIXT])
def begin(request: pytest.FixtureRequest) -> str:
    """How messages by FIX begin: in each of the versions."""
    return str(request.param)

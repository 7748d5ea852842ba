"""What tests that look at a clock need on a machine that is late at times."""
import os
import pathlib
import tempfile
import time
from collections.abc import Callable, Iterator

import pytest
import served

MEMORY = "/dev/shm"
"""A folder that is in memory, and on no disk."""
TIMED = pytest.mark.flaky(reruns=2, reruns_delay=20)
"""The mark of tests that look at a clock: one that fails is tried twice more, and fails where each
try does; what was tried again is printed. Others on the machine, or a disk that is busy with what
they wrote, may have held up a venue for seconds.
"""


@pytest.fixture
def tmp_path() -> Iterator[pathlib.Path]:
    """A test's folder in memory: what a venue takes there isn't the time of a disk."""
    is_there = os.access(MEMORY, os.W_OK)
    with tempfile.TemporaryDirectory(dir=MEMORY if is_there else None) as folder:
        yield pathlib.Path(folder)


def until(holds: Callable[[], bool], seconds: float = served.SECONDS) -> None:
    """Waits until this holds. Raises AssertionError."""
    last = time.monotonic() + seconds
    while not holds():
        assert time.monotonic() < last
        time.sleep(0.02)

"""A program that a venue has given up, whose end comes once its board was resumed."""
import pathlib

import pytest
import served
from callauction.venue.process import Process, ProcessError

pytestmark = pytest.mark.asyncio


async def begun(folder: pathlib.Path, ends: list[ProcessError]) -> Process:
    """A run of the program with a journal in this folder, which tells its end there."""
    words = [served.program(), "--live", "--journal", str(folder / "XYZ.journal.csv")]
    process = Process([*words, "--sync", "none"], ends.append)
    await process.start()
    return process


async def test_its_end_is_not_told(tmp_path: pathlib.Path) -> None:
    """The board may have another run by then, which that end would have started once more."""
    ends: list[ProcessError] = []
    process = await begun(tmp_path, ends)
    process.give_up()
    await process.stop()
    assert process.has_ended and not ends


async def test_the_end_of_any_other_is_told(tmp_path: pathlib.Path) -> None:
    ends: list[ProcessError] = []
    process = await begun(tmp_path, ends)
    process.kill()
    await process.stop()
    assert process.has_ended and len(ends) == 1

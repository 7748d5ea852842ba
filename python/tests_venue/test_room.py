"""A disk that is too small for its day, and one that gets full."""
import contextlib
import pathlib
import re
import subprocess
import time
from collections.abc import Iterator

import pytest
import served
from callauction.venue import room
from callauction.venue.bounds import Bounds
from callauction.venue.config import DayTerms, InstrumentTerms, MemberTerms
from callauction.venue.log import line_text, sent_text
from callauction.venue.treatments import Treatment

ON_A_DISK = """
mount -t tmpfs -o size="$2",mode=0700 tmpfs "$1" && mkdir -m 0700 "$1/venue" || exit 9
shift 2
exec "$@"
"""
"""Runs a command where the folder has a disk of this size."""
LARGE = '[members]\nmost = 63\n[[instrument]]\nname = "XYZ"\ncalls = 1048576\n'
SMALL = '[members]\nmost = 63\n[[instrument]]\nname = "XYZ"\ncalls = 4096\n'


def words_on_a_disk(folder: pathlib.Path, day: str, size: str, *more: object) -> list[str]:
    """The command of a venue whose folder is on a disk of this size."""
    (folder / "disk").mkdir()
    (folder / "day.toml").write_text(day)
    words = ["--day", folder / "day.toml", "--folder", folder / "disk/venue", *more]
    before = ["unshare", "-rm", "sh", "-c", ON_A_DISK, "sh", str(folder / "disk"), size]
    return [*before, *served.words_of(*words)]


@pytest.mark.parametrize("day, is_warned", [(LARGE, True), (SMALL, False)])
def test_a_check_of_a_disk_that_is_too_small(
    tmp_path: pathlib.Path, day: str, is_warned: bool
) -> None:
    """It names what there is, and what the day's limits allow: 1,048,576 times 640 bytes."""
    words = words_on_a_disk(tmp_path, day, "100m", "--check", "--port", 0)
    ran = subprocess.run(words, env=served.environment(), capture_output=True, text=True)
    assert (ran.returncode, ran.stderr) == (0, "")
    warned = [line for line in ran.stdout.splitlines() if line.startswith("warning: ")]
    text = "its disk has 100 MiB left, and by the day's limits 1048576 commands may take 640 MiB"
    told = f"warning: {tmp_path}/disk/venue: {text} more: make room, or lessen `calls`"
    assert warned == [told] * is_warned


def test_what_a_command_takes_at_most() -> None:
    """Its lines of the journal and of the log, with the greatest numbers and long names."""
    name, tick = "A" * 16, 1_048_575
    most = {"price": tick, "bid": tick, "ask": tick, "volume": 10**9, "surplus": 10**9}
    record = f"63,change,1048576,1000000000,{tick}"
    lines = [
        sent_text(name, "B" * 40, 1_048_576, record, "192.168.100.100", {}),
        line_text({"kind": "mark", "instrument": name, "entries": 1_048_576, "sha256": "a" * 64}),
        line_text({"kind": "point", "instrument": name, "time": 1796006400.1234567, "side": "bid"}
                | most),
        f"{record},,,changed moved",
    ]
    taken = sum(len(line) + 1 for line in lines)
    assert 512 < taken <= room.BYTES_OF_COMMAND


def test_the_commands_that_a_day_allows() -> None:
    """Of all instruments, groups and rounds; fewer where members' own limits allow fewer."""
    one = InstrumentTerms(name="ONE", calls=10_000)
    two = InstrumentTerms(name="TWO", calls=20_000)
    members = MemberTerms(most=100)
    assert room.commands_of(DayTerms(instruments=(one, two))) == 30_000
    assert room.commands_of(DayTerms(instruments=(one,), members=members)) == 2 * 10_000
    assert room.commands_of(DayTerms(instruments=(one,), rounds=(Treatment(),) * 3,
                                     members=MemberTerms(most=63))) == 3 * 10_000
    bounds = Bounds(orders=5, calls=20)
    found = DayTerms(instruments=(one,), bounds=bounds, members=MemberTerms(most=63))
    assert room.commands_of(found) == 63 * (20 + 5) + 16


@contextlib.contextmanager
def on_a_disk(folder: pathlib.Path, size: str) -> "Iterator[subprocess.Popen[str]]":
    """A venue that serves on a disk of this size."""
    words = words_on_a_disk(folder, SMALL, size, "--port", served.free_port())
    pipe = subprocess.PIPE
    with subprocess.Popen(
        words, env=served.environment(), stdout=pipe, stderr=pipe, text=True
    ) as child:
        try:
            served.begun(child)
            yield child
        finally:
            child.kill()


@pytest.mark.parametrize("size, is_warned", [("40m", True), ("100m", False)])
def test_a_disk_that_gets_full(tmp_path: pathlib.Path, size: str, is_warned: bool) -> None:
    with on_a_disk(tmp_path, size) as child:
        time.sleep(12)  # two looks
        child.terminate()
        said = child.communicate(timeout=served.SECONDS)[1].splitlines()
    assert len(said) == is_warned
    for line in said:
        text = r"has \d\d MiB left: make room before it is full, which halts the day"
        assert re.fullmatch(f"venue: the disk of {tmp_path}/disk/venue {text}", line)

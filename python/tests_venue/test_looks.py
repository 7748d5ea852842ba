"""What it takes to look whether others have changed a journal: bytes that are read, and by whom."""
import io
import pathlib
import threading
from collections.abc import Sequence
from typing import Any, cast

import pytest
from callauction.venue import recovery
from callauction.venue.engine import Engine
from callauction.venue.log import Log
from callauction.venue.process import Process
from callauction.venue.recovery import Entry, JournalMark

pytestmark = pytest.mark.asyncio
COUNT = 20_000
FIRST = "day,1,1000,200,64,4096,1048576,\n"
ROOM = 65_536
"""The bytes of a journal behind its lines, which its program has taken before."""


class ReadBytes:
    """How many bytes were read of journals, and by which threads something was done with them."""

    def __init__(self) -> None:
        self.count, self.threads = 0, set[int]()

    def took(self, data: bytes) -> bytes:
        self.count += len(data)
        self.threads.add(threading.get_ident())
        return data

    def opened(self, path: pathlib.Path, _: str) -> io.BufferedReader:
        """A file whose bytes are counted as they are asked for."""
        read = self

        class Counted(io.BufferedReader):
            def read(self, size: int | None = -1, /) -> bytes:
                return read.took(super().read(size))

            def readline(self, size: int | None = -1, /) -> bytes:
                return read.took(super().readline(size))

        return Counted(io.FileIO(path))


class EndedProcess:
    """In the place of a program that runs."""

    def give_up(self) -> None:
        pass


def line_of(entry: Entry) -> str:
    return f"{entry.record},{entry.reply}\n"


def entries(first: int, count: int) -> list[Entry]:
    places = range(first, first + count)
    return [Entry(it, f"{it % 63 + 1},enter,bid,{it},200", f"entered {it}") for it in places]


def engine_of(folder: pathlib.Path, those: list[Entry]) -> Engine:
    """An engine whose program has written and answered these entries."""
    journal = folder / "XYZ.journal.csv"
    journal.write_text(FIRST + "".join(map(line_of, those)) + "\0" * ROOM)
    journal.chmod(0o600)
    found = Engine("XYZ", [], journal, Log(folder / "venue.log", False))
    found.journal.begin(those)
    found.outbox.process, found.is_open = cast(Process, EndedProcess()), True
    return found


async def test_a_look_reads_a_journal_once(
    tmp_path: pathlib.Path, monkeypatch: pytest.MonkeyPatch
) -> None:
    """Where it has changed, and no more of it than its lines; the loop goes on meanwhile."""
    read = ReadBytes()
    monkeypatch.setattr(recovery, "open", read.opened, raising=False)
    engine = engine_of(tmp_path, entries(1, COUNT))
    size = engine.journal.path.stat().st_size - ROOM
    for _ in range(5):
        await engine.look()
        assert (engine.halted, read.count) == (None, size)
    [new] = entries(COUNT + 1, 1)
    with engine.journal.path.open("r+b") as journal:
        journal.seek(size)
        journal.write(line_of(new).encode())
    engine.journal.add(new, is_marked=False)
    for _ in range(5):
        await engine.look()
        assert (engine.halted, read.count) == (None, 2 * size + len(line_of(new)))
    assert threading.get_ident() not in read.threads


async def test_what_others_changed_is_told_beside_the_loop(
    tmp_path: pathlib.Path, monkeypatch: pytest.MonkeyPatch
) -> None:
    """A million entries take seconds to read one by one, in which others' orders are served."""
    read, check = ReadBytes(), JournalMark.check

    def checked(mark: JournalMark, those: Sequence[Entry], **others: Any) -> None:
        read.took(b"")
        check(mark, those, **others)

    monkeypatch.setattr(JournalMark, "check", checked)
    engine = engine_of(tmp_path, entries(1, COUNT))
    with engine.journal.path.open("r+b") as journal:
        journal.seek(len(FIRST))
        journal.write(b"7")
    halts: list[Any] = []
    engine.on_change = lambda: halts.append(engine.halted)
    await engine.look()
    assert halts == [
        "the journal is another one: its entries differ from the day's from the first on"
    ]
    assert read.threads and threading.get_ident() not in read.threads

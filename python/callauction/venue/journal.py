"""The journal of an instrument, as far as its program has answered its entries: the log has marks
of these, by which an older journal is known, or another one.
"""
import asyncio
import dataclasses
import errno
import glob
import os
import pathlib
from collections.abc import Callable, Iterable
from typing import Any, ParamSpec, TypeVar

from callauction.venue import ending, owned
from callauction.venue.log import Log, line_text
from callauction.venue.recovery import (
    OTHER_FIRST, Entry, JournalDigest, JournalMark, RolledBackError, journal_digests, known_entries,
)

JOURNAL = ".journal.csv"
"""How the name of each journal ends."""
MARK_SECONDS = 0.05
"""How long after an entry the log has a mark of it."""

Parameters = ParamSpec("Parameters")
Returned = TypeVar("Returned")


class InstrumentJournal:
    """The journal of the instrument of this name; `first` is the SHA-256 of its first line, empty
    until that is known.
    """

    def __init__(self, name: str, path: pathlib.Path, log: Log) -> None:
        self.name, self.path, self._log = name, path, log
        self.first = ""
        self._digest, self._is_marked = JournalDigest(), True
        self._looked: object = None

    @property
    def count(self) -> int:
        """How many entries it has, as far as they were answered."""
        return self._digest.count

    @property
    def mark(self) -> JournalMark:
        """The mark of these entries, and of its first line, as far as that is known."""
        return dataclasses.replace(self._digest.mark, first=self.first)

    def begin(self, entries: Iterable[Entry]) -> None:
        """It has these entries, from earlier runs."""
        self._digest = JournalDigest(entries)

    def add(self, entry: Entry, is_marked: bool) -> None:
        """It has one entry more, of which the log has a mark at once, as of the first one, or soon.
        """
        self._digest.add(entry)
        if self._is_marked:
            self._is_marked = False
            asyncio.get_running_loop().call_later(MARK_SECONDS, self.note_mark)
        if is_marked or self.count == 1:
            self.note_mark()

    def note_mark(self) -> None:
        """Writes a mark of the entries so far, where the log has none."""
        if not self._is_marked:
            self._is_marked = True
            self._log.append(self.line("mark"))

    def line(self, kind: str, **more: Any) -> str:
        """The log's line of the entries so far, and of more."""
        mark = self.mark
        kept = {"entries": mark.entries, "sha256": mark.sha256}
        return line_text({"kind": kind, "instrument": self.name} | kept | more)

    # ---- what is on the disk

    async def known_entries(self, mark: JournalMark) -> list[Entry]:
        """The entries that it has, which begin with those of the mark. Raises RolledBackError where
        they don't, RecoveryError where others have added some, OwnerError where it is another
        user's, OSError.
        """
        if owned.check_file(self.path):
            return await self.in_thread(known_entries, self.path, mark)
        mark.check([], is_there=False)
        return []

    async def check(self) -> None:
        """Raises RecoveryError, or OwnerError, where it isn't as its program has written it, as far
        as it was answered, and OSError. It is read where something has changed since the last look.
        """
        mark, size = self.mark, self._digest.size
        state = file_state(self.path), mark
        if state == self._looked:
            return
        if not owned.check_file(self.path):
            await self.known_entries(mark)  # which says that it is missing
            raise RolledBackError("the journal is missing")
        first, rest = await self.in_thread(journal_digests, self.path, size)
        self.first = self.first or first
        if (first, rest) != (self.first, mark.sha256):
            await self.known_entries(dataclasses.replace(mark, first=self.first))
            raise RolledBackError(OTHER_FIRST)
        self._looked = state

    def cut_off(self) -> set[str]:
        """The files in which its program has kept ends of it that were no whole lines."""
        names = glob.escape(self.path.name)
        return {it.name for it in self.path.parent.glob(f"{names}.cut-*")}

    async def in_thread(
        self, work: Callable[Parameters, Returned], *args: Parameters.args, **kw: Parameters.kwargs
    ) -> Returned:
        """What some work comes to that takes long where there are many entries: others' orders are
        served meanwhile. Raises what it raises, and OSError where there is no thread.
        """

        def done() -> Returned:
            with ending.until_done(lambda: f"the journal of {self.name}"):
                return work(*args, **kw)

        try:
            return await asyncio.to_thread(done)
        except RuntimeError as fault:
            raise OSError(errno.EAGAIN, str(fault), str(self.path)) from None


def file_state(path: pathlib.Path) -> tuple[int, ...]:
    """What tells that a file was changed, or another one put into its place; empty where there is
    none. Raises OSError.
    """
    try:
        found = os.lstat(path)
    except FileNotFoundError:
        return ()
    return found.st_ino, found.st_size, found.st_mtime_ns, found.st_ctime_ns

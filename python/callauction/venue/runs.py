"""The runs of an instrument's program: how one begins where an earlier one, or another process, may
have its journal still.
"""
import asyncio
import contextlib
import operator
import pathlib
from collections.abc import Callable, Sequence

from callauction.statuses import FAILED
from callauction.venue import leftovers
from callauction.venue.journal import JOURNAL, InstrumentJournal
from callauction.venue.leftovers import Program
from callauction.venue.logger import NOTICES
from callauction.venue.owned import OwnerError
from callauction.venue.process import IN_USE, Process, ProcessError
from callauction.venue.recovery import Entry, JournalMark, RecoveryError, RolledBackError, first_of

CUT_OFF = "%s: the end of its journal was no whole line, and was put aside: %s has it"
LEFT = "%s: process %s, the program of the last run, has its journal and doesn't end: it was ended"
MOST_ENDS = 8
"""How often the program may end without an answer in between before its engine halts."""
RETRY_SECONDS = 0.05
IN_USE_SECONDS = 15.0
"""How long another run of the program is waited for, such as one whose venue was killed."""
LEFT_SECONDS = 5.0
"""How long the last run of the program may take to its end once its venue was killed."""


class InUseError(ProcessError):
    """Another process has the journal: `by` names it with what ends it, where it is seen. Whether a
    journal of its folder has an entry.
    """

    def __init__(self, by: str, has_entries: bool) -> None:
        super().__init__(IN_USE, FAILED)
        self.by, self.has_entries = by, has_entries


class Runs:
    """The runs of a program by these words on its journal, one after the other; `left` is that of a
    venue that was killed. `on_end` is called with why a run has ended.
    """

    def __init__(
        self,
        words: Sequence[str],
        journal: InstrumentJournal,
        on_end: Callable[[ProcessError], None],
    ) -> None:
        self.words, self._journal, self._on_end = [*words], journal, on_end
        self.left: Program | None = None
        self._last: Process | None = None

    async def begin(self, mark: JournalMark) -> tuple[Process, list[Entry]]:
        """A run of the program, and the entries of its journal, which are those of which the log
        knows, before it began and after. Raises ProcessError, RecoveryError, OwnerError, and
        OSError where the journal can't be read.
        """
        journal = self._journal
        before, cut = await journal.known_entries(mark), journal.cut_off()
        process, count = await self._started()
        for name in sorted(journal.cut_off() - cut):
            NOTICES.warning(CUT_OFF, journal.name, name)
        try:
            entries = (await journal.known_entries(mark))[:count]
            both = min(len(before), count)  # an earlier run of the program may have gone on
            is_same = await journal.in_thread(operator.eq, entries[:both], before[:both])
            if not is_same or len(entries) < count:
                raise RolledBackError("the journal was changed while its program began")
            journal.first = await journal.in_thread(first_of, journal.path)
        except (RecoveryError, OwnerError, OSError):
            await process.stop()
            raise
        return process, entries

    async def stop(self) -> None:
        """Ends the last run, which answers before what it has read, as long as it does so soon."""
        if self._last is not None:
            await self._last.stop()

    async def _started(self) -> tuple[Process, int]:
        """A run of the program, and how many entries its journal has. Raises ProcessError, OSError.
        """
        loop = asyncio.get_running_loop()
        begin, ends, looks = loop.time(), 0, loop.time() + LEFT_SECONDS
        while True:
            process = Process(self.words, self._on_end)
            try:
                count = await process.start()
                self._last = process
                return process, count
            except ProcessError as fault:
                ends += fault.text != IN_USE
                if fault.text != IN_USE and (fault.is_final or ends > MOST_ENDS):
                    raise
                if loop.time() > begin + IN_USE_SECONDS:
                    raise (await self._in_use() if fault.text == IN_USE else fault) from None
            if loop.time() > looks:
                looks = float("inf")
                await self._end_left()
            await asyncio.sleep(RETRY_SECONDS)

    async def _in_use(self) -> InUseError:
        """Says who has the journal, and how to go on: one that hangs may end later. Raises OSError
        where there is no thread.
        """
        journal = self._journal
        holders = await journal.in_thread(leftovers.holders_of, journal.path)
        begun = await journal.in_thread(has_entries, journal.path.parent)
        return InUseError(leftovers.how_to_end(holders), begun)

    async def _end_left(self) -> None:
        """Ends programs that were left and have the journal still, as they hang. Raises OSError
        where there is no thread.
        """
        journal, last, self.left = self._journal, self.left, None
        program = self.words[0]
        for it in await journal.in_thread(leftovers.left_on, journal.path, program, last):
            if it.end():
                NOTICES.warning(LEFT, journal.name, it.pid)


def has_entries(folder: pathlib.Path) -> bool:
    """Whether a journal of a folder has an entry, as far as they can be read."""
    for path in folder.glob(f"*{JOURNAL}"):
        with contextlib.suppress(OSError), path.open("rb") as file:
            file.readline()
            if file.read(1).strip(b"\0"):
                return True
    return False

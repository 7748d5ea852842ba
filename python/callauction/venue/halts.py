"""Why a venue has halted, and what is said of it, and of its instruments, on standard error."""
from collections.abc import Callable

from callauction.venue.log import Log
from callauction.venue.logger import NOTICES
from callauction.venue.messages import MessageError
from callauction.venue.process import IN_USE

MAKE_ROOM = "make room, or mend the disk, then `resume`"
WHAT_TO_DO = {"journal failed": MAKE_ROOM, IN_USE: "end the process that has it, then `resume`"}
"""What to do by what the program says where its journal can't be written, or is another's."""
PUT_BACK = "put the right file back, then `resume`"
LATER = "the venue has halted; this is done once it goes on"


class Halts:
    """The halts of a venue, which takes nothing while its log can't be written; `on_change` is
    called as it halts and as it goes on.
    """

    def __init__(self, log: Log) -> None:
        self._log = log
        self.halted: str | None = None
        self._said: dict[str, str | None] = {}
        self.on_change: Callable[[], None] = lambda: None
        log.on_fault, log.on_written = self.log_failed, self.log_goes_on

    def check_running(self) -> None:
        """Raises MessageError while the venue has halted."""
        if self.halted is not None:
            raise MessageError("halted")

    async def noted(self) -> None:
        """Waits until what was done is on the log's disk. Raises MessageError where it can't be
        now: it is done once the venue goes on.
        """
        try:
            await self._log.check_written()
        except OSError:
            raise MessageError("halted", LATER) from None

    def log_failed(self, fault: OSError) -> None:
        """The log can't be written: nothing is taken until it can."""
        self.halted = f"the venue's log can't be written: {fault.strerror}"
        do = f"{MAKE_ROOM} ({self._log.path})" if fault.errno else ""
        self.say("the venue", self.halted, do)
        self.on_change()

    def log_goes_on(self) -> None:
        """The log is written again."""
        self.halted = None
        self.say("the venue", None)
        self.on_change()

    def say(self, what: str, halted: str | None, do: str = "") -> None:
        """Says on standard error what has halted and what to do, or that it goes on again."""
        if self._said.get(what) != halted:
            self._said[what] = halted
            if halted is None:
                NOTICES.warning("%s goes on", what)
            else:
                is_file = halted.startswith("the journal ") or halted.endswith(" by others")
                do = PUT_BACK if is_file else WHAT_TO_DO.get(halted, do)
                NOTICES.error("%s halted: %s%s", what, halted, do and f": {do}")

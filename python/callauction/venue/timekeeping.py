"""The time of a venue: by how much the machine's clock was set, before its start and since, and
which call phases ended while those who take part were away.
"""
import math
from collections.abc import Iterable

from callauction.venue import clock
from callauction.venue.instrument_board import InstrumentBoard
from callauction.venue.log import Line, Log, taking
from callauction.venue.logger import NOTICES

LEAST_BEHIND = 1.0
"""From how many seconds on a clock was set back since the log's last line."""
CLOCK_BEHIND = (
    "the clock is %s s behind the log's last line: calls go on with what was left of them then"
)
CLOCK_SET_BEFORE = (
    "the machine's clock was set %s since the last start: calls go on with what is left"
)
CLOCK_SET = "the machine's clock is %s the venue's and its log's, which is that of the start"
ENDED_BY_CLOCK = (
    "the machine's clock is {} s ahead of the log's last line, and the call of {} has ended by it"
)
ENDED_SINCE = "the log's last line is {} s old, and the call of {} has ended since"
ENDED_WHILE_HALTED = "the call of {} has ended while it had halted"
"""What is said of a call phase whose end has passed before those who were away could do anything:
at a start, where the machine was off in between and its clock may be wrong, and where it has run
on; and at a board that goes on later.
"""
WHAT_COMES = "`extend` lets it go on", "it goes on for {} s, then it is uncrossed"
"""What comes of such a call phase: of one that the operator uncrosses, and of one that is uncrossed
by itself.
"""


class Timekeeper:
    """Keeps the time of a venue by its log. Until it `has_opened` the machine may have been off, or
    the venue away, and then a board alone.
    """

    def __init__(self, log: Log) -> None:
        self._log = log
        self._ahead = self._last = 0.0
        self._is_same_boot = self.has_opened = False

    def learn(self, lines: list[Line]) -> Line:
        """Where the clock is behind the log's last line it was set back: each call phase has left
        what it had then. Where it was set otherwise since the last start, which is known while the
        machine runs, each has left what it would have. The log says so, and `lines` from now on.
        The log's line of this start, which is to be written where the clock wasn't set. Raises
        LogError.
        """
        behind, ahead = behind_of(lines), set_since(lines)
        self._last = last_time_of(lines) - (behind or -ahead)
        self._is_same_boot = same_boot(lines) is not None
        line: Line = {"kind": "boot", "id": clock.boot(), "began": clock.BEGAN}
        if behind or ahead:
            line["behind"] = behind or -ahead
            lines.append(line)
            self._log.note(**line)  # both at once: a shift is neither lost nor done twice
        for text in warnings_of_clock(behind, ahead):
            NOTICES.warning(text)
        return line

    def say_late(self, board: InstrumentBoard) -> tuple[str, str]:
        """Says of a call phase of this round that its end has passed before those who were away
        could do anything, and what comes of it: both.
        """
        name, ahead = board.identity.name, round(clock.now() - self._last, 1)
        why = (ENDED_SINCE if self._is_same_boot else ENDED_BY_CLOCK).format(ahead, name)
        if self.has_opened:
            why = ENDED_WHILE_HALTED.format(name)
        does = WHAT_COMES[board.auctions.plan.is_automatic].format(board.auctions.grace)
        NOTICES.warning(f"{why}: {does}")
        board.engine.note("late", ahead=ahead)
        return why, does

    def look(self) -> None:
        """Says where the machine's clock was set."""
        ahead = round(clock.set_by(), 1)
        if abs(ahead - self._ahead) >= LEAST_BEHIND:
            self._ahead = ahead
            NOTICES.warning(CLOCK_SET, direction_of(ahead, " of"))
            self._log.note(kind="clock_set", ahead=ahead)

    def note(self, boards: Iterable[InstrumentBoard]) -> None:
        """Writes the time while a call phase has an end: what is left of it is known from then,
        where the machine's clock is set back before the next start.
        """
        if not self._log.waiting and any(it.auctions.state.ends for it in boards):
            self._log.note(kind="time")


def behind_of(lines: list[Line]) -> float:
    """How many seconds the clock is behind the last of a log's lines, 0 where it is behind by no
    more than clocks are. Raises LogError.
    """
    behind = round(last_time_of(lines) - clock.now(), 3)
    return behind if behind >= LEAST_BEHIND else 0.0


def last_time_of(lines: list[Line]) -> float:
    """The time of the last of a log's lines that has one, else 0. Raises LogError."""
    last = next((line for line in reversed(lines) if "time" in line), {"time": 0.0})
    with taking(last):
        found = float(last["time"])
    return found


def is_shift(line: Line) -> bool:
    """Whether a line of the log says that the clock was set before a start."""
    return line["kind"] == "boot" and "behind" in line


def same_boot(lines: list[Line]) -> Line | None:
    """The line of the last start that a log's lines know of, where that was in this run of the
    machine.
    """
    last = next((line for line in reversed(lines) if line["kind"] == "boot"), None)
    return last if last is not None and last["id"] == clock.boot() != "" else None


def set_since(lines: list[Line]) -> float:
    """By how many seconds the clock was set since the last start that a log's lines know of; 0
    where it wasn't, or where that can't be known, as in another run of the machine.
    """
    last = same_boot(lines)
    ahead = 0.0 if last is None else round(clock.BEGAN - float(last["began"]), 3)
    return ahead if LEAST_BEHIND <= abs(ahead) < math.inf else 0.0


def warnings_of_clock(behind: float, ahead: float) -> list[str]:
    """What is said at a start of a clock that is behind the log's last line, or that was set."""
    if behind:
        return [CLOCK_BEHIND % behind]
    return [CLOCK_SET_BEFORE % direction_of(ahead)] if ahead else []


def direction_of(ahead: float, of: str = "") -> str:
    """By how much a clock is ahead of another one, or behind it."""
    return f"{-ahead} s behind" if ahead < 0 else f"{ahead} s ahead{of}"

"""What a venue says of itself on standard error: a line for each, and for one that comes again and
again one a second, with how often it wasn't written, also once it comes no more. Nothing is said
that would have to wait, as for a terminal that was stopped or a pipe that nobody reads: the venue
goes on.
"""
import asyncio
import dataclasses
import json
import logging
import select
import sys
import time
from collections.abc import Callable
from typing import TextIO

from callauction.venue.background import going_on

REPEAT_SECONDS = 1.0
"""Seconds between two lines that say the same."""
LOCK_SECONDS = 0.1
"""How long a thread that hangs while it writes is waited for."""
MOST_LINES = 256
"""How many lines are known that came within REPEAT_SECONDS; more are folded by what they are of."""
MOST_NOTICE_BYTES = 3000
"""Of a text, as JSON writes it: a pipe that has room takes at least a line of as many at once."""
LEVELS = {"text": logging.WARNING, "json": logging.INFO}
"""By the form of the lines, from which level on they are written."""


@dataclasses.dataclass
class Folded:
    """When a line was written last; how many like it weren't since, the last of these, and how it
    is said.
    """

    last: float
    count: int = 0
    record: logging.LogRecord | None = None
    again: str = ""

    def written(self) -> logging.LogRecord | None:
        """The last one that wasn't written, which says how many others weren't; None where all
        were.
        """
        record, others = self.record, self.count - 1
        self.record, self.count = None, 0
        if record is not None and others:
            record.left_out = f" (and {others} {self.again})"
        return record


class Sparing(logging.Filter):
    """Lets a record through that says the same as another once in REPEAT_SECONDS, and counts the
    others: the same text, or what it says that it is `of`, of the same member. In a flood of other
    lines one below ERROR counts as the same where its text is, but for what stands in it. One that
    says that it `is_once` is no other's.
    """

    def __init__(self, clock: Callable[[], float] = time.monotonic) -> None:
        super().__init__()
        self._clock = clock
        self._lines: dict[tuple[str, ...], Folded] = {}  # the one written first is first
        self._over: list[logging.LogRecord] = []

    def filter(self, record: logging.LogRecord) -> bool:
        """Whether a record is written; `left_out` says how many weren't since the last."""
        if getattr(record, "is_once", False):
            return True
        now = self._clock()
        line, again = self._line_of(record, now)
        found = self._lines.get(line)
        if found is not None and now - found.last < REPEAT_SECONDS:
            found.count, found.record, found.again = found.count + 1, record, again
            return False
        self._lines.pop(line, None)
        self._lines[line] = Folded(now)
        if found is not None and found.count:
            record.left_out = f" (and {found.count} {again})"
        return True

    def left_out(self, is_end: bool = False) -> list[logging.LogRecord]:
        """What is to be written of lines that were left out and don't come again: the last of each,
        with how many others there were; at the end of all.
        """
        now = self._clock()
        found, self._over = self._over, []
        for line, folded in [*self._lines.items()]:
            if folded.count and (is_end or now - folded.last >= REPEAT_SECONDS):
                self._lines.pop(line, None)
                self._lines[line] = Folded(now)
                found += filter(None, [folded.written()])
        return found

    def _line_of(self, record: logging.LogRecord, now: float) -> tuple[tuple[str, ...], str]:
        """By what a record is folded, and what those are that are left out."""
        kind = record.name, str(record.msg)
        line = *kind, getattr(record, "of", record.getMessage()), getattr(record, "member", "")
        if line in self._lines or len(self._lines) < MOST_LINES:
            return line, "times more"
        oldest = next(iter(self._lines))
        if record.levelno < logging.ERROR and now - self._lines[oldest].last < REPEAT_SECONDS:
            return kind, "like it, of others too"
        self._over += filter(None, [self._lines.pop(oldest).written()])
        return line, "times more"


def record_text(record: logging.LogRecord) -> str:
    """A record in one line: what is said, what was raised and where, how many were left out."""
    text = " ".join(record.getMessage().split())
    if record.exc_info and record.exc_info[1] is not None:
        fault, trace = record.exc_info[1:]
        while trace is not None and trace.tb_next is not None:
            trace = trace.tb_next
        where = f" ({trace.tb_frame.f_code.co_filename}:{trace.tb_lineno})" if trace else ""
        text += f": {type(fault).__name__}: {' '.join(str(fault).split())}{where}"
    return shortened(text) + str(getattr(record, "left_out", ""))


def shortened(text: str) -> str:
    """The begin of a text that has MOST_NOTICE_BYTES at most."""
    while (size := len(json.dumps(text))) > MOST_NOTICE_BYTES:
        text = text[: len(text) * MOST_NOTICE_BYTES // size]
    return text


def has_room(stream: TextIO) -> bool:
    """Whether a line can be written without a wait for who reads."""
    try:
        return bool(select.select([], [stream], [], 0)[1])
    except (OSError, ValueError):  # nothing that could be waited for
        return True


class Unheld(logging.StreamHandler[TextIO]):
    """Writes each line for which there is room, of lines that say the same few."""

    def __init__(self, stream: TextIO) -> None:
        super().__init__(stream)
        self._sparing = Sparing()
        self.addFilter(self._sparing)

    def emit(self, record: logging.LogRecord) -> None:
        """Writes a record, or leaves it out."""
        if has_room(self.stream):
            super().emit(record)

    def write_left_out(self, is_end: bool) -> None:
        """Writes what was left out and doesn't come again, once there is room; not where another
        thread hangs as it writes.
        """
        if self.lock is None or not has_room(self.stream):
            return
        if self.lock.acquire(timeout=LOCK_SECONDS):
            try:
                for record in self._sparing.left_out(is_end):
                    record.created = time.time()  # lines are in the order of time
                    self.emit(record)
            finally:
                self.lock.release()


def write_left_out(is_end: bool = True) -> None:
    """Writes how often lines came that weren't written and don't come again; at the end of all."""
    for handler in logging.getLogger().handlers:
        if isinstance(handler, Unheld):
            handler.write_left_out(is_end)


async def write_counts() -> None:
    """Writes again and again how often lines came that weren't written."""
    while True:
        await asyncio.sleep(REPEAT_SECONDS)
        with going_on("the count of lines that weren't written"):
            write_left_out(is_end=False)


class Plain(logging.Formatter):
    """A line for people."""

    def format(self, record: logging.LogRecord) -> str:
        """The line of a record."""
        return f"venue: {record_text(record)}"


class AsJson(logging.Formatter):
    """A line for programs: the time in seconds of the epoch, the level, the text, and the member
    whom it is about.
    """

    def format(self, record: logging.LogRecord) -> str:
        """The line of a record."""
        found = {
            "time": round(record.created, 3),
            "level": record.levelname.lower(),
            "text": record_text(record),
        }
        if member := getattr(record, "member", ""):
            found["member"] = member
        return json.dumps(found)


def set_up(form: str) -> None:
    """Writes what is said in this form, one of LEVELS."""
    handler = Unheld(sys.stderr)
    handler.setFormatter(AsJson() if form == "json" else Plain())
    root = logging.getLogger()
    root.handlers[:] = [handler]
    root.setLevel(LEVELS[form])
    logging.getLogger("asyncio").setLevel(logging.ERROR)  # it warns that who was sent to is gone

"""The venue's own log, beside the journals: lines of JSON that say who is a member, which message
was sent to which program, and what the operator did, each with its time and, where somebody asked
for it over the network, the address. Nothing is done before its line is on the disk, so a venue
that was killed goes on from here and from the journals.
"""
import asyncio
import concurrent.futures
import contextlib
import contextvars
import errno
import fcntl
import functools
import json
import os
import pathlib
from collections.abc import Callable, Iterator, Mapping
from typing import Any

from callauction.venue import clock, ending, leftovers, owned
from callauction.venue.background import going_on

VERSION = 2
Line = dict[str, Any]
Then = Callable[[], None]
SOURCE: contextvars.ContextVar[str] = contextvars.ContextVar("source", default="")
"""The address of whom a request is served, empty where it is the venue itself."""
LINE_FIELDS: dict[str, dict[str, type]] = {
    "start": {"instrument": str, "entries": int},
    "mark": {"instrument": str, "entries": int},
    "sent": {"instrument": str, "member": str, "number": int, "record": str},
    "member": {"name": str, "token": str, "robot": str},
    "code": {"name": str, "code": str},
    "code_of_file": {"code": str},
    "door": {"open": bool},
    "rename": {"name": str, "title": str},
    "removed": {"name": str},
    "day": {"instruments": dict, "parts": dict},
    "round": {"round": int, "groups": int, "treatment": dict},
    "group": {"round": int, "group": int},
    "restored": {"mark": str, "entries": dict, "round": int},
    "clock": {"instrument": str, "behind": float},
    "boot": {"id": str, "began": float},
}
"""What lines of some kinds have at least."""
MOST_LINE_LETTERS = 80
"""How many letters a fault has of a line that can't be."""
ENCODER = json.JSONEncoder(separators=(",", ":"), allow_nan=False)
quoted = ENCODER.encode
known = functools.lru_cache(4096)(quoted)
"""A text as JSON has it, for those that come again and again."""
WRITE_SECONDS = 10.0
"""How long a write of the log may take before the venue says that it waits for it."""


class LogError(Exception):
    """The log can't be used: a line of it is no line, or it is of another version."""


class LogInUseError(LogError):
    """Another venue has the log."""


class LogVersionError(LogError):
    """The log is of another version."""


def line_text(line: Line) -> str:
    """A line of the log as it is written, with the time in seconds of the epoch."""
    return ENCODER.encode({"time": round(clock.now(), 3)} | line)


def sent_text(
    instrument: str, member: str, number: int, record: str, source: str, note: Mapping[str, str]
) -> str:
    """The line of a message that is sent to a program, as `line_text` writes it, from parts:
    each order has one, and it takes half of the time.
    """
    time = round(clock.now(), 3)
    whose = f'"instrument":{known(instrument)},"member":{known(member)},"number":{number}'
    origin = f',"from":{known(source)}' if source else ""
    within = ",".join([f"{known(tag)}:{quoted(text)}" for tag, text in note.items()])
    beside = f'{origin},"note":{{{within}}}' if note else origin
    return f'{{"time":{time!r},"kind":"sent",{whose},"record":{quoted(record)}{beside}}}'


def read_lines(text: bytes, name: str) -> list[Line]:
    """The lines of a log. Raises LogError for a line that is none."""
    found = []
    for place, line in enumerate(text.splitlines(), 1):
        try:
            read = json.loads(line)
            found.append(read | {"kind": read["kind"]})
            is_line = all(type(read[field]) is kind for field, kind in line_fields(read))
        except (ValueError, TypeError, KeyError, RecursionError):
            is_line = False
        if not is_line:
            raise LogError(f"{name}: line {place} is no line of a log")
    return found


def line_fields(line: Line) -> list[tuple[str, type]]:
    """The fields that a line has to have by its kind, and the kind of each."""
    found: list[tuple[str, type]] = [("kind", str), *LINE_FIELDS.get(line["kind"], {}).items()]
    return found + [("instrument", str)] * ("instrument" in line)


def check_version(lines: list[Line], path: pathlib.Path) -> None:
    """Raises LogVersionError where the lines of a log are another version's."""
    if lines and lines[0].get("version") != VERSION:
        raise LogVersionError(f"{path} is the log of another version")


@contextlib.contextmanager
def taking(line: Line) -> Iterator[None]:
    """Raises LogError where a line is taken that says what can't be."""
    try:
        yield
    except (ArithmeticError, LookupError, TypeError, ValueError, AttributeError):
        text = line_text(line)[:MOST_LINE_LETTERS]
        raise LogError(f"this line of the log can't be: {text}") from None


class SlowLogError(OSError):
    """A write of the log doesn't end; what waits for it goes on once it does."""

    def __init__(self) -> None:
        super().__init__(0, f"it waits for the disk for more than {WRITE_SECONDS:g} s")


class ChangedLogError(OSError):
    """The log isn't as it was left: it was moved, cut, or written to by somebody else."""

    def __init__(self) -> None:
        super().__init__(errno.ESTALE, "it was changed by others")


class Log:
    """The log of a folder, which nobody else has meanwhile. `on_fault` is called where it can't be
    written, and `on_written` where a write ends that was said to be slow. Nothing is written while
    it isn't as it was left: what follows from it would be lost.

    Raises LogInUseError where another has it, OwnerError where others may read or write it, and
    OSError.
    """

    def __init__(self, path: pathlib.Path, is_synced: bool = True) -> None:
        self.path, self._is_synced = path, is_synced
        self._file = owned.opened(path, os.O_RDWR | os.O_CREAT)
        try:
            fcntl.flock(self._file, fcntl.LOCK_EX | fcntl.LOCK_NB)
        except BlockingIOError:
            os.close(self._file)
            who = "".join(f", process {it}" for it in leftovers.holders_of(path))
            raise LogInUseError(f"{path} is in use by another venue{who}") from None
        if is_synced:
            owned.sync_folder(path.parent)
        self._length = 0
        self._waiting: list[tuple[str, Then | None]] = []
        self._wakes = asyncio.Event()
        self._retries = asyncio.Event()
        self._thread = concurrent.futures.ThreadPoolExecutor(1, "log")
        self._thread.submit(int).result()  # it runs from now on, or there is no venue
        self._is_closed = self._is_slow = False
        self._fault: OSError | None = None
        self._tries: set[asyncio.Future[OSError | None]] = set()
        self.on_fault: Callable[[OSError], None] = lambda fault: None
        self.on_written: Callable[[], None] = lambda: None

    def lines(self) -> list[Line]:
        """All lines that were written. A last line that isn't whole is taken away: nothing followed
        from it. Raises LogError for a line that is none, also the last one, and OSError.
        """
        text = self.path.read_bytes()
        whole = text[: text.rfind(b"\n") + 1]
        if text[len(whole) :].strip(b"\0")[:1] not in (b"", b"{"):
            raise LogError(f"{self.path}: its end is no line of a log")
        os.ftruncate(self._file, len(whole))
        self._length = len(whole)
        return read_lines(whole, str(self.path))

    @property
    def length(self) -> int:
        """How many bytes are written."""
        return self._length

    @property
    def waiting(self) -> int:
        """How many lines wait to be written."""
        return len(self._waiting)

    def append(self, text: str, then: Then | None = None) -> None:
        """Writes lines, parted by line ends; what is to follow is called once they are on the disk,
        in the order of the lines.
        """
        self._waiting.append((text, then))
        self._wakes.set()

    def note(self, then: Then | None = None, **line: Any) -> None:
        """Writes a line with these fields, and from where it was asked for."""
        source = SOURCE.get()
        self.append(line_text(line | ({"from": source} if source else {})), then)

    async def written(self) -> None:
        """Waits until all lines so far are on the disk."""
        done = asyncio.Event()
        self.append("", done.set)
        await done.wait()

    async def check_written(self) -> None:
        """Waits until all lines so far are on the disk. Raises OSError where they can't be written
        now.
        """
        fault = self._fault
        if fault is None:
            tried: asyncio.Future[OSError | None] = asyncio.get_running_loop().create_future()
            self._tries.add(tried)
            self.append("", lambda: None if tried.done() else tried.set_result(None))
            try:
                fault = await tried
            finally:
                self._tries.discard(tried)
        if fault is not None:
            raise OSError(fault.errno, fault.strerror, str(self.path))

    def retry(self) -> None:
        """Tries again to write what couldn't be written."""
        self._fault = None
        self._retries.set()

    async def run(self) -> None:
        """Writes what comes, until it is closed; many lines at a time where many wait."""
        while not self._is_closed or self._waiting:
            if not self._waiting:
                self._wakes.clear()
                await self._wakes.wait()
                continue
            taken, self._waiting = self._waiting, []
            data = "".join(f"{text}\n" for text, _ in taken if text).encode("utf-8")
            if not await self._write_until_closed(data):
                return
            for _, then in taken:
                if then is not None:
                    with going_on("what follows from a line of the log"):
                        then()

    async def _write_until_closed(self, data: bytes) -> bool:
        """Writes bytes, again and again where that fails, until it is closed: whether they are
        written.
        """
        loop = asyncio.get_running_loop()
        while True:
            self._is_slow = False
            slow = loop.call_later(WRITE_SECONDS, self._slow)
            try:
                await self._in_thread(functools.partial(self._write, data))
                if self._is_slow:
                    self.on_written()
                return True
            except OSError as fault:
                if self._is_closed:
                    return False
                self._failed(fault)
            finally:
                slow.cancel()
            await self._retries.wait()

    async def _in_thread(self, work: Then) -> None:
        """Does some work of its in its thread. Raises OSError."""

        def done() -> None:
            with ending.until_done(lambda: self.path.name):
                work()

        await asyncio.get_running_loop().run_in_executor(self._thread, done)

    def _failed(self, fault: OSError) -> None:
        """A write has failed: nothing is written until it is tried again."""
        self._fault = fault
        self._retries.clear()
        self.on_fault(fault)
        for tried in self._tries:
            if not tried.done():
                tried.set_result(fault)

    def _slow(self) -> None:
        """A write takes long."""
        self._is_slow = True
        self.on_fault(SlowLogError())

    async def look(self) -> None:
        """Takes it for failed where others have changed it, as at the next write."""
        try:
            await self._in_thread(self._check)
        except OSError as fault:
            if self._fault is None and not self._is_closed:
                self._failed(fault)

    def close(self) -> None:
        """Lets `run` end once all is written."""
        self._is_closed = True
        self._wakes.set()
        self._retries.set()

    def _check(self) -> None:
        """Raises ChangedLogError where others have changed it."""
        own = os.fstat(self._file)
        try:
            found = os.lstat(self.path)
        except FileNotFoundError:
            raise ChangedLogError from None
        if not os.path.samestat(own, found) or own.st_size != self._length:
            raise ChangedLogError

    def _write(self, data: bytes) -> None:
        """Writes bytes at the end, or nothing. Raises OSError."""
        self._check()
        try:
            view, place = memoryview(data), self._length
            while view:
                count = os.pwrite(self._file, view, place)
                view, place = view[count:], place + count
            if self._is_synced:
                os.fdatasync(self._file)
        except OSError:
            os.ftruncate(self._file, self._length)
            raise
        self._length += len(data)

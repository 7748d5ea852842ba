"""What a run keeps of its rows as they come, so that another run goes on where it stopped."""
import contextlib
import csv
import hashlib
import os
import pathlib
from collections.abc import Iterable, Iterator, Sequence

from callauction.market.files import OWN, created, is_own
from callauction.market.rows import COLUMNS, Found, Row, cells, read_cell, record_of
from callauction.market.task import ProgramFaultError, Request, digest_of, opened

VERSION = "2"
"""Of the log's form."""
HEADER = [*COLUMNS, "worker", "size", "sha256", "check"]
"""The columns: a row's, who made it, the bytes of the file, their SHA-256, and the line's check."""


def check_of(before: str, fields: Iterable[object]) -> str:
    """The check of a line with these fields after a line with this check."""
    text = before + record_of(fields)
    return hashlib.sha256(text.encode()).hexdigest()


class RunLog:
    """A CSV file with a record for each row as it came.

    Its first line says which task it is of: the version, the program's SHA-256, the forms and the
    limits. Each line ends with a check of itself and of all lines before it. Nobody but its owner
    may write to it, so a line that has its check was written by a run of this user.
    """

    def __init__(self, path: pathlib.Path, request: Request, program: str) -> None:
        limits = [str(limit or "by size") for limit in (request.memory, request.seconds)]
        self.path = path
        self.task = ["callauction market", VERSION, program, " ".join(request.forms), *limits]
        self.faults: list[str] = []
        """What is wrong with the log of an earlier run, a line each."""

    def read(self) -> dict[str, Found]:
        """The last record of each instrument, up to the first line that isn't as a run of this task
        wrote it; nothing of a log that others may write to. Raises OSError.
        """
        flags = os.O_RDONLY | os.O_NOFOLLOW | os.O_NONBLOCK | os.O_CLOEXEC
        with open(os.open(self.path, flags), encoding="utf-8", errors="replace", newline="") as log:
            if not is_own(log.fileno()):
                self.faults.append("others may write to it: all is run again")
                return {}
            lines = log.readlines()
        return {each.row.instrument: each for each in self.founds_in(lines)}

    def founds_in(self, lines: list[str]) -> Iterator[Found]:
        """What the lines of a log say, up to the first that is not as it was written."""
        before = ""
        for place, line in enumerate(lines, 1):
            *fields, check = fields_in(line)
            if check != check_of(before, fields) or not line.endswith("\n"):
                word = "isn't as it was written" if line.endswith("\n") else "was cut"
                self.faults.append(f"line {place} {word}: it and what follows is run again")
                return
            if place == 1 and fields != self.task:
                self.faults.append("it is of another program or of other options: all is run again")
                return
            before = check
            if place > 2:
                yield found_in(fields)

    def taken(self, files: dict[str, str]) -> list[Found]:
        """What an earlier run found of files that needn't be run again: those without a fault that
        are the same byte for byte. Raises OSError where the log can't be read.
        """
        import concurrent.futures

        known = self.read() if self.path.exists() else {}
        candidates = [(path, known[name]) for name, path in files.items() if name in known]
        with concurrent.futures.ThreadPoolExecutor() as pool:
            current = pool.map(lambda it: is_current(*it), candidates)
            return [found for (_, found), is_same in zip(candidates, current) if is_same]

    @contextlib.contextmanager
    def begun(self, taken: Iterable[Found]) -> Iterator[None]:
        """The log, begun anew with these records, and open for more. Raises OSError."""
        begun, self.out = created(self.path.parent, OWN)
        with self.out:
            try:
                self.check = ""
                self.out.write(self.line(self.task) + self.line(HEADER[:-1]))
                self.add(taken)
                os.replace(begun, self.path)
            finally:
                begun.unlink(missing_ok=True)
            yield

    def line(self, fields: Sequence[object]) -> bytes:
        """The next line, with these fields."""
        self.check = check_of(self.check, fields)
        return record_of([*fields, self.check]).encode()

    def add(self, found: Iterable[Found]) -> None:
        """Writes records to the open log. Raises OSError."""
        for each in found:
            self.out.write(self.line(fields_of(each)))
        self.out.flush()


def fields_in(line: str) -> list[str]:
    """The fields of a line, at least one."""
    try:
        return next(csv.reader([line]), [""]) or [""]
    except csv.Error:
        return [""]


def fields_of(found: Found) -> list[object]:
    """The fields of a record, but for its check."""
    size = "" if found.size is None else found.size
    return [*cells(found.row, COLUMNS), found.worker, size, found.digest]


def found_in(fields: list[str]) -> Found:
    """What the fields of a record say that has its check. Raises ValueError."""
    values = dict(zip(HEADER, fields))
    row = Row(**{name: read_cell(name, values[name]) for name in COLUMNS})
    size = int(values["size"]) if values["size"] else None
    return Found(row, values["worker"], size, values["sha256"])


def is_current(path: str, found: Found) -> bool:
    """Whether a record is without a fault, and of the bytes that the file has now. The size is
    looked at first.
    """
    if found.row.fault or not found.digest:
        return False
    try:
        with opened(path) as file:
            return os.fstat(file.fileno()).st_size == found.size and digest_of(file) == found.digest
    except (OSError, ProgramFaultError):
        return False

"""The proved program: where it is, what it prints of a day, and what its faults raise."""
import dataclasses
import operator
import os
import pathlib
import re
import subprocess
from typing import Self

from callauction import finder
from callauction.errors import AuctionError
from callauction.statuses import BAD_DAY, BAD_FILE, DONE, FAILED, INCOMPLETE, UNLAWFUL

FORMS = ("lines", "journal", "trades", "book")
"""The forms in which a day is printed (docs/FORMATS.md)."""
DAY_FIELDS = ("low", "high", "reference", "members", "open", "calls", "range")
"""What a day is opened with, in the order of a day record: the options of an order file."""
NO_JOURNAL = "record 1: not a day record"


class ProgramError(AuctionError):
    """The program answered with a fault: `text` is what it says of it, `status` its status."""

    def __init__(self, text: str, status: int) -> None:
        super().__init__(text)
        self.text = text
        self.status = status


class BadFileError(ProgramError):
    """The order file or the journal is a bad one. `record` is the number of the bad record, from 1,
    None where the text names none.
    """

    def __init__(self, text: str) -> None:
        super().__init__(text, BAD_FILE)
        found = re.match(r"record (\d+):", text)
        self.record = int(found[1]) if found else None


class BadDayError(ProgramError):
    """The numbers of the day, or the options, are bad."""

    def __init__(self, text: str) -> None:
        super().__init__(text, BAD_DAY)


class FailedError(ProgramError):
    """The program is missing or couldn't be started, memory was refused, or a read or a write
    failed.
    """

    def __init__(self, text: str) -> None:
        super().__init__(text, FAILED)


def found_program() -> str:
    """The path of the program (callauction.finder). Raises FailedError where there is none."""
    try:
        return finder.program_path()
    except FileNotFoundError as fault:
        raise FailedError(str(fault)) from None


def words_of(options: dict[str, int | None]) -> tuple[str, ...]:
    """The words of these options; those of None are left out. Raises TypeError for another name
    than those of DAY_FIELDS, or a value that is no integer.
    """
    words: list[str] = []
    for name, value in options.items():
        if name not in DAY_FIELDS:
            raise TypeError(f"there is no option {name}; there are {', '.join(DAY_FIELDS)}")
        if value is not None:
            words += [f"--{name}", str(operator.index(value))]
    return tuple(words)


@dataclasses.dataclass(frozen=True)
class Day:
    """A recorded day: the bytes of an order file or a journal, and the words of the options, which
    are looked at for an order file alone.
    """

    content: bytes
    words: tuple[str, ...] = ()

    def __repr__(self) -> str:
        return f"<Day {' '.join([f'{len(self.content):,} bytes', *self.words])}>"

    @classmethod
    def read(cls, path: str | os.PathLike[str], **options: int | None) -> Self:
        """The day of a file; the options are those of DAY_FIELDS. Raises OSError and TypeError."""
        return cls(pathlib.Path(path).read_bytes(), words_of(options))

    def printed(self, form: str = "lines") -> str:
        """What the program prints of it in one of FORMS. Raises ProgramError."""
        _, text = _answer([*self.words, "--print", form], self.content)
        return text

    def audited(self) -> str:
        """What the program prints of the audit of a journal. Raises ProgramError, with NO_JOURNAL
        for an order file.
        """
        _, text = _answer(["--audit"], self.content)
        return text

    def results(self) -> str:
        """What the program prints of the audit of a journal with the lawful results of its day: the
        audit's lines, that of each uncross, and where the day is. Raises as audited.
        """
        _, text = _answer(["--audit", "--results"], self.content)
        return text

    def is_journal(self) -> bool:
        """Whether it is a journal. Raises ProgramError for a bad one."""
        try:
            self.audited()
        except BadFileError as fault:
            if fault.text != NO_JOURNAL:
                raise
            return False
        return True


def _answer(words: list[str], content: bytes) -> tuple[int, str]:
    """The status, DONE, UNLAWFUL or INCOMPLETE, and what is printed. Raises ProgramError."""
    try:
        ran = subprocess.run([found_program(), *words], input=content, capture_output=True)
    except OSError as fault:
        raise FailedError(f"callboard can't be run: {fault.strerror}") from None
    if ran.returncode in (DONE, UNLAWFUL, INCOMPLETE):
        return ran.returncode, ran.stdout.decode("ascii")
    text, *causes = ran.stderr.decode("utf-8", "replace").strip().splitlines() or [""]
    refused = run_fault(text, ran.returncode)
    for cause in causes:
        refused.add_note(cause)
    raise refused


def run_fault(text: str, status: int) -> ProgramError:
    """The exception of a run that ended with this status and this line; a second line, which has
    the likely cause, is a note of it.
    """
    if status == BAD_FILE:
        return BadFileError(text)
    if status == BAD_DAY:
        return BadDayError(text)
    return FailedError(text or f"callboard ended with status {status}")

"""Programs that a venue which was killed has left: who has a journal that is in use, and whether it
is the program of the last run, by its number, its start, and the machine's; or one of a run that
was killed before its log had these, by its command line.
"""
import contextlib
import dataclasses
import os
import pathlib
import signal
import stat
from typing import Any, Self

from callauction.venue import clock

PROCESSES = pathlib.Path("/proc")
PARENT_FIELD, SESSION_FIELD, START_FIELD = 1, 3, 19
"""The places of a process's parent, its session and its start among the fields behind its name in
/proc/PID/stat.
"""
VENUE_MODULE = "callauction.venue"
"""What the command line of a venue has."""


@dataclasses.dataclass(frozen=True)
class Program:
    """A process, as long as it is that one: its number, its start in ticks since the machine's, and
    which run of the machine that was.
    """

    pid: int
    began: int
    boot: str

    @classmethod
    def of(cls, pid: int) -> Self | None:
        """The process that has this number, None where there is none or it can't be seen."""
        boot = clock.boot()
        with contextlib.suppress(OSError, ValueError, IndexError):
            return cls(pid, int(process_fields(pid)[START_FIELD]), boot)
        return None

    def kept(self) -> dict[str, Any]:
        """What is written down of it."""
        return {"program": dataclasses.asdict(self)} if self.boot else {}

    @classmethod
    def kept_in(cls, line: dict[str, Any]) -> Self | None:
        """What was written down of it, None where nothing was. Raises TypeError for anything else.
        """
        kept = line.get("program")
        return None if kept is None else cls(**kept)

    def end(self) -> bool:
        """Ends it at once, and nobody who has its number since: whether it was there."""
        with contextlib.suppress(OSError):
            file = os.pidfd_open(self.pid)
            try:
                if self == type(self).of(self.pid):
                    signal.pidfd_send_signal(file, signal.SIGKILL)
                    return True
            finally:
                os.close(file)
        return False


def holders_of(path: pathlib.Path) -> list[int]:
    """The numbers of the other processes that have a file open to write it, as far as this user
    sees them.
    """
    try:
        about = os.stat(path)
        numbers = [int(it.name) for it in PROCESSES.iterdir() if it.name.isdecimal()]
    except OSError:
        return []
    return [it for it in sorted(numbers) if it != os.getpid() and writes(it, about)]


def writes(pid: int, about: os.stat_result) -> bool:
    """Whether a process has this file open to write it: its owner may write the link then."""
    with contextlib.suppress(OSError):
        for it in (PROCESSES / str(pid) / "fd").iterdir():
            with contextlib.suppress(OSError):
                is_written = it.lstat().st_mode & stat.S_IWUSR
                if is_written and os.path.samestat(about, os.stat(it)):
                    return True
    return False


def process_fields(pid: int) -> list[str]:
    """The fields behind a process's name in its /proc/PID/stat. Raises OSError."""
    text = (PROCESSES / str(pid) / "stat").read_text("utf-8", "replace")
    return text.rpartition(")")[2].split()


def words_of(pid: int) -> list[str]:
    """The command line of a process. Raises OSError."""
    return os.fsdecode((PROCESSES / str(pid) / "cmdline").read_bytes()).split("\0")


def left_on(journal: pathlib.Path, program: str, last: Program | None) -> list[Program]:
    """The processes that have a journal and were left by venues that were killed: the program of
    the last run, and others that are this program with this journal.
    """
    those = map(Program.of, holders_of(journal))
    return [it for it in those if it and (it == last or is_left(it.pid, program, journal))]


def is_left(pid: int, program: str, journal: pathlib.Path) -> bool:
    """Whether a process is this program with this journal on its command line, of this user, and
    leads a session, as a venue starts it, whose parent is no venue any more.
    """
    about = PROCESSES / str(pid)
    with contextlib.suppress(OSError, ValueError, IndexError):
        fields, words = process_fields(pid), words_of(pid)
        is_program = program in words[:2] or os.path.samefile(about / "exe", program)
        own = about / "cwd" / words[words.index("--journal") + 1]
        is_own = os.stat(about).st_uid == os.geteuid() and int(fields[SESSION_FIELD]) == pid
        parent = int(fields[PARENT_FIELD])
        is_orphan = parent != os.getpid() and VENUE_MODULE not in words_of(parent)
        return is_own and is_orphan and is_program and os.path.samefile(own, journal)
    return False


def how_to_end(pids: list[int]) -> str:
    """Which processes these are, with the command that ends them; empty where none is seen."""
    numbers = " ".join(map(str, pids))
    return f" by process {numbers}: `kill -9 {numbers}` ends it" if pids else ""

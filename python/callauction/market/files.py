"""Files that a run of the market writes: whole or not at all, through no link, and by one run at a
time.
"""
import contextlib
import fcntl
import os
import pathlib
import pwd
import time
from collections.abc import Iterator
from typing import IO

from callauction.market.instrument_names import line_of

OWN = 0o600
"""The mode of a file that only its owner may read and write."""
OF_OTHERS = 0o022
"""The bits of a mode with which others may write."""


class InUse(Exception):
    """Another run writes this result: which one."""


def fresh(folder: pathlib.Path) -> pathlib.Path:
    """A name in a folder that nobody can foresee."""
    return folder / f".callauction-{os.urandom(16).hex()}"


def created(folder: pathlib.Path, mode: int) -> tuple[pathlib.Path, IO[bytes]]:
    """A new file with a fresh name in a folder, open for writing. Raises OSError."""
    path = fresh(folder)
    flags = os.O_WRONLY | os.O_CREAT | os.O_EXCL | os.O_NOFOLLOW | os.O_CLOEXEC
    return path, open(os.open(path, flags, mode), "wb")


@contextlib.contextmanager
def replacing(path: pathlib.Path) -> Iterator[IO[bytes]]:
    """A file that takes this path's place when it is written. Until then it has a fresh name, and
    after an error nothing of it is left. A link at the path is replaced, not followed. Raises
    OSError.
    """
    begun, out = created(path.parent, 0o666)
    try:
        with out:
            yield out
        os.replace(begun, path)
    finally:
        begun.unlink(missing_ok=True)


def lock_of(result: pathlib.Path) -> pathlib.Path:
    """The file by whose lock a run owns a result, a file or a folder."""
    return result / ".callauction.lock" if result.is_dir() else with_end(result, ".lock")


def with_end(path: pathlib.Path, end: str) -> pathlib.Path:
    """The path with this end after its whole name."""
    return path.with_name(path.name + end)


@contextlib.contextmanager
def locked(result: pathlib.Path) -> Iterator[None]:
    """Owns a result, until the end or the process's own end. Raises InUse, which says
    who has it, and OSError.
    """
    path = lock_of(result)
    file = take_lock(path, result)
    try:
        os.ftruncate(file, 0)
        user, host, now = user_of(os.getuid()), os.uname().nodename, time.strftime("%F %T %z")
        os.write(file, f"process {os.getpid()} of {user} on {host} since {now}".encode())
        yield
    finally:
        with contextlib.suppress(FileNotFoundError):
            path.unlink()
        os.close(file)


def take_lock(path: pathlib.Path, result: pathlib.Path) -> int:
    """The open and locked file with this path. Raises InUse and OSError."""
    flags = os.O_RDWR | os.O_CREAT | os.O_NOFOLLOW | os.O_CLOEXEC
    while True:
        file = os.open(path, flags, OWN)
        try:
            fcntl.flock(file, fcntl.LOCK_EX | fcntl.LOCK_NB)
            if is_at(path, file):
                return file
        except BlockingIOError:
            owner = line_of(os.pread(file, 1_000, 0).decode("utf-8", "replace"))
            os.close(file)
            raise InUse(f"{result} is in use by {owner or 'another run'}") from None
        os.close(file)  # a run that ended meanwhile removed it


def is_at(path: pathlib.Path, file: int) -> bool:
    """Whether this open file is the one with this path. Raises OSError."""
    try:
        return os.path.samestat(os.stat(path, follow_symlinks=False), os.fstat(file))
    except FileNotFoundError:
        return False


def user_of(number: int) -> str:
    """The name of a user, or the number where it has none."""
    try:
        return pwd.getpwuid(number).pw_name
    except KeyError:
        return str(number)


def is_own(file: int) -> bool:
    """Whether an open file belongs to this process's user and no other one may write to it. Raises
    OSError.
    """
    found = os.fstat(file)
    return found.st_uid == os.geteuid() and not found.st_mode & OF_OTHERS

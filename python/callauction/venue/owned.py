"""Files that a venue alone writes: made whole, on the disk before they count, and refused where
another user owns them or may write to them.
"""
import contextlib
import errno
import os
import pathlib
import stat
from collections.abc import Callable

FOLDER_MODE, FILE_MODE = 0o700, 0o600
"""The modes of all that a venue makes."""
OF_OTHERS = 0o077
WRITES_OF_OTHERS = 0o022


class OwnerError(Exception):
    """Another user owns a file of the venue, or may write to it, or read what is secret; or it is
    no file.
    """


def make_folder(path: pathlib.Path) -> None:
    """A folder for this user alone, where there is none yet. Raises OwnerError, and OSError."""
    with contextlib.suppress(FileExistsError):
        path.mkdir(mode=FOLDER_MODE)
    if path.is_symlink() and os.lstat(path).st_uid not in (0, os.geteuid()):
        raise OwnerError(f"{path} is a link of another user: find out who, then chown -h")
    check_owner(path, os.stat(path), WRITES_OF_OTHERS, is_folder=True)


def check_owner(
    path: pathlib.Path, found: os.stat_result, refused: int, is_folder: bool = False
) -> None:
    """Raises OwnerError where a file isn't this user's, or gives others one of these rights."""
    if stat.S_ISLNK(found.st_mode):
        raise OwnerError(f"{path} is a link: put the file itself there")
    kind = stat.S_ISDIR if is_folder else stat.S_ISREG
    if not kind(found.st_mode):
        raise OwnerError(f"{path} is no {'folder' if is_folder else 'regular file'}: move it away")
    if found.st_uid != os.geteuid():
        raise OwnerError(f"{path} belongs to another user: find out who, then chown")
    if found.st_mode & refused & WRITES_OF_OTHERS:
        raise OwnerError(f"{path} may be written by other users: chmod go-w")
    if found.st_mode & refused:
        raise OwnerError(f"{path} may be read by other users: chmod go-rwx")


def check_file(path: pathlib.Path) -> bool:
    """Whether there is a file, or a link, at this path. Raises OwnerError where others own it or
    may write to it, and OSError.
    """
    try:
        found = os.lstat(path)
    except FileNotFoundError:
        return False
    check_owner(path, found, WRITES_OF_OTHERS)
    return True


def check_copy(path: pathlib.Path, is_folder: bool = False) -> None:
    """Raises OwnerError where anybody but this user and root may have written what is copied from
    here, and OSError. A link is judged by what reads it.
    """
    check_writers(path, os.stat(path) if is_folder else os.lstat(path))


def check_writers(path: pathlib.Path, found: os.stat_result) -> None:
    """Raises OwnerError where anybody but this user and root owns a file, or may write to it."""
    if found.st_uid not in (0, os.geteuid()):
        raise OwnerError(f"{path} belongs to another user: find out who, then chown")
    if found.st_mode & WRITES_OF_OTHERS and not stat.S_ISLNK(found.st_mode):
        raise OwnerError(f"{path} may be written by other users: chmod go-w")


def opened(path: pathlib.Path, flags: int) -> int:
    """An open file that is this user's and that nobody else may read or write. Raises OwnerError,
    and OSError.
    """
    check_file(path)
    flags |= os.O_CLOEXEC | os.O_NOFOLLOW | os.O_NONBLOCK
    file = os.open(path, flags, FILE_MODE)
    try:
        check_owner(path, os.fstat(file), OF_OTHERS)
    except OwnerError:
        os.close(file)
        raise
    return file


def secret_bytes(path: pathlib.Path, most: int) -> bytes:
    """The bytes of a secret file, at most as many and one. Raises OwnerError, and OSError."""
    file = opened(path, os.O_RDONLY)
    try:
        return os.read(file, most + 1)
    finally:
        os.close(file)


def trusted(path: pathlib.Path, most: int) -> bytes:
    """The bytes of a file that this user and root alone may write. Raises what `read_whole` raises,
    and OwnerError where others own it, or a link in its place, or may write to it.
    """
    if stat.S_ISLNK((about := os.lstat(path)).st_mode):
        check_writers(path, about)
    return read_whole(path, most, judge=check_writers)


def check_key(path: pathlib.Path, found: os.stat_result) -> None:
    """Raises OwnerError where anybody but this user, root and a group that it has may read a key,
    or anybody but this user and root write to it.
    """
    check_writers(path, found)
    if found.st_mode & stat.S_IROTH:
        raise OwnerError(f"{path} may be read by all users: chmod o-rwx")


def read_whole(
    path: pathlib.Path,
    most: int,
    flags: int = 0,
    judge: Callable[[pathlib.Path, os.stat_result], None] = lambda path, found: None,
) -> bytes:
    """The bytes of a file, whoever's it is, unless `judge` raises. Raises OSError, also where it is
    no regular file, which might never end, or has more bytes than `most`.
    """
    if flags & os.O_NOFOLLOW and path.is_symlink():
        raise OSError(errno.ELOOP, "is a link", str(path))
    file = os.open(path, os.O_RDONLY | os.O_CLOEXEC | os.O_NONBLOCK | flags)
    try:
        about = os.fstat(file)
        if not stat.S_ISREG(about.st_mode):
            raise OSError(errno.EINVAL, "is no regular file", str(path))
        judge(path, about)
        found = b""
        if about.st_size <= most:
            with open(file, "rb", closefd=False) as opened:
                found = opened.read(most + 1)
    finally:
        os.close(file)
    if max(about.st_size, len(found)) > most:
        raise OSError(errno.EFBIG, f"has more than {most} bytes", str(path))
    return found


def write(path: pathlib.Path, content: bytes) -> None:
    """Puts a file with this content to its place, whole and on the disk, or leaves all as it was.
    Raises OSError.
    """
    begun = path.with_name(f"{path.name}.new")
    with contextlib.suppress(FileNotFoundError):
        os.unlink(begun)
    flags = os.O_WRONLY | os.O_CREAT | os.O_EXCL | os.O_CLOEXEC | os.O_NOFOLLOW
    file = os.open(begun, flags, FILE_MODE)
    try:
        try:
            view = memoryview(content)
            while view:
                view = view[os.write(file, view) :]
            os.fsync(file)
        finally:
            os.close(file)
        os.rename(begun, path)
    except OSError:
        with contextlib.suppress(OSError):
            os.unlink(begun)
        raise
    sync_folder(path.parent)


def sync_folder(folder: pathlib.Path) -> None:
    """Has the names of a folder's files on the disk. Raises OSError."""
    opened = os.open(folder, os.O_RDONLY | os.O_DIRECTORY | os.O_CLOEXEC)
    try:
        os.fsync(opened)
    finally:
        os.close(opened)

"""A file system in memory that forgets at a crash what wasn't synced, in the place of `os`.

What a file holds is kept by its fsync, and which files a folder has by that of the folder. What
wasn't synced may be kept or not: each name and each content by itself, as file systems do that
write names before contents.
"""
import dataclasses
import errno
import itertools
import os as real
import pathlib
import stat
from collections.abc import Iterator
from typing import Any


@dataclasses.dataclass(eq=False)
class DiskFile:
    """A file: what it holds, and what of it is on the disk."""

    mode: int
    owner: int
    content: bytes = b""
    synced: bytes = b""


@dataclasses.dataclass
class Opened:
    """An open file, or the folder, and the place in it."""

    file: DiskFile | None
    place: int = 0


DiskNames = dict[str, DiskFile]


class Disk:
    """A folder on such a file system; it has what `os` has and a venue uses. The operations that
    change it are numbered from 1; that with the number `fails` fails.
    """

    def __init__(self) -> None:
        self.names: DiskNames = {}
        self.synced: DiskNames = {}
        self.opened: dict[int, Opened] = {}
        self.changes = self.fails = 0
        self.states: list[dict[str, bytes]] = []

    def __getattr__(self, name: str) -> Any:
        return getattr(real, name)

    def changed(self) -> None:
        """One change more, after and before which the machine may crash."""
        self.states += self.crashes()
        self.changes += 1
        if self.changes == self.fails:
            raise OSError(errno.ENOSPC, "No space left on device")

    # ---- what os has

    def open(self, path: pathlib.Path, flags: int, mode: int = 0o777) -> int:
        number = len(self.opened) + 3
        if flags & real.O_DIRECTORY:
            self.opened[number] = Opened(None)
            return number
        found = self.names.get(path.name)
        if found is None:
            if not flags & real.O_CREAT:
                raise FileNotFoundError(errno.ENOENT, "No such file or directory", str(path))
            self.changed()
            found = self.names[path.name] = DiskFile(stat.S_IFREG | mode, real.geteuid())
        elif flags & real.O_EXCL:
            raise FileExistsError(errno.EEXIST, "File exists", str(path))
        self.opened[number] = Opened(found)
        return number

    def write(self, number: int, data: bytes) -> int:
        self.changed()
        found = self.opened[number]
        assert found.file is not None
        taken = bytes(data)[:10]
        found.file.content += taken
        return len(taken)

    def read(self, number: int, most: int) -> bytes:
        found = self.opened[number]
        assert found.file is not None
        return found.file.content[:most]

    def fsync(self, number: int) -> None:
        self.changed()
        found = self.opened[number].file
        if found is None:
            self.synced = dict(self.names)
        else:
            found.synced = found.content

    def close(self, number: int) -> None:
        assert number in self.opened

    def fstat(self, number: int) -> real.stat_result:
        found = self.opened[number].file
        assert found is not None
        return real.stat_result((found.mode, 0, 0, 1, found.owner, 0, 0, 0, 0, 0))

    def rename(self, source: pathlib.Path, target: pathlib.Path) -> None:
        self.changed()
        self.names[target.name] = self.names.pop(source.name)

    def unlink(self, path: pathlib.Path) -> None:
        if path.name not in self.names:
            raise FileNotFoundError(errno.ENOENT, "No such file or directory", str(path))
        self.changed()
        del self.names[path.name]

    # ---- crashes

    def crashes(self) -> Iterator[dict[str, bytes]]:
        """Each folder that a crash now may leave, by the contents of its files."""
        for names in (self.names, self.synced):
            kept = [{file.content, file.synced} for file in names.values()]
            for contents in itertools.product(*kept):
                yield dict(zip(names, contents))

    def after(self, state: dict[str, bytes]) -> "Disk":
        """The disk after a crash that left this."""
        found = Disk()
        for name, content in state.items():
            found.names[name] = DiskFile(stat.S_IFREG | 0o600, real.geteuid(), content, content)
        found.synced = dict(found.names)
        return found

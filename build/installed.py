"""A list of what ./install put below a prefix, by which it is replaced and removed."""
import contextlib
import hashlib
import os
import pathlib
import secrets

from installed_files import Item

LIST = "share/callauction/installed"
"""Where the list is, below the prefix."""
FOLDER = "folder"


class PrefixError(Exception):
    """What is in the way of installing or removing, a line each."""


def mark_of(path: pathlib.Path) -> str:
    """What is at a path: `link TARGET`, the SHA-256 of a file, or `other`. Raises OSError."""
    if path.is_symlink():
        return f"link {os.readlink(path)}"
    return hashlib.sha256(path.read_bytes()).hexdigest() if path.is_file() else "other"


def mark_for(item: Item) -> str:
    """What is at an item's place when it is installed."""
    return f"link {item.link}" if item.link else hashlib.sha256(item.content).hexdigest()


class Installed:
    """What is installed below a prefix: the mark of each place, and the folders that were made."""

    def __init__(self, prefix: pathlib.Path) -> None:
        """Reads the list, if there is one. Raises OSError, PrefixError."""
        self.prefix = prefix
        self.marks: dict[str, str] = {}
        self.folders: list[str] = []
        path = prefix / LIST
        if os.path.lexists(path) and (path.is_symlink() or not path.is_file()):
            raise PrefixError(f"{path} is no list of ./install")
        lines = path.read_text(encoding="utf-8").splitlines() if path.exists() else []
        for line in lines:
            mark, _, place = line.partition("\t")
            if not place or place.startswith("/") or ".." in place.split("/"):
                raise PrefixError(f"{path} is no list of ./install")
            if mark == FOLDER:
                self.folders.append(place)
            else:
                self.marks[place] = mark

    def write(self) -> None:
        """Writes the list. Raises OSError."""
        rows = [f"{FOLDER}\t{place}\n" for place in self.folders]
        rows += [f"{mark}\t{place}\n" for place, mark in sorted(self.marks.items())]
        self.put(Item(LIST, "".join(rows).encode()))

    def is_own(self, place: str) -> bool:
        """Whether what is at a place is what was installed there. Raises OSError."""
        return place in self.marks and mark_of(self.prefix / place) == self.marks[place]

    def hindrances(self, places: list[str]) -> list[str]:
        """What keeps these places from being written, or taken away: a line each. Raises
        OSError.
        """
        found = [line for place in (*places, LIST) for line in self.bad_parents(place)]
        for place in places:
            path = self.prefix / place
            if not self.bad_parents(place) and os.path.lexists(path) and not self.is_own(place):
                word = "was changed since" if place in self.marks else "isn't from ./install"
                found.append(f"{path} is there and {word}")
        return list(dict.fromkeys(found))

    def bad_parents(self, place: str) -> list[str]:
        """What is in the place of a folder above this place, a line each."""
        found = []
        for parent in [self.prefix / it for it in pathlib.PurePath(place).parents][:-1]:
            if parent.is_symlink():
                found.append(f"{parent} is a link, which may lead elsewhere")
            elif os.path.lexists(parent) and not parent.is_dir():
                found.append(f"{parent} is no folder")
        return found

    def make_folders(self, place: str) -> None:
        """Makes the folders above a place, and keeps which they are. Raises OSError."""
        for parent in reversed(pathlib.PurePath(place).parents):
            if not (self.prefix / parent).is_dir():
                (self.prefix / parent).mkdir(parents=True)
                self.folders.append(str(parent))

    def put(self, item: Item) -> None:
        """Writes an item at its place, whole. Raises OSError."""
        self.make_folders(item.place)
        path = self.prefix / item.place
        begun = path.with_name(f".{secrets.token_hex(16)}")
        try:
            if item.link:
                begun.symlink_to(item.link)
            else:
                flags = os.O_WRONLY | os.O_CREAT | os.O_EXCL | os.O_NOFOLLOW
                with open(os.open(begun, flags, 0o600), "wb") as out:
                    out.write(item.content)
                begun.chmod(item.mode)
            os.replace(begun, path)
        finally:
            begun.unlink(missing_ok=True)

    def install(self, items: list[Item]) -> list[str]:
        """Installs items in place of what was installed before: the places of that which are no
        item's, and were taken away. Nothing is written where something is in the way. Raises
        PrefixError, OSError.
        """
        places = [item.place for item in items]
        old = [place for place in self.marks if place not in places]
        if found := self.hindrances([*places, *old]):
            raise PrefixError("\n".join(found))
        for place in (LIST, *places):
            self.make_folders(place)
        for item in items:
            self.marks[item.place] = mark_for(item)
            self.write()  # first, so that what an interrupted run put there is removed
            self.put(item)
        for place in old:
            self.take(place)
        self.write()
        return old

    def take(self, place: str) -> None:
        """Takes away what is at a place, and what Python compiled of it. Raises OSError."""
        path = self.prefix / place
        path.unlink(missing_ok=True)
        for compiled in path.parent.glob(f"__pycache__/{path.stem}.*.pyc"):
            compiled.unlink()
        with contextlib.suppress(OSError):
            (path.parent / "__pycache__").rmdir()
        del self.marks[place]

    def remove(self) -> list[str]:
        """Takes away what was installed, and the folders that were made for it and have nothing
        else in them: what stays, as it was changed since, a line each. Raises PrefixError, OSError.
        """
        if not self.marks:
            raise PrefixError(f"{self.prefix} has nothing from ./install")
        kept = []
        for place in [*self.marks]:
            found = self.hindrances([place])
            if found:
                kept += found
                del self.marks[place]
            else:
                self.take(place)
        (self.prefix / LIST).unlink()
        for folder in sorted(self.folders, key=len, reverse=True):
            with contextlib.suppress(OSError):
                (self.prefix / folder).rmdir()
        return kept

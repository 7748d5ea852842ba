"""What passed, on which sources, and how long it took: in files of out/check."""
import contextlib
import hashlib
import os
import pathlib
import subprocess
from collections.abc import Iterable

LISTED = ["git", "ls-files", "-z", "--cached", "--others", "--exclude-standard"]
LEFT_OUT = {"out", "__pycache__", ".git", ".hypothesis", ".mypy_cache"}
"""Folders of what is made, where git doesn't say which."""


def files_of(top: pathlib.Path) -> list[str]:
    """The files of a repository that git has or would add, by their paths in it, in their order;
    all but those of LEFT_OUT where it is none. Raises OSError.
    """
    if (top / ".git").exists():
        env = os.environ | {"GIT_OPTIONAL_LOCKS": "0"}
        ran = subprocess.run(LISTED, cwd=top, env=env, capture_output=True, check=True)
        return sorted({os.fsdecode(name) for name in ran.stdout.split(b"\0") if name})
    every = (it for it in top.rglob("*") if it.is_symlink() or it.is_file())
    names = (it.relative_to(top) for it in every)
    return sorted(str(name) for name in names if not LEFT_OUT & set(name.parts))


def mark_of(file: pathlib.Path) -> str:
    """What a file of the working tree is: the target of a link, or whether it can be run with the
    SHA-256 of its bytes, or `gone`. Raises OSError.
    """
    if file.is_symlink():
        return f"link {os.readlink(file)}"
    if not file.is_file():
        return "gone"
    is_run = "run" if os.access(file, os.X_OK) else "read"
    return f"{is_run} {hashlib.sha256(file.read_bytes()).hexdigest()}"


def digest_of(top: pathlib.Path, more: str = "") -> str:
    """A SHA-256 over the names and the marks of all files of a repository, and over a text. Raises
    OSError, and CalledProcessError where git fails.
    """
    made = hashlib.sha256(more.encode())
    for name in files_of(top):
        made.update(f"{name}\0{mark_of(top / name)}\n".encode(errors="surrogateescape"))
    return made.hexdigest()


class Passes:
    """The parts that passed on the same sources: each with how many of its tests, and its seconds.

    A line has a part's name, a count and seconds; the first line has the digest of the sources.
    """

    def __init__(self, file: pathlib.Path, sources: str) -> None:
        """Reads a file, whose lines are forgotten where its sources were others, or where they are
        none of these. Raises OSError.
        """
        self.file, self.sources = file, sources
        self.of: dict[str, tuple[int, float]] = {}
        with contextlib.suppress(FileNotFoundError, ValueError):
            head, *rows = file.read_text(encoding="utf-8").splitlines() or [""]
            words = [row.split() for row in rows if head == sources]
            self.of = {it[0]: (int(it[1]), float(it[2])) for it in words if len(it) == 3}

    def add(self, name: str, count: int, seconds: float) -> None:
        """A part has passed. Raises OSError."""
        self.of[name] = count, seconds
        self.write()

    def drop(self, name: str) -> None:
        """A part has to run again. Raises OSError."""
        if self.of.pop(name, None):
            self.write()

    def write(self) -> None:
        """Writes the file, whole. Raises OSError."""
        rows = [f"{name} {count} {seconds:.1f}" for name, (count, seconds) in self.of.items()]
        write_whole(self.file, "\n".join([self.sources, *rows, ""]))


class Seconds:
    """How long each part took when it last passed: a line has its name and its seconds."""

    def __init__(self, file: pathlib.Path, stored: pathlib.Path) -> None:
        """Reads a file, if there is one of these; what it hasn't is of a stored one. Raises
        OSError.
        """
        self.file = file
        self.of = seconds_in(stored) | seconds_in(file)

    def add(self, name: str, seconds: float) -> None:
        """A part took so long. Raises OSError."""
        self.of[name] = seconds
        self.write(self.file, [*self.of])

    def write(self, file: pathlib.Path, names: Iterable[str]) -> None:
        """Writes how long these took, as far as it is known, the longest first. Raises OSError."""
        known = sorted((it for it in names if it in self.of), key=lambda it: -self.of[it])
        write_whole(file, "".join(f"{it} {self.of[it]:.1f}\n" for it in known))


def seconds_in(file: pathlib.Path) -> dict[str, float]:
    """What a file has of them; nothing where there is none, or it is none of these. Raises OSError.
    """
    with contextlib.suppress(FileNotFoundError, ValueError):
        rows = [line.split() for line in file.read_text(encoding="utf-8").splitlines()]
        return {row[0]: float(row[1]) for row in rows if len(row) == 2}
    return {}


def write_whole(file: pathlib.Path, text: str) -> None:
    """Writes a file so that another process sees the old text or this one. Raises OSError."""
    begun = file.with_name(f".{file.name}.{os.getpid()}")
    begun.write_text(text, encoding="utf-8")
    os.replace(begun, file)

"""The texts of a repository."""
import functools
import pathlib
import subprocess

OTHERS = {".c", ".h", ".cpp", ".hpp", ".js"}
MADE = ("checks/promises.md", "docs/made/FIX_MESSAGES.md")
"""Lists that a command makes of the code, and that a test compares with what the command prints."""


class Tree:
    """The files of a repository by what they are, and their texts."""

    def __init__(self, top: pathlib.Path) -> None:
        self.top = top
        self.sources = sorted((top / "crates").glob("*/src/**/*.rt"))
        self.specs = sorted((top / "crates").glob("*/specs/**/*.antt"))
        self.proofs = sorted((top / "crates").glob("*/proofs/**/*.antt"))

    @functools.cached_property
    def files(self) -> list[pathlib.Path]:
        """All files that git has, or would add; all files where this is no repository."""
        words = ["git", "ls-files", "--cached", "--others", "--exclude-standard"]
        if (self.top / ".git").exists():
            listed = subprocess.run(words, cwd=self.top, capture_output=True, text=True, check=True)
            found = [self.top / name for name in listed.stdout.splitlines()]
            return [file for file in found if file.is_file()]
        every = (file for file in self.top.rglob("*") if file.is_file())
        return sorted(file for file in every if "out" not in file.relative_to(self.top).parts)

    @functools.cached_property
    def python(self) -> list[pathlib.Path]:
        """The files of Python: `*.py`, and scripts without a suffix whose first line names it."""
        return [
            file
            for file in self.files
            if file.suffix == ".py" or not file.suffix and self.is_script(file, b"python")
        ]

    @functools.cached_property
    def others(self) -> list[pathlib.Path]:
        """The files of C, C++ and JavaScript, and scripts without a suffix for a shell, but for
        those in folders that begin with a dot.
        """
        return [
            file
            for file in self.files
            if (file.suffix in OTHERS or not file.suffix and self.is_script(file, b"sh"))
            and not self.name(file).startswith(".")
        ]

    @functools.cached_property
    def documents(self) -> list[pathlib.Path]:
        """README, docs/ and the package's README, but for what is MADE."""
        found = [self.top / "README.md", *sorted((self.top / "docs").glob("*.md"))]
        found.append(self.top / "python/README.md")
        return [file for file in found if file.is_file() and file not in self.made]

    @functools.cached_property
    def made(self) -> list[pathlib.Path]:
        """The lists that are MADE."""
        return [file for file in (self.top / name for name in MADE) if file.is_file()]

    @functools.cached_property
    def lists(self) -> list[pathlib.Path]:
        """Those that are made, and what each wrong body means: they name what the code has."""
        meanings = sorted((self.top / "checks/wrong_bodies").glob("*/meanings.txt"))
        return [*self.made, *(file for file in meanings if file.is_file())]

    def is_script(self, file: pathlib.Path, language: bytes = b"") -> bool:
        """Whether a file begins with a line `#!`, which names this language."""
        with open(file, "rb") as begun:
            return begun.read(2) == b"#!" and language in begun.readline()

    def name(self, file: pathlib.Path) -> str:
        """The path of a file in the repository."""
        return str(file.relative_to(self.top))

    @functools.lru_cache(maxsize=None)
    def text(self, file: pathlib.Path) -> str:
        """The text of a file; empty where it is none. Raises OSError."""
        try:
            return file.read_text(encoding="utf-8")
        except UnicodeDecodeError:
            return ""

    def lines(self, file: pathlib.Path) -> list[str]:
        """The lines of a file. Raises OSError."""
        return self.text(file).split("\n")

    def crate(self, file: pathlib.Path) -> str:
        """The crate that a file belongs to."""
        return file.relative_to(self.top).parts[1]

    def is_of_function(self, file: pathlib.Path) -> bool:
        """Whether a file is in a folder of proofs/ that is named as a module, a type or a
        function.
        """
        return len(file.relative_to(self.top).parts) > 4 and file in self.proofs

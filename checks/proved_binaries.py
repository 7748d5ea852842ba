"""Which binaries a run of the test command was over: out/check/binaries.json, which `./release`
reads. The runner calls `write` at its end, where the gate has run.
"""
import dataclasses
import hashlib
import json
import os
import pathlib
import shutil
import subprocess
import tempfile
from collections.abc import Mapping, Sequence

import built

WRITTEN = built.TOP / "out/check/binaries.json"
GATE = "ci"
"""The part that proves and builds from nothing."""
SONAME, ARCHIVE = "libcallauction.so.1", "libcallauction.a"


class BadGateError(Exception):
    """There is no gate that holds of these binaries; the text says why."""


@dataclasses.dataclass(frozen=True)
class Gate:
    """A run of the test command: the commit that was checked out, the tree of all files as they
    were, the SHA-256 of what was built, the last line, the kit, and the parts that ran.
    """

    commit: str
    tree: str
    files: dict[str, str]
    result: str
    kit: str
    parts: tuple[str, ...]

    @classmethod
    def read(cls, path: pathlib.Path) -> "Gate":
        """What a run wrote. Raises BadGateError where there is none."""
        try:
            found = json.loads(path.read_text(encoding="utf-8"))
            texts = {name: str(found[name]) for name in ("commit", "tree", "result", "kit")}
            files = {str(name): str(it) for name, it in dict(found["files"]).items()}
            return cls(**texts, files=files, parts=tuple(found["parts"]))
        except FileNotFoundError:
            raise BadGateError("the gate was not run on this tree: ./check") from None
        except (OSError, ValueError, KeyError, TypeError):
            raise BadGateError(f"{path} isn't what ./check writes") from None

    def check(self, tree: str, files: Mapping[str, pathlib.Path], parts: Sequence[str]) -> None:
        """Raises BadGateError where it doesn't hold of this tree and these files, or not all parts
        ran, or one failed; and OSError.
        """
        if not self.result.endswith(" passed, 0 failed"):
            raise BadGateError(f"the gate failed: {self.result}")
        if lacking := [name for name in parts if name not in self.parts]:
            raise BadGateError(f"the gate didn't run {', '.join(lacking)}: ./check")
        if self.tree != tree:
            raise BadGateError(f"the gate was run on another tree, of {self.commit}: ./check")
        for name, path in files.items():
            if self.files.get(name) != sha256(path):
                raise BadGateError(f"{path} is not the {name} over which the gate was run")


def sha256(path: pathlib.Path) -> str:
    """The SHA-256 of a file, in hexadecimal digits. Raises OSError."""
    return hashlib.sha256(path.read_bytes()).hexdigest()


def binaries() -> dict[str, pathlib.Path]:
    """What the test command has built, by its names."""
    return {
        "callboard": built.PROGRAM,
        SONAME: built.LIBRARY / SONAME,
        ARCHIVE: built.LIBRARY / ARCHIVE,
    }


def output_of(*words: str, env: dict[str, str] | None = None) -> str:
    """What a command prints, in the repository. Raises CalledProcessError, OSError."""
    ran = subprocess.run(
        words, cwd=built.TOP, env=os.environ | (env or {}), capture_output=True, text=True,
        check=True,
    )
    return ran.stdout.strip()


def tree_of_files() -> str:
    """The number by which git knows all files as they are now, changed and new ones too. Raises
    CalledProcessError, OSError.
    """
    with tempfile.TemporaryDirectory() as folder:
        index = {"GIT_INDEX_FILE": f"{folder}/index"}
        output_of("git", "read-tree", "HEAD", env=index)
        output_of("git", "add", "--all", ".", env=index)
        return output_of("git", "write-tree", env=index)


def write(result: str, parts: Sequence[str], path: pathlib.Path = WRITTEN) -> bool:
    """Writes what a run was over, where the gate was among its parts: whether it was. Raises
    CalledProcessError, OSError.
    """
    if GATE not in parts:
        return False
    gate = Gate(
        output_of("git", "rev-parse", "HEAD"),
        tree_of_files(),
        {name: sha256(file) for name, file in binaries().items() if file.is_file()},
        result,
        output_of("rt", "version") if shutil.which("rt") else "no rt on the path",
        tuple(parts),
    )
    path.parent.mkdir(parents=True, exist_ok=True)
    begun = path.with_suffix(".new")
    begun.write_text(json.dumps(dataclasses.asdict(gate), indent=1) + "\n", encoding="utf-8")
    begun.rename(path)
    return True

"""No command writes to a file that it reads: the evidence stays as it was, by whichever path, link
or open file it is named, and nothing is written.
"""
import os
import shutil
import subprocess
import sys
from pathlib import Path

import pytest
from callauction.__main__ import main
from callauction.verdict import shapes
from desk import OPENING

TERMS = ["--reference", "20.05", "--tick-size", "0.005"]
DAY = [*TERMS, "--auctions", "opening"]


def named(path: Path, how: str) -> str:
    """Another name of a file."""
    other = path.with_name(f"other-{path.name}")
    if how == "link":
        other.symlink_to(path)
    elif how == "hard link":
        os.link(path, other)
    elif how == "point":
        return f"{path.parent}/./{path.name}"
    elif how == "folder":
        folder = path.with_name("folder")
        folder.symlink_to(path.parent)
        return str(folder / path.name)
    return str(path if how == "itself" else other)


@pytest.fixture
def files(tmp_path: Path) -> dict[str, Path]:
    """An extract, its results in a file of their own, its days and a shape, which are all read."""
    lines = OPENING.splitlines(keepends=True)
    texts = {
        "day.csv": OPENING, "book.csv": "".join(lines[:-1]), "published.csv": lines[0] + lines[-1],
        "isins.csv": "".join(f"{'isin' if at == 0 else 'X'},{it}" for at, it in enumerate(lines)),
        "days.csv": "isin,reference,tick_size\nX,20.05,0.005\n", "worth.csv": "order,value\n1,1\n",
    }  # fmt: skip
    for name, text in texts.items():
        (tmp_path / name).write_text(text)
    shutil.copy(shapes.path_of("fix"), tmp_path / "shape.toml")
    return {path.name: path for path in tmp_path.iterdir()}


def refused(words: list[object], folder: Path, capsys: pytest.CaptureFixture[str]) -> str:
    """What a command line prints that is refused and changes no file."""
    before = {path: path.read_bytes() for path in folder.iterdir() if path.is_file()}
    assert main([*map(str, words)]) == 2
    assert {path: path.read_bytes() for path in folder.iterdir() if path.is_file()} == before
    printed = capsys.readouterr()
    assert printed.out == "" and printed.err.count("\n") == 1
    return printed.err


@pytest.mark.parametrize("how", ["itself", "point", "link", "hard link", "folder"])
@pytest.mark.parametrize("command, option", [
    ("audit", "-o"), ("audit", "--findings"), ("audit-auction", "-o"),
    ("audit-auction", "--findings"), ("report", "-o"), ("plot", "-o"), ("convert", "-o"),
    ("convert", "--orders"),
])  # fmt: skip
def test_a_file_that_is_read_is_not_written(
    command: str, option: str, how: str, files: dict[str, Path], tmp_path: Path,
    capsys: pytest.CaptureFixture[str],
) -> None:  # fmt: skip
    known: dict[str, list[str]] = {"plot": [], "convert": TERMS}
    words = known.get(command, DAY)
    output = ["-o", tmp_path / "new.csv"] if option == "--orders" else []
    path = named(files["day.csv"], how)
    said = refused([command, files["day.csv"], *words, *output, option, path], tmp_path, capsys)
    assert "would overwrite the file that is read" in said
    assert not (tmp_path / "new.csv").exists()


@pytest.mark.parametrize("name, words", [
    ("days.csv", ["audit", "isins.csv", "--by", "isin", "--days", "days.csv"]),
    ("days.csv", ["report", "isins.csv", "--by", "isin", "--days", "days.csv"]),
    ("shape.toml", ["audit", "day.csv", *DAY, "--shape", "shape.toml"]),
    ("published.csv", ["audit-auction", "book.csv", *DAY, "--published", "published.csv"]),
    ("worth.csv", ["report", "day.csv", *DAY, "--worth", "worth.csv"]),
])  # fmt: skip
def test_other_files_that_are_read_are_not_written(
    name: str, words: list[str], files: dict[str, Path], tmp_path: Path,
    capsys: pytest.CaptureFixture[str],
) -> None:  # fmt: skip
    given: list[object] = [files.get(word, word) for word in words]
    if name == "shape.toml":
        new = tmp_path / "new.csv"
        shutil.copy(files[name], new)  # the ending of what is written is csv
        files[name].unlink()
        given[-1], files[name] = new, new
    assert "would overwrite the " in refused([*given, "-o", files[name]], tmp_path, capsys)


def test_two_files_that_are_written_are_two(
    files: dict[str, Path], tmp_path: Path, capsys: pytest.CaptureFixture[str]
) -> None:
    new = tmp_path / "new.csv"
    words: list[object] = ["audit", files["day.csv"], *DAY, "-o", new]
    words += ["--findings", f"{tmp_path}/./new.csv"]
    assert "would overwrite --output" in refused(words, tmp_path, capsys)
    assert not new.exists()


def test_standard_input_is_a_file_too(files: dict[str, Path], tmp_path: Path) -> None:
    """A shell opens it: to be read, and to be written at its end."""
    path = files["day.csv"]
    words = [sys.executable, "-m", "callauction", "audit"]
    for file, is_appended, more in (("-", True, ""), (path, True, ""), ("-", False, f"-o={path}")):
        with path.open("rb") as read, path.open("ab") as written:
            ran = subprocess.run(
                [*words, str(file), *DAY, *more.split("=")] if more else [*words, str(file), *DAY],
                stdin=read, stdout=written if is_appended else subprocess.PIPE,
                stderr=subprocess.PIPE, text=True,
            )  # fmt: skip
        assert ran.returncode == 2 and "would overwrite the file that is read" in ran.stderr
        assert path.read_text() == OPENING


def test_a_device_may_be_read_and_written(
    files: dict[str, Path], tmp_path: Path, capsys: pytest.CaptureFixture[str]
) -> None:
    assert main(["audit", str(files["day.csv"]), *DAY, "-o", "/dev/null"]) == 5
    assert main(["audit", "/dev/null", *DAY, "-o", "/dev/null"]) == 1

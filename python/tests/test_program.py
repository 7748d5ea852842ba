"""Where the program is found, and what is said where it isn't."""
import shutil
import stat
from pathlib import Path

import pytest
from callauction import finder, program
from callauction.program import BadDayError, Day, FailedError


def script(path: Path, text: str) -> Path:
    path.write_text(f"#!/bin/sh\n{text}\n", encoding="ascii")
    path.chmod(path.stat().st_mode | stat.S_IXUSR)
    return path


def test_the_variable_comes_before_the_path(
    tmp_path: Path, monkeypatch: pytest.MonkeyPatch
) -> None:
    on_path = script(tmp_path / "callboard", "echo path")
    named = script(tmp_path / "other", "echo named")
    monkeypatch.setenv("PATH", str(tmp_path), prepend=":")
    monkeypatch.setenv(finder.VARIABLE, str(named))
    assert Day(b"").printed() == "named\n"
    monkeypatch.delenv(finder.VARIABLE)
    held = script(tmp_path / "held", "echo held")
    monkeypatch.setattr(finder, "HELD", held)
    assert program.found_program() == str(held)
    monkeypatch.setattr(finder, "HELD", tmp_path / "none")
    assert program.found_program() == str(on_path)


def test_else_it_is_the_one_of_the_repository(
    tmp_path: Path, monkeypatch: pytest.MonkeyPatch
) -> None:
    monkeypatch.delenv(finder.VARIABLE, raising=False)
    monkeypatch.setenv("PATH", str(tmp_path))
    monkeypatch.setattr(finder, "HELD", tmp_path / "none")
    monkeypatch.setattr(finder, "BUILT", tmp_path / "callboard")
    with pytest.raises(FailedError, match="^there is no program callboard: build it"):
        program.found_program()
    built = script(tmp_path / "callboard", "exit 0")
    assert program.found_program() == str(built)


def test_a_name_without_a_program_is_told(tmp_path: Path, monkeypatch: pytest.MonkeyPatch) -> None:
    monkeypatch.setenv(finder.VARIABLE, str(tmp_path / "none"))
    with pytest.raises(FailedError, match="^CALLBOARD names no program: ") as none:
        Day(b"").printed()
    assert none.value.status == 3


@pytest.mark.parametrize("status, text", [(3, "out of memory"), (3, "write failed")])
def test_a_run_that_failed_is_told(
    tmp_path: Path, monkeypatch: pytest.MonkeyPatch, status: int, text: str
) -> None:
    failing = script(tmp_path / "x", f"echo {text} >&2; exit {status}")
    monkeypatch.setenv(finder.VARIABLE, str(failing))
    with pytest.raises(FailedError, match=f"^{text}$") as failed:
        Day(b"1,ask\n").printed("book")
    assert failed.value.status == status
    monkeypatch.setenv(finder.VARIABLE, str(script(tmp_path / "x", "kill -9 $$")))
    with pytest.raises(FailedError, match="ended with status -9"):
        Day(b"").printed()


def test_the_program_says_what_a_journal_is() -> None:
    assert shutil.which(program.found_program())
    assert Day(b"day,1,9,5,4,9,9,\n").is_journal()
    assert not Day(b"1,ask\n").is_journal()
    assert not Day(b"").is_journal()
    with pytest.raises(program.BadFileError, match="record 2"):
        Day(b"day,1,9,5,4,9,9,\nx\n").is_journal()
    with pytest.raises(BadDayError):
        Day(b"day,9,1,5,4,9,9,\n").is_journal()


def test_options_are_words() -> None:
    assert program.words_of({"low": 2, "range": None, "calls": 3}) == ("--low", "2", "--calls", "3")
    with pytest.raises(TypeError):
        program.words_of({"low": 2.0})  # type: ignore[dict-item]

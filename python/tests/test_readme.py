"""The ten lines of README.md run, and print what it says."""
import re
from pathlib import Path

import pytest
from callauction import RecordedAuction, Side
from printed import TOP

README = TOP / "python/README.md"


def blocks() -> list[str]:
    """The indented blocks of README.md, without their indent."""
    found = re.findall(r"(?:^    .*\n|^\n(?=    ))+", README.read_text(encoding="utf-8"), re.M)
    return [re.sub(r"^    ", "", block, flags=re.M).strip() for block in found]


def test_the_ten_lines_print_what_is_said(
    tmp_path: Path, monkeypatch: pytest.MonkeyPatch, capsys: pytest.CaptureFixture[str]
) -> None:
    monkeypatch.chdir(tmp_path)
    place = [block.startswith("from callauction import RecordedAuction") for block in blocks()]
    code, printed = blocks()[place.index(True) : place.index(True) + 2]
    exec(compile(code, "README.md", "exec"), {})
    assert capsys.readouterr().out.strip() == printed
    drawn = (tmp_path / "book.svg").read_text(encoding="utf-8")
    stored = (README.parent / "book.svg").read_text(encoding="utf-8")
    assert paths(drawn) == paths(stored)


def test_a_saved_day_is_gone_on_with(tmp_path: Path, monkeypatch: pytest.MonkeyPatch) -> None:
    monkeypatch.chdir(tmp_path)
    with RecordedAuction() as auction:
        auction.save("day.csv")
    (code,) = (block for block in blocks() if "RecordedAuction.resumed" in block)
    exec(compile(code, "README.md", "exec"), {"RecordedAuction": RecordedAuction, "Side": Side})
    saved = (tmp_path / "day.csv").read_text(encoding="ascii").splitlines()
    assert saved[1:] == ["1,enter,bid,100,200,entered 1"]


def paths(picture: str) -> list[str]:
    """The lines of a picture."""
    return re.findall(r' d="([^"]*)"', picture)

"""docs/AUDIT.md: its extract is the stored one, and prints what the page says."""
import csv
import pathlib
import re

import pytest
from callauction.__main__ import main
from extracts import TOP

PAGE = TOP / "docs/AUDIT.md"
EXTRACT = TOP / "examples/extracts/german.csv"
MOST_BYTES = 8_000


def indented(text: str) -> str:
    return "".join(f"    {line}\n" for line in text.splitlines())


def test_the_page_shows_the_stored_extract_and_its_verdict(
    capsys: pytest.CaptureFixture[str],
) -> None:
    page = PAGE.read_text(encoding="utf-8")
    assert len(page.encode()) <= MOST_BYTES
    words = EXTRACT.with_suffix(".args").read_text(encoding="utf-8").split()
    assert main(["audit", str(EXTRACT), *words]) == 4
    printed = capsys.readouterr().out
    assert printed == EXTRACT.with_suffix(".txt").read_text(encoding="utf-8")
    assert indented(printed) in page
    extract = EXTRACT.read_text(encoding="utf-8")
    assert indented(extract) in page and len(extract.splitlines()) == 10
    begin = "    python3 -P -m callauction"
    [command] = [part for part in page.split("\n\n") if part.startswith(begin)]
    shown = command.replace("\\\n", " ").replace("'", "").split()
    assert shown[:5] == ["python3", "-P", "-m", "callauction", "audit"]
    assert shown[5:] == ["examples/extracts/german.csv", *words]


def test_the_columns_of_findings_are_described(tmp_path: pathlib.Path) -> None:
    page = (TOP / "examples/README.md").read_text(encoding="utf-8")
    table = page.partition("## Findings in a file\n")[2]
    cells = [line.split("|")[1] for line in table.splitlines() if line.startswith("| `")]
    words = EXTRACT.with_suffix(".args").read_text(encoding="utf-8").split()
    found = tmp_path / "found.csv"
    assert main(["audit", str(EXTRACT), *words, "--findings", str(found)]) == 4
    [header, *rows] = csv.reader(found.read_text(encoding="utf-8").splitlines())
    assert header == re.findall("`(.*?)`", "".join(cells)) and rows

"""The package as a module: its names, its version, signatures, and what its objects say of
themselves.
"""
import inspect
import os
import subprocess
import sys
from pathlib import Path

import callauction
import pytest
from callauction import Auction, RecordedAuction, Side, finder, library, program, statuses
from callauction import verdict
from callauction.journal import from_frame
from callauction.verdict import findings
from small_days import ADLER_AND_BIRK, small_day, verdict_of


def printed(code: str) -> str:
    words = [sys.executable, "-P", "-c", code]
    ran = subprocess.run(words, capture_output=True, text=True, check=True)
    return ran.stdout.strip()


def test_a_name_is_kept_after_the_first_look_and_is_in_dir() -> None:
    code = (
        "import callauction as c; names = dir(c); print('Side' in vars(c), 'Side' in names, "
        "'verdict' in names, c.Side is c.Side, 'Side' in vars(c), set(c.__all__) <= set(names))"
    )
    assert printed(code) == "False True True True True True"
    with pytest.raises(AttributeError, match="has no attribute 'Sides'"):
        callauction.Sides


def test_all_names_are_there() -> None:
    for name in callauction.__all__:
        assert getattr(callauction, name) is vars(callauction)[name]


def test_an_audit_needs_no_library() -> None:
    code = (
        "import sys; sys.modules['callauction._native'] = None\n"
        "import callauction.__main__, callauction.verdict.page, callauction.market\n"
        "from callauction import audit_auction, audit_events\n"
        "print(audit_events.__module__)"
    )
    assert printed(code) == "callauction.verdict.audits"


@pytest.mark.parametrize("name, words", [
    ("tqdm", ["report", "-o", "day.html"]), ("pandas", ["audit"]), ("pandas", ["--help"]),
    ("numpy", ["audit", "--help"]),
])  # fmt: skip
def test_a_module_that_is_missing_is_named_in_one_line(
    name: str, words: list[str], tmp_path: Path
) -> None:
    missing = f"No module named '{name}'"
    (tmp_path / f"{name}.py").write_text(f'raise ModuleNotFoundError("{missing}", name="{name}")\n')
    orders = Path(__file__).resolve().parents[2] / "examples/opening.csv"
    words = [*words, str(orders)] if "--help" not in words else words
    folders = [str(tmp_path), *filter(None, [os.environ.get("PYTHONPATH")])]
    environment = os.environ | {"PYTHONPATH": os.pathsep.join(folders)}
    ran = subprocess.run(
        [sys.executable, "-P", "-m", "callauction", *words],
        cwd=tmp_path, capture_output=True, text=True, env=environment,
    )  # fmt: skip
    assert (ran.returncode, ran.stdout) == (3, "")
    said = f"{missing}: Debian has it in python3-{name}, or pip install {name}"
    assert ran.stderr == f"callauction: {said}\n"


NEEDING = [
    "from callauction import Auction",
    "import callauction.board",
    "from callauction import reply_of",
    "from callauction.lesson import show",
]


@pytest.mark.parametrize("code", NEEDING)
def test_without_a_library_a_sentence_says_what_to_run(code: str) -> None:
    """As with PYTHONPATH=python in the repository, where no library is built."""
    caught = f"try:\n    {code}\nexcept ModuleNotFoundError as fault:\n    print(fault.name, fault)"
    folder = Path(__file__).resolve().parents[1]
    words = [sys.executable, "-P", "-c", caught]
    ran = subprocess.run(
        words, capture_output=True, text=True, check=True, env={"PYTHONPATH": str(folder)}
    )
    assert ran.stdout == (
        f"callauction._native {folder}/callauction has no built library: run `library/build "
        "/tmp/callauction && python/build /tmp/callauction /tmp/python` in the repository and set "
        "PYTHONPATH=/tmp/python, or install the wheel\n"
    )


def test_without_a_library_a_command_line_says_what_to_run_in_one_line(tmp_path: Path) -> None:
    folder = Path(__file__).resolve().parents[1]
    orders = folder.parent / "examples/opening.csv"
    words = [sys.executable, "-P", "-m", "callauction", "plot", str(orders), "--course", "-o"]
    environment = {"PYTHONPATH": str(folder), "CALLBOARD": str(finder.program_path())}
    ran = subprocess.run(
        [*words, str(tmp_path / "course.svg")], capture_output=True, text=True, env=environment
    )
    assert (ran.returncode, ran.stdout) == (3, "")
    [line] = ran.stderr.splitlines()
    assert line.startswith(f"callauction: {folder}/callauction has no built library: run `")


def test_a_shown_command_passes_over_the_modules_of_a_strangers_folder(tmp_path: Path) -> None:
    top = Path(__file__).resolve().parents[2]
    pages = [top / "README.md", *top.glob("docs/*.md"), *top.glob("*/README.md")]
    for page in pages:
        assert "python3 -m callauction" not in page.read_text(encoding="utf-8"), page
    for name in ("csv", "json", "pandas"):
        (tmp_path / f"{name}.py").write_text("raise SystemExit(9)\n", encoding="utf-8")
    environment = {"PYTHONPATH": str(top / "python")}
    for option, status in (("-P", 0), ("-B", 9)):
        words = [sys.executable, option, "-m", "callauction", "audit", "--help"]
        ran = subprocess.run(words, cwd=tmp_path, env=environment, capture_output=True)
        assert ran.returncode == status


def test_a_library_for_another_python_is_named(tmp_path: Path) -> None:
    (tmp_path / "_native.cpython-39-x86_64-linux-gnu.so").touch()
    assert library.missing(tmp_path).startswith(
        f"the library of {tmp_path}, _native.cpython-39-x86_64-linux-gnu.so, is built for another "
        "Python than this 3.11: use /usr/bin/python3, or run `library/build "
    )


def test_the_version_is_that_of_the_program() -> None:
    options = Path(__file__).resolve().parents[2] / "crates/settings/src/options.rt"
    assert f'"{callauction.__version__}";' in options.read_text(encoding="utf-8")


def test_signatures_are_real() -> None:
    wanted = "(low: int = 1, high: int = 1000, reference: int = 200, max_open: int = 4096, "
    wanted += "max_calls: int = 65536, range: int | None = None, reserve: int = 0)"
    for opened in (Auction, RecordedAuction):
        assert str(inspect.signature(opened)).startswith(wanted)

    class Small(Auction):
        def __init__(self, high: int) -> None:
            super().__init__(high=high)

    assert str(inspect.signature(Small)) == "(high: int) -> None"
    assert Small(300).config.high == 300


def test_objects_say_what_they_are() -> None:
    with Auction(range=5) as auction:
        auction.enter(1, Side.BID, 5, 5)
        text = "<Auction low 1 high 1000 reference 200 range 5: calls 1 of 65536>"
        assert repr(auction) == text
    assert repr(auction) == "<Auction: the object holds no auction>"
    with RecordedAuction() as recorded:
        text = "<RecordedAuction of <Auction low 1 high 1000 reference 200: calls 0 of 65536>>"
        assert repr(recorded) == text
    journal = from_frame(ADLER_AND_BIRK, "0.01", reference="19.90")
    assert repr(journal) == "<Journal of 8 entries and 3 orders>"
    assert repr(program.Day(b"1,ask\n", ("--low", "5"))) == "<Day 6 bytes --low 5>"
    found = verdict_of(small_day())
    assert repr(found).startswith("<Verdict lawful: findings 0, prices 3 of 3, volumes 2 of 2, ")
    assert verdict.Verdict is type(found)


def test_the_statuses_are_one_table() -> None:
    assert program.BadFileError("x").status == statuses.BAD_FILE == 1
    assert program.BadDayError("x").status == statuses.BAD_DAY == 2
    assert program.FailedError("x").status == statuses.FAILED == 3
    found = {findings.LAWFUL: 0, findings.UNLAWFUL: 4, findings.INCOMPLETE: 5}
    assert findings.STATUSES == found
    assert (statuses.DONE, statuses.UNLAWFUL, statuses.INCOMPLETE) == (0, 4, 5)

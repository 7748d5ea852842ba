"""build/costs over a toolchain that is played: what it prints, keeps, and refuses."""
import importlib.machinery
import importlib.util
import pathlib
import sys
from types import ModuleType

import pytest

TOP = pathlib.Path(__file__).resolve().parents[2]

PLAYED = """
import sys, time
if "--stage-times" in sys.argv:
    with open(sys.argv[sys.argv.index("--stage-times") + 1], "w") as stages:
        stages.write("stage batches 1.0")
time.sleep(0.2)
end = time.process_time()
for name, seconds in (("low::cheap", 0.05), ("low::dear", 0.4)):
    end += seconds
    while time.process_time() < end:
        pass
    print(f"checked {name}, 1 of 2", flush=True)
    time.sleep(0.1)
sys.exit("--failing" in sys.argv)
"""
"""Two functions, the second of which has eight times the processor's seconds of the first."""


@pytest.fixture
def costs(tmp_path: pathlib.Path, monkeypatch: pytest.MonkeyPatch) -> ModuleType:
    """The command's module, over a repository with the crates `low` and `high`, none of them built,
    and a toolchain that answers any check as PLAYED does.
    """
    monkeypatch.syspath_prepend(str(TOP / "build"))
    loader = importlib.machinery.SourceFileLoader("costs", str(TOP / "build/costs"))
    spec = importlib.util.spec_from_loader("costs", loader)
    assert spec is not None
    module = importlib.util.module_from_spec(spec)
    loader.exec_module(module)
    (tmp_path / "crates.txt").write_text("low:\nhigh: low\n")
    for name in ("low", "high"):
        (tmp_path / "crates" / name / "src").mkdir(parents=True)
        (tmp_path / "crates" / name / "src/lib.rt").write_text("fn f() {}\n")
    monkeypatch.setattr(module, "TOP", tmp_path)
    monkeypatch.setattr(module, "KEPT", tmp_path / "out/costs")
    monkeypatch.setattr(module.toolchain, "words", lambda *_: [sys.executable, "-c", PLAYED])
    return module


def status(costs: ModuleType, monkeypatch: pytest.MonkeyPatch, *words: str) -> int:
    """The status of the command with these words."""
    monkeypatch.setattr(sys, "argv", ["build/costs", *words])
    return int(costs.main())


def test_the_dearest_come_first(
    costs: ModuleType, monkeypatch: pytest.MonkeyPatch, capsys: pytest.CaptureFixture[str]
) -> None:
    assert status(costs, monkeypatch, "low") == 0
    printed = capsys.readouterr()
    rows = [line.split("|")[1:-1] for line in printed.out.splitlines() if "low" in line]
    assert [row[0].strip() for row in rows] == ["low::dear", "low::cheap", "low"]
    dear, cheap = (float(row[1]) for row in rows[:2])
    assert 0.2 <= dear < 1 and cheap < dear / 2
    assert rows[2][1].strip() == "2" and float(rows[2][3]) == dear
    assert printed.err == "low: 2 functions\n"


def test_what_was_measured_is_kept_till_a_source_changes(
    costs: ModuleType, monkeypatch: pytest.MonkeyPatch, capsys: pytest.CaptureFixture[str]
) -> None:
    asked: list[list[str]] = []
    kept = costs.measure

    def measured(name: str, has_tests: bool) -> dict[str, float]:
        asked.append([name, str(has_tests)])
        return dict(kept(name, has_tests))

    monkeypatch.setattr(costs, "measure", measured)
    for words in (["low"], ["low"], ["--tests", "low"], ["--tests", "low"], ["--again", "low"]):
        assert status(costs, monkeypatch, *words) == 0
    (costs.TOP / "crates/low/src/lib.rt").write_text("fn g() {}\n")
    assert status(costs, monkeypatch, "low") == 0
    assert asked == [["low", it] for it in ("False", "True", "False", "False")]
    files = {file.name for file in costs.KEPT.iterdir() if file.suffix == ".txt"}
    assert files == {"low.txt", "low-tests.txt"}


def test_tests_are_asked_for(costs: ModuleType, monkeypatch: pytest.MonkeyPatch) -> None:
    script = PLAYED + "\nassert ('--test' in sys.argv) == ('--wanted' in sys.argv)"
    script = script.replace('sys.exit("--failing" in sys.argv)', "")
    for words, wanted in ((["low"], []), (["--tests", "low"], ["--wanted"])):
        played = [sys.executable, "-c", script, *wanted]
        monkeypatch.setattr(costs.toolchain, "words", lambda *_, played=played: [*played])
        assert status(costs, monkeypatch, *words) == 0


def test_what_cannot_be_measured_is_said(
    costs: ModuleType, monkeypatch: pytest.MonkeyPatch, capsys: pytest.CaptureFixture[str]
) -> None:
    assert status(costs, monkeypatch, "none") == 1
    assert "crates.txt has no crate none" in capsys.readouterr().err
    assert status(costs, monkeypatch, "high") == 1
    assert "low isn't built: build/program.py low" in capsys.readouterr().err
    failing = [sys.executable, "-c", PLAYED, "--failing"]
    monkeypatch.setattr(costs.toolchain, "words", lambda *_: failing)
    assert status(costs, monkeypatch, "low") == 1
    assert "low isn't proved: see" in capsys.readouterr().err
    (costs.TOP / "crates.txt").unlink()
    assert status(costs, monkeypatch, "low") == 2

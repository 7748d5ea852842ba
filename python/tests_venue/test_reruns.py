"""Tests that look at a clock are tried again, and others aren't."""
import pathlib
import subprocess
import sys

TOP = pathlib.Path(__file__).resolve().parent.parent.parent
PLANTED = """
import pytest
import counts

tries: list[int] = []


@pytest.mark.flaky(reruns=2)
def test_late_once() -> None:
    tries.append(1)
    assert len(tries) == 2


@pytest.mark.flaky(reruns=2)
def test_late_each_time() -> None:
    assert not "in time"


def test_wrong() -> None:
    assert not "right"
"""
RUN = "import sys, counts, pytest; pytest.main(sys.argv[1:], plugins=[counts.Counts()])"


def test_what_is_tried_again(tmp_path: pathlib.Path) -> None:
    (tmp_path / "test_planted.py").write_text(PLANTED)
    words = [sys.executable, "-B", "-c", RUN, "-q", "-p", "no:cacheprovider", str(tmp_path)]
    env = {"PYTHONPATH": str(TOP / "checks"), "PATH": "/usr/bin:/bin"}
    ran = subprocess.run(words, cwd=tmp_path, env=env, capture_output=True, text=True)
    lines = ran.stdout.splitlines()
    again = [line.split(": ")[1] for line in lines if line.startswith("tried again: ")]
    late = ["test_planted.py::test_late_once", "test_planted.py::test_late_each_time"]
    assert again == [late[0], late[1], late[1]], ran.stdout
    assert lines[-1] == "1 passed, 2 failed"

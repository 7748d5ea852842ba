"""The order in which a worker runs the program on its files."""
import errno
import os
import pathlib
from collections.abc import Iterator

import pytest
from callauction.market import task, workers
from callauction.market.processes import AHEAD
from conftest import DONE, write

SPANS = """#!/bin/sh
# Runs the program, and writes down when it begins and ends, with its words.
echo "begins $*" >> "{spans}"
"{program}" "$@"
status=$?
echo "ends $*" >> "{spans}"
exit $status
"""
NAMES = ("A", "B", "C", "D")
BAD = {"1 is bad": "1,enter,bid,5\n", "3 is bad": ""}


@pytest.fixture
def spanned(program: str, tmp_path: pathlib.Path) -> pathlib.Path:
    """The program, with a file `spans` beside it that says when it began and ended."""
    path = tmp_path / "bin" / "spanned"
    path.parent.mkdir()
    path.write_text(SPANS.format(program=program, spans=path.with_name("spans")))
    path.chmod(0o755)
    return path


@pytest.mark.parametrize("forms", [("audit",), ("results", "trades"), ("audit", "lines", "book")])
def test_one_run_ends_before_the_next_begins(
    forms: tuple[str, ...], spanned: pathlib.Path, tmp_path: pathlib.Path
) -> None:
    texts = {name: f"day,1,1000,200,64,16,16,\n{DONE}" for name in NAMES}
    paths = write(tmp_path / "journals", texts)
    found = workers.examine(paths, task.Request(forms, str(spanned)))
    assert [each.row.instrument for each in found] == [*NAMES]
    assert all(each.row.fault is None and each.row.seconds for each in found)
    lines = spanned.with_name("spans").read_text().splitlines()
    assert len(lines) == 2 * len(forms) * len(NAMES)
    for begin, end in zip(lines[::2], lines[1::2]):
        assert begin.startswith("begins ") and end == "ends " + begin.removeprefix("begins ")


def test_bad_files_stand_where_they_were_asked(program: str, tmp_path: pathlib.Path) -> None:
    texts = {name: f"day,1,1000,200,64,16,16,\n{DONE}" for name in NAMES} | BAD
    paths = write(tmp_path / "journals", dict(sorted(texts.items())))
    paths.insert(2, str(tmp_path / "none.csv"))
    paths.append(str(tmp_path))
    found = workers.examine(paths, task.Request(("results",), program))
    assert [each.row.instrument for each in found] == [
        pathlib.Path(path).name.removesuffix(".csv") for path in paths
    ]
    faults = {each.row.instrument: each.row.fault for each in found if each.row.fault}
    assert {*faults} == {*BAD, "none", tmp_path.name}
    assert faults["none"] == "No such file or directory"


@pytest.mark.parametrize("places", [[], [0], [1], [3, 12], [6]])
@pytest.mark.parametrize("forms", [("audit",), ("audit", "lines", "book")])
def test_a_worker_never_waits_for_a_path_that_isnt_given_yet(
    forms: tuple[str, ...], places: list[int], program: str, tmp_path: pathlib.Path
) -> None:
    texts = {name: f"day,1,1000,200,64,16,16,\n{DONE}" for name in NAMES} | BAD
    paths = write(tmp_path / "journals", texts)
    for place in places:
        paths[place:place] = [str(tmp_path / f"none {place} {each}.csv") for each in range(5)]
    done: list[str] = []

    def given() -> Iterator[str]:
        for place, path in enumerate(paths):
            assert place < len(done) + AHEAD
            yield path

    for path, *_ in task.examine_each(given(), task.Request(forms, program)):
        done.append(path)
    assert sorted(done) == sorted(paths)


def test_a_kernel_that_tells_no_end_is_asked_in_turns(
    program: str, tmp_path: pathlib.Path, monkeypatch: pytest.MonkeyPatch
) -> None:
    def refused(number: int) -> int:
        raise OSError(errno.ENOSYS, "Function not implemented")

    monkeypatch.setattr(os, "pidfd_open", refused)
    paths = write(tmp_path / "journals", {"A": f"day,1,1000,200,64,16,16,\n{DONE}"})
    (found,) = workers.examine(paths, task.Request(("results",), program))
    assert (found.row.fault, found.row.entries, found.row.day) == (None, 3, "over")

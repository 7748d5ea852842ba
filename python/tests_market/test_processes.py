"""Workers on this machine: what a start imports, which files they get, and how they answer."""
import os
import pathlib
import subprocess
import sys

import pytest
from callauction import market
from conftest import DONE, PACKAGE, columns, runs_of, write

EMPTY_DAY = "day,1,9,5,4,9,9,\n"
LONG = 100_000
SAYS_MUCH = f"""#!/bin/sh
head -c {LONG} /dev/zero | tr '\\0' x >&2
exit 9
"""
SLOW_TO_IMPORT = {
    "callauction.market.worker": ["dataclasses", "pathlib", "socket", "tempfile"],
    "callauction.market.__main__": ["logging", "socket", "tempfile", "tqdm"],
}


@pytest.mark.parametrize("module", SLOW_TO_IMPORT)
def test_a_start_imports_little(module: str) -> None:
    words = [sys.executable, "-S", "-P", "-c", f"import {module}, sys; print(*sys.modules)"]
    environment = os.environ | {"PYTHONPATH": str(PACKAGE)}
    ran = subprocess.run(words, capture_output=True, text=True, env=environment, check=True)
    imported = set(ran.stdout.split())
    assert module in imported
    assert not imported & {*SLOW_TO_IMPORT[module], "callauction.words", "numpy", "pandas"}


def test_the_auctions_have_the_names_that_words_has() -> None:
    from callauction import words
    from callauction.market import forms

    assert forms.AUCTIONS == words.AUCTIONS


def test_no_worker_waits_while_another_one_has_two_files(
    harmful: pathlib.Path, tmp_path: pathlib.Path
) -> None:
    names = [f"slow {place}" for place in range(3)]
    paths = write(tmp_path / "journals", dict.fromkeys(names, EMPTY_DAY + DONE))
    found = market.audit(paths, workers=3, program=harmful)
    assert found.fault.isna().all()
    assert len({worker for _, worker in runs_of(harmful)}) == len(names)


def test_an_answer_that_fills_the_pipe(tmp_path: pathlib.Path) -> None:
    program = tmp_path / "says much"
    program.write_text(SAYS_MUCH)
    program.chmod(0o755)
    paths = write(tmp_path / "journals", {name: EMPTY_DAY for name in ("A", "B", "C")})
    for row in columns(market.audit(paths, workers=2, program=program)):
        assert row["fault"] == "x" * LONG

"""The command line: statuses, texts, and words that are wrong."""
import os
import pathlib
import pty
import subprocess
import sys
from typing import NamedTuple

import callauction.market.__main__
import callauction.market.workers
import pytest
import rules
from callauction.market import read_rows
from conftest import DONE, Keys, closing, command, environment, words_of, write
from distributed import Client

DAY = "day,1,9,5,4,9,9,\n"
LAWFUL = {"A": f"{DAY}1,enter,bid,7,5,entered 1\n{DONE}", "B": DAY + DONE}
NOT_OVER = {"G": f"{DAY}0,uncross,opening no price\n"}
NOT_RECORDED = {"H": f"{DAY}1,ask,\n{DONE}"}
UNLAWFUL = {"C": f"{DAY}1,ask,deleted\n1,ask,\n1,enter,bid,7,5,entered 2\n{DONE}"}
BAD = {"D": "day,1,9\n"}
CUT = {"J": f"{DAY}1,enter,bid,7,5,entered 1\n{DONE}"[:-3]}
WITH_ROOM = {"K": f"{DAY}1,enter,bid,7,5,entered 1\n{DONE}" + "\0" * 99}


class JudgedMarket(NamedTuple):
    """A market by the journals of its instruments, the status of its audit and its verdict."""

    texts: rules.Texts
    status: int
    verdict: str


MARKETS = [
    JudgedMarket(LAWFUL, 0, "lawful"),
    JudgedMarket(LAWFUL | NOT_OVER, 5, "incomplete"),
    JudgedMarket(LAWFUL | NOT_RECORDED, 5, "incomplete"),
    JudgedMarket({"I": DAY}, 5, "incomplete"),
    JudgedMarket({"I": DAY + DONE.replace("opening no price", "")}, 5, "incomplete"),
    JudgedMarket(LAWFUL | CUT, 5, "incomplete"),
    JudgedMarket(LAWFUL | WITH_ROOM, 5, "incomplete"),
    JudgedMarket(LAWFUL | UNLAWFUL | NOT_OVER, 4, "unlawful"),
    JudgedMarket(LAWFUL | BAD, 1, "incomplete"),
    JudgedMarket(LAWFUL | UNLAWFUL | BAD, 1, "unlawful"),
]


@pytest.mark.parametrize("market", MARKETS)
@pytest.mark.parametrize("is_away", [False, True])
def test_the_status_is_that_of_the_worst_file(
    market: JudgedMarket,
    is_away: bool,
    client: Client,
    keys: Keys,
    program: str,
    tmp_path: pathlib.Path,
) -> None:
    texts = market.texts
    write(tmp_path / "journals", texts)
    away = ["--scheduler", client.scheduler.address, *keys.words()] if is_away else []
    ran = command("audit", tmp_path / "journals", *away, program=program)
    assert (ran.returncode, ran.stderr) == (market.status, "")
    found = closing(ran.stdout)
    expected = rules.rows_of(texts)
    assert market.status == rules.status_of(expected)
    assert found["instruments"] == len(texts)
    for name in ("entries", "compared"):
        assert found[name] == sum(row.get(name, 0) for row in expected)
    assert found["faults"] == sum("fault" in row for row in expected)
    assert found["days not over"] == sum(row.get("day", "over") != "over" for row in expected)
    bad = {
        "C": "C: unlawful 2 of 5, the first at entry 1",
        "D": "D: fault: record 1: wrong number of fields",
    }
    *named, _, last = ran.stdout.splitlines()
    assert named == [bad[name] for name in bad if name in texts]
    assert last == market.verdict


def test_a_run_has_no_verdict(program: str, tmp_path: pathlib.Path) -> None:
    write(tmp_path / "journals", LAWFUL | NOT_OVER)
    ran = command("run", tmp_path / "journals", "--print", "trades", program=program)
    assert (ran.returncode, ran.stderr) == (0, "")
    (line,) = ran.stdout.splitlines()
    assert line.startswith("instruments 3, entries 0, faults 0, seconds ")


def test_names_of_any_bytes_are_shown_in_a_line(program: str, tmp_path: pathlib.Path) -> None:
    folder = os.fsencode(tmp_path / "journals")
    os.mkdir(folder)
    for name in (b"\xff\xfe", b"a\nb", b"\x1b[31mred", b"=1+2", b"\xe2\x80\xae"):
        with open(folder + b"/" + name + b".csv", "wb") as out:
            out.write(BAD["D"].encode())
    output = tmp_path / "result.csv"
    ran = command("audit", tmp_path / "journals", "-o", output, program=program)
    fault = "fault: record 1: wrong number of fields"
    names = ["=1+2", "\\u202e", "\\x1b[31mred", "\\xff\\xfe", "a\\x0ab"]
    assert ran.stdout.splitlines()[:-2] == [f"{name}: {fault}" for name in names]
    assert (ran.returncode, ran.stderr) == (1, "")
    assert [row.instrument for row in read_rows(output)] == names
    assert [line.split(",")[0] for line in output.read_text().splitlines()[1:]] == [
        "'=1+2",
        *names[1:],
    ]


def test_names_are_shown_on_a_terminal_of_ascii(program: str, tmp_path: pathlib.Path) -> None:
    write(tmp_path / "journals", {"Ärzte": BAD["D"]})
    words = words_of("audit", tmp_path / "journals")
    env = environment(program) | {"PYTHONIOENCODING": "ascii"}
    ran = subprocess.run(words, env=env, capture_output=True, text=True)
    assert ran.stdout.startswith("\\xc4rzte: fault: ") and (ran.returncode, ran.stderr) == (1, "")


def test_what_is_missing_of_a_list_is_a_fault(program: str, tmp_path: pathlib.Path) -> None:
    write(tmp_path / "journals", LAWFUL)
    wanted = tmp_path / "list"
    words = ["audit", tmp_path / "journals", "--expect", wanted, "-o", tmp_path / "result.csv"]
    wanted.write_bytes(b"\xef\xbb\xbfA\r\n\nB\n")
    assert command(*words, program=program).returncode == 0
    wanted.write_text("Z\nA\n")
    ran = command(*words, program=program)
    assert ran.returncode == 1
    assert ran.stdout.splitlines()[:-2] == [
        "B: fault: not expected",
        "Z: fault: expected, and there is no file",
    ]
    assert closing(ran.stdout)["instruments"] == 3
    assert [row.instrument for row in read_rows(tmp_path / "result.csv")] == ["A", "B", "Z"]
    wanted.write_text("A\nB\nA\n")
    ran = command(*words, program=program)
    assert (ran.returncode, ran.stderr) == (2, f"market: {wanted} has A twice\n")


def test_a_terminal_shows_progress(program: str, tmp_path: pathlib.Path) -> None:
    write(tmp_path / "journals", LAWFUL)
    ours, theirs = pty.openpty()
    words = words_of("audit", tmp_path / "journals")
    ran = subprocess.run(words, env=environment(program), stderr=theirs, stdout=subprocess.PIPE)
    os.close(theirs)
    shown = os.read(ours, 1 << 16).decode()
    os.close(ours)
    assert ran.returncode == 0
    assert "100%" in shown and "2/2" in shown


KEYS = ["--tls-ca", "{}/A.csv", "--tls-cert", "{}/A.csv", "--tls-key", "{}/A.csv"]
NO_WORKER, FAR = ["--workers", "0"], ["--scheduler", "tls://h:1"]


class WrongWords(NamedTuple):
    """Words of a command line, the status with which it ends, and what it says."""

    words: list[str]
    status: int
    text: str


WRONG = [
    WrongWords(["audit"], 2, "the following arguments are required: DIR"),
    WrongWords(["audit", "{}", *NO_WORKER], 2, "argument --workers: invalid positive value: '0'"),
    WrongWords(["audit", "{}", "--workers", "2", *FAR], 2, "not allowed with"),
    WrongWords(["audit", "{}", "--resume"], 2, "--resume goes on with a result"),
    WrongWords(["audit", "{}", "--expect", "{}/none"], 2, "No such file or directory"),
    WrongWords(["audit", "{}/empty"], 2, "there is no .csv file in"),
    WrongWords(["audit", "{}/A.csv", "{}/empty/../other/A.csv"], 2, "two files of one instrument"),
    WrongWords(["audit", "{}", "-o", "{}/empty"], 2, "no result can be written to"),
    WrongWords(["audit", "{}", "-o", "{}/none/result.csv"], 2, "no result can be written to"),
    WrongWords(["audit", "{}", "--scheduler", "tls://127.0.0.1:9", *KEYS], 3, "market: "),
    WrongWords(["run", "{}", "--print", "prices"], 2, "invalid choice: 'prices'"),
]


@pytest.mark.parametrize("wrong", WRONG)
def test_wrong_words_are_refused_in_a_line(
    wrong: WrongWords,
    program: str,
    tmp_path: pathlib.Path,
    monkeypatch: pytest.MonkeyPatch,
    capsys: pytest.CaptureFixture[str],
) -> None:
    write(tmp_path, LAWFUL)
    (tmp_path / "empty").mkdir()
    write(tmp_path / "other", LAWFUL)
    monkeypatch.setenv("CALLBOARD", program)
    monkeypatch.setattr(sys, "argv", ["market", *(word.format(tmp_path) for word in wrong.words)])
    monkeypatch.setattr(callauction.market.workers, "CONNECT_SECONDS", 1)
    try:
        found: object = callauction.market.__main__.main()
    except SystemExit as end:
        found = end.code
    printed = capsys.readouterr()
    assert (found, printed.out) == (wrong.status, "")
    assert wrong.text in printed.err.splitlines()[-1]


def test_a_program_that_is_not_there_is_said(tmp_path: pathlib.Path) -> None:
    write(tmp_path, LAWFUL)
    ran = command("audit", tmp_path, program=tmp_path / "none")
    assert (ran.returncode, ran.stdout) == (3, "")
    assert ran.stderr == f"market: CALLBOARD names no program: {tmp_path / 'none'}\n"


def test_a_file_that_may_not_be_read_is_a_fault(program: str, tmp_path: pathlib.Path) -> None:
    (path, *_) = write(tmp_path, LAWFUL)
    os.chmod(path, 0)
    drop = "--bounding-set=-dac_override,-dac_read_search"  # root may read all files else
    before = ["setpriv", drop] if os.geteuid() == 0 else []
    ran = command("audit", tmp_path, "--workers", 1, program=program, before=before)
    assert (ran.returncode, ran.stdout.splitlines()[0]) == (1, "A: fault: Permission denied")
    assert closing(ran.stdout)["entries"] == 3

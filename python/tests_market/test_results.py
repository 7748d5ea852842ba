"""Results: their bytes, runs that are broken off and go on, logs that are not their own, locks, and
links.
"""
import contextlib
import csv
import json
import os
import pathlib
import signal
import subprocess
import sys
from collections.abc import Callable, Iterator

import psutil
import pytest
import rules
from callauction.market import files, read_rows, rows
from conftest import (
    DONE,
    LOOPBACK,
    SECONDS,
    Keys,
    children_of,
    closing,
    cluster,
    columns,
    command,
    environment,
    runs_of,
    started,
    until,
    words_of,
    write,
)

DAY = "day,1,9,5,4,9,9,\n"
LAWFUL = {"A": f"{DAY}1,enter,bid,7,5,entered 1\n{DONE}", "B": DAY + DONE}
UNLAWFUL = {"C": f"{DAY}1,ask,deleted\n{DONE}"}
BAD = {"D": "day,1,9\n"}
SLOW = {f"slow {place}": LAWFUL["A"] for place in range(12)}


def again(harmful: pathlib.Path) -> set[str]:
    """The instruments that were run since the last look."""
    runs = harmful.with_name("runs")
    found = {name for name, _ in runs_of(harmful)} if runs.exists() else set()
    runs.unlink(missing_ok=True)
    return found


def wait_for(log: pathlib.Path, count: int) -> None:
    """Waits until a log has the rows of `count` slow files."""
    until(lambda: log.exists() and log.read_text().count("slow") >= count)


def test_a_second_run_gives_the_same_bytes(program: str, tmp_path: pathlib.Path) -> None:
    texts = rules.random_texts(24)
    write(tmp_path / "journals", texts)
    results = []
    for workers in (1, 3):
        output = tmp_path / f"{workers}.csv"
        words = ["audit", tmp_path / "journals", "--workers", workers, "-o", output]
        assert command(*words, program=program).returncode == 1
        results.append(output.read_bytes())
    assert results[0] == results[1]
    read = [
        {name: value for name in rows.WRITTEN if (value := getattr(row, name)) is not None}
        for row in read_rows(tmp_path / "1.csv")
    ]
    assert read == rules.rows_of(texts)
    logged = list(csv.DictReader((tmp_path / "3.csv.log").read_text().splitlines()[1:]))
    assert sorted(row["instrument"] for row in logged) == sorted(texts)
    assert all(float(row["seconds"]) > 0 for row in logged if not row["fault"])


def test_a_run_that_was_killed_goes_on(
    program: str, harmful: pathlib.Path, tmp_path: pathlib.Path
) -> None:
    texts = SLOW | BAD | UNLAWFUL
    write(tmp_path / "journals", texts)
    words = ["audit", tmp_path / "journals", "--workers", "2", "-o"]
    broken, whole = tmp_path / "broken.csv", tmp_path / "whole.csv"
    log = tmp_path / "broken.csv.log"
    with started(*words, broken, program=harmful) as child:
        wait_for(log, 2)
        child.send_signal(signal.SIGKILL)
    lines = log.read_text().splitlines(keepends=True)
    done = {next(csv.reader([line]))[0] for line in lines[2:]}
    assert 2 <= len(done) < len(texts) and not broken.exists()
    with open(log, "a", encoding="utf-8") as out:
        out.write(lines[-1][:20])  # as if it was killed within a record
    again(harmful)
    ran = command(*words, broken, "--resume", program=harmful)
    assert ran.returncode == 1
    cut = len(lines) + 1
    assert ran.stderr == f"market: {log}: line {cut} was cut: it and what follows is run again\n"
    assert again(harmful) == set(texts) - (done - set(BAD))
    assert closing(ran.stdout)["taken over"] == len(done - set(BAD))
    assert command(*words, whole, program=program).returncode == 1
    assert broken.read_bytes() == whole.read_bytes()
    assert {path.name for path in tmp_path.iterdir() if path.name.startswith(".")} == set()


def test_what_was_changed_is_run_again(harmful: pathlib.Path, tmp_path: pathlib.Path) -> None:
    paths = write(tmp_path / "journals", LAWFUL | UNLAWFUL)
    words = ["audit", tmp_path / "journals", "--workers", 1, "-o", tmp_path / "result.csv"]
    assert command(*words, program=harmful).returncode == 4
    first = (tmp_path / "result.csv").read_bytes()
    assert again(harmful) == {"A", "B", "C"}
    # the same bytes at another time are the same file
    os.utime(paths[0])
    ran = command(*words, "--resume", program=harmful)
    assert (again(harmful), closing(ran.stdout)["taken over"]) == (set(), 3)
    # other bytes of the same size at the same time are another
    before = os.stat(paths[1])
    pathlib.Path(paths[1]).write_text(LAWFUL["B"].replace("no price", "no trade"))
    os.utime(paths[1], ns=(before.st_atime_ns, before.st_mtime_ns))
    assert os.stat(paths[1]).st_size == before.st_size
    ran = command(*words, "--resume", program=harmful)
    assert (ran.returncode, again(harmful)) == (4, {"B"})
    assert (tmp_path / "result.csv").read_bytes() != first
    # other limits are another task
    ran = command(*words, "--resume", "--seconds", 90, program=harmful)
    assert again(harmful) == {"A", "B", "C"}
    log = tmp_path / "result.csv.log"
    other = "it is of another program or of other options: all is run again"
    assert ran.stderr == f"market: {log}: {other}\n"


FORGED: dict[str, tuple[list[int], Callable[[str], str], str]] = {
    "a number": ([3], lambda line: line.replace(",4,", ",5,", 1), "isn't as it was written"),
    "a line less": ([3], lambda line: "", "isn't as it was written"),
    "a line twice": ([3], lambda line: line + line, "isn't as it was written"),
    "no check": ([3], lambda line: line.rsplit(",", 1)[0] + "\n", "isn't as it was written"),
    "rubbish": ([3], lambda line: '"\0\xff\n', "isn't as it was written"),
    "its task": ([1], lambda line: line.replace("results", "lines"), "isn't as it was written"),
    "no end": ([6], lambda line: line.removesuffix("\n"), "was cut"),
}


@pytest.mark.parametrize("what", FORGED)
def test_a_forged_log_is_found(what: str, harmful: pathlib.Path, tmp_path: pathlib.Path) -> None:
    places, forge, text = FORGED[what]
    texts = LAWFUL | {"E": DAY + DONE, "F": DAY + DONE}
    write(tmp_path / "journals", texts)
    output = tmp_path / "result.csv"
    words = ["audit", tmp_path / "journals", "--workers", 1, "-o", output]
    assert command(*words, program=harmful).returncode == 0
    good = output.read_bytes()
    log = tmp_path / "result.csv.log"
    lines = log.read_text().splitlines(keepends=True)
    names = [next(csv.reader([line]))[0] for line in lines]
    again(harmful)
    for place in places:
        lines[place - 1] = forge(lines[place - 1])
    assert "".join(lines) != log.read_text()
    log.write_text("".join(lines), encoding="latin-1")
    ran = command(*words, "--resume", program=harmful)
    assert (ran.returncode, output.read_bytes()) == (0, good)
    assert ran.stderr.startswith(f"market: {log}: line ") and text in ran.stderr
    assert ran.stderr.count("\n") == 1
    kept = {"a line twice": 1, "no end": 3}.get(what, 0)
    assert again(harmful) == set(names[2 + kept :])


def test_a_log_that_others_may_write_to_is_not_believed(
    harmful: pathlib.Path, tmp_path: pathlib.Path
) -> None:
    write(tmp_path / "journals", LAWFUL)
    words = ["audit", tmp_path / "journals", "-o", tmp_path / "result.csv"]
    command(*words, program=harmful)
    log = tmp_path / "result.csv.log"
    assert log.stat().st_mode & 0o777 == 0o600
    again(harmful)
    log.chmod(0o620)
    ran = command(*words, "--resume", program=harmful)
    assert ran.stderr == f"market: {log}: others may write to it: all is run again\n"
    assert again(harmful) == set(LAWFUL)


def test_a_result_in_use_is_refused(harmful: pathlib.Path, tmp_path: pathlib.Path) -> None:
    write(tmp_path / "journals", LAWFUL)
    output = tmp_path / "result.csv"
    words = ["audit", tmp_path / "journals", "-o", output]
    with files.locked(output):
        ran = command(*words, "--resume", program=harmful)
        assert (ran.returncode, ran.stdout) == (2, "")
        process = f"process {os.getpid()} of {files.user_of(os.getuid())} on "
        assert ran.stderr.startswith(f"market: {output} is in use by {process}")
    assert command(*words, program=harmful).returncode == 0
    left = {path.name for path in tmp_path.iterdir()} - {"bin", "journals"}
    assert left == {"result.csv", "result.csv.log"}


def test_a_folder_of_outputs_in_use_is_refused(
    harmful: pathlib.Path, tmp_path: pathlib.Path
) -> None:
    write(tmp_path / "journals", LAWFUL)
    words = ["run", tmp_path / "journals", "--print", "book", "--into", tmp_path / "kept"]
    (tmp_path / "kept").mkdir()
    with files.locked(tmp_path / "kept"):
        assert command(*words, program=harmful).returncode == 2
    assert list((tmp_path / "kept").iterdir()) == []
    assert command(*words, program=harmful).returncode == 0
    assert {path.name for path in (tmp_path / "kept").iterdir()} == {"A.book.csv", "B.book.csv"}


@pytest.mark.parametrize("name", ["result.csv", "result.csv.log", "result.csv.lock"])
def test_no_link_is_followed(name: str, program: str, tmp_path: pathlib.Path) -> None:
    write(tmp_path / "journals", LAWFUL)
    other = tmp_path / "other"
    other.write_text("stays\n")
    (tmp_path / name).symlink_to(other)
    ran = command(
        "audit", tmp_path / "journals", "-o", tmp_path / "result.csv", "--resume", program=program
    )
    assert ran.returncode in (2, 3) and ran.stderr.count("\n") == 1
    assert other.read_text() == "stays\n"


def test_a_kept_output_replaces_a_link(program: str, tmp_path: pathlib.Path) -> None:
    write(tmp_path / "journals", LAWFUL)
    other = tmp_path / "other"
    other.write_text("stays\n")
    (tmp_path / "kept").mkdir()
    (tmp_path / "kept/A.book.csv").symlink_to(other)
    words = ["run", tmp_path / "journals", "--print", "book", "--into", tmp_path / "kept"]
    assert command(*words, program=program).returncode == 0
    assert other.read_text() == "stays\n"
    assert not (tmp_path / "kept/A.book.csv").is_symlink()


def test_a_result_among_the_files_is_refused(program: str, tmp_path: pathlib.Path) -> None:
    folder = tmp_path / "journals"
    (path, *_) = write(folder, LAWFUL)
    (tmp_path / "link").symlink_to(folder)
    among = "would lie among the files of the market"
    wrong: list[tuple[list[object], str]] = [
        (["audit", folder, "-o", folder / "result.csv"], among),
        (["audit", folder, "-o", tmp_path / "link/result.csv"], among),
        (["audit", path, "-o", path], "would be the result and is a file of the market"),
        (["run", folder, "--print", "book", "--into", folder], among),
        (["run", path, "--print", "book", "--into", tmp_path / "link"], among),
    ]
    for words, text in wrong:
        ran = command(*words, program=program)
        assert (ran.returncode, ran.stdout) == (2, "") and text in ran.stderr
    assert {file.name for file in folder.iterdir()} == {"A.csv", "B.csv"}
    (folder / "C.csv").symlink_to(tmp_path / "result.csv")
    ran = command("audit", folder, "-o", tmp_path / "result.csv", program=program)
    assert ran.returncode == 2 and "is a file of the market" in ran.stderr


def test_a_result_takes_no_place_of_what_is_read(program: str, tmp_path: pathlib.Path) -> None:
    folder, listed, log = tmp_path / "journals", tmp_path / "list.txt", tmp_path / "r.log"
    write(folder, LAWFUL)
    listed.write_text("A\nB\n")
    os.link(listed, tmp_path / "other.txt")
    os.link(listed, log)
    for result in (listed, tmp_path / "other.txt", tmp_path / "r"):
        ran = command("audit", folder, "--expect", listed, "-o", result, program=program)
        assert (ran.returncode, ran.stdout) == (2, "")
        assert "would overwrite the file of --expect" in ran.stderr
    assert listed.read_text() == "A\nB\n" and not (tmp_path / "r").exists()


def is_alive(process: psutil.Process) -> bool:
    """Whether a process runs: one that was killed may not have been waited for yet."""
    try:
        return process.is_running() and process.status() != psutil.STATUS_ZOMBIE
    except psutil.NoSuchProcess:
        return False


@pytest.mark.parametrize("name", ["INT", "TERM", "KILL"])
def test_an_interrupted_run_leaves_its_log_and_no_result(
    name: str, harmful: pathlib.Path, tmp_path: pathlib.Path
) -> None:
    slow = {f"slow {place}": LAWFUL["A"] for place in range(40)}
    write(tmp_path / "journals", slow | ({"never ends": LAWFUL["A"]} if name == "INT" else {}))
    output = tmp_path / "result.csv"
    log = tmp_path / "result.csv.log"
    words = ["audit", tmp_path / "journals", "--workers", 2, "--seconds", 2 * SECONDS, "-o", output]
    with started(*words, program=harmful) as child:
        wait_for(log, 1)
        those = psutil.Process(child.pid).children(recursive=True)
        child.send_signal(getattr(signal, f"SIG{name}"))
        _, error = child.communicate(timeout=SECONDS)
        if name == "INT":
            until(lambda: not any(is_alive(process) for process in those))
    if name == "INT":
        assert child.returncode == 130
        assert error == f"market: broken off: {log} has what was found; --resume\n"
    assert child.returncode != 0 and not output.exists()


def test_a_run_that_met_a_full_disk_goes_on(harmful: pathlib.Path, tmp_path: pathlib.Path) -> None:
    write(tmp_path / "journals", SLOW)
    output, whole = tmp_path / "result.csv", tmp_path / "whole.csv"
    words = ["audit", tmp_path / "journals", "-o"]
    full = ["prlimit", "--fsize=1500"]
    ran = command(*words, output, program=harmful, before=full)
    assert (ran.returncode, ran.stdout) == (3, "")
    assert ran.stderr == "market: [Errno 27] File too large\n"
    assert not output.exists()
    ran = command(*words, output, "--resume", program=harmful)
    assert ran.returncode == 0
    assert command(*words, whole, program=harmful).returncode == 0
    assert output.read_bytes() == whole.read_bytes()


@contextlib.contextmanager
def scheduler(keys: Keys, folder: pathlib.Path) -> Iterator[tuple[str, subprocess.Popen[bytes]]]:
    """A scheduler with a worker, by the commands of docs/MARKET.md: its address and its process."""
    tls = ["--tls-ca-file", keys.cert, "--tls-cert", keys.cert, "--tls-key", keys.key]
    common = [*tls, "--host", LOOPBACK, "--no-dashboard", "--dashboard-address", f"{LOOPBACK}:0"]
    place = folder / "scheduler.json"
    dask = [sys.executable, "-W", "ignore", "-m", "dask"]
    words = [*dask, "scheduler", "--protocol", "tls", "--port", "0", "--scheduler-file", str(place)]
    env = environment(os.environ["CALLBOARD"])
    with contextlib.ExitStack() as stack:
        null = subprocess.DEVNULL
        first = subprocess.Popen([*words, *common], env=env, stdout=null, stderr=null)
        stack.callback(end, first)
        until(lambda: place.exists() and place.read_text().endswith("}"))
        address = str(json.loads(place.read_text())["address"])
        words = [*dask, "worker", address, *common, "--nthreads", "1", "--nworkers", "2"]
        words += ["--local-directory", str(folder)]
        stack.callback(end, subprocess.Popen(words, env=env, stdout=null, stderr=null))
        yield address, first


def end(child: subprocess.Popen[bytes]) -> None:
    """Ends a process with all that it started."""
    for process in children_of(child.pid):
        process.kill()
    child.kill()
    child.wait()


def test_a_run_whose_scheduler_dies_goes_on(
    keys: Keys, harmful: pathlib.Path, program: str, tmp_path: pathlib.Path
) -> None:
    write(tmp_path / "journals", SLOW | UNLAWFUL)
    output, whole = tmp_path / "result.csv", tmp_path / "whole.csv"
    words = ["audit", tmp_path / "journals", "-o"]
    with pytest.MonkeyPatch.context() as patch:
        patch.setenv("CALLBOARD", str(harmful))
        with scheduler(keys, tmp_path) as (address, first):
            away = [*words, output, "--scheduler", address, *keys.words()]
            with started(*away, program=harmful) as child:
                wait_for(tmp_path / "result.csv.log", 1)
                first.kill()
                printed = child.communicate(timeout=SECONDS)
    assert (child.returncode, *printed) == (3, "", "market: the scheduler is lost\n")
    assert not output.exists()
    ran = command(*words, output, "--resume", program=harmful)
    assert ran.returncode == 4 and closing(ran.stdout)["taken over"] >= 1
    assert command(*words, whole, program=program).returncode == 4
    assert output.read_bytes() == whole.read_bytes()

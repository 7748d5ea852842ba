"""What goes wrong with one instrument, or with a worker, is no matter to the others."""
import os
import pathlib
import signal
import time

import dask
import pytest
import rules
from callauction import market
from callauction.market import forms, rows, runs, task, workers
from callauction.market.__main__ import arguments
from conftest import SECONDS, Keys, cluster, columns, runs_of, until, write
from distributed import Client

TEXTS = {f"good {seed}": text for seed, text in enumerate(rules.random_texts(8).values())}
EMPTY_DAY = "day,1,9,5,4,9,9,\n"
MIB = 1 << 20
WHEN_LIMITED = """#!/bin/sh
# Runs the program when this process has its limit: a busy machine may take a while to set it.
tries=0
until [ "$(ulimit -v)" = {kibibytes} ] || [ $((tries += 1)) -gt 3000 ]; do sleep 0.01; done
exec "{program}" "$@"
"""


def rows_with(faults: dict[str, str]) -> list[rules.KnownColumns]:
    """The rows of TEXTS, and of these instruments with their faults, in their order."""
    bad = [{"instrument": name, "fault": fault} for name, fault in faults.items()]
    return sorted(rules.rows_of(TEXTS) + bad, key=lambda row: str(row["instrument"]))


def test_a_bad_file_is_a_fault_of_its_row_alone(
    crew: Client | None, tmp_path: pathlib.Path
) -> None:
    texts = {
        "cut": f"{EMPTY_DAY}1,enter,bid,7,5,entered 1\n2,enter,as\n",
        "empty": "",
        "orders": "1,enter,bid,7,5\n",
    }
    paths = write(tmp_path, TEXTS | texts)
    others = ["a folder", "a link", "a pipe", "missing", "unreadable"]
    folder, link, pipe, missing, unreadable = (str(tmp_path / f"{name}.csv") for name in others)
    os.mkdir(folder)
    os.symlink(link, link)
    os.mkfifo(pipe)
    os.symlink("/proc/self/mem", unreadable)
    found = market.audit([*paths, folder, link, pipe, missing, unreadable], crew)
    faults = {
        "a folder": "Is a directory",
        "a link": "Too many levels of symbolic links",
        "a pipe": "not a regular file",
        "cut": "record 3: wrong number of fields",
        "empty": "record 1: not a day record",
        "missing": "No such file or directory",
        "orders": "record 1: not a day record",
        "unreadable": "read failed",
    }
    assert columns(found) == rows_with(faults)


def test_a_reply_that_was_cut_accuses_nobody(client: Client, tmp_path: pathlib.Path) -> None:
    paths = write(tmp_path, {"cut": f"{EMPTY_DAY}1,ask,no price bid - ask -\n2,enter,bid,7,5,ente"})
    (row,) = columns(market.audit(paths, client))
    assert (row["entries"], row["compared"], row["unlawful"]) == (1, 1, 0)
    assert "day" not in row and "first_unlawful" not in row


def test_a_program_that_ends_badly_is_a_fault_of_its_row(
    crew: Client | None, harmful: pathlib.Path, tmp_path: pathlib.Path
) -> None:
    faults = {
        "ends with 9": "the program ended with status 9",
        "is killed": "the program was ended by SIGKILL",
        "prints something else": "the program printed no audit with results",
    }
    paths = write(tmp_path / "journals", TEXTS | dict.fromkeys(faults, EMPTY_DAY))
    found = market.audit(paths, crew, program=harmful)
    assert columns(found) == rows_with(faults)


@pytest.mark.parametrize("name", ["never ends", "prints for ever", "closes and never ends"])
def test_a_program_that_takes_too_long_is_ended(
    name: str, harmful: pathlib.Path, tmp_path: pathlib.Path
) -> None:
    paths = write(tmp_path / "journals", TEXTS | {name: EMPTY_DAY})
    begin = time.monotonic()
    found = market.audit(paths, workers=2, program=harmful, seconds=10)
    assert columns(found) == rows_with({name: "not done in 10 seconds"})
    assert time.monotonic() - begin < SECONDS


def test_limits_go_by_the_size() -> None:
    least, large = (
        task.Request(("audit",)).for_size(size, forms.FORMS["audit"]) for size in (0, 10 * MIB)
    )
    assert (least.memory, least.seconds) == (64 * MIB, 60)
    assert (large.memory, large.seconds) == (144 * MIB, 180)
    table = task.Request(("trades",)).for_size(10 * MIB, forms.FORMS["trades"])
    assert (table.memory, table.seconds) == (288 * MIB, 180)
    given = task.Request(("trades",), None, 7, 8).for_size(10 * MIB, forms.FORMS["trades"])
    assert (given.memory, given.seconds) == (7, 8)


@pytest.mark.parametrize("memory, status", [("0", 2), ("7", 2), ("x", 2), ("-8", 2), ("8", 0)])
def test_less_than_the_least_memory_is_refused(
    memory: str, status: int, capsys: pytest.CaptureFixture[str]
) -> None:
    words = ["audit", "folder", "--memory", memory]
    if status == 0:
        assert arguments().parse_args(words).memory == int(memory)
        return
    with pytest.raises(SystemExit) as found:
        arguments().parse_args(words)
    assert found.value.code == status and "from 8 on" in capsys.readouterr().err


def test_a_program_that_runs_out_of_memory_is_a_fault_of_its_row(
    crew: Client | None, program: str, tmp_path: pathlib.Path
) -> None:
    large = "day,1,65536,200,64,65536,1048576,\n"
    paths = write(tmp_path, TEXTS | {"large": large})
    script = tmp_path / "when limited"
    script.write_text(WHEN_LIMITED.format(kibibytes=16 * 1024, program=program))
    script.chmod(0o755)
    found = market.audit(paths, crew, program=str(script), memory=16 * MIB)
    assert columns(found) == rows_with({"large": "out of memory: it may have 16 MiB"})
    (row,) = columns(market.audit(paths[-1:], crew))
    assert row["entries"] == 0


def test_the_default_memory_is_enough(program: str, tmp_path: pathlib.Path) -> None:
    day = "day,1,65536,200,64,65536,1048576,\n"
    texts = {"asks": "1,ask,\n", "bids": "1,enter,bid,1,1,\n", "trades": "1,trade,1,\n"}
    texts = {name: day + text * 1_048_576 for name, text in texts.items()}
    book = "1,enter,bid,2,9,\n" * 32_768 + "2,enter,ask,1,9,\n" * 32_768 + "0,uncross,\n"
    paths = write(tmp_path, texts | {"a full tape": day + book * 3})
    for form in ("audit", "results", "lines", "book", "journal", "trades"):
        found = market.run(paths, form)
        assert found.fault.isna().all(), found.fault.tolist()


def test_a_killed_workers_task_runs_again_elsewhere(
    crew: Client | None, harmful: pathlib.Path, tmp_path: pathlib.Path
) -> None:
    texts = TEXTS | {"kills its worker once": EMPTY_DAY}
    found = market.audit(write(tmp_path / "journals", texts), crew, workers=2, program=harmful)
    assert columns(found) == rules.rows_of(texts)
    workers = [worker for name, worker in runs_of(harmful) if name == "kills its worker once"]
    assert len(workers) == 2 and workers[0] != workers[1]  # killed, and run again elsewhere
    assert len({worker for _, worker in runs_of(harmful)}) >= 2


def test_results_that_are_lost_with_their_worker_are_found_again(
    keys: Keys, program: str, tmp_path: pathlib.Path
) -> None:
    paths = write(tmp_path, TEXTS)
    with cluster(2, keys) as client:
        crew = workers.Cluster(client)
        results = crew.results(paths, task.Request(runs.AUDIT_FORM, program))
        found = next(results)
        until(lambda: not any(client.processing().values()))
        address, process = min(client.run(os.getpid).items())
        os.kill(process, signal.SIGKILL)
        until(lambda: address not in client.scheduler_info()["workers"])
        found += [each for some in results for each in some]
    assert columns(rows.frame(each.row for each in found)) == rules.rows_of(TEXTS)


def test_who_kills_each_process_is_told(harmful: pathlib.Path, tmp_path: pathlib.Path) -> None:
    paths = write(tmp_path / "journals", TEXTS | {"kills its worker": EMPTY_DAY})
    found = market.audit(paths, workers=2, program=harmful)
    assert columns(found) == rows_with({"kills its worker": "its worker ended each time"})
    tries = [worker for name, worker in runs_of(harmful) if name == "kills its worker"]
    assert len(tries) == len({*tries}) == 2


def test_who_kills_each_worker_is_told(
    keys: Keys, harmful: pathlib.Path, tmp_path: pathlib.Path
) -> None:
    paths = write(tmp_path / "journals", TEXTS | {"kills its worker": EMPTY_DAY})
    with dask.config.set({"distributed.scheduler.allowed-failures": 1}):
        with cluster(2, keys) as client:
            found = market.audit(paths, client, program=harmful)
    assert columns(found) == rows_with({"kills its worker": "its worker ended each time"})


def test_workers_without_the_program_are_refused(client: Client, tmp_path: pathlib.Path) -> None:
    try:
        market.audit(write(tmp_path, TEXTS), client, program=tmp_path / "none")
    except market.MarketError as fault:
        assert "has no program" in str(fault)
    else:
        raise AssertionError("ran without a program")

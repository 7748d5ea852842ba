"""Cut and malicious files, full boards, and devices that fail.

Each answer is the one that the file format says (docs/FORMATS.md), within 2 seconds of the
processor (a journal of more than 64 MiB: as much for each 64 MiB) and with at most 4 times the
file's size in memory plus 64 MiB. Prints a table of what the large files took.
"""
import subprocess
import sys
import tempfile
import time
from collections.abc import Iterator

import pytest

from checks import built
from checks.model.answers import DEFAULTS, Answer
from checks.model.causes import START_BYTES, likely_cause
from checks.model.day import Options
from checks.parts import hostile_files, hostile_journals
from checks.parts.hostile_files import CALLS, Case

MEASURED = built.TOP / "checks/measured.py"
MOST_SECONDS = 60  # of one run of the program
MOST_DEVICE_SECONDS = 5
MIB_SHOWN = 0.9  # files of at least this size are in the table
HEAD = "| file | MiB | seconds | of the processor | peak MiB |"
CASES = [case for table in hostile_files.TABLES for case in table()]
JOURNALS = [case for table in hostile_journals.TABLES for case in table()]


def run(program: str, words: list[str], data: bytes) -> tuple[Answer, float, float, float]:
    """The answer of a run, its seconds, those of the processor, and its peak memory in MiB."""
    with tempfile.TemporaryFile() as stdin, tempfile.NamedTemporaryFile() as figures:
        stdin.write(data)
        stdin.seek(0)
        command = [sys.executable, str(MEASURED), figures.name, program, *words]
        child = subprocess.run(
            command, stdin=stdin, capture_output=True, text=True, timeout=MOST_SECONDS
        )
        seconds, processor, peak = map(float, figures.read().decode().split())
        return (child.returncode, child.stdout, child.stderr), seconds, processor, peak / 1024


def options_of(words: list[str]) -> Options:
    """The day's options that a command line has."""
    places = [(name, words.index(f"--{name}")) for name in DEFAULTS if f"--{name}" in words]
    return DEFAULTS | {name: int(words[place + 1]) for name, place in places}


def with_cause(wanted: Answer, words: list[str], data: bytes) -> Answer:
    """The answer, with the line of the likely cause of its fault in this input."""
    status, out, error = wanted
    start = data[:START_BYTES].decode("latin-1")
    cause = likely_cause(error.rstrip("\n"), start, options_of(words))
    return status, out, error + cause


def hold(program: str, tables: dict[str, list[str]], case: Case) -> None:
    """Runs a case. Fails where the answer, the time or the memory is another than it may be."""
    data, wanted = case.make()
    answer, seconds, processor, memory = run(program, case.words, data)
    wanted = with_cause(wanted, case.words, data)
    size = len(data) / 2**20
    if size > MIB_SHOWN:
        figures = f"{size:.1f} | {seconds:.2f} | {processor:.2f} | {memory:.0f}"
        tables.setdefault(HEAD, []).append(f"| {case.name} | {figures} |")
    if answer != wanted:
        pytest.fail(f"wanted {str(wanted)[:200]}, got {str(answer)[:200]}", pytrace=False)
    assert processor <= 2 * max(1, size / 64)
    assert memory <= 4 * size + 64


@pytest.mark.parametrize("case", CASES, ids=[case.name for case in CASES])
def test_each_hostile_order_file_is_answered_in_time_and_memory(
    program: str, tables: dict[str, list[str]], case: Case
) -> None:
    hold(program, tables, case)


@pytest.mark.parametrize("case", JOURNALS, ids=[case.name for case in JOURNALS])
def test_each_hostile_journal_is_answered_in_time_and_memory(
    program: str, tables: dict[str, list[str]], case: Case
) -> None:
    hold(program, tables, case)


Device = tuple[str, str, int, str]
"""A name, what bash runs with the program as $1 and a long file as $2, the status, and the
standard error wanted.
"""
SLOWLY = "for i in 1 2 3; do sleep 0.1; printf 1,a; sleep 0.1; echo sk; done"


def writer_table() -> Iterator[Device]:
    """Ends that take no bytes, or leave."""
    long_run, failed = '"$1" --calls 1048576 <"$2"', "write failed\n"
    status = "exit ${PIPESTATUS[0]}"
    one_line = "head -n 1 >/dev/null"
    yield "a reader that leaves after a line", f"{long_run} | {one_line}; {status}", 3, failed
    yield "a reader that leaves at once", f"{long_run} | true; {status}", 3, failed
    late_help = '{ sleep 0.2; "$1" --help; }'
    yield "help for a reader that leaves", f"{late_help} | true; {status}", 3, failed
    yield "a full disk", f"{long_run} >/dev/full", 3, failed
    yield "a full disk for the last bytes", 'echo 1,ask | "$1" >/dev/full', 3, failed
    yield "help on a full disk", '"$1" --help >/dev/full', 3, failed
    for form in ("journal", "trades", "book"):
        in_form = f'"$1" --calls 1048576 --print {form} <"$2"'
        yield f"a full disk for the {form}", f"{in_form} >/dev/full", 3, failed
    journal = '"$1" --calls 1048576 --print journal <"$2"'
    yield "a reader of a journal that leaves", f"{journal} | {one_line}; {status}", 3, failed
    yield "a full disk for an audit", f'{journal} | "$1" --audit >/dev/full', 3, failed
    yield "no standard output", f"{long_run} >&-", 3, failed
    yield "a fault that nobody hears", 'echo x | "$1" 2>/dev/full', 1, ""
    yield "a fault without standard error", 'echo x | "$1" 2>&-', 1, ""


def reader_table() -> Iterator[Device]:
    """Ends that give no bytes, or no end of them."""
    yield "no standard input", '"$1" <&-', 3, "read failed\n"
    yield "a folder as input", '"$1" </', 3, "read failed\n"
    yield "input without an end", '"$1" </dev/zero', 1, "file too long\n"
    yield "input without an end, through a pipe", 'yes 1,ask | "$1"', 1, "file too long\n"
    yield "no standard input for an audit", '"$1" --audit <&-', 3, "read failed\n"
    yield "a journal without an end", 'yes "day,1,9" | "$1" --audit', 1, "file too long\n"
    answered = '"$1" | grep -c "no price" >/dev/null; exit ${PIPESTATUS[1]}'
    yield "input that comes slowly", f"{SLOWLY} | {answered}", 0, ""


DEVICES = [*writer_table(), *reader_table()]


@pytest.fixture(scope="module")
def long_file() -> Iterator[str]:
    """An order file of as many commands as may come."""
    with tempfile.NamedTemporaryFile() as file:
        file.write(b"1,ask\n" * CALLS)
        file.flush()
        yield file.name


@pytest.mark.parametrize("device", DEVICES, ids=[device[0] for device in DEVICES])
def test_each_device_ends_a_run_as_is_said_and_at_once(
    program: str, long_file: str, device: Device
) -> None:
    _, command, status, error = device
    begin = time.perf_counter()
    words = ["bash", "-c", command, "bash", program, long_file]
    child = subprocess.run(words, capture_output=True, text=True, timeout=MOST_SECONDS)
    seconds = time.perf_counter() - begin
    got = child.returncode, child.stdout[:100], child.stderr[:100]
    assert got == (status, "", error)
    assert seconds <= MOST_DEVICE_SECONDS

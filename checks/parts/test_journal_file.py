"""Sessions that keep a journal (`--live --journal FILE`): 200 that are killed and gone on with,
beside the model; files that a crash or a hand has left; another day's, unlawful, faulty, spoiled
and foreign ones; other users' files; files that others change; the syncs, as the system sees them;
a file that can't grow; options.

After each crash the file must begin as the model's journal does, with all that was answered, and
the next session must go on after it. The expected texts are the model's.
"""
import contextlib
import dataclasses
import os
import pathlib
import random
import re
import resource
import select
import shutil
import signal
import subprocess
import tempfile
import time
from collections.abc import Callable, Iterator

import pytest

from checks.generators import orders
from checks.model.answers import DEFAULTS, printed
from checks.parts.sessions import Session

SEEDS = range(1, 201)
MOST_SECONDS = 20.0
ASK = "no price bid - ask -"
DAY = "day,1,1000,200,4,4096,65536,\n"


@dataclasses.dataclass(frozen=True)
class Kept:
    """A random day: its options, its records, the line that answers each, and its journal's lines,
    of which the first is the day's.
    """

    words: list[str]
    records: list[str]
    answers: list[str]
    journal: list[str]


def kept_day(seed: int) -> Kept:
    """The random day of this seed, by the model."""
    options, text = orders.order_file("short", seed)
    options = DEFAULTS | options
    records = text.splitlines()[: options["calls"]]
    text = "".join(f"{record}\n" for record in records)
    answers = printed(text, options).splitlines(True)
    journal = printed(text, options, "journal").splitlines(True)
    return Kept([*orders.option_words(options), "--reserve", "0"], records, answers, journal)


def committed(file: pathlib.Path) -> str:
    """The whole lines of a file before its first NUL."""
    text = file.read_bytes().split(b"\0")[0]
    return text[: text.rfind(b"\n") + 1].decode("ascii")


class Run:
    """A session on a journal that is killed."""

    def __init__(self, program: str, file: pathlib.Path, words: list[str]) -> None:
        self.child = subprocess.Popen(
            [program, "--live", "--journal", str(file), *words],
            stdin=subprocess.PIPE,
            stdout=subprocess.PIPE,
            stderr=subprocess.PIPE,
            bufsize=0,
        )
        self.out = b""

    def begins_with(self) -> int:
        """How many entries it says that the journal has."""
        assert self.child.stderr is not None
        line = self.child.stderr.readline().decode()
        if line.startswith("journal cut off"):
            line = self.child.stderr.readline().decode()
        word, count, rest = line.split(" ")
        assert (word, rest) == ("journal", "entries\n"), line
        return int(count)

    def take_in(self, seconds: float) -> None:
        """Takes in what is answered within this time."""
        assert self.child.stdout is not None
        last = time.monotonic() + seconds
        while (left := last - time.monotonic()) > 0:
            if not select.select([self.child.stdout], [], [], left)[0]:
                return
            data = os.read(self.child.stdout.fileno(), 1 << 20)
            if not data:
                return
            self.out += data

    def send(self, text: str) -> None:
        """Sends text; a session that has ended takes none."""
        assert self.child.stdin is not None
        with contextlib.suppress(BrokenPipeError):
            self.child.stdin.write(text.encode("latin-1"))

    def kill(self, how: signal.Signals) -> list[str]:
        """Ends it so, and answers the whole lines that it had written."""
        self.child.send_signal(how)
        assert self.child.stdout is not None
        self.out += self.child.stdout.read()
        self.child.wait(timeout=MOST_SECONDS)
        self.close()
        whole = self.out[: self.out.rfind(b"\n") + 1]
        return whole.decode("ascii").splitlines(True)

    def close(self) -> None:
        """Closes its pipes."""
        for pipe in (self.child.stdin, self.child.stdout, self.child.stderr):
            assert pipe is not None
            pipe.close()


def crash(
    program: str, file: pathlib.Path, day: Kept, words: list[str], dice: random.Random,
    how: signal.Signals = signal.SIGKILL,
) -> None:
    """Goes on with the day's journal, and is killed at a random moment."""
    before = max(committed(file).count("\n") - 1, 0) if file.exists() else 0
    run = Run(program, file, [*day.words, *words])
    done = run.begins_with()
    assert done == before
    place = done
    for _ in range(dice.randint(0, 8)):
        count = dice.choice([1, 1, 2, 10, 60])
        run.send("".join(f"{record}\n" for record in day.records[place : place + count]))
        place = min(place + count, len(day.records))
        run.take_in(dice.choice([0.0, 0.0, 0.001, 0.003]))
    time.sleep(dice.choice([0.0, 0.0, 0.0005, 0.002]))
    answered = run.kill(how)
    assert answered == day.answers[done : done + len(answered)]
    kept = committed(file).splitlines(True)
    assert kept == day.journal[: len(kept)]
    assert 1 + done + len(answered) <= len(kept) <= 1 + place


def torn_bytes(file: pathlib.Path) -> bytes:
    """What is behind the lines of a file, but for NULs at its end."""
    return file.read_bytes()[len(committed(file)) :].rstrip(b"\0")


def said_of(file: pathlib.Path, number: int = 1) -> str:
    """What a session says as it begins on a file that it goes on with."""
    done = max(committed(file).count("\n") - 1, 0) if file.exists() else 0
    torn = torn_bytes(file) if done or (file.exists() and committed(file)) else b""
    kept = f"{len(torn)} bytes, kept in {file}.cut-{number}"
    cut = f"journal cut off after its last line: {kept}\n" if torn else ""
    return f"{cut}journal {done} entries\n"


def finish(program: str, file: pathlib.Path, day: Kept, words: list[str]) -> None:
    """Goes on with the day's journal to its end, and has it audited."""
    done = max(committed(file).count("\n") - 1, 0) if file.exists() else 0
    said = said_of(file)
    session = Session([program, "--live", "--journal", str(file), *day.words, *words], False)
    try:
        session.hears("", said)
        session.send("".join(f"{record}\n" for record in day.records[done:]).encode("latin-1"))
        session.end_input()
        session.hears("".join(day.answers[done:]), "")
        session.ends(0)
    finally:
        session.close()
    assert file.read_text("ascii") == "".join(day.journal)
    assert file.stat().st_mode & 0o777 == 0o600
    with file.open() as journal:
        audit = subprocess.run([program, "--audit"], stdin=journal, capture_output=True, text=True)
    assert (audit.returncode, audit.stderr) == (0, "")


@pytest.mark.parametrize("seed", SEEDS)
def test_a_killed_session_goes_on_with_all_that_it_answered(
    program: str, tmp_path: pathlib.Path, seed: int
) -> None:
    dice = random.Random(seed)
    day = kept_day(seed)
    file = tmp_path / "day.journal"
    words = ["--sync", "none"] if seed % 10 == 0 else []
    for _ in range(dice.randint(1, 3)):
        crash(program, file, day, words, dice)
    finish(program, file, day, words)


@pytest.mark.parametrize("seed", range(201, 211))
def test_a_terminated_session_goes_on_with_all_that_it_answered(
    program: str, tmp_path: pathlib.Path, seed: int
) -> None:
    dice = random.Random(seed)
    day = kept_day(seed)
    file = tmp_path / "day.journal"
    crash(program, file, day, [], dice, signal.SIGTERM)
    finish(program, file, day, [])


def written(file: pathlib.Path, day: Kept, count: int, rest: bytes) -> None:
    """Writes the day's first `count` lines, and these bytes after them."""
    file.write_bytes("".join(day.journal[:count]).encode("ascii") + rest)


TAILS = [
    b"",
    b"\0",
    b"\0" * 5_000,
    b"1,ent\0\0\0\0",
    b"1,as\0\0o price bid - ask -\n\0\0",
    b"\0" * 40 + b"1,ask,no price bid - ask -\n\0",
    b"1,ask,no price bid",
    b"x" * 4_096,
    b"\0" + b"x" * 4_095 + b"\0\0",
]


@pytest.mark.parametrize("tail", TAILS, ids=lambda tail: repr(tail[:40]))
@pytest.mark.parametrize("seed", [3, 7])
def test_a_torn_end_is_put_aside_and_the_day_goes_on(
    program: str, tmp_path: pathlib.Path, tail: bytes, seed: int
) -> None:
    day = kept_day(seed)
    for count in {1, 2, len(day.journal)}:
        file = tmp_path / f"{count}.journal"
        written(file, day, count, tail)
        torn = tail.rstrip(b"\0")
        finish(program, file, day, [])
        aside = tmp_path / f"{count}.journal.cut-1"
        assert (aside.read_bytes() if aside.exists() else b"") == torn


def test_torn_ends_have_a_file_each(program: str, tmp_path: pathlib.Path) -> None:
    file = tmp_path / "day.journal"
    for number in (1, 2, 3):
        file.write_text(f"{DAY}1,ask,{ASK}\n1,as{number}")
        said = said_of(file, number)
        got = subprocess.run(
            [program, "--live", "--journal", str(file)], input="", capture_output=True, text=True
        )
        assert (got.returncode, got.stderr) == (0, said)
        assert (tmp_path / f"day.journal.cut-{number}").read_text() == f"1,as{number}"
        assert file.read_text() == f"{DAY}1,ask,{ASK}\n"


FIRST = [
    b"",
    b"\0" * 40,
    b"day,1,1000",
    b"\0ay,1,10\0\0",
    DAY.encode()[:-1],
    b"d" + b"\0" * 100_000,
]


@pytest.mark.parametrize("left", FIRST, ids=lambda left: repr(left[:40]))
def test_what_a_crash_leaves_of_the_first_record_is_written_anew(
    program: str, tmp_path: pathlib.Path, left: bytes
) -> None:
    file = tmp_path / "day.journal"
    file.write_bytes(left)
    got = subprocess.run(
        [program, "--live", "--journal", str(file)], input="1,ask\n", capture_output=True, text=True
    )
    assert (got.returncode, got.stdout, got.stderr) == (0, f"1: {ASK}\n", "journal 0 entries\n")
    assert file.read_text() == f"{DAY}1,ask,{ASK}\n"


def refused(
    program: str, file: pathlib.Path, words: list[str], status: int, fault: str,
    before: Callable[[], None] | None = None,
) -> None:
    """A session that doesn't begin, and leaves the file as it was."""
    was = file.read_bytes() if file.is_file() else None
    got = subprocess.run(
        [program, "--live", "--journal", str(file), *words],
        input="1,ask\n",
        capture_output=True,
        text=True,
        timeout=MOST_SECONDS,
        preexec_fn=before,
    )
    assert (got.returncode, got.stdout, got.stderr) == (status, "", fault)
    assert was is None or file.read_bytes() == was


@pytest.mark.parametrize(
    ("words", "names"),
    [
        (["--low", "2"], "low"),
        (["--high", "999"], "high"),
        (["--reference", "201"], "reference"),
        (["--members", "5"], "members"),
        (["--open", "4095"], "open"),
        (["--calls", "65535"], "calls"),
        (["--range", "0"], "range"),
        (["--low", "2", "--reference", "201"], "low, reference"),
        (
            ["--low", "2", "--high", "9", "--reference", "3", "--members", "5", "--open", "1"]
            + ["--calls", "30", "--range", "7"],
            "low, high, reference, members, open, calls, range",
        ),
    ],
    ids=lambda value: value if isinstance(value, str) else "",
)
def test_a_journal_of_another_day_is_refused_by_what_differs(
    program: str, tmp_path: pathlib.Path, words: list[str], names: str
) -> None:
    file = tmp_path / "day.journal"
    file.write_text(DAY)
    refused(program, file, words, 2, f"journal of another day: {names}\n")


@pytest.mark.parametrize(
    ("lines", "status", "fault"),
    [
        (f"{DAY}1,sell,x\n1,ask,{ASK}\n", 1, "journal record 2: bad command\n"),
        (f"{DAY}1,ask,{ASK}\n4,ask,{ASK}\n", 1, "journal record 3: bad member\n"),
        (f"{DAY}1,ask,\t\n", 1, "journal record 2: bad field 3\n"),
        (
            f"{DAY}1,ask,{ASK}\n1,ask,deleted\n",
            4,
            f'journal entry 2: recorded "deleted", lawful "{ASK}"\n',
        ),
        (f"{DAY}1,ask,\n", 4, f'journal entry 1: recorded "", lawful "{ASK}"\n'),
    ],
    ids=["a command", "a member", "a reply", "unlawful", "no reply"],
)
def test_lines_that_no_session_wrote_are_refused_by_their_place(
    program: str, tmp_path: pathlib.Path, lines: str, status: int, fault: str
) -> None:
    file = tmp_path / "day.journal"
    file.write_text(lines)
    refused(program, file, [], status, fault)


FOREIGN = {
    "one line": b"pin 4711",
    "a note": b"buy milk\nand bread\n",
    "records": b"1,ask\n",
    "day, with no line end, of other numbers": b"day,1,1001",
    "another first byte": b"dax,1,1000,200,4,4096,65536,",
    "a key": bytes(range(1, 10)) + bytes(range(11, 200)),
    "a spreadsheet": b"PK\3\4\24\0\6\0" + b"x\0y\n" * 500,
    "a picture": b"\x89PNG\r\n\x1a\n\0\0\0\rIHDR",
    "a program": b"\x7fELF\2\1\1\0" + b"\0" * 100 + b"text\n" * 50,
    "a database": b"SQLite format 3\0" + b"\0" * 4_000 + b"table\n",
    "more NULs than a journal's room": b"\0" * 1_200_000,
    "NULs, and then text": b"\0" * 60 + b"x",
    "wide characters": "day,1,1000".encode("utf-16"),
}


@pytest.mark.parametrize("bytes_", FOREIGN.values(), ids=FOREIGN)
def test_a_file_that_is_no_journal_stays_as_it_was(
    program: str, tmp_path: pathlib.Path, bytes_: bytes
) -> None:
    file = tmp_path / "prices.xlsx"
    file.write_bytes(bytes_)
    file.chmod(0o640)
    refused(program, file, [], 1, f"journal {file}: not a journal\n")
    assert file.stat().st_mode & 0o777 == 0o640
    assert list(tmp_path.iterdir()) == [file]


@pytest.mark.parametrize("zeros", [1, 512], ids=["a byte", "a sector"])
@pytest.mark.parametrize("at", [0.1, 0.5, 0.8])
def test_a_journal_that_is_spoiled_in_the_middle_is_refused(
    program: str, tmp_path: pathlib.Path, zeros: int, at: float
) -> None:
    file = tmp_path / "day.journal"
    lines = f"1,ask,{ASK}\n" * 1_000
    whole = (DAY + lines).encode()
    place = int(len(whole) * at) // 512 * 512
    spoiled = whole[:place] + b"\0" * zeros + whole[place + zeros :]
    file.write_bytes(spoiled)
    kept = committed(file)
    follow = len(spoiled) - len(kept)
    fault = f"journal record {kept.count(chr(10)) + 1}: damaged, {follow} bytes follow\n"
    refused(program, file, [], 1, fault)
    file.write_bytes(spoiled + b"\0" * 5_000)
    refused(program, file, [], 1, fault)
    assert list(tmp_path.iterdir()) == [file]


def test_more_behind_the_lines_than_a_torn_commit_leaves_is_refused(
    program: str, tmp_path: pathlib.Path
) -> None:
    file = tmp_path / "day.journal"
    file.write_bytes(DAY.encode() + b"x" * 4_097)
    refused(program, file, [], 1, "journal record 2: damaged, 4097 bytes follow\n")
    file.write_bytes(DAY.encode() + b"\0" * 4_096 + b"x")
    refused(program, file, [], 1, "journal record 2: damaged, 4097 bytes follow\n")


@pytest.mark.parametrize(
    ("words", "fault"),
    [
        (["--low", "5", "--high", "1"], "bad bounds\nlow 5 is above high 1\n"),
        (["--reference", "1001"], "bad reference\nthe reference 1001 is outside 1 to 1000\n"),
    ],
    ids=["bounds", "reference"],
)
def test_a_bad_day_is_refused_before_a_file_is_made(
    program: str, tmp_path: pathlib.Path, words: list[str], fault: str
) -> None:
    new, torn = tmp_path / "new", tmp_path / "torn"
    torn.write_bytes(b"day,\0\0")
    for file in (new, torn, tmp_path / "no/such/folder"):
        refused(program, file, words, 2, fault)
    assert list(tmp_path.iterdir()) == [torn]


def test_a_journal_in_use_is_refused_and_its_session_goes_on(
    program: str, tmp_path: pathlib.Path
) -> None:
    file = tmp_path / "day.journal"
    session = Session([program, "--live", "--journal", str(file)], False)
    try:
        session.hears("", "journal 0 entries\n")
        refused(program, file, [], 2, "journal in use\n")
        session.send(b"1,ask\n")
        session.hears(f"1: {ASK}\n", "")
        session.end_input()
        session.ends(0)
    finally:
        session.close()
    assert file.read_text() == f"{DAY}1,ask,{ASK}\n"


def test_a_link_or_what_is_no_regular_file_is_refused(program: str, tmp_path: pathlib.Path) -> None:
    failed = "journal open failed\n"
    irregular = "journal open failed: a link, or no regular file\n"
    file = tmp_path / "day.journal"
    file.write_text(DAY)
    link = tmp_path / "link"
    link.symlink_to(file)
    for path in (link, tmp_path, pathlib.Path("/dev/null")):
        refused(program, path, [], 3, irregular)
    refused(program, tmp_path / "no/such/folder", [], 3, failed)
    second = tmp_path / "second"
    second.hardlink_to(file)
    refused(program, second, [], 3, irregular)
    second.unlink()
    dangling = tmp_path / "dangling"
    dangling.symlink_to(tmp_path / "none")
    refused(program, dangling, [], 3, irregular)
    assert not (tmp_path / "none").exists()


@pytest.mark.parametrize("mode", [0o620, 0o602, 0o666, 0o777])
def test_a_journal_that_others_may_write_is_refused(
    program: str, tmp_path: pathlib.Path, mode: int
) -> None:
    file = tmp_path / "day.journal"
    file.write_text(DAY)
    file.chmod(mode)
    refused(program, file, [], 3, "journal open failed: others may write it\n")
    assert file.stat().st_mode & 0o777 == mode


@pytest.mark.parametrize("mode", [0o600, 0o640, 0o644])
def test_from_the_first_entry_its_owner_alone_may_read_it(
    program: str, tmp_path: pathlib.Path, mode: int
) -> None:
    file = tmp_path / "day.journal"
    file.write_text(DAY)
    file.chmod(mode)
    session = Session([program, "--live", "--journal", str(file)], False)
    try:
        session.hears("", "journal 0 entries\n")
        assert file.stat().st_mode & 0o777 == 0o600
        session.end_input()
        session.ends(0)
    finally:
        session.close()


@pytest.mark.skipif(os.geteuid() != 0, reason="only root gives files away")
@pytest.mark.parametrize("text", ["", DAY])
def test_another_users_file_is_refused(program: str, tmp_path: pathlib.Path, text: str) -> None:
    file = tmp_path / "day.journal"
    file.write_text(text)
    os.chown(file, 65534, 65534)
    refused(program, file, [], 3, "journal open failed: another user's file\n")
    assert (file.stat().st_uid, list(tmp_path.iterdir())) == (65534, [file])


@pytest.mark.parametrize("stream", [0, 1, 2])
@pytest.mark.parametrize("text", ["", DAY])
def test_a_stream_of_the_session_is_refused_as_its_journal(
    program: str, tmp_path: pathlib.Path, stream: int, text: str
) -> None:
    """What is read from or printed into the journal itself would spoil it."""
    file = tmp_path / "day.journal"
    file.write_text(text)
    redirected = ["<", ">>", "2>>"][stream]
    line = f'"$1" --live --journal "$2" {redirected} "$2"'
    words = ["bash", "-c", line, "bash", program, str(file)]
    ran = subprocess.run(words, input="1,ask\n" if stream else None, capture_output=True, text=True)
    reason = "journal open failed: it is the session's input or output\n"
    printed = file.read_text().removeprefix(text) + ran.stdout + ran.stderr
    assert (ran.returncode, printed) == (3, reason)


def cut_off(file: pathlib.Path) -> None:
    """Empties a file, as a program does that rotates logs."""
    os.truncate(file, 0)


def replace(file: pathlib.Path) -> None:
    """Puts a copy in a file's place, as an editor does."""
    copy = file.with_name("copy")
    shutil.copy(file, copy)
    copy.rename(file)


def move(file: pathlib.Path) -> None:
    """Gives a file another name."""
    file.rename(file.with_name("moved"))


def append(file: pathlib.Path) -> None:
    """Writes a line behind a file."""
    with file.open("a", encoding="ascii") as end:
        end.write(f"1,ask,{ASK}\n")


by_each_change = pytest.mark.parametrize(
    "change",
    [pathlib.Path.unlink, cut_off, replace, move, append],
    ids=["unlink", "cut_off", "replace", "move", "append"],
)


@by_each_change
@pytest.mark.parametrize("words", [[], ["--sync", "none"]], ids=["each", "none"])
def test_a_journal_that_others_change_ends_the_session(
    program: str,
    tmp_path: pathlib.Path,
    change: Callable[[pathlib.Path], None],
    words: list[str],
) -> None:
    file = tmp_path / "day.journal"
    session = Session([program, "--live", "--journal", str(file), *words], False)
    try:
        session.hears("", "journal 0 entries\n")
        session.send(b"1,ask\n")
        session.hears(f"1: {ASK}\n", "")
        change(file)
        session.send(b"1,ask\n")
        session.hears("", "journal changed by others\n")
        session.ends(3)
    finally:
        session.close()


@by_each_change
def test_a_journal_that_others_change_before_the_end_is_noticed(
    program: str, tmp_path: pathlib.Path, change: Callable[[pathlib.Path], None]
) -> None:
    file = tmp_path / "day.journal"
    session = Session([program, "--live", "--journal", str(file)], False)
    try:
        session.hears("", "journal 0 entries\n")
        change(file)
        session.end_input()
        session.hears("", "journal changed by others\n")
        session.ends(3)
    finally:
        session.close()


TRACED = re.compile(r"\d+ +(\w+)\((\d+)(?:, .*)?\) += (-?\d+)")


def traced(program: str, file: pathlib.Path, words: list[str], text: str) -> list[tuple[str, int]]:
    """The calls of a session that write, cut or sync, and to what: each call's name and the number
    of its file; a write with how many bytes it wrote.
    """
    log = file.with_name("calls")
    calls = "trace=write,pwrite64,fsync,fdatasync,ftruncate"
    got = subprocess.run(
        ["strace", "-f", "-e", calls, "-o", log, program, "--live", "--journal", file, *words],
        input=text,
        capture_output=True,
        text=True,
    )
    assert got.returncode == 0, got.stderr
    found = [TRACED.match(line) for line in log.read_text().splitlines()]
    return [(f"{it[1]} {it[2]}", int(it[3])) for it in found if it]


def test_each_answer_comes_after_a_sync(program: str, tmp_path: pathlib.Path) -> None:
    file = tmp_path / "day.journal"
    text = "1,ask\n" * 1_000
    calls = traced(program, file, [], text)
    assert sum(count for name, count in calls if name == "pwrite64 3") > 27_000
    unsynced = 0
    for name, count in calls:
        if name in ("fdatasync 3", "fsync 3"):
            unsynced = 0
        elif name in ("pwrite64 3", "ftruncate 3"):
            assert count <= 65_536
            unsynced += 1
        elif name == "write 1":
            assert unsynced == 0
    entries = calls[[name for name, _ in calls].index("write 2") :]
    written_at_once = [count for name, count in entries if name == "pwrite64 3"]
    assert len(written_at_once) > 1 and max(written_at_once) <= 4_096


def test_none_is_synced_where_none_is_asked_for(program: str, tmp_path: pathlib.Path) -> None:
    calls = traced(program, tmp_path / "day.journal", ["--sync", "none"], "1,ask\n" * 1_000)
    assert any(name == "pwrite64 3" for name, _ in calls)
    assert not [name for name, _ in calls if "sync" in name]


def test_what_was_read_is_written_and_synced_before_an_answer(
    program: str, tmp_path: pathlib.Path
) -> None:
    file = tmp_path / "day.journal"
    text = f"{DAY}1,ask,{ASK}\n"
    file.write_text(text)
    names = traced(program, file, [], "")
    first = names.index(("pwrite64 3", len(text)))
    assert names[first + 1][0] == "fdatasync 3"
    assert first + 1 < [name for name, _ in names].index("write 2")


def test_what_is_cut_off_is_on_the_disk_first(program: str, tmp_path: pathlib.Path) -> None:
    file = tmp_path / "day.journal"
    file.write_text(f"{DAY}1,ask,{ASK}\n1,as")
    calls = traced(program, file, [], "")
    names = [name for name, _ in calls]
    aside = calls.index(("pwrite64 4", len("1,as")))
    # the new file, and the folder with its name
    assert names[aside + 1 : aside + 3] == ["fsync 4", "fsync 5"]
    assert aside + 2 < names.index("ftruncate 3")
    assert (tmp_path / "day.journal.cut-1").read_text() == "1,as"


@pytest.fixture(name="as_nobody")
def nobodys_program(program: str) -> Iterator[list[str]]:
    """The command of the program, by somebody who may write only where modes say so. Root may write
    anywhere, and so runs it as nobody, from a copy that all may read.
    """
    if os.geteuid() != 0:
        yield [program]
        return
    with tempfile.TemporaryDirectory() as folder:
        copy = shutil.copy(program, folder)
        os.chmod(folder, 0o755)
        os.chmod(copy, 0o755)
        yield ["setpriv", "--reuid=nobody", "--regid=nogroup", "--clear-groups", copy]


@pytest.mark.parametrize(
    ("of_folder", "of_file"),
    [(0o777, 0o400), (0o555, 0o600), (0o555, None), (0o555, 0o400), (0o777, 0o200)],
    ids=["file", "folder", "folder, no file", "both", "not readable"],
)
def test_a_journal_that_may_not_be_read_and_written_is_refused(
    as_nobody: list[str], of_folder: int, of_file: int | None
) -> None:
    with tempfile.TemporaryDirectory() as above:
        folder = pathlib.Path(above) / "day"
        folder.mkdir()
        file = folder / "day.journal"
        if of_file is not None:
            file.write_text(DAY)
            file.chmod(of_file)
            if os.geteuid() == 0:
                shutil.chown(file, "nobody")
        os.chmod(above, 0o755)
        folder.chmod(of_folder)
        goes_on = of_file == 0o600
        got = subprocess.run(
            [*as_nobody, "--live", "--journal", str(file)],
            input="1,ask\n",
            capture_output=True,
            text=True,
            timeout=MOST_SECONDS,
        )
        folder.chmod(0o755)
        left = file.read_text() if file.exists() else None
    said: tuple[int, str, str, str | None]
    if goes_on:
        said = (0, f"1: {ASK}\n", "journal 0 entries\n", f"{DAY}1,ask,{ASK}\n")
    else:
        said = (3, "", "journal open failed\n", None if of_file is None else DAY)
    assert (got.returncode, got.stdout, got.stderr, left) == said


def limited(most: int) -> Callable[[], None]:
    """Keeps files of a child below `most` bytes, without a signal."""

    def set_limit() -> None:
        signal.signal(signal.SIGXFSZ, signal.SIG_IGN)
        resource.setrlimit(resource.RLIMIT_FSIZE, (most, most))

    return set_limit


def test_without_room_for_what_is_cut_off_nothing_is_lost(
    program: str, tmp_path: pathlib.Path
) -> None:
    file = tmp_path / "day.journal"
    file.write_text(f"{DAY}1,ask,{ASK}\n1,as")
    refused(program, file, [], 3, "journal failed\n", limited(2))
    again = subprocess.run(
        [program, "--live", "--journal", str(file)], input="", capture_output=True, text=True
    )
    said = "journal cut off after its last line: 4 bytes, kept in (.*)\njournal 1 entries\n"
    kept = re.fullmatch(said, again.stderr)
    assert again.returncode == 0 and kept is not None
    assert pathlib.Path(kept[1]).read_text() == "1,as"


def test_without_room_at_first_nothing_is_answered(program: str, tmp_path: pathlib.Path) -> None:
    got = subprocess.run(
        [program, "--live", "--journal", str(tmp_path / "day.journal")],
        input="1,ask\n",
        capture_output=True,
        text=True,
        preexec_fn=limited(4_096),
    )
    assert (got.returncode, got.stdout) == (3, "")
    assert got.stderr.splitlines()[-1] == "journal failed"


@pytest.mark.parametrize("words", [[], ["--sync", "none"]], ids=["each", "none"])
def test_without_room_later_what_was_answered_is_kept(
    program: str, tmp_path: pathlib.Path, words: list[str]
) -> None:
    file = tmp_path / "day.journal"
    count = 60_000
    got = subprocess.run(
        [program, "--live", "--journal", str(file), *words],
        input="1,ask\n" * count,
        capture_output=True,
        text=True,
        preexec_fn=limited(1_500_000),
    )
    assert (got.returncode, got.stderr) == (3, "journal 0 entries\njournal failed\n")
    answered = got.stdout.splitlines()
    assert 0 < len(answered) < count
    assert answered == [f"{place}: {ASK}" for place in range(1, len(answered) + 1)]
    kept = committed(file).splitlines()
    assert kept[0] + "\n" == DAY
    assert set(kept[1:]) == {f"1,ask,{ASK}"}
    assert len(answered) <= len(kept) - 1
    again = subprocess.run(
        [program, "--live", "--journal", str(file), *words],
        input="1,ask\n",
        capture_output=True,
        text=True,
    )
    assert again.stdout == f"{len(kept)}: {ASK}\n"
    assert (again.returncode, again.stderr) == (0, f"journal {len(kept) - 1} entries\n")
    assert file.read_text() == DAY + f"1,ask,{ASK}\n" * len(kept)


def test_bad_records_stand_in_no_journal(program: str, tmp_path: pathlib.Path) -> None:
    file = tmp_path / "day.journal"
    got = subprocess.run(
        [program, "--live", "--journal", str(file)],
        input="1,sell\n1,ask\n\n9,ask\n0,uncross\n1,ask",
        capture_output=True,
        text=True,
    )
    assert got.returncode == 1
    assert got.stderr == "journal 0 entries\n"
    answered = [line.split(":")[0] for line in got.stdout.splitlines()]
    assert answered == ["record 1", "1", "record 3", "2", "record 5"]
    assert file.read_text() == f"{DAY}1,ask,{ASK}\n0,uncross,opening no price\n"


@pytest.mark.parametrize(
    "words",
    [
        ["--journal", "FILE"],
        ["--sync", "none"],
        ["--live", "--sync", "none"],
        ["--live", "--journal", "FILE", "--sync", "some"],
        ["--live", "--journal"],
        ["--audit", "--journal", "FILE"],
        ["--live", "--journal", "FILE", "--print", "book"],
    ],
    ids=" ".join,
)
def test_options_that_do_not_go_together_are_refused(
    program: str, tmp_path: pathlib.Path, words: list[str]
) -> None:
    file = tmp_path / "day.journal"
    words = [str(file) if word == "FILE" else word for word in words]
    got = subprocess.run([program, *words], input="1,ask\n", capture_output=True, text=True)
    assert (got.returncode, got.stdout) == (2, "")
    assert got.stderr != ""
    assert not file.exists()

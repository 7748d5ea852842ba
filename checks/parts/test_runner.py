"""The test command itself, on planted parts: what it prints of parts that pass, fail, crash and
hang, which run beside each other and in which order, what it leaves running, and how a run goes on.
"""
import contextlib
import dataclasses
import os
import pathlib
import re
import shutil
import signal
import subprocess
import sys
import time
from collections.abc import Callable, Iterator

import pytest

TOP = pathlib.Path(__file__).resolve().parent.parent.parent
sys.path[:0] = [str(TOP / "checks"), str(TOP / "build")]

import body_groups  # noqa: E402
import build_tasks  # noqa: E402
import built  # noqa: E402
import changed_crates  # noqa: E402
import edits  # noqa: E402
import gate  # noqa: E402
import installed_files  # noqa: E402
import machine  # noqa: E402
import package  # noqa: E402
import passes  # noqa: E402
import program as building  # noqa: E402
import proved_binaries  # noqa: E402
import runner  # noqa: E402
import schedule  # noqa: E402
import tasks  # noqa: E402
import toolchain  # noqa: E402
import version  # noqa: E402
from schedule import Product, Schedule, Task  # noqa: E402

SECONDS = 60.0  # until what has to come is there
PLANTED = """
import pathlib, sys
sys.path[:0] = [{checks!r}, {build!r}]
import built
built.TOP = pathlib.Path({top!r})
import runner, schedule
schedule.PATIENCE = 1.0
runner.PARTS[:] = [runner.Part(*row) for row in {rows!r}]
sys.exit(runner.main())
"""
PARTS = """#!/bin/bash
# What a planted part does: parts.sh NAME WHAT. $RECORD has a line as it begins and as it ends.
echo "begin $1 $$ $TMPDIR" >> "$RECORD"
case $2 in
    meets) until [ "$(grep -c ^begin "$RECORD")" -ge 4 ]; do sleep 0.05; done ;;
    passes) sleep 0.2; echo '3 passed, 0 failed' ;;
    fails) echo 'this was wrong'; echo '2 passed, 1 failed'; echo "end $1" >> "$RECORD"; exit 1 ;;
    lies) echo '2 passed, 0 failed'; exit 1 ;;
    says) [ -e "$RECORD.mended" ] || exit 1 ;;
    crashes) kill -SEGV $$ ;;
    hangs) sleep 1000 ;;
    leaves) setsid sleep 1000 & echo "left $!" >> "$RECORD" ;;
    refuses) trap '' INT TERM; setsid sleep 1000 & echo "left $!" >> "$RECORD"
        while true; do sleep 0.1; done ;;
    edits) echo 1 >> source ;;
esac
echo "end $1" >> "$RECORD"
"""
SECOND = re.compile(r"\d+\.\d s|\d+:\d\d")


class Planted:
    """A repository with planted parts, of which a row is a name and what the part does."""

    def __init__(self, folder: pathlib.Path, rows: list[str]) -> None:
        self.top, self.record = folder / "a repository", folder / "record"
        self.top.mkdir()
        subprocess.run(["git", "init", "-q"], cwd=self.top, check=True)
        (self.top / ".gitignore").write_text("out/\n")
        (self.top / "source").write_text("1\n")
        (self.top / "parts.sh").write_text(PARTS)
        (self.top / "parts.sh").chmod(0o755)
        parts = []
        for row in rows:
            name, what, *alone = row.split()
            parts.append((name, "planted", f"./parts.sh {name} {what}", "", "", bool(alone)))
        self.script = folder / "planted.py"
        paths = {name: str(TOP / name) for name in ("checks", "build")}
        self.script.write_text(PLANTED.format(top=str(self.top), rows=parts, **paths))

    def start(self, *words: str) -> "subprocess.Popen[str]":
        """Begins a run."""
        command = ["env", "--default-signal=INT,TERM", sys.executable, str(self.script), *words]
        env = os.environ | {"RECORD": str(self.record), "PYTHONDONTWRITEBYTECODE": "1"}
        pipe = subprocess.PIPE
        return subprocess.Popen(
            command, cwd="/", env=env, stdin=subprocess.DEVNULL, stdout=pipe, stderr=pipe, text=True
        )

    def run(self, *words: str) -> tuple[int, list[str]]:
        """The status of a run, and the lines that it printed."""
        self.record.write_text("")
        child = self.start(*words)
        out, error = child.communicate(timeout=SECONDS)
        assert error == "" or child.returncode == 2, error
        return child.returncode, (out + error).splitlines()

    def recorded(self, word: str) -> list[list[str]]:
        """What parts have written down under this word."""
        rows = [line.split() for line in self.record.read_text().splitlines()]
        return [row[1:] for row in rows if row[0] == word]

    def begun(self) -> list[str]:
        """The parts that have begun, in their order."""
        return [row[0] for row in self.recorded("begin")]

    def apart(self) -> bool:
        """Whether each part had ended before another one began."""
        words = [line.split()[0] for line in self.record.read_text().splitlines()]
        return words == ["begin", "end"] * (len(words) // 2)

    def until(self, count: int) -> None:
        """Waits until as many parts have begun."""
        wait_for(lambda: self.record.exists() and len(self.begun()) >= count)


Plant = Callable[..., Planted]


@pytest.fixture
def plant(tmp_path: pathlib.Path) -> Plant:
    """Plants a repository with parts of these rows."""
    return lambda *rows: Planted(tmp_path, [*rows])


def wait_for(holds: Callable[[], bool]) -> None:
    """Waits until this holds."""
    last = time.monotonic() + SECONDS
    while not holds():
        assert time.monotonic() < last
        time.sleep(0.02)


def runs(process: str) -> bool:
    """Whether a process runs, by its number."""
    with contextlib.suppress(OSError):
        state = pathlib.Path("/proc", process, "stat").read_text().rpartition(")")[2].split()[0]
        return state != "Z"
    return False


def plain(lines: list[str]) -> list[str]:
    """Lines without their seconds and without the line of the whole time, in one order."""
    kept = [line for line in lines if not re.match(r"check: \d+:\d\d on ", line)]
    return sorted(SECOND.sub("..", line) for line in kept)


# ---- what is printed

MIXED = ["good passes", "bad fails", "liar lies", "still says", "gone crashes"]
PRINTED = """\
bad: this was wrong
bad: 2 passed, 1 failed
check: bad: FAILED: 2 of 3 passed, ..
check: gone: FAILED: 0 of 1 passed, ..
check: good: ok: 3 of 3 passed, ..
check: liar: FAILED: 2 of 3 passed, ..
check: still: FAILED: 0 of 1 passed, ..
gone: ended by SIGSEGV
liar: 2 passed, 0 failed
7 passed, 4 failed
"""


@pytest.mark.parametrize("jobs", ["1", "4"])
def test_what_parts_print_is_shown_where_they_fail(plant: Plant, jobs: str) -> None:
    planted = plant(*MIXED)
    status, lines = planted.run("-j", jobs)
    assert status == 1
    assert plain(lines) == sorted(PRINTED.splitlines())
    assert lines[-1] == "7 passed, 4 failed"
    assert lines.index("bad: this was wrong") + 1 == lines.index("bad: 2 passed, 1 failed")
    assert sorted(planted.begun()) == sorted(row.split()[0] for row in MIXED)


def test_a_run_whose_parts_all_pass_says_how_long_it_took(plant: Plant) -> None:
    status, lines = plant("one passes", "other passes").run()
    assert (status, lines[-1]) == (0, "6 passed, 0 failed")
    assert re.fullmatch(r"check: \d+:\d\d on \d+ cores?, \d+ at once; the longest: .*", lines[-2])


def test_with_show_all_that_parts_print_is_shown(plant: Plant) -> None:
    planted = plant("one passes", "bad fails")
    planted.record.write_text("")
    out, error = planted.start("--show").communicate(timeout=SECONDS)
    assert out.count("one: 3 passed, 0 failed\n") == out.count("bad: this was wrong\n") == 1
    assert sorted(error.splitlines()) == ["check: bad: planted", "check: one: planted"]


@pytest.mark.parametrize("words", [["none"], ["-j", "0"], ["-j", "x"], ["--jobs", "-1"]])
def test_wrong_words_start_nothing(plant: Plant, words: list[str]) -> None:
    planted = plant("one passes")
    assert planted.run(*words)[0] == 2
    assert planted.begun() == []


def test_a_second_run_is_refused(plant: Plant) -> None:
    planted = plant("one hangs")
    first = planted.start()
    planted.until(1)
    second = planted.start()
    out, error = second.communicate(timeout=SECONDS)
    assert (second.returncode, out) == (2, "0 passed, 1 failed\n")
    assert error == "check: another ./check runs in this repository\n"
    first.terminate()
    first.communicate(timeout=SECONDS)


# ---- what runs beside what

def test_parts_run_side_by_side(plant: Plant) -> None:
    assert plant(*(f"part{it} meets" for it in range(4))).run("-j", "4")[0] == 0


def test_with_one_job_parts_run_one_after_the_other(plant: Plant) -> None:
    planted = plant(*(f"part{it} passes" for it in range(4)))
    assert planted.run("-j", "1")[0] == 0
    assert planted.apart()


def test_nothing_runs_beside_a_part_that_runs_alone(plant: Plant) -> None:
    planted = plant("alone passes alone", "one passes", "two passes", "lone passes alone")
    assert planted.run("-j", "4")[0] == 0
    words = [line.split()[:2] for line in planted.record.read_text().splitlines()]
    for name in ("alone", "lone"):
        begin = words.index(["begin", name])
        assert words[begin + 1] == ["end", name]
    assert {name for _, name in words[:4]} == {"one", "two"}


def test_parts_begin_with_the_new_and_the_longest(plant: Plant) -> None:
    planted = plant("short passes", "long passes", "new passes", "longest passes")
    (planted.top / "out/check").mkdir(parents=True)
    rows = "short 2.0\nlonger 8\nlong 9.5\nlongest 99.0\n"
    (planted.top / "out/check/seconds.txt").write_text(rows)
    planted.run("-j", "1")
    assert planted.begun() == ["new", "longest", "long", "short"]


def test_parts_of_a_new_clone_begin_with_the_longest_too(plant: Plant) -> None:
    planted = plant("short passes", "long passes", "longest passes")
    (planted.top / "checks").mkdir()
    stored = planted.top / "checks/part_seconds.txt"
    stored.write_text("short 20.0\nlong 90.0\nlongest 900.0\n")
    planted.run("-j", "1")
    assert planted.begun() == ["longest", "long", "short"]
    (planted.top / "out/check/seconds.txt").write_text("short 9.0\nlong 2.0\ngone 7.0\n")
    planted.run("-j", "1")
    assert planted.begun() == ["longest", "short", "long"]
    (planted.top / "out/check/seconds.txt").write_text("short 9.0\nlong 2.0\ngone 7.0\n")
    assert planted.run("--keep-seconds") == (0, []) and planted.begun() == []
    assert stored.read_text() == "longest 900.0\nshort 9.0\nlong 2.0\n"


def test_seconds_are_learned(plant: Plant) -> None:
    planted = plant("one passes", "bad fails")
    planted.run()
    ((name, seconds),) = [
        line.split() for line in (planted.top / "out/check/seconds.txt").read_text().splitlines()
    ]
    assert name == "one" and 0.2 <= float(seconds) < SECONDS


@pytest.mark.parametrize("text", ["", "one\n", "one x\n", "\n\n", "one 1 2 3\n", "\0"])
def test_damaged_files_of_earlier_runs_are_passed_over(plant: Plant, text: str) -> None:
    planted = plant("one passes")
    (planted.top / "out/check").mkdir(parents=True)
    for name in ("seconds.txt", "passed.txt"):
        (planted.top / "out/check" / name).write_text(text)
    assert planted.run("--resume")[0] == 0
    assert planted.begun() == ["one"]


# ---- what goes wrong

def test_a_part_that_is_killed_has_failed(plant: Plant) -> None:
    planted = plant("one hangs", "two passes")
    child = planted.start()
    planted.until(2)
    (process,) = [row[1] for row in planted.recorded("begin") if row[0] == "one"]
    os.kill(int(process), signal.SIGKILL)
    out, _ = child.communicate(timeout=SECONDS)
    assert child.returncode == 1
    assert "one: ended by SIGKILL\n" in out and "check: two: ok: 3 of 3" in out
    assert out.endswith("\n3 passed, 1 failed\n")


@pytest.mark.parametrize("how", [signal.SIGTERM, signal.SIGINT], ids=["SIGTERM", "SIGINT"])
def test_a_run_that_is_broken_off_ends_its_parts(plant: Plant, how: signal.Signals) -> None:
    planted = plant("one passes", "two refuses", "three hangs", "four passes alone")
    child = planted.start("-j", "3")
    planted.until(3)
    passed = planted.top / "out/check/passed.txt"
    wait_for(lambda: bool(planted.recorded("left")) and passed.exists())
    child.send_signal(how)
    out, _ = child.communicate(timeout=SECONDS)
    assert child.returncode == 130
    lines = out.splitlines()
    assert [line.split(":")[1:3] for line in lines[1:3]] == [
        [" two", " BROKEN OFF"],
        [" three", " BROKEN OFF"],
    ]
    assert lines[3] == "check: not run: four"
    assert lines[-1] == "3 passed, 3 failed"
    rows = [*planted.recorded("begin"), *planted.recorded("left")]
    processes = [row[1] if len(row) > 1 else row[0] for row in rows]
    assert not [it for it in processes if runs(it)]
    rooms = [row[2] for row in planted.recorded("begin")]
    assert not any(os.path.exists(room) for room in rooms)


def test_what_a_part_leaves_running_is_ended(plant: Plant) -> None:
    planted = plant("one leaves", "two passes")
    assert planted.run()[0] == 0
    ((left,),) = planted.recorded("left")
    assert not runs(left)


def test_each_part_has_its_temporary_folder(plant: Plant) -> None:
    planted = plant("one passes", "two passes")
    planted.run()
    rooms = [pathlib.Path(row[2]) for row in planted.recorded("begin")]
    assert sorted(room.name for room in rooms) == ["one", "two"]
    assert not rooms[0].parent.exists()


# ---- a run that goes on

def test_a_run_goes_on(plant: Plant) -> None:
    planted = plant("one passes", "two says", "three passes")
    assert planted.run()[1][-1] == "6 passed, 1 failed"
    pathlib.Path(f"{planted.record}.mended").write_text("")
    status, lines = planted.run("--resume")
    assert (status, planted.begun()) == (0, ["two"])
    before = [line for line in lines if line.endswith(" before")]
    assert [line.split(":")[1] for line in before] == [" one", " three"]
    assert lines[-1] == "7 passed, 0 failed"
    assert planted.run("--resume")[1][-1] == "7 passed, 0 failed"
    assert planted.begun() == []
    planted.run("one")
    assert planted.begun() == ["one"]
    planted.run("--resume", "one", "two")
    assert planted.begun() == []


def change_text(top: pathlib.Path) -> None:
    (top / "source").write_text("2\n")


def change_mode(top: pathlib.Path) -> None:
    (top / "source").chmod(0o755)


def add_file(top: pathlib.Path) -> None:
    (top / "new").write_text("")


def make_link(top: pathlib.Path) -> None:
    (top / "source").unlink()
    (top / "source").symlink_to("parts.sh")


def remove_file(top: pathlib.Path) -> None:
    subprocess.run(["git", "add", "source"], cwd=top, check=True)
    (top / "source").unlink()


@pytest.mark.parametrize("change", [change_text, change_mode, add_file, make_link, remove_file])
def test_changed_sources_run_again(plant: Plant, change: Callable[[pathlib.Path], None]) -> None:
    planted = plant("one passes", "two passes")
    planted.run()
    (planted.top / "out/other").write_text("what is made is no source\n")
    planted.run("--resume")
    assert planted.begun() == []
    change(planted.top)
    planted.run("--resume")
    assert sorted(planted.begun()) == ["one", "two"]


def test_what_fails_later_passed_no_more(plant: Plant) -> None:
    planted = plant("one says")
    mended = pathlib.Path(f"{planted.record}.mended")
    mended.write_text("")
    assert planted.run()[0] == 0
    mended.unlink()
    assert planted.run()[0] == 1
    assert planted.run("--resume")[0] == 1


def test_sources_that_change_meanwhile_have_all_run_again(plant: Plant) -> None:
    planted = plant("one edits", "two passes")
    lines = planted.run("-j", "1")[1]
    note = "check: sources were changed meanwhile: nothing more is kept for --resume"
    assert lines.count(note) == 1
    planted.run("--resume")
    assert sorted(planted.begun()) == ["one", "two"]


def test_a_run_that_was_broken_off_goes_on(plant: Plant) -> None:
    planted = plant("one passes", "two hangs")
    child = planted.start("-j", "1")
    planted.until(2)
    child.terminate()
    child.communicate(timeout=SECONDS)
    planted.record.write_text("")
    child = planted.start("--resume")
    planted.until(1)
    assert planted.begun() == ["two"]
    child.terminate()
    child.communicate(timeout=SECONDS)


# ---- what is built

class Heard(schedule.Viewer):
    """Keeps what is heard of tasks: the names as they begin and end, and why one wasn't begun."""

    def __init__(self) -> None:
        self.rows: list[str] = []

    def begun(self, task: Task) -> None:
        self.rows.append(f"begin {task.name}")

    def ended(self, how: schedule.Ended) -> None:
        self.rows.append(f"end {task_end(how)}")


def task_end(how: schedule.Ended) -> str:
    """How a task ended, in words."""
    return f"{how.task.name} {how.why or how.status}"


def shell(name: str, text: str, *needs: str, is_proof: bool = False, gives: object = ()) -> Task:
    """A task that runs a text of the shell."""
    made = tuple(gives) if isinstance(gives, list) else ()
    return Task(name, lambda: ["sh", "-c", text], frozenset(needs), made, is_proof=is_proof)


@pytest.fixture(name="scheduled")
def schedules(tmp_path: pathlib.Path) -> Iterator[Callable[..., list[str]]]:
    """Runs tasks, and answers what was heard of them."""
    def scheduled(*tasks: Task, jobs: int = 4) -> list[str]:
        heard = Heard()
        Schedule([*tasks], {"there"}, {}, jobs, heard).run(tmp_path, tmp_path, tmp_path)
        return heard.rows

    yield scheduled


Scheduled = Callable[..., list[str]]


def test_a_product_is_there_before_its_maker_ends(scheduled: Scheduled) -> None:
    taken: list[str] = []
    product = Product("it", frozenset({"one", "two"}), lambda: taken.append("it"))
    text = "echo one; echo other; sleep 0.2; echo two; until [ -e used ]; do sleep 0.05; done"
    maker = shell("maker", text, gives=[product])
    rows = scheduled(maker, shell("user", "touch used", "it", "there"))
    assert rows[:2] == ["begin maker", "begin user"]
    assert taken == ["it"]


@pytest.mark.parametrize("text", ["echo one", "echo one; exit 3", "printf 'on\\ne'"])
def test_who_needs_a_product_that_is_not_made_does_not_begin(
    scheduled: Scheduled, text: str
) -> None:
    product = Product("it", frozenset({"one", "two"}))
    rows = scheduled(shell("maker", text, gives=[product]), shell("user", "true", "it"))
    assert rows[-1] == "end user maker made no it: see maker.log"
    assert "begin user" not in rows


def test_who_needs_a_product_of_a_task_that_fails_does_not_begin(scheduled: Scheduled) -> None:
    product = Product("it")
    rows = scheduled(shell("maker", "exit 1", gives=[product]), shell("user", "true", "it"))
    assert rows == ["begin maker", "end maker 1", "end user maker made no it: see maker.log"]


def test_who_needs_a_product_that_cannot_be_taken_does_not_begin(scheduled: Scheduled) -> None:
    def refuse() -> None:
        raise schedule.TaskError("it is broken")

    product = Product("it", take=refuse)
    rows = scheduled(shell("maker", "true", gives=[product]), shell("user", "true", "it"))
    assert rows[-1] == "end user it is broken"


@pytest.mark.parametrize("text", ["exec sleep 1000", "trap 'exit 0' INT; sleep 1000 & wait"])
def test_a_task_that_hangs_is_ended(scheduled: Scheduled, text: str) -> None:
    """Whatever it does then, the others go on."""
    late = dataclasses.replace(shell("late", text), most_seconds=1.0)
    rows = scheduled(late, shell("other", "exit 0", "there"), jobs=1)
    assert rows[1:] == [
        "end late ended after 0:01, its longest time",
        "begin other",
        "end other 0",
    ]


def test_a_part_that_hangs_fails(plant: Plant) -> None:
    planted = plant("one hangs", "two passes")
    script = planted.script.read_text()
    limit = "\nimport tasks\ntasks.MOST_SECONDS = 1.0\nrunner.PARTS"
    planted.script.write_text(script.replace("\nrunner.PARTS", limit))
    status, lines = planted.run("-j", "1")
    assert status == 1 and lines[-1] == "3 passed, 1 failed"
    assert "one: ended after 0:01, its longest time" in lines


def test_a_product_that_nobody_makes_is_said(scheduled: Scheduled) -> None:
    rows = scheduled(shell("user", "true", "it"), shell("other", "true"))
    assert sorted(rows) == ["begin other", "end other 0", "end user nothing makes it"]


def test_a_command_that_is_not_there_is_said(scheduled: Scheduled) -> None:
    (row,) = scheduled(Task("one", lambda: ["./nowhere"]))
    assert row.startswith("end one [Errno 2] No such file")


@pytest.mark.parametrize(
    "free, is_proof, beside_another",
    [(3.9, True, False), (7.9, True, False), (8.1, True, True), (0.9, False, False)],
)
def test_tasks_begin_beside_others_where_memory_is_free(
    scheduled: Scheduled,
    monkeypatch: pytest.MonkeyPatch,
    free: float,
    is_proof: bool,
    beside_another: bool,
) -> None:
    monkeypatch.setattr(machine, "free_gib", lambda: free)
    rows = scheduled(*(shell(name, "sleep 0.3", is_proof=is_proof) for name in ("one", "two")))
    assert (rows[1] == "begin two") == beside_another


def test_a_proof_leaves_room_to_others(
    scheduled: Scheduled, monkeypatch: pytest.MonkeyPatch
) -> None:
    monkeypatch.setattr(machine, "free_gib", lambda: 5.5)
    rows = scheduled(shell("proof", "sleep 0.3", is_proof=True), shell("other", "true"))
    assert rows[:2] == ["begin proof", "begin other"]


def test_the_gates_copy_has_the_sources_alone(
    plant: Plant, monkeypatch: pytest.MonkeyPatch
) -> None:
    planted = plant("one passes")
    (planted.top / "out").mkdir()
    (planted.top / "out/made").write_text("")
    (planted.top / "a folder").mkdir()
    (planted.top / "a folder/link").symlink_to("../source")
    monkeypatch.setattr(built, "TOP", planted.top)
    to = planted.top.parent / "copy"
    gate.copy(to, [])
    names = {str(it.relative_to(to)) for it in to.rglob("*")}
    assert names == {".git", ".gitignore", "a folder", "a folder/link", "parts.sh", "source"}
    assert os.readlink(to / "a folder/link") == "../source"
    assert os.access(to / "parts.sh", os.X_OK) and not os.access(to / "source", os.X_OK)
    assert passes.files_of(planted.top) == [".gitignore", "a folder/link", "parts.sh", "source"]


@pytest.fixture(name="three")
def built_files(tmp_path: pathlib.Path, monkeypatch: pytest.MonkeyPatch) -> pathlib.Path:
    """A repository in which a program, its tests and a library are built, and the gate's are kept.
    """
    for name in ("PROGRAM", "TESTS", "CLOCK", "ARCHIVE"):
        monkeypatch.setattr(built, name, tmp_path / "usual" / name)
    monkeypatch.setattr(build_tasks, "KEPT", tmp_path / "kept")
    monkeypatch.setattr(built, "newest_source", lambda: time.time() - 1000)
    for folder, names in {
        "usual": ("PROGRAM", "ARCHIVE"),
        "kept": ("PROGRAM", "TESTS", "CLOCK"),
    }.items():
        (tmp_path / folder).mkdir()
        for name in names:
            (tmp_path / folder / name).write_text("")
    return tmp_path


EVERY = {"PROGRAM", "TESTS", "CLOCK", "LIBRARY"}


def test_without_the_gate_what_is_old_is_built(three: pathlib.Path) -> None:
    found = build_tasks.Builds(EVERY, False, False, three)
    assert found.there == {"PROGRAM", "LIBRARY"}
    assert found.path("PROGRAM") == str(three / "usual/PROGRAM")
    assert [task.name for task in found.tasks()] == ["build_tests", "build_clock"]
    os.utime(three / "usual/PROGRAM", (1, 1))  # older than the sources
    later = [*build_tasks.Builds(EVERY, False, False, three).tasks()]
    assert [(task.name, *task.needs) for task in later] == [
        ("build_program",),
        ("build_tests", "PROGRAM"),
        ("build_clock", "TESTS"),
    ]


def test_after_the_gate_what_it_built_is_taken(three: pathlib.Path) -> None:
    found = build_tasks.Builds(EVERY, False, True, three)
    assert found.there == EVERY and [*found.tasks()] == []
    assert found.path("TESTS") == str(three / "kept/TESTS")
    (three / "kept/TESTS").unlink()
    usual = build_tasks.Builds(EVERY, False, True, three).path("PROGRAM")
    assert usual == str(three / "usual/PROGRAM")


def test_in_the_gate_all_comes_of_what_it_proves(
    three: pathlib.Path, monkeypatch: pytest.MonkeyPatch
) -> None:
    found = build_tasks.Builds(EVERY, True, False, three)
    assert found.there == set()
    (task,) = found.tasks()
    assert (task.name, *task.needs) == ("build_library", build_tasks.PROVED)
    made = {product.name: product for product in found.of_gate()}
    assert made["PROGRAM"].lines == {"rt: callboard proved"}
    assert "rt: auction proved" in made[build_tasks.PROVED].lines
    monkeypatch.setattr(built, "TOP", three)
    with pytest.raises(OSError):
        made["PROGRAM"].take()
    (three / ".gate/usual").mkdir(parents=True)
    (three / ".gate/usual/PROGRAM").write_text("proved from nothing")
    made["PROGRAM"].take()
    for folder in ("usual", "kept"):
        assert (three / folder / "PROGRAM").read_text() == "proved from nothing"
    (three / "usual/ARCHIVE").unlink()
    with pytest.raises(schedule.TaskError, match="ARCHIVE was not built"):
        task.gives[0].take()


@pytest.mark.parametrize(
    "change, is_kept", [("nothing", True), ("program", False), ("sources", False), ("gate", False)]
)
def test_a_run_over_the_gates_binaries_is_kept(
    three: pathlib.Path, monkeypatch: pytest.MonkeyPatch, change: str, is_kept: bool
) -> None:
    written: list[tuple[str, list[str]]] = []
    monkeypatch.setattr(proved_binaries, "write", lambda *given: written.append(given))
    monkeypatch.setattr(runner, "sources", lambda: "other" if change == "sources" else "these")
    if change == "program":
        (three / "usual/PROGRAM").write_text("built meanwhile")
    parts = ["layout"] if change == "gate" else ["layout", "ci"]
    passed = passes.Passes(three / "passed.txt", "these")
    seconds = passes.Seconds(three / "seconds.txt", three / "none")
    results = runner.Results([], False, seconds, passed)
    results.passed = 7
    runner.keep_binaries(results, build_tasks.Builds(EVERY, True, False, three), parts)
    assert written == ([("7 passed, 0 failed", parts)] if is_kept else [])


def test_wrong_bodies_are_tried_once(
    tmp_path: pathlib.Path, monkeypatch: pytest.MonkeyPatch
) -> None:
    """In the gate, or over what it proved."""
    for name in ("low", "plain"):
        (tmp_path / "crates" / name / "src").mkdir(parents=True)
    (tmp_path / "crates/low/must-fail").mkdir()
    (tmp_path / "crates/low/must-fail/a.edit").write_text("")
    every = edits.all_edits(tmp_path)
    monkeypatch.setattr(edits, "all_edits", lambda: every)
    assert tasks.tried_elsewhere({"ci", "layout"}) == []
    assert tasks.tried_elsewhere({"ci", "bodies"}) == ["low"]
    monkeypatch.setattr(built, "TOP", tmp_path)
    gate.copy(tmp_path / "left", tasks.tried_elsewhere({"ci", "bodies"}))
    assert [*tmp_path.glob("left/**/*.edit")] == []
    gate.copy(tmp_path / "all", [])
    assert (tmp_path / "all/crates/low/must-fail/a.edit").is_file()


def test_libraries_are_kept_for_wrong_bodies(
    three: pathlib.Path, monkeypatch: pytest.MonkeyPatch
) -> None:
    monkeypatch.setattr(build_tasks, "libraries", lambda: ["low", "high"])
    found = build_tasks.Builds({"LIBRARIES"}, True, False, three)
    (made,) = [product for product in found.of_gate() if product.name == "LIBRARIES"]
    assert made.lines == {"rt: low proved", "rt: high proved"} and not made.is_at_end
    for name in ("low", "high"):
        (three / ".gate/crates" / name / f"out/rlib/{name}.rlib").mkdir(parents=True)
        (three / ".gate/crates" / name / f"out/rlib/{name}.rlib/format").write_text(name)
    for _ in range(2):  # what an earlier run has kept gives way
        made.take()
    assert (three / "kept/libraries/high/high.rlib/format").read_text() == "high"
    assert found.path("LIBRARIES") == str(three / "kept/libraries")
    assert build_tasks.Builds({"LIBRARIES"}, False, True, three).there == {"LIBRARIES"}
    assert build_tasks.Builds({"LIBRARIES"}, False, False, three).there == set()
    found.drop_libraries()
    assert build_tasks.Builds({"LIBRARIES"}, False, True, three).there == set()


def test_libraries_are_those_that_others_stand_on() -> None:
    found = build_tasks.libraries()
    assert {"auction_terms", "program_runs"} <= {*found}
    assert not {"callboard", "auction_c"} & {*found}


def test_wrong_bodies_want_the_gate(plant: Plant) -> None:
    status, lines = plant("bodies LIBRARIES", "ci passes").run("bodies")
    assert status == 2 and "check: bodies takes what ci proves: name ci too" in lines, lines


TOOLCHAIN = """#!/usr/bin/env python3
import pathlib, sys
asked, body = sys.argv[1:], pathlib.Path("src/sums.rt").read_text()
if "new" in asked:
    print("error: several functions are named `new`: help: write one of "
          "`low::sums::new`, `low::other::Other::new`")
    sys.exit(1)
known = {"low::other::Other::new": "u64", "low::sums::new": "    1", "low::sums::one": "    2"}
names = [it for it in known if it in asked or it.rpartition("::")[2] in asked] or [*known]
if "broken" in body:
    print("error: this doesn't compile")
    sys.exit(1)
for it in names:
    is_right = known[it] in body and "Limit(9)" in body
    print(f"fn {it}: " + ("proved" if is_right else "no proof: `search` did not prove `returns`"))
print(" ".join(asked), file=open("asked.txt", "a"))
"""
SUMS = """const MOST: Limit = Limit(9);

fn new() -> u64 {
    1
}

fn one() -> u64 {
    2
}
"""


@pytest.mark.parametrize(
    "changes, refused, asked",
    [
        ([("    1", "    7")], {"0"}, ["--only low::sums::new"]),
        ([("    2", "    7")], {"0"}, ["--only one"]),
        ([("    2", "    2 ")], set(), ["--only one"]),  # which is no other body
        ([("    2", "    broken")], set(), []),
        ([("Limit(9)", "Limit(8)")], {"0"}, [""]),  # in no function: all are looked at
        ([("Limit(9)", "Limit(9) ")], set(), [""]),
        ([("    2", "    7"), ("    2", "    broken")], {"0"}, ["--only one"]),
    ],
)
def test_wrong_bodies_function_by_function(
    tmp_path: pathlib.Path, changes: list[tuple[str, str]], refused: set[str], asked: list[str]
) -> None:
    """By a planted toolchain, which answers as the true one does."""
    crate = tmp_path / "low"
    (crate / "src").mkdir(parents=True)
    (crate / "src/sums.rt").write_text(SUMS)
    tool = tmp_path / "tool"
    tool.write_text(TOOLCHAIN)
    tool.chmod(0o755)
    tried = []
    for place, (old, new) in enumerate(changes):
        file = tmp_path / f"{place}.edit"
        file.write_text(f"file: src/sums.rt\nold: {old}\nnew: {new}\n")
        tried.append(edits.Edit("low", file, True))
    found = {it.file.stem for it in body_groups.refused_over(tried, crate, [str(tool)])}
    log = crate / "asked.txt"
    assert found == refused and (crate / "src/sums.rt").read_text() == SUMS
    assert (log.read_text().splitlines() if log.exists() else []) == asked


# ---- building crates


@pytest.mark.parametrize("names, said", [
    ([], "there is no rt: put the toolchain on the path"), (["no"], "crates.txt has no crate no"),
])
def test_a_build_that_cannot_begin_has_a_status_of_its_own(
    names: list[str], said: str, monkeypatch: pytest.MonkeyPatch,
    capsys: pytest.CaptureFixture[str],
) -> None:
    monkeypatch.setattr(sys, "argv", ["program.py", *names])
    monkeypatch.setattr(building.shutil, "which", lambda tool: "rt" if names else None)
    assert building.main() == 2
    assert capsys.readouterr().err == f"callboard: {said}\n"


def test_seconds_of_crates_are_kept_as_they_are_proved(
    tmp_path: pathlib.Path, monkeypatch: pytest.MonkeyPatch
) -> None:
    here, kept = tmp_path / "here", tmp_path / "kept"
    monkeypatch.setattr(building, "SECONDS", here)
    monkeypatch.setattr(building, "KEPT_SECONDS", kept)
    lines = {"low": "low:\n", "high": "high: low\n"}
    monkeypatch.setattr(building, "crate_lines", lambda top: lines)
    with pytest.raises(building.CannotBuildError):
        building.keep_seconds()
    here.write_text("gone 5.0 6.0\nhigh 7.0 9.5\nlow 1.0 2.0\n")
    building.keep_seconds()
    assert [line for line in kept.read_text().splitlines() if line[0] != "#"] == [
        "low 1.0 2.0",
        "high 7.0 9.5",
    ]
    known = building.seconds_in(kept)
    assert known["high"] == building.Took(7.0, 9.5)
    assert building.seconds_to_top({"low": [], "high": ["low"], "new": ["low"]}, known) == {
        "new": building.UNKNOWN,
        "high": 7.0,
        "low": 1.0 + building.UNKNOWN,
    }


def test_no_seconds_of_crates_that_are_gone() -> None:
    known = building.seconds_in(building.KEPT_SECONDS)
    assert known and set(known) <= set(toolchain.crate_lines(TOP))


# ---- short runs, and runs on what is installed

CRATES_TXT = "low:\nmiddle: low slab\nhigh: low middle slab\nother:\n"


@pytest.fixture(name="repository")
def repository_of_crates(tmp_path: pathlib.Path, monkeypatch: pytest.MonkeyPatch) -> pathlib.Path:
    """A repository of four crates, of which one is below two others, with a commit."""
    (tmp_path / "crates.txt").write_text(CRATES_TXT)
    for name in ("low", "middle", "high", "other"):
        for part in ("src", "must-fail"):
            (tmp_path / "crates" / name / part).mkdir(parents=True)
            (tmp_path / "crates" / name / part / "a file").write_text("1\n")
    git = ["git", "-c", "user.name=x", "-c", "user.email=x@x"]
    for words in (["init", "-q"], ["add", "."], ["commit", "-q", "-m", "first"]):
        subprocess.run([*git, *words], cwd=tmp_path, check=True)
    monkeypatch.setattr(changed_crates, "TOP", tmp_path)
    return tmp_path


@pytest.mark.parametrize(
    "file, text, names",
    [
        ("crates/low/src/a file", "2\n", ["low", "middle", "high"]),
        ("crates/middle/src/new", "", ["middle", "high"]),
        ("crates/high/must-fail/a file", "2\n", []),
        ("crates/other/specs/new", "", ["other"]),
        ("new", "", []),
        ("crates.txt", CRATES_TXT.replace("other:", "other: slab"), ["other"]),
    ],
)
def test_what_changed_names_the_crates_that_stand_on_it(
    repository: pathlib.Path, file: str, text: str, names: list[str]
) -> None:
    commit = changed_crates.usual_commit()
    assert changed_crates.changed(commit) == []
    (repository / file).parent.mkdir(exist_ok=True)
    (repository / file).write_text(text)
    assert sorted(changed_crates.changed(commit)) == sorted(names)
    assert names == [] or changed_crates.changed("HEAD")[0] == names[0]


def test_what_changed_is_since_origins_main(repository: pathlib.Path) -> None:
    first = changed_crates.usual_commit()
    git = ["git", "-c", "user.name=x", "-c", "user.email=x@x"]
    subprocess.run([*git, "update-ref", "refs/remotes/origin/main", "HEAD"], cwd=repository)
    (repository / "crates/other/src/a file").write_text("2\n")
    subprocess.run([*git, "commit", "-q", "-a", "-m", "second"], cwd=repository, check=True)
    assert changed_crates.usual_commit() == first
    assert changed_crates.changed(first) == ["other"]
    assert changed_crates.changed("HEAD") == []


def test_each_part_has_a_short_command_or_none() -> None:
    found = {part.name: part.command for part in runner.short(runner.PARTS, "COMMIT")}
    names = {part.name for part in runner.PARTS} - {runner.GATE, runner.BODIES, "runner"}
    assert set(found) == names | {"crates"}
    assert found["crates"] == "checks/changed_crates.py COMMIT"
    for part in runner.PARTS:
        if part.name in names - {"layout", "edits", "header", "promises"}:
            assert found[part.name] not in ("", part.command)


def test_each_file_of_a_venue_s_tests_is_of_one_part() -> None:
    folder = TOP / "python"
    files = {str(it.relative_to(folder)) for it in folder.glob("tests_venue/test_*.py")}
    words = {part.name: part.command.split() for part in runner.PARTS}
    named = {
        name: [str(it.relative_to(folder)) for word in words[name][2:] for it in folder.glob(word)]
        for name in ("fix", "floods")
    }
    ignored = [word.partition("=")[2] for word in words["venue"] if "--ignore" in word]
    left_out = {str(it.relative_to(folder)) for word in ignored for it in folder.glob(word)}
    assert sorted(left_out) == sorted(named["fix"] + named["floods"])
    assert left_out < files and len(named["fix"]) > 20


def package_in(folder: pathlib.Path, *places: str, version_of: str = "") -> pathlib.Path:
    """A folder with these places, of which a program says that it has this version."""
    said = f"callboard {version_of or version.version()}"
    for place in places:
        (folder / place).parent.mkdir(parents=True, exist_ok=True)
        (folder / place).write_text(f"#!/bin/sh\necho '{said}'\n")
        (folder / place).chmod(0o755)
    return folder


OF_WHEEL = "lib/python3.11/site-packages/callauction"
OF_DEBIAN = ("bin/callboard", "lib/x86_64-linux-gnu/libcallauction.a")
OF_DEBIAN += ("lib/python3/dist-packages/callauction/__init__.py",)
OF_INSTALL = ("bin/callboard", "lib/libcallauction.a", "share/callauction/installed")


@pytest.mark.parametrize(
    "places, there",
    [
        (["callboard"], {"PROGRAM"}),
        (OF_INSTALL, {"PROGRAM", "LIBRARY"}),
        ([f"{OF_WHEEL}/bin/callboard"], {"PROGRAM", "PACKAGE"}),
        (OF_DEBIAN, {"PROGRAM", "LIBRARY", "PACKAGE"}),
    ],
    ids=["tarball", "./install --without-python", "wheel", "packages of Debian"],
)
def test_what_a_package_has_is_found(
    capsys: pytest.CaptureFixture[str], tmp_path: pathlib.Path, places: list[str], there: set[str]
) -> None:
    prefix = package_in(tmp_path / "a prefix", *places)
    found = package.Package(prefix, tmp_path)
    assert found.files.keys() == there | {"PREFIX"}
    assert found.path("PROGRAM") == str(prefix / places[0])
    if "PACKAGE" in there:
        assert found.path("PACKAGE") in str(next(prefix.glob("lib/python3*/*-packages")))
    parts = {part.name: part for part in runner.installed(runner.chosen([], True), found, False)}
    assert parts.keys() >= {"files", "examples", "compare", "hostile", "live", "refusals"}
    is_whole = places in (OF_INSTALL, OF_DEBIAN)
    assert ("library" in parts) == is_whole
    assert ("python" in parts) == ("market" in parts) == (is_whole or "PACKAGE" in there)
    assert not parts.keys() & {"layout", "ci", "release"}
    said = capsys.readouterr().out
    assert ("check: library: not run: " in said) == ("library" not in parts)
    assert ("has no package for Python\n" in said) == ("python" not in parts)


def test_a_package_that_is_none_is_refused(tmp_path: pathlib.Path) -> None:
    with pytest.raises(schedule.TaskError, match="has no program bin/callboard or callboard"):
        package.Package(tmp_path, tmp_path)
    old = package_in(tmp_path, "callboard", version_of="1.2.3")
    with pytest.raises(schedule.TaskError, match="'callboard 1.2.3', and these are the tests of"):
        package.Package(old, tmp_path)
    for name in ("layout", "ci", "release", "none"):
        with pytest.raises(schedule.TaskError, match=f"no part '{name}' on an installed package"):
            runner.chosen([name], True)


INSTALLED_RUN = """
import sys
sys.path[:0] = [{checks!r}, {build!r}]
import pathlib, runner
runner.LOGS = pathlib.Path({logs!r})
runner.PARTS[:] = [it for it in runner.PARTS if it.name in ("edits", "library", "report")]
sys.exit(runner.main())
"""


def on_installed(
    prefix: pathlib.Path, folder: pathlib.Path, *names: str
) -> tuple[int, list[str]]:
    """The status and the lines of a run of some parts on a package, or of those with these names.
    """
    paths = {name: str(TOP / name) for name in ("checks", "build")}
    text = INSTALLED_RUN.format(logs=str(folder / "logs"), **paths)
    words = [sys.executable, "-B", "-c", text, "--installed", str(prefix), *names]
    ran = subprocess.run(words, cwd=TOP, stdin=subprocess.DEVNULL, capture_output=True, text=True)
    return ran.returncode, ran.stdout.splitlines()


def test_parts_of_a_package_that_are_missing_fail(tmp_path: pathlib.Path) -> None:
    prefix = package_in(tmp_path / "a prefix", "bin/callboard")
    status, lines = on_installed(prefix, tmp_path)
    assert status == 1
    for name, lack in (("library", "library for C"), ("report", "package for Python")):
        assert f"{name}: {prefix} has no {lack}" in lines
        assert f"check: {name}: FAILED: 0 of 1 passed, 0.0 s" in lines
    assert any(line.startswith("check: edits: ok: ") for line in lines)
    assert any(line.startswith("check: files: FAILED: ") for line in lines)
    assert f"files: {prefix} has no include/callauction.h" in lines


def test_a_part_that_is_named_is_not_left_out(tmp_path: pathlib.Path) -> None:
    prefix = tarball_in(tmp_path / "a prefix")
    status, lines = on_installed(prefix, tmp_path)
    assert (status, lines[:1]) == (0, ["check: library: not run: a tarball has no library for C"])
    status, lines = on_installed(prefix, tmp_path, "library")
    assert (status, lines[0]) == (1, f"library: {prefix} has no library for C")


def tarball_in(folder: pathlib.Path) -> pathlib.Path:
    """What a tarball holds, with a program that says that it has this version."""
    package_in(folder, "callboard")
    for item in installed_files.program_texts():
        path = folder / installed_files.in_tarball(item.place)
        path.parent.mkdir(parents=True)
        path.write_bytes(item.content)
    shutil.copy(TOP / "CHANGELOG.md", folder)
    return folder


def test_files_of_a_package_that_differ_are_told(tmp_path: pathlib.Path) -> None:
    prefix = tarball_in(tmp_path / "a prefix")
    words = [sys.executable, "-B", TOP / "checks/package.py", prefix]
    ran = subprocess.run(words, capture_output=True, text=True)
    assert (ran.returncode, ran.stdout) == (0, "3 passed, 0 failed\n")
    (prefix / "CHANGELOG.md").unlink()
    (prefix / "man/man1/callboard.1").write_text("another\n")
    ran = subprocess.run(words, capture_output=True, text=True)
    lines = [f"{prefix}/man/man1/callboard.1 is another one", f"{prefix} has no CHANGELOG.md"]
    assert ran.returncode == 1 and ran.stdout.splitlines() == [*lines, "1 passed, 2 failed"]


def test_the_library_of_a_package_is_linked_as_it_is(tmp_path: pathlib.Path) -> None:
    prefix = package_in(tmp_path / "prefix", "bin/callboard", "lib/libcallauction.a")
    for part in runner.PARTS:
        (tmp_path / part.name).mkdir()  # as each has a folder for its temporary files
    folder = pathlib.Path(package.Package(prefix, tmp_path).path("LIBRARY"))
    assert (folder / "libcallauction.a").samefile(prefix / "lib/libcallauction.a")
    assert "-lcallauction" in (folder / "callauction.pc").read_text()


PLANTED_TESTS = """
import pytest


@pytest.mark.parametrize("case", [1, 2, 3])
def test_cases(case: int) -> None:
    assert case == 1


def test_other() -> None:
    pass


def test_with_a_folder(tmp_path: object) -> None:
    pass


@pytest.mark.parametrize("case", [1, 2])
def test_with_a_folder_too(case: int, tmp_path: object) -> None:
    assert case == 1
"""


@pytest.mark.parametrize(
    "plugin, said",
    [
        ("first_case_of_each_test", "4 passed, 3 deselected"),
        ("first_test_of_each_kind", "4 passed, 10 deselected"),
    ],
)
def test_a_plugin_runs_one_of_each(plugin: str, said: str, tmp_path: pathlib.Path) -> None:
    for name in ("test_planted.py", "test_beside.py")[: 2 if "kind" in plugin else 1]:
        (tmp_path / name).write_text(PLANTED_TESTS)
    words = [sys.executable, "-B", "-m", "pytest", "-q", "-p", plugin, str(tmp_path)]
    env = os.environ | {"PYTHONPATH": str(TOP / "checks")}
    ran = subprocess.run(words, cwd=tmp_path, env=env, capture_output=True, text=True)
    assert ran.returncode == 0 and said in ran.stdout, ran.stdout


@pytest.mark.parametrize(
    "words", [["--since", "HEAD"], ["--installed", "/", "--short"], ["--installed", "/nowhere"]]
)
def test_words_that_do_not_go_together_are_refused(plant: Plant, words: list[str]) -> None:
    assert plant("one passes").run(*words)[0] == 2

"""Runs the parts of the test command (`./check`) beside each other: prints a line for each with its
seconds, and the counts at the end.

A part is a command, run at the top of the repository. Where its last line is `N passed, N failed`
it counts as many; else it counts one, by its status. Its output goes to out/check/NAME.log, and is
printed too where it failed, or with --show. A part that fails keeps no other from running, and one
that hangs is ended after its time. One that measures times or fills memory runs alone. The longest
are begun first: how long each took is kept in out/check/seconds.txt (a new clone goes by
checks/part_seconds.txt), and what passed in out/check/passed.txt, for --resume. The status is 0
where all passed, 1 where something failed, 2 where a part, or a tool or a module of Python that the
parts need, doesn't exist, or another ./check runs here; then no part runs; and 130 where the run
was broken off.
"""
import argparse
import contextlib
import fcntl
import filecmp
import os
import pathlib
import signal
import subprocess
import sys
import tempfile
from collections.abc import Iterator

import built

sys.path.insert(0, str(built.TOP / "build"))

import changed_crates  # noqa: E402
import machine  # noqa: E402
import proved_binaries  # noqa: E402
from build_tasks import LIBRARIES, PROGRAM, Builds  # noqa: E402
from check_parts import (  # noqa: E402
    BODIES, GATE, PARTS, MissingToolsError, Part, chosen, installed, look_for_tools, short,
)  # fmt: skip
from package import Package  # noqa: E402
from passes import Passes, Seconds  # noqa: E402
from results import Results, sources  # noqa: E402
from schedule import Schedule, Task, TaskError  # noqa: E402
from tasks import tasks_of  # noqa: E402

LOGS = built.TOP / "out/check"
BROKEN_OFF = 130


@contextlib.contextmanager
def held() -> Iterator[pathlib.Path]:
    """Keeps another test command out of this repository, and makes a folder for temporary files.
    Raises TaskError where one runs.
    """
    LOGS.mkdir(parents=True, exist_ok=True)
    with open(LOGS / "lock", "w", encoding="ascii") as lock, tempfile.TemporaryDirectory(
        prefix="check-", ignore_cleanup_errors=True
    ) as folder:
        try:
            fcntl.flock(lock, fcntl.LOCK_EX | fcntl.LOCK_NB)
        except BlockingIOError:
            raise TaskError("another ./check runs in this repository") from None
        os.chmod(folder, 0o755)  # as some tests run as nobody
        yield pathlib.Path(folder)


def run(parts: list[Part], asked: argparse.Namespace, rooms: pathlib.Path) -> int:
    """Runs parts of this repository; answers the status. Raises TaskError, MissingToolsError,
    OSError, CalledProcessError.
    """
    logs = LOGS
    if asked.short:
        since = asked.since or changed_crates.usual_commit()
        parts, logs = short(parts, since), LOGS / "short"
        print(f"check: a short run; crates that changed since {since}", flush=True)
    look_for_tools(parts)
    logs.mkdir(exist_ok=True)
    passes, seconds = Passes(logs / "passed.txt", sources()), seconds_of(logs)
    done = [it for it in parts if asked.resume and it.name in passes.of]
    left = [it for it in parts if it not in done]
    for part in left:
        passes.drop(part.name)
    results = Results(left, asked.show, seconds, passes)
    for part in done:
        count, took = passes.of[part.name]
        results.result(part.name, (count, 0), took, " before")
    needed = {it for part in left for it in part.needs()}
    builds = Builds(needed, GATE in [it.name for it in left], GATE in passes.of, rooms)
    if LIBRARIES in needed - builds.there and not builds.has_gate:
        raise TaskError(f"{BODIES} takes what {GATE} proves: name {GATE} too")
    status = run_tasks(tasks_of(left, builds), builds.there, results, logs, rooms, asked.jobs)
    if BODIES in passes.of:
        builds.drop_libraries()
    if status != BROKEN_OFF and not asked.short:
        keep_binaries(results, builds, [part.name for part in parts])
    return status


def seconds_of(logs: pathlib.Path) -> Seconds:
    """How long parts took here, or where checks/part_seconds.txt was made. Raises OSError."""
    return Seconds(logs / "seconds.txt", built.TOP / "checks/part_seconds.txt")


def keep_binaries(results: Results, builds: Builds, parts: list[str]) -> None:
    """Keeps for ./release over which binaries the gate and these parts have run, where the sources
    and the program are still the same. Raises OSError, CalledProcessError.
    """
    if GATE not in parts or results.is_changed or not results.passes:
        return
    given, usual = builds.path(PROGRAM), built.PROGRAM
    is_same = usual.is_file() and filecmp.cmp(given, usual, shallow=False)
    if is_same and sources() == results.passes.sources:
        proved_binaries.write(f"{results.passed} passed, {results.failed} failed", parts)


def run_installed(parts: list[Part], asked: argparse.Namespace, rooms: pathlib.Path) -> int:
    """Runs parts on an installed package; answers the status. Raises as run()."""
    package = Package(asked.installed, rooms)
    found = [*installed(parts, package, bool(asked.parts))]
    look_for_tools(found)
    logs = LOGS / "installed"
    logs.mkdir(exist_ok=True)
    results = Results(found, asked.show, seconds_of(logs))
    return run_tasks(tasks_of(found, package), set(), results, logs, rooms, asked.jobs)


def run_tasks(
    tasks: list[Task],
    there: set[str],
    results: Results,
    logs: pathlib.Path,
    rooms: pathlib.Path,
    jobs: int,
) -> int:
    """Runs tasks; answers the status. Raises OSError."""
    schedule = Schedule(tasks, there, results.seconds.of, jobs, results)
    try:
        schedule.run(built.TOP, logs, rooms)
    except KeyboardInterrupt:
        results.broken_off(schedule)
    results.close(jobs)
    if schedule.running or schedule.left:
        return BROKEN_OFF
    return 1 if results.failed else 0


def interrupt(number: int, frame: object) -> None:
    """Ends the run as Ctrl-C does, so that nothing of it is left running."""
    raise KeyboardInterrupt


def listen() -> None:
    """Takes a signal that ends a run for a Ctrl-C, but for one that is ignored."""
    for how in (signal.SIGINT, signal.SIGTERM, signal.SIGHUP):
        if signal.getsignal(how) is not signal.SIG_IGN:
            signal.signal(how, interrupt)


def jobs_of(text: str) -> int:
    """How many parts may run at once, of a word."""
    if not text.isdecimal() or int(text) < 1:
        raise argparse.ArgumentTypeError(f"'{text}' is no number from 1 on")
    return int(text)


FLAGS = {
    "--list": "print the parts, and run none",
    "--show": "print all that the parts print",
    "--keep-seconds": "make checks/part_seconds.txt of how long parts took here, for new clones, "
    "and run none",
    "--resume": "leave out what passed on the same sources",
    "--short": "before a commit: the crates that changed, and one case of each kind of the parts",
}
SINCE = "with --short: changed since then (since this branch left origin's main, or HEAD)"
PREFIX = "the parts that need no toolchain, on a package that is installed there"
JOBS = "how many parts run at once, where memory allows (one for each core)"


def words() -> argparse.Namespace:
    """What is asked for."""
    parser = argparse.ArgumentParser(prog="check", description="The test command.")
    parts = "the parts to run (all, where none is named)"
    parser.add_argument("parts", nargs="*", metavar="PART", help=parts)
    for name, text in FLAGS.items():
        parser.add_argument(name, action="store_true", help=text)
    many = {"type": jobs_of, "default": machine.cores(), "metavar": "N"}
    parser.add_argument("-j", "--jobs", help=JOBS, **many)
    parser.add_argument("--since", metavar="COMMIT", help=SINCE)
    parser.add_argument("--installed", type=pathlib.Path, metavar="PREFIX", help=PREFIX)
    asked = parser.parse_args()
    if asked.installed and (asked.short or asked.resume) or asked.since and not asked.short:
        parser.error("--since goes with --short, and --installed without --short and --resume")
    return asked


def main() -> int:
    """Runs the parts that are asked for; answers the status."""
    asked = words()
    if asked.keep_seconds:
        seconds_of(LOGS).write(built.TOP / "checks/part_seconds.txt", [part.name for part in PARTS])
        return 0
    if asked.list:
        for part in PARTS:
            print(f"{part.name:12} {part.what}{' (alone)' if part.is_alone else ''}")
        return 0
    listen()
    try:
        parts = chosen(asked.parts, bool(asked.installed))
        with held() as rooms:
            return (run_installed if asked.installed else run)(parts, asked, rooms)
    except KeyboardInterrupt:
        fault = "broken off"
    except subprocess.CalledProcessError as ended:
        fault = f"{ended}: {ended.stderr or ''}".strip()
    except (TaskError, MissingToolsError, OSError) as found:
        fault = str(found)
    print("".join(f"check: {line}\n" for line in fault.splitlines()), end="", file=sys.stderr)
    print("0 passed, 1 failed")
    return 2


if __name__ == "__main__":
    sys.exit(main())

"""Members by FIX 4.4, beside the same members by WebSocket and beside QuickFIX without a venue.

1, 10 and 60 sessions send 1,000, 5,000 and 6,000 orders in a call phase, each the next one once the
last is answered. The echo is QuickFIX's sessions behind the same loop of Python, which answers each
order with a report; the engine is QuickFIX's sessions alone, in one process without a socket. All
take turns. Prints of all runs the middle ones of the orders a second, of the milliseconds of an
answer at the middle and at the 99th of 100, and of the microseconds of the processor that an order
takes of the server and its program. All is right where each journal has all orders and is lawful by
the program, and the front by FIX answers at least as many orders a second as the other one with as
many members. Needs Debian's python3-aiohttp, libquickfix-dev and pybind11-dev.
"""
import argparse
import contextlib
import itertools
import json
import os
import pathlib
import socket
import statistics
import subprocess
import sys
import tempfile
import time
from collections.abc import Iterator

import measuring
from measures import venue
from tables import head, row

sys.path.insert(0, str(measuring.TOP / "build"))

import debian  # noqa: E402

BENCH = measuring.TOP / "bench"
ALONE = 10_000
"""How many QuickFIX takes alone."""
Kind = tuple[str, int, bool]
"""What is measured: a server, its sessions, and whether it is synced."""
Figures = list[float]
"""Of a run: orders a second, milliseconds at the middle and at the 99th of 100, and microseconds of
the processor, as far as they were measured.
"""
DAY = """
sync = {sync}
[phases]
call = 0
[[instrument]]
name = "XYZ"
open = 65536
[members]
joins = 0
rate = 100000
burst = 100000
[fix]
address = "127.0.0.1:{port}"
[fix.sessions]
{sessions}
"""
ENGINE = """
import pathlib, sys, time
sys.path.insert(0, "{bench}")
import fix_echo, fix_robots
found = fix_echo.Echo(pathlib.Path("{folder}"), ["M0"])
number = found.engine.connect()
found.engine.feed(number, fix_robots.written("A", 1, "M0", "98=0|108=300|554=x"))
rest = "11=%d|55=XYZ|54=1|60=20261126-09:00:00|38=5|40=2|44=2.00"
texts = [fix_robots.written("D", it, "M0", rest % it) for it in range(2, {orders} + 2)]
begin = time.perf_counter()
for text in texts:
    found.take(number, text)
    found.engine.outgoing()
print(time.perf_counter() - begin)
"""


def comp_ids(count: int) -> list[str]:
    """The CompIDs of members, which are their names too."""
    return [f"M{it}" for it in range(count)]


def robots(
    task: venue.Task, port: int, passwords: dict[str, str], orders: int
) -> venue.Played:
    """Lets the robots play, each of whom sends this many orders."""
    pipe, those = subprocess.PIPE, [*passwords.items()]
    words = [task.interpreter, str(BENCH / "fix_robots.py")]
    crew = []
    for place in range(min(venue.ROBOTS, len(those))):
        it = subprocess.Popen(words, stdin=pipe, stdout=pipe, text=True)
        asked = {"port": port, "sessions": those[place :: venue.ROBOTS], "orders": orders}
        assert it.stdin is not None and it.stdout is not None
        print(json.dumps(asked), file=it.stdin, flush=True)
        it.stdout.readline()
        crew.append(it)
    for it in crew:
        print(file=it.stdin, flush=True)
    found = [json.loads(it.stdout.readline()) for it in crew if it.stdout]
    for it in crew:
        it.communicate()
    seconds = max(end for _, end, _ in found) - min(begin for begin, _, _ in found)
    return seconds, sorted(wait for _, _, waits in found for wait in waits)


def environment_of(task: venue.Task) -> dict[str, str]:
    """The environment of a venue and of the echo."""
    module = {"CALLAUCTION_FIX": str(measuring.TOP / "out/fix")}
    named = {"CALLBOARD": task.program, "PYTHONPATH": str(measuring.TOP / "python")}
    return os.environ | named | module


@contextlib.contextmanager
def begun(
    task: venue.Task, folder: pathlib.Path, count: int, is_synced: bool
) -> Iterator[tuple[subprocess.Popen[str], str, str, int]]:
    """A venue in a call phase: its process, its address, its code, and its port by FIX."""
    with socket.socket() as tried:
        tried.bind(("127.0.0.1", 0))
        port = tried.getsockname()[1]
    sessions = "\n".join(f'{it} = "{it}"' for it in comp_ids(count))
    day = DAY.format(sync=str(is_synced).lower(), port=port, sessions=sessions)
    (folder / "day.toml").write_text(day, encoding="ascii")
    words = [task.interpreter, "-P", "-m", "callauction.venue", "--port", "0"]
    words += ["--day", str(folder / "day.toml"), "--folder", str(folder / "venue")]
    with venue.started(words, environment_of(task), "^beamer") as (child, said):
        found = {line.split()[0]: line.split()[1] for line in said.splitlines() if " " in line}
        token = found["teacher"].partition("#")[2]
        venue.call(f"{found['members']}api/operator", {"do": "start"}, token)
        yield child, found["members"], found["code"], port


def check(program: str, journal: pathlib.Path, orders: int) -> None:
    """Raises SystemExit where a journal hasn't so many orders or isn't lawful by the program."""
    with open(journal, "rb") as given:
        ran = subprocess.run([program, "--audit"], stdin=given, capture_output=True, text=True)
    if ran.returncode != 0 or f"compared {orders}\n" not in ran.stdout:
        sys.exit(f"fix: a journal isn't whole and lawful: {ran.stdout}{ran.stderr}")


def by_fix(task: venue.Task, count: int, orders: int, is_synced: bool) -> Figures:
    """What the front by FIX takes."""
    with tempfile.TemporaryDirectory() as work:
        folder = pathlib.Path(work)
        with begun(task, folder, count, is_synced) as (child, _, _, port):
            tokens = {it: folder / f"venue/fix.{it}.token" for it in comp_ids(count)}
            passwords = {name: it.read_text().strip() for name, it in tokens.items()}
            before = venue.processor_seconds(child.pid)
            played = robots(task, port, passwords, orders)
            processor = venue.processor_seconds(child.pid) - before
        check(task.program, folder / "venue/XYZ.journal.csv", len(played[1]))
        return figures(played, processor)


def by_socket(task: venue.Task, count: int, orders: int, is_synced: bool) -> Figures:
    """What the other front takes."""
    with tempfile.TemporaryDirectory() as work:
        folder = pathlib.Path(work)
        with begun(task, folder, 1, is_synced) as (child, url, code, _):
            hellos = []
            for number in range(count):
                body = {"code": code, "name": f"member {number}"}
                token = venue.call(f"{url}api/join", body)["token"]
                hellos.append(json.dumps({"type": "hello", "token": token, "topics": []}))
                time.sleep(0.1 if count > 10 else 0)
            texts = [[*map(order_of, range(1, orders + 1))] for _ in hellos]
            one = venue.Task(task.program, task.interpreter, texts)
            before = venue.processor_seconds(child.pid)
            played = venue.robots(one, f"{url}api/socket", hellos)
            processor = venue.processor_seconds(child.pid) - before
        check(task.program, folder / "venue/XYZ.journal.csv", len(played[1]))
        return figures(played, processor)


def order_of(number: int) -> str:
    """An order by WebSocket, as the robots by FIX send it."""
    side, tick = ("bid", "ask")[number % 2], 150 + number * 37 % 100
    fields = {"type": "enter", "number": number, "instrument": "XYZ", "side": side}
    return json.dumps(fields | {"quantity": 1 + number % 900, "price": f"{tick / 100:.2f}"})


def echo(task: venue.Task, count: int, orders: int) -> Figures:
    """What the echo takes."""
    with tempfile.TemporaryDirectory() as work:
        words = [task.interpreter, str(BENCH / "fix_echo.py"), work, *comp_ids(count)]
        with venue.started(words, environment_of(task), "^echo") as (child, said):
            before = venue.processor_seconds(child.pid)
            played = robots(task, int(said.split()[1]), dict.fromkeys(comp_ids(count), "x"), orders)
            return figures(played, venue.processor_seconds(child.pid) - before)


def engine(task: venue.Task) -> Figures:
    """What QuickFIX's sessions alone take."""
    with tempfile.TemporaryDirectory() as work:
        text = ENGINE.format(bench=BENCH, folder=work, orders=ALONE)
        words = [task.interpreter, "-c", text]
        said = subprocess.check_output(words, env=environment_of(task), text=True)
    return [ALONE / float(said)]


def figures(played: venue.Played, processor: float) -> Figures:
    """The figures of a run."""
    seconds, waits = played
    middle, late = (1000 * waits[len(waits) * share // 100] for share in (50, 99))
    return [len(waits) / seconds, middle, late, 1_000_000 * processor / len(waits)]


def print_table(found: dict[Kind, list[Figures]]) -> None:
    """Prints the middle ones of all runs."""
    waits = ("middle, ms", "99th of 100, ms")
    head("server", "sessions", "synced", "middle orders a second", *waits, "processor, us")
    for (name, count, is_synced), runs in found.items():
        rate, *others = map(statistics.median, zip(*runs))
        cells = [f"{it:,.{place}f}" for it, place in zip(others, (1, 1, 0))] or ["-"] * 3
        row(name, str(count), "yes" if is_synced else "no", f"{rate:,.0f}", *cells)


def measure(asked: argparse.Namespace) -> bool:
    program = os.path.abspath(measuring.our_program(asked.program).words[0])
    task = venue.Task(program, debian.python_with(("aiohttp",)), [])
    build = [task.interpreter, "-P", "-m", "callauction.fix.build"]
    subprocess.run(build, env=environment_of(task), check=True, stdout=subprocess.DEVNULL)
    sizes = [tuple(map(int, it.split(":"))) for it in asked.sessions.split(",")]
    servers = {"FIX": by_fix, "WebSocket": by_socket}
    found: dict[Kind, list[Figures]] = {}
    for _ in range(asked.runs):
        found.setdefault(("engine", 1, False), []).append(engine(task))
        for count, orders in sizes:
            took = echo(task, count, orders // count)
            found.setdefault(("echo", count, False), []).append(took)
            for is_synced, name in itertools.product((True, False), servers):
                took = servers[name](task, count, orders // count, is_synced)
                found.setdefault((name, count, is_synced), []).append(took)
    print_table(found)
    print("\njournals: whole and lawful")
    rates = {kind: statistics.median(it[0] for it in runs) for kind, runs in found.items()}
    those = [(count, is_synced) for name, count, is_synced in found if name == "FIX"]
    return all(rates["FIX", *it] >= rates["WebSocket", *it] for it in those)

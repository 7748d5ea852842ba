"""Members over the network, beside a bare echo of aiohttp.

200 members on connections of their own, 50 to an instrument, send 50,000 orders in a call phase,
each the next one once the last is answered; the same robots send the same bytes to a server that
gives back what it is sent. Prints for each the orders a second, the milliseconds of an answer at
the middle and at the 99th of 100, and the processor's seconds of the server and its programs. All
is right where each journal has all orders and is lawful by the program. A second table has what
operations wait for after these orders: a copy of the running day, its checked return, an end and a
start, and the memory of the venue with its programs. Needs Debian's python3-aiohttp.
"""
import argparse
import contextlib
import dataclasses
import json
import os
import pathlib
import random
import re
import subprocess
import sys
import tempfile
import time
import urllib.request
from collections.abc import Iterator
from typing import Any

import measuring
from tables import head, row

sys.path.insert(0, str(measuring.TOP / "build"))

import debian  # noqa: E402

BENCH = measuring.TOP / "bench"
INSTRUMENTS, ROBOTS = 4, 3
DAY = """
sync = {sync}
[phases]
call = 0
[members]
joins = 0
rate = 100000
burst = 100000
"""
INSTRUMENT = '[[instrument]]\nname = "I{number}"\nopen = 65536\n'
ECHO = """
import socket
from aiohttp import web
async def echo(request):
    answering = web.WebSocketResponse(compress=False)
    await answering.prepare(request)
    async for message in answering:
        await answering.send_str(message.data)
    return answering
application = web.Application()
application.router.add_get("/", echo)
listening = socket.create_server(("127.0.0.1", 0))
print("echo  http://127.0.0.1:%d/" % listening.getsockname()[1], flush=True)
web.run_app(application, sock=listening, print=None)
"""
Started = tuple["subprocess.Popen[str]", str]
Played = tuple[float, list[float]]
"""The seconds that all robots took together, and those of each answer, in order."""


@dataclasses.dataclass(frozen=True)
class Task:
    """The program, the Python that has aiohttp, and the orders of each member."""

    program: str
    interpreter: str
    orders: list[list[str]]

    @property
    def count(self) -> int:
        """How many orders there are."""
        return sum(map(len, self.orders))


@contextlib.contextmanager
def started(words: list[str], environment: dict[str, str], pattern: str) -> Iterator[Started]:
    """A server, and what it prints of itself up to this pattern. Raises OSError where it ends."""
    with subprocess.Popen(
        words, env=environment, stdout=subprocess.PIPE, text=True, bufsize=1
    ) as child:
        assert child.stdout is not None
        said = ""
        for line in child.stdout:
            said += line
            if re.search(pattern, line):
                break
        else:
            raise OSError(f"{words[-1]} ended")
        try:
            yield child, said
        finally:
            child.terminate()


def call(url: str, body: dict[str, Any], token: str = "") -> dict[str, Any]:
    """The answer to a request. Raises OSError."""
    headers = {"Content-Type": "application/json", "Authorization": f"Bearer {token}"}
    asked = urllib.request.Request(url, json.dumps(body).encode(), headers)
    with urllib.request.urlopen(asked) as answer:
        found: dict[str, Any] = json.loads(answer.read())
        return found


def joined(url: str, code: str, members: int) -> list[str]:
    """The tokens of this many members, who join no faster than they may."""
    tokens: list[str] = []
    while len(tokens) < members:
        try:
            found = call(f"{url}api/join", {"code": code, "name": f"member {len(tokens)}"})
            tokens.append(found["token"])
        except OSError:
            time.sleep(0.5)
    return tokens


def texts(members: int, orders: int) -> list[list[str]]:
    """The orders of each of these members, as many in all."""
    chance = random.Random(46)
    numbers = range(1, orders // members + 1)
    return [[order(chance, member, it) for it in numbers] for member in range(members)]


def order(chance: random.Random, member: int, number: int) -> str:
    """An order."""
    fields = {"type": "enter", "number": number, "instrument": f"I{member % INSTRUMENTS}"}
    side, price = chance.choice(("bid", "ask")), f"{chance.randint(150, 250) / 100:.2f}"
    return json.dumps(
        fields | {"side": side, "quantity": chance.randint(1, 900), "price": price}
    )


def robots(task: Task, url: str, hellos: list[str]) -> Played:
    """Lets the robots play. Raises ValueError where one fails."""
    pipe, orders = subprocess.PIPE, task.orders
    words = [task.interpreter, str(BENCH / "venue_robots.py")]
    crew = [subprocess.Popen(words, stdin=pipe, stdout=pipe, text=True) for _ in range(ROBOTS)]
    for place, it in enumerate(crew):
        share = slice(place, None, ROBOTS)
        asked = {"url": url, "hellos": hellos[share], "texts": orders[share]}
        assert it.stdin is not None and it.stdout is not None
        print(json.dumps(asked), file=it.stdin, flush=True)
        it.stdout.readline()
    for it in crew:
        print(file=it.stdin, flush=True)
    found = [json.loads(it.stdout.readline()) for it in crew if it.stdout]
    for it in crew:
        it.communicate()
    seconds = max(end for _, end, _ in found) - min(begin for begin, _, _ in found)
    return seconds, sorted(wait for _, _, waits in found for wait in waits)


def processor_seconds(process: int) -> float:
    """What a process and its children have taken of the processor. Raises OSError."""
    children = pathlib.Path(f"/proc/{process}/task/{process}/children").read_text().split()
    ticks = 0
    for each in (process, *children):
        fields = pathlib.Path(f"/proc/{each}/stat").read_text().rpartition(")")[2].split()
        ticks += int(fields[11]) + int(fields[12])
    return ticks / os.sysconf("SC_CLK_TCK")


def memory_of(process: int) -> float:
    """The memory of a process and its children in MiB. Raises OSError."""
    children = pathlib.Path(f"/proc/{process}/task/{process}/children").read_text().split()
    texts = [pathlib.Path(f"/proc/{it}/status").read_text() for it in (process, *children)]
    return sum(int(found[1]) for it in texts if (found := re.search(r"VmRSS:\s+(\d+)", it))) / 1024


def took(words: list[str], environment: dict[str, str]) -> float:
    """How long a command takes. Raises CalledProcessError where it fails."""
    begin = time.monotonic()
    subprocess.run(words, env=environment, check=True, stdout=subprocess.DEVNULL)
    return time.monotonic() - begin


def print_row(name: str, played: Played, processor: float) -> None:
    """Prints a row."""
    seconds, waits = played
    middle, late = (1000 * waits[len(waits) * share // 100] for share in (50, 99))
    row(name, f"{len(waits) / seconds:,.0f}", f"{middle:.1f}", f"{late:.1f}", f"{processor:.1f}")


def echo(task: Task) -> None:
    """Prints what the echo takes."""
    words = [task.interpreter, "-c", ECHO]
    with started(words, dict(os.environ), "^echo") as (child, said):
        before = processor_seconds(child.pid)
        played = robots(task, said.split()[1], [""] * len(task.orders))
        print_row("echo", played, processor_seconds(child.pid) - before)


def venue(task: Task, is_synced: bool, waits: list[list[str]]) -> bool:
    """Prints what the venue takes: whether its journals have all orders, and are lawful; adds a row
    of what operations wait for.
    """
    named = {"CALLBOARD": task.program, "PYTHONPATH": str(measuring.TOP / "python")}
    environment = os.environ | named
    with tempfile.TemporaryDirectory() as work:
        folder = pathlib.Path(work)
        day = DAY.format(sync=str(is_synced).lower())
        day += "".join(INSTRUMENT.format(number=it) for it in range(INSTRUMENTS))
        (folder / "day.toml").write_text(day, encoding="ascii")
        python = [task.interpreter, "-m"]
        words = [*python, "callauction.venue", "--port", "0"]
        words += ["--day", str(folder / "day.toml"), "--folder", str(folder / "venue")]
        name = "venue" if is_synced else "venue, sync = false"
        with started(words, environment, "^beamer") as (child, said):
            url, hellos = opened(said, len(task.orders))
            before = processor_seconds(child.pid)
            played = robots(task, f"{url}api/socket", hellos)
            print_row(name, played, processor_seconds(child.pid) - before)
            memory = memory_of(child.pid)
            copy = [f"{folder}/venue", f"{folder}/copy"]
            seconds = [took([*python, "callauction.venue.backup", *copy], environment)]
            seconds.append(ended(child))
        back = [f"{folder}/copy", f"{folder}/again"]
        seconds.append(took([*python, "callauction.venue.restore", *back], environment))
        begin = time.monotonic()
        with started(words, environment, "^beamer") as (child, _):
            seconds.append(time.monotonic() - begin)
        waits.append([name, *(f"{it:.1f}" for it in seconds), f"{memory:.0f}"])
        journals = [folder / f"venue/I{it}.journal.csv" for it in range(INSTRUMENTS)]
        return all(is_right(task, it) for it in journals)


def ended(child: "subprocess.Popen[str]") -> float:
    """How long a venue takes to end by a signal."""
    begin = time.monotonic()
    child.terminate()
    child.wait()
    return time.monotonic() - begin


def opened(said: str, members: int) -> tuple[str, list[str]]:
    """The address of a venue that has printed this, once its calls have begun, and what each of
    these members says first. Raises OSError.
    """
    found = dict(re.findall(r"^(\w+) +(\S+)$", said, re.M))
    url, token = found["members"], found["teacher"].partition("#")[2]
    tokens = joined(url, found["code"], members)
    for number in range(INSTRUMENTS):
        call(f"{url}api/operator", {"do": "start", "instrument": f"I{number}"}, token)
    return url, [json.dumps({"type": "hello", "token": it, "topics": []}) for it in tokens]


def is_right(task: Task, journal: pathlib.Path) -> bool:
    """Whether a journal has its share of the orders, and is lawful by the program."""
    with open(journal, "rb") as given:
        ran = subprocess.run([task.program, "--audit"], stdin=given, capture_output=True, text=True)
    is_lawful = ran.returncode == 0 and ran.stdout.endswith("audit legal\n")
    return is_lawful and f"compared {task.count // INSTRUMENTS}\n" in ran.stdout


def measure(asked: argparse.Namespace) -> bool:
    program = os.path.abspath(measuring.our_program(asked.program).words[0])
    interpreter = debian.python_with(("aiohttp",))
    task = Task(program, interpreter, texts(asked.members, asked.orders))
    is_lawful = True
    waits: list[list[str]] = []
    head("server", "orders a second", "middle, ms", "99th of 100, ms", "processor, s")
    for _ in range(asked.runs):
        echo(task)
        for is_synced in (True, False):
            is_lawful &= venue(task, is_synced, waits)
    print()
    columns = ["copy, s", "end, s", "return, s", "start, s", "memory, MiB"]
    head(f"after {task.count:,} orders", *columns)
    for each in waits:
        row(*each)
    print("\njournals: " + ("whole and lawful" if is_lawful else "NOT whole and lawful"))
    return is_lawful

"""Floods: half requests, bad messages, guessed codes. Each is bounded by what the others notice of
it.
"""
import asyncio
import collections
import contextlib
import json
import pathlib
import resource
import socket
import subprocess
import sys
import time
import urllib.request
from collections.abc import AsyncIterator, Callable, Iterator
from typing import Any

import aiohttp
import psutil
import pytest
import pytest_asyncio
import served
import whole
from aiohttp import web
from callauction.venue import (
    AsyncClient, Client, VenueError, gates, guessing, listening, networks,
)
from callauction.venue.gates import Gate, Gates, Stage
from callauction.venue.guessing import Guesses
from certificates import certificate
from conftest import FAST
from patience import TIMED, tmp_path, until
from served import Served
from speaking import hello, said

pytestmark = TIMED

HALF = b"GET / HTTP/1.1\r\nHost: 127.0.0.1\r\nX-Half: "
HALF_BODY = (
    b"POST /api/join HTTP/1.1\r\nHost: 127.0.0.1\r\nContent-Type: application/json\r\n"
    b"Content-Length: 60000\r\n\r\n{"
)
FLOOD = 1024
MOST_WAIT = 2.0
"""Seconds that somebody else waits meanwhile, at most, half of the time."""
ADDRESSES = 8
"""From how many addresses connections come."""


# ---- half requests


def few_files() -> None:
    """Lets a process open as few files as many hosts do."""
    resource.setrlimit(resource.RLIMIT_NOFILE, (FLOOD, FLOOD))


@contextlib.contextmanager
def flooded(
    venue: Served, text: bytes, count: int = FLOOD, port: int = 0
) -> Iterator[list[socket.socket]]:
    """Connections that say this and nothing more, from some addresses."""
    port = port or int(venue.url.rpartition(":")[2].rstrip("/"))
    found: list[socket.socket] = []
    soft, hard = resource.getrlimit(resource.RLIMIT_NOFILE)
    resource.setrlimit(resource.RLIMIT_NOFILE, (min(hard, max(soft, 4 * count)), hard))
    try:
        for place in range(count):
            own = f"127.0.0.{1 + place % ADDRESSES}", 0
            each = socket.create_connection(("127.0.0.1", port), source_address=own)
            found.append(each)
            with contextlib.suppress(OSError):
                each.sendall(text)
        yield found
    finally:
        for each in found:
            each.close()
        resource.setrlimit(resource.RLIMIT_NOFILE, (soft, hard))


def calls_of(venue: Served, count: int = 20) -> list[float]:
    """How long the teacher's calls take, each by a connection of its own."""
    found = []
    for _ in range(count):
        begin = time.monotonic()
        assert venue.call("api/operator", {"do": "show", "shows": "all"}, venue.operator)[0] == 200
        found.append(time.monotonic() - begin)
    return sorted(found)


@pytest.mark.parametrize("text", [HALF, HALF_BODY, b""], ids=["heads", "bodies", "silence"])
def test_half_requests_shut_out_nobody(tmp_path: pathlib.Path, text: bytes) -> None:
    begin = time.monotonic()
    with served.served(tmp_path, FAST, before=few_files) as venue:
        token = venue.join("Anna")
        venue.do("start")
        with Client(venue.url, token) as me, flooded(venue, text):
            waits = calls_of(venue)
            assert waits[len(waits) // 2] < MOST_WAIT and waits[-1] < 5 * MOST_WAIT, waits
            assert me.enter("bid", 1, "2.00").entry == 1
            assert venue.join("Bert")
            files = psutil.Process(venue.child.pid).num_fds()
            assert files < FLOOD - 100, files
        venue.child.terminate()
        _, error = venue.child.communicate(timeout=served.SECONDS)
        assert served.unexpected(error) == []
        texts = (line.partition(" (and ")[0] for line in error.splitlines())
        lines = collections.Counter(texts)
        seconds = time.monotonic() - begin
        most = 2 + seconds  # one at once, one a second, and at the end how often it came since
        assert len(lines) <= 2 * ADDRESSES and max(lines.values()) <= most, (error, seconds)


HALF_HELLO = b"\x16\x03\x01\x02\x00\x01\x00\x01\xfc\x03\x03"
"""The begin of the first message of TLS."""
MOST_OF_TLS, MOST_OF_PLAIN = 200_000, 80_000
"""Bytes that a connection may take which isn't known yet: thousands may wait."""


def taken_by(venue: Served, text: bytes) -> int:
    """How many bytes of memory a venue takes for each connection that says as much of this as is
    taken, where there are as many as an address may have.
    """
    port = int(venue.url.rpartition(":")[2].rstrip("/"))
    process = psutil.Process(venue.child.pid)
    before, files = process.memory_info().rss, process.num_fds()
    with contextlib.ExitStack() as stack:
        for _ in range(gates.MOST_OF_ADDRESS):
            one = stack.enter_context(socket.create_connection(("127.0.0.1", port)))
            one.setblocking(False)
            one.send(text)
        until(lambda: process.num_fds() >= files + gates.MOST_OF_ADDRESS)
        time.sleep(1)
        taken = process.memory_info().rss - before
    return int(taken / gates.MOST_OF_ADDRESS)


def test_who_begins_tls_and_says_no_more_takes_little_memory(tmp_path: pathlib.Path) -> None:
    with served.served(tmp_path, FAST, *certificate(tmp_path, "venue")) as venue:
        assert taken_by(venue, HALF_HELLO) < MOST_OF_TLS


def test_who_says_much_at_once_takes_little_memory(tmp_path: pathlib.Path) -> None:
    with served.served(tmp_path, FAST) as venue:
        assert taken_by(venue, whole.KINDS["of nobody"] * 20_000) < MOST_OF_PLAIN


def test_a_flood_of_who_looks_at_metrics(tmp_path: pathlib.Path) -> None:
    """It takes no files from members, nor from a program that is started again."""
    port = served.free_port()
    words = ["--metrics", f"127.0.0.1:{port}"]
    with served.served(tmp_path, FAST, *words, before=few_files) as venue:
        before = psutil.Process(venue.child.pid).num_fds()
        with flooded(venue, HALF, port=port):
            assert psutil.Process(venue.child.pid).num_fds() < before + FLOOD // 2
            assert calls_of(venue)[-1] < 5 * MOST_WAIT
            with urllib.request.urlopen(f"http://127.0.0.1:{port}/healthz") as answer:
                assert answer.status == 200


@pytest_asyncio.fixture
async def slow(monkeypatch: pytest.MonkeyPatch) -> AsyncIterator[tuple[int, Gates]]:
    """A page behind gates that wait for a fifth of a second, its port and its gates."""
    monkeypatch.setattr(listening, "HEAD_SECONDS", 0.2)
    monkeypatch.setattr(gates, "IDLE_SECONDS", 0.2)
    monkeypatch.setattr(listening, "SWEEP_SECONDS", 0.02)
    application, found = web.Application(), Gates()

    async def page(request: web.Request) -> web.Response:
        with found.served(request.transport):
            await asyncio.sleep(float(request.query.get("seconds", "0")))
            return web.Response(text="x" * int(request.query.get("count", "2")))

    application.router.add_get("/", page)
    runner = web.AppRunner(application, access_log=None)
    await runner.setup()
    sockets = listening.sockets_at("127.0.0.1", 0)
    assert runner.server is not None
    listener = listening.Listener(found, sockets, runner.server, None)
    yield sockets[0].getsockname()[1], found
    listener.close()
    await runner.cleanup()


@pytest.mark.asyncio
@pytest.mark.parametrize("text", [HALF, b"", b"GET / HTTP/1.1\r\nHost: a\r\n\r\n"])
async def test_who_says_nothing_more_is_sent_away(slow: tuple[int, Gates], text: bytes) -> None:
    port, found = slow
    begin = time.monotonic()
    reader, writer = await asyncio.open_connection("127.0.0.1", port)
    writer.write(text)
    async with asyncio.timeout(served.SECONDS):
        with contextlib.suppress(ConnectionError):
            await reader.read()
            while await reader.read():
                pass
    assert 0.1 < time.monotonic() - begin < 3
    assert len(found) == 0
    writer.close()


@pytest.mark.asyncio
async def test_who_waits_for_an_answer_is_not_sent_away(slow: tuple[int, Gates]) -> None:
    port, _ = slow
    async with aiohttp.ClientSession() as browser:
        async with browser.get(f"http://127.0.0.1:{port}/?seconds=0.6") as answer:
            assert await answer.text() == "xx"


@pytest.mark.asyncio
async def test_who_takes_a_long_answer_slowly_is_not_sent_away(slow: tuple[int, Gates]) -> None:
    port, _ = slow
    reader, writer = await asyncio.open_connection("127.0.0.1", port, limit=1 << 16)
    writer.write(b"GET /?count=30000000 HTTP/1.1\r\nHost: a\r\nConnection: close\r\n\r\n")
    taken = 0
    async with asyncio.timeout(served.SECONDS):
        while block := await reader.read(1 << 20):
            taken += len(block)
            await asyncio.sleep(0.002)
    assert taken > 30_000_000
    writer.close()


@pytest.mark.asyncio
async def test_a_network_of_ipv6_is_one_address() -> None:
    found = Gates()
    try:
        sockets = listening.sockets_at("::1", 0)
    except OSError:
        print("this host has no IPv6")
        return
    listener = listening.Listener(found, sockets, asyncio.Protocol, None)
    _, writer = await asyncio.open_connection("::1", sockets[0].getsockname()[1])
    async with asyncio.timeout(served.SECONDS):
        while not len(found):
            await asyncio.sleep(0.01)
    assert [it.address for it in found._all] == ["::/64"]
    writer.close()
    listener.close()


@pytest.mark.asyncio
async def test_who_comes_at_the_moment_of_an_end_is_no_fault() -> None:
    faults: list[dict[str, Any]] = []
    asyncio.get_running_loop().set_exception_handler(lambda _, fault: faults.append(fault))
    sockets = listening.sockets_at("127.0.0.1", 0)
    listener = listening.Listener(Gates(), sockets, asyncio.Protocol, None)
    await asyncio.sleep(0.1)
    with socket.create_connection(sockets[0].getsockname()):
        await asyncio.sleep(0)  # the loop has seen it by then, and hasn't taken it
        listener.close()
        await asyncio.sleep(0.1)
    assert faults == []


class EndedGate(Gate):
    """A connection that isn't there."""

    def close(self) -> None:
        self.stage = Stage.SERVED


def gate(address: str, stage: Stage = Stage.WAITING) -> Gate:
    return EndedGate(address, socket.socket(), 0.0, stage)


def test_the_oldest_of_the_same_address_gives_way() -> None:
    found = Gates(10, 3)
    own = [gate("a") for _ in range(3)]
    others = [gate("b", Stage.KNOWN) for _ in range(5)]
    for each in [*own, *others]:
        assert found.enter(each)
    last = gate("a")
    assert found.enter(last) and len(found) == 8
    assert found._all.keys() == {*own[1:], *others, last}
    for each in (*own[1:], last):
        each.stage = Stage.SERVED
    assert not found.enter(gate("a"))
    assert found.enter(gate("c"))


@pytest.mark.asyncio
async def test_who_is_known_gives_way_to_nobody() -> None:
    found = Gates(3, 3)
    own = [gate("a") for _ in range(3)]
    for each in own:
        assert found.enter(each)
    own[0].known()
    assert found.enter(gate("a")) and own[0] in found._all and own[1] not in found._all
    for each in [*found._all]:
        found.leave(each)
    assert len(found) == 0 and [*found._unknown.most_first()] == []


def test_a_connection_more_costs_the_same_beside_thousands() -> None:
    found = Gates(4096, 256)
    begin = time.process_time()
    for place in range(10_000):
        assert found.enter(EndedGate(f"10.0.0.{place % 200}", socket.socket(), 0.0))
    assert len(found) == 4096 and time.process_time() - begin < 4


def test_of_too_many_the_address_with_most_gives_way() -> None:
    found = Gates(5, 4)
    few, many = gate("few"), [gate("many") for _ in range(4)]
    for each in (few, *many):
        assert found.enter(each)
    assert found.enter(gate("new"))
    assert few in found._all and many[0] not in found._all


# ---- whole requests

STRANGERS = 250
"""Connections of one address, each of which asks again and again."""


@contextlib.contextmanager
def asked_by_many(venue: Served, path: pathlib.Path, *kind: str) -> Iterator[Callable[[], int]]:
    """Beside a flood of whole requests of a kind, once each connection was answered: how many
    answers it has had.
    """
    port = venue.url.rpartition(":")[2].rstrip("/")
    script = str(pathlib.Path(__file__).with_name("whole.py"))
    words = [sys.executable, script, port, str(STRANGERS), str(path), *kind]
    with subprocess.Popen(words, stdout=subprocess.PIPE) as child:
        try:
            assert child.stdout is not None and child.stdout.readline()
            yield lambda: int.from_bytes(path.read_bytes(), "little")
        finally:
            child.kill()


@pytest.mark.parametrize("kind", ["of nobody", "of a wrong token", "of a member's token", "pages"])
def test_whole_requests_take_turns_behind_members(tmp_path: pathlib.Path, kind: str) -> None:
    """Between a member's order and its answer a flood has fewer answers than it has connections,
    while all it has are some thousands a second: so no order waits until each of them was served.
    With `-s` it prints what docs/OPERATIONS.md has of floods: the time of an order beside one.
    """
    with served.served(tmp_path, FAST) as venue:
        token, bad = venue.join("Anna"), venue.join("Bad")
        venue.do("start")
        is_token = kind.endswith("token")
        words = ["of a token", bad if "member" in kind else "guessed"] if is_token else [kind]
        counts, waits = [], []
        with Client(venue.url, token) as me:
            with asked_by_many(venue, tmp_path / "answers", *words) as answers:
                until(lambda: answers() > 2 * STRANGERS)
                begin, first = time.monotonic(), answers()
                for _ in range(40):
                    since, before = time.monotonic(), answers()
                    me.enter("bid", 1, "2.00")
                    counts.append(answers() - before)
                    waits.append(time.monotonic() - since)
                    time.sleep(0.05)
                rate = (answers() - first) / (time.monotonic() - begin)
                calls_of(venue, 3)
        counts.sort(), waits.sort()
        median, most = (round(1000 * waits[place]) for place in (20, -1))
        print(f"{kind}: {rate:.0f} answers a second; an order took {median} ms, {most} at most;")
        print(f"between it and its answer there were {counts[20]}, {counts[-1]} at most")
        assert counts[20] < STRANGERS, counts


# ---- codes


@pytest.mark.asyncio
async def test_a_right_code_waits_for_few_wrong_ones(monkeypatch: pytest.MonkeyPatch) -> None:
    now = [0.0]
    monkeypatch.setattr(guessing, "TURN_RATE", 200.0)
    guesses = Guesses(lambda: now[0])
    for place in range(guessing.WRONG_BURST):
        assert await guesses.turn(f"10.0.0.{place}", str(place))
        guesses.wrong(f"10.0.0.{place}", str(place))
    guesses.wrong("10.0.0.1", "1")
    order: list[str] = []

    async def guess(address: str, connection: str) -> None:
        assert await guesses.turn(address, connection)
        order.append(connection)

    later = [asyncio.create_task(guess("10.0.0.1", "1")) for _ in range(20)]
    await asyncio.sleep(0)
    later.append(asyncio.create_task(guess("10.0.0.1", "of the same address")))
    later.append(asyncio.create_task(guess("10.9.9.9", "of another")))
    begin = time.monotonic()
    await asyncio.gather(*later)
    assert order[:2] == ["of another", "of the same address"]
    assert time.monotonic() - begin >= 0.9 * len(later) / 200.0
    now[0] = 100.0
    assert await guesses.turn("10.0.0.1", "1")


@pytest.mark.asyncio
async def test_a_right_code_waits_for_few_of_many_addresses(
    monkeypatch: pytest.MonkeyPatch,
) -> None:
    """Guessers have a new address for each guess, of some networks, and fill all places; that one
    of their codes a second is within the rate makes nothing forgotten.
    """
    monkeypatch.setattr(guessing, "TURN_RATE", 500.0)
    now = [0.0]
    guesses = Guesses(lambda: now[0])
    for place in range(2 * guessing.MOST_COUNTED_NAMES):
        now[0] += 0.05
        guesses.wrong(f"10.{place % 50}.{place // 250 % 250}.{place % 250}", str(place))
    later = [
        asyncio.create_task(guesses.turn(f"10.{place % 50}.251.{place % 250}", f"new {place}"))
        for place in range(guessing.MOST_WAITING)
    ]
    await asyncio.sleep(0)
    assert await guesses.turn("10.200.0.1", "student")
    assert [it.result() for it in later if it.done()] == [False]  # nobody's turn came before
    assert sorted(await asyncio.gather(*later)) == [False] + [True] * (guessing.MOST_WAITING - 1)


@pytest.mark.asyncio
async def test_who_guesses_most_gives_way(monkeypatch: pytest.MonkeyPatch) -> None:
    monkeypatch.setattr(guessing, "TURN_RATE", 1000.0)
    monkeypatch.setattr(guessing, "MOST_WAITING", 3)
    guesses = Guesses(lambda: 0.0)
    for _ in range(guessing.WRONG_BURST + 1):
        guesses.wrong("10.0.0.1", "guesser")
    waiting = [asyncio.create_task(guesses.turn("10.0.0.1", "guesser")) for _ in range(3)]
    await asyncio.sleep(0)
    assert await guesses.turn("10.0.0.2", "student")
    assert sorted(await asyncio.gather(*waiting)) == [False, True, True]


def test_an_address_is_counted_with_its_networks() -> None:
    assert networks.network_of("10.0.0.1") == "10.0.0.1"
    assert networks.network_of("2001:db8::1:2%eth0") == networks.network_of("2001:db8::9")
    assert networks.network_of("2001:db8::9") == "2001:db8::/64"
    assert networks.network_of("nothing") == "nothing"
    assert guessing.counted_names("10.1.2.3", "c") == ("c", "10.1.2.3", "10.1.0.0/16")
    assert guessing.counted_names("2001:db8::9", "c") == ("c", "2001:db8::/64", "2001:db8::/32")


GUESSES, GUESSERS, STUDENTS = 400, 20, 60


async def guess(web: aiohttp.ClientSession, url: str, code: str, name: str) -> int:
    """The status of a try to join."""
    async with web.post(f"{url}api/join", json={"code": code, "name": name}) as answer:
        await answer.read()
        return answer.status


async def lesson(venue: Served) -> tuple[list[int], list[int], float]:
    """What students and guessers of one address are answered, and how long the students took."""
    own = aiohttp.TCPConnector(limit=0)
    async with aiohttp.ClientSession() as bad, aiohttp.ClientSession(connector=own) as good:
        stop = asyncio.Event()
        wrong: list[int] = []

        async def guesser() -> None:
            while not stop.is_set():
                wrong.append(await guess(bad, venue.url, "WRONGS", "x"))

        guessers = [asyncio.create_task(guesser()) for _ in range(GUESSERS)]
        while len(wrong) < guessing.WRONG_BURST + 10:
            await asyncio.sleep(0.05)
        begin = time.monotonic()
        right = await asyncio.gather(
            *(guess(good, venue.url, venue.code, f"student {it}") for it in range(STUDENTS))
        )
        took = time.monotonic() - begin
        stop.set()
        await asyncio.gather(*guessers)
        return right, wrong, took


def test_a_class_joins_beside_guessers_of_its_address(tmp_path: pathlib.Path) -> None:
    begin = time.monotonic()
    with served.served(tmp_path, FAST) as venue:
        right, wrong, took = asyncio.run(lesson(venue))
        assert right == [200] * STUDENTS
        assert took < STUDENTS / guessing.TURN_RATE + 5, took
        seconds = time.monotonic() - begin
        most = guessing.WRONG_BURST + (guessing.TURN_RATE + guessing.WRONG_RATE) * seconds
        assert wrong.count(403) <= most, (wrong.count(403), seconds)
    text = (tmp_path / "venue/venue.log").read_text()
    lines = [json.loads(line) for line in text.splitlines()]
    logged = [line for line in lines if line["kind"] == "wrong_code"]
    assert sum(1 + line.get("others", 0) for line in logged) == wrong.count(403)
    assert len(logged) <= guessing.WRONG_BURST + (1 + guessing.WRONG_RATE) * (seconds + 2)
    assert {line["from"] for line in logged} == {"127.0.0.1"} and "WRONGS" not in text


# ---- messages


BAD = """
import asyncio, json, sys, aiohttp
async def main(url, hello, text):
    async with aiohttp.ClientSession() as web, web.ws_connect(url) as socket:
        await socket.send_str(hello)
        async def say():
            while True:
                await socket.send_str(text)
        async def hear():
            count = 0
            async for message in socket:
                count += json.loads(message.data)["type"] == "error"
                print(count, flush=True)
        await asyncio.gather(say(), hear())
asyncio.run(main(*sys.argv[1:]))
"""


@pytest.mark.parametrize(
    "text", ["no JSON", '{"type":"nothing"}', '{"type":"enter","number":1,"side":"x"}']
)
def test_bad_messages_count(tmp_path: pathlib.Path, text: str) -> None:
    day = "sync = false\n[phases]\ncall = 0\n[members]\nrate = 20\nburst = 40"
    with served.served(tmp_path, day) as venue:
        bad, good = venue.join("Bad"), venue.join("Good")
        venue.do("start")

        async def talk() -> tuple[float, int, list[float]]:
            words = ["-c", BAD, f"{venue.url}api/socket", hello(bad), text]
            pipe = asyncio.subprocess.PIPE
            child = await asyncio.create_subprocess_exec(sys.executable, *words, stdout=pipe)
            assert child.stdout is not None
            first = time.monotonic()
            await child.stdout.readline()
            waits = []
            async with AsyncClient(venue.url, good) as me:
                for _ in range(20):
                    begin = time.monotonic()
                    await me.enter("bid", 1, "2.00")
                    waits.append(time.monotonic() - begin)
                    await asyncio.sleep(0.15)
            child.kill()
            answers = (await child.stdout.read()).split()
            await child.wait()
            return time.monotonic() - first, int(answers[-1]), sorted(waits)

        seconds, answers, waits = asyncio.run(talk())
        assert answers < 60 + (20 + 10) * seconds, (answers, seconds)
        assert waits[len(waits) // 2] < MOST_WAIT / 4, waits


def test_what_the_operator_says_by_a_socket_counts(venue: Served) -> None:
    text = json.dumps({"type": "enter", "number": 1})
    heard: Any = asyncio.run(said(venue, hello(venue.beamer), *[text] * 45, count=46))
    errors = [it["error"] for it in heard[1:]]
    assert errors[0] == "not_allowed" and "too_fast" in errors


def test_a_member_that_is_too_fast_is_told_so(tmp_path: pathlib.Path) -> None:
    with served.served(tmp_path, "sync = false\n[members]\nrate = 1\nburst = 2") as venue:
        token = venue.join("Anna")
        venue.do("start")
        with Client(venue.url, token) as me:
            with pytest.raises(VenueError) as found:
                for _ in range(4):
                    me.enter("bid", 1, "2.00")
            assert found.value.code == "too_fast"

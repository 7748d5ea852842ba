"""What who watches a venue sees: health, measures, and lines on standard error."""
import contextlib
import io
import json
import logging
import os
import pathlib
import re
import select
import socket
import subprocess
import sys
import time
import urllib.error
import urllib.request
from collections.abc import Iterator

import psutil
import pytest
import served
from callauction.venue import Client, listening, metrics, notices
from callauction.venue.latency import Times
from callauction.venue.metrics import Measures
from conftest import FAST
from patience import until
from prometheus_client.core import GaugeMetricFamily
from prometheus_client.metrics_core import Metric
from served import ended
from watched import looked, measured


@contextlib.contextmanager
def looked_at(folder: pathlib.Path) -> Iterator[tuple[served.Served, str]]:
    """A venue with pages for operations, and where these are."""
    port = served.free_port()
    with served.served(folder, FAST, "--metrics", f"127.0.0.1:{port}") as venue:
        yield venue, f"http://127.0.0.1:{port}"


@contextlib.contextmanager
def traded(venue: served.Served) -> Iterator[None]:
    """While two members are connected who entered six orders, of which two traded: with the uncross
    seven entries.
    """
    anna, bert = venue.join("Anna"), venue.join("Bert")
    venue.do("start")
    with Client(venue.url, anna) as me, Client(venue.url, bert) as other:
        for _ in range(5):
            me.enter("bid", 10, "2.00")
        other.enter("ask", 10, "2.00")
        venue.do("uncross")
        yield


def kill_programs(venue: served.Served) -> None:
    """Kills the programs of a venue's instruments."""
    for child in psutil.Process(venue.child.pid).children():
        child.kill()


def test_a_venue_that_runs_is_healthy(tmp_path: pathlib.Path) -> None:
    with looked_at(tmp_path) as (_, url):
        assert looked(f"{url}/healthz") == (200, '{"status": "ok", "halted": {}}')
        with urllib.request.urlopen(f"{url}/metrics") as answer:
            assert answer.headers["X-Content-Type-Options"] == "nosniff"


def test_metrics_are_what_members_did(tmp_path: pathlib.Path) -> None:
    with looked_at(tmp_path) as (venue, url), traded(venue):
        until(lambda: measured(url)["callboard_trades_total"][("XYZ",)] == 1)
        time.sleep(metrics.KEPT_SECONDS)
        found = measured(url)
        assert found["callboard_up"] == {(): 1}
        assert found["callboard_orders_total"] == {("XYZ",): 7}
        assert found["callboard_orders_open"] == {("XYZ",): 4}
        assert found["callboard_orders_left"] == {("XYZ",): 4092}
        assert found["callboard_restarts_total"] == {("XYZ",): 0}
        assert found["callboard_phase"][("XYZ", "waiting")] == 1
        assert sum(found["callboard_phase"].values()) == 1
        assert found["callboard_halted"] == {("XYZ",): 0}
        assert found["callboard_waiting"] == {("XYZ",): 0}
        assert found["callboard_members"] == {(): 2}
        assert found["callboard_members_connected"] == {(): 2}
        assert found["callboard_answer_seconds_count"] == {("XYZ",): 7}
        assert 0 < found["callboard_answer_seconds_sum"][("XYZ",)] < 60
        room = os.statvfs(tmp_path)
        assert found["callboard_disk_free_bytes"][()] == pytest.approx(
            room.f_bavail * room.f_frsize, rel=0.1
        )


def test_members_have_no_pages_for_operations(tmp_path: pathlib.Path) -> None:
    with looked_at(tmp_path) as (venue, _):
        assert venue.call("metrics")[0] == venue.call("healthz")[0] == 404


def test_a_program_that_was_killed_is_counted_and_the_venue_healthy(
    tmp_path: pathlib.Path,
) -> None:
    with looked_at(tmp_path) as (venue, url):
        with traded(venue):
            pass
        kill_programs(venue)
        until(lambda: measured(url)["callboard_restarts_total"] == {("XYZ",): 1})
        assert looked(f"{url}/healthz")[0] == 200


def test_health_says_why_an_instrument_has_halted(tmp_path: pathlib.Path) -> None:
    with looked_at(tmp_path) as (venue, url):
        with traded(venue):
            pass
        (tmp_path / "venue/XYZ.journal.csv").rename(tmp_path / "away")
        kill_programs(venue)
        until(lambda: looked(f"{url}/healthz")[0] == 503)
        why = {"XYZ": "the journal is missing, and the log knows of 7 entries"}
        assert json.loads(looked(f"{url}/healthz")[1]) == {"status": "halted", "halted": why}
        until(lambda: measured(url)["callboard_halted"] == {("XYZ",): 1})


class Counted(Measures):
    """Measures that are none, and how often they were asked for."""

    def __init__(self) -> None:
        self.count = 0

    def collect(self) -> Iterator[Metric]:
        self.count += 1
        yield GaugeMetricFamily("count", "how often", self.count)


def test_the_port_of_metrics_is_told(tmp_path: pathlib.Path) -> None:
    """Also where the system chooses it."""
    with served.served(tmp_path, FAST, "--metrics", "127.0.0.1:0") as venue:
        assert re.fullmatch(r"http://127\.0\.0\.1:[1-9]\d*/metrics", venue.metrics)
        with urllib.request.urlopen(venue.metrics, timeout=served.SECONDS) as answer:
            assert b"\ncallboard_up 1.0\n" in answer.read()


def test_all_addresses_of_a_host_have_one_port() -> None:
    found = listening.sockets_at("localhost", 0)
    assert len({it.getsockname()[1] for it in found}) == 1
    for each in found:
        each.close()


def test_metrics_are_measured_once_a_second_however_many_ask() -> None:
    now, measures = [10.0], Counted()
    text = metrics.Text(measures, lambda: now[0])
    first = text.of_now()
    assert b"count 1.0" in first and {text.of_now() for _ in range(100)} == {first}
    now[0] += metrics.KEPT_SECONDS
    assert b"count 2.0" in text.of_now() and measures.count == 2


def test_what_the_operator_does_is_said(tmp_path: pathlib.Path) -> None:
    """And who asked for it without the operator's token."""
    with served.served(tmp_path, FAST, "--log", "json") as venue:
        token = venue.join("Anna")
        for word in ("start", "freeze", "thaw"):
            venue.do(word)
        venue.do("uncross", instrument="XYZ")
        for wrong in (token, "guess"):
            assert venue.call("api/operator", {"do": "start"}, wrong)[0] in (401, 403)
        assert venue.call("api/download/results/XYZ", token="guess")[0] == 401
        venue.child.terminate()
        _, error = venue.child.communicate(timeout=served.SECONDS)
    told = [json.loads(line)["text"] for line in error.splitlines()]
    done = [it.removeprefix("the operator: ") for it in told if it.startswith("the operator: ")]
    words = ["start", "freeze", "thaw", "uncross of XYZ"]
    assert done == [f"{it}, from 127.0.0.1" for it in words]
    assert "a token that isn't the operator's, from 127.0.0.1" in told


def test_whom_the_operators_words_are_about_is_said(tmp_path: pathlib.Path) -> None:
    """Also in one second, and of what is refused; what is done again is said again."""
    with served.served(tmp_path, FAST, "--log", "json") as venue:
        tokens = [venue.join(name) for name in ("Anna", "Bert", "Eve", "Max")]
        for _ in range(3):
            venue.do("code", member="Eve")
        venue.do("rename", member="Max", name="Maxi")
        venue.do("rename", member="Maxi", name="Max")
        venue.do("start")
        with Client(venue.url, tokens[0]) as me:
            me.enter("bid", 1, "2.00")
        for name in ("Anna", "Bert"):
            venue.do("remove", member=name)
        for name in ("Anna", "Bert"):
            venue.do("readmit", member=name)
        venue.do("remove", members=["Eve", "Max"])
        asked = {"do": "remove", "member": "Eve"}
        assert venue.call("api/operator", asked, venue.operator)[0] == 400
        venue.child.terminate()
        _, error = venue.child.communicate(timeout=served.SECONDS)
    lines = [json.loads(it) for it in error.splitlines()]
    head = "the operator: "
    said = [it for it in lines if it["text"].startswith(head)]
    told = [(it["text"].removeprefix(head), it.get("member")) for it in said]
    where = "from 127.0.0.1"
    assert told == [
        *[(f"code, {where}: Eve", "Eve")] * 3,
        (f"rename, {where}: Max is Maxi now", "Max"),
        (f"rename, {where}: Maxi is Max now", "Maxi"),
        (f"start, {where}", None),
        (f"remove, {where}: Anna: 1 orders deleted", "Anna"),
        (f"remove, {where}: Bert: 0 orders deleted", "Bert"),
        (f"readmit, {where}: Anna", "Anna"),
        (f"readmit, {where}: Bert", "Bert"),
        (f"remove, {where}: Eve, Max: 0 orders deleted", None),
        (f"remove, {where}: Eve isn't done: Eve is removed already", "Eve"),
    ]


def test_wrong_tokens_of_the_operator_are_said_to_people(tmp_path: pathlib.Path) -> None:
    """By address, and one line a second of each; a member who asks what it may is none."""
    with served.served(tmp_path, FAST) as venue:
        token = venue.join("Anna")
        assert venue.call("api/look/state", token=token)[0] == 200
        for wrong in (token, "guess", "another", "more"):
            assert venue.call("api/operator", {"do": "start"}, wrong)[0] in (401, 403)
        assert venue.call("api/operator", {"do": "start"})[0] == 401
        venue.do("start")
        venue.child.terminate()
        _, error = venue.child.communicate(timeout=served.SECONDS)
    said = r"venue: a token that isn't the operator's, from 127.0.0.1(?: \(and (\d+) times more\))?"
    found = [re.fullmatch(said, it) for it in error.splitlines()]
    assert all(found) and sum(1 + int(it[1] or 0) for it in found if it) == 5, error


def test_an_answer_is_counted_in_each_bucket_that_holds_it() -> None:
    times = Times()
    for seconds in (0.0005, 0.001, 0.0011, 0.2, 99.0):
        times.add(seconds)
    found = dict(times.buckets())
    assert (found["0.001"], found["0.0025"], found["0.25"], found["10.0"]) == (2, 3, 4, 4)
    assert found["+Inf"] == 5 and abs(times.total - 99.2026) < 1e-9


def test_signs_of_life(tmp_path: pathlib.Path) -> None:
    path = tmp_path / "notify"
    with socket.socket(socket.AF_UNIX, socket.SOCK_DGRAM) as heard:
        heard.bind(str(path))
        heard.settimeout(served.SECONDS)
        told = {"NOTIFY_SOCKET": str(path), "WATCHDOG_USEC": "200000"}
        with served.served(tmp_path, FAST, before=None, **told) as venue:
            assert [heard.recv(100) for _ in range(3)] == [b"READY=1", b"WATCHDOG=1", b"WATCHDOG=1"]
            venue.child.terminate()
            while (text := heard.recv(100)) == b"WATCHDOG=1":
                pass
            assert text == b"STOPPING=1"


def test_what_is_said_as_json(tmp_path: pathlib.Path) -> None:
    with served.served(tmp_path, FAST, "--log", "json", "--hide-tokens") as venue:
        assert venue.operator == venue.beamer == "TOKEN"
        secret = (tmp_path / "venue/operator.token").read_text().strip()
        assert venue.call("api/join", {"code": venue.code, "name": "Anna"})[0] == 200
        assert venue.call("api/join", {"code": "WRONGS", "name": "Eve"})[0] == 403
        venue.child.terminate()
        printed, error = venue.child.communicate(timeout=served.SECONDS)
        assert secret not in printed + error
    lines = [json.loads(line) for line in error.splitlines()]
    assert all({"time", "level", "text"} <= it.keys() for it in lines)
    [joined] = [it for it in lines if it.get("member")]
    assert (joined["level"], joined["member"]) == ("info", "Anna")
    assert "a wrong code, from 127.0.0.1" in [it["text"] for it in lines]


def test_a_fault_of_a_start_is_said_as_json_too(tmp_path: pathlib.Path) -> None:
    (tmp_path / "day.toml").write_text("call = 3")
    for more in ("--hide-tokens", "--check"):
        status, error = ended(more, "--log", "json", "--day", tmp_path / "day.toml")
        found = json.loads(error)
        assert (status, found["level"]) == (1, "error") and "call" in found["text"]


def record_of(text: str, *args: object, level: int = logging.WARNING) -> logging.LogRecord:
    return logging.LogRecord("a", level, "", 1, text, args, None)


def test_a_line_that_comes_again_is_one_a_second() -> None:
    now = [10.0]
    sparing = notices.Sparing(lambda: now[0])
    form = notices.Plain()
    written = []
    for second in range(3):
        for number in range(1000):
            record = record_of("no %s\nhere", second // 2)
            if sparing.filter(record):
                written.append(form.format(record))
        assert sparing.filter(record_of("another"))
        now[0] += 1.0
    again = " (and 999 times more)"
    assert written == ["venue: no 0 here", f"venue: no 0 here{again}", "venue: no 1 here"]


def test_the_last_count_of_a_flood_is_written() -> None:
    """Once it is over, and at an end; of lines that gave way to others too."""
    now = [10.0]
    sparing, form = notices.Sparing(lambda: now[0]), notices.Plain()

    def told(is_end: bool = False) -> list[str]:
        return [form.format(it) for it in sparing.left_out(is_end)]

    assert [sparing.filter(record_of("no %s", 1)) for _ in range(10)] == [True] + [False] * 9
    assert told() == []
    now[0] += 1.0
    assert told() == ["venue: no 1 (and 8 times more)"] and told(True) == []
    assert not sparing.filter(record_of("no %s", 1)) and told() == []
    assert told(True) == ["venue: no 1"]
    sparing.filter(record_of("no %s", 1))
    now[0] += 1.0
    for each in range(notices.MOST_LINES):
        sparing.filter(record_of("from %s", each))
    assert told() == ["venue: no 1"]
    left = [sparing.filter(record_of("from %s", "more")) for _ in range(3)]
    assert left == [True, False, False]
    assert told(True) == ["venue: from more (and 1 like it, of others too)"]


def test_lines_are_in_the_order_of_time() -> None:
    """Also one that says how many others weren't written."""
    stream = io.StringIO()
    handler = notices.Unheld(stream)
    handler.setFormatter(notices.AsJson())
    for text in ("first", "first", "second"):
        handler.handle(record_of(text))
        time.sleep(0.01)
    handler.write_left_out(is_end=True)
    lines = [json.loads(it) for it in stream.getvalue().splitlines()]
    assert [it["text"] for it in lines] == ["first", "second", "first"]
    assert [it["time"] for it in lines] == sorted(it["time"] for it in lines)


def test_what_is_done_once_is_folded_into_nothing() -> None:
    """Nor in a flood of other lines."""
    sparing = notices.Sparing(lambda: 10.0)
    for each in range(1000):
        sparing.filter(record_of("from %s", each))
    for _ in range(3):
        record = record_of("%s", "the operator: code", level=logging.INFO)
        record.is_once = True
        assert sparing.filter(record)


@pytest.mark.parametrize("is_killed", [False, True])
def test_all_of_a_flood_is_counted(tmp_path: pathlib.Path, is_killed: bool) -> None:
    """Where the venue ends at once, or goes on for some seconds before it is killed."""
    count = 20
    with served.served(tmp_path, FAST, "--log", "json") as venue:
        for _ in range(count):
            assert venue.call("api/join", {"code": "WRONGS", "name": "Eve"})[0] == 403
        if is_killed:
            time.sleep(3 * notices.REPEAT_SECONDS)
            venue.child.kill()
        else:
            venue.child.terminate()
        _, error = venue.child.communicate(timeout=served.SECONDS)
    texts = [json.loads(line)["text"] for line in error.splitlines()]
    wrong = [it for it in texts if it.startswith("a wrong code, from 127.0.0.1")]
    more = [int(found[1]) for it in wrong if (found := re.search(r"\(and (\d+) times more", it))]
    assert len(wrong) + sum(more) == count, wrong


def test_no_line_is_folded_into_one_of_another() -> None:
    """Of instruments, of addresses, of members."""
    sparing = notices.Sparing(lambda: 10.0)
    for each in ("AAA", "BBB", "CCC", "192.0.2.1"):
        assert sparing.filter(record_of("%s: it ended", each))
        assert not sparing.filter(record_of("%s: it ended", each))
    for name in ("Anna", "Ben"):
        joined = record_of("a member joined", level=logging.INFO)
        joined.member = name
        assert sparing.filter(joined)


def test_a_fault_is_said_in_a_flood_of_other_lines_once_a_second() -> None:
    now = [10.0]
    sparing = notices.Sparing(lambda: now[0])
    for each in range(1000):
        sparing.filter(record_of("from %s", each))
    for name in ("AAA", "BBB", "CCC"):
        halted = [record_of("%s halted", name, level=logging.ERROR) for _ in range(3)]
        assert [sparing.filter(it) for it in halted] == [True, False, False]
    now[0] += 1.0
    last = record_of("%s halted", "CCC", level=logging.ERROR)
    assert sparing.filter(last) and getattr(last, "left_out") == " (and 2 times more)"
    assert len(sparing._lines) <= notices.MOST_LINES + 2


OF_ASYNCIO = """
import logging
from callauction.venue import notices
notices.set_up("json")
logging.getLogger("asyncio").warning("SSL connection is closed")
logging.getLogger("asyncio").error("this")
"""


def test_who_is_gone_while_it_is_sent_to_is_no_line() -> None:
    ran = subprocess.run(
        [sys.executable, "-c", OF_ASYNCIO],
        env=served.environment(),
        capture_output=True,
        text=True,
        timeout=served.SECONDS,
    )
    assert [json.loads(line)["text"] for line in ran.stderr.splitlines()] == ["this"]


def test_lines_of_many_are_bounded() -> None:
    now = [10.0]
    sparing = notices.Sparing(lambda: now[0])
    count = sum(sparing.filter(record_of("from %s", each)) for each in range(100_000))
    assert notices.MOST_LINES <= count <= notices.MOST_LINES + 1
    now[0] += 1.0
    assert sparing.filter(record_of("from %s", "a new one"))
    assert sparing.filter(record_of("from %s", 0))
    for each in range(notices.MOST_LINES):
        sparing.filter(record_of("again from %s", each))
    late = record_of("again from %s", "another")
    now[0] += 0.5
    sparing.filter(late)
    assert len(sparing._lines) <= notices.MOST_LINES + 2


def test_each_program_that_ends_is_named(tmp_path: pathlib.Path) -> None:
    """Also where several end within a second, and who joins within one."""
    names = ["AAA", "BBB", "CCC"]
    day = FAST + "".join(f'[[instrument]]\nname = "{it}"\n' for it in names)
    with served.served(tmp_path, day, "--log", "json") as venue:
        members = [f"member {number}" for number in range(10)]
        token = [venue.join(name) for name in members][0]
        for name in names:
            venue.do("start", instrument=name)
        for child in psutil.Process(venue.child.pid).children():
            child.kill()
        with Client(venue.url, token) as me:
            for name in names:
                assert me.enter("bid", 1, "2.00", instrument=name).entry == 1
        venue.child.terminate()
        _, error = venue.child.communicate(timeout=served.SECONDS)
    lines = [json.loads(line) for line in error.splitlines()]
    ended = [it["text"].partition(":")[0] for it in lines if "is started again" in it["text"]]
    assert sorted(ended) == names
    assert [it["member"] for it in lines if "member" in it] == members


@pytest.mark.parametrize("form", [notices.Plain(), notices.AsJson()])
def test_a_line_has_room_in_a_pipe_that_has_any(form: logging.Formatter) -> None:
    for letter in ("a", '"', "\u00e9", "\U0001f600", "\ud800"):
        record = logging.LogRecord("a", 40, "", 1, letter * 10_000, (), None)
        record.member = "\U0001f600" * 40
        size = len(form.format(record).encode("ascii", "backslashreplace"))
        assert 1000 < size < select.PIPE_BUF, (letter, size)

"""What somebody may try who knows the documents, the address and perhaps one member's code: bytes
that no client says, more of them than is answered, races with the operator.
"""
import asyncio
import contextlib
import json
import pathlib
import socket
import time
from typing import Any

import psutil
import pytest
import raw
import served
from callauction.venue import Client
from callauction.venue.audience import MOST_OF_MEMBER
from callauction.venue.connection import LEAVE_SECONDS
from callauction.venue.members import HELLO_BURST
from conftest import FAST
from patience import until
from served import STAND_IN, Served
from speaking import hello, said

PLAIN = "sync = false\n[phases]\ncall = 0\n"
MEGABYTE = 1 << 20
SMALL = 2048
MOST_MORE = 64 * MEGABYTE
"""How much more memory a venue may have for a flood of some connections."""
FLOOD = 12 * MEGABYTE
MOST_WAIT = 1.0
"""Seconds that the order of another member waits meanwhile, at most, half of the time."""
PIPELINED = b"GET /api/day HTTP/1.1\r\nHost: 127.0.0.1\r\n\r\n" * 500
IN_PARTS = (
    b"POST /api/join HTTP/1.1\r\nHost: 127.0.0.1\r\nContent-Type: application/json\r\n"
    b"Transfer-Encoding: chunked\r\n\r\n"
)
EMPTY = {
    "texts": raw.frame(raw.TEXT),
    "pings": raw.frame(raw.PING),
    "pongs": raw.frame(raw.PONG),
    "parts": raw.frame(raw.CONTINUED, is_last=False),
}


def waits_beside(venue: Served, token: str, count: int = 20) -> tuple[float, int]:
    """How long the orders of a member take, half of them no longer, and the most memory of the
    venue meanwhile.
    """
    process, waits, most = psutil.Process(venue.child.pid), [], 0
    with Client(venue.url, token) as me:
        for _ in range(count):
            begin = time.monotonic()
            me.enter("bid", 1, "2.00")
            waits.append(time.monotonic() - begin)
            most = max(most, process.memory_info().rss)
            time.sleep(0.1)
    return sorted(waits)[count // 2], most


def memory(venue: Served) -> int:
    """The bytes of memory that a venue has."""
    return int(psutil.Process(venue.child.pid).memory_info().rss)


# ---- floods that are read no faster than they are answered


def test_requests_that_come_at_once_wait_outside(tmp_path: pathlib.Path) -> None:
    with served.served(tmp_path, PLAIN) as venue:
        token = venue.join("Anna")
        venue.do("start")
        before = memory(venue)
        with raw.flooding(raw.connected(venue), PIPELINED, FLOOD):
            wait, most = waits_beside(venue, token)
        assert wait < MOST_WAIT and most < before + MOST_MORE, (wait, before, most)


@pytest.mark.parametrize("kind", EMPTY)
def test_empty_messages_wait_outside(tmp_path: pathlib.Path, kind: str) -> None:
    with served.served(tmp_path, PLAIN) as venue:
        bad, good = venue.join("Bad"), venue.join("Good")
        venue.do("start")
        before = memory(venue)
        connection = raw.known(venue, bad)
        if kind == "parts":
            connection.sendall(raw.frame(raw.TEXT, is_last=False))
        with raw.flooding(connection, EMPTY[kind] * 2000, FLOOD):
            wait, most = waits_beside(venue, good)
        assert wait < MOST_WAIT and most < before + MOST_MORE, (wait, before, most)


def test_a_body_in_parts_is_refused(tmp_path: pathlib.Path) -> None:
    """Each part of a byte costs as much as a whole body."""
    with served.served(tmp_path, PLAIN) as venue:
        connection = raw.connected(venue)
        connection.sendall(IN_PARTS + b"0\r\n\r\n")
        assert connection.recv(SMALL).startswith(b"HTTP/1.1 411 ")
        connection.close()
        token = venue.join("Anna")
        venue.do("start")
        with contextlib.ExitStack() as stack:
            for _ in range(20):
                connection = raw.connected(venue)
                connection.sendall(IN_PARTS)
                stack.enter_context(raw.flooding(connection, b"1\r\na\r\n" * 2000, FLOOD))
            wait, _ = waits_beside(venue, token)
        assert wait < MOST_WAIT, wait


def test_a_long_message_and_many_at_once_are_read(venue: Served) -> None:
    token = venue.join("Anna")
    venue.do("start")
    order = {"type": "enter", "side": "bid", "quantity": 1, "price": "2.00"}
    texts = [json.dumps(order | {"number": number}) for number in range(1, 101)]
    long = json.dumps({"type": "x" * 4000})
    heard = asyncio.run(said(venue, hello(token), *texts, long, count=102))
    assert [it["entry"] for it in heard if it["type"] == "answer"] == [*range(1, 101)]
    assert [it.get("error") for it in heard if it["type"] == "error"] == ["not_allowed"]


# ---- connections


def silent(venue: Served, token: str) -> socket.socket:
    """A known connection that takes nothing of what it is answered, until nothing more is read of
    it.
    """
    found = raw.known(venue, token)
    found.settimeout(1)
    with contextlib.suppress(TimeoutError):
        for _ in range(5000):
            found.sendall(raw.frame(raw.TEXT, b"{}" + b" " * 120) * 40)
    return found


def test_a_member_has_few_connections_even_where_it_reads_nothing(tmp_path: pathlib.Path) -> None:
    with served.served(tmp_path, FAST) as venue:
        token = venue.join("Anna")
        before = psutil.Process(venue.child.pid).num_fds()
        those = [silent(venue, token)]
        those += [raw.known(venue, token) for _ in range(2 * MOST_OF_MEMBER)]
        time.sleep(LEAVE_SECONDS + 2)
        assert psutil.Process(venue.child.pid).num_fds() <= before + MOST_OF_MEMBER
        assert [raw.is_open(it) for it in those[1:]].count(True) == MOST_OF_MEMBER
        for each in those:
            each.close()


def test_saying_hello_again_and_again_counts(venue: Served) -> None:
    token = venue.join("Anna")
    heard = [asyncio.run(said(venue, hello(token)))[0] for _ in range(HELLO_BURST)]
    assert {it["type"] for it in heard} == {"welcome"}
    more = [asyncio.run(said(venue, hello(token)))[0] for _ in range(HELLO_BURST)]
    assert "too_fast" in [it.get("error") for it in more]
    assert asyncio.run(said(venue, hello(venue.join("Bert"))))[0]["type"] == "welcome"


def test_coming_again_and_again_by_a_code_counts(tmp_path: pathlib.Path) -> None:
    with served.served(tmp_path, PLAIN + '[members]\nnames = ["Anna", "Bert"]\n') as venue:
        lines = (tmp_path / "venue/venue.log").read_text().splitlines()
        kept = [json.loads(line) for line in lines]
        codes = {it["name"]: it["code"] for it in kept if it["kind"] == "code"}

        def come(name: str) -> int:
            return venue.call("api/join", {"code": codes[name]})[0]

        assert {come("Anna") for _ in range(HELLO_BURST)} == {200}
        assert 429 in [come("Anna") for _ in range(HELLO_BURST)]
        assert come("Bert") == 200


def test_a_key_that_is_none(venue: Served) -> None:
    connection = raw.connected(venue)
    connection.sendall(raw.HANDSHAKE.replace(b"AAAA==", b"\xff\xff=="))
    assert connection.recv(SMALL).startswith(b"HTTP/1.1 400 ")
    connection.close()


# ---- races with the operator


def test_orders_that_arent_answered_yet_go_with_their_member(tmp_path: pathlib.Path) -> None:
    slow = {"CALLBOARD": str(STAND_IN), "STAND_IN_SLOW": "0.02"}
    order = {"type": "enter", "side": "bid", "quantity": 1, "price": "2.00"}
    with served.served(tmp_path, PLAIN, before=None, **slow) as venue:
        connection = raw.known(venue, venue.join("Anna"))
        venue.do("start")
        for number in range(1, 30):
            text = json.dumps(order | {"number": number}).encode()
            connection.sendall(raw.frame(raw.TEXT, text))
        time.sleep(0.1)
        found = venue.do("remove", member="Anna")
        orders = [{"member": "Anna", "instrument": "XYZ", "order": it} for it in range(1, 30)]
        assert found == {"done": "remove", "removed": 1, "deleted": orders}
        end = time.monotonic() + served.SECONDS
        while time.monotonic() < end and entries(tmp_path, "entered") != 29:
            time.sleep(0.1)
        while time.monotonic() < end and entries(tmp_path, "deleted") != 29:
            time.sleep(0.1)
        connection.close()
        time.sleep(0.5)
    assert (entries(tmp_path, "entered"), entries(tmp_path, "deleted")) == (29, 29)


def entries(folder: pathlib.Path, word: str, name: str = "XYZ") -> int:
    """How many replies of a journal have this word."""
    return (folder / f"venue/{name}.journal.csv").read_text("latin-1").count(f",{word}")


def test_each_order_of_a_removed_member_is_deleted_once(tmp_path: pathlib.Path) -> None:
    slow = {"CALLBOARD": str(STAND_IN), "STAND_IN_SLOW": "0.2"}
    day = PLAIN + "".join(f'[[instrument]]\nname = "{name}"\n' for name in "AB")
    with served.served(tmp_path, day, before=None, **slow) as venue:
        connection = raw.known(venue, venue.join("Anna"))
        enter: dict[str, Any] = {"type": "enter", "side": "bid", "quantity": 1, "price": "2.00"}
        both = [enter | {"instrument": name} for name in "AB"]
        delete: dict[str, Any] = {"type": "delete", "instrument": "A", "order": 1}
        for name in "AB":
            venue.do("start", instrument=name)
        for number, message in enumerate([*both, delete], 1):
            text = json.dumps(message | {"number": number}).encode()
            connection.sendall(raw.frame(raw.TEXT, text))
            until(lambda: message is delete or entries(tmp_path, "entered", name_of(message)) > 0)
        time.sleep(0.05)
        venue.do("remove", member="Anna")
        until(lambda: entries(tmp_path, "deleted", "B") > 0)
        time.sleep(1)
        connection.close()
    assert [entries(tmp_path, "deleted", name) for name in "AB"] == [1, 1]


def name_of(message: dict[str, Any]) -> str:
    """The instrument of a message."""
    return str(message["instrument"])


def test_a_removal_is_ended_after_a_kill(tmp_path: pathlib.Path) -> None:
    with served.served(tmp_path, FAST) as venue:
        token = venue.join("Anna")
        venue.do("start")
        with Client(venue.url, token) as me:
            assert [me.enter("bid", 1, "2.00").order for _ in range(3)] == [1, 2, 3]
            me.delete(2)
    with open(tmp_path / "venue/venue.log", "a", encoding="utf-8") as log:
        log.write('{"kind":"removed","name":"Anna"}\n')
    with served.served(tmp_path, FAST) as venue:
        end = time.monotonic() + served.SECONDS
        while time.monotonic() < end and entries(tmp_path, "deleted") != 3:
            time.sleep(0.05)
    with served.served(tmp_path, FAST):
        pass
    assert entries(tmp_path, "deleted") == 3


# ---- texts that can't be written


def test_half_a_pair_of_utf16_is_no_text(venue: Served) -> None:
    token = venue.join("Anna")
    venue.do("start")
    half = '{"type":"enter","number":1,"side":"bid","quantity":1,"price":"2.00","\\ud800":1}'
    whole = '{"type":"enter","number":1,"side":"bid","quantity":1,"price":"2.00"}'
    heard = asyncio.run(said(venue, hello(token), half, whole, count=3))
    assert [it.get("error") for it in heard] == [None, "bad_message", None]
    assert heard[2]["entry"] == 1
    for body in ({"do": "message", "text": "\ud800"}, {"do": "message", "text": ["\udfff"]}):
        assert venue.call("api/operator", body, venue.operator)[0] == 400
    assert venue.do("message", text="\U0001f600 \u00e9") == {"done": "message"}

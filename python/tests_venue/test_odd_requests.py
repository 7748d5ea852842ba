"""Requests that no browser makes: each is answered by a status, with what all answers have in their
heads, and none leaves a word on standard error.
"""
import asyncio
import contextlib
import pathlib
import socket
import ssl

import pytest
import served
from aiohttp import web
from callauction.venue import answer_heads
from certificates import certificate
from conftest import FAST
from listeners import NoTransport
from raw import HANDSHAKE
from served import Served

HOST = b"Host: 127.0.0.1\r\n"
JOIN = b"POST /api/join HTTP/1.1\r\n" + HOST + b"Content-Type: application/json\r\n"
GET = b"GET / HTTP/1.1\r\n" + HOST
SECONDS = 30.0
SAFE = {"x-content-type-options": "nosniff", "referrer-policy": "no-referrer"}
SAFE |= {"server": "callboard"}
ODD = {
    "a page": (GET + b"\r\n", 200),
    "no page": (b"GET /nothing HTTP/1.1\r\n" + HOST + b"\r\n", 404),
    "another method": (b"PUT /api/join HTTP/1.1\r\n" + HOST + b"Content-Length: 0\r\n\r\n", 405),
    "a folder above": (b"GET /pages/../../venue.py HTTP/1.1\r\n" + HOST + b"\r\n", 404),
    "a folder above, in code": (b"GET /pages/%2e%2e%2fvenue.py HTTP/1.1\r\n" + HOST + b"\r\n", 404),
    "a NUL": (b"GET /pages/%00 HTTP/1.1\r\n" + HOST + b"\r\n", 404),
    "no request": (b"\x16\x03\x01\x00nonsense\r\n\r\n", 400),
    "a long line": (b"GET /" + b"a" * 20_000 + b" HTTP/1.1\r\n" + HOST + b"\r\n", 400),
    "a long field": (GET + b"X: " + b"a" * 20_000 + b"\r\n\r\n", 400),
    "many fields": (GET + b"".join(b"X%d: a\r\n" % it for it in range(3000)) + b"\r\n", 400),
    "two hosts": (GET + b"Host: evil.example\r\n\r\n", 400),
    "no host": (b"GET / HTTP/1.1\r\n\r\n", 403),
    "half a host": (b"GET / HTTP/1.1\r\nHost: [\r\n\r\n", 403),
    "half an origin": (GET + b"Origin: http://[\r\n\r\n", 403),
    "half an address": (b"GET http://[ HTTP/1.1\r\n" + HOST + b"\r\n", 400),
    "an address of elsewhere": (b"GET http://evil.example/ HTTP/1.1\r\nHost: x\r\n\r\n", 403),
    "a tunnel": (b"CONNECT 127.0.0.1:80 HTTP/1.1\r\n" + HOST + b"\r\n", 404),
    "a length below 0": (JOIN + b"Content-Length: -1\r\n\r\n{}", 400),
    "two lengths": (JOIN + b"Content-Length: 2\r\nContent-Length: 3\r\n\r\n{}a", 400),
    "a length without end": (JOIN + b"Content-Length: " + b"9" * 20 + b"\r\n\r\n{}", 400),
    "a long body": (JOIN + b"Content-Length: 70000\r\n\r\n" + b"a" * 70_000, 413),
    "another coding": (JOIN + b"Transfer-Encoding: xyz\r\n\r\n{}", 400),
    "packed by gzip": (JOIN + b"Content-Encoding: gzip\r\nContent-Length: 2\r\n\r\n{}", 400),
    "expects nonsense": (JOIN + b"Expect: nonsense\r\nContent-Length: 2\r\n\r\n{}", 417),
    "another charset": (
        JOIN.replace(b"json", b"json; charset=nonsense") + b"Content-Length: 2\r\n\r\n{}", 400
    ),
    "no UTF-8": (JOIN + b"Content-Length: 3\r\n\r\n\xff\xfe{", 400),
    "lists within lists": (JOIN + b"Content-Length: 60000\r\n\r\n" + b"[" * 60_000, 400),
    "a long number": (JOIN + b"Content-Length: 60000\r\n\r\n" + b"9" * 60_000, 400),
    "no token": (b"GET /api/look/state HTTP/1.1\r\n" + HOST + b"Authorization: \xff\r\n\r\n", 401),
    "a socket": (HANDSHAKE, 101),
    "a socket without a version": (HANDSHAKE.replace(b"Sec-WebSocket-Version: 13\r\n", b""), 400),
    "no socket": (b"GET /api/socket HTTP/1.1\r\n" + HOST + b"\r\n", 400),
}


def head_of(port: int, request: bytes, tls: ssl.SSLContext | None) -> tuple[int, dict[str, str]]:
    """The status that a request is answered by, and the fields of the head."""
    connection = socket.create_connection(("127.0.0.1", port), timeout=SECONDS)
    if tls is not None:
        connection = tls.wrap_socket(connection, server_hostname="127.0.0.1")
    found = b""
    with connection, contextlib.suppress(ConnectionError):
        with contextlib.suppress(ConnectionError):
            connection.sendall(request)
        while b"\r\n\r\n" not in found and (block := connection.recv(1 << 16)):
            found += block
    first, *lines = found.partition(b"\r\n\r\n")[0].decode("latin-1").lower().split("\r\n")
    fields = {name: value.strip() for name, _, value in (it.partition(":") for it in lines)}
    return int(first.split()[1]), fields


def check_heads(venue: Served, tls: ssl.SSLContext | None) -> None:
    """Asks all odd requests, and ends the venue."""
    port = int(venue.url.rpartition(":")[2].rstrip("/"))
    for what, (request, status) in ODD.items():
        found, fields = head_of(port, request, tls)
        assert found == status, (what, found)
        assert SAFE.items() <= fields.items(), (what, fields)
        assert ("strict-transport-security" in fields) == (tls is not None), (what, fields)
    venue.child.terminate()
    _, error = venue.child.communicate(timeout=served.SECONDS)
    assert (venue.child.returncode, error) == (0, "")


@pytest.mark.parametrize("is_secure", [False, True], ids=["plain", "TLS"])
def test_odd_requests(tmp_path: pathlib.Path, is_secure: bool) -> None:
    words = certificate(tmp_path, "venue") if is_secure else []
    trusting = ssl.create_default_context(cafile=words[1]) if words else None
    with served.served(tmp_path, FAST, *words) as venue:
        check_heads(venue, trusting)


def test_what_is_said_to_what_is_no_request(tmp_path: pathlib.Path) -> None:
    """Words of the venue, none of its libraries."""
    text = "this is no request by HTTP, or a line of its head is longer than 8190 bytes"
    with served.served(tmp_path, FAST) as venue:
        port = int(venue.url.rpartition(":")[2].rstrip("/"))
        for what in ("no request", "a long line", "a long field", "two lengths"):
            with socket.create_connection(("127.0.0.1", port), timeout=SECONDS) as connection:
                connection.sendall(ODD[what][0])
                answer = b"".join(iter(lambda: connection.recv(1 << 16), b""))
            assert answer.partition(b"\r\n\r\n")[2] == text.encode(), what


@pytest.mark.asyncio
async def test_a_connection_that_is_lost_is_no_fault(caplog: pytest.LogCaptureFixture) -> None:
    """At whatever moment."""

    async def answer(request: web.BaseRequest) -> web.StreamResponse:
        return web.Response(text="answered")

    for moment in range(8):
        one = answer_heads.ConnectionHandler(web.Server(answer))
        one.connection_made(NoTransport())
        one.data_received((GET + b"\r\n") * 2)
        for _ in range(moment):
            await asyncio.sleep(0)
        one.connection_lost(None)
        for _ in range(8):
            await asyncio.sleep(0)
    assert caplog.records == []

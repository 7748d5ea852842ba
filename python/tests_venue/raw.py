"""Connections that speak WebSocket byte by byte, as no client that means well does."""
import contextlib
import json
import socket
import struct
import threading
from collections.abc import Iterator

from served import Served

TEXT, CONTINUED, PING, PONG = 1, 0, 9, 10
HANDSHAKE = (
    b"GET /api/socket HTTP/1.1\r\nHost: 127.0.0.1\r\nUpgrade: websocket\r\n"
    b"Connection: Upgrade\r\nSec-WebSocket-Key: AAAAAAAAAAAAAAAAAAAAAA==\r\n"
    b"Sec-WebSocket-Version: 13\r\n\r\n"
)
SECONDS = 30.0
SMALL = 2048
"""Bytes that the system keeps for a connection that reads nothing."""


def frame(kind: int, data: bytes = b"", is_last: bool = True) -> bytes:
    """A frame of WebSocket, masked by zeros."""
    head = bytes([128 * is_last | kind, 128 | min(len(data), 126)])
    return head + (struct.pack(">H", len(data)) if len(data) > 125 else b"") + bytes(4) + data


def connected(venue: Served) -> socket.socket:
    """A connection that has said nothing, and reads little at a time."""
    found = socket.socket()
    found.setsockopt(socket.SOL_SOCKET, socket.SO_RCVBUF, SMALL)
    found.settimeout(SECONDS)
    found.connect(("127.0.0.1", int(venue.url.rpartition(":")[2].rstrip("/"))))
    return found


def known(venue: Served, token: str) -> socket.socket:
    """A connection that has said who it is."""
    found = connected(venue)
    found.sendall(HANDSHAKE)
    while not found.recv(SMALL).endswith(b"\r\n\r\n"):
        pass
    hello = {"type": "hello", "token": token, "topics": []}
    found.sendall(frame(TEXT, json.dumps(hello).encode()))
    return found


def is_open(connection: socket.socket) -> bool:
    """Whether a connection that reads all of what came hasn't ended."""
    connection.setblocking(False)
    with contextlib.suppress(BlockingIOError):
        with contextlib.suppress(ConnectionError):
            while connection.recv(SMALL):
                pass
        return False
    return True


@contextlib.contextmanager
def flooding(connection: socket.socket, block: bytes, most: int) -> Iterator[None]:
    """A connection that says this again and again, and reads what it is answered, until it has said
    as many bytes.
    """
    stopped = threading.Event()

    def say() -> None:
        left = most
        with contextlib.suppress(OSError):
            while left > 0 and not stopped.is_set():
                connection.sendall(block)
                left -= len(block)

    def hear() -> None:
        with contextlib.suppress(OSError):
            while not stopped.is_set() and connection.recv(1 << 16):
                pass

    threads = [threading.Thread(target=each, daemon=True) for each in (say, hear)]
    for each in threads:
        each.start()
    try:
        yield
    finally:
        stopped.set()
        with contextlib.suppress(OSError):
            connection.shutdown(socket.SHUT_RDWR)
        for each in threads:
            each.join(SECONDS)
        connection.close()

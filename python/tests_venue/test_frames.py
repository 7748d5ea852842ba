"""Frames of WebSocket that RFC 6455 refuses: each ends its connection by 1002, and nothing of it is
done.
"""
import itertools
import json
import pathlib
import socket
import subprocess
import sys
from collections.abc import Iterator

import pytest
import raw
import served
from conftest import FAST
from raw import CONTINUED, PING, PONG, TEXT, frame
from served import Served

BINARY, CLOSE = 2, 8
RESERVED = (64, 32, 16)
PROTOCOL_ERROR = 1002
ORDER = {"type": "enter", "number": 1, "side": "bid", "quantity": 1, "price": "2.00"}


def unmasked(kind: int, data: bytes = b"") -> bytes:
    """A frame as a venue would send it."""
    return bytes([128 | kind, len(data)]) + data


def text_of(message: object) -> bytes:
    return json.dumps(message).encode()


ANOTHER = """
import sys, aiohttp
aiohttp.__version__ = "3.9.5"
from callauction.venue.__main__ import main
sys.exit(main())
"""


def test_another_aiohttp() -> None:
    """It has other things inside, and reads other frames."""
    ran = subprocess.run(
        [sys.executable, "-c", ANOTHER], env=served.environment(), capture_output=True, text=True
    )
    told = "aiohttp 3.9.5 is installed, and the venue needs 3.8: Debian 12 has it, or pip install"
    assert (ran.returncode, ran.stderr) == (3, f"venue: {told} 'aiohttp==3.8.*'\n")


WRONG = {
    "no mask": unmasked(TEXT, text_of(ORDER)),
    "no mask, of a ping": unmasked(PING, b"a"),
    "no mask, of a pong": unmasked(PONG),
    "no mask, of a close": unmasked(CLOSE),
    "no mask, empty": unmasked(TEXT),
    "no mask, behind one that has it": frame(PONG) + unmasked(TEXT, text_of(ORDER)),
    "no mask, of a rest": frame(TEXT, b"{", is_last=False) + unmasked(CONTINUED, b"}"),
    "no mask, long": bytes([128 | TEXT, 126, 1, 0]) + bytes(256),
    **{f"reserved bit {bit}": frame(bit | TEXT, text_of(ORDER)) for bit in RESERVED},
    **{f"reserved bit {bit} of a ping": frame(bit | PING) for bit in RESERVED},
    **{f"kind {kind}": frame(kind, b"a") for kind in (*range(3, 8), *range(11, 16))},
    "a ping in parts": frame(PING, b"a", is_last=False),
    "a close in parts": frame(CLOSE, is_last=False),
    "a long ping": frame(PING, bytes(126)),
    "a long pong": frame(PONG, bytes(126)),
    "a long close": frame(CLOSE, b"\x03\xe8" + bytes(124)),
    "the rest of none": frame(CONTINUED, text_of(ORDER)),
    "a message within another": frame(TEXT, b"{", is_last=False) + frame(TEXT, text_of(ORDER)),
    "a message behind an empty part": frame(TEXT, is_last=False) + frame(TEXT, text_of(ORDER)),
    "a part within another": frame(TEXT, b"{", is_last=False) + frame(BINARY, b"}", is_last=False),
}


@pytest.fixture(scope="module")
def open_venue(tmp_path_factory: pytest.TempPathFactory) -> Iterator[Served]:
    """A venue in a call."""
    with served.served(tmp_path_factory.mktemp("frames"), FAST) as venue:
        venue.do("start")
        yield venue


NUMBERS = itertools.count()


@pytest.fixture
def token(open_venue: Served) -> str:
    """The token of a new member."""
    return open_venue.join(f"member {next(NUMBERS)}")


def closed_by(connection: socket.socket) -> list[int]:
    """The codes of all closes that come until the connection ends."""
    said = b""
    while block := connection.recv(1 << 16):
        said += block
    found = []
    while said:
        kind, size, begin = said[0] & 15, said[1], 2
        if size > 125:
            size, begin = int.from_bytes(said[2:4], "big"), 4
        if kind == CLOSE:
            found.append(int.from_bytes(said[begin : begin + 2], "big"))
        said = said[begin + size :]
    return found


@pytest.mark.parametrize("what", WRONG)
def test_a_wrong_frame_ends_its_connection(open_venue: Served, token: str, what: str) -> None:
    with raw.known(open_venue, token) as connection:
        connection.sendall(WRONG[what])
        assert closed_by(connection) == [PROTOCOL_ERROR]
    assert open_venue.call("api/look/orders", token=token)[1]["orders"] == []


@pytest.mark.parametrize("text", [b"", raw.HANDSHAKE], ids=["later", "at once"])
def test_a_wrong_first_frame(open_venue: Served, token: str, text: bytes) -> None:
    """Also where it comes with the handshake."""
    hello = unmasked(TEXT, text_of({"type": "hello", "token": token, "topics": []}))
    with raw.connected(open_venue) as connection:
        connection.sendall(text + hello if text else raw.HANDSHAKE)
        head = b""
        while not head.endswith(b"\r\n\r\n"):
            head += connection.recv(1)
        if not text:
            connection.sendall(hello)
        assert closed_by(connection) == [PROTOCOL_ERROR]


def test_a_message_in_parts_with_a_sign_of_life_within(tmp_path: pathlib.Path) -> None:
    with served.served(tmp_path, FAST) as venue:
        token = venue.join("Anna")
        venue.do("start")
        order = text_of(ORDER)
        parts = [frame(TEXT, order[:9], is_last=False), frame(PING, b"x"), frame(PONG)]
        parts += [frame(CONTINUED, order[9:20], is_last=False), frame(CONTINUED, order[20:])]
        with raw.known(venue, token) as connection:
            for part in parts:
                connection.sendall(part)
            said = b""
            while b'"reply":"entered 1"' not in said:
                said += connection.recv(1 << 16)
            assert unmasked(PONG, b"x") in said

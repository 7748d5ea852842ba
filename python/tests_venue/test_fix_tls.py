"""Members by FIX over TLS: one whose connection is to end, and who doesn't end it, silences nobody,
neither members who come later nor the door itself.
"""
import contextlib
import dataclasses
import pathlib
import socket
import ssl
import time
from collections.abc import Callable, Iterator

import fixing
import pytest
import served
from callauction.fix.wires import LINGER_SECONDS
from callauction.venue.gates import HEAD_SECONDS
from certificates import certificate
from fixing import SOH, Peer
from patience import TIMED
from served import Served

pytestmark = TIMED
SOON = 5.0
"""Seconds within which a member is answered, far less than TLS waits for the other end."""
MOST_LATE = 5.0
"""Seconds by which a connection may be ended later than it is due."""


@dataclasses.dataclass
class Secure:
    """A venue with a FIX front over TLS: its port, its folder, and what a client trusts."""

    venue: Served
    port: int
    folder: pathlib.Path
    context: ssl.SSLContext

    def peer(self, member: str) -> Peer:
        """A member's connection, that says nothing yet."""
        return Peer(self.port, member, self.context)

    def on(self, member: str) -> Peer:
        """A member who has logged on, within SOON seconds. Raises Closed and TimeoutError."""
        found = self.peer(member)
        found.connect()
        password = fixing.token_of(self.folder, member)
        found.say("A", [(98, "0"), (108, "30"), (554, password)])
        found.take(lambda it: it[35] == "A", SOON)
        return found

    def seconds_of_half(self) -> float:
        """How long a connection may stay that begins a message and says no more."""
        with socket.create_connection(("127.0.0.1", self.port), 10) as plain:
            with self.context.wrap_socket(plain, server_hostname="localhost") as half:
                half.sendall(b"8=FIX.4.4" + SOH + b"9=")
                begin = time.monotonic()
                half.settimeout(HEAD_SECONDS + MOST_LATE)
                with contextlib.suppress(ConnectionError):
                    assert half.recv(100) == b""
                return time.monotonic() - begin


@pytest.fixture
def secure(tmp_path: pathlib.Path, monkeypatch: pytest.MonkeyPatch) -> Iterator[Secure]:
    """A venue in a call, with two members by FIX over TLS."""
    port, words = served.free_port(), certificate(tmp_path, "first")
    monkeypatch.setenv("SSL_CERT_FILE", words[1])  # which the operator trusts
    context = ssl.create_default_context(cafile=words[1])
    context.check_hostname = False
    with served.served(tmp_path, fixing.day_of(port, "ALICE", "BOB"), *words) as venue:
        venue.do("start")
        yield Secure(venue, port, tmp_path / "venue", context)


def answers_soon(peer: Peer, client: str) -> None:
    """A member's order is answered within SOON seconds. Raises TimeoutError."""
    peer.enter(client, "1", 1, "2.00")
    assert peer.take(lambda it: it.get(11) == client, SOON)[150] == "0"


def logged_out(secure: Secure) -> Peer:
    """A member who has logged out, and leaves the connection open."""
    found = secure.on("ALICE")
    found.say("5", [])
    assert found.take(lambda it: it[35] == "5", SOON)[35] == "5"
    return found


def refused(secure: Secure) -> Peer:
    """Somebody whom nobody knows, whose Logon isn't taken, and who leaves the connection open."""
    found = secure.peer("NOBODY")
    found.connect()
    found.say("A", [(98, "0"), (108, "30"), (554, "wrong")])
    return found


Leave = Callable[[Secure], Peer]
LEFT = pytest.mark.parametrize("left", [logged_out, refused])


@LEFT
def test_who_leaves_a_connection_open_silences_nobody(secure: Secure, left: Leave) -> None:
    """Whoever comes before or after it; more than a second later each of its ends is tried again.
    """
    before = secure.on("BOB")
    answers_soon(before, "b1")
    gone = left(secure)
    for place in range(4):
        time.sleep(0.7)
        answers_soon(before, f"b{place + 2}")
    before.close()
    after = Peer(secure.port, "BOB", secure.context)
    after.number, after.expected, after.sent = before.number, before.expected, before.sent
    after.logon(fixing.token_of(secure.folder, "BOB"))
    answers_soon(after, "b9")
    gone.close()


@LEFT
def test_the_door_is_swept_beside_who_leaves_a_connection_open(secure: Secure, left: Leave) -> None:
    """One that begins a message and says no more is ended in time, as without it."""
    gone = left(secure)
    time.sleep(3.0)
    assert secure.seconds_of_half() < HEAD_SECONDS + MOST_LATE
    gone.close()
    assert secure.seconds_of_half() < HEAD_SECONDS + MOST_LATE


@LEFT
def test_who_leaves_a_connection_open_is_ended(secure: Secure, left: Leave) -> None:
    """Some seconds after its last word, where it doesn't end it itself."""
    gone = left(secure)
    plain = socket.socket(fileno=gone.socket.detach())
    begin = time.monotonic()
    plain.settimeout(LINGER_SECONDS + MOST_LATE)
    with contextlib.suppress(ConnectionError):
        while plain.recv(1 << 16):
            pass
    plain.close()
    assert time.monotonic() - begin < LINGER_SECONDS + MOST_LATE

"""A client by FIX that writes and reads bytes by the rules of the standard, with no library: the
body's length, the sum of all bytes, the numbers of messages, gaps that are asked for again.
"""
import datetime
import json
import pathlib
import socket
import ssl
import time
from collections.abc import Callable

SOH = b"\x01"
FixMessage = dict[int, str]
FixFields = list[tuple[int, str]]
SECONDS = 60.0
QUIET = 1.0
"""Seconds without a message after which nothing more is to come."""
AGAIN = {"D", "F", "G", "H", "V", "q", "AF", "g", "x"}
"""The types of messages that are sent again."""
SESSION = "0124A"
"""The types of messages of the session itself that nobody has to be shown."""
IS_REMOVED = "the operator has removed this member, whose orders are cancelled"
"""What the last message to a member says whom the operator removes."""
NOT_DONE = "it wasn't executed before its venue or program ended, and a gap came in its place"
"""Why a command is refused that a client doesn't send again after a fault."""
DAY = """
sync = {sync}
[phases]
call = 0
[limits]
orders = 65536
calls = 1048576
[members]
joins = 0
rate = 100000
burst = 100000
[fix]
address = "127.0.0.1:{port}"
[fix.sessions]
{sessions}
"""


def day_of(port: int, *members: str, sync: str = "false") -> str:
    """A day whose members come by FIX, each with its name as its CompID."""
    sessions = "\n".join(f'{it} = "{it}"' for it in members)
    return DAY.format(port=port, sessions=sessions, sync=sync)


def stamp() -> str:
    """The time as FIX has it."""
    return datetime.datetime.now(datetime.timezone.utc).strftime("%Y%m%d-%H:%M:%S.%f")[:-3]


def written(
    kind: str,
    number: int,
    sender: str,
    pairs: FixFields,
    head: FixFields = [],
    begin: bytes = b"FIX.4.4",
) -> bytes:
    """The bytes of a message to the venue."""
    fields = [(35, kind), (34, str(number)), (49, sender), (52, stamp()), (56, "VENUE"), *head]
    body = b"".join(f"{tag}={value}".encode("latin-1") + SOH for tag, value in fields + pairs)
    text = b"8=" + begin + SOH + b"9=%d" % len(body) + SOH + body
    return text + b"10=%03d" % (sum(text) % 256) + SOH


def parsed(text: bytes) -> FixFields:
    """The fields of a message. Raises AssertionError where its length or its sum is wrong."""
    parts = [it.partition(b"=") for it in text.split(SOH)[:-1]]
    assert [parts[0][0], parts[1][0], parts[2][0], parts[-1][0]] == [b"8", b"9", b"35", b"10"]
    head = len(parts[0][2]) + len(parts[1][2]) + 6  # 8=..|9=..|
    trailer = text.rindex(b"10=")
    assert int(parts[1][2]) == trailer - head, text
    assert int(parts[-1][2]) == sum(text[:trailer]) % 256, text
    return [(int(tag), value.decode("latin-1")) for tag, _, value in parts]


class Closed(Exception):
    """The venue has ended the connection."""


class Peer:
    """A member's connection, whose messages are numbered from `number` on; `expected` is the number
    of the next one from the venue. What came before in another connection is in `got`.
    """

    begin = b"FIX.4.4"

    def __init__(self, port: int, member: str, context: ssl.SSLContext | None = None) -> None:
        self.port, self.member, self._context = port, member, context
        self.number = self.expected = 1
        self.sent: dict[int, tuple[str, FixFields]] = {}
        self.got: list[FixMessage] = []
        self._rest = b""

    # ---- bytes

    def connect(self) -> None:
        """Connects, and says nothing yet."""
        self._rest = b""
        self.socket = socket.create_connection(("127.0.0.1", self.port), SECONDS)
        if self._context is not None:
            self.socket = self._context.wrap_socket(self.socket, server_hostname="localhost")

    def close(self) -> None:
        """Ends the connection without a word."""
        self.socket.close()

    def say(self, kind: str, pairs: FixFields, head: FixFields = []) -> int:
        """Sends a message with the next number: that number."""
        number = self.number
        self.number += 1
        self.sent[number] = (kind, pairs)
        self.socket.sendall(self.written(kind, number, pairs, head))
        return number

    def written(self, kind: str, number: int, pairs: FixFields, head: FixFields) -> bytes:
        """The bytes of a message of it."""
        return written(kind, number, self.member, pairs, head, self.begin)

    def whole(self) -> bytes:
        """The next message as it came. Raises Closed, and TimeoutError."""
        while True:
            end = self._rest.find(SOH + b"10=")
            if end >= 0 and (last := self._rest.find(SOH, end + 1)) >= 0:
                found, self._rest = self._rest[: last + 1], self._rest[last + 1 :]
                return found
            try:
                block = self.socket.recv(1 << 16)
            except ConnectionError:
                raise Closed from None
            if not block:
                raise Closed
            self._rest += block

    # ---- the session

    def logon(self, password: str, *more: tuple[int, str]) -> FixMessage:
        """Logs on, and has what was missed sent again: the answer. Raises Closed."""
        self.connect()
        self.say("A", [(98, "0"), (108, "30"), (554, password), *more])
        return self.take(lambda it: it[35] == "A")

    def take(self, is_wanted: Callable[[FixMessage], bool], seconds: float = SECONDS) -> FixMessage:
        """Takes messages until the one that is wanted. Raises Closed, TimeoutError."""
        last = time.monotonic() + seconds
        while True:
            self.socket.settimeout(max(0.01, last - time.monotonic()))
            if (found := self._heard(dict(parsed(self.whole())))) and is_wanted(found):
                return found

    def all(self, seconds: float = QUIET) -> list[FixMessage]:
        """What comes until nothing has come for a while."""
        before = len(self.got)
        try:
            while True:
                self.take(lambda it: True, seconds)
        except TimeoutError:
            return self.got[before:]

    def _heard(self, given: FixMessage) -> FixMessage | None:
        """Takes a message in its order; of one that is too early those before it are asked for,
        once what it asks for itself was sent again.
        """
        number, kind = int(given[34]), given[35]
        if kind == "4":
            self.expected = max(self.expected, int(given[36]))
            return None
        if number > self.expected:
            if kind == "2":
                self._serve(given)
            self.say("2", [(7, str(self.expected)), (16, "0")])
            return given if kind == "A" else None
        if number < self.expected:
            assert given.get(43) == "Y", given
            return None
        self.expected += 1
        self._serve(given)
        if kind not in SESSION:
            self.got.append(given)
        return given

    def _serve(self, given: FixMessage) -> None:
        """Answers what the session asks."""
        if given[35] == "1":
            self.say("0", [(112, given[112])])
        elif given[35] == "2":
            self._again(int(given[7]))

    def _again(self, begin: int) -> None:
        """Sends all again from a number on, gaps in place of messages of the session."""
        last = self.number
        for number in range(begin, last):
            kind, pairs = self.sent.get(number, ("0", []))
            if kind in AGAIN:
                head = [(43, "Y"), (122, stamp())]
                self.socket.sendall(self.written(kind, number, pairs, head))
            else:
                gap = [(123, "Y"), (36, str(number + 1))]
                self.socket.sendall(self.written("4", number, gap, [(43, "Y")]))

    # ---- orders

    def enter(self, client: str, side: str, shares: int, price: str, *more: tuple[int, str]) -> int:
        """Sends a NewOrderSingle: its number."""
        kind = [(40, "1")] if price == "market" else [(40, "2"), (44, price)]
        pairs = [(11, client), (55, "XYZ"), (54, side), (60, stamp()), (38, str(shares)), *kind]
        return self.say("D", [*pairs, *more])

    def replace(self, origin: str, client: str, side: str, shares: int, price: str) -> int:
        """Sends an OrderCancelReplaceRequest for this total: its number."""
        pairs = [(41, origin), (11, client), (55, "XYZ"), (54, side), (60, stamp())]
        return self.say("G", [*pairs, (38, str(shares)), (40, "2"), (44, price)])

    def cancel(self, origin: str, client: str, side: str) -> int:
        """Sends an OrderCancelRequest: its number."""
        return self.say("F", [(41, origin), (11, client), (55, "XYZ"), (54, side), (60, stamp())])


def token_of(folder: pathlib.Path, comp_id: str) -> str:
    """The password of a session, in the venue's folder."""
    return (folder / f"fix.{comp_id}.token").read_text("ascii").strip()


def numbers_of(folder: pathlib.Path) -> dict[int, str]:
    """The members by their numbers in the journal, as the venue's log has them."""
    lines = map(json.loads, (folder / "venue.log").read_text("utf-8").splitlines())
    return {it["number"]: it["member"] for it in lines if it["kind"] == "number"}

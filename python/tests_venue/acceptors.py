"""QuickFIX's acceptor, without a venue, and what is said to it."""
import pathlib
from typing import Any

import fixing
from callauction.fix._quickfix import Engine
from callauction.fix.settings import settings_of
from callauction.fix.tags import FIXT
from fixing import SOH, FixFields, FixMessage

TIME = "20261126-09:00:00"
ORDER: FixFields = [(11, "a1"), (55, "XYZ"), (54, "1"), (60, TIME), (38, "10"), (40, "1")]
Heads = dict[Any, str]
NONE = "none"
"""A tag of a head with this value is left out."""


class Speaker:
    """QuickFIX's acceptor, without a venue, and a client's connection to it."""

    def __init__(self, folder: pathlib.Path, begin: str, beats: str = "30") -> None:
        self.begin, self.session = begin, f"{begin}:VENUE->SLIPS"
        self.engine = Engine(settings_of(folder, {"SLIPS": begin}), lambda session, password: True)
        self.is_closed, self.number = False, 1
        self.begun = self.connect(beats)

    def connect(self, beats: str, heads: Heads = {}) -> list[FixMessage]:
        """What is answered to a Logon on a new connection."""
        self.connection, self.is_closed = self.engine.connect(), False
        logon = [(98, "0"), (108, beats), (554, "any")]
        logon += [(1137, "9")] if self.begin == FIXT else []
        return self.say("A", logon, heads)

    def say(self, kind: str, pairs: FixFields, heads: Heads = {}) -> list[FixMessage]:
        """What is answered to a message with the next number, and with these tags in its head."""
        self.engine.feed(self.connection, self.written(kind, pairs, heads))
        if self.engine.is_leaving(self.connection):
            self.engine.log_off(self.connection)
        self.number += 1
        return self.heard()

    def written(self, kind: str, pairs: FixFields, heads: Heads = {}) -> bytes:
        """The bytes of a message."""
        head = {35: kind, 34: str(self.number), 49: "SLIPS", 52: fixing.stamp(), 56: "VENUE"}
        fields = [*(head | heads).items(), *pairs]
        texts = [f"{tag}={value}".encode() + SOH for tag, value in fields if value != NONE]
        body = b"".join(texts)
        text = b"8=" + self.begin.encode() + SOH + b"9=%d" % len(body) + SOH + body
        return text + b"10=%03d" % (sum(text) % 256) + SOH

    def heard(self) -> list[FixMessage]:
        """All that was sent since."""
        data = b""
        for number, block, _, is_last in self.engine.outgoing():
            assert number == self.connection
            data, self.is_closed = data + block, self.is_closed or is_last
        if self.is_closed:
            self.engine.lost(self.connection)
        parts = data.replace(SOH + b"8=FIX", SOH + b"\n8=FIX").split(b"\n")
        return [dict(fixing.parsed(it)) for it in parts if it]

    @property
    def expected(self) -> int:
        """The number of the message that is expected next."""
        return self.engine.expected(self.session)

    def is_heard(self) -> bool:
        """Whether the next message is answered."""
        [found] = self.say("1", [(112, "next")])
        return (found[35], found.get(112)) == ("0", "next")


def refusal(given: list[FixMessage]) -> tuple[str, ...]:
    """The one Reject that was sent: which message, its type, the tag, the reason."""
    [found] = given
    assert found[35] == "3" and found[58]
    return tuple(found.get(it, "") for it in (45, 372, 371, 373))


class Asking:
    """QuickFIX's acceptor, without a venue: what a client HOLES is sent that has logged on."""

    def __init__(self, folder: pathlib.Path) -> None:
        text = settings_of(folder, {"HOLES": "FIX.4.4"})
        self.engine = Engine(text, lambda session, password: True)
        self.session = "FIX.4.4:VENUE->HOLES"

    def keep(self, *numbers: int) -> None:
        """The session was sent a report under each of these numbers in an earlier run."""
        pairs: FixFields = [(37, "1"), (17, "X"), (150, "0"), (39, "0"), (55, "XYZ"), (54, "1")]
        for number in numbers:
            self.engine.store(self.session, number, "8", pairs, fixing.stamp())

    def begin(self) -> int:
        """Logs on: the number of the connection."""
        self.number = self.engine.connect()
        self.say("A", [(98, "0"), (108, "30"), (554, "any")], 1)
        return self.number

    def say(self, kind: str, pairs: FixFields, number: int) -> list[FixMessage]:
        """What is answered to a message."""
        self.engine.feed(self.number, fixing.written(kind, number, "HOLES", pairs))
        found = b"".join(data for _, data, *_ in self.engine.outgoing())
        texts = [it + b"\x01" for it in found.replace(b"\x018=FIX", b"\x01\n8=FIX").split(b"\n")]
        return [dict(fixing.parsed(it.removesuffix(b"\x01"))) for it in texts if it != b"\x01"]

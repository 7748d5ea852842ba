"""Clients by FIX in other versions, and of other makes."""
import pathlib
import select
import socket
import time
from collections.abc import Callable

import fixing
from callauction.fix import dictionaries
from callauction.fix._quickfix import Engine
from callauction.fix.tags import FIX44, FIXT
from fixing import FixMessage, Peer


class GapPeer(Peer):
    """A client that keeps from which number on messages were asked for."""

    def __init__(self, port: int, member: str) -> None:
        super().__init__(port, member)
        self.asked: list[int] = []

    def _again(self, begin: int) -> None:
        self.asked.append(begin)
        super()._again(begin)


class NewPeer(Peer):
    """A member by FIX 5.0SP2."""

    begin = b"FIXT.1.1"


def new_day(port: int) -> str:
    """A day in which ALICE and COPY speak FIX 5.0SP2, and BOB FIX 4.4."""
    more = 'copy = "COPY"\nfix50 = ["ALICE", "COPY"]\n[fix.sessions]'
    return fixing.day_of(port, "ALICE", "BOB").replace("[fix.sessions]", more)


SETTINGS = """[DEFAULT]
ConnectionType=initiator
HeartBtInt=30
StartTime=00:00:00
EndTime=00:00:00
FileStorePath={store}
[SESSION]
BeginString={begin}
SenderCompID={member}
TargetCompID=VENUE
"""
DICTIONARIES = {
    FIX44: "DataDictionary={folder}/FIX44.xml\n",
    FIXT: "DefaultApplVerID=FIX.5.0SP2\nTransportDataDictionary={folder}/FIXT11.xml\n"
    "AppDataDictionary={folder}/FIX50SP2.xml\n",
}


class Initiator:
    """A session of QuickFIX's initiator, whose bytes go by a socket of the test."""

    def __init__(
        self,
        port: int,
        member: str,
        password: str,
        folder: pathlib.Path,
        begin: str = FIX44,
        more: str = "",
    ) -> None:
        folder.mkdir(exist_ok=True)
        dictionaries.write(folder)
        text = SETTINGS.format(store=folder, begin=begin, member=member)
        text += DICTIONARIES[begin].format(folder=folder) + more
        self.session = f"{begin}:{member}->VENUE"
        self._engine, self._port, self._password = Engine(text), port, password
        self.got: list[FixMessage] = []
        self.events: list[str] = []
        self.heard = b""
        self.socket: socket.socket | None = None

    def begin(self) -> None:
        """Connects, and sends a Logon."""
        self.socket = socket.create_connection(("127.0.0.1", self._port))
        self._number = self._engine.begin(self.session, self._password)

    def connect(self) -> None:
        """Connects, and logs on."""
        self.begin()
        self.until(lambda: self._engine.is_logged_on(self.session))

    def close(self) -> None:
        """Ends the connection without a word."""
        assert self.socket is not None
        self.socket.close()
        self._engine.lost(self._number)

    def send(self, kind: str, pairs: fixing.FixFields) -> None:
        """Sends a message, or leaves it to the next Logon."""
        self._engine.send(self.session, kind, [*pairs, (60, fixing.stamp())])

    def until(self, is_done: Callable[[], bool]) -> None:
        """Goes on until something holds. Raises AssertionError where it doesn't in time."""
        last = time.monotonic() + fixing.SECONDS
        while not is_done():
            assert time.monotonic() < last
            self.step()

    def step(self) -> None:
        """Sends what waits to be sent, and takes what comes."""
        assert self.socket is not None
        for _, data, *_ in self._engine.outgoing():
            self.socket.sendall(data)
        if select.select([self.socket], [], [], 0.05)[0]:
            data = self.socket.recv(1 << 16)
            self.heard += data
            self._engine.feed(self._number, data)
        self.events += [text.decode() for _, _, text in self._engine.events()]
        self.got += [given for _, given, _ in self._engine.said()]

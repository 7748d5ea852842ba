"""Venues with members by FIX: begun, killed, and what their operator does."""
import contextlib
import dataclasses
import pathlib
import time
from collections.abc import Iterator

import fixing
import served
from fixing import FixMessage, Peer


@contextlib.contextmanager
def on(
    folder: pathlib.Path, day: str, port: int, *members: str
) -> Iterator[tuple[served.Served, list[Peer]]]:
    """A venue of a day, and its members by FIX."""
    with served.served(folder, day) as venue:
        peers = [Peer(port, it) for it in members]
        for it in peers:
            it.logon(fixing.token_of(folder / "venue", it.member))
        yield venue, peers


def reports(peer: Peer) -> list[tuple[str, str, str, str]]:
    """What comes of an instrument: ids, what happened, what is open."""
    return [(it[17], it.get(11, ""), it[150], it[151]) for it in peer.all() if it[35] == "8"]


TWO = '[[instrument]]\nname = "XYZ"\n[[instrument]]\nname = "ABC"\ntitle = "Abc Inc."\n'


@dataclasses.dataclass
class Killable:
    """A venue that is killed and begins again."""

    words: list[object]
    venue: served.Served

    def again(self) -> served.Served:
        """Kills it, and begins it again."""
        self.venue.child.kill()
        self.venue.child.communicate()
        self.venue = served.started(*self.words)
        return self.venue


@contextlib.contextmanager
def killable(folder: pathlib.Path, day: str) -> Iterator[Killable]:
    """A venue of a day in a call phase."""
    (folder / "day.toml").write_text(day, "utf-8")
    words: list[object] = ["--day", folder / "day.toml", "--folder", folder / "venue"]
    words += ["--port", served.free_port()]
    found = Killable(words, served.started(*words))
    try:
        found.venue.do("start")
        yield found
        found.venue.end()
    finally:
        found.venue.child.kill()
        found.venue.child.communicate()


def settled(peer: Peer, count: int) -> list[FixMessage]:
    """The reports so far, once so many orders are cancelled. Raises AssertionError."""
    last = time.monotonic() + fixing.SECONDS
    while len([it for it in peer.got if it.get(150) == "4"]) < count:
        assert time.monotonic() < last, peer.got
        peer.all(0.1)
    return peer.got


def until_logged(folder: pathlib.Path, text: str) -> None:
    """Waits until the venue's log has a text. Raises AssertionError."""
    last = time.monotonic() + fixing.SECONDS
    while text not in (folder / "venue.log").read_text("utf-8"):
        assert time.monotonic() < last
        time.sleep(0.05)


def day_with_copy(port: int, *members: str) -> str:
    """A day in which the operator's session is COPY."""
    return fixing.day_of(port, *members).replace("[fix.sessions]", 'copy = "COPY"\n[fix.sessions]')


def reset(venue: served.Served, name: str) -> tuple[int, object]:
    """What is answered to the operator who resets a session."""
    return venue.call("api/operator", {"do": "reset", "session": name}, venue.operator)

"""Rounds of groups under kills: the venue is killed again and again while an operator goes on with
the lesson, and nothing is lost, done twice or half done.
"""
import asyncio
import contextlib
import os
import pathlib
import random
import re
import threading
import time
from collections.abc import Callable, Iterator
from typing import Any

import aiohttp
import judged
import served
from conftest import FAST
from rounds import download
from served import Served
from speaking import hello

KILLS = int(os.environ.get("VENUE_ROUND_KILLS", "15"))
ROUNDS, MOST_PAUSE = 3, 5.0
"""How many rounds at least; seconds between two kills at most: the venue takes one to start."""
DAY = FAST + "group = 4\n[[round]]\nvalues = 'chance'\nlow = '1.00'\nhigh = '3.00'\n"
ROBOTS, NAMES = 7, ("XYZ", "XYZ.2")
ShownMessages = dict[str, dict[str, Any]]


async def seen_by_operator(venue: Served) -> ShownMessages:
    """What the operator is shown, by kind, and of boards by kind and name."""
    found: ShownMessages = {}
    async with aiohttp.ClientSession() as web, asyncio.timeout(10):
        async with web.ws_connect(f"{venue.url}api/socket") as socket:
            await socket.send_str(hello(venue.operator))
            while "beamer" not in found:
                message = await socket.receive_json()
                found[f"{message['type']} {message.get('instrument', '')}".strip()] = message
    return found


class KilledVenue:
    """A venue that is killed at any moment, and started again where it was."""

    def __init__(self, folder: pathlib.Path) -> None:
        (folder / "day.toml").write_text(DAY)
        self.folder, port = folder / "venue", served.free_port()
        self.words = ["--day", folder / "day.toml", "--folder", self.folder, "--port", port]
        self.kills, self.is_over = 0, False
        self.venue = served.started(*self.words)

    @contextlib.contextmanager
    def killed(self, chance: random.Random) -> Iterator[None]:
        """Meanwhile it is killed from time to time."""
        thread = threading.Thread(target=self._kill, args=[chance])
        thread.start()
        try:
            yield
        finally:
            self.is_over = True
            thread.join()

    def _kill(self, chance: random.Random) -> None:
        while not self.is_over:
            time.sleep(chance.random() * MOST_PAUSE)
            if self.venue.child.poll() is None:
                self.venue.child.kill()
                self.kills += 1

    def goes_on(
        self, word: str, holds: Callable[[ShownMessages], bool], **fields: Any
    ) -> ShownMessages:
        """Asks for something until what the operator sees shows it done: what that is."""
        last = time.monotonic() + served.SECONDS
        while True:
            assert time.monotonic() < last, word
            if self.venue.child.poll() is not None:
                self.venue.child.communicate()
                with contextlib.suppress(AssertionError):
                    self.venue = served.started(*self.words)
            with contextlib.suppress(OSError, TimeoutError, TypeError, aiohttp.ClientError):
                seen = asyncio.run(seen_by_operator(self.venue))
                if holds(seen):
                    return seen
                body = {"do": word} | fields
                self.venue.call("api/operator", body, self.venue.operator)


def in_phase(seen: ShownMessages, phase: str, auctions: int) -> bool:
    """Whether all boards are in this phase after as many auctions."""
    states = [seen[f"state {name}"] for name in NAMES]
    return all((it["phase"], len(it["results"])) == (phase, auctions) for it in states)


def values_of(seen: ShownMessages) -> list[Any]:
    """The values of the members."""
    return [value for it in seen["members"]["members"] for value in it["values"].values()]


def round_of(lesson: KilledVenue, number: int) -> None:
    """A round of one auction, in which the robots trade."""
    if number > 1:
        lesson.goes_on("next", lambda it: bool(it["round"]["round"] == number), round=number)
    lesson.goes_on("start", lambda it: in_phase(it, "call", 0) or in_phase(it, "waiting", 1))
    journals = [lesson.folder / f"{key_of(name, number)}.journal.csv" for name in NAMES]
    last = time.monotonic() + served.SECONDS
    while sum(it.read_text().count(",entered ") for it in journals) < ROBOTS:
        assert time.monotonic() < last
        lesson.goes_on("none", lambda it: True)
        time.sleep(0.2)
    lesson.goes_on("uncross", lambda it: in_phase(it, "waiting", 1))


def key_of(name: str, number: int) -> str:
    """The key of a board of a round."""
    return name if number == 1 else f"{name}.round{number}"


def test_rounds_under_kills(tmp_path: pathlib.Path, seed: int) -> None:
    lesson = KilledVenue(tmp_path)
    number = 0
    try:
        names = lesson.venue.do("robots", kind="zero", count=ROBOTS)["names"]
        with lesson.killed(random.Random(seed)):
            while lesson.kills < KILLS or number < ROUNDS:
                number += 1
                round_of(lesson, number)
        seen = lesson.goes_on("none", lambda it: in_phase(it, "waiting", 1))
        assert [it["name"] for it in seen["members"]["members"]] == names
        assert len([it for it in values_of(seen) if it["value"]]) == ROBOTS
        results = download(lesson.venue, "results")
        for each in range(1, number + 1):
            check_round(lesson, each)
        lesson.venue.child.kill()
        lesson.goes_on("none", lambda it: True)
        assert download(lesson.venue, "results") == results
    finally:
        lesson.venue.child.kill()
        lesson.venue.child.communicate()
    print("rounds", number, "kills", lesson.kills)


def check_round(lesson: KilledVenue, number: int) -> None:
    """Raises AssertionError where a journal isn't lawful, a robot entered twice, or no uncross or
    more than one was done.
    """
    owners = []
    for name in NAMES:
        path = f"api/download/journal/{name}?round={number}"
        journal = lesson.venue.call(path, token=lesson.venue.operator)[1]
        assert judged.is_lawful(journal)
        entries = judged.entries(journal)
        assert [record for record, _ in entries if "uncross" in record] == ["0,uncross"]
        owners += [(name, member) for member in re.findall(r"^(\d+),enter", journal, re.M)]
    assert len(owners) == len(set(owners)) == ROBOTS

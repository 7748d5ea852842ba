"""The venue, or its program, is killed at any moment: nothing that was answered is lost, nothing is
executed twice, and members find their orders.
"""
import asyncio
import contextlib
import dataclasses
import os
import pathlib
import random
import time
from typing import Any

import judged
import served
from callauction.venue import Answer, AsyncClient, VenueError
from checks.model.day import Day
from keeper import Keeper

KILLS = int(os.environ.get("VENUE_KILLS", "200"))
VENUE_SHARE, LISTENS_SHARE = 0.15, 0.7
MOST_PAUSE = 0.2
ROBOTS, AT_ONCE = 4, 3
ORDERS_A_KILL = 15
"""How many orders a robot sends before the next kill: on a fast machine the book would else be full
long before the last kill, and no answer come any more.
"""


@dataclasses.dataclass
class AnsweredRobot:
    """A member that sends orders, and keeps what it was answered."""

    token: str
    number: int
    chance: random.Random
    answers: list[tuple[str, Answer]] = dataclasses.field(default_factory=list)
    own: list[int] = dataclasses.field(default_factory=list)
    sent: int = 0

    async def play(self, url: str, keeper: Keeper, done: asyncio.Event) -> None:
        """Sends orders until it is done, and waits for all answers."""
        async with AsyncClient(url, self.token) as client:
            await asyncio.gather(*(self.send(client, keeper, done) for _ in range(AT_ONCE)))

    async def send(self, client: AsyncClient, keeper: Keeper, done: asyncio.Event) -> None:
        """Sends one order after the other, ORDERS_A_KILL a kill."""
        while not done.is_set():
            if self.sent >= ORDERS_A_KILL * (keeper.kills() + 1):
                await asyncio.sleep(0.01)
                continue
            self.sent += 1
            kind, fields = self.choice()
            record = f"{kind},{','.join(str(it) for it in fields.values())}"
            if "price" in fields:
                fields = fields | {"price": f"{fields['price'] / 100:.2f}"}
            answer = await client.send(kind, None, **fields)
            self.answers.append((record, answer))
            if answer.order is not None:
                self.own.append(answer.order)
            await asyncio.sleep(self.chance.random() * 0.02)

    def choice(self) -> tuple[str, dict[str, Any]]:
        """A command, in the order of its record."""
        quantity, price = self.chance.randint(1, 900), self.chance.randint(180, 220)
        kind = self.chance.choices(("enter", "change", "delete"), (6, 2, 2))[0]
        if kind == "enter" or not self.own:
            side = self.chance.choice(("bid", "ask"))
            return "enter", {"side": side, "quantity": quantity, "price": price}
        order = self.chance.choice(self.own)
        if kind == "change":
            return kind, {"order": order, "quantity": quantity, "price": price}
        return kind, {"order": order}


async def kills(
    keeper: Keeper, robots: list[AnsweredRobot], chance: random.Random, done: asyncio.Event
) -> None:
    """Kills the venue and its program, often; a few times before the next answer."""
    try:
        while keeper.kills() < KILLS:
            await asyncio.sleep(chance.random() * MOST_PAUSE)
            if keeper.is_waited_for(sum(len(robot.answers) for robot in robots)):
                continue
            target = "venue" if chance.random() < VENUE_SHARE else "program"
            await asyncio.to_thread(keeper.kill, target, chance.random() < LISTENS_SHARE)
    finally:
        done.set()


async def play(
    keeper: Keeper, url: str, robots: list[AnsweredRobot], chance: random.Random
) -> None:
    """The day of robots under kills."""
    done = asyncio.Event()
    async with asyncio.timeout(1800):
        await asyncio.gather(
            kills(keeper, robots, chance, done),
            *(robot.play(url, keeper, done) for robot in robots),
        )


def test_no_answered_order_is_lost_or_done_twice(tmp_path: pathlib.Path, seed: int) -> None:
    chance = random.Random(seed)
    port = served.free_port()
    keeper = Keeper(tmp_path, port)
    keeper.start()
    assert keeper.child is not None
    try:
        first = served.begun(keeper.child)
        robots = [
            AnsweredRobot(first.join(f"robot {it}"), it, random.Random(seed + it))
            for it in range(1, ROBOTS + 1)
        ]
        first.do("start")
        asyncio.run(play(keeper, first.url, robots, chance))
        assert keeper.killed["venue"] > KILLS / 20 and keeper.killed["program"] > KILLS / 4
        assert sum(len(robot.answers) for robot in robots) > KILLS / 5
        check(first, robots)
    finally:
        keeper.stop()
    print("killed", keeper.killed, "answered", sum(len(robot.answers) for robot in robots))


def journal_of(venue: served.Served) -> str:
    """The journal, once the venue answers again."""
    last = time.monotonic() + served.SECONDS
    while True:
        try:
            status, found = venue.call("api/download/journal/XYZ", token=venue.operator)
            assert status == 200, found
            return str(found)
        except OSError:
            assert time.monotonic() < last
            time.sleep(0.1)


def check(venue: served.Served, robots: list[AnsweredRobot]) -> None:
    """Raises AssertionError where something was lost, or done twice."""
    journal = journal_of(venue)
    assert judged.is_lawful(journal)
    entries = judged.entries(journal)
    places: list[int] = []
    numbers: dict[str, str] = {}
    for robot in robots:
        for record, answer in robot.answers:
            member, _, found = entries[answer.entry - 1][0].partition(",")
            assert numbers.setdefault(robot.token, member) == member
            assert (found, entries[answer.entry - 1][1]) == (record, answer.reply)
            places.append(answer.entry)
    assert sorted(places) == [*range(1, len(entries) + 1)]
    day = judged.day_of(journal)
    for robot in robots:
        asyncio.run(finds_its_orders(venue, robot, int(numbers[robot.token]), day))
    reply = venue.do("uncross")["reply"]
    assert reply == day.apply(0, ("uncross",))


async def finds_its_orders(
    venue: served.Served, robot: AnsweredRobot, number: int, day: Day
) -> None:
    """Raises AssertionError where a member doesn't find its orders."""
    async with AsyncClient(venue.url, robot.token) as client:
        async with asyncio.timeout(served.SECONDS):
            while True:
                with contextlib.suppress(VenueError):
                    shown = (await client.look("orders"))["orders"]
                    break
                await asyncio.sleep(0.1)
        wanted = {it.id: it.quantity for it in day.book.values() if it.member == number}
        assert {it["order"]: it["open"] for it in shown} == wanted

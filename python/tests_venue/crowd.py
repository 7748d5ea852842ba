"""A class of robots that keeps a venue busy while somebody else works on a page."""
import asyncio
import contextlib
import random
import threading
from collections.abc import Iterator

from callauction.venue import AsyncClient, VenueError
from served import Served

LOW, HIGH = 300, 700
"""The prices of robots, in ticks of 0.01."""


def price(chance: random.Random) -> str:
    """A price of a robot."""
    return f"{chance.randint(LOW, HIGH) / 100:.2f}"


async def play(venue: Served, token: str, pause: float, seed: int, market: str | None) -> None:
    """Enters, changes and deletes orders for good."""
    chance = random.Random(seed)
    orders: list[int] = []
    async with AsyncClient(venue.url, token) as me:
        while True:
            with contextlib.suppress(VenueError):
                quantity, limit = chance.randint(1, 1000), price(chance)
                if len(orders) < 3:
                    side = chance.choice(["bid", "ask"])
                    answer = await me.enter(side, quantity, limit, instrument=market)
                    orders += [answer.order] if answer.order is not None else []
                elif chance.random() < 0.5:
                    await me.change(chance.choice(orders), quantity, limit, instrument=market)
                else:
                    gone = orders.pop(chance.randrange(len(orders)))
                    await me.delete(gone, instrument=market)
            await asyncio.sleep(chance.uniform(0, 2 * pause))


async def play_all(
    venue: Served,
    tokens: list[str],
    pause: float,
    market: str | None,
    stopped: threading.Event,
) -> None:
    """All robots at once until they are stopped, also where the venue is gone meanwhile."""
    works = (play(venue, token, pause, seed, market) for seed, token in enumerate(tokens))
    tasks = [asyncio.create_task(work) for work in works]
    await asyncio.to_thread(stopped.wait)
    for task in tasks:
        task.cancel()
    for found in await asyncio.gather(*tasks, return_exceptions=True):
        if isinstance(found, Exception):
            raise found


@contextlib.contextmanager
def busy(
    venue: Served, tokens: list[str], pause: float, market: str | None = None
) -> Iterator[None]:
    """A call in which each of these members does something after a pause, in seconds."""
    stopped = threading.Event()
    faults: list[BaseException] = []

    def run() -> None:
        try:
            asyncio.run(play_all(venue, tokens, pause, market, stopped))
        except BaseException as fault:
            faults.append(fault)

    thread = threading.Thread(target=run)
    thread.start()
    try:
        yield
    finally:
        stopped.set()
        thread.join()
    assert not faults, faults

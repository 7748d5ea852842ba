"""The course of the indicative price that the beamer is shown, also after a kill."""
import asyncio
import pathlib
from typing import Any

import aiohttp
import pytest
import served
from callauction.venue import Client
from callauction.venue.auctions import MOST_POINTS, Point
from callauction.venue.venue import LOG, Venue
from callauction.venue.views import Indication
from conftest import FAST
from patience import until
from served import Served
from speaking import hello

Points = list[dict[str, Any]]


async def heard(venue: Served) -> Points:
    """The course as somebody is shown it who connects now."""
    async with aiohttp.ClientSession() as web, asyncio.timeout(served.SECONDS):
        async with web.ws_connect(f"{venue.url}api/socket") as socket:
            await socket.send_str(hello(venue.beamer))
            while True:
                found: dict[str, Any] = await socket.receive_json()
                if found["type"] == "course":
                    return list(found["points"])


def course_of(venue: Served) -> Points:
    return asyncio.run(heard(venue))


def shown(points: Points) -> list[tuple[str | None, int]]:
    """The prices and the volumes of a course."""
    return [(point["price"], point["volume"]) for point in points]


def kill(venue: Served, folder: pathlib.Path, points: int) -> None:
    """Kills a venue whose log has `points` points by then."""
    until(lambda: (folder / "venue" / LOG).read_text().count('"kind":"point"') == points)
    venue.child.kill()
    venue.child.wait()


def test_the_course_is_there_again_after_a_kill(tmp_path: pathlib.Path) -> None:
    with served.served(tmp_path, FAST) as venue:
        token = venue.join("Anna")
        venue.do("start")
        orders = [
            ("bid", 100, "2.10"),
            ("ask", 10, "2.00"),
            ("ask", 30, "2.05"),
            ("ask", 60, "1.90"),
        ]
        with Client(venue.url, token) as me:
            for count, (side, quantity, price) in enumerate(orders, 1):
                me.enter(side, quantity, price)
                until(lambda: len(course_of(venue)) == count)
        before = course_of(venue)
        assert [volume for _, volume in shown(before)] == [0, 10, 40, 100]
        kill(venue, tmp_path, 4)
    with served.served(tmp_path, FAST) as venue:
        assert course_of(venue) == before
        with Client(venue.url, token) as me:
            me.enter("bid", 7, "2.20")
            until(lambda: len(course_of(venue)) == 5)
            assert course_of(venue)[:4] == before
        assert venue.do("uncross")["reply"].startswith("opening price")
        kill(venue, tmp_path, 5)
    with served.served(tmp_path, FAST) as venue:
        assert course_of(venue)[:4] == before and len(course_of(venue)) == 5
        venue.do("start")
        until(lambda: shown(course_of(venue)) == [(None, 0)])
        kill(venue, tmp_path, 6)
    with served.served(tmp_path, FAST) as venue:
        assert shown(course_of(venue)) == [(None, 0)]


@pytest.mark.asyncio
async def test_a_long_course_has_its_first_and_its_last_point(inside: Venue) -> None:  # noqa: F811
    [instrument] = inside.rounds.now.boards.values()
    auctions = instrument.auctions
    auctions.start_call()
    for price in range(1, 5 * MOST_POINTS):
        auctions.keep_point(Point(float(price), Indication(price)))
        assert len(auctions.course) <= MOST_POINTS
        assert auctions.course[0].indication.price == 1
        assert auctions.course[-1].indication.price == price

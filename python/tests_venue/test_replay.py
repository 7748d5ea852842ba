"""The replay of an auction, and the signs of life that a connection asks for."""
import asyncio
import json
import pathlib
import time
from typing import Any

import aiohttp
import jsonschema
import pytest
import served
from callauction.venue import Client, replay
from conftest import FAST
from patience import TIMED
from served import Served

SCHEMA = json.loads((served.PACKAGE / "callauction/venue/schema.json").read_text("utf-8"))


def replay_of(venue: Served, token: str = "", number: str = "") -> Any:
    """What is answered to who asks for a replay."""
    query = f"?auction={number}" if number else ""
    return venue.call(f"api/replay/XYZ{query}", token=token or venue.beamer)


def trade(venue: Served, tokens: list[str]) -> None:
    """An opening auction: a bid of 60 and asks of 40 and 50, of which one comes late."""
    with Client(venue.url, tokens[0]) as anna, Client(venue.url, tokens[1]) as bert:
        anna.enter("bid", 60, "2.20")
        bert.enter("ask", 40, "2.10")
        bert.enter("ask", 50, "2.20")
        venue.do("uncross")


def test_the_last_auction(venue: Served, tmp_path: pathlib.Path) -> None:
    tokens = [venue.join("Anna"), venue.join("Bert")]
    assert replay_of(venue)[1]["frames"] == []
    venue.do("start")
    trade(venue, tokens)
    status, found = replay_of(venue)
    assert (status, found["auctions"]) == (200, 1)
    assert [it["entry"] for it in found["frames"]] == [1, 2, 3]
    assert [it["indication"]["price"] for it in found["frames"]] == [None, "2.20", "2.20"]
    assert found["frames"][1]["levels"] == [["2.20", 60, 0], ["2.10", 0, 40]]
    book = found["book"]
    assert (book["price"], book["rule"], book["reference"]) == ("2.20", "single", "2.00")
    assert [(it["price"], it["volume"], it["surplus"], it["is_best"]) for it in book["levels"]] == [
        ("2.20", 60, 30, True), ("2.10", 40, 20, False)]
    venue.do("start")
    with Client(venue.url, tokens[0]) as anna:
        anna.enter("bid", 5, "market")
        assert replay_of(venue)[1] == found, "an auction that goes on is not to be seen"
    venue.do("uncross")
    status, later = replay_of(venue, venue.operator)
    assert later["auctions"] == 2
    assert [it["entry"] for it in later["frames"]] == [5]
    assert later["frames"][0]["levels"] == [[None, 5, 0], ["2.20", 0, 30]]
    assert (later["book"]["reference"], later["book"]["market"]) == ("2.20", {"bid": 5, "ask": 0})
    assert replay_of(venue, number="1")[1] == found | {"auctions": 2}
    for number in ("0", "3", "-1", "x", "9" * 30):
        status, fault = replay_of(venue, number=number)
        assert (status, fault["error"]) == (400, "bad_message"), number
    venue.end()
    with served.served(tmp_path, FAST) as again:
        assert replay_of(again)[1] == later


def test_a_member_sees_no_replay(venue: Served) -> None:
    status, found = replay_of(venue, venue.join("Anna"))
    assert (status, found["error"]) == (403, "not_allowed")
    assert replay_of(venue, "wrong")[0] == 401


@pytest.mark.parametrize("begin, end", [(0, 1), (3, 123), (3, 124), (0, 1000), (7, 6007)])
def test_the_places_of_frames(begin: int, end: int) -> None:
    found = [*replay.places(begin, end)]
    assert found[-1] == end - 1
    assert begin <= found[0] and len(found) <= replay.MOST_FRAMES
    assert len(found) >= min(end - begin, replay.MOST_FRAMES // 2)


def test_an_auction_without_an_order(venue: Served) -> None:
    venue.do("start")
    venue.do("uncross")
    found = replay_of(venue)[1]
    assert (found["frames"], found["book"]["levels"]) == ([], [])


@TIMED
def test_signs_of_life(venue: Served) -> None:
    token = venue.join("Anna")

    async def answers(count: int) -> list[Any]:
        async with aiohttp.ClientSession() as session:
            async with session.ws_connect(venue.url + "api/socket") as socket:
                await socket.send_json({"type": "hello", "token": token, "topics": []})
                await socket.receive_json()
                for _ in range(count):
                    await socket.send_json({"type": "ping"})
                return [await socket.receive_json() for _ in range(count)]

    begin = time.monotonic()
    assert asyncio.run(answers(1)) == [{"type": "pong"}]
    assert time.monotonic() - begin < 5
    many = asyncio.run(answers(20))
    assert many[0] == {"type": "pong"} and many[-1]["error"] == "too_fast"
    validator = jsonschema.Draft202012Validator(SCHEMA)
    assert validator.is_valid({"type": "ping"}) and validator.is_valid({"type": "pong"})

"""Robots: two that trade, messages that are sent again, days with several instruments."""
import asyncio
import json
import pathlib
from decimal import Decimal
from typing import Any

import aiohttp
import judged
import pytest
import served
from callauction.venue import Client, VenueError
from conftest import FAST
from patience import until
from schemas import RECEIVED, SENT
from served import Served


def test_two_robots_trade(venue: Served) -> None:
    anna, bert = venue.join("Anna"), venue.join("Bert")
    with Client(venue.url, anna) as me, Client(venue.url, bert) as other:
        with pytest.raises(VenueError) as found:
            me.enter("bid", 500, "2.00")
        assert found.value.code == "not_now"
        venue.do("start")
        bid = me.enter("bid", 500, Decimal("2.00"))
        assert (bid.reply, bid.order, bid.entry, bid.is_refused) == ("entered 1", 1, 1, False)
        ask = other.enter("ask", 300)
        assert other.change(ask.order or 0, 200, "1.99").reply == "changed moved"
        assert me.enter("bid", 5, "99.00").reply == "refused 2 BadLimit"
        gone = other.enter("ask", 1, "5.00", peak=1, only="closing")
        assert other.delete(gone.order or 0).reply == "deleted"
        reply = venue.do("uncross")["reply"]
        assert reply == "opening price 200 volume 200 surplus 300 bid trades 1"
        until(lambda: bool(me.look("state")["trades"] == 1))
        fill = {"trade": 1, "quantity": 200, "price": "2.00"}
        assert me.look("fills")["fills"] == [fill | {"order": 1, "side": "bid"}]
        assert other.look("fills")["fills"] == [fill | {"order": 2, "side": "ask"}]
        assert me.look("trades")["trades"] == [fill]
        assert me.look("trades", first=2)["trades"] == []
        assert other.look("orders")["orders"] == []
        [order] = me.look("orders")["orders"]
        assert (order["open"], order["filled"]) == (300, 200)
        for what in ("state", "fills", "trades", "orders"):
            RECEIVED.validate(me.look(what))
    journal = venue.call("api/download/journal/XYZ", token=venue.operator)[1]
    assert judged.is_lawful(journal)
    assert [reply for _, reply in judged.entries(journal)] == [
        *("entered 1", "entered 2", "changed moved", "refused 2 BadLimit", "entered 3", "deleted"),
        reply,
    ]
    names = venue.call("api/download/members/XYZ", token=venue.operator)[1]
    assert names == "number,name\n1,Anna\n2,Bert\n"


class HandConnection:
    """A connection by hand."""

    def __init__(self, venue: Served, token: str) -> None:
        self.venue, self.token = venue, token

    async def __aenter__(self) -> "HandConnection":
        self.web = aiohttp.ClientSession()
        self.socket = await self.web.ws_connect(f"{self.venue.url}api/socket")
        hello = {"type": "hello", "token": self.token, "topics": []}
        SENT.validate(hello)
        self.welcome = await self.says(hello)
        RECEIVED.validate(self.welcome)
        return self

    async def __aexit__(self, *ignored: object) -> None:
        await self.socket.close()
        await self.web.close()

    async def says(self, message: dict[str, Any]) -> dict[str, Any]:
        """What is answered to this."""
        await self.socket.send_str(json.dumps(message))
        found: dict[str, Any] = await self.socket.receive_json(timeout=served.SECONDS)
        return found


def test_a_message_is_executed_once(venue: Served) -> None:
    token = venue.join("Anna")
    venue.do("start")
    enter = {"type": "enter", "number": 7, "side": "bid", "quantity": 5, "price": "2.00"}

    async def talk() -> None:
        async with HandConnection(venue, token) as wire:
            assert wire.welcome["last"] == 0
            first = await wire.says(enter)
            assert (first["entry"], first["again"]) == (1, False)
            assert await wire.says(enter) == first | {"again": True}
            other = await wire.says(enter | {"quantity": 6})
            assert (other["error"], other["number"]) == ("number_used", 7)
            later = await wire.says(enter | {"number": 3})
            assert (later["entry"], later["order"]) == (2, 2)
        async with HandConnection(venue, token) as wire:
            assert wire.welcome["last"] == 7
            assert (await wire.says(enter))["again"]

    asyncio.run(talk())
    journal = venue.call("api/download/journal/XYZ", token=venue.operator)[1]
    assert len(judged.entries(journal)) == 2


def test_two_connections_send_one_message_at_once(venue: Served) -> None:
    token = venue.join("Anna")
    venue.do("start")
    enter = {"type": "enter", "number": 1, "side": "bid", "quantity": 5, "price": "2.00"}

    async def talk() -> None:
        async with HandConnection(venue, token) as first, HandConnection(venue, token) as second:
            found = await asyncio.gather(*(it.says(enter) for it in (first, second)))
        assert sorted(it["again"] for it in found) == [False, True]
        assert {it["entry"] for it in found} == {1}

    asyncio.run(talk())


def test_a_freeze_and_a_number_that_stays_free(venue: Served) -> None:
    token = venue.join("Anna")
    venue.do("start")
    venue.do("freeze")
    enter = {"type": "enter", "number": 1, "side": "bid", "quantity": 5, "price": "2.00"}

    async def talk() -> None:
        async with HandConnection(venue, token) as wire:
            assert (await wire.says(enter))["error"] == "frozen"
            await asyncio.to_thread(venue.do, "thaw")
            assert (await wire.says(enter | {"quantity": 6}))["reply"] == "entered 1"

    asyncio.run(talk())


def test_a_client_comes_again_by_itself(tmp_path: pathlib.Path) -> None:
    """The venue is ended between two orders, and in the middle of one."""
    port = served.free_port()
    (tmp_path / "day.toml").write_text(FAST)
    words = ["--day", tmp_path / "day.toml", "--folder", tmp_path / "venue", "--port", port]
    first = served.started(*words)
    try:
        token = first.join("Anna")
        first.do("start")
        with Client(first.url, token) as me:
            assert me.enter("bid", 5, "2.00").entry == 1
            first.end()
            second = served.started(*words)
            try:
                assert me.enter("bid", 6, "2.00").entry == 2
                assert [it["open"] for it in me.look("orders")["orders"]] == [5, 6]
            finally:
                second.end()
    finally:
        first.end()


def test_two_instruments_and_their_members(tmp_path: pathlib.Path) -> None:
    day = FAST + '[[instrument]]\nname = "A"\n[[instrument]]\nname = "B"\ntick_size = "0.1"\n'
    day += 'low = "0.1"\nreference = "1"\nhigh = "99"\n'
    with served.served(tmp_path, day) as venue:
        token = venue.join("Anna")
        venue.do("start", instrument="B")
        with Client(venue.url, token) as me:
            assert me.enter("bid", 5, "1.5", instrument="B").reply == "entered 1"
            for name, code in (("A", "not_now"), ("C", "unknown_instrument"),
                               (None, "unknown_instrument")):
                with pytest.raises(VenueError) as found:
                    me.enter("bid", 5, "1.5", instrument=name)
                assert found.value.code == code
            with pytest.raises(VenueError) as found:
                me.enter("bid", 5, "1.55", instrument="B")
            assert found.value.code == "bad_price"
            state = me.look("state", "B")
            assert (state["reference"], state["phase"]) == ("1.0", "call")
        assert venue.call("api/download/members/A", token=venue.operator)[1] == "number,name\n"


def test_commands_are_kept_for_the_operator(tmp_path: pathlib.Path) -> None:
    day = FAST.replace("sync = false", "sync = false\nreserve = 3")
    with served.served(tmp_path, day + "[[instrument]]\ncalls = 7\n") as venue:
        token = venue.join("Anna")
        venue.do("start")
        with Client(venue.url, token) as me:
            assert [me.enter("bid", 1, "2.00").entry for _ in range(2)] == [1, 2]
            with pytest.raises(VenueError) as found:
                me.enter("bid", 1, "2.00")
            assert found.value.code == "no_calls"
            assert [me.delete(order).entry for order in (1, 2)] == [3, 4]
        assert venue.do("uncross")["reply"] == "opening no price"


def test_a_token_of_nobody() -> None:
    with pytest.raises(aiohttp.ClientError):
        Client.join(f"http://127.0.0.1:{served.free_port()}/", "CODE", "Anna")


def test_a_bad_token_ends_a_client(venue: Served) -> None:
    with pytest.raises(VenueError) as found:
        with Client(venue.url, "guessed"):
            pass
    assert found.value.code == "bad_token"

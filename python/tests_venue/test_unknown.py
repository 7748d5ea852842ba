"""What isn't known of a day is said as such: no list is empty that has something."""
import asyncio
import contextlib
import json
import pathlib
from collections.abc import AsyncGenerator, Iterator
from typing import Any

import aiohttp
import pytest
import served
from browsing import SCREEN, TELEPHONE, opened
from callauction.venue import AsyncClient, Client, VenueError
from callauction.venue.config import DayTerms, InstrumentTerms
from callauction.venue.instrument_board import BoardIdentity, InstrumentBoard, VenueResources
from callauction.venue.log import Log
from callauction.venue.messages import MessageError
from callauction.venue.treatments import Treatment
from conftest import FAST
from patience import until
from rounds import sees
from schemas import RECEIVED
from watched import measured

PRICE = "3.00"
"""What the first auction comes to, which isn't the day's own reference price of 2.00."""
OWN, ALL = ("orders", "fills", "trades"), ("ladder", "trades")
"""Lists on a member's page, and on the teacher's."""
UNKNOWN = ("reference", "indication", "results", "trades", "left", "calls_left_to_members", "ends")


OPEN = FAST + '[[round]]\nbook = "open"\n'


@contextlib.contextmanager
def begun_day(folder: pathlib.Path, day: str = FAST) -> Iterator[tuple[str, pathlib.Path]]:
    """A day with a trade at PRICE and, in its second call, an open order: its only member's token,
    and its journal.
    """
    with served.served(folder, day) as venue:
        token = venue.join("Anna")
        venue.do("start")
        with Client(venue.url, token) as me:
            for side in ("bid", "ask"):
                me.enter(side, 5, PRICE)
            venue.do("uncross")
            venue.do("start")
            assert me.enter("bid", 7, "1.00").order == 3
    yield token, folder / "venue/XYZ.journal.csv"


async def heard(venue: served.Served, token: str) -> AsyncGenerator[dict[str, Any], None]:
    """What a member is sent that says hello, each as schema.json has it."""
    async with aiohttp.ClientSession() as web:
        async with web.ws_connect(f"{venue.url}api/socket") as socket:
            await socket.send_str(json.dumps({"type": "hello", "token": token}))
            while True:
                found = json.loads((await socket.receive(timeout=served.SECONDS)).data)
                RECEIVED.validate(found)
                yield found


async def first_of(venue: served.Served, token: str, kind: str) -> dict[str, Any]:
    """The first message of a kind that a member is sent."""
    async with contextlib.aclosing(heard(venue, token)) as messages:
        async for found in messages:
            if found["type"] == kind:
                return found
    raise AssertionError


def test_the_first_orders_after_a_start(tmp_path: pathlib.Path) -> None:
    with begun_day(tmp_path) as (token, _), served.served(tmp_path, FAST) as venue:
        found = asyncio.run(first_of(venue, token, "orders"))
        assert [it["order"] for it in found["orders"]] == [3]
        found = asyncio.run(first_of(venue, venue.join("Bert"), "orders"))
        assert found["orders"] == []  # who has never had one is told so


def test_the_first_book_after_a_start(tmp_path: pathlib.Path) -> None:
    """For who looks at it, and for who asks once and is nobody who looks."""
    level = {"price": "1.00", "bid": 7, "ask": 0}
    with begun_day(tmp_path, OPEN) as (token, _), served.served(tmp_path, OPEN) as venue:
        found = venue.call("api/look/ladder", token=token)
        assert found[0] == 200 and found[1]["levels"] == [level]
        venue.do("end")
        assert sees(venue, "ladder")["levels"] == [level]
        for who in (token, venue.beamer):
            assert sees(venue, "ladder", who)["levels"] == [level]


def test_the_book_after_nobody_has_looked(tmp_path: pathlib.Path) -> None:
    with served.served(tmp_path, OPEN) as venue:
        token = venue.join("Anna")
        venue.do("start")
        with Client(venue.url, token) as me:
            me.enter("bid", 7, "1.00")
            until(lambda: len(me.look("ladder")["levels"]) == 1)
        venue.do("remove", member="Anna")
        other = venue.join("Bert")
        assert venue.call("api/look/ladder", token=other)[1]["levels"] == []
        assert sees(venue, "ladder", other)["levels"] == []


def test_the_first_orders_after_an_absence(tmp_path: pathlib.Path) -> None:
    """An order that was executed meanwhile isn't told as open."""
    with served.served(tmp_path, FAST) as venue:
        tokens = [venue.join(name) for name in ("Anna", "Bert")]
        venue.do("start")
        with Client(venue.url, tokens[0]) as me:
            me.enter("bid", 5, PRICE)
            found = asyncio.run(first_of(venue, tokens[0], "orders"))
            assert [it["order"] for it in found["orders"]] == [1]
        with Client(venue.url, tokens[1]) as other:
            other.enter("ask", 5, PRICE)
        venue.do("uncross")
        until(lambda: bool(venue.call("api/look/state", token=tokens[1])[1]["trades"]))
        assert asyncio.run(first_of(venue, tokens[0], "orders"))["orders"] == []


def test_a_halt_since_the_start(tmp_path: pathlib.Path) -> None:
    with begun_day(tmp_path) as (token, journal):
        journal.rename(tmp_path / "right")
        with served.served(tmp_path, FAST) as venue:
            status, state = venue.call("api/look/state", token=token)
            RECEIVED.validate(state)
            assert status == 200 and state["halted"].startswith("the journal is missing")
            assert (state["phase"], state["auction"]) == ("unknown", "unknown")
            assert [state[name] for name in UNKNOWN] == [None] * len(UNKNOWN)
            why = "XYZ has halted: what it has isn't known until it goes on"
            for what in ("orders", "fills", "trades"):
                found = venue.call(f"api/look/{what}", token=token)
                assert found == (503, {"error": "halted", "text": why})
            asyncio.run(go_on(venue, token, tmp_path / "right", journal))
            state = venue.call("api/look/state", token=token)[1]
            assert (state["phase"], state["reference"]) == ("call", PRICE)


def test_what_isnt_measured_in_a_halt_since_the_start(tmp_path: pathlib.Path) -> None:
    """No measure says 0 of what isn't known, and no names of members are none."""
    names = {"waiting", "restarts_total", "calls_left", "calls_left_to_members", "orders_open"}
    names |= {"orders_left", "orders_total", "trades_total", "phase"}
    url = f"127.0.0.1:{served.free_port()}"
    with begun_day(tmp_path) as (_, journal):
        journal.rename(tmp_path / "right")
        with served.served(tmp_path, FAST, "--metrics", url) as venue:
            found = measured(f"http://{url}")
            assert found["callboard_halted"] == {("XYZ",): 1}
            there = {it for it in names if f"callboard_{it}" in found}
            assert there == {"waiting", "restarts_total"}
            asked = "api/download/members/XYZ"
            status, text = venue.call(asked, token=venue.operator)
            assert (status, text["error"]) == (503, "halted")
            (tmp_path / "right").rename(journal)
            venue.do("resume")
            assert "Anna" in venue.call(asked, token=venue.operator)[1]
            until(lambda: "callboard_trades_total" in measured(f"http://{url}"))
            found = measured(f"http://{url}")
            assert {it for it in names if f"callboard_{it}" in found} == names
            assert found["callboard_trades_total"] == {("XYZ",): 1}


def test_what_is_said_before_a_first_look(tmp_path: pathlib.Path) -> None:
    """An instrument that begins hasn't halted."""
    resources = VenueResources(DayTerms(), tmp_path, "none", Log(tmp_path / "log"))
    board = InstrumentBoard(BoardIdentity("XYZ"), InstrumentTerms(), Treatment(), resources)
    for halted, does in ((None, "begins"), ("journal failed", "has halted")):
        board.engine.halted = halted
        with pytest.raises(MessageError) as found:
            board.looks.check_seen()
        assert found.value.text == f"XYZ {does}: what it has isn't known until it goes on"


async def go_on(
    venue: served.Served, token: str, right: pathlib.Path, journal: pathlib.Path
) -> None:
    """Puts a journal back while a member listens, who is sent no list before it goes on."""
    kinds = []
    async with contextlib.aclosing(heard(venue, token)) as messages:
        async for found in messages:
            kinds.append(found["type"])
            if found["type"] == "state" and right.exists():
                assert found["phase"] == "unknown"
                await asyncio.sleep(1)
                right.rename(journal)
                await asyncio.to_thread(venue.do, "resume")
                assert not {*kinds} & {"orders", "fills", "trades", "ladder"}
            if found["type"] == "orders":
                assert [it["order"] for it in found["orders"]] == [3]
            if found["type"] == "fills":
                assert [it["price"] for it in found["fills"]] == [PRICE] * 2
            if {"orders", "fills", "trades"} <= {*kinds}:
                return


def test_a_client_in_a_halt_since_the_start(tmp_path: pathlib.Path) -> None:
    async def looks(venue: served.Served, token: str) -> None:
        async with AsyncClient(venue.url, token) as me:
            for what in ("orders", "fills", "trades"):
                with pytest.raises(VenueError) as found:
                    await me.look(what)
                assert found.value.code == "halted"

    with begun_day(tmp_path) as (token, journal):
        journal.unlink()
        with served.served(tmp_path, FAST) as venue:
            asyncio.run(looks(venue, token))


def test_the_pages_in_a_halt_since_the_start(tmp_path: pathlib.Path) -> None:
    with begun_day(tmp_path) as (token, journal):
        journal.rename(tmp_path / "right")
        with served.served(tmp_path, FAST) as venue:
            with opened(tmp_path / "teacher", f"{venue.url}teacher#{venue.operator}") as page:
                page.waits(lambda it: it.shows("halts"))
                assert page.text("figures").count("not known") == 5
                assert not page.shows("no-trades") and not page.errors()
            with opened(tmp_path / "browser", venue.url, TELEPHONE) as page:
                page.runs("localStorage.setItem('venue.token', arguments[0])", token)
                page.driver.refresh()
                page.waits(lambda it: it.shows("no-orders"))
                assert page.text("no-orders").startswith("Your open orders aren't known now")
                assert page.text("no-fills") == "Your trades aren't known now."
                assert page.text("no-trades") == "The trades aren't known now."
                assert page.text("figures").count("not known") == 4
                (tmp_path / "right").rename(journal)
                venue.do("resume")
                page.waits(lambda it: len(it.rows("orders")) == 1 and len(it.rows("fills")) == 2)
                assert not page.shows("no-orders") and not page.errors()


def test_pages_that_were_open_before_such_a_halt(tmp_path: pathlib.Path) -> None:
    """They show nothing of what they had: others may have it by now."""
    words = ("--port", served.free_port())
    right = tmp_path / "right"
    with begun_day(tmp_path) as (token, journal), contextlib.ExitStack() as stack:
        with served.served(tmp_path, FAST, *words) as venue:
            url = f"{venue.url}teacher#{venue.operator}"
            teacher = stack.enter_context(opened(tmp_path / "teacher", url, SCREEN))
            page = stack.enter_context(opened(tmp_path / "browser", venue.url, TELEPHONE))
            page.runs("localStorage.setItem('venue.token', arguments[0])", token)
            page.driver.refresh()
            page.waits(lambda it: [len(it.rows(name)) for name in OWN] == [1, 2, 1])
            teacher.waits(lambda it: [len(it.rows(name)) for name in ALL] == [1, 1])
        journal.rename(right)
        with served.served(tmp_path, FAST, *words) as venue:
            page.waits(lambda it: it.text("no-orders").startswith("Your open orders aren't known"))
            assert [it for name in OWN for it in page.rows(name)] == []
            teacher.waits(lambda it: it.shows("halts"))
            assert [it for name in ALL for it in teacher.rows(name)] == []
            right.rename(journal)
            venue.do("resume")
            page.waits(lambda it: [len(it.rows(name)) for name in OWN] == [1, 2, 1])
            teacher.waits(lambda it: [len(it.rows(name)) for name in ALL] == [1, 1])


def test_the_commands_that_members_have_left(tmp_path: pathlib.Path) -> None:
    """Those that are kept, for the operator and to delete each open order, aren't members'."""
    day = FAST.replace("[phases]", "reserve = 20\n[phases]") + '[[instrument]]\nname = "XYZ"\n'
    port = served.free_port()
    words = ("--metrics", f"127.0.0.1:{port}")
    with served.served(tmp_path, day + "calls = 100\n", *words) as venue:
        token = venue.join("Anna")
        venue.do("start")
        with Client(venue.url, token) as me:
            for _ in range(39):
                me.enter("bid", 1, "2.00")
            left = 100 - 39 - 20 - 39
            until(lambda: bool(me.look("state")["left"] == 100 - 39))
            assert me.look("state")["calls_left_to_members"] == left
            until(
                lambda: measured(f"http://127.0.0.1:{port}")["callboard_calls_left_to_members"]
                == {("XYZ",): left}
            )
            me.enter("bid", 1, "2.00")
            with pytest.raises(VenueError) as found:
                me.enter("bid", 1, "2.00")
            assert found.value.code == "no_calls"
            until(lambda: bool(me.look("state")["calls_left_to_members"] == 0))

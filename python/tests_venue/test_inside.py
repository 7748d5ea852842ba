"""A venue in the process of the test, whose clocks and limits the test may set."""
import asyncio
import csv
import dataclasses
import errno
import gc
import hmac
import json
import pathlib
import socket
import time
from collections.abc import AsyncIterator, Callable
from typing import Any

import aiohttp
import pytest
import pytest_asyncio
import served
from callauction.venue import (
    buckets, clock, connection, gates, http, listening, log, operator_words, serving, tokens, views,
)
from callauction.venue.audience import MOST_OF_MEMBER
from callauction.venue.config import DayTerms, InstrumentTerms
from callauction.venue.gates import Gates
from callauction.venue.http import Site
from callauction.venue.log import ChangedLogError, Log, SlowLogError
from callauction.venue.members import NameTakenError, VenueMember
from callauction.venue.messages import MessageError, OrderMessage
from callauction.venue.metrics import Measures
from callauction.venue.venue import Venue

pytestmark = pytest.mark.asyncio
IS_DONE_LATER = "the venue has halted; this is done once it goes on"


@pytest_asyncio.fixture
async def client(inside: Venue, aiohttp_client: Any) -> Any:
    """A client of that venue by HTTP."""
    site = Site(inside, served.program(), frozenset(["127.0.0.1"]))
    return await aiohttp_client(site.application())


async def test_who_says_nothing_is_sent_away(client: Any, monkeypatch: pytest.MonkeyPatch) -> None:
    monkeypatch.setattr(connection, "HELLO_SECONDS", 0.2)
    socket = await client.ws_connect("/api/socket")
    async with asyncio.timeout(served.SECONDS):
        message = await socket.receive()
    assert message.type in (aiohttp.WSMsgType.CLOSE, aiohttp.WSMsgType.CLOSED)


async def test_who_answers_no_heartbeat_is_sent_away(
    client: Any, inside: Venue, monkeypatch: pytest.MonkeyPatch
) -> None:
    monkeypatch.setattr(connection, "HEARTBEAT_SECONDS", 0.2)
    _, token = await inside.join(inside.members.codes.by_name[""], "Anna")
    socket = await client.ws_connect("/api/socket", autoping=False)
    await socket.send_json({"type": "hello", "token": token})
    async with asyncio.timeout(served.SECONDS):
        while inside.audience.watchers or not socket.closed:
            if (await socket.receive()).type in (aiohttp.WSMsgType.CLOSED, aiohttp.WSMsgType.CLOSE):
                break
    async with asyncio.timeout(served.SECONDS):
        while inside.audience.watchers:
            await asyncio.sleep(0.02)


def halted_of(venue: Venue) -> dict[tuple[str, ...], float]:
    """What is measured of halts: of the venue, and by instrument."""
    samples = [sample for it in Measures(venue, Gates()).collect() for sample in it.samples]
    halts = [it for it in samples if it.name in ("callboard_halted", "callboard_venue_halted")]
    return {tuple(it.labels.values()): it.value for it in halts}


async def test_what_to_do_about_a_log_that_others_changed(
    inside: Venue, caplog: pytest.LogCaptureFixture
) -> None:
    """A log that waits for its disk needs no file."""
    full = OSError(errno.ENOSPC, "No space left on device")
    for fault in (ChangedLogError(), SlowLogError(), full):
        inside.halts.log_failed(fault)
        assert halted_of(inside) == {(): 1.0, ("XYZ",): 1.0}
        inside.halts.log_goes_on()
        assert halted_of(inside) == {(): 0.0, ("XYZ",): 0.0}
    halts = [it.getMessage() for it in caplog.records if "halted" in it.getMessage()]
    cant = "the venue halted: the venue's log can't be written: it "
    assert halts == [
        f"{cant}was changed by others: put the right file back, then `resume`",
        f"{cant}waits for the disk for more than 10 s",
        "the venue halted: the venue's log can't be written: No space left on device: make room, "
        f"or mend the disk, then `resume` ({inside.folder}/venue.log)",
    ]


async def test_a_member_is_connected_a_few_times_at_once(client: Any, inside: Venue) -> None:
    _, token = await inside.join(inside.members.codes.by_name[""], "Anna")
    sockets = []
    for _ in range(MOST_OF_MEMBER + 1):
        sockets.append(await client.ws_connect("/api/socket"))
        await sockets[-1].send_json({"type": "hello", "token": token})
        assert (await sockets[-1].receive_json())["type"] == "welcome"
    async with asyncio.timeout(served.SECONDS):
        while (last := await sockets[0].receive()).type is aiohttp.WSMsgType.TEXT:
            pass
    assert (last.data, last.extra) == (aiohttp.WSCloseCode.POLICY_VIOLATION, "too_fast")
    assert len(inside.audience.watchers) == MOST_OF_MEMBER


async def test_a_removed_member_says_nothing_more(inside: Venue) -> None:
    member, _ = await inside.join(inside.members.codes.by_name[""], "Anna")
    board = inside.rounds.now.boards["XYZ"]
    board.auctions.start_call()
    first, _ = inside.submit(member, OrderMessage(1, "XYZ", "enter,bid,1,200"))
    assert (await first).reply == "entered 1"
    await inside.remove([member])
    with pytest.raises(MessageError) as found:
        inside.submit(member, OrderMessage(9, "XYZ", "enter,bid,1,200"))
    assert found.value.code == "bad_token"
    assert (await member.done[2].answer).reply == "deleted"


async def in_flight(inside: Venue) -> VenueMember:
    """A member with an order that isn't answered, which would trade with another one's."""
    code = inside.members.codes.by_name[""]
    (anna, _), (bert, _) = [await inside.join(code, name) for name in ("Anna", "Bert")]
    inside.rounds.now.boards["XYZ"].auctions.start_call()
    answer, _ = inside.submit(bert, OrderMessage(1, "XYZ", "enter,ask,1,200"))
    assert (await answer).reply == "entered 1"
    inside.submit(anna, OrderMessage(1, "XYZ", "enter,bid,1,200"))
    return anna


async def test_an_order_in_flight_is_deleted_before_an_uncross(inside: Venue) -> None:
    anna, board = await in_flight(inside), inside.rounds.now.boards["XYZ"]
    removing = asyncio.create_task(inside.remove([anna]))
    await asyncio.sleep(0)
    assert await board.auctions.uncross() == "opening no price"
    found = await removing
    assert [(it.member, it.board, it.order) for it in found.deleted] == [(anna, "XYZ", 2)]
    assert found.halted == [] and not board.commands.awaits("Anna")


async def test_an_order_in_flight_is_deleted_after_a_halt(inside: Venue) -> None:
    """Whoever comes again in between: nothing else is taken before."""
    anna, board = await in_flight(inside), inside.rounds.now.boards["XYZ"]
    board.engine._give_up("for a while")
    found = await inside.remove([anna])
    assert (found.deleted, found.halted) == ([], ["XYZ"])
    again, _ = await inside.join(await inside.readmit(anna), "")
    assert again is anna
    await inside.starts.resume()
    assert await board.auctions.uncross() == "opening no price"
    assert [it.order for it in found.deleted] == [2]


async def test_what_is_held_as_it_halts_isnt_done(inside: Venue) -> None:
    anna, board = await in_flight(inside), inside.rounds.now.boards["XYZ"]
    removing = asyncio.create_task(inside.remove([anna]))
    await asyncio.sleep(0)
    uncrossing = asyncio.create_task(board.auctions.uncross())
    await asyncio.sleep(0)
    board.engine._give_up("for a while")
    with pytest.raises(MessageError) as fault:
        await uncrossing
    assert fault.value.code == "halted"
    assert (await removing).halted == ["XYZ"]
    await inside.starts.resume()
    assert await board.auctions.uncross() == "opening no price"
    journal = (inside.folder / "XYZ.journal.csv").read_text("latin-1")
    assert journal.count("uncross") == 1


async def comes(what: Callable[[], object]) -> None:
    """Waits until something is so."""
    async with asyncio.timeout(served.SECONDS):
        while not what():
            await asyncio.sleep(0.05)


async def test_what_waits_as_it_halts_is_answered_once(
    client: Any, inside: Venue, monkeypatch: pytest.MonkeyPatch
) -> None:
    """By its entry, once it goes on, as nobody knows before whether it has one."""
    _, token = await inside.join(inside.members.codes.by_name[""], "Anna")
    board = inside.rounds.now.boards["XYZ"]
    board.auctions.start_call()
    order = {"type": "enter", "side": "bid", "quantity": 1, "price": "2.00"}
    async with client.ws_connect("/api/socket") as socket:
        await socket.send_json({"type": "hello", "token": token})
        with monkeypatch.context() as held:
            held.setattr(board.engine.outbox, "_send", lambda sent: None)
            await socket.send_json(order | {"number": 1})
            await comes(lambda: board.engine.outbox.waiting)
        board.engine._give_up("for a while")
        await socket.send_json(order | {"number": 2})
        await asyncio.sleep(0.5)
        await inside.starts.resume()
        await socket.send_json(order | {"number": 3})
        found: list[tuple[int, str]] = []
        async with asyncio.timeout(served.SECONDS):
            while not found or found[-1][0] != 3:
                said = await socket.receive_json()
                if said["type"] in ("answer", "error"):
                    found.append((said["number"], said.get("reply", said.get("error"))))
    assert found == [(2, "halted"), (1, "entered 1"), (3, "entered 2")]


async def test_which_entries_arent_counted_is_said(inside: Venue) -> None:
    """Those of an instrument whose journal is an older one."""
    [line] = serving.lines_of_begin(inside, 0)
    assert line.endswith(", 0 entries so far")
    inside.starts.waiting["XYZ"] = []
    assert serving.lines_of_begin(inside, 0) == [f"{line} but for XYZ"]


async def test_a_log_that_is_moved_is_seen_at_once(inside: Venue) -> None:
    """Also where nothing is to be written."""
    log, other = inside.folder / "venue.log", inside.folder / "moved"
    await inside.log.written()
    log.rename(other)
    await comes(lambda: inside.halts.halted)
    assert inside.halts.halted == "the venue's log can't be written: it was changed by others"
    other.rename(log)
    await inside.starts.resume()
    assert inside.halts.halted is None


async def test_who_joins_as_the_log_fails_is_answered(inside: Venue) -> None:
    """And joins once it goes on: nobody else has the name meanwhile, nor the token."""
    code = inside.members.codes.by_name[""]
    log, other = inside.folder / "venue.log", inside.folder / "moved"
    await inside.log.written()
    log.rename(other)
    for text in (IS_DONE_LATER, "the venue has halted; nothing was done"):
        with pytest.raises(MessageError) as found:
            await inside.join(code, "Anna")
        assert (found.value.code, found.value.text) == ("halted", text)
    other.rename(log)
    await inside.starts.resume()
    member, token = await inside.join(code, " Anna")
    assert inside.role_of(token) == ("member", member)
    with pytest.raises(NameTakenError):
        await inside.join(code, "Anna")


async def test_nobody_is_another_by_a_join_that_failed(inside: Venue) -> None:
    """Who comes again by a code of its own as the log fails: its name stays its own."""
    member, _ = await inside.join(inside.members.codes.by_name[""], "Anna")
    own = inside.members.codes.give("Anna", "OWN123")
    log, other = inside.folder / "venue.log", inside.folder / "moved"
    await inside.log.written()
    log.rename(other)
    with pytest.raises(MessageError):
        await inside.join(own, "")
    other.rename(log)
    await inside.starts.resume()
    with pytest.raises(NameTakenError):
        await inside.join(inside.members.codes.by_name[""], "Anna")
    assert (await inside.join(own, ""))[0] is member


async def test_two_who_join_by_one_name_at_once(inside: Venue) -> None:
    code = inside.members.codes.by_name[""]
    asked = [inside.join(code, "Anna") for _ in range(2)]
    first, second = await asyncio.gather(*asked, return_exceptions=True)
    assert isinstance(second, NameTakenError) and not isinstance(first, BaseException)
    assert inside.role_of(first[1]) == ("member", first[0])


async def test_what_the_operator_wants_as_the_log_fails_is_answered(inside: Venue) -> None:
    log, other = inside.folder / "venue.log", inside.folder / "moved"
    await inside.log.written()
    log.rename(other)
    with pytest.raises(MessageError) as found:
        await operator_words.done(inside, {"do": "door", "open": False})
    assert (found.value.code, found.value.text) == ("halted", IS_DONE_LATER)
    other.rename(log)
    await inside.starts.resume()
    assert not inside.members.codes.is_open and '"kind":"door"' in log.read_text()


async def test_who_is_let_in_as_the_log_fails_is_answered(inside: Venue) -> None:
    """A member of a FIX session, who is one once it goes on; and the next round, which isn't begun.
    """
    log, other = inside.folder / "venue.log", inside.folder / "moved"
    await inside.log.written()
    log.rename(other)
    async with asyncio.timeout(served.SECONDS):
        with pytest.raises(MessageError) as found:
            await inside.admit("Bank", "a token")
        assert (found.value.code, found.value.text) == ("halted", IS_DONE_LATER)
        with pytest.raises(MessageError) as found:
            await inside.groups.next_round(2, inside.day.treatment(2))
        assert found.value.text == "the venue has halted; nothing was done"
    other.rename(log)
    await inside.starts.resume()
    assert inside.members.named("Bank") is not None and inside.rounds.now.number == 1
    await inside.groups.next_round(2, inside.day.treatment(2))
    assert inside.rounds.now.number == 2


async def test_a_clock_that_is_set_is_said(
    inside: Venue, monkeypatch: pytest.MonkeyPatch, caplog: pytest.LogCaptureFixture
) -> None:
    """Once, on standard error, in the log and to operations."""
    monkeypatch.setattr(clock, "set_by", lambda: 3600.04)
    log = inside.folder / "venue.log"
    await comes(lambda: '"kind":"clock_set","ahead":3600.0' in log.read_text())
    inside.time.look()
    said = [it.getMessage() for it in caplog.records]
    assert len(said) == 1 and said[0].startswith("the machine's clock is 3600.0 s ahead of the ")
    measures = {it.name: it for it in Measures(inside, Gates()).collect()}
    assert measures["callboard_clock_ahead_seconds"].samples[0].value == 3600.04


async def test_a_log_that_fails_and_goes_on(
    tmp_path: pathlib.Path, monkeypatch: pytest.MonkeyPatch
) -> None:
    """What follows from lines comes once they are written, in their order, whatever fails."""
    log = Log(tmp_path / "log")
    log.lines()
    faults: list[OSError] = []
    done: list[int] = []
    log.on_fault = faults.append
    write = log._write

    def fails(data: bytes) -> None:
        raise OSError(28, "No space left on device")

    task = asyncio.create_task(log.run())
    log.note(lambda: done.append(1), kind="first")
    await log.written()
    monkeypatch.setattr(log, "_write", fails)
    for number in (2, 3):
        log.note(lambda number=number: done.append(number), kind="later")  # type: ignore[misc]
    while not faults:
        await asyncio.sleep(0.01)
    assert done == [1]
    monkeypatch.setattr(log, "_write", write)
    log.retry()
    await log.written()
    assert done == [1, 2, 3]
    log.close()
    await task
    assert (tmp_path / "log").read_text().count("\n") == 3


async def test_a_bucket() -> None:
    now = [0.0]
    bucket = buckets.Bucket(2.0, 3, lambda: now[0])
    assert [bucket.takes() for _ in range(4)] == [True, True, True, False]
    now[0] = 0.5
    assert [bucket.takes() for _ in range(2)] == [True, False]
    now[0] = 100.0
    assert [bucket.takes() for _ in range(4)] == [True, True, True, False]


async def test_looks_at_trades_come_in_pages(client: Any, inside: Venue) -> None:
    """Three members look at 15,000 trades as fast as they may: orders hardly wait."""
    [instrument] = inside.rounds.now.boards.values()
    trades = (views.DayTrade(it, 2 * it, 2 * it + 1, 1, 200) for it in range(1, 15_001))
    instrument.looks.trades.extend(trades)
    instrument.auctions.start_call()
    found = [await inside.join(inside.members.codes.by_name[""], f"member {it}") for it in range(4)]
    (me, _), *others = found

    async def look(token: str, first: int) -> list[int]:
        headers = {"Authorization": f"Bearer {token}"}
        async with client.get(f"/api/look/trades?first={first}", headers=headers) as answer:
            return [it["trade"] for it in (await answer.json()).get("trades", [])]

    assert await look(others[0][1], 1) == [*range(1, 501)]
    assert await look(others[0][1], 14_901) == [*range(14_901, 15_001)]
    assert await look(others[0][1], 15_001) == []

    async def looking_on(token: str) -> None:
        while True:
            await look(token, 1)
            await asyncio.sleep(0.05)

    looking = [asyncio.create_task(looking_on(token)) for _, token in others]
    waits = []
    for number in range(1, 31):
        begin = time.monotonic()
        answer, _ = inside.submit(me, OrderMessage(number, "XYZ", "enter,bid,1,200"))
        assert (await answer).reply == f"entered {number}"
        waits.append(time.monotonic() - begin)
        await asyncio.sleep(0.05)
    for task in looking:
        task.cancel()
    assert sorted(waits)[len(waits) // 2] < 0.2, sorted(waits)


async def got(client: Any, path: str, token: str) -> tuple[int, Any]:
    """The status and the answer to who asks for a path with this token."""
    async with client.get(path, headers={"Authorization": f"Bearer {token}"}) as answer:
        is_json = answer.content_type == "application/json"
        return answer.status, await (answer.json() if is_json else answer.text())


async def test_what_a_state_has_other_looks_have_too(client: Any, inside: Venue) -> None:
    """Anna gains 0.50 with each of ten shares, which is to be seen as soon as the result is, also
    while the venue waits before it looks at its program again.
    """
    [instrument] = inside.rounds.now.boards.values()
    instrument._tasks[1].cancel()  # its looks at the program
    code = inside.members.codes.by_name[""]
    (anna, token), (bert, _) = [await inside.join(code, it) for it in ("Anna", "Bert")]
    values = [{"member": "Anna", "side": "bid", "price": "2.50", "quantity": 10}]
    await operator_words.done(inside, {"do": "give", "values": values})
    await operator_words.done(inside, {"do": "start"})
    for member, side in ((anna, "bid"), (bert, "ask")):
        answer, _ = inside.submit(member, OrderMessage(1, "XYZ", f"enter,{side},10,200"))
        await answer
    await operator_words.done(inside, {"do": "uncross"})
    operator = inside.secrets["operator"]
    status, found = await got(client, "/api/look/state", operator)
    assert (status, found["phase"], found["results"][0]["trades"]) == (200, "waiting", 1)
    status, results = await got(client, "/api/download/results", operator)
    rows = [*csv.DictReader(results.splitlines())]
    assert [it["gain"] for it in rows if (it["round"], it["name"]) == ("1", "Anna")] == ["5.00"]
    _, fills = await got(client, "/api/look/fills", token)
    assert (len(fills["fills"]), fills["gain"]) == (1, "5.00")
    _, trades = await got(client, "/api/look/trades", token)
    assert [it["quantity"] for it in trades["trades"]] == [10]


async def test_what_the_operator_may_look_at(client: Any, inside: Venue) -> None:
    """The state of an auction, by which a program of the operator learns its phase."""
    operator = inside.secrets["operator"]
    assert (await got(client, "/api/look/state?instrument=XYZ", operator))[1]["phase"] == "waiting"
    status, found = await got(client, "/api/look/state?instrument=ABC", operator)
    assert (status, found["error"]) == (400, "unknown_instrument")
    status, found = await got(client, "/api/look/fills", operator)
    assert (status, found["error"]) == (403, "not_allowed")


async def test_a_download_without_an_instrument(
    tmp_path: pathlib.Path, aiohttp_client: Any
) -> None:
    """Those of all rounds need none; of several instruments the others name one."""
    terms = tuple(InstrumentTerms(name=it) for it in ("TEA", "RICE"))
    venue = Venue(DayTerms(is_synced=False, instruments=terms), tmp_path, served.program())
    await venue.open()
    site = Site(venue, served.program(), frozenset(["127.0.0.1"]))
    client, operator = await aiohttp_client(site.application()), venue.secrets["operator"]
    for kind in ("results", "trades"):
        status, found = await got(client, f"/api/download/{kind}", operator)
        assert (status, found.partition(",")[0]) == (200, "round")
    status, found = await got(client, "/api/download/journal", operator)
    assert (status, found["error"]) == (400, "unknown_instrument")
    assert found["text"] == "name one of 2 instruments: /api/download/journal/TEA"
    status, found = await got(client, "/api/download/prices", operator)
    assert (status, found["text"]) == (
        400, "there is no download 'prices', but journal, members, results, trades, report")
    await venue.close()


async def test_looks_cost_what_orders_cost(client: Any, inside: Venue) -> None:
    """They come out of the same bucket."""
    inside.members._terms = dataclasses.replace(inside.day.members, rate=0.001, burst=5)
    member, token = await inside.join(inside.members.codes.by_name[""], "Anna")
    headers = {"Authorization": f"Bearer {token}"}
    found = []
    for what in ("state", "orders", "fills", "trades", "state", "trades", "orders"):
        async with client.get(f"/api/look/{what}", headers=headers) as answer:
            found.append(answer.status)
    assert found == [200] * 5 + [429] * 2
    assert not member.bucket.takes()


async def test_half_a_body_is_waited_for_as_long_as_a_request_may_take(
    client: Any, monkeypatch: pytest.MonkeyPatch
) -> None:
    monkeypatch.setattr(http, "BODY_SECONDS", 0.2)

    async def half() -> AsyncIterator[bytes]:
        yield b'{"code":'
        await asyncio.sleep(served.SECONDS)

    headers = {"Content-Type": "application/json", "Content-Length": "60000"}
    async with asyncio.timeout(served.SECONDS / 2):
        async with client.post("/api/join", data=half(), headers=headers) as answer:
            assert (answer.status, await answer.text()) == (408, "the request takes too long")


async def test_secrets_are_compared_in_a_time_that_says_nothing(
    inside: Venue, monkeypatch: pytest.MonkeyPatch
) -> None:
    compare, compared = hmac.compare_digest, set()

    def noted(first: bytes, second: bytes) -> bool:
        compared.add(second.decode())
        return compare(first, second)

    monkeypatch.setattr(tokens.hmac, "compare_digest", noted)  # type: ignore[attr-defined]
    with pytest.raises(MessageError):
        inside.role_of("guessed")
    with pytest.raises(MessageError):
        await inside.join("WRONGS", "Anna")
    assert compared == {*inside.secrets.values(), inside.members.codes.by_name[""]}


async def test_who_has_said_who_it_is_may_be_silent(
    inside: Venue, monkeypatch: pytest.MonkeyPatch
) -> None:
    """Behind gates that wait for a fifth of a second."""
    monkeypatch.setattr(listening, "HEAD_SECONDS", 0.2)
    monkeypatch.setattr(gates, "IDLE_SECONDS", 0.2)
    monkeypatch.setattr(listening, "SWEEP_SECONDS", 0.02)
    own = Gates()
    site = Site(inside, served.program(), frozenset(["127.0.0.1"]), own)
    _, token = await inside.join(inside.members.codes.by_name[""], "Anna")
    pages = serving.Pages(site.application(), own)
    port = await pages.begin("127.0.0.1", 0)
    async with aiohttp.ClientSession() as web:
        url = f"http://127.0.0.1:{port}/api/socket"
        async with web.ws_connect(url) as silent, web.ws_connect(url) as known:
            await known.send_json({"type": "hello", "token": token, "topics": []})
            assert (await known.receive_json())["type"] == "welcome"
            async with asyncio.timeout(served.SECONDS):
                assert (await silent.receive()).type is aiohttp.WSMsgType.CLOSED
            await asyncio.sleep(0.5)
            await known.send_json({"type": "nothing"})
            assert (await known.receive_json())["error"] == "not_allowed"
            assert len(own) == 1
    pages.shut()
    await pages.end()


class GoneSocket:
    """A connection on which one member said who it is, and then is gone."""

    def __init__(self, token: str) -> None:
        self._hello = json.dumps({"type": "hello", "token": token})
        self._says_hello = True
        self.is_gone = asyncio.Event()

    def __aiter__(self) -> "GoneSocket":
        return self

    async def __anext__(self) -> aiohttp.WSMessage:
        await asyncio.Event().wait()
        raise StopAsyncIteration

    async def receive(self) -> aiohttp.WSMessage:
        return aiohttp.WSMessage(aiohttp.WSMsgType.TEXT, self._hello, None)

    async def send_str(self, text: str) -> None:
        if not self._says_hello:
            await self.is_gone.wait()
            raise ConnectionResetError("Cannot write to closing transport")
        self._says_hello = False

    async def close(self, code: int, message: bytes) -> None:
        raise ConnectionResetError("Cannot write to closing transport")


async def test_who_is_gone_as_the_venue_ends_is_no_fault(inside: Venue) -> None:
    _, token = await inside.join(inside.members.codes.by_name[""], "Anna")
    faults: list[Any] = []
    asyncio.get_running_loop().set_exception_handler(lambda _, fault: faults.append(fault))
    listening = socket.socket()
    gate = gates.Gate("127.0.0.1", listening, 0.0)
    gone: Any = GoneSocket(token)
    found = connection.Connection(inside, gone, gate)
    task = asyncio.create_task(found.serve())
    await asyncio.sleep(0.05)
    found.leave("halted")
    task.cancel()
    await asyncio.sleep(0)
    task.cancel()
    gone.is_gone.set()
    await asyncio.wait([task], timeout=served.SECONDS)
    del task, found, gone
    await asyncio.sleep(0)
    gc.collect()
    await asyncio.sleep(0)
    listening.close()
    assert faults == []


@pytest.mark.parametrize("source", ["", "127.0.0.1"])
@pytest.mark.parametrize("note", [{}, {"11": 'a"\\\x01é', "59": "0"}])
async def test_a_line_of_a_message_is_as_all_lines_are(
    monkeypatch: pytest.MonkeyPatch, source: str, note: dict[str, str]
) -> None:
    monkeypatch.setattr(clock, "now", lambda: 1795958051.8)
    line: dict[str, object] = {"kind": "sent", "instrument": "X", "member": 'Ä "B"\n'}
    line |= {"number": -(1 << 70), "record": "1,enter,bid,5,200"}
    line |= {"from": source} if source else {}
    line |= {"note": note} if note else {}
    texts = "X", 'Ä "B"\n', -(1 << 70), "1,enter,bid,5,200", source, note
    assert log.sent_text(*texts) == log.line_text(line)

"""A call that is uncrossed by itself, and whose end passes while nobody can change an order."""
import asyncio
import contextlib
import pathlib
import time
from collections.abc import AsyncIterator

import pytest
import served
from callauction.venue import Client, auctions, clock
from callauction.venue.config import DayTerms, Plan
from callauction.venue.instrument_board import InstrumentBoard
from callauction.venue.log import SlowLogError
from callauction.venue.messages import OrderMessage
from callauction.venue.phases import Phase
from callauction.venue.venue import Venue
from patience import until

SHORT, LONG = 3, 5
"""Seconds of a call: of one that is shorter than what it is given, and of a longer one."""
GRACE = 4


@contextlib.asynccontextmanager
async def in_call(folder: pathlib.Path, call: int, is_automatic: bool) -> AsyncIterator[Venue]:
    """A venue that runs in this loop, in a call of as many seconds."""
    folder.mkdir(exist_ok=True)
    plan = Plan(call=call, is_automatic=is_automatic)
    venue = Venue(DayTerms(is_synced=False, plan=plan), folder, served.program())
    await venue.open()
    try:
        venue.rounds.now.boards["XYZ"].auctions.start_call()
        yield venue
    finally:
        await venue.close()


def phase_of(board: InstrumentBoard) -> Phase:
    """The phase of an instrument, which goes on meanwhile."""
    return board.auctions.state.phase


async def halt(venue: Venue, board: InstrumentBoard, whose: str, seconds: float) -> None:
    """Halts the venue or its only instrument for as many seconds."""
    if whose == "venue":
        venue.halts.log_failed(SlowLogError())
    else:
        board.engine._give_up("journal failed")
    await asyncio.sleep(seconds)
    if whose == "venue":
        venue.halts.log_goes_on()
    else:
        await venue.starts.resume()


@pytest.mark.asyncio
@pytest.mark.parametrize("whose", ["venue", "instrument"])
@pytest.mark.parametrize("call", [SHORT, LONG])
async def test_a_halt_over_the_end_of_a_call(
    tmp_path: pathlib.Path, monkeypatch: pytest.MonkeyPatch, whose: str, call: int
) -> None:
    """Members see a countdown once it goes on, and have that time to delete an order."""
    monkeypatch.setattr(auctions, "GRACE_SECONDS", GRACE)
    async with in_call(tmp_path, call, True) as venue, asyncio.timeout(served.SECONDS):
        board = venue.rounds.now.boards["XYZ"]
        member, _ = await venue.join(venue.members.codes.by_name[""], "Anna")
        answer, _ = venue.submit(member, OrderMessage(1, "XYZ", "enter,bid,1,200"))
        assert (await answer).reply == "entered 1"
        await halt(venue, board, whose, call + 1)
        went_on, end = clock.now(), board.auctions.state.ends
        assert board.auctions.state.phase is Phase.CALL
        while board.auctions.state.ends == end:
            await asyncio.sleep(0.01)
        assert board.auctions.state.ends is not None and board.auctions.state.phase is Phase.CALL
        assert board.auctions.state.ends - went_on == pytest.approx(min(GRACE, call), abs=1)
        answer, _ = venue.submit(member, OrderMessage(2, "XYZ", "delete,1"))
        assert (await answer).reply == "deleted"
        while phase_of(board) is not Phase.WAITING:
            await asyncio.sleep(0.01)
        assert clock.now() - went_on >= min(GRACE, call)


@pytest.mark.asyncio
@pytest.mark.parametrize("whose", ["venue", "instrument"])
async def test_a_halt_just_before_the_end_of_a_call(
    tmp_path: pathlib.Path, monkeypatch: pytest.MonkeyPatch, whose: str
) -> None:
    """Who was away has as much time as after a halt over its end."""
    monkeypatch.setattr(auctions, "GRACE_SECONDS", GRACE)
    async with in_call(tmp_path, LONG, True) as venue, asyncio.timeout(served.SECONDS):
        board = venue.rounds.now.boards["XYZ"]
        await halt(venue, board, whose, LONG - 1.5)
        went_on, end = clock.now(), board.auctions.state.ends
        assert end is not None and end > went_on
        await asyncio.sleep(0.5)
        assert board.auctions.state.ends is not None and board.auctions.state.phase is Phase.CALL
        assert board.auctions.state.ends - went_on == pytest.approx(GRACE, abs=1)


@pytest.mark.asyncio
async def test_a_halt_within_a_call(tmp_path: pathlib.Path) -> None:
    """It leaves the end where it was; and a call that isn't uncrossed by itself ends as ever."""
    async with in_call(tmp_path / "automatic", 60, True) as venue:
        board = venue.rounds.now.boards["XYZ"]
        before = board.auctions.state
        await halt(venue, board, "venue", 0.5)
        await asyncio.sleep(0.5)
        assert board.auctions.state == before
    async with in_call(tmp_path / "by hand", 1, False) as venue:
        board = venue.rounds.now.boards["XYZ"]
        await halt(venue, board, "venue", 2)
        assert board.auctions.state.phase is Phase.ENDED


DAY = "sync = false\n[phases]\ncall = 5\nautomatic = {}\n[members]\nrate = 1000\nburst = 1000\n"


def test_a_crash_just_before_the_end_of_a_call(tmp_path: pathlib.Path) -> None:
    day = DAY.format("true").replace("call = 5", "call = 20")
    with served.served(tmp_path, day) as venue:
        venue.do("start")
        venue.child.kill()
        venue.child.wait(served.SECONDS)
    time.sleep(6)
    with served.served(tmp_path, day) as venue:
        state = venue.call("api/look/state", token=venue.join("Anna"))[1]
        assert state["phase"] == "call" and 20 - 5 < state["ends"] - state["now"] <= 20, state


@pytest.mark.parametrize("is_automatic", [True, False])
def test_a_crash_over_the_end_of_a_call(tmp_path: pathlib.Path, is_automatic: bool) -> None:
    """Nothing is executed at the start; a call that isn't uncrossed by itself has ended then."""
    day = DAY.format("true" if is_automatic else "false")
    with served.served(tmp_path, day) as venue:
        token = venue.join("Anna")
        venue.do("start")
        with Client(venue.url, token) as me:
            assert me.enter("bid", 1, "2.00").order == 1
        venue.child.kill()
        venue.child.wait(served.SECONDS)
    time.sleep(5.5)
    with served.served(tmp_path, day) as venue, Client(venue.url, token) as me:
        state = me.look("state")
        if not is_automatic:
            assert state["phase"] == "ended"
            return
        assert state["phase"] == "call" and 0 < state["ends"] - state["now"] <= 5
        me.delete(1)
        until(lambda: bool(me.look("state")["phase"] == "waiting"))
        assert me.look("state")["auction"] == "intraday"

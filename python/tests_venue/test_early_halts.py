"""Boards that have halted before it was seen what they have: they go on, by the clock and in the
results, whichever round it is by then.
"""
import asyncio
import contextlib
import json
import pathlib
import shutil
from collections.abc import AsyncIterator, Callable, Iterable, Sequence

import pytest
import served
from browsing import SCREEN, opened
from callauction.statuses import FAILED
from callauction.venue import results
from callauction.venue.config import DayTerms, InstrumentTerms, Plan
from callauction.venue.gates import Gates
from callauction.venue.instrument_board import InstrumentBoard
from callauction.venue.members import VenueMember
from callauction.venue.messages import MessageError
from callauction.venue.metrics import Measures, halts_of
from callauction.venue.phases import Phase
from callauction.venue.process import ProcessError
from callauction.venue.rounds import Round
from callauction.venue.venue import Venue
from conftest import FAST
from listeners import Hearer
from patience import until
from rounds import trade
from watched import looked, measured

SILENT = "the program hasn't answered for 10 s"
SOON = 30.0
"""Seconds within which what is done by the clock is done."""
HALTED = "callboard_halted"
WHY = "the journal is missing, and the log knows of 3 entries"


def away(folder: pathlib.Path) -> Callable[[], object]:
    """Takes the first round's journal out of a folder: what puts it back."""
    journal, right = folder / "XYZ.journal.csv", folder.parent / "right"
    journal.rename(right)
    return lambda: right.rename(journal)


def test_a_round_that_was_begun_beside_one_that_isnt_known(tmp_path: pathlib.Path) -> None:
    """What the earlier one came to counts once its journal is back."""
    with served.served(tmp_path, FAST) as venue:
        tokens = [venue.join(name) for name in ("Anna", "Bert")]
        trade(venue, *tokens)
    put_back = away(tmp_path / "venue")
    url = f"http://127.0.0.1:{(port := served.free_port())}"
    with served.served(tmp_path, FAST, "--metrics", f"127.0.0.1:{port}") as venue:
        begins = {"do": "next", "round": 2}
        status, refused = venue.call("api/operator", begins, venue.operator)
        assert (status, refused["boards"], refused["text"]) == (
            409, ["XYZ"], "it isn't known what XYZ has: resume first, or begin anyway")
        venue.do("next", round=2, anyway=True)
        status, text = looked(f"{url}/healthz")
        assert (status, json.loads(text)["halted"]) == (503, {"XYZ of round 1": WHY})
        with opened(tmp_path / "browser", f"{venue.url}teacher#{venue.operator}", SCREEN) as page:
            page.waits(lambda it: it.text("halts").startswith(f"XYZ, Round 1 has halted: {WHY}."))
            assert not page.is_off("[data-do=resume]")
            put_back()
            page.clicks("[data-do=resume]")
            page.waits(lambda it: not it.shows("halts"))
            assert page.is_off("[data-do=resume]") and not page.errors()
        assert looked(f"{url}/healthz")[0] == 200
        until(lambda: measured(url)["callboard_halted"] == {("XYZ",): 0})
        asked = "api/download/results/XYZ"
        until(lambda: venue.call(asked, token=venue.operator)[0] == 200)
        found = venue.call(asked, token=venue.operator)[1]
        rows = [line.split(",") for line in found.splitlines()[1:3]]
        assert [row[3:5] + row[9:13] for row in rows] == [
            ["XYZ", "Anna", "10", "20.00", "0", "0.00"],
            ["XYZ", "Bert", "0", "0.00", "10", "20.00"],
        ]
        venue.end()
        left = (tmp_path / "venue/results.csv").read_text("utf-8-sig")
        assert left.splitlines() == found.splitlines()


def test_no_results_are_left_of_a_day_that_isnt_known(tmp_path: pathlib.Path) -> None:
    with served.served(tmp_path, FAST) as venue:
        trade(venue, *[venue.join(name) for name in ("Anna", "Bert")])
    put_back = away(tmp_path / "venue")
    with served.served(tmp_path, FAST) as venue:
        venue.do("next", round=2, anyway=True)
        for kind in ("results", "trades", "report"):
            found = venue.call(f"api/download/{kind}/XYZ", token=venue.operator)
            assert (found[0], found[1]["error"]) == (503, "halted")
        venue.end()
    assert not (tmp_path / "venue/results.csv").exists()
    put_back()
    with served.served(tmp_path, FAST):
        pass
    assert (tmp_path / "venue/results.csv").exists()


# ---- a first look that fails


@contextlib.asynccontextmanager
async def without_journal(
    folder: pathlib.Path, is_in_call: bool = False
) -> AsyncIterator[tuple[Venue, InstrumentBoard]]:
    """A venue that runs in this loop, whose journal was missing as it began and is back, and its
    board, which may be in a call; that is as long as a second.
    """
    day = DayTerms(is_synced=False, plan=Plan(call=1))
    first = Venue(day, folder, served.program())
    await first.open()
    board = first.rounds.now.boards["XYZ"]
    board.auctions.start_call()
    await board.auctions.uncross()
    await board.looks.refresh()
    if is_in_call:
        board.auctions.start_call()
    await first.close()
    again = folder.with_name("again")
    shutil.copytree(folder, again)  # the lock of the first log is this process's
    put_back = away(again)
    venue = Venue(day, again, served.program())
    await venue.open()
    try:
        put_back()
        yield venue, venue.rounds.now.boards["XYZ"]
    finally:
        await venue.close()


def is_silent_once(board: InstrumentBoard, patch: pytest.MonkeyPatch) -> None:
    """The program doesn't answer the next look, and is ended."""
    engine = board.engine
    show = engine.show

    async def silent(views: object) -> list[list[str]]:
        patch.setattr(engine, "show", show)
        assert engine.outbox.process is not None
        engine.outbox.process.kill()
        raise ProcessError(SILENT, FAILED)

    patch.setattr(engine, "show", silent)


async def is_tried_in_vain(venue: Venue, board: InstrumentBoard, patch: pytest.MonkeyPatch) -> None:
    """Tries again, and halts at the first look."""
    is_silent_once(board, patch)
    with pytest.raises(MessageError) as found:
        await venue.starts.resume()
    assert found.value.text == f"XYZ: {SILENT}"


@pytest.mark.asyncio
async def test_a_first_look_that_fails(
    tmp_path: pathlib.Path, monkeypatch: pytest.MonkeyPatch
) -> None:
    """The board goes by its clock once it goes on, whoever tries it again meanwhile."""
    (folder := tmp_path / "venue").mkdir(0o700)
    async with without_journal(folder) as (venue, board), asyncio.timeout(served.SECONDS):
        await is_tried_in_vain(venue, board, monkeypatch)
        assert not board.looks.is_seen and halts_of(venue) == {"XYZ": SILENT}
        resumed = await asyncio.gather(venue.starts.resume(), venue.starts.resume())
        assert [*resumed] == [["XYZ"]] * 2
        assert board.looks.is_seen and len(board._tasks) == 2
        board.auctions.start_call()
        async with asyncio.timeout(SOON):
            while board.auctions.state.phase is not Phase.ENDED:
                await asyncio.sleep(0.1)


@pytest.mark.asyncio
async def test_who_comes_during_a_first_look(
    tmp_path: pathlib.Path, monkeypatch: pytest.MonkeyPatch
) -> None:
    """Who has never had an order is told so, as anybody is who comes before it or after."""
    (folder := tmp_path / "venue").mkdir(0o700)
    async with without_journal(folder) as (venue, board), asyncio.timeout(served.SECONDS):
        member, _ = await venue.join(venue.members.codes.by_name[""], "Bert")
        show, begins, ends = board.engine.show, asyncio.Event(), asyncio.Event()

        async def slow(views: Sequence[str]) -> list[list[str]]:
            begins.set()
            await ends.wait()
            return await show(views)

        monkeypatch.setattr(board.engine, "show", slow)
        resuming = asyncio.create_task(venue.starts.resume())
        await begins.wait()
        venue.audience.enter(listener := Hearer(member))
        venue.audience.greet(listener)
        assert "orders XYZ" not in listener.said
        ends.set()
        assert await resuming == ["XYZ"]
        async with asyncio.timeout(SOON):
            while "orders XYZ" not in listener.said:
                await asyncio.sleep(0.1)
        assert listener.said["orders XYZ"]["orders"] == []


@pytest.mark.asyncio
async def test_a_call_that_ended_while_its_board_had_halted(
    tmp_path: pathlib.Path, caplog: pytest.LogCaptureFixture
) -> None:
    """The operator is told, until its end is moved."""
    (folder := tmp_path / "venue").mkdir(0o700)
    why, does = "the call of XYZ has ended while it had halted", "`extend` lets it go on"
    async with without_journal(folder, True) as (venue, board), asyncio.timeout(served.SECONDS):
        venue.audience.watchers[listener := Hearer()] = None
        await asyncio.sleep(1)
        assert await venue.starts.resume() == ["XYZ"]
        assert board.auctions.state.phase is Phase.ENDED
        late = {"instrument": "XYZ", "why": why, "does": does}
        assert listener.said["round"]["late"] == [late]
        assert f"{why}: {does}" in [it.getMessage() for it in caplog.records]
        board.auctions.extend(60)
        async with asyncio.timeout(SOON):
            while listener.said["round"]["late"]:
                await asyncio.sleep(0.1)


@pytest.mark.asyncio
async def test_payoffs_wait_for_a_round_to_begin(
    tmp_path: pathlib.Path, monkeypatch: pytest.MonkeyPatch
) -> None:
    """They are reckoned once for it, and not for the first look at each of its boards."""
    instruments = tuple(InstrumentTerms(name=name) for name in ("ONE", "TWO", "THREE"))
    venue = Venue(DayTerms(is_synced=False, instruments=instruments), tmp_path, served.program())
    await venue.open()
    venue.audience.watchers[Hearer()] = None
    counts: list[int] = []
    payoffs = results.payoffs

    def counted(
        day: DayTerms, rounds: Sequence[Round], members: Iterable[VenueMember]
    ) -> list[results.Payoff]:
        counts.append(len(rounds))
        return payoffs(day, rounds, members)

    monkeypatch.setattr(results, "payoffs", counted)
    await venue.groups.next_round(2, venue.day.treatment(2))
    assert counts == [2]
    await venue.close()


@pytest.mark.asyncio
async def test_a_first_look_that_fails_in_a_round_that_is_over(
    tmp_path: pathlib.Path, monkeypatch: pytest.MonkeyPatch
) -> None:
    """It is one of what halts until it is seen, and payoffs wait for it."""
    (folder := tmp_path / "venue").mkdir(0o700)
    async with without_journal(folder) as (venue, board), asyncio.timeout(served.SECONDS):
        await venue.groups.next_round(2, venue.day.treatment(2), is_anyway=True)
        await is_tried_in_vain(venue, board, monkeypatch)
        assert halts_of(venue) == {"XYZ of round 1": SILENT} and not venue.rounds.are_seen
        samples = [sample for it in Measures(venue, Gates()).collect() for sample in it.samples]
        halts = {it.labels["instrument"]: it.value for it in samples if it.name == HALTED}
        assert halts == {"XYZ": 0, "XYZ of round 1": 1}
        assert await venue.starts.resume() == ["XYZ"]
        assert halts_of(venue) == {} and venue.rounds.are_seen
        assert board.auctions.results == ["opening no price"]
        assert board.engine.outbox.process is None
        assert await venue.starts.resume() == []

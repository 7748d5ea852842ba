"""A book with icebergs is listed once after each change of it, however often it is looked at: the
list is as long as the book.
"""
import asyncio
import pathlib
from collections.abc import Sequence

import pytest
import served
from callauction.venue.config import DayTerms, Plan
from callauction.venue.messages import OrderMessage
from callauction.venue.venue import Venue
from callauction.venue.views import Level
from listeners import Hearer

LOOKS = 5
LIST = "show,orders"


@pytest.mark.asyncio
async def test_a_book_is_listed_once_after_a_change(
    tmp_path: pathlib.Path, monkeypatch: pytest.MonkeyPatch
) -> None:
    venue = Venue(DayTerms(is_synced=False, plan=Plan(call=0)), tmp_path, served.program())
    await venue.open()
    board = venue.rounds.now.boards["XYZ"]
    member, _ = await venue.join(venue.members.codes.by_name[""], "Alice")
    venue.audience.watchers[Hearer()] = None
    board.auctions.start_call()
    show, asked = board.engine.show, list[str]()

    async def counted(views: Sequence[str]) -> list[list[str]]:
        asked.extend(views)
        return await show(views)

    async def seen_after(number: int, record: str) -> list[Level]:
        await venue.submit(member, OrderMessage(number, "XYZ", record))[0]
        await board.looks.refresh()
        asked.clear()
        await asyncio.gather(*[board.looks.refresh() for _ in range(LOOKS)])
        assert asked.count("show,ladder") >= LOOKS and LIST not in asked
        return board.looks.visible_levels

    monkeypatch.setattr(board.engine, "show", counted)
    assert await seen_after(1, "enter,bid,50,200") == [Level(200, 50, 0)]
    assert await seen_after(2, "enter,bid,100,200,30") == [Level(200, 80, 0)]
    assert await seen_after(3, "enter,ask,10,205") == [Level(205, 0, 10), Level(200, 80, 0)]
    assert [it.bid for it in board.looks.levels] == [0, 150]
    assert await seen_after(4, "delete,2") == [Level(205, 0, 10), Level(200, 50, 0)]
    await board.auctions.uncross()
    await board.looks.refresh()
    asked.clear()
    await board.looks.refresh()
    assert LIST not in asked
    await venue.close()

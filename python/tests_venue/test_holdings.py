"""What a member may enter where a round limits it, beside what isn't answered yet."""
import asyncio

import pytest
from callauction.venue import AsyncClient, VenueError
from callauction.venue.accounts import MemberFill
from callauction.venue.gains import ShareValue
from callauction.venue.holdings import Holding, Own
from callauction.venue.messages import MessageError
from callauction.venue.treatments import Limits
from rounds import VALUES, limited
from served import Served

HIGH = 1000
OWN = {1: Own("bid", 4, 200), 2: Own("bid", 2, 300), 3: Own("ask", 3, 400)}
"""Bids of 6 shares, which cost 1,400, and asks of 3."""
COVERED, MONEY = Limits(is_covered=True), Limits(money=3000)
SHARES, APART = Limits(shares=8), Limits(has_own_trades=False)


def refusal(limits: Limits, waiting: list[str], record: str, side: str = "bid") -> str:
    """Why a record is refused of a member whose value has 10 shares of a side, empty where it
    isn't.
    """
    value = ShareValue(side, 500, 10)
    holding = Holding(value, [MemberFill(1, 9, side, 1, 200)], [], OWN, waiting, HIGH)
    try:
        holding.check(limits, record)
    except MessageError as fault:
        return fault.code
    return ""


@pytest.mark.parametrize(
    "waiting, record, code",
    [
        ([], "change,1,8,200", ""),
        ([], "change,1,9,200", "not_covered"),
        (["change,2,5,300"], "change,1,5,200", ""),
        (["change,2,5,300"], "change,1,6,200", "not_covered"),
        (["change,2,5,300", "change,2,1,300"], "change,1,6,200", "not_covered"),
        (["change,2,1,300"], "change,1,8,200", ""),
        (["change,2,1,300"], "change,1,9,200", "not_covered"),
        (["change,1,1,200"], "change,1,9,200", "not_covered"),
        (["change,1,8,200"], "enter,bid,1,200", "not_covered"),
        (["delete,1"], "enter,bid,5,200", "not_covered"),
        (["enter,bid,3,200"], "change,1,5,200", ""),
        (["enter,bid,3,200"], "change,1,6,200", "not_covered"),
        (["enter,bid,3,200"], "change,7,5,200", "not_covered"),
        (["enter,bid,3,200", "change,7,1,200"], "enter,bid,1,200", "not_covered"),
        (["change,7,9,200"], "enter,bid,4,200", ""),
        ([], "change,7,99,200", ""),
        (["change,1,9,200"], "delete,1", ""),
    ],
)
def test_shares_that_a_value_covers(waiting: list[str], record: str, code: str) -> None:
    """A change that waits may still be refused: until then the larger of both counts."""
    assert refusal(COVERED, waiting, record) == code


@pytest.mark.parametrize(
    "waiting, record, code",
    [
        ([], "change,3,9,400", ""),
        ([], "change,3,10,400", "no_shares"),
        (["enter,ask,4,400"], "change,3,5,400", ""),
        (["enter,ask,4,400"], "change,3,6,400", "no_shares"),
        (["change,3,9,400"], "enter,ask,1,400", "no_shares"),
        (["change,3,1,400"], "enter,ask,7,400", "no_shares"),
        (["change,3,1,400"], "change,3,10,400", "no_shares"),
        (["enter,ask,1,400"], "change,7,9,400", "no_shares"),
    ],
)
def test_shares_that_a_member_has(waiting: list[str], record: str, code: str) -> None:
    """It has 8, and one that it bought."""
    assert refusal(SHARES, waiting, record) == code


@pytest.mark.parametrize(
    "waiting, record, code",
    [
        ([], "change,1,11,200", ""),
        ([], "change,1,12,200", "no_money"),
        ([], "change,2,2,market", ""),
        (["change,2,2,market"], "change,1,4,201", "no_money"),
        (["change,2,2,market"], "change,1,3,266", ""),
        (["change,2,7,300"], "change,1,4,176", ""),
        (["change,2,7,300"], "change,1,4,201", "no_money"),
        (["change,1,9,200"], "enter,bid,1,401", "no_money"),
        (["change,1,9,200"], "enter,bid,1,400", ""),
        (["change,1,1,1"], "change,1,12,200", "no_money"),
        (["enter,bid,1,1"], "change,7,2,market", "no_money"),
    ],
)
def test_money_that_a_member_has(waiting: list[str], record: str, code: str) -> None:
    """It has 3,000, of which it has spent 200."""
    assert refusal(MONEY, waiting, record) == code


@pytest.mark.parametrize(
    "waiting, record, code",
    [
        ([], "enter,ask,1,301", ""),
        (["change,2,2,350"], "enter,ask,1,340", "own_trade"),
        (["change,2,2,100"], "enter,ask,1,300", "own_trade"),
        (["change,3,3,310"], "change,1,4,310", "own_trade"),
        (["change,3,3,310", "change,3,3,400"], "change,1,4,310", "own_trade"),
        (["change,3,3,500"], "change,1,4,400", "own_trade"),
        (["change,3,3,500"], "change,1,4,399", ""),
        (["enter,ask,1,600"], "change,7,1,300", "own_trade"),
    ],
)
def test_orders_that_could_trade_with_each_other(
    waiting: list[str], record: str, code: str
) -> None:
    assert refusal(APART, waiting, record) == code


async def changed_at_once(venue: Served, token: str, count: int, quantity: int) -> list[str]:
    """What becomes of an order for a share, and as many changes of it and of orders that aren't
    there yet, of which none waits for the answer to another.
    """

    async def change(me: AsyncClient, order: int) -> str:
        try:
            return (await me.change(order, quantity, "2.00")).reply.partition(" ")[0]
        except VenueError as fault:
            return fault.code

    async with AsyncClient(venue.url, token) as me:
        for _ in range(count):
            await me.enter("bid", 1, "2.00")
        entering = asyncio.create_task(me.enter("bid", 1, "2.00"))
        await asyncio.sleep(0)
        orders = [*range(1, count + 1), count + 1]
        found = await asyncio.gather(*(change(me, it) for it in orders))
        await entering
        return found


def test_a_burst_of_changes_passes_no_limit(venue: Served) -> None:
    """A value covers 10 shares: of five orders of one share, one is changed to five."""
    anna = venue.join("Anna")
    venue.do("give", values=VALUES[:1])
    limited(venue, covered=True)
    found = asyncio.run(changed_at_once(venue, anna, 5, 5))
    assert found == ["changed"] + ["not_covered"] * 5

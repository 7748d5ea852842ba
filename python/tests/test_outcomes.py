"""What became of orders, and queues: worked days, and random days beside the rules."""
import callauction as words
import pandas
import pytest
from arrayed import array_of
from callauction import Restriction, Side
from callauction.outcomes import (
    HasDay,
    Played,
    Queue,
    members_of,
    outcomes_of,
    queue_of,
)
from callauction.recording import RecordedAuction
from days import EXAMPLES, auctions, commands, day_of
from hypothesis import given, settings, strategies

from checks.model import day as model
from checks.model.files import journal

KINDS = {
    "order": "int64",
    "command": "int64",
    "member": "int64",
    "side": "object",
    "quantity": "int64",
    "limit": "Int64",
    "peak": "Int64",
    "only": "object",
    "offered": "int64",
    "traded": "int64",
    "paid": "int64",
    "better": "Int64",
    "open": "int64",
    "became": "object",
}
"""The columns of outcomes: what may be missing, as an order's limit, has a type that says so."""
QUEUED = {
    "order": "int64",
    "member": "int64",
    "side": "object",
    "limit": "Int64",
    "quantity": "int64",
    "visible": "int64",
    "executed": "int64",
}
"""The columns of a queue."""
KEPT = [
    "order", "member", "side", "quantity", "offered", "traded", "paid", "better", "open", "became"
]  # fmt: skip


def example(name: str) -> list[list[object]]:
    day = day_of(next(file for file in EXAMPLES if file.stem == name))
    found = outcomes_of(day)
    cells = found[KEPT].astype("object").where(found[KEPT].notna(), None)
    return [[*row] for row in cells.itertuples(index=False)]


def test_orders_of_a_day_of_three_auctions() -> None:
    assert example("day") == [
        [1, 1, "bid", 100, 100, 100, 20_600, 400, 0, "executed"],
        [2, 2, "ask", 100, 100, 100, 20_600, 0, 0, "executed"],
        [3, 1, "bid", 30, 30, 20, 4_120, None, 10, "left"],
        [4, 2, "ask", 20, 20, 20, 4_120, None, 0, "executed"],
    ]


def test_an_interrupted_uncross_is_no_auction_of_an_order() -> None:
    assert example("interruption") == [
        [1, 1, "bid", 100, 0, 0, 0, 0, 100, "deleted"],
        [2, 2, "ask", 100, 100, 100, 20_600, 0, 0, "executed"],
        [3, 1, "bid", 100, 100, 100, 20_600, 400, 0, "executed"],
    ]


def restricted() -> RecordedAuction:
    """Orders of each restriction, one that is changed and one that loses its place."""
    auction = RecordedAuction()
    auction.enter(1, Side.BID, 50, 210, restriction=Restriction.OPENING_ONLY)
    auction.enter(1, Side.BID, 60, 220, restriction=Restriction.CLOSING_ONLY)
    auction.enter(3, Side.BID, 40, 205, peak=10)
    auction.enter(4, Side.BID, 40, 205)
    auction.change(3, 3, 30, 205)
    auction.enter(2, Side.ASK, 30, 205)
    return auction


def test_restricted_orders_lapse_or_wait() -> None:
    with restricted() as auction:
        found = queue_of(auction)
        assert [*found.orders.itertuples(index=False, name=None)] == [
            (1, 1, "bid", 210, 50, 50, 30),
            (3, 3, "bid", 205, 30, 10, 0),
            (4, 4, "bid", 205, 40, 40, 0),
            (5, 2, "ask", 205, 30, 30, 30),
        ]
        auction.uncross()
        rows = auction.outcomes().set_index("order")
        assert rows["became"].tolist() == ["lapsed", "open", "open", "open", "executed"]
        assert rows["offered"].tolist() == [50, 0, 30, 40, 30]
        assert rows.loc[3, "quantity"] == 40 and rows.loc[3, "open"] == 30
        auction.uncross()
        assert queue_of(auction).orders["order"].tolist() == [2, 3, 4]
        auction.uncross()
        assert auction.outcomes()["became"].tolist() == [
            "lapsed", "lapsed", "left", "left", "executed"
        ]


def test_members_have_a_row_each() -> None:
    found = members_of(outcomes_of(day_of(next(f for f in EXAMPLES if f.stem == "day"))))
    assert found.columns.tolist() == [
        "member", "orders", "entered", "bought", "sold", "better"
    ]
    assert found.to_numpy().tolist() == [[1, 2, 130, 120, 0, 400], [2, 2, 120, 0, 120, 0]]


def test_a_queue_is_that_before_its_uncross() -> None:
    day = day_of(next(file for file in EXAMPLES if file.stem == "day"))
    found = queue_of(day, 6)
    assert (found.command, found.auction, found.is_interrupted) == (6, "intraday", False)
    assert found.orders["executed"].tolist() == [20, 20]
    assert [*map(tuple, found.trades.tolist())] == [(20, 3, 4, 206)]
    assert found.at("bid", None)["order"].tolist() == [3] and found.at("ask", 206).empty
    for command in (0, 5, 11, 99):
        with pytest.raises(ValueError, match=f"command {command} is no uncross"):
            queue_of(day, command)
    with pytest.raises(ValueError, match="the day is over"):
        queue_of(day)


def test_an_interrupted_queue_executes_nothing() -> None:
    found = queue_of(day_of(next(f for f in EXAMPLES if f.stem == "interruption")), 3)
    assert found.is_interrupted and found.orders["executed"].tolist() == [0, 0]


def test_a_simulators_arrays_are_a_day() -> None:
    with words.Auction() as auction:
        given_commands = [(1, words.Enter(Side.BID, 7, 200)), (2, words.Enter(Side.ASK, 5))]
        array = array_of([*given_commands, (0, words.Uncross())])
        day = Played(array, auction.apply_many(array), auction.trades())
    found = outcomes_of(day)
    assert found["traded"].tolist() == [5, 5] and found["open"].tolist() == [2, 0]


def by_the_rules(auction: HasDay) -> model.Day:
    """The state of the rules after the commands of a day."""
    given_day = journal(auction.day().content.decode("ascii"))
    state = model.opened(given_day.options)
    for member, command in given_day.calls:
        state.apply(member, command)
    return state


def shares_and_paid(state: model.Day) -> tuple[list[int], list[int]]:
    """The shares that each order of a day traded, and what they were paid, by the rules."""
    shares = dict.fromkeys(range(1, state.next_id), 0)
    paid = dict(shares)
    for trade in state.tape:
        for order in (trade.bid, trade.ask):
            shares[order] += trade.quantity
            paid[order] += trade.quantity * trade.tick
    return [*shares.values()], [*paid.values()]


def check_outcomes(found: pandas.DataFrame, state: model.Day) -> None:
    """That each order of a day became what the rules give, whether the day is over or not."""
    assert {name: str(kind) for name, kind in found.dtypes.items()} == KINDS
    assert found["order"].tolist() == [*range(1, state.next_id)]
    shares, paid = shares_and_paid(state)
    assert found["traded"].tolist() == shares and found["paid"].tolist() == paid
    still = found[found["became"] == "open"].set_index("order")["open"].to_dict()
    book = {order.id: order.quantity for order in state.book.values()}
    assert still == (book if state.kind() else {})


def check_queue(queue: Queue, state: model.Day) -> None:
    """That a queue has the orders by the rules, and the trades of an uncross, which it calls."""
    assert {name: str(kind) for name, kind in queue.orders.dtypes.items()} == QUEUED
    for side in ("bid", "ask"):
        ranked = sorted((it for it in state.counted() if it.side == side), key=model.Order.rank)
        mine = queue.orders[queue.orders["side"] == side]
        assert mine["order"].tolist() == [order.id for order in ranked]
        assert mine["quantity"].tolist() == [order.quantity for order in ranked]
    seen = len(state.tape)
    state.uncross(0)
    made = state.tape[seen:]
    assert [(trade.bid, trade.ask, trade.quantity) for trade in made] == [
        (int(trade["bid"]), int(trade["ask"]), int(trade["quantity"])) for trade in queue.trades
    ]
    assert queue.orders["executed"].tolist() == [
        sum(trade.quantity for trade in made if order in (trade.bid, trade.ask))
        for order in queue.orders["order"]
    ]


GIVEN_COMMANDS = strategies.lists(commands(), max_size=40) | strategies.lists(
    commands(), min_size=20, max_size=40
)
"""The commands of a day, few or many."""


@settings(deadline=None, max_examples=60)
@given(auctions(), GIVEN_COMMANDS)
def test_random_days_agree_with_the_rules(
    auction: RecordedAuction, given_commands: list[tuple[int, words.Command]]
) -> None:
    with auction:
        for member, command in given_commands:
            auction.apply(member, command)
        state = by_the_rules(auction)
        check_outcomes(outcomes_of(auction), state)
        if state.kind():
            check_queue(queue_of(auction), state)
            return
        with pytest.raises(ValueError, match="the day is over"):
            queue_of(auction)

"""The caller's own number of an order: it is kept, given back where the order is listed, and
nothing else reads it.
"""
import numpy
import pytest
from callauction import (
    Auction,
    AuctionKind,
    Board,
    Change,
    CommandTag,
    Enter,
    RecordedAuction,
    Refused,
    Restriction,
    Side,
    commands,
)
from callauction.written import command_of

BID, ASK = Side.BID, Side.ASK
MOST = 2**64 - 1


def test_an_order_keeps_its_client() -> None:
    with Auction() as auction:
        auction.enter(1, BID, 50, 201, client=MOST)
        auction.enter(1, BID, 50, 200)
        auction.apply(2, Enter(ASK, 30, 199, client=7))
        auction.apply(1, Change(1, 60, 202))
        assert isinstance(auction.enter(1, BID, 0, client=9), Refused)
        assert auction.orders()["client"].tolist() == [MOST, 0, 7]
        with auction.copy() as copy:
            assert copy.orders(2)["client"].tolist() == [7]
        _, done = auction.uncross_orders()
        assert done["client"].tolist() == [MOST, 7] and done["filled"].tolist() == [30, 30]
        assert auction.carried_over().commands["client"].tolist() == [MOST, 0]
        auction.reset()
        auction.enter(1, BID, 5, 200)
        assert auction.orders()["client"].tolist() == [0]


def test_a_column_gives_each_order_its_client() -> None:
    made = commands(side=[BID, ASK], quantity=5, limit=200, client=[MOST, 3])
    assert made["client"].tolist() == [MOST, 3]
    with Auction() as auction:
        auction.apply_many(made)
        auction.apply_many(commands(tag=CommandTag.CHANGE, id=1, quantity=4, limit=199, client=8))
        assert auction.orders()["client"].tolist() == [MOST, 3]
    for wrong in (-1, MOST + 1, 1.5):
        with pytest.raises(ValueError, match="^client: element 0"):
            commands(side=BID, quantity=5, client=wrong)


def test_what_would_leave_has_its_client() -> None:
    with Auction() as auction:
        auction.enter(1, BID, 5, 200, None, Restriction.OPENING_ONLY, 12)
        assert auction.expiring()["client"].tolist() == [12]


def test_a_board_keeps_clients() -> None:
    with Board(3, reserve=0) as board:
        board[1].enter(BID, 50, 201, client=MOST)
        board[2].call(Enter(ASK, 30, 199, client=7))
        board[2].apply_many(commands(side=ASK, quantity=5, limit=[200, 2000], client=[8, 9]))
        board[2].enter(ASK, 5, 300)
        assert board[0].orders()["client"].tolist() == [MOST, 7, 8, 0]
        with board[1].auction() as copy:
            assert copy.orders()["client"].tolist() == [MOST, 7, 8, 0]
        board[0].uncross()
        done = board[1].uncrossed_orders(AuctionKind.OPENING)
        assert done["client"].tolist() == [MOST, 7, 8]
        for wrong in (-1, MOST + 1):
            with pytest.raises(ValueError, match="^client"):
                board[1].enter(BID, 5, client=wrong)
    assert board.day is not None
    entries = board.day.history
    assert entries["command"]["client"].tolist() == [MOST, 7, 8, 0, 0, 0]


def test_a_recorded_day_takes_clients_and_no_journal_has_them() -> None:
    with RecordedAuction() as recorded:
        recorded.enter(1, BID, 50, 201, client=5)
        day = recorded.day()
    assert day.content.splitlines()[1:] == [b"1,enter,bid,50,201,entered 1"]


def test_a_struct_is_its_command() -> None:
    order = Enter(BID, 5, 200, client=4)
    made = commands(side=BID, quantity=5, limit=200, client=4)
    assert command_of(made[0]) == order and numpy.array_equal(made["client"], [4])

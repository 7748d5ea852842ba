"""Where the day is, of auctions and of boards, beside the rules after each command."""
import pytest
from callauction import (
    Auction,
    AuctionKind,
    Board,
    ClosedError,
    Interrupted,
    RecordedAuction,
    Refused,
    Side,
    State,
    Uncrossed,
)
from printed import command_of, opened

from checks.generators import orders
from checks.model.day import Day
from checks.model.day import opened as opened_by_the_rules
from checks.model.files import FileFault, order_file

BID, ASK = Side.BID, Side.ASK


def state_by_the_rules(day: Day, calls: int, most: int) -> State:
    """Where a day of the rules is after these calls, of as many as may be."""
    kind = day.kind()
    auction = AuctionKind[kind.upper()] if kind else None
    return State(auction, day.extended, day.reference, calls, most - calls, most - calls)


def test_the_state_is_that_of_the_rules_after_each_command() -> None:
    met: set[tuple[AuctionKind | None, bool]] = set()
    for seed in range(250):
        options, text = orders.order_file("short", seed)
        try:
            calls = order_file(text, options).calls
        except FileFault:
            continue
        day, most = opened_by_the_rules(options), options["calls"]
        records = [line.split(",") for line in text.splitlines() if line]
        with opened(options) as auction:
            for count, ((member, words), fields) in enumerate(zip(calls, records), 1):
                day.apply(member, words)
                auction.apply(member, command_of(fields[1:]))
                state = auction.state()
                assert state == state_by_the_rules(day, count, most)
                assert auction.copy().state() == state
                met.add((state.auction, state.is_extended))
    assert len(met) == 7


def test_an_interruption_extends_one_call_phase() -> None:
    with Auction(range=3, max_calls=20) as auction, Auction(range=3, max_calls=20) as other:
        assert auction.state() == State(AuctionKind.OPENING, False, 200, 0, 20, 20)
        auction.enter(1, BID, 5, 204)
        auction.enter(2, ASK, 5, 204)
        assert isinstance(auction.uncross(), Interrupted)
        assert isinstance(auction.uncross(1), Refused)
        extended = State(AuctionKind.OPENING, True, 200, 4, 16, 16)
        assert auction.state() == extended
        auction.copy_into(other)
        assert other.state() == extended
        assert isinstance(other.uncross(), Uncrossed)
        assert other.state() == State(AuctionKind.INTRADAY, False, 204, 5, 15, 15)
        auction.reset()
        assert auction.state() == State(AuctionKind.OPENING, False, 200, 0, 20, 20)


def test_after_the_day_there_is_no_auction() -> None:
    with RecordedAuction(max_calls=3) as auction:
        for _ in range(3):
            auction.uncross()
        assert auction.state() == State(None, False, 200, 3, 0, 0)
    with pytest.raises(ClosedError):
        auction.state()


def test_a_member_sees_where_the_board_is() -> None:
    board = Board(3, range=3, max_calls=9, reserve=6)
    assert board[2].state() == State(AuctionKind.OPENING, False, 200, 0, 9, 3)
    board[1].enter(BID, 5, 204)
    board[2].enter(ASK, 5, 204)
    assert isinstance(board[0].uncross().reply, Interrupted)
    for member in board.members:
        assert member.state() == State(AuctionKind.OPENING, True, 200, 3, 6, 0)
    assert isinstance(board[0].uncross().reply, Uncrossed)
    assert board[1].state() == State(AuctionKind.INTRADAY, False, 204, 4, 5, 0)
    board.close()
    with pytest.raises(ClosedError):
        board[1].state()

"""Each call of an auction, with worked results, and every refusal."""
import copy
import pickle
from collections.abc import Callable

import numpy
import pytest
from callauction import (
    Auction,
    AuctionKind,
    Change,
    Changed,
    Command,
    Config,
    Delete,
    Deleted,
    Enter,
    Entered,
    FullError,
    Indicate,
    Interrupted,
    MarketOrders,
    NoPrice,
    OpenOrder,
    OrderStatus,
    Price,
    ReadTrade,
    Refusal,
    Refused,
    RefusedError,
    Restriction,
    Side,
    Traded,
    Uncross,
    Uncrossed,
)

BID, ASK = Side.BID, Side.ASK


def test_each_method_gives_its_reply_over_a_day() -> None:
    with Auction() as auction:
        assert auction.enter(1, BID, 500, limit=200) == Entered(1)
        assert auction.indicate(3) == NoPrice(200, None)
        assert auction.enter(2, ASK, 300, 200) == Entered(2)
        assert auction.indicate(3) == Price(200, 300, 200, BID)
        assert auction.order_status(1, 1) == OpenOrder(BID, 500, 200, 500)
        assert auction.change(1, 1, 400, limit=200) == Changed(True)
        assert auction.change(1, 1, 400, limit=201) == Changed(False)
        assert auction.uncross() == Uncrossed(AuctionKind.OPENING, Price(201, 300, 100, BID), 1)
        assert auction.read_trade(3, 1) == Traded(bid=1, ask=2, quantity=300, tick=201)
        assert auction.delete(1, 1) == Deleted()
        assert auction.uncross(0) == Uncrossed(AuctionKind.INTRADAY, None, 0)
        assert auction.calls == 11
        assert not auction.is_full


def test_apply_takes_each_command() -> None:
    with Auction() as auction:
        enter = Enter(side=BID, quantity=10, limit=7, peak=3, restriction=Restriction.CLOSING_ONLY)
        assert auction.apply(1, enter) == Entered(1)
        assert auction.apply(1, OrderStatus(1)) == OpenOrder(BID, 10, 7, 3)
        assert auction.apply(1, Change(1, 9, 7)) == Changed(True)
        assert auction.apply(1, Indicate()) == NoPrice(None, None)
        assert auction.apply(1, Delete(1)) == Deleted()
        assert auction.apply(1, ReadTrade(1)) == Refused(Refusal.NO_SUCH_TRADE)
        assert auction.apply(0, Uncross()) == Uncrossed(AuctionKind.OPENING, None, 0)


def test_a_market_order_and_an_iceberg_order() -> None:
    with Auction() as auction:
        auction.enter(1, ASK, 70)
        auction.enter(1, BID, 90, 5, peak=40)
        assert auction.order_status(1, 1) == OpenOrder(ASK, 70, None, 70)
        assert auction.order_status(1, 2) == OpenOrder(BID, 90, 5, 40)
        assert auction.market_orders() == MarketOrders(bids=0, asks=70)


def test_an_interrupted_uncross_executes_at_the_next() -> None:
    with Auction(range=5) as auction:
        auction.enter(1, BID, 10, 206)
        auction.enter(1, ASK, 10, 206)
        price = Price(206, 10, 0, Side.NONE)
        assert auction.uncross() == Interrupted(price)
        assert auction.uncross() == Uncrossed(AuctionKind.OPENING, price, 1)


def ended() -> Auction:
    """An auction after its day."""
    auction = Auction()
    for _ in range(3):
        auction.uncross(check=True)
    return auction


def with_orders() -> Auction:
    """Room for two orders; the first is an iceberg order of member 1."""
    auction = Auction(max_open=2)
    auction.enter(1, BID, 10, 5, peak=2, check=True)
    auction.enter(2, BID, 10, 5, check=True)
    return auction


def after_the_opening() -> Auction:
    auction = Auction()
    auction.uncross(check=True)
    return auction


Opening = Callable[[], Auction]
REFUSED: list[tuple[Opening, int, Command, Refusal]] = [
    (Auction, 1, Enter(BID, 0, 5), Refusal.BAD_QUANTITY),
    (Auction, 1, Enter(BID, 1_000_000_001, 5), Refusal.BAD_QUANTITY),
    (Auction, 1, Enter(BID, 2**64 - 1, 5), Refusal.BAD_QUANTITY),
    (Auction, 1, Change(1, 0, 5), Refusal.BAD_QUANTITY),
    (Auction, 1, Enter(BID, 10, 0), Refusal.BAD_LIMIT),
    (Auction, 1, Enter(ASK, 10, 1001), Refusal.BAD_LIMIT),
    (Auction, 1, Enter(ASK, 10, 2**32 - 1), Refusal.BAD_LIMIT),
    (Auction, 1, Change(1, 10, 1001), Refusal.BAD_LIMIT),
    (Auction, 1, Enter(BID, 10, 5, peak=0), Refusal.BAD_PEAK),
    (Auction, 1, Enter(BID, 10, 5, peak=11), Refusal.BAD_PEAK),
    (Auction, 1, Enter(BID, 10, None, peak=5), Refusal.BAD_PEAK),
    (with_orders, 1, Change(1, 10, None), Refusal.BAD_PEAK),
    (with_orders, 1, Enter(BID, 10, 5), Refusal.BOOK_FULL),
    (with_orders, 2, Delete(1), Refusal.UNKNOWN_ORDER),
    (with_orders, 1, Delete(0), Refusal.UNKNOWN_ORDER),
    (with_orders, 1, Delete(3), Refusal.UNKNOWN_ORDER),
    (with_orders, 2, OrderStatus(1), Refusal.UNKNOWN_ORDER),
    (with_orders, 2, Change(1, 5, 5), Refusal.UNKNOWN_ORDER),
    (Auction, 1, Uncross(), Refusal.NOT_OPERATOR),
    (Auction, 255, Uncross(), Refusal.NOT_OPERATOR),
    (ended, 1, Enter(BID, 10, 5), Refusal.DAY_OVER),
    (ended, 1, Change(1, 10, 5), Refusal.DAY_OVER),
    (ended, 1, Delete(1), Refusal.DAY_OVER),
    (ended, 1, Indicate(), Refusal.DAY_OVER),
    (ended, 0, Uncross(), Refusal.DAY_OVER),
    (Auction, 1, ReadTrade(0), Refusal.NO_SUCH_TRADE),
    (Auction, 1, ReadTrade(1), Refusal.NO_SUCH_TRADE),
    (
        after_the_opening,
        1,
        Enter(BID, 10, 5, restriction=Restriction.OPENING_ONLY),
        Refusal.PAST_AUCTION,
    ),
]


@pytest.mark.parametrize("opened, member, command, refusal", REFUSED)
def test_each_refusal_is_a_value(
    opened: Opening, member: int, command: Command, refusal: Refusal
) -> None:
    with opened() as auction:
        calls, ladder, shown = auction.calls, auction.ladder(), auction.display()
        assert auction.apply(member, command) == Refused(refusal)
        assert auction.calls == calls + 1
        assert numpy.array_equal(auction.ladder(), ladder)
        assert auction.display() == shown


@pytest.mark.parametrize("opened, member, command, refusal", REFUSED)
def test_each_refusal_is_raised_with_check(
    opened: Opening, member: int, command: Command, refusal: Refusal
) -> None:
    with opened() as auction:
        calls = auction.calls
        with pytest.raises(RefusedError, match=f"refused {refusal.value} {refusal.name}") as raised:
            auction.apply(member, command, check=True)
        assert raised.value.refusal is refusal
        assert auction.calls == calls + 1


def test_each_refusal_stands_in_the_list() -> None:
    assert {refusal for *_, refusal in REFUSED} == set(Refusal)


def test_every_method_raises_with_check() -> None:
    with ended() as auction:
        calls: list[Callable[[], object]] = [
            lambda: auction.enter(1, BID, 1, check=True),
            lambda: auction.change(1, 1, 1, check=True),
            lambda: auction.delete(1, 1, check=True),
            lambda: auction.order_status(1, 1, check=True),
            lambda: auction.indicate(1, check=True),
            lambda: auction.read_trade(1, 1, check=True),
            lambda: auction.uncross(check=True),
        ]
        for call in calls:
            with pytest.raises(RefusedError):
                call()


def test_the_display_counts_no_call_and_works_after_the_day() -> None:
    with ended() as auction:
        assert auction.display() == NoPrice(None, None)
        assert auction.calls == 3


def test_a_ladder_has_the_orders_that_count() -> None:
    with Auction(low=10, high=13, reference=11) as auction:
        auction.enter(1, BID, 5, 10)
        auction.enter(1, BID, 6, 12)
        auction.enter(1, ASK, 7, 13)
        auction.enter(1, ASK, 8)
        auction.enter(1, ASK, 100, 13, restriction=Restriction.CLOSING_ONLY)
        bids, asks = auction.ladder()
        assert bids.dtype == asks.dtype == numpy.uint64
        assert bids.tolist() == [5, 0, 6, 0]
        assert asks.tolist() == [0, 0, 0, 7]
        assert auction.market_orders() == MarketOrders(0, 8)


@pytest.mark.parametrize("count", [0, 1, 1023, 1024, 1025, 2048, 3000])
def test_trades_are_listed_whatever_their_number(count: int) -> None:
    with Auction() as auction:
        for _ in range(count):
            auction.enter(1, BID, 1)
        auction.enter(2, ASK, count + 1)
        auction.uncross(check=True)
        trades = auction.trades()
        assert trades["bid"].tolist() == [*range(1, count + 1)]
        assert set(trades["ask"]) <= {count + 1}
        assert set(trades["quantity"]) <= {1} and set(trades["tick"]) <= {200}
        assert numpy.array_equal(auction.trades(count // 2), trades[count // 2 :])
        assert len(auction.trades(count)) == len(auction.trades(2**63 - 1)) == 0


def test_a_config_is_what_was_given_or_the_default() -> None:
    with Auction(2, 9, 5, 3, 4, 1) as auction:
        assert auction.config == Config(2, 9, 5, 3, 4, 1)
    with Auction() as auction:
        assert auction.config == Config(1, 1000, 200, 4096, 65536, None, 0)


def test_a_full_auction_raises_and_stays() -> None:
    with Auction(max_calls=2) as auction:
        auction.enter(1, BID, 5, 5)
        assert not auction.is_full
        auction.delete(2, 1)
        assert auction.is_full and auction.calls == 2
        for call in (lambda: auction.indicate(1), lambda: auction.enter(1, BID, 5, 5)):
            with pytest.raises(FullError) as raised:
                call()
            assert raised.value.applied == 0 and raised.value.replies is None
        assert auction.calls == 2
        assert auction.display() == NoPrice(5, None)


def test_the_last_calls_are_the_operators() -> None:
    with Auction(max_calls=5, reserve=3) as auction, Auction(max_calls=5) as other:
        assert auction.state().calls_left_to_members == 2
        auction.indicate(1)
        auction.copy_into(other)
        copies = [auction.copy(), copy.deepcopy(auction), other]
        for opened in (auction, *copies):
            opened.enter(2, BID, 5, 5)
            with pytest.raises(FullError, match="^no call is left to the member$"):
                opened.indicate(1)
            with pytest.raises(FullError):
                opened.uncross(255)
            assert opened.config.reserve == 3 and opened.calls == 2 and not opened.is_full
            assert (opened.state().calls_left, opened.state().calls_left_to_members) == (3, 0)
            for _ in range(3):
                assert isinstance(opened.uncross(), Uncrossed)
            with pytest.raises(FullError):
                opened.uncross()
        auction.reset()
        assert auction.config.reserve == 3 and auction.state().calls_left_to_members == 2


@pytest.mark.parametrize("copied", [Auction.copy, copy.copy, copy.deepcopy])
def test_a_copy_stands_by_itself(copied: Callable[[Auction], Auction]) -> None:
    with Auction() as auction:
        auction.enter(1, BID, 5, 100)
        with copied(auction) as other:
            assert other.config == auction.config and other.calls == 1
            assert other.enter(1, ASK, 5, 100) == Entered(2)
            assert other.uncross() == Uncrossed(AuctionKind.OPENING, Price(100, 5, 0, Side.NONE), 1)
            assert auction.display() == NoPrice(100, None)
            auction.close()
            assert other.calls == 3


def test_a_copy_of_a_subclass_is_of_it() -> None:
    class Named(Auction):
        """One with a word of its own."""

    with Named() as auction, auction.copy() as other:
        assert type(other) is Named


class Traced(Auction):
    """One that keeps what it was given, in its slot and its attributes."""

    __slots__ = ("count", "__dict__")

    def __init__(self, log: list[int], **numbers: int) -> None:
        super().__init__(**numbers)
        self.log, self.count, self.own = log, 0, self

    def delete(self, member: int, id: int, *, check: bool = False) -> Deleted | Refused:
        """As Auction, and logs the id."""
        self.log.append(id)
        self.count += 1
        return super().delete(member, id, check=check)


def test_a_copy_keeps_what_a_subclass_keeps() -> None:
    with Traced([], high=300) as auction:
        auction.delete(1, 7)
        shallow, deep = auction.copy(), copy.deepcopy(auction)
        assert type(shallow) is type(deep) is Traced
        assert shallow.log is auction.log and shallow.own is auction
        assert deep.log == [7] and deep.log is not auction.log and deep.own is deep
        shallow.delete(1, 8)
        deep.delete(1, 9)
        assert (auction.log, deep.log) == ([7, 8], [7, 9])
        assert (auction.count, shallow.count, deep.count) == (1, 2, 2)
        assert auction.calls == 1 and shallow.calls == deep.calls == 2
        assert copy.copy(auction).config.high == 300


def test_an_auction_isnt_pickled() -> None:
    with pytest.raises(TypeError, match="^an Auction can't be pickled: pickle its commands, and"):
        pickle.dumps(Auction())


def test_a_reset_gives_the_opening_again() -> None:
    with Auction(max_calls=3, reference=50) as auction:
        auction.enter(1, BID, 5)
        auction.enter(1, ASK, 5, 70)
        auction.uncross()
        auction.reset()
        assert auction.calls == 0 and len(auction.trades()) == 0
        assert auction.display() == NoPrice(None, None)
        assert auction.enter(1, BID, 5) == Entered(1)
        assert auction.enter(1, ASK, 5) == Entered(2)
        assert auction.indicate(1) == Price(50, 5, 0, Side.NONE)


def test_results_are_frozen_and_hashed() -> None:
    price = Price(1, 2, 3, BID)
    with pytest.raises(AttributeError):
        price.tick = 5  # type: ignore[misc]
    assert len({price, Price(1, 2, 3, BID), Entered(1)}) == 2
    assert pickle.loads(pickle.dumps(price)) == price

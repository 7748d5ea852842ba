"""Values and gains: worked auctions, and the most that was possible beside share by share."""
import itertools

import callauction
import pandas
import pytest
from callauction import RecordedAuction, Side
from callauction.gains import gains_of, most_possible
from days import EXAMPLES, day_of
from hypothesis import given, settings, strategies

BID, ASK = Side.BID, Side.ASK


def test_a_worked_auction_has_its_gains() -> None:
    with RecordedAuction() as auction:
        auction.enter(1, BID, 100, 206)
        auction.enter(2, ASK, 100, 200)
        auction.enter(3, BID, 50, 203)
        auction.uncross()
        found = gains_of(auction, {1: 210, 2: 195})
    # The price is 206: 100 shares and no surplus, while 200 and 203 leave 50.
    assert found.orders.columns.tolist() == [
        "order", "member", "side", "value", "offered", "traded", "gain"
    ]
    assert found.orders["value"].tolist() == [210, 195, 203]
    assert found.orders["gain"].tolist() == [400, 1100, 0]
    assert found.members.columns.tolist() == ["member", "bought", "sold", "gain"]
    assert found.members.to_numpy().tolist() == [[1, 100, 0, 400], [2, 0, 100, 1100], [3, 0, 0, 0]]
    assert (found.total, found.possible, found.efficiency) == (1500, 1500, 1)
    assert str(found) == "gain 1,500 of 1,500 possible, efficiency 100.0%"


def test_the_wrong_buyer_loses_what_was_possible() -> None:
    with RecordedAuction() as auction:
        auction.enter(1, BID, 10)
        auction.enter(2, BID, 10, 205)
        auction.enter(3, ASK, 10, 200)
        auction.uncross()
        found = gains_of(auction, pandas.Series({1: 190.5, 2: 208}))
    # At 205 the market order buys: it is worth 14.5 less than what it pays, the seller gets 5 more.
    assert found.orders["gain"].tolist() == [-145, 0, 50]
    assert (found.total, found.possible, found.efficiency) == (-95, 80, -95 / 80)
    assert str(found) == "gain -95 of 80 possible, efficiency -118.8%"


def test_shares_of_all_auctions_of_a_day_are_matched() -> None:
    # Order 3, at market, is worth 208 and order 4 204; all of these trade at 206.
    day = day_of(next(file for file in EXAMPLES if file.stem == "day"))
    found = gains_of(day, {3: 208, 4: 204})
    assert found.orders["gain"].tolist() == [400, 0, 40, 40]
    # Possible: 20 shares at 210 from 204, 80 at 210 from 206, 20 at 208 from 206.
    assert found.possible == 20 * 6 + 80 * 4 + 20 * 2 == found.total


def test_nothing_possible_has_no_efficiency() -> None:
    with RecordedAuction() as auction:
        auction.enter(1, BID, 10, 190)
        auction.enter(2, ASK, 10, 200)
        assert gains_of(auction, {}).possible == 0
        auction.uncross()
        found = gains_of(auction, {})
    assert (found.total, found.possible, found.efficiency) == (0, 0, None)
    assert str(found) == "gain 0 of 0 possible"
    with RecordedAuction() as empty:
        assert gains_of(empty, {}).total == 0


def test_bad_values_are_named() -> None:
    with RecordedAuction() as auction:
        auction.enter(1, BID, 10)
        with pytest.raises(ValueError, match="values: market order 1 has none"):
            callauction.gains_of(auction, {2: 5})
        with pytest.raises(ValueError, match="values: that of order 1, inf, is no finite number"):
            callauction.gains_of(auction, {1: float("inf")})


def by_share(bids: list[tuple[int, int]], asks: list[tuple[int, int]]) -> int:
    """The greatest gain, share by share: the best bid with the best ask, and so on."""
    values = sorted(itertools.chain.from_iterable([v] * n for v, n in bids), reverse=True)
    costs = sorted(itertools.chain.from_iterable([v] * n for v, n in asks))
    return sum(max(0, value - cost) for value, cost in zip(values, costs))


SIDES = strategies.lists(
    strategies.tuples(strategies.integers(190, 210), strategies.integers(0, 5)), max_size=6
)


@settings(deadline=None)
@given(SIDES, SIDES)
def test_the_most_possible_gain_is_that_share_by_share(
    bids: list[tuple[int, int]], asks: list[tuple[int, int]]
) -> None:
    rows = [("bid", *row) for row in bids] + [("ask", *row) for row in asks]
    orders = pandas.DataFrame(rows, columns=["side", "value", "offered"])
    assert most_possible(orders) == by_share(bids, asks)

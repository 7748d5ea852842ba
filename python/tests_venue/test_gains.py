"""Gains beside a count share by share, and efficiency beside all that a class could have traded."""
import collections
import dataclasses
import itertools
from collections.abc import Sequence

import pytest
from callauction.venue.accounts import Accounts, MemberFill
from callauction.venue.gains import (
    Predicted, ShareValue, Uncovered, gain_in_ticks, most_gain, predicted,
)
from hypothesis import given
from hypothesis import strategies as st

HIGH = 12
UNCOVERED = Uncovered(0, HIGH)
SIDES = st.sampled_from(["bid", "ask"])
VALUES = st.builds(ShareValue, SIDES, st.integers(1, HIGH), st.integers(1, 5))
Deal = tuple[int, int, int, int]
"""A trade: the places of its buyer and its seller, its shares and its tick."""
Class = tuple[list[ShareValue | None], list[Deal]]
"""The values of members, and their trades."""


@given(st.lists(VALUES, max_size=6))
def test_the_most_gain_is_that_of_shares_in_their_order(values: list[ShareValue]) -> None:
    bids = sorted((it.tick for it in values if it.side == "bid" for _ in range(it.quantity)))
    asks = sorted((it.tick for it in values if it.side == "ask" for _ in range(it.quantity)))
    pairs = itertools.takewhile(lambda it: it[0] > it[1], zip(reversed(bids), asks))
    assert most_gain(values) == sum(bid - ask for bid, ask in pairs)


def test_a_share_gains_the_difference_of_its_value_and_its_price() -> None:
    bid, ask = ShareValue("bid", 600, 100), ShareValue("ask", 400, 100)
    high = Uncovered(0, 1000)
    assert gain_in_ticks(bid, [("bid", 60, 540), ("bid", 40, 500)], high) == 60 * 60 + 40 * 100
    assert gain_in_ticks(ask, [("ask", 10, 700)], high) == 10 * 300
    assert gain_in_ticks(bid, [("bid", 10, 650)], high) == -500
    assert gain_in_ticks(bid, [], high) == 0


def test_what_no_value_covers_costs() -> None:
    bid, ask = ShareValue("bid", 600, 100), ShareValue("ask", 400, 100)
    high = Uncovered(0, 1000)
    assert gain_in_ticks(bid, [("bid", 150, 500)], high) == 100 * 100 - 50 * 500
    assert gain_in_ticks(bid, [("ask", 10, 500)], high) == 10 * (500 - 1000)
    assert gain_in_ticks(ask, [("ask", 110, 500)], high) == 100 * 100 + 10 * (500 - 1000)
    assert gain_in_ticks(ask, [("bid", 10, 500)], high) == -10 * 500
    assert gain_in_ticks(None, [("bid", 10, 500)], high) == -10 * 500
    assert gain_in_ticks(None, [("ask", 10, 500)], high) == 10 * (500 - 1000)
    assert gain_in_ticks(None, [("ask", 10, 500)], Uncovered(300, 700)) == 10 * (500 - 700)
    assert gain_in_ticks(bid, [("bid", 110, 500)], Uncovered(300, 700)) == 100 * 100 - 10 * 200


def test_what_one_buys_and_sells_again_is_no_loss() -> None:
    bid = ShareValue("bid", 600, 100)
    fills = [("bid", 150, 500), ("ask", 50, 540)]
    assert gain_in_ticks(bid, fills, UNCOVERED) == 100 * 100 + 50 * 40
    itself = [("bid", 190, 10), ("ask", 190, 10)]
    assert gain_in_ticks(ShareValue("ask", 4, 100), itself, UNCOVERED) == 0


def worth(value: ShareValue | None, shares: int) -> int:
    """What a member's shares are worth, one by one."""
    covered = value.quantity if value else 0
    found = 0
    for place in range(abs(shares)):
        is_own = value is not None and value.side == ("bid" if shares > 0 else "ask")
        tick = value.tick if value and is_own and place < covered else 0 if shares > 0 else HIGH
        found += tick if shares > 0 else -tick
    return found


def best_of_all(values: Sequence[ShareValue | None], most: int) -> int:
    """The greatest worth of all ways in which the members could have traded shares."""
    ways = itertools.product(range(-most, most + 1), repeat=len(values))
    return max(sum(map(worth, values, way)) for way in ways if sum(way) == 0)


@given(st.lists(st.none() | st.builds(ShareValue, SIDES, st.integers(0, HIGH), st.integers(1, 2)),
                min_size=1, max_size=4))
def test_the_most_gain_is_that_of_all_ways_to_trade(values: list[ShareValue | None]) -> None:
    assert most_gain([it for it in values if it]) == best_of_all(values, 5)


@st.composite
def classes(draw: st.DrawFn) -> Class:
    """A class and its trades, most of which make no sense."""
    values = draw(st.lists(st.none() | VALUES, min_size=1, max_size=6))
    place = st.integers(0, len(values) - 1)
    deals = st.tuples(place, place, st.integers(1, 9), st.integers(1, HIGH))
    return values, draw(st.lists(deals, max_size=12))


def fills_of(deals: Sequence[Deal], member: int) -> list[MemberFill]:
    """A member's fills."""
    found = []
    for number, (buyer, seller, quantity, tick) in enumerate(deals, 1):
        found += [MemberFill(number, 1, "bid", quantity, tick)] * (buyer == member)
        found += [MemberFill(number, 2, "ask", quantity, tick)] * (seller == member)
    return found


@given(classes())
def test_no_class_gains_more_than_was_possible(given: Class) -> None:
    values, deals = given
    total = 0
    for place, value in enumerate(values):
        fills = ((it.side, it.quantity, it.tick) for it in fills_of(deals, place))
        total += gain_in_ticks(value, fills, UNCOVERED)
    assert total <= most_gain([it for it in values if it])


@given(st.lists(st.tuples(st.booleans(), classes()), min_size=1, max_size=4))
def test_nor_where_values_change(given: list[tuple[bool, Class]]) -> None:
    """Values come to all, or to some, between trades."""
    accounts, deals = Accounts(UNCOVERED), list[Deal]()
    for is_to_all, (values, more) in given:
        handed = {str(place): value for place, value in enumerate(values) if value}
        accounts.give(handed, is_to_all, len(deals))
        deals += more
    accounts.fills = {str(place): fills_of(deals, place) for place in range(6)}
    assert accounts.gain <= accounts.most


@given(classes(), st.sets(st.integers(0, 5)), st.integers(0, 12))
def test_nor_where_members_leave(given: Class, leavers: set[int], before: int) -> None:
    """What is possible without them is never less than what all gain, and never more than with
    them.
    """
    values, deals = given
    accounts = Accounts(UNCOVERED)
    accounts.give({str(place): it for place, it in enumerate(values) if it}, True, 0)

    def most(trades: int) -> int:
        accounts.fills = {str(place): fills_of(deals[:trades], place) for place in range(6)}
        return accounts.most

    of_all = most(len(deals))
    for place in leavers:
        accounts.leave(str(place))
    assert most(len(deals)) <= of_all and accounts.gain <= accounts.most
    there = [it for place, it in enumerate(values) if it and place not in leavers]
    assert most(0) == most_gain(there)
    for place in leavers:
        accounts.come_back(str(place))
    assert most(before) == of_all


def within(deals: Sequence[Deal], shares: int) -> list[Deal]:
    """Of these trades, one after the other, those whose seller has the shares to sell."""
    found: list[Deal] = []
    held: collections.Counter[int] = collections.Counter()
    for buyer, seller, quantity, tick in deals:
        if buyer == seller or shares + held[seller] >= quantity:
            found.append((buyer, seller, quantity, tick))
            held[buyer] += quantity
            held[seller] -= quantity
    return found


@given(st.lists(st.tuples(st.booleans(), classes()), min_size=1, max_size=4), st.integers(0, 6))
def test_nor_where_each_has_some_shares_to_sell(
    given: list[tuple[bool, Class]], shares: int
) -> None:
    """And no less than without, where that is no limit."""
    accounts, free, deals = Accounts(UNCOVERED, shares), Accounts(UNCOVERED), list[Deal]()
    for is_to_all, (values, more) in given:
        handed = {str(place): value for place, value in enumerate(values) if value}
        for each in (accounts, free):
            each.give(handed, is_to_all, len(deals))
        deals = within(deals + more, shares)
    for each in (accounts, free):
        each.fills = {str(place): fills_of(deals, place) for place in range(6)}
    assert accounts.gain <= accounts.most <= free.most
    accounts.shares = 1000
    assert accounts.most == free.most


@given(st.lists(VALUES, min_size=1, max_size=4), st.integers(0, 3))
def test_the_most_that_some_shares_allow(values: list[ShareValue], shares: int) -> None:
    """That of all ways to trade in which nobody sells more."""
    values = [dataclasses.replace(it, quantity=min(it.quantity, 2)) for it in values]
    accounts = Accounts(UNCOVERED, shares)
    accounts.give({str(place): it for place, it in enumerate(values)}, True, 0)
    ways = itertools.product(range(-min(shares, 5), 6), repeat=len(values))
    best = max(sum(map(worth, values, way)) for way in ways if sum(way) == 0)
    assert accounts.most == best


def test_efficiency_where_each_has_five_shares_to_sell() -> None:
    """By hand, in cents. Bert may sell five: two to Carl, who gains 300 with each, three to Anna,
    200 with each. He sells five to Anna instead. Then Carl sells her one: his value covers no share
    that he sells, so that costs the highest price, 1000.
    """
    accounts = Accounts(Uncovered(0, 1000), 5)
    anna, bert = ShareValue("bid", 300, 10), ShareValue("ask", 100, 10)
    carl = ShareValue("bid", 400, 2)
    accounts.give({"Anna": anna, "Bert": bert, "Carl": carl}, True, 0)
    assert accounts.most == 2 * (400 - 100) + 3 * (300 - 100) == 1200
    assert accounts.predicted == Predicted(300, 300, 5, 5)
    accounts.fills = {
        "Anna": [MemberFill(1, 1, "bid", 5, 200)],
        "Bert": [MemberFill(1, 2, "ask", 5, 200)],
    }
    assert accounts.gain == 5 * (300 - 200) + 5 * (200 - 100) == 1000
    accounts.fills["Anna"].append(MemberFill(2, 3, "bid", 1, 200))
    accounts.fills["Carl"] = [MemberFill(2, 4, "ask", 1, 200)]
    assert accounts.gain == 1000 + (300 - 200) + (200 - 1000) == 300
    accounts.shares = None
    assert accounts.most == 2 * (400 - 100) + 8 * (300 - 100) == 2200
    accounts.shares = 5
    accounts.give({"Bert": bert, "Carl": carl}, True, 2)  # Bert has nothing left to sell
    assert accounts.most == 1200


def test_the_value_of_who_left_counts_as_far_as_it_was_used() -> None:
    accounts = Accounts(UNCOVERED)
    accounts.give({"Anna": ShareValue("ask", 2, 5), "Robot": ShareValue("bid", 9, 5)}, True, 0)
    fills = {"Anna": [MemberFill(1, 1, "ask", 2, 4)], "Robot": [MemberFill(1, 2, "bid", 2, 4)]}
    accounts.fills = fills
    assert accounts.most == 5 * 7
    accounts.leave("Robot")
    assert accounts.most == 2 * 7
    assert accounts.predicted == Predicted(2, 2, 2, 2)
    accounts.fills = {}
    assert accounts.predicted is None
    accounts.fills = fills
    accounts.give({"Anna": ShareValue("ask", 3, 5), "Bert": ShareValue("bid", 5, 1)}, True, 1)
    assert accounts.most == 2 * 7 + 2
    accounts.come_back("Robot")
    assert accounts.most == 2 * 7 + 2


@given(st.lists(VALUES, max_size=6))
def test_the_predicted_prices_are_those_at_which_most_gain(values: list[ShareValue]) -> None:
    """At each of them, and at no other, who trades may all be willing, and nobody else is."""
    found = predicted(values)
    if found is None:
        assert most_gain(values) == 0
        return

    def shares(side: str, tick: int, is_more: bool) -> int:
        sign = 1 if side == "bid" else -1
        least = 1 if is_more else 0
        return sum(it.quantity for it in values
                   if it.side == side and sign * (it.tick - tick) >= least)

    volume = found.volume

    def clears(tick: int) -> bool:
        sides = [(shares(side, tick, True), shares(side, tick, False)) for side in ("bid", "ask")]
        return max(least for least, _ in sides) <= volume <= min(most for _, most in sides)

    ticks = {it.tick for it in values}
    assert {tick for tick in ticks if clears(tick)} == {
        tick for tick in ticks if found.low <= tick <= found.high
    }
    assert clears(found.low) and clears(found.high)
    assert found.most == max(
        min(shares(side, tick, False) for side in ("bid", "ask"))
        for tick in range(found.low, found.high + 1)
    )


def test_who_gains_nothing_may_trade_or_not() -> None:
    """Values of 30 to 21 and costs of 18 to 27, of 50 shares each, meet at 24: six of each gain
    there, and the seventh of each has 24 itself.
    """
    bids = [ShareValue("bid", tick, 50) for tick in range(21, 31)]
    asks = [ShareValue("ask", tick, 50) for tick in range(18, 28)]
    assert predicted([*bids, *asks]) == Predicted(24, 24, 6 * 50, 7 * 50)


def test_a_hand_out_to_all_keeps_what_was_gained() -> None:
    accounts = Accounts(UNCOVERED)
    accounts.fills["Anna"] = [MemberFill(1, 1, "bid", 5, 4), MemberFill(2, 3, "bid", 5, 4)]
    assert (accounts.has_values, accounts.gain_of("Anna")) == (False, 0)
    accounts.give({"Anna": ShareValue("bid", 6, 5)}, True, 1)
    assert accounts.gain_of("Anna") == 10
    accounts.give({"Anna": ShareValue("bid", 12, 5)}, True, 2)
    accounts.fills["Anna"].append(MemberFill(3, 4, "bid", 1, 4))
    assert (accounts.gain_of("Anna"), accounts.most) == (10 + 8, 0)


def test_how_many_shares_a_value_still_covers() -> None:
    accounts = Accounts(UNCOVERED)
    fills = [
        MemberFill(1, 1, "ask", 3, 4),
        MemberFill(2, 3, "ask", 4, 4),
        MemberFill(3, 5, "bid", 1, 4),
    ]
    accounts.fills["Anna"] = fills
    assert accounts.left_of("Anna") is None
    accounts.give({"Anna": ShareValue("ask", 2, 5)}, True, 1)
    assert accounts.left_of("Anna") == 2
    fills.append(MemberFill(4, 7, "ask", 9, 4))
    assert accounts.left_of("Anna") == 0


def test_a_value_that_comes_late_counts_for_its_period() -> None:
    accounts = Accounts(UNCOVERED)
    accounts.give({"Anna": ShareValue("ask", 2, 5)}, True, 0)
    accounts.fills["Bert"] = [MemberFill(1, 1, "bid", 5, 4)]
    assert accounts.gain_of("Bert") == -20
    accounts.give({"Bert": ShareValue("bid", 6, 5)}, False, 1)
    assert (accounts.gain_of("Bert"), accounts.most) == (10, 20)


@pytest.mark.parametrize("tick, is_covered", [(2, False), (3, True), (7, True), (8, False)])
def test_a_value_lies_where_others_cant_gain_of_nothing(tick: int, is_covered: bool) -> None:
    assert Uncovered(3, 7).covers(tick) == is_covered

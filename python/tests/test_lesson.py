"""What the lessons use: exercises that look at what was to be kept, and what a slider shows."""
import base64
import fractions
import re
from typing import Any
from unittest import mock

import hypothesis
import matplotlib.pyplot as pyplot
import numpy
import pytest
from callauction import Refusal, Refused, RefusedError
from callauction.lesson import (
    ASK,
    BID,
    Exercise,
    Experiment,
    auction_of,
    executed,
    said,
    show,
    slide,
)
from callauction.lesson_slider import draw_moved, moved, slider_of
from hypothesis import strategies

BOOK = [(BID, 200, 202), (BID, 100, 201), (ASK, 150, 199)]
SINGLE = Exercise(kept=BOOK, price=201, rule="single")


def test_an_auction_has_a_member_for_each_order() -> None:
    with auction_of(*BOOK, (ASK, 5, None), reference=150) as auction:
        assert auction.journal()["member"].tolist() == [1, 2, 3, 4]
        assert auction.config.reference == 150 and auction.config.range is None
        assert show(auction) == auction.explain()
    with pytest.raises(RefusedError):
        auction_of((BID, 0, 200))
    pyplot.close("all")


def test_a_right_answer_solves_an_exercise() -> None:
    assert SINGLE.check((ASK, 150, 201)) == "solved"
    assert SINGLE.check((ASK, 51, 201)) == "solved" != SINGLE.check((ASK, 50, 201))


def test_what_is_missing_is_told() -> None:
    answer = SINGLE.check((ASK, 10, 203)).splitlines()
    assert answer[:2] == ["not yet:", "the price is 202, and not 201"]
    assert "It is the one best limit, so 202 is the price, whatever its surplus." in answer
    assert Exercise(kept=[(BID, 5, 190)], price=200).check((ASK, 5, 200)).splitlines()[:2] == [
        "not yet:", "there is no price"
    ]
    lowest = Exercise(kept=[(BID, 500, 201)], price=199, rule="lowest")
    assert "the rule is reference, and not lowest" in lowest.check((ASK, 500, 199))


FORM = "not yet: give an order in brackets of its own, check((side, shares, limit))"
DOTS = "not yet: put side, shares and limit of an order in the place of the dots"
PARTS_OF = "not yet: order 4: it has "
SHARES = "not yet: order 4: its shares are a whole number from 1 to 1,000,000,000, not"
NO_ORDER = Exercise(kept=BOOK, more=0, is_off_limits=True)
NO_ORDERS = "not yet: give no order but a reference, such as check(reference=300)"


def test_a_book_that_is_kept_cant_be_replaced() -> None:
    answer = "not yet: add 1 order to the 3 orders of the book; 2 were added"
    assert SINGLE.check((BID, 5, 201), (ASK, 5, 201)) == answer
    assert SINGLE.check() == "not yet: add 1 order to the 3 orders of the book; none was added"
    few = Exercise(kept=BOOK[:1], more=2)
    assert few.check((BID, 5, 201)) == (
        "not yet: add 2 orders to the 1 order of the book; 1 was added"
    )
    assert SINGLE.check((ASK, 150, 201), reference=190) == "not yet: keep the reference, 200"


@pytest.mark.parametrize("given, answer", [
    (((..., ..., ...),), DOTS),
    ((...,), DOTS),
    (((ASK, ..., 201),), DOTS),
    ((ASK, 150, 201), FORM),
    (("ask 150 201",), FORM),
    (("ask", 150, 201), FORM),
    ((None,), FORM),
    (({"side": ASK},), FORM),
    (((ASK, 150),), f"{PARTS_OF}2 parts, and not three: (side, shares, limit)"),
    ((((ASK, 150, 201),),), f"{PARTS_OF}1 part, and not three: (side, shares, limit)"),
    (((),), f"{PARTS_OF}0 parts, and not three: (side, shares, limit)"),
    (((ASK, 150, 201, 5),), f"{PARTS_OF}4 parts, and not three: (side, shares, limit)"),
    ((("ask", 150, 201),), "not yet: order 4: its side is BID or ASK, not 'ask'"),
    (((2, 150, 201),), "not yet: order 4: its side is BID or ASK, not 2"),
    (((ASK, "150", 201),), f"{SHARES} '150'"),
    (((ASK, 150.5, 201),), f"{SHARES} 150.5"),
    (((ASK, 0, 201),), f"{SHARES} 0"),
    (((ASK, True, 201),), f"{SHARES} True"),
    (((ASK, 4_000_000_000, 201),), f"{SHARES} 4000000000"),
    (((ASK, 150, 0),),
     "not yet: order 4: its limit is a tick from 1 to 1000, or None at market, not 0"),
    (((ASK, 150, "market"),),
     "not yet: order 4: its limit is a tick from 1 to 1000, or None at market, not 'market'"),
])
def test_wrong_orders_get_a_sentence(given: tuple[Any, ...], answer: str) -> None:
    assert SINGLE.check(*given) == answer


@pytest.mark.parametrize("given, keywords, answer", [
    ((), {"reference": 0}, "not yet: the reference is a tick from 1 to 1000, not 0"),
    ((), {"reference": 1001}, "not yet: the reference is a tick from 1 to 1000, not 1001"),
    ((), {"reference": "150"}, "not yet: the reference is a tick from 1 to 1000, not '150'"),
    ((), {"reference": 150.0}, "not yet: the reference is a tick from 1 to 1000, not 150.0"),
    ((), {"reference": ...}, "not yet: put a reference in the place of the dots"),
    ((), {"price": 150}, NO_ORDERS),
    ((150,), {}, NO_ORDERS),
    (((BID, 5, 201),), {}, NO_ORDERS),
])
def test_wrong_references_get_a_sentence(
    given: tuple[Any, ...], keywords: dict[str, Any], answer: str
) -> None:
    assert NO_ORDER.check(*given, **keywords) == answer


PARTS = strategies.one_of(
    strategies.none(), strategies.integers(), strategies.integers(1, 1000), strategies.floats(),
    strategies.text(max_size=3),
    strategies.sampled_from([BID, ASK, ..., True, b"5", numpy.int64(5)]),
)  # fmt: skip
THINGS = strategies.one_of(PARTS, strategies.lists(PARTS, max_size=4).map(tuple))


@hypothesis.settings(max_examples=300, deadline=None, database=None)
@hypothesis.given(strategies.lists(THINGS, max_size=2), PARTS)
def test_whatever_is_given_is_answered(given: list[object], reference: object) -> None:
    for exercise in (SINGLE, NO_ORDER):
        for answer in (exercise.check(*given), exercise.check(*given, reference=reference)):
            assert answer == "solved" or answer.startswith("not yet:")


def test_an_order_is_as_it_was_asked_for() -> None:
    wanted = Exercise(kept=BOOK, side=BID, quantity=50, is_market=True)
    assert wanted.check((ASK, 50, None)) == "not yet: order 4: its side is to be BID"
    assert wanted.check((BID, 51, None)) == "not yet: order 4: it is to have 50 shares"
    assert wanted.check((BID, 50, 200)) == (
        "not yet: order 4: it is to be at market: its limit is None"
    )
    assert wanted.check((BID, 50, None)) == wanted.check([BID, numpy.int64(50), None]) == "solved"


def test_a_price_off_all_limits() -> None:
    tie = [(BID, 120, 163), (BID, 80, 144), (ASK, 120, 144), (ASK, 80, 163)]
    wanted = Exercise(kept=tie, more=0, is_off_limits=True)
    assert wanted.check(reference=145) == wanted.check(reference=162) == "solved"
    for reference, price in ((144, 144), (200, 163), (100, 144)):
        answer = wanted.check(reference=reference)
        assert answer.splitlines()[1] == f"the price, {price}, is the limit of an order"


def test_an_exercise_may_ask_for_shares_and_pairs() -> None:
    wanted = Exercise(
        kept=[(BID, 300, 200), (ASK, 120, 199)], executed={1: 300}, pairs=[(1, 2), (1, 3)]
    )
    assert wanted.check((ASK, 180, 200)) == wanted.check((ASK, 299, None)) == "solved"
    assert wanted.check((ASK, 100, 200)).splitlines()[1] == (
        "order 1 executes 220 shares, and not 300"
    )
    assert wanted.check((ASK, 300, 150)).splitlines()[1] == "the trades, bid with ask: 1 with 3"


def test_an_interrupted_uncross_executes_nothing() -> None:
    kept = [(ASK, 300, 203), (ASK, 300, 206)]
    wanted = Exercise(kept=kept, range=5, executed={1: 300, 3: 300}, quantity=500)
    for limit in (203, 204, 205):
        assert wanted.check((BID, 500, limit)) == "solved"
    answer = wanted.check((BID, 500, 206)).splitlines()
    assert "the uncross is interrupted" in answer
    assert "order 1 executes 0 shares, and not 300" in answer


# ---- the slider

FIRST = [(BID, 200, 202), (BID, 200, 201), (BID, 300, 200), (ASK, 100, 200), (ASK, 200, 199)]


def test_moving_a_limit_moves_the_price() -> None:
    # 300 are offered from 200 up. Up to 200 the third bid leaves 400 bid at 201, and the surplus of
    # 100 is the least; at 201 it is 400 there, at 202 the other bids leave 200, at 203 none.
    found = moved(FIRST, 2, range(198, 204))
    assert found.to_numpy().tolist() == [
        [198, 201, 300, 100],
        [199, 201, 300, 100],
        [200, 201, 300, 100],
        [201, 201, 300, 400],
        [202, 202, 300, 200],
        [203, 203, 300, 0],
    ]
    assert moved([(BID, 5, 190), (ASK, 5, 195)], 0, [190])["price"].isna().all()


def test_a_limit_is_drawn_beside_its_book() -> None:
    figure = draw_moved(FIRST, 2, 202, moved(FIRST, 2, range(198, 204)))
    book, shares, price = figure.axes
    assert book.get_title(loc="left").endswith("price 202, volume 300, surplus 200 bid")
    assert price.lines[0].get_ydata().tolist() == [201, 201, 201, 201, 202, 203]
    assert price.get_ylabel() == "price (ticks)" and book.get_ylabel() == "limit (ticks)"
    assert [line.get_label() for line in shares.lines[:2]] == ["volume", "surplus"]
    assert shares.lines[0].get_xdata().tolist() == [300] * 6
    assert shares.get_ylabel() == "limit of order 3 (ticks)"
    pyplot.close(figure)


def test_a_slider_has_a_picture_for_each_limit() -> None:
    limits = range(199, 203)
    found = slider_of(FIRST, 2, limits, 200, moved(FIRST, 2, limits))
    pictures = re.findall(r'<img alt="(.*?)"(.*?) src="data:image/png;base64,(.*?)">', found)
    assert [words for words, *_ in pictures] == [
        "limit 199: price 201, volume 300, surplus 100",
        "limit 200: price 201, volume 300, surplus 100",
        "limit 201: price 201, volume 300, surplus 400",
        "limit 202: price 202, volume 300, surplus 200",
    ]
    hidden = ' style="display:none"'
    assert [style for _, style, _ in pictures] == [hidden, "", hidden, hidden]
    assert all(base64.b64decode(data).startswith(b"\x89PNG") for *_, data in pictures)
    assert 'type="range" min="0" max="3" value="1" data-limits="199 200 201 202"' in found
    assert "<output>200</output>" in found and not pyplot.get_fignums()


def test_out_of_a_notebook_the_picture_is_still() -> None:
    with mock.patch.object(pyplot, "show") as shown:
        slide(FIRST, 2, range(198, 204))
    assert shown.call_count == 1
    assert pyplot.gcf().axes[2].lines[1].get_xdata()[0] == 200
    pyplot.close("all")


# ---- what is said, and what is executed


def test_replies_are_said() -> None:
    with auction_of(*BOOK) as auction:
        refused = auction.uncross(1)
        assert refused == Refused(Refusal.NOT_OPERATOR)
        assert said(refused) == "refused: only member 0 may uncross"
        assert said(auction.uncross()) == (
            "opening price 202 volume 150 surplus 50 bid trades 1"
        )


def test_orders_execute_by_price() -> None:
    with auction_of((ASK, 250, 198), (BID, 100, 201), (BID, 200, 203)) as auction:
        assert executed(auction).to_dict() == {1: 250, 2: 50, 3: 200}


# ---- an experiment

HALF = Experiment(lambda choice: 100 / choice, "{:.1f} are left", 45, 55, 1, 50)


@pytest.mark.parametrize("choice, answer", [
    (2, "solved: 50.0 are left"),
    (numpy.float64(2), "solved: 50.0 are left"),
    (4, "not yet: 25.0 are left, and not 45 to 55"),
    (..., "not yet: put a number in the place of the dots"),
    (0, "not yet: choose a number from 1 to 50, not 0"),
    (51, "not yet: choose a number from 1 to 50, not 51"),
    ("2", "not yet: choose a number from 1 to 50, not '2'"),
    (True, "not yet: choose a number from 1 to 50, not True"),
    (None, "not yet: choose a number from 1 to 50, not None"),
    (float("nan"), "not yet: choose a number from 1 to 50, not nan"),
    ((2,), "not yet: choose a number from 1 to 50, not (2,)"),
])
def test_an_experiment_takes_its_choice_by_place_or_name(choice: object, answer: str) -> None:
    assert HALF.check(choice) == HALF.check(shade=choice) == answer


def test_an_experiment_of_no_number_or_two() -> None:
    answer = "not yet: choose one number from 1 to 50, such as check(1)"
    assert HALF.check() == HALF.check(2, 3) == answer
    assert HALF.check(fractions.Fraction(2)) == "solved: 50.0 are left"

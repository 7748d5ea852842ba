"""Extracts without a column of which auction orders are for alone: a lawful day is never unlawful,
and what no such order could explain is certain.
"""
import random

import pytest
from callauction.verdict import Reading, Verdict, restricted
from damage import DAMAGES, places, timed_day
from extracts import Extract
from judging import judged
from planted import DAYS, SEEDS

NONE = Reading(unrestricted=True)


def without_column(seed: int, most: int = 12) -> Extract:
    """A day of which no row says that an order is for one auction alone."""
    extract = timed_day(seed, most)
    for row in extract.rows:
        row.pop("restriction", None)
    return extract


def with_results_alone(extract: Extract) -> Extract:
    extract.rows = [row for row in extract.rows if row["event"] != "trade"]
    return extract


@pytest.mark.parametrize("has_trades", [True, False])
def test_a_lawful_day_whose_restrictions_are_not_said_is_never_unlawful(has_trades: bool) -> None:
    count = 0
    for seed in range(max(10, DAYS // 6)):
        extract = without_column(seed, random.Random(seed).choice([4, 8, 14]))
        extract = extract if has_trades else with_results_alone(extract)
        verdict = judged(extract)
        assert verdict.word != "unlawful", f"{seed}\n{verdict}"
        count += restricted.WHY in {it.doubt for it in verdict.doubtful}
    assert count > DAYS // 40


def first_result(extract: Extract) -> dict[str, str] | None:
    """The first result of an auction with trades."""
    those = (extract.rows[at] for at in places(extract.rows, "uncross"))
    return next((row for row in those if row.get("trades", "0") not in ("0", "")), None)


def certain(extract: Extract, seed: int) -> Verdict:
    verdict = judged(extract)
    assert verdict.word == "unlawful", f"{seed}\n{verdict}"
    return verdict


@pytest.mark.parametrize("cell, more", [("quantity", 5000), ("surplus", 5000), ("trades", 7)])
def test_more_than_all_orders_give_is_certain(cell: str, more: int) -> None:
    for seed in SEEDS[:8]:
        extract = without_column(seed)
        row = first_result(extract)
        if row is not None and cell in row:
            row[cell] = str(int(row[cell]) + more)
            assert certain(extract, seed).findings


def test_a_price_that_no_order_has_is_certain() -> None:
    for seed in SEEDS[:8]:
        extract = with_results_alone(without_column(seed))
        row = first_result(extract)
        if row is not None:
            row["price"] = "9.31"
            assert any(it.item == "price" for it in certain(extract, seed).findings)


def test_shares_beyond_an_order_and_trades_of_nobody_are_certain() -> None:
    for seed in SEEDS[:8]:
        extract = without_column(seed)
        trades = places(extract.rows, "trade")
        if trades:
            row = extract.rows[trades[0]]
            row["quantity"] = str(int(row["quantity"]) + 5000)
            assert certain(extract, seed).findings


def day(restriction: str = "", **cells: str) -> Extract:
    """An opening in which A was passed over for B, and a closing in which A isn't executed."""
    text = f"""new 08:00:00 A bid 10.00 10 {restriction}
        new 08:00:01 B bid 10.00 10
        new 08:00:02 S ask 10.00 10"""
    names = ("event", "time", "order", "side", "price", "quantity", "restriction")
    rows: list[dict[str, str]] = [dict(zip(names, it.split())) for it in text.splitlines()]
    rows += [dict(event="uncross", time="09:00:00", price="10.00", quantity="10",
                  auction="opening", trades="1", **cells),
             dict(event="trade", time="09:00:00", bid="B", ask="S", quantity="10", price="10.00",
                  auction="opening"),
             dict(event="uncross", time="12:00:00", quantity="0", auction="intraday"),
             dict(event="uncross", time="17:00:00", quantity="0", auction="closing")]  # fmt: skip
    return Extract(rows, "10.00", None, [])


def test_an_order_that_was_passed_over_may_be_for_another_auction() -> None:
    verdict = judged(day())
    assert verdict.word == "incomplete" and verdict.doubtful[0].doubt == restricted.WHY
    assert judged(day("closing")).word == "incomplete" and not judged(day("closing")).doubtful
    assert judged(day(), reading=NONE).word == "unlawful"


def test_an_order_that_counts_in_the_published_surplus_was_passed_over_for_certain() -> None:
    assert judged(day(surplus="10", side="bid")).word == "unlawful"
    assert judged(day(surplus="0", side="none")).word == "incomplete"
    assert judged(day(surplus="5", side="bid")).word == "unlawful"  # A has 10 shares, or none


def test_an_order_of_the_closing_that_came_after_the_opening_counts_in_it() -> None:
    """No other auction is left for it."""
    extract = day()
    extract.rows[4:4] = []
    late = [dict(event="new", time="16:00:00", order="C", side="ask", price="10.00", quantity="10")]
    extract.rows[-1:-1] = late
    assert judged(extract).word == "incomplete", str(judged(extract))  # A may be for the opening
    extract.rows[-2:-2] = [{**late[0], "order": "D", "side": "bid", "time": "15:00:00"}]
    assert judged(extract).word == "unlawful", str(judged(extract))


@pytest.mark.parametrize("name", ["unread order", "missing rows", "copied trade", "ties"])
def test_other_damages_beside_it_condemn_no_day(name: str) -> None:
    for seed in SEEDS[: DAYS // 12]:
        extract = without_column(seed)
        DAMAGES[name](random.Random(seed), extract.rows)
        assert judged(extract).word != "unlawful", f"{seed}\n{judged(extract)}"

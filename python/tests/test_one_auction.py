"""One auction from its book: a day with continuous trading between its auctions is judged auction
by auction.
"""
from decimal import Decimal
from typing import Any

import pandas
import pytest
from callauction.verdict import ColumnError, Reading, audit_auction
from hypothesis import given, settings, strategies
from one_auction import Market


@settings(deadline=None, max_examples=100)
@given(strategies.integers(0, 2**32))
def test_a_day_with_continuous_trading_is_judged_auction_by_auction(seed: int) -> None:
    for auction in Market(seed).auctions():
        verdict = auction.audit()
        assert not verdict.findings and not verdict.bad_rows, str(verdict)
        compared, of = verdict.coverage["trades"]
        assert verdict.coverage["prices"] == (1, 1) and compared in (0, of)
        if "volume" not in auction.published:
            continue
        auction.published["volume"] += 1
        verdict = auction.audit()
        [finding] = verdict.findings
        assert (finding.item, finding.row) == ("volume", "published")


def book(**changes: Any) -> pandas.DataFrame:
    rows = [
        ("X", "Adler", "bid", "20.05", 100, "09:00:02.400"),
        ("Y", "Birk", "bid", "20.05", 100, "09:00:01.123"),
        ("Z", "Cohn", "ask", "20.00", 100, "09:00:03.000"),
    ]
    columns = ["order", "member", "side", "price", "quantity", "time"]
    return pandas.DataFrame(rows, columns=columns).assign(**changes)


def trades(*rows: tuple[str, str, int, str]) -> pandas.DataFrame:
    return pandas.DataFrame(rows, columns=["bid", "ask", "quantity", "price"])


PUBLISHED = dict(price="20.05", volume=100, surplus=100, side="bid", auction="opening")


def test_a_finding_of_a_fill_has_the_queue() -> None:
    published = dict(PUBLISHED, trades=trades(("X", "Z", 100, "20.05")))
    verdict = audit_auction(book(), published, reference="20.00", tick_size="0.01")
    [finding] = verdict.findings
    assert finding.rule == "Y entered 09:00:01.123 stands before X entered 09:00:02.400 at 20.05"
    assert str(finding) == (
        "row 0, opening: trade: recorded bid X ask Z: 100 at 20.05, lawful bid Y ask Z: 100 at "
        "20.05: Y entered 09:00:01.123 stands before X entered 09:00:02.400 at 20.05"
    )
    queue = verdict.queue(finding)
    assert queue["order"].tolist() == ["Y", "X", "Z"]
    assert queue["recorded"].tolist() == [0, 100, 100] and queue["lawful"].tolist() == [100, 0, 100]
    assert queue["price"].tolist() == [Decimal("20.05")] * 2 + [Decimal("20.00")]


def test_a_finding_of_a_price_has_the_sentences_of_its_book() -> None:
    published = dict(PUBLISHED, price="20.00", trades=trades(("Y", "Z", 100, "20.00")))
    verdict = audit_auction(book(), published, reference="20.00", tick_size="0.01")
    [finding] = verdict.findings
    assert (finding.item, finding.recorded, finding.lawful) == ("price", "20.00", "20.05")
    assert finding.rule == (
        "Both leave a surplus of 100 on the bid side, so the highest, 20.05, is the price."
    )
    assert "Only limits of orders are candidates: 20.00 and 20.05." in verdict.explain(finding)


def test_a_count_of_trades_may_stand_in_their_place() -> None:
    verdict = audit_auction(book(), dict(PUBLISHED, trades=1), reference="20.00")
    assert verdict.word == "incomplete" and verdict.coverage["trades"] == (0, 1)
    assert verdict.coverage["counts"] == (1, 1)
    verdict = audit_auction(book(), dict(PUBLISHED, trades=2), reference="20.00")
    assert [finding.item for finding in verdict.findings] == ["count"]


def test_fills_may_stand_in_place_of_trades() -> None:
    fills = pandas.DataFrame({"order": ["X", "Z"], "quantity": [100, 100]})
    verdict = audit_auction(book(), dict(PUBLISHED, fills=fills), reference="20.00")
    [finding] = verdict.findings
    assert finding.item == "fill" and finding.rule.startswith("Y entered 09:00:01.123 stands ")


def test_a_book_that_is_no_book_is_told() -> None:
    with pytest.raises(ColumnError, match=r"unknown column 'Price' \(is it price\?\)"):
        audit_auction(book().rename(columns={"price": "Price"}), PUBLISHED, reference="20.00")
    with pytest.raises(ColumnError, match=r"unknown column 'vol' \(is it volume\?\)"):
        audit_auction(book(), dict(price=1, vol=2), reference="20.00")
    with pytest.raises(ValueError, match="say which auction"):
        audit_auction(book(restriction="closing"), dict(price="20.05"), reference="20.00")
    verdict = audit_auction(
        book(price="MKT"), dict(PUBLISHED, price="20.00", surplus=100, trades=1),
        reference="20.00", reading=Reading(market=("MKT",))
    )
    assert verdict.word == "incomplete" and not verdict.findings
    bad = audit_auction(book(quantity=[0, 100, 100]), PUBLISHED, reference="20.00")
    assert str(bad.bad_rows[0]) == "row 0: the rules say refused 1 BadQuantity"


def test_a_range_interrupts() -> None:
    verdict = audit_auction(book(), PUBLISHED, reference="19.00", range="0.50")
    [finding] = verdict.findings
    assert (finding.item, finding.recorded, finding.lawful) == ("auction", "opening", "interrupted")
    assert finding.rule == (
        "The price, 20.05, is 1.05 from the reference, 19.00, beyond the range of 0.50, so the "
        "uncross is interrupted."
    )

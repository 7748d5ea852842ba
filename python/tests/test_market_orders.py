"""Market orders, which extracts write in several ways."""
from pathlib import Path

import pytest
from callauction.verdict import audit_events
from damage import places, timed_day
from desk import TRADE, Printed, audited, base_rows, text_of
from extracts import Extract, Rows
from judging import frame_of


def zero_prices(rows: Rows, word: str) -> Rows:
    """Market orders with a word in place of an empty price."""
    found = [dict(row) for row in rows]
    for place in places(found, "new", "replace"):
        found[place]["price"] = found[place].get("price") or word
    return found


def day_of_market_orders() -> Extract:
    """A day with trades of which market orders are a part."""
    for seed in range(1000):
        day = timed_day(seed, 20)
        if day.range is None and min(outcome.trades for outcome in day.lawful) > 1:
            if sum("price" not in row for row in day.rows if row["event"] == "new") > 5:
                return day
    raise LookupError


@pytest.mark.parametrize("word, words, status, text", [
    ("0", [], 0, "orders at the price 0, read as market orders"),
    ("0.00", [], 0, "orders at the price 0, read as market orders"),
    ("0.00", ["--market", "0"], 0, ""),
    ("", [], 0, ""),
    ("MKT", [], 5, "price 'MKT' is no decimal number (--market MKT reads a market order)"),
    ("MKT", ["--market", "mkt"], 0, ""),
    ("0", ["--market", "MKT"], 5, "price 0 is no limit (--market 0 reads a market order)"),
    ("0", ["--low", "0"], 4, ""),
])
def test_a_market_order_by_any_word(
    word: str, words: list[str], status: int, text: str, tmp_path: Path, capsys: Printed
) -> None:
    day = day_of_market_orders()
    content = text_of(zero_prices(day.rows, word))
    assert audited(content, ["--reference", day.reference, *words], tmp_path) == status
    assert text in capsys.readouterr().err


def test_trades_at_0_have_no_price(tmp_path: Path) -> None:
    rows = base_rows()
    for place in places(rows, TRADE):
        rows[place]["price"] = "0.00"
    assert audited(text_of(rows), [], tmp_path) == 0
    rows[places(rows, TRADE)[0]]["price"] = base_rows()[places(rows, TRADE)[0]]["price"]
    assert audited(text_of(rows), [], tmp_path) == 4


def test_0_is_a_limit_among_prices_below_it() -> None:
    """Prices from -5.05 to 5.05 around 0, where no order is a market order."""
    rows: Rows = [
        dict(event="new", order="A", side="bid", price="0", quantity="10"),
        dict(event="new", order="B", side="ask", price="-0.01", quantity="10"),
        dict(event="uncross", price="0", quantity="10", surplus="0", side="none",
             auction="opening", trades="1"),
        dict(event="trade", bid="A", ask="B", quantity="10", price="0"),
    ]  # fmt: skip
    verdict = audit_events(frame_of(rows), reference="0.5", tick_size="0.01", auctions=["opening"])
    assert verdict.word == "lawful", str(verdict)

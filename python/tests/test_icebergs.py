"""Extracts whose rows have the visible shares of iceberg orders alone, and no column that says it:
an order that is executed with more than that may have hidden ones.
"""
import collections
from typing import Any

import pytest
from callauction.verdict import Verdict, audit_instruments
from damage import places, timed_day
from extracts import Extract
from judging import frame_of, judged
from planted import DAYS, SEEDS


def visible(seed: int) -> Extract | None:
    """A day of which rows have what icebergs show, and of each second no peak in its column, where
    one is executed with more; None else, or where a row changes an iceberg.
    """
    extract = timed_day(seed, 20)
    peaks = {row["order"]: int(row["peak"]) for row in extract.rows if row.get("peak")}
    changed = {row["order"] for at in places(extract.rows, "replace", "cancel")
               for row in [extract.rows[at]]}  # fmt: skip
    made = collections.Counter[str]()
    for at in places(extract.rows, "trade"):
        row = extract.rows[at]
        made += collections.Counter({row[side]: int(row["quantity"]) for side in ("bid", "ask")})
    for row in extract.rows:
        row["quantity"] = row.get("quantity", "")
        if row.pop("peak", None) and row["event"] == "new":
            row["quantity"] = str(min(int(row["quantity"]), peaks[row["order"]]))
        row |= {"peak": ""} if seed % 2 else {}
    is_seen = any(made[order] > peak for order, peak in peaks.items())
    return extract if is_seen and changed.isdisjoint(peaks) else None


def test_a_lawful_day_of_visible_shares_is_never_unlawful() -> None:
    count = 0
    for seed in range(6 * DAYS):
        extract = visible(seed) if count < DAYS // 12 else None
        if extract is not None:
            count += 1
            verdict = judged(extract)
            assert verdict.word == "incomplete", f"{seed}\n{verdict}"
            assert any("are hidden ones missing?" in it.doubt for it in verdict.doubtful)
    assert count > DAYS // 24


def day(at: str = "08:00:00", **cells: str) -> Extract:
    """An opening in which the bid A of 10 shares, which came at a time, is executed with 30, and B,
    which came at 08:00:01, isn't.
    """
    names = ("event", "time", "order", "side", "price", "quantity")
    bids = sorted([f"new {at} A bid 10.00 10", "new 08:00:01 B bid 10.00 20"])
    text = [*bids, "new 08:00:05 S ask 10.00 30"]
    rows: list[dict[str, str]] = [dict(zip(names, it.split())) for it in text]
    made = {"price": "10.00", "quantity": "30", "auction": "opening", "time": "09:00:00"}
    result = {"side": "bid", "surplus": "20", "trades": "1", **cells}
    rows += [
        {"event": "uncross", **made, **result}, {"event": "trade", "bid": "A", "ask": "S", **made},
        dict(event="uncross", time="12:00:00", quantity="0", auction="intraday"),
        dict(event="uncross", time="17:00:00", quantity="0", auction="closing"),
    ]  # fmt: skip
    return Extract(rows, "10.00", None, [])


def why(verdict: Verdict) -> str:
    return " ".join(it.doubt for it in verdict.doubtful)


def test_an_order_that_is_executed_with_more_may_have_hidden_shares() -> None:
    verdict = judged(day())
    assert verdict.word == "incomplete", str(verdict)
    assert why(verdict).startswith("row 0 has 10 shares, and 30 are executed: are hidden ones miss")
    assert judged(day(surplus="70")).word == "incomplete"  # of A or B, behind the executed ones
    assert judged(day(surplus="19")).word == "unlawful"  # B has 20
    assert judged(day(price="9.99")).word == "unlawful"


def test_a_peak_below_the_quantity_says_that_quantities_are_whole() -> None:
    extract = day()
    extract.rows[2]["peak"] = "20"
    verdict = judged(extract)
    assert verdict.word == "unlawful" and "hidden" not in str(verdict)
    told = " ".join(line for it in verdict.findings for line in verdict.explain(it))
    assert "A has 10 open, and no 30." in told


def test_peaks_that_are_all_shares_may_say_the_visible_ones() -> None:
    """Another instrument of the file has whole quantities."""
    one, other = day(), day()
    one.rows[0]["peak"], other.rows[2]["peak"] = "10", "20"
    assert judged(one).word == "incomplete" and "a column peak" not in why(judged(one))
    both = [dict(row, isin=isin) for isin, it in (("A", one), ("B", other)) for row in it.rows]
    terms: dict[str, Any] = dict(reference="10", tick_size="0.01")
    found = audit_instruments(frame_of(both), "isin", **terms)
    assert found["verdict"].tolist() == ["incomplete", "unlawful"]


@pytest.mark.parametrize("word", ["", "-", "NULL"])
def test_a_column_of_peaks_without_any_says_nothing(word: str) -> None:
    extract = day()
    for row in extract.rows:
        row["peak"] = word
    assert judged(extract).word == "incomplete", str(judged(extract))


def test_a_certain_finding_has_the_hint() -> None:
    """B stands before A, whatever A hides."""
    verdict = judged(day("08:00:02"))
    assert verdict.word == "unlawful", str(verdict)
    told = " ".join(line for it in verdict.findings for line in verdict.explain(it))
    assert "A has 10 open, and no 30 (are hidden shares missing?)." in told


def test_more_shares_than_an_order_has_are_certain_beside_a_volume_that_is_less() -> None:
    for seed in SEEDS[:6]:
        extract = timed_day(seed)
        for row in extract.rows:
            row.pop("peak", None)
        trades = places(extract.rows, "trade")
        if trades:
            row = extract.rows[trades[0]]
            row["quantity"] = str(int(row["quantity"]) + 5000)
            assert judged(extract).word == "unlawful", f"{seed}\n{judged(extract)}"

"""Two in one file: markets, units of prices, a trade and its correction. None condemns a lawful
day, and a fault beside them is found.
"""
import itertools

import pytest
from callauction.verdict import ExtractError, Reading, Verdict, audit_events
from damage import places, timed_day
from desk import TRADE, UNCROSS, base_day
from extracts import Extract, Rows
from judging import frame_of
from lines import judged_lines


def judged(rows: Rows, day: Extract, sort: bool = False) -> Verdict:
    """The verdict on rows whose other columns are passed over."""
    return audit_events(
        frame_of(rows), reference=day.reference, range=day.range, tick_size="0.01",
        reading=Reading(ignore=("*",), sort=sort),
    )  # fmt: skip


# ---- two markets


def two_markets(seed: int, has_own_ids: bool, has_names: bool) -> tuple[Extract, Rows]:
    """A lawful day and, between its rows by their times, one of another market."""
    days = timed_day(seed, 8), timed_day(seed + 5000, 8)
    rows = [
        dict(row, Handelsplatz=name)
        for name, day in zip(("XETR", "XFRA"), days)
        for row in day.rows
    ]
    for row in rows:
        for name in ("order", "bid", "ask"):
            if name in row and row["Handelsplatz"] == "XFRA" and not has_own_ids:
                row[name] = f"F{row[name]}"
        if not has_names:
            row.pop("auction", None)
    return days[0], sorted(rows, key=lambda row: str(row["time"]))


@pytest.mark.parametrize("has_own_ids, has_names", itertools.product((True, False), repeat=2))
def test_two_markets_between_each_other_are_refused(has_own_ids: bool, has_names: bool) -> None:
    """Their column is passed over; it tells results of one auction apart, and is in entries too."""
    refused = 0
    for seed in range(12):
        day, rows = two_markets(seed, has_own_ids, has_names)
        try:
            verdict = judged(rows, day)
            assert verdict.word == "incomplete", f"{seed}\n{verdict}"
        except ExtractError as fault:
            refused += 1
            assert "Handelsplatz" in str(fault) and "--by Handelsplatz" in str(fault), str(fault)
    assert refused > 6


def test_two_markets_without_a_column_are_refused() -> None:
    """The trades of the opening add up to both of its results."""
    refused = 0
    for seed in range(12):
        day, rows = two_markets(seed, False, True)
        for row in rows:
            del row["Handelsplatz"]
        try:
            word = judged(rows, day).word
            volumes = [rows[at].get("quantity", "0") for at in places(rows, UNCROSS)]
            assert word == "incomplete" or "0" in volumes
        except ExtractError as fault:
            refused += 1
            assert "are results of two markets: keep one by --where" in str(fault)
    assert refused > 2


def test_a_column_that_tells_no_results_apart_hides_no_fault() -> None:
    """Each auction has one result, or a corrected one, of any text of such a column."""
    for texts in (["A"], ["A", "B"], ["A", "B", "C"]):
        day = base_day().copy()
        for number, row in enumerate(day.rows):
            row["Session"] = texts[number % len(texts)]
        last = places(day.rows, UNCROSS)[-1]
        assert judged(day.rows, day).word == "lawful"
        day.rows[last]["quantity"] = "7"
        assert judged(day.rows, day).word == "unlawful"
        day.rows.insert(last, dict(day.rows[last], quantity="8", Session="other"))
        assert judged(day.rows, day).word == "unlawful"


# ---- two units of prices


def in_cents(row: dict[str, str]) -> None:
    row["price"] = f"{float(row['price']) * 100:g}"


@pytest.mark.parametrize("event", ["new", UNCROSS, TRADE])
@pytest.mark.parametrize("has_all", [True, False])
def test_prices_in_cents_beside_euros_condemn_no_day(event: str, has_all: bool) -> None:
    day = base_day().copy()
    priced = [at for at in places(day.rows, event) if day.rows[at].get("price")]
    for place in priced if has_all else priced[:1]:
        in_cents(day.rows[place])
    verdict = judged(day.rows, day)
    if event == "new" and not has_all:  # a bid so high decides nothing here
        assert verdict.word == "lawful", str(verdict)
    else:
        assert verdict.word == "incomplete" and "in cents?" in str(verdict), str(verdict)
    day.rows[places(day.rows, UNCROSS)[-1]]["quantity"] = "7"
    assert judged(day.rows, day).word == "unlawful"


def test_a_file_in_cents_beside_a_reference_in_euros() -> None:
    """Two prices have the same volume and no surplus, so that the reference decides."""
    day = """
        new 09:00 A bid 10 1020
        new 09:00 S ask 10 990
        uncross 09:01 1000 10 0 none 1 opening
        trade 09:01 A S 10 1000 opening
    """
    verdict = judged_lines(day, auctions=["opening"])
    assert verdict.word == "incomplete" and "is the price 990 9.90, in cents?" in str(verdict)
    other = judged_lines(day.replace("1000", "1010"), auctions=["opening"])
    assert other.word == "unlawful", str(other)


def test_prices_in_cents_beside_replaces_without_one() -> None:
    """A's replace leaves its price and its place as they are."""
    day = """
        new 09:00 A bid 10 1000
        new 09:01 B bid 10 1000
        replace 09:02 A bid 10 - true
        new 09:03 S ask 10 990
        uncross 09:04 10.00 10 10 bid 1 opening
        trade 09:04 A S 10 10.00 opening
    """
    verdict = judged_lines(day, auctions=["opening"])
    assert verdict.word == "incomplete", str(verdict)
    other = judged_lines(day.replace("10 10 bid", "10 11 bid"), auctions=["opening"])
    assert other.word == "unlawful", str(other)


def test_a_limit_far_from_the_reference_is_no_other_unit() -> None:
    day = """
        new 09:00 A bid 10 1000.00
        new 09:00 S ask 10 10.00
        uncross 09:01 10.00 10 0 none 1 opening
        trade 09:01 A S 10 10.00 opening
    """
    assert judged_lines(day, auctions=["opening"]).word == "lawful"
    assert judged_lines(day.replace("10 0 none", "11 0 none"), auctions=["opening"]).word == (
        "unlawful"
    )


# ---- a trade and its correction


def with_wrong_trade(**cells: str) -> tuple[Extract, int]:
    """A day with a wrong trade of the last auction above the right one, and its place."""
    day = base_day().copy()
    right = places(day.rows, TRADE)[-1]
    day.rows.insert(right, dict(day.rows[right], **cells))
    return day, right


WRONG = ({"price": "9.50"}, {"quantity": "7"}, {"price": "10.31", "quantity": "1"})


@pytest.mark.parametrize("cells", WRONG)
def test_a_bust_takes_a_wrong_trade_out(cells: dict[str, str]) -> None:
    day, place = with_wrong_trade(**cells)
    day.rows.append(dict(day.rows[place], event="bust"))
    assert judged(day.rows, day).word == "lawful"


@pytest.mark.parametrize("cells", WRONG)
@pytest.mark.parametrize("bust", [
    {"event": "bust", "quantity": "n/a"},
    {"event": "bust", "quantity": "999"},
    {"event": "TRADE_CORRECT"},
    {"event": "TRADE_CORRECT", "bid": "", "ask": ""},
])  # fmt: skip
def test_a_row_that_may_take_a_trade_out_leaves_it_in_doubt(
    bust: dict[str, str], cells: dict[str, str]
) -> None:
    day, place = with_wrong_trade(**cells)
    assert judged(day.rows, day).word == "unlawful"
    day.rows.append(dict(day.rows[place], **bust))
    verdict = judged(day.rows, day)
    assert verdict.word == "incomplete", str(verdict)
    assert "a row that isn't read may take it out" in str(verdict)
    first = day.copy()
    first.rows[places(first.rows, UNCROSS)[0]]["quantity"] = "7"
    assert judged(first.rows, first).word == "unlawful"


def test_a_row_that_names_other_orders_takes_no_trade_out() -> None:
    day, place = with_wrong_trade(price="9.50")
    own = {day.rows[place]["bid"], day.rows[place]["ask"]}
    entered = (day.rows[at]["order"] for at in places(day.rows, "new"))
    bid, ask, *_ = (order for order in entered if order not in own)
    day.rows.append(dict(day.rows[place], event="TRADE_CORRECT", bid=bid, ask=ask))
    assert judged(day.rows, day).word == "unlawful"


@pytest.mark.parametrize("cells", WRONG)
def test_a_later_trade_with_the_id_of_one_may_correct_it(cells: dict[str, str]) -> None:
    day, place = with_wrong_trade(**cells)
    for number, at in enumerate(places(day.rows, TRADE)):
        day.rows[at]["TradeID"] = f"T{number - (at > place)}"
    verdict = judged(day.rows, day)
    assert verdict.word == "incomplete", str(verdict)
    assert "have one TradeID: is the later right?" in str(verdict)
    day.rows[place], day.rows[place + 1] = day.rows[place + 1], day.rows[place]
    assert judged(day.rows, day).word == "unlawful"


def test_a_count_beside_a_trade_that_may_be_taken_out() -> None:
    """The shares of A and S in two trades, which is another pairing, and a wrong one whose bust
    isn't read: two of three trades are left, as is published.
    """
    day = """
        new 09:00 A bid 20 10.00
        new 09:00 S ask 20 10.00
        uncross 09:01 10.00 20 0 none 2 opening
        trade 09:01 A S 15 10.00 opening
        trade 09:01 A S 5 10.00 opening
        trade 09:01 S A 5 10.00 opening
        bust 09:02 S A 77 10.00 opening
    """
    verdict = judged_lines(day, auctions=["opening"])
    assert verdict.word == "incomplete", str(verdict)

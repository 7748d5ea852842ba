"""Lawful days whose rows may be read in another way than as they stand, by hand: none is unlawful,
and a fault that no way excuses is certain.
"""
import io
from typing import Any

import pandas
import pytest
from callauction.verdict import Reading, Verdict, audit_events
from lines import judged_lines, timed_rows

UNRESTRICTED = Reading(unrestricted=True)

# ---- rows of one order at one time


@pytest.mark.parametrize("price", ["10.00", "-"])
def test_a_cancel_of_shares_above_a_replace_of_its_time_may_be_below_it(price: str) -> None:
    """A has 600 shares. It is replaced to 300 and 300 are cancelled, so B is executed; above the
    replace the cancel would leave 300 of A, the first. C's limit is the price.
    """
    day = f"""
        new 08:30:00 A ask 600 {price}
        new 08:30:10 B ask 500 10.00
        new 08:31:00 C bid 400 10.00
        cancel 08:40:00 A 300
        replace 08:40:00 A ask 300 {price}
        uncross 09:00:00 10.00 400 100 ask 1 opening
        trade 09:00:00 C B 400 10.00 opening
    """
    verdict = judged_lines(day, auctions=["opening"])
    assert verdict.word == "incomplete", str(verdict)
    assert "rows 3 and 4 have one time" in str(verdict)
    other = judged_lines(day.replace("10.00 400 100", "10.00 400 200"), auctions=["opening"])
    assert other.word == "unlawful"


# ---- traces of orders that no row enters

TRACED = """
    new 08:30 B ask 500 10.00
    new 08:31 C bid 400 10.00
    uncross 09:00 10.00 500 100 bid 2 opening
    trade 09:00 C B 400 10.00 opening
    trade 09:00 {} B 100 10.00 opening
"""
"""A bid of 200 shares is missing, of which 100 were executed."""


def test_a_trade_of_which_one_side_is_not_said_may_be_of_an_order_without_a_row() -> None:
    verdict = judged_lines(TRACED.format("-"), auctions=["opening"])
    assert verdict.word == "incomplete", str(verdict)
    assert "the bid of the trade of row 4 isn't said: does a row enter it?" in str(verdict)


def test_a_trade_without_one_side_leaves_a_fault_of_trades_certain_where_results_agree() -> None:
    """The price, the volume and the surplus are lawful, so that no executed order is missing: A is
    before C, which is executed in its place.
    """
    verdict = judged_lines("""
        new 08:30 A bid 100 10.00
        new 08:31 C bid 100 10.00
        new 08:32 B ask 100 10.00
        new 08:33 D ask 50 10.10
        new 08:33 E bid 50 10.10
        uncross 09:00 10.00 150 100 bid 2 opening
        trade 09:00 C B 100 10.00 opening
        trade 09:00 E - 50 10.00 opening
    """.replace("new 08:33 D ask 50 10.10", "new 08:33 D ask 50 10.00"), auctions=["opening"])
    assert verdict.word == "unlawful", str(verdict)


@pytest.mark.parametrize("bust", ["bust 09:40 Z B 100 10.00", "bust 09:40 Z B - 10.00"])
def test_a_busted_trade_is_a_trace_of_its_order(bust: str) -> None:
    day = TRACED.format("Z") + f"new 09:30 E bid 400 10.00\n{bust}\n"
    verdict = judged_lines(day, auctions=["opening"])
    assert verdict.word == "incomplete", str(verdict)
    assert "row 4 is a trade of an order that no row enters" in str(verdict)


BUSTED = """
    new 08:00:00 A bid 100 10.50
    new 08:00:01 B ask 400 10.40
    new 08:00:02 C bid 100 10.45
    new 08:00:03 D bid 200 10.40
    uncross 09:00 10.40 400 0 none 3 opening
    trade 09:00 A B 100 10.40 opening
    trade 09:00 D B 200 10.40 opening
    bust 09:05 {} B {} 10.40
"""
"""The trade of C and B has no row."""


@pytest.mark.parametrize("shares", ["100", "-"])
def test_a_bust_whose_trade_has_no_row_excuses_that_trade_alone(shares: str) -> None:
    verdict = judged_lines(BUSTED.format("C", shares), auctions=["opening"])
    assert verdict.word == "incomplete", str(verdict)
    assert "row 7 is a bust of it, and the trade may have no row" in str(verdict)
    for other in (("A", "100"), ("C", "90")):
        verdict = judged_lines(BUSTED.format(*other), auctions=["opening"])
        assert verdict.word == "unlawful", str(verdict)
        assert "lawful bid C ask B: 100" in str(verdict)


NAMED_OTHERWISE = """
    new 08:30 B ask 500 10.00
    new 08:31 C bid 400 10.00
    new 08:32 D bid 200 10.00
    {}
    uncross 09:00 10.00 500 100 bid 2 opening
    trade 09:00 1C 1B 400 10.00 opening
    trade 09:00 1D 1B 100 10.00 opening
"""
"""All ids of trades are of another column."""


@pytest.mark.parametrize("above, below", [
    ("", "bust 09:40 1D 1B 100 10.00"),
    ("uncross 08:45 10.00 500 100 bid - interrupted", ""),
])  # fmt: skip
def test_ids_of_trades_that_no_order_has_beside_a_bust_or_an_interruption(
    above: str, below: str
) -> None:
    day = NAMED_OTHERWISE.format(above) + "new 09:30 E bid 400 10.00\n" + below
    span = "2%" if above else "6%"
    verdict = judged_lines(day.replace("10.00", "10.50"), auctions=["opening"], range=span)
    assert verdict.word == "incomplete", str(verdict)


# ---- cells


def frame_judged(text: str, **options: Any) -> Verdict:
    """The verdict on a CSV text."""
    frame = pandas.read_csv(io.StringIO(text), sep=options.get("separator", ","), dtype=str)
    terms: dict[str, Any] = dict(reference="10", tick_size="0.01", auctions=["opening"])
    reading = Reading(unrestricted=True, **options)
    return audit_events(frame.fillna(""), reading=reading, **terms)


GERMAN = """event;time;order;member;side;price;quantity;surplus;auction;trades;bid;ask
new;08:00:00;a;M1;bid;10,50;1.000;;;;;
new;08:00:01;b;M2;ask;10,40;3.000;;;;;
new;08:00:02;c;M3;bid;10,45;1.000;;;;;
uncross;09:00:00;;;ask;10,40;2.000;1.000;opening;2;;
trade;09:00:00;;;;10,40;1.000;;opening;;a;b
trade;09:00:00;;;;10,40;1.000;;opening;;c;b
"""


@pytest.mark.parametrize("cell, other", [
    ("c;M3;bid;10,45;1.000", "c;M3;bid;10,45;1000.0"),
    ("c;M3;bid;10,45;1.000", "c;M3;bid;10,45;1.5"),
    ("c;M3;bid;10,45", "c;M3;bid;10.45"),
    ("b;M2;ask;10,40", "b;M2;ask;10.40"),
    ("10,40;2.000;1.000", "10,40;2.000;1.0"),
    ("10,40;2.000;1.000", "10.40;2.000;1.000"),
    ("10,40;1.000;;opening;;c", "10.40;1.000;;opening;;c"),
])  # fmt: skip
def test_a_sign_of_thousands_that_does_not_part_three_digits_is_not_read(
    cell: str, other: str
) -> None:
    """The other cells are of a program that writes a point for decimals."""
    options = dict(separator=";", decimal=",", thousands=".")
    assert frame_judged(GERMAN, **options).word == "lawful"
    assert GERMAN.count(cell) == 1
    verdict = frame_judged(GERMAN.replace(cell, other), **options)
    assert verdict.word == "incomplete", str(verdict)


MEMBERS = """event,time,order,member,side,price,quantity,surplus,auction,trades,bid,ask,\
bid_member,ask_member
new,08:00:00,a,M1,bid,10.50,100,,,,,,,
new,08:00:01,b,{},ask,10.40,300,,,,,,,
new,08:00:02,c,{},bid,10.45,100,,,,,,,
uncross,09:00:00,,,ask,10.40,200,100,opening,2,,,,
trade,09:00:00,,,,10.40,100,,opening,,a,b,M1,{}
trade,09:00:00,,,,10.40,100,,opening,,c,b,{},{}
"""


@pytest.mark.parametrize("columns", [("member",), ("member", "bid_member", "ask_member")])
def test_two_words_of_one_member(columns: tuple[str, ...]) -> None:
    """M2 and M3 were merged to X9, as orders' members are said; trades have any of the three."""
    values = {name: {"M2": "X9", "M3": "X9"} for name in columns}
    for ours in (("M2", "M3", "M2", "M3", "M2"), ("M2", "M3", "X9", "X9", "X9"),
                 ("X9", "M3", "M2", "X9", "M3")):  # fmt: skip
        assert frame_judged(MEMBERS.format(*ours), values=values).word == "lawful"
    wrong = MEMBERS.format("M2", "M3", "M1", "M3", "M2")
    assert frame_judged(wrong, values=values).word == "unlawful"


@pytest.mark.parametrize("word", ["#####", "########", "unknown", "UNKNOWN", "***", "*"])
def test_words_for_a_member_that_is_not_known(word: str) -> None:
    verdict = frame_judged(MEMBERS.format("M2", word, "M2", "M3", "M2"))
    assert verdict.word != "unlawful", str(verdict)


def test_ids_of_trades_that_no_order_has_beside_a_trade_that_is_there_twice() -> None:
    day = NAMED_OTHERWISE.format("") + "trade 09:00 1D 1B 100 10.00 opening\n"
    verdict = judged_lines(day, auctions=["opening"])
    assert verdict.word == "incomplete", str(verdict)
    wrong = day.replace("100 10.00 opening", "90 10.00 opening")
    assert judged_lines(wrong, auctions=["opening"]).word == "unlawful"


def test_a_result_that_is_sent_again_with_another_sequence() -> None:
    """It is one auction's, below an order of the next call phase."""
    rows = timed_rows("""
        new 08:30 A bid 100 10.00
        new 08:31 B ask 100 10.00
        uncross 09:00 10.00 100 0 none 1 opening
        trade 09:00 A B 100 10.00 opening
        new 09:30 C bid 100 10.00
        uncross 10:00 - 0 0 none 0 closing
    """)
    rows.insert(5, dict(rows[2]))
    for number, row in enumerate(rows, 1):
        row["sequence"] = str(number)
    frame = pandas.DataFrame(rows).fillna("")
    verdict = audit_events(frame, reference="10", tick_size="0.01",
                           auctions=["opening", "closing"], reading=UNRESTRICTED)  # fmt: skip
    assert verdict.word == "lawful", str(verdict)

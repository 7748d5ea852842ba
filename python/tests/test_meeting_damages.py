"""Lawful days in which several of an extract's damages meet, by hand: none is unlawful, and a fault
before the damage is one.
"""
import re
from typing import Any

import pytest
from callauction.verdict import audit_events
from judging import frame_of
from lines import judged_lines, timed_rows


def test_a_trade_at_the_time_of_an_uncross_may_be_of_continuous_trading() -> None:
    """X and Y came and traded at once behind the intraday auction. So the closing hasn't them, of
    which a second result without a name corrects the first.
    """
    verdict = judged_lines("""
        uncross 09:01 - 0
        new 09:02 A bid 20 10.06
        uncross 09:03 - 0
        new 09:03 S ask 40 9.98
        new 09:03 X bid 5000 10.30
        new 09:03 Y ask 5000 9.80
        trade 09:03 X Y 5000 10.30
        uncross 09:05 10.00 20 20 ask 1
        uncross 09:05 9.98 20 20 ask 1
        trade 09:05 A S 20 9.98
    """)
    assert verdict.word == "incomplete", str(verdict)
    assert "row 6 may be a trade outside of the auctions" in str(verdict)


def test_a_result_without_a_name_that_is_corrected_back() -> None:
    """The intraday auction has three results, the last of which is the first one again."""
    day = """
        new 09:00 A bid 10 10.00
        new 09:00 S ask 30 10.00
        uncross 09:01 10.00 10 20 ask 1
        trade 09:01 A S 10 10.00
        new 09:02 B bid 10 10.00
        uncross 09:03 10.00 10 10 ask 1
        uncross 09:03 10.02 10 10 ask 1
        trade 09:03 B S 10 10.00
        new 09:04 C bid 10 10.00
        uncross 09:03 10.00 10 10 ask 1
        uncross 09:05 10.00 10 0 none 1
        trade 09:05 C S 10 10.00
    """
    assert judged_lines(day).word == "incomplete", str(judged_lines(day))
    assert judged_lines(day.replace("09:01 10.00 10 20", "09:01 10.00 11 20")).word == "unlawful"


def test_a_last_result_that_is_corrected_back_at_once() -> None:
    """It is there twice, but isn't sent again: another one is between."""
    day = """
        uncross 09:01 - 0
        uncross 09:03 - 0
        new 09:04 A bid 10 10.00
        new 09:04 S ask 30 10.00
        uncross 09:05 10.00 10 20 ask 1
        uncross 09:05 10.02 10 20 ask 1
        uncross 09:05 10.00 10 20 ask 1
        trade 09:05 A S 10 10.00
    """
    assert judged_lines(day).word == "incomplete", str(judged_lines(day))


def test_each_trade_twice_may_have_continuous_ones_among_them() -> None:
    verdict = judged_lines("""
        uncross 09:01 - 0 - - - opening
        uncross 09:02 - 0 - - - intraday
        new 09:04:00 A bid 20 10.00
        new 09:04:01 S ask 20 10.00
        new 09:04:02 X bid 50 10.30
        new 09:04:02 Y ask 50 9.80
        trade 09:04:02 X Y 50 10.30 continuous
        trade 09:04:02 X Y 50 10.30 continuous
        new 09:04:05 B bid 10 9.90
        uncross 09:05 10.00 20 0 none 1 closing
        trade 09:05 A S 20 10.00 closing
        trade 09:05 A S 20 10.00 closing
    """)
    assert verdict.word == "incomplete", str(verdict)
    assert "each trade has two rows" in str(verdict)


def test_orders_of_one_time_beside_a_trade_of_the_next_call_phase() -> None:
    """A and B have one time, and A was first. X and Y traded at once nearer to the opening."""
    day = """
        new 09:00:00 B ask 50 10.00
        new 09:00:00 A ask 50 10.00
        new 09:00:10 C bid 50 10.00
        uncross 09:01 10.00 50 50 ask 1 opening
        trade 09:01 C A 50 10.00 opening
        new 09:01:30 X bid 50 10.30
        new 09:01:30 Y ask 50 9.80
        trade 09:01:30 X Y 50 10.30
        new 09:02 D bid 10 9.90
        uncross 09:03 - 0 - - - intraday
        uncross 09:05 - 0 - - - closing
    """
    assert judged_lines(day).word == "incomplete", str(judged_lines(day))
    assert "rows 0 and 1 have one time" in str(judged_lines(day))
    assert judged_lines(day.replace("09:00:10 C bid 50", "09:00:10 C bid 51")).word == "unlawful"


@pytest.mark.parametrize("time", ["09:01:40", "09:02:00", "09:02:40", "09:02:59"])
def test_a_trade_at_its_order_is_of_continuous_trading(time: str) -> None:
    """X and Y traded when Y came, the last row of its call phase; the uncross has none of them."""
    verdict = judged_lines(f"""
        new 09:00 A bid 10 9.00
        uncross 09:01 - 0 - - - opening
        new 09:01:10 X bid 50 10.30
        new {time} Y ask 50 9.80
        trade {time} X Y 50 10.30
        uncross 09:03 - 0 - - - intraday
        uncross 09:05 - 0 - - - closing
    """)
    assert verdict.word == "incomplete", str(verdict)


def test_rows_of_the_time_of_an_uncross_of_which_one_is_beyond_the_program() -> None:
    """C was before the closing, of whose time it is, and so may be an order of too many shares."""
    verdict = judged_lines("""
        new 09:00 A ask 50 10.00
        uncross 09:01 - 0 - - - opening
        uncross 09:02 - 0 - - - intraday
        new 09:03 B bid 20 10.00
        uncross 09:04 10.00 50 0 none 2 closing
        new 09:04 HUGE ask 2500000000 11.00
        new 09:04 C bid 30 10.00
        trade 09:04 B A 20 10.00 closing
        trade 09:04 C A 30 10.00 closing
    """)
    assert verdict.word == "incomplete", str(verdict)


@pytest.mark.parametrize("word", ["-", "continuous"])
def test_a_wrong_count_is_not_that_of_a_trade_outside(word: str) -> None:
    """The opening has one trade, and says two: that of X and Y, which came later, is no second."""
    day = f"""
        new 09:00 A bid 10 10.00
        new 09:00 S ask 10 10.00
        uncross 09:01 10.00 10 0 none 2 opening
        trade 09:01 A S 10 10.00 opening
        new 09:01:20 X bid 50 10.30
        new 09:01:20 Y ask 50 9.80
        trade 09:01:20 X Y 50 10.30 {word}
        new 09:02 D bid 10 9.90
        uncross 09:03 - 0 - - - intraday
        uncross 09:05 - 0 - - - closing
    """
    verdict = judged_lines(day)
    assert [(it.item, it.row) for it in verdict.findings] == [("count", 2)], str(verdict)
    assert judged_lines(day.replace("none 2", "none 1")).word == "incomplete"


def test_a_count_of_other_pairs_beside_a_trade_outside() -> None:
    """Bids trade with asks from the other end, which is three trades instead of two; X and Y, which
    traded later, are two orders of one trade.
    """
    verdict = judged_lines("""
        new 09:00:00 A bid 10 10.00
        new 09:00:01 B bid 20 10.00
        new 09:00:02 S ask 10 10.00
        new 09:00:03 T ask 20 10.00
        uncross 09:01 10.00 30 0 none 3 opening
        trade 09:01 A T 10 10.00 opening
        trade 09:01 B T 10 10.00 opening
        trade 09:01 B S 10 10.00 opening
        new 09:01:20 X bid 50 10.30
        new 09:01:20 Y ask 50 9.80
        trade 09:01:20 X Y 50 10.30
        new 09:02 D bid 10 9.90
        uncross 09:03 - 0 - - - intraday
        uncross 09:05 - 0 - - - closing
    """)
    assert verdict.word == "incomplete", str(verdict)


def test_an_order_that_is_missing_without_a_trace_is_not_noticed() -> None:
    """The rows have one order, so that they give no price, and nothing says that one is missing."""
    day = """
        new 09:00 A ask 50 10.00
        uncross 09:01 10.00 50 0 none 1 opening
    """
    assert judged_lines(day, auctions=["opening"]).word == "unlawful"
    traced = f"{day}trade 09:01 B A 50 10.00 opening"
    assert judged_lines(traced, auctions=["opening"]).word == "incomplete"


def test_an_order_whose_entry_is_not_read_taints_no_day_above_it() -> None:
    """S's row isn't read, and is followed by a cancel of some of its shares, a trade and a cancel;
    the opening, which has a wrong side, is above all of them.
    """
    rows = timed_rows("""
        new 09:00 A bid 10 10.00
        new 09:00 B ask 10 10.00
        uncross 09:01 10.00 10 0 ask 1 opening
        trade 09:01 A B 10 10.00 opening
        new 09:02 C bid 10 10.00
        new 09:02 S ask 1e3 10.00
        cancel 09:02 S 5
        uncross 09:03 10.00 10 985 ask 1 intraday
        trade 09:03 C S 10 10.00 intraday
        cancel 09:04 S
        uncross 09:05 - 0 - - - closing
    """)
    verdict = audit_events(frame_of(rows), reference="10", tick_size="0.01")
    assert [(it.item, it.row) for it in verdict.findings] == [("side", 2)], str(verdict)
    assert verdict.doubtful


# ---- rows of the time of an uncross above


def test_a_place_that_was_kept_before_an_uncross_beside_a_stray_cancel() -> None:
    """A's replace is of the opening's time, and keeps its place only if it came before."""
    verdict = judged_lines("""
        new 09:00 A ask 65 10.00
        new 09:00:10 B bid 20 10.00
        uncross 09:01 10.00 20 40 ask 1 opening
        replace 09:01 A ask 60 10.00 true
        trade 09:01 B A 20 10.00 opening
        cancel 09:02 ZZZ
        uncross 09:03 - 0 - - - intraday
        uncross 09:05 - 0 - - - closing
    """)
    assert verdict.word == "incomplete", str(verdict)
    assert "rows 3 and 2 have one time" in str(verdict)


def test_an_uncross_that_is_lawful_both_ways_decides_what_the_next_one_is() -> None:
    """A's replace, whose price is unchanged, came before the opening, of whose time it is; behind
    it A would have 60 again.
    """
    day = """
        new 09:00 A bid 60 10.05
        new 09:00:10 S ask 45 10.05
        uncross 09:01 10.05 45 15 bid 1 opening
        replace 09:01 A bid 60 - true
        trade 09:01 A S 45 10.05 opening
        new 09:02 B bid 10 10.05
        new 09:02:10 T ask 15 10.05
        uncross 09:03 10.05 15 10 bid 1 intraday
        trade 09:03 A T 15 10.05 intraday
        uncross 09:05 - 0 - - - closing
    """
    assert judged_lines(day).word == "incomplete", str(judged_lines(day))
    assert judged_lines(day.replace("10.05 15 10 bid", "10.05 15 11 bid")).word == "unlawful"


def test_times_that_fall_above_a_corrected_result() -> None:
    """D came before C, by their times; the result between them and the closing is the intraday
    auction's, corrected, and has its time.
    """
    verdict = judged_lines("""
        uncross 09:01 - 0
        new 09:02:00 A ask 60 10.00
        new 09:02:10 B bid 60 10.00
        uncross 09:03 10.05 60 0 none 1
        trade 09:03 B A 60 10.00
        new 09:04:25 C ask 20 10.01
        new 09:04:17 D ask 55 10.01
        new 09:04:29 E bid 50 10.01
        uncross 09:03 10.00 60 0 none 1
        uncross 09:05 10.01 50 25 ask 1
        trade 09:05 E D 50 10.01
    """)
    assert verdict.word == "incomplete", str(verdict)


def test_a_row_that_is_copied_below_all_is_no_file_put_together() -> None:
    """The cancel of A's is once more at the end; the opening has a wrong side."""
    verdict = judged_lines("""
        new 09:00 A bid 20 10.00
        new 09:00 S ask 10 10.00
        uncross 09:01 10.00 10 10 ask 1 opening
        trade 09:01 A S 10 10.00 opening
        cancel 09:02 A 5
        uncross 09:03 - 0 - - - intraday
        uncross 09:05 - 0 - - - closing
        cancel 09:02 A 5
    """)
    assert [it.item for it in verdict.findings] == ["side"], str(verdict)


# ---- copies, and readings that clear one finding of several


def test_a_trade_copied_right_below_it_condemns_no_day() -> None:
    """Two lawful trades of 100, the first of which is recorded twice; a real fault stays one."""
    day = """
        new 08:50:01 A bid 100 10.00
        new 08:50:02 B bid 100 10.00
        new 08:50:03 S ask 200 10.00
        uncross 09:00 10.00 200 0 none 2 opening
        trade 09:00 A S 100 10.00 opening
        trade 09:00 A S 100 10.00 opening
        trade 09:00 B S 100 10.00 opening
    """
    verdict = judged_lines(day, auctions=["opening"])
    assert verdict.word == "incomplete" and "is there twice: is it one?" in str(verdict)
    assert str(verdict.explain(verdict.doubtful[0])).endswith("is it one?")
    for other in ("10.00 200 50 none", "10.01 200 0 none", "10.00 250 0 none"):
        verdict = judged_lines(day.replace("10.00 200 0 none", other), auctions=["opening"])
        assert [it.row for it in verdict.findings] == [3], str(verdict)
        assert [it.item for it in verdict.doubtful] == ["trade"], str(verdict)


def test_a_copied_trade_beside_rows_for_each_side_and_equal_trades() -> None:
    """A trades with S and with T in two parts of 10 each, and B's trade of 20 is recorded twice;
    all have two rows then, so that each of these has four.
    """
    made = ["A S 10", "A S 10", "A T 10", "A T 10", "B T 20", "B T 20"]
    rows = "".join(f"    trade 09:00 {it} 10.00 opening\n" * 2 for it in made)
    verdict = judged_lines(f"""
        new 08:50:01 A bid 40 10.00
        new 08:50:02 B bid 20 10.00
        new 08:50:03 S ask 20 10.00
        new 08:50:04 T ask 40 10.00
        uncross 09:00 10.00 60 0 none 5 opening
{rows}    """, auctions=["opening"])
    assert verdict.word == "incomplete", str(verdict)


# ---- readings clear a finding, whether or not others stay


def test_a_result_twice_beside_a_wrong_count_of_another_auction() -> None:
    """The count is wrong in any reading, all else is right where the second result corrects."""
    verdict = judged_lines("""
        new 08:50:01 A bid 80 10.00
        new 08:50:02 S ask 80 10.00
        uncross 09:00 10.00 40 0 none 1 opening
        uncross 09:00 10.00 80 0 none 1 opening
        trade 09:00 A S 80 10.00 opening
        new 12:50 B bid 100 10.05
        new 12:51 T ask 100 10.05
        uncross 13:00 10.05 100 0 none 2 intraday
        trade 13:00 B T 100 10.05 intraday
        new 17:25 C bid 100 10.07
    """)
    assert [(it.row, it.item) for it in verdict.findings] == [(7, "count")], str(verdict)


def test_orders_of_one_time_beside_a_wrong_surplus() -> None:
    """A and B have one time, and A was first, which clears the trade and not the surplus."""
    verdict = judged_lines("""
        new 08:50:01 B bid 100 10.00
        new 08:50:01 A bid 100 10.00
        new 08:50:03 S ask 100 10.00
        uncross 09:00 10.00 100 70 bid 1 opening
        trade 09:00 A S 100 10.00 opening
    """, auctions=["opening"])
    assert [it.item for it in verdict.findings] == ["surplus"], str(verdict)


def test_two_unread_entries_in_two_call_phases_leave_no_certain_trade() -> None:
    """S had 75 executed in the opening, by a bid that isn't read; its 175 and the 75 of T, which
    isn't read either, are as many as the 250 of S.
    """
    verdict = judged_lines("""
        new 08:50 S ask 250 10.00
        new 08:51 A bid ? 10.03
        uncross 09:00 10.00 75 175 ask 1 opening
        trade 09:00 A S 75 10.00 opening
        new 17:20 B bid 1500 10.00
        new 17:21 T ask ? 10.00
        uncross 17:35 10.00 250 1250 bid 2 closing
        trade 17:35 B S 175 10.00 closing
        trade 17:35 B T 75 10.00 closing
    """, auctions=["opening", "closing"])
    assert verdict.word == "incomplete", str(verdict)


def test_a_wrong_price_is_one_finding_beside_trades_at_another() -> None:
    """No trade is at the published price; where it is wrong, that is all."""
    day = """
        new 08:50:01 A bid 100 10.00
        new 08:50:02 B bid 100 10.00
        new 08:50:03 S ask 200 10.00
        uncross 09:00 10.01 200 0 none 2 opening
        trade 09:00 A S 100 10.00 opening
        trade 09:00 B S ? 10.00 opening
    """
    found = judged_lines(day, auctions=["opening"]).findings
    assert [it.item for it in found] == ["price"], str(found)
    unread = judged_lines(day.replace("S ask 200", "S ask ?"), auctions=["opening"])
    assert [it.recorded for it in unread.findings] == ["trades at 10"], str(unread)
    assert unread.findings[0].lawful == "at the published 10.01"


@pytest.mark.parametrize("order", ["s1", "S01", "0S1"])
@pytest.mark.parametrize("event", ["replace", "cancel"])
def test_an_order_that_a_replace_or_a_cancel_spells_otherwise(order: str, event: str) -> None:
    """It may be S1: so the trades of S1, or those of the one behind it, are lawful. An id that none
    is like leaves them certain.
    """
    rest = "ask 100 10.01" if event == "replace" else ""
    traded = "S1" if event == "replace" else "S2"
    day = f"""
        new 08:50:01 S1 ask 100 {'10.02' if event == 'replace' else '10.00'}
        new 08:50:02 S2 ask 100 {'10.03' if event == 'replace' else '10.01'}
        new 08:50:03 B bid 100 10.01
        {event} 08:50:04 {order} {rest}
        uncross 09:00 10.01 100 0 none 1 opening
        trade 09:00 B {traded} 100 10.01 opening
    """
    verdict = judged_lines(day, auctions=["opening"])
    assert verdict.word == "incomplete", str(verdict)
    if event == "replace":
        other = judged_lines(day.replace(order, "Q7"), auctions=["opening"])
        assert other.word == "unlawful", str(other)


@pytest.mark.parametrize("other, time", [("intraday", "13:00"), ("closing", "17:30")])
def test_a_trade_that_names_another_auction_is_of_its_own(other: str, time: str) -> None:
    """Its row, and the time of that, are the opening's."""
    verdict = judged_lines(f"""
        new 09:00 A bid 10 10.00
        new 09:00:10 S ask 10 10.00
        uncross 09:01 10.00 10 0 none 1 opening
        trade 09:01 A S 10 10.00 {other}
        new 12:50 B bid 20 10.05
        new 12:51 T ask 20 10.05
        uncross 13:00 10.05 20 0 none 1 intraday
        trade 13:00 B T 20 10.05 intraday
        uncross 17:30 - 0 - - - closing
    """)
    [finding] = verdict.findings
    assert (finding.row, finding.time, finding.auction) == (3, "09:01", "opening"), str(verdict)
    assert f"in the {other}, lawful in the opening" in str(finding) and time not in str(finding)


# ---- trades of an auction whose result has no row

HELD = """
    new 09:00:00 A bid 10 10.00
    new 09:00:10 S ask 10 10.00
    uncross 09:01 10.00 10 0 none 1 opening
    trade 09:01 A S 10 10.00
    new 12:50 B bid 20 10.05
    new 12:51 T ask 20 10.05
    uncross 13:00 10.05 20 0 none 1 intraday
    trade 13:00 B T 20 10.05
    new 17:20 C bid 30 10.10
    new 17:21 U ask 30 10.10
    uncross 17:30 10.10 30 0 none 1 closing
    trade 17:30 C U 30 10.10
"""


def held_without(*results: str, has_names: bool = True) -> str:
    """The day whose trades name no auction, without the rows of these results."""
    lines = [line for line in HELD.splitlines() if line.rpartition(" ")[2] not in results]
    names = r" (opening|intraday|closing)$"
    return "\n".join(line if has_names else re.sub(names, "", line) for line in lines)


TIMED = {"13:00": "intraday", "17:30": "closing", "09:01": "opening"}


@pytest.mark.parametrize("has_names", [True, False])
@pytest.mark.parametrize("lost", [
    ("opening",), ("intraday",), ("closing",), ("intraday", "closing"), ("opening", "closing"),
])  # fmt: skip
def test_each_row_is_of_the_auction_of_its_time(lost: tuple[str, ...], has_names: bool) -> None:
    """Whichever results have no row: there are as many blocks of trades as auctions."""
    verdict = judged_lines(held_without(*lost, has_names=has_names))
    assert verdict.word == "incomplete" and verdict.doubtful, str(verdict)
    assert [it.auction for it in verdict.doubtful] == [TIMED[it.time] for it in verdict.doubtful]


def test_a_trade_of_an_auction_without_a_row_says_so() -> None:
    verdict = judged_lines(held_without("closing"))
    assert str(verdict.doubtful[0]) == (
        "doubtful: row 10, 17:30, closing: trade: recorded bid C ask U: 30 at 10.10, "
        "lawful no such trade: the closing has no row: --auctions says which are held"
    )
    assert verdict.explain(verdict.doubtful[0])[0] == "No row says what the closing published."
    assert not len(verdict.queue(verdict.doubtful[0]))
    named = held_without("closing").replace("C U 30 10.10", "C U 30 10.10 closing")
    [finding] = judged_lines(named).doubtful
    assert (finding.auction, finding.doubt) == ("closing", "the closing has no row uncross")


def test_a_trade_of_one_of_two_auctions_without_a_row_is_in_doubt_between_them() -> None:
    """An order that is entered below it says that the closing isn't over."""
    day = held_without("intraday", "closing")
    lone = day[: day.index("new 17:20")]
    [finding] = judged_lines(lone).doubtful
    assert finding.auction == "intraday or closing" and "the intraday and the closing have no" in (
        finding.doubt
    )
    [finding] = judged_lines(f"{lone}new 17:20 C bid 30 9.00").doubtful
    assert finding.auction == "intraday"


def test_orders_for_the_closing_alone_trade_in_it_without_its_row() -> None:
    """They are entered above the intraday auction, and nothing is between it and their trade."""
    day = timed_rows(held_without("closing"))
    both = [row for row in day if row["time"] in ("17:20", "17:21")]
    rest = [row for row in day if row not in both]
    for row, time in zip(both, ("12:52", "12:53")):
        row |= {"time": time, "restriction": "closing"}
    rest[5:5] = both
    terms = dict(reference="10", tick_size="0.01")
    verdict = audit_events(frame_of(rest), **terms)  # type: ignore[arg-type]
    assert verdict.word == "incomplete", str(verdict)
    assert [it.auction for it in verdict.doubtful] == ["closing"]
    rest[-1]["time"] = "13:00"
    verdict = audit_events(frame_of(rest), **terms)  # type: ignore[arg-type]
    assert verdict.word == "unlawful", str(verdict)


# ---- corrections at the end of a file


@pytest.mark.parametrize("span", [None, "1"])
@pytest.mark.parametrize("has_names", [True, False])
@pytest.mark.parametrize("number", range(3))
@pytest.mark.parametrize("time", ["its own", "18:00"])
def test_a_corrected_result_below_all_rows_condemns_no_day(
    time: str, number: int, has_names: bool, span: str | None
) -> None:
    """It has the time of its auction, or that of the correction; a day with a fault in another
    auction is unlawful.
    """
    rows = timed_rows(held_without(has_names=has_names))
    ends = [row for row in rows if row["event"] == "uncross"]
    right = dict(ends[number])
    ends[number]["price"] = f"{float(right['price']) + 0.02:.2f}"
    rows.append(right if time == "its own" else right | {"time": time})
    terms: dict[str, Any] = dict(reference="10", tick_size="0.01", range=span)
    verdict = audit_events(frame_of(rows), **terms)
    assert verdict.word == "incomplete", str(verdict)
    other = ends[0 if number == 2 else 2]
    other["surplus"] = "7"
    assert audit_events(frame_of(rows), **terms).word == "unlawful"

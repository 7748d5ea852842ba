"""A fault beside a damage of other rows, or beside another fault, and a damage beside another: what
each leaves certain. The small days were worked out by hand.
"""
import io

import pytest
from callauction.verdict import Reading, Verdict, audit_events

HEADER = (
    "event,time,order,member,side,price,quantity,surplus,auction,trades,bid,ask,bid_member,"
    "ask_member\n"
)


def verdict_on(rows: str, auctions: tuple[str, ...] = ("opening",)) -> Verdict:
    text = HEADER + rows
    return audit_events(io.BytesIO(text.encode()), reference="10.00", tick_size="0.01",
                        auctions=auctions, reading=Reading(unrestricted=True))  # fmt: skip


# ---- a wrong member beside another fault or damage

BOOK = """new,08:50:00,A,DORN,bid,10.00,100,,,,,,,
replace,08:50:01,A,DORN,bid,10.00,200,,,,,,,
new,08:50:02,B,BIRK,bid,10.00,100,,,,,,,
new,08:50:{},C,COHN,bid,{},100,,,,,,,
new,08:50:04,S,ADLER,ask,10.00,300,,,,,,,
uncross,09:00:00,,,{},10.00,300,{},opening,2,,,,
trade,09:00:00,,,,10.00,200,,opening,,A,S,{},ADLER
trade,09:00:00,,,,10.00,100,,opening,,{},S,{},ADLER
"""
"""S sells 300: A buys 200 and B 100 before C."""


@pytest.mark.parametrize("second, limit, surplus, order, member, doubtful", [
    ("03", "10.00", 100, "C", "COHN", 0),  # C jumped B's priority
    ("03", "9.90", 0, "C", "COHN", 0),  # C bought beyond its limit
    ("02", "10.00", 100, "C", "COHN", 1),  # B and C have one time
    ("03", "10.00", 100, "b", "BIRK", 1),  # an id in another spelling
])
def test_a_wrong_member_is_a_finding_beside_what_else_differs(
    second: str, limit: str, surplus: int, order: str, member: str, doubtful: int
) -> None:
    """The trade of A names EHRL."""
    side = "bid" if surplus else "none"
    verdict = verdict_on(BOOK.format(second, limit, side, surplus, "EHRL", order, member))
    assert verdict.word == "unlawful" and len(verdict.doubtful) == doubtful
    assert [it.row for it in verdict.findings if "EHRL" in it.recorded] == [8]
    assert len(verdict.findings) == 2 - doubtful
    right = verdict_on(BOOK.format(second, limit, side, surplus, "DORN", order, member))
    assert len(right.findings) == 1 - doubtful and len(right.doubtful) == doubtful


# ---- trades with ids of another system beside other damage

OTHER_IDS = """new,08:50:00,A,DORN,bid,10.00,100,,,,,,,
new,08:50:01,B,BIRK,bid,10.00,100,,,,,,,
new,08:50:02,S,ADLER,ask,10.00,200,,,,,,,
uncross,09:00:00,,,,10.00,200,0,opening,2,,,,
"""
FIRST = "trade,09:00:00,,,,10.00,100,,opening,,H1,H3,DORN,ADLER\n"
OTHER = "trade,09:00:00,,,,10.00,100,,opening,,H2,H3,BIRK,ADLER\n"
WRONG = "trade,09:00:00,,,,10.00,300,,opening,,H1,H3,DORN,ADLER\n"


@pytest.mark.parametrize("trades", [
    FIRST + OTHER,
    FIRST + OTHER.replace("100", "1e3"),  # a trade that can't be read
    FIRST,  # the file was cut behind it
    WRONG + WRONG.replace("trade", "bust").replace("300", "x") + FIRST + OTHER,
])
def test_ids_that_no_order_has_are_in_doubt_beside_unread_trades_and_busts(trades: str) -> None:
    verdict = verdict_on(OTHER_IDS + trades)
    assert verdict.word == "incomplete" and not verdict.findings
    assert any("no trade has an order's id" in it.doubt for it in verdict.doubtful)


# ---- an event that isn't known, of an order, above all trades

ACKNOWLEDGED = """new,08:50:00,A,DORN,bid,10.00,200,,,,,,,
ack,08:50:01,A,DORN,,,,,,,,,,
new,08:50:02,S,ADLER,ask,10.00,200,,,,,,,
uncross,09:00:00,,,,10.00,200,0,{},1,,,,
trade,09:00:00,,,,10.00,200,,opening,,A,S,DORN,ADLER
"""


def test_an_unknown_event_of_an_order_is_no_other_auction() -> None:
    assert verdict_on(ACKNOWLEDGED.format("opening")).word == "incomplete"
    verdict = verdict_on(ACKNOWLEDGED.format("closing"))
    assert verdict.word == "unlawful" and [it.item for it in verdict.findings] == ["auction"]


# ---- what is said


def test_a_recorded_price_that_is_no_limit_is_said_to_be_none() -> None:
    """Bids of 200 at 10.05 and asks of 300 at 10.00: both limits execute 200, and leave 100 asks,
    so the lower one is the price.
    """
    verdict = verdict_on("""new,08:50:00,A,DORN,bid,10.05,200,,,,,,,
new,08:50:02,S,ADLER,ask,10.00,300,,,,,,,
uncross,09:00:00,,,ask,10.02,200,100,opening,1,,,,
trade,09:00:00,,,,10.02,200,,opening,,A,S,DORN,ADLER
""")
    [finding] = [it for it in verdict.findings if it.item == "price"]
    assert finding.lawful == "10.00"
    assert "10.02, which is no order's limit, executes 200 with 100 ask left" in finding.effect


def test_a_session_over_midnight_is_told_what_it_needs() -> None:
    verdict = verdict_on("""new,23:20:00,A,DORN,bid,10.00,200,,,,,,,
new,23:21:00,S,ADLER,ask,10.00,200,,,,,,,
uncross,08:00:00,,,,10.00,200,0,opening,1,,,,
trade,08:00:00,,,,10.00,200,,opening,,A,S,DORN,ADLER
""")
    assert verdict.word == "incomplete"
    assert any("a session over midnight needs dates" in it.doubt for it in verdict.doubtful)

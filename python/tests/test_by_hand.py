"""Small days that were worked out by hand: what a reading of their rows makes lawful is never
certain, and what none does stays so.
"""
import io
from typing import Any

import pytest
from callauction.verdict import Reading, Verdict, audit_events, shapes

HEADER = "event,order,member,side,price,quantity,peak,surplus,auction,trades,bid,ask"
OPENING: dict[str, Any] = {"reference": "10.00", "tick_size": "0.01", "auctions": ["opening"]}


def audited(rows: str, header: str = HEADER, **options: Any) -> Verdict:
    """The verdict on a day of the opening, of rows that blanks part, as a file has them."""
    text = "".join(f"{row}\n" for row in (header, *rows.split()))
    return audit_events(io.BytesIO(text.encode()), **{**OPENING, **options})


def shown(verdict: Verdict) -> list[tuple[object, str, str]]:
    """The row, the item and the recorded value of each finding that is certain."""
    return [(it.row, it.item, it.recorded) for it in verdict.findings]


# ---- the orders of one member in lots


def in_lots(lot: int, of_c: int = 300) -> str:
    """A day on which B and D of one member say lots: A buys all that they and C sell."""
    volume = 8 * lot + 300
    return f"""
        new,A,Adler,bid,10.02,2000,500,,,,,
        new,B,Falk,ask,10.00,5,,,,,,
        new,D,Falk,ask,10.00,3,,,,,,
        new,C,Graf,ask,10.00,300,,,,,,
        uncross,,,bid,10.02,{volume},,{2000 - volume},opening,3,,
        trade,,,,10.02,{5 * lot},,,opening,,A,B
        trade,,,,10.02,{3 * lot},,,opening,,A,D
        trade,,,,10.02,{of_c},,,opening,,A,C"""


@pytest.mark.parametrize("lot", [10, 50, 100])
def test_orders_of_one_member_may_be_in_lots(lot: int) -> None:
    verdict = audited(in_lots(lot))
    assert verdict.word == "incomplete", str(verdict)
    assert any(f"in lots of {lot}?" in it.doubt for it in verdict.doubtful)
    recorded = {it.recorded for it in verdict.doubtful if it.item == "volume"}
    assert recorded == {f"{8 * lot + 300:,}"}


@pytest.mark.parametrize("lot", [10, 50, 100])
def test_a_trade_beside_orders_in_lots_is_still_wrong(lot: int) -> None:
    """C is recorded with 299 of the 300 that it has, which no lots give, and no trade is cut off.
    """
    verdict = audited(in_lots(lot, 299) + " new,Z,Zorn,bid,9.00,1,,,,,,")
    rows = {it.row for it in verdict.findings}
    assert rows and rows <= {6, 9}, str(verdict)  # their volume, or the trade


def test_one_order_in_a_lot_of_its_own_is_a_doubt_where_the_volume_has_it() -> None:
    rows = """
        new,A,Adler,bid,10.02,2000,500,,,,,
        new,B,Falk,ask,10.00,5,,,,,,
        new,C,Graf,ask,10.00,300,,,,,,
        uncross,,,bid,10.02,550,,1450,opening,2,,
        trade,,,,10.02,250,,,opening,,A,B
        trade,,,,10.02,300,,,opening,,A,C"""
    verdict = audited(rows)
    assert verdict.word == "incomplete" and verdict.doubtful, str(verdict)
    wrong = audited(rows.replace(",10.02,550,,1450,", ",10.02,305,,1695,"))
    assert wrong.word == "unlawful", str(wrong)  # 5 and 300, as the orders say
    alone = audited(rows.replace(",10.02,550,,1450,", ",10.02,,,,"))
    assert alone.word == "unlawful", str(alone)  # nothing but the trade has 250


def test_an_order_that_has_not_all_of_its_lots_executed_is_a_doubt() -> None:
    """A buys 200 of the 250 that B has in lots of 50; 3 for 200 is no lot of B's."""
    rows = """
        new,A,Adler,bid,10.02,200,50,,,,,
        new,B,Falk,ask,10.00,{},,,,,,
        uncross,,,ask,10.00,200,,50,opening,1,,
        trade,,,,10.00,200,,,opening,,A,B"""
    verdict = audited(rows.format(5))
    assert verdict.word == "incomplete" and verdict.doubtful, str(verdict)
    assert audited(rows.format(3)).word == "unlawful"


SURPLUS_OF_LOTS = """
    new,A,Fink,bid,10.00,800,,,,,,
    new,C,Adler,ask,9.50,300,,,,,,
    new,D,Dorn,bid,10.00,8,,,,,,
    new,E,Dorn,bid,9.40,5,,,,,,
    uncross,,,bid,10.00,300,,{},opening,1,,
    trade,,,,10.00,300,,,opening,,A,C"""


@pytest.mark.parametrize("lot", [10, 50, 100])
def test_orders_in_lots_that_only_the_surplus_shows_are_a_doubt(lot: int) -> None:
    """A and D buy at 10.00, and 300 are executed: 500 of A are left, and D's 8 lots."""
    verdict = audited(SURPLUS_OF_LOTS.format(500 + 8 * lot))
    assert verdict.word == "incomplete", str(verdict)
    assert [it.item for it in verdict.doubtful] == ["surplus"]
    assert f"Dorn's orders in lots of {lot}, as in row 4?" in verdict.doubtful[0].doubt


def test_a_surplus_of_another_number_of_lots_is_certain() -> None:
    """1,299 is none that lots of D give, A and C have no lots of 1,000, and 100 shares of D beside
    theirs are none.
    """
    assert audited(SURPLUS_OF_LOTS.format(1299)).word == "unlawful"
    assert audited(SURPLUS_OF_LOTS.format(8500)).word == "unlawful"
    whole = SURPLUS_OF_LOTS.replace(",8,", ",100,").replace("9.40,5,", "9.40,50,")
    assert audited(whole.format(600)).word == "lawful"
    assert audited(whole.format(1500)).word == "unlawful"


# ---- an interruption that was published twice


STOPS = "event,order,side,price,quantity,surplus,auction,trades,bid,ask"
STOPPED_DAY = """
    new,A,bid,10.50,300,,,,,
    new,B,ask,10.50,300,,,,,
    uncross,,none,10.50,307,0,interrupted,,,
    uncross,,none,10.50,300,0,interrupted,,,
    new,C,ask,10.20,100,,,,,
    uncross,,ask,10.50,300,100,opening,2,,
    trade,,,10.50,100,,opening,,A,C
    trade,,,10.50,200,,opening,,A,B"""
WITHIN = {"range": "2%", "reading": Reading(unrestricted=True)}


@pytest.mark.parametrize("options", [WITHIN, {"reading": Reading(unrestricted=True)}])
def test_a_later_interruption_may_correct_one(options: dict[str, Any]) -> None:
    """10.50 is beyond 2% of 10.00, and of 300 shares: 307 is corrected."""
    verdict = audited(STOPPED_DAY, STOPS, **options)
    assert verdict.word == "incomplete", str(verdict)


def test_two_interruptions_that_are_no_correction_are_certain() -> None:
    """Neither has 300 shares, or the second one is of the book with 50 more to sell."""
    wrong = audited(STOPPED_DAY.replace(",10.50,300,0,", ",10.50,299,0,"), STOPS, **WITHIN)
    assert {row for row, *_ in shown(wrong)} == {4, 5}, str(wrong)
    rows = STOPPED_DAY.replace("307", "300").split()
    rows[3] = "uncross,,ask,10.50,300,50,interrupted,,,"
    rows.insert(3, "new,D,ask,10.50,50,,,,,")
    again = audited(" ".join(rows), STOPS, **WITHIN)
    assert (6, "auction", "interrupted") in shown(again), str(again)


# ---- a replace that has lost its price


PRICED = "event,order,member,side,price,quantity,surplus,auction,trades,bid,ask,restriction"
UNPRICED = """
    new,A,Jung,bid,21.45,638,,,,,,
    replace,A,Jung,bid,,1272,,,,,,
    new,C,Jung,bid,20.00,5,,,,,,
    replace,C,Jung,bid,20.00,4,,,,,,
    new,B,Falk,ask,21.43,33,,,,,,
    uncross,,,bid,21.45,33,1239,intraday,1,,,
    trade,,,,21.45,33,,intraday,,A,B,"""
MARKET = """
    new,A,Jung,bid,21.45,638,,,,,,
    replace,A,Jung,bid,,1272,,,,,,
    new,C,Jung,bid,20.00,5,,,,,,
    replace,C,Jung,bid,20.00,4,,,,,,
    new,B,Falk,ask,21.43,33,,,,,,
    new,M,Mann,bid,,7,,,,,,
    uncross,,,bid,21.45,33,1246,intraday,2,,,
    trade,,,,21.45,7,,intraday,,M,B,
    trade,,,,21.45,26,,intraday,,A,B,"""
"""M stands before A, whose limit is the price as long as it has one."""
INTRADAY = {"reference": "21.47", "auctions": ["intraday"]}


@pytest.mark.parametrize("rows", [UNPRICED, MARKET], ids=["unpriced", "market"])
def test_a_price_that_a_replace_lacks_may_be_the_one_before(rows: str) -> None:
    verdict = audited(rows, PRICED, **INTRADAY)
    assert verdict.word == "incomplete", str(verdict)
    assert any("is it unchanged?" in it.doubt for it in verdict.doubtful)


def test_a_price_that_neither_reading_of_a_replace_gives_is_certain() -> None:
    """At market A leaves 21.43, as before 21.45."""
    verdict = audited(MARKET.replace(",21.45,33", ",21.44,33"), PRICED, **INTRADAY)
    assert ("price", "21.44") in [it[1:] for it in shown(verdict)], str(verdict)


def test_shares_beside_a_replace_without_a_price_are_certain() -> None:
    """Its trades have 33, whatever its books are."""
    verdict = audited(UNPRICED.replace("bid,21.45,33,", "bid,21.45,32,"), PRICED, **INTRADAY)
    assert (7, "volume", "32") in shown(verdict), str(verdict)


# ---- a price that has lost its sign of decimals


SIGNED = """
    new,A,,bid,18.710,300,,,,,,
    new,B,,ask,{},100,,,,,,
    new,C,,ask,18.700,100,,,,,,
    uncross,,,bid,18.710,200,,100,opening,2,,
    trade,,,,18.710,100,,,opening,,A,C
    trade,,,,18.710,100,,,opening,,A,B"""
THIRDS = {"reference": "18.70", "tick_size": "0.005"}


@pytest.mark.parametrize("price, doubt", [
    ("18710", "is the price 18710 18.710 without its sign of decimals?"),
    ("187100", "is the price 187100 18.7100 without its sign of decimals?"),
    ("1871", "is the price 1871 18.71, in cents?"),
])
def test_a_price_may_lack_its_sign_of_decimals(price: str, doubt: str) -> None:
    verdict = audited(SIGNED.format(price), **THIRDS)
    assert verdict.word == "incomplete", str(verdict)
    assert {it.doubt for it in verdict.doubtful} == {doubt}


def test_a_price_that_is_far_off_in_each_unit_is_certain() -> None:
    """And beyond the price: 30.00 of 3000."""
    for price in ("18710.5", "3000"):
        verdict = audited(SIGNED.format(price), **THIRDS)
        assert verdict.word == "unlawful", str(verdict)


# ---- words of `kept`


KEPT = """
    new,A,,bid,10.00,10,,,,,,,
    replace,A,,bid,10.00,5,,,,,,,{}
    new,B,,ask,10.00,5,,,,,,,
    uncross,,,none,10.00,{},,0,opening,1,,,
    trade,,,,10.00,{},,,opening,,A,B,"""
"""Fewer shares at the same limit: A keeps its place."""


@pytest.mark.parametrize("word, is_kept", [
    ("yes", True), ("Y", True), ("true", True), ("1", True),
    ("no", False), ("N", False), ("False", False), ("0", False),
])
def test_words_say_whether_a_place_was_kept(word: str, is_kept: bool) -> None:
    verdict = audited(KEPT.format(word, 5, 5), HEADER + ",kept")
    assert verdict.word == ("lawful" if is_kept else "unlawful"), str(verdict)
    assert len(verdict.findings) == (not is_kept) and not verdict.bad_rows


def test_a_doubt_for_a_row_that_is_not_read_is_a_sentence() -> None:
    verdict = audited(KEPT.format("ja", 4, 4), HEADER + ",kept")
    words = "true, false, 1, 0, yes, no, y, n (--values kept:ja=OURS says what it means)"
    why = f"it isn't known what row 3 does: kept 'ja' is none of {words}"
    assert verdict.word == "incomplete" and {it.doubt for it in verdict.doubtful} == {why}
    ours = Reading(values={"kept": {"ja": "true"}})
    assert audited(KEPT.format("ja", 5, 5), HEADER + ",kept", reading=ours).word == "lawful"


# ---- a log that begins in the middle


NUMBERED = "sequence,event,order,side,price,quantity,surplus,auction,trades"
CUT = """
    8,new,A,bid,10.02,50,,,
    9,new,B,ask,10.00,100,,,
    10,uncross,,{},opening,"""


def test_a_log_that_begins_above_1_is_judged_by_its_books() -> None:
    """It may be whole. A bid for 100 at 10.02 that was cut off would be executed before A."""
    reading = Reading(unrestricted=True)
    whole = audited(CUT.format("ask,10.00,50,50"), NUMBERED, reading=reading)
    assert not whole.findings and not whole.doubtful, str(whole)
    lacking = audited(CUT.format("bid,10.02,100,50"), NUMBERED, reading=reading)
    assert lacking.word == "incomplete" and lacking.doubtful, str(lacking)


# ---- a file whose rows are in another order than their times


TIMED = "time,event,order,side,price,quantity,surplus,auction,trades,bid,ask"
UNSORTED = """
    09:00:00.000,uncross,,bid,10.00,200,100,opening,2,,
    08:58:01.000,new,A,bid,10.00,300,,,,,
    08:58:04.000,new,T,ask,10.00,100,,,,,
    09:00:00.000,trade,,,10.00,{},,opening,,A,T
    09:00:00.000,trade,,,10.00,100,,opening,,A,S
    08:58:03.000,new,S,ask,10.00,100,,,,,"""
SORTED = {"reading": Reading(sort=True, unrestricted=True)}


def test_the_end_of_an_unsorted_file_excuses_no_trade_of_another_time() -> None:
    """Of 200 shares T sold 100, and 60 are published."""
    assert audited(UNSORTED.format(100), TIMED, **SORTED).word == "lawful"
    verdict = audited(UNSORTED.format(60), TIMED, **SORTED)
    assert shown(verdict), str(verdict)


def test_the_end_of_a_sorted_file_excuses_a_trade_of_its_time() -> None:
    rows = sorted(UNSORTED.format(100).split(), key=lambda row: row[:8])
    cut = audited(" ".join(rows[:-1]), TIMED, **SORTED)
    assert cut.word == "incomplete" and cut.doubtful, str(cut)
    assert all("the file ends with row 6, and may be" in it.doubt for it in cut.doubtful), str(cut)


LATER_FIRST = """
    16:00:00.000,uncross,,none,10.00,50,0,closing,1,,
    16:00:00.000,trade,,,10.00,50,,closing,,C,D
    15:58:01.000,new,C,bid,10.00,50,,,,,
    15:58:02.000,new,D,ask,10.00,50,,,,,
    08:58:01.000,new,A,bid,10.00,200,,,,,
    08:58:03.000,new,S,ask,10.00,100,,,,,
    08:58:04.000,new,T,ask,10.00,100,,,,,
    09:00:00.000,uncross,,none,10.00,200,0,opening,2,,
    09:00:00.000,trade,,,10.00,100,,opening,,A,S"""


def test_the_end_of_a_sorted_file_may_cut_the_trades_of_an_earlier_auction() -> None:
    """The trade of A and T would be next."""
    both: dict[str, Any] = {"auctions": ["opening", "closing"], **SORTED}
    whole = f"{LATER_FIRST} 09:00:00.000,trade,,,10.00,100,,opening,,A,T"
    assert audited(whole, TIMED, **both).word == "lawful"
    cut = audited(LATER_FIRST, TIMED, **both)
    assert cut.word == "incomplete", str(cut)
    assert {it.doubt for it in cut.doubtful} == {"the file ends with row 10, and may be cut there"}


# ---- ids of trades that no order has


NAMED = HEADER.replace(",peak", "") + ",bid_member,ask_member"
SPELLED = """
    new,A1a,Hahn,ask,10.00,60,,,,,,,
    new,B1b,Graf,bid,10.00,60,,,,,,,
    new,bX4q,Graf,bid,9.90,66,,,,,,,
    uncross,,,none,{},60,0,opening,1,,,,
    trade,,,,10.00,60,,opening,,B1b,A1a,Graf,Hahn
    new,C1c,Igel,ask,9.90,66,,,,,,,
    uncross,,,none,9.90,66,0,intraday,1,,,,
    trade,,,,9.90,66,,intraday,,Bx4q,C1c,Graf,Igel"""


def test_an_id_in_two_spellings_is_a_doubt_beside_a_fault_of_another_auction() -> None:
    """Two orders for 60 shares at 10.00 give 10.00, and not 10.01."""
    both: dict[str, Any] = {"auctions": ["opening", "intraday"]}
    assert audited(SPELLED.format("10.00"), NAMED, **both).word == "incomplete"
    verdict = audited(SPELLED.format("10.01"), NAMED, **both)
    assert {it.auction for it in verdict.findings} == {"opening"}, str(verdict)
    assert any("written in two ways" in it.doubt for it in verdict.doubtful), str(verdict)


FOREIGN = """
    new,17013,Graf,ask,25.73,950,,,,,,,
    replace,17013,Graf,ask,25.73,1400,,,,,,,
    new,17026,Graf,bid,25.73,900,,,,,,,
    new,17039,Graf,bid,25.74,550,,,,,,,
    uncross,,,bid,25.73,1400,50,intraday,2,,,,
    trade,,,,25.73,550,,intraday,,{0},{1},Graf,Graf
    trade,,,,25.73,850,,intraday,,{0},{1},Graf,Graf"""


@pytest.mark.parametrize("ids", [("1.70E+04", "1.70E+04"), ("T1", "T2")])
def test_ids_of_trades_that_no_order_has_are_a_doubt_beside_a_replace(ids: tuple[str, str]) -> None:
    """550 of the bid at 25.74 and 850 of that at 25.73 are the 1,400 to sell."""
    terms: dict[str, Any] = {"reference": "25.73", "auctions": ["intraday"]}
    verdict = audited(FOREIGN.format(*ids), NAMED, **terms)
    assert verdict.word == "incomplete", str(verdict)
    wrong = audited(FOREIGN.format(*ids).replace("25.73,850", "25.74,850"), NAMED, **terms)
    assert wrong.word == "unlawful", str(wrong)


# ---- a result of market data that was published twice


def fix_log(*results: str, is_last_late: bool) -> bytes:
    """A log of FIX messages of the opening: A buys 300 of B's 300 at 10.00, with these volumes in
    market data, all above the trade, or the last one below it.
    """
    head = "8=FIX.4.4|9=9|35={}|34={}|48=DE1|60=20261127-09:00:0{}"
    order = "|37={}|17=X{}|150=0|54={}|40=2|44=10.00|38=300|151=300|59=0"
    fill = "|37={}|17=X{}|150=F|54={}|31=10.00|32=300|151=0|880=T1|625=2"
    data = "|625=2|268=3|269=Q|270=10.00|269=B|271={}|269=A|271=0"
    rows = [("8", order.format("A", 1, 1)), ("8", order.format("B", 2, 2))]
    rows += [("W", data.format(it)) for it in results]
    fills = [("8", fill.format("A", 3, 1)), ("8", fill.format("B", 4, 2))]
    at = len(rows) - is_last_late
    rows[at:at] = fills
    lines = (f"{head.format(it[0], at, at)}{it[1]}|10=1|" for at, it in enumerate(rows, 1))
    return "".join(f"{line}\n" for line in lines).encode()


@pytest.mark.parametrize("is_last_late", [False, True])
def test_a_later_result_of_market_data_may_correct_one(is_last_late: bool) -> None:
    """Above the trade the first of two is an indication; else it is a row that isn't read. No side
    is published.
    """
    found = {}
    for volumes in (("299", "300"), ("299", "298"), ("300",), ("299",)):
        log = io.BytesIO(fix_log(*volumes, is_last_late=is_last_late))
        verdict = audit_events(log, **OPENING, reading=shapes.reading_of("fix"))
        found[volumes] = verdict.word, len(verdict.bad_rows)
    assert found == {
        ("299", "300"): ("incomplete", int(is_last_late)),
        ("299", "298"): ("unlawful", int(is_last_late)),
        ("300",): ("incomplete", 0), ("299",): ("unlawful", 0),
    }  # fmt: skip

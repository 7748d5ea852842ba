"""One fault is one finding, in words that are true: of each day the fault is planted by hand."""
import csv
import datetime
from pathlib import Path

import pytest
from callauction.__main__ import main
from desk import audited, base_day, text_of
from extracts import Rows

HEADER = "event,order,side,price,quantity,surplus,auction,trades,bid,ask,time\n"


def lines_of(
    text: str, auctions: str, folder: Path, capsys: pytest.CaptureFixture[str], status: int = 4,
    *others: str,
) -> list[str]:  # fmt: skip
    """What an audit of a day of HEADER's columns prints, on standard error last."""
    path = folder / "day.csv"
    path.write_text(HEADER + text)
    words = ["audit", str(path), "--reference", "10", "--tick-size", "0.01", "--quantity", "open"]
    assert main([*words, "--auctions", auctions, *others]) == status
    printed = capsys.readouterr()
    return [*printed.out.splitlines(), *printed.err.splitlines()]


def new(order: str, side: str, quantity: int, time: str = "") -> str:
    return f"new,{order},{side},10.00,{quantity},,,,,,{time}\n"


def uncross(auction: str, volume: int, surplus: int, side: str, trades: int) -> str:
    return f"uncross,,{side},10.00,{volume},{surplus},{auction},{trades},,,\n"


def trade(auction: str, bid: str, ask: str, quantity: int) -> str:
    return f"trade,,,10.00,{quantity},,{auction},,{bid},{ask},\n"


PASSED_OVER = "".join([
    new("A", "ask", 13), new("C", "ask", 16), new("D", "ask", 8), new("B", "bid", 7),
    new("F", "bid", 11), uncross("intraday", 18, 19, "ask", 3), trade("intraday", "B", "D", 7),
    trade("intraday", "F", "D", 1), trade("intraday", "F", "C", 10), new("E", "bid", 12),
    new("G", "bid", 7), uncross("closing", 19, 0, "none", 3), trade("closing", "E", "A", 12),
    trade("closing", "G", "A", 1), trade("closing", "G", "C", 6),
])  # fmt: skip


@pytest.mark.parametrize("has_executed", [False, True])
def test_an_auction_that_is_published_without_a_price(
    has_executed: bool, tmp_path: Path, capsys: pytest.CaptureFixture[str]
) -> None:
    """The opening should execute 600 shares. Its engine executed none, and the next auction is that
    of the book with them; or the price alone isn't published.
    """
    both = [trade("intraday", "B", "S", 600), trade("intraday", "B", "T", 300)]
    left = [uncross("intraday", 900, 100, "bid", 2), *both]
    if has_executed:
        left = [uncross("intraday", 300, 100, "bid", 1), both[1]]
    text = "".join([new("B", "bid", 1000), new("S", "ask", 600), "uncross,,,,0,0,opening,0,,,\n",
                    new("T", "ask", 300), *left])  # fmt: skip
    lines = lines_of(text, "opening,intraday", tmp_path, capsys, 4, "--unrestricted")
    assert "findings 1" in lines, lines
    assert lines[0].startswith("row 4, opening: price: recorded no price, lawful 10.00")


def test_a_passed_over_order_that_trades_in_the_next_auction(
    tmp_path: Path, capsys: pytest.CaptureFixture[str]
) -> None:
    """D, the last ask, has its 8 shares in place of A, the first, and C more than its 5. The
    closing follows from these: A has its 13 then, and C the 6 that it has left.
    """
    lines = lines_of(PASSED_OVER, "intraday,closing", tmp_path, capsys)
    assert "findings 1" in lines
    assert ": recorded no such fill, lawful A 13 at 10.00: A entered in row 2 stands before D " \
        "entered in row 4 at 10.00" in lines[0]
    assert [line.strip() for line in lines[1:3]] == [
        "fill: recorded D 8 at 10.00, lawful no such fill",
        "fill: recorded C 10 at 10.00, lawful C 5 at 10.00",
    ]


def test_a_place_in_time_is_that_of_the_replace(
    tmp_path: Path, capsys: pytest.CaptureFixture[str]
) -> None:
    text = new("A", "bid", 5, "08:00:00") + new("B", "bid", 9, "08:01:00")
    text += "replace,A,bid,10.00,9,,,,,,08:02:00\n" + new("S", "ask", 9, "08:03:00")
    text += uncross("opening", 9, 9, "bid", 1) + trade("opening", "A", "S", 9)
    said = "B entered 08:01:00 stands before A replaced 08:02:00 at 10.00"
    lines = lines_of(text.replace(",\n", ",09:00:00\n"), "opening", tmp_path, capsys)
    assert lines[0].endswith(said) and "findings 1" in lines


@pytest.mark.parametrize("time, said", [
    ("08:02:00", "cancelled in row 4, 08:02:00"), ("", "cancelled in row 4"),
])  # fmt: skip
def test_what_took_an_order_out_is_said(
    time: str, said: str, tmp_path: Path, capsys: pytest.CaptureFixture[str]
) -> None:
    text = new("A", "bid", 9) + new("B", "bid", 9) + f"cancel,A,bid,,,,,,,,{time}\n"
    text += new("S", "ask", 9) + uncross("opening", 9, 0, "none", 1)
    lines = lines_of(text + trade("opening", "A", "S", 9), "opening", tmp_path, capsys)
    assert lines[-10].startswith("row 7, ") and "findings 1" in lines
    assert lines[-10].endswith(f"A isn't open in this auction: it was {said}.")


def test_an_order_that_was_executed_before(
    tmp_path: Path, capsys: pytest.CaptureFixture[str]
) -> None:
    text = new("A", "bid", 9) + new("S", "ask", 9) + uncross("opening", 9, 0, "none", 1)
    text += trade("opening", "A", "S", 9) + new("B", "bid", 9) + new("T", "ask", 9)
    text += uncross("closing", 9, 0, "none", 1) + trade("closing", "A", "T", 9)
    lines = lines_of(text, "opening,closing", tmp_path, capsys)
    assert "A isn't open in this auction: it was executed in row 5." in lines[0]


FOR_ONE_AUCTION = """event,order,side,price,quantity,restriction,surplus,auction,trades,bid,ask
new,A,bid,10.00,100,opening,,,,,
new,S,ask,{limit},40,,,,,,
uncross,,{side},{price},{volume},,{left},opening,,,
{made}
new,B,bid,10.00,50,,,,,,
new,T,ask,10.00,50,,,,,,
uncross,,none,10.00,50,,0,intraday,1,,
trade,,,10.00,50,,,intraday,,A,T
"""


@pytest.mark.parametrize("is_mirrored", [False, True])
@pytest.mark.parametrize("limit, quantity, cancel, said", [
    ("10.00", 100, "", "A is for the opening alone, which is over."),
    ("10.01", 100, "", "A is for the opening alone, which is over."),
    ("10.00", 40, "", "A isn't open in this auction: it was executed in row 5."),
    ("10.00", 100, "cancel,A,bid,,,,,,,,\n", "A isn't open in this auction: it was cancelled in "
     "row 6."),
])  # fmt: skip
def test_an_order_for_an_auction_that_is_over(
    limit: str, quantity: int, cancel: str, said: str, is_mirrored: bool, tmp_path: Path,
    capsys: pytest.CaptureFixture[str],
) -> None:  # fmt: skip
    """40 shares of one for the opening alone are executed there, or none."""
    path, left = tmp_path / "day.csv", quantity - 40
    item = {"side": "bid" if left else "none", "price": limit, "volume": 40, "left": left}
    made = "trade,,,10.00,40,,,opening,,A,S"
    if limit != "10.00":
        item, made = {"side": "", "price": "", "volume": 0, "left": ""}, "cancel,S,ask,,,,,,,,"
    text = FOR_ONE_AUCTION.replace("10.00,100", f"10.00,{quantity}")
    text = text.format(limit=limit, made=made, **item)
    text = text.replace("new,B", f"{cancel}new,B")
    path.write_text(mirrored(text) if is_mirrored else text)
    words = ["audit", str(path), "--reference", "10", "--tick-size", "0.01", "--quantity", "open"]
    assert main([*words, "--auctions", "opening,intraday"]) == 4
    lines = capsys.readouterr().out.splitlines()
    both = "bid T ask A" if is_mirrored else "bid A ask T"
    assert "findings 1" in lines and f": trade: recorded {both}: 50 at 10.00, " in lines[0]
    assert lines[0].endswith(f": {said}")


def mirrored(text: str) -> str:
    """A day whose bids are asks, and whose asks are bids."""
    rows = [row.split(",") for row in text.splitlines()]
    other = {"bid": "ask", "ask": "bid", "10.01": "9.99"}
    found = [[other.get(cell, cell) for cell in row] for row in rows[1:]]
    return "".join(f"{','.join(row)}\n" for row in [rows[0], *(
        [*row[:-2], row[-1], row[-2]] for row in found)])


@pytest.mark.parametrize("is_mirrored", [False, True])
@pytest.mark.parametrize("only, cancel, said", [
    ("opening", "", "A is for the opening alone, which is over."),
    ("closing", "", "A is for the closing alone."),
    ("", "cancel,A,bid,,,,,,,,\n", "A isn't open in this auction: it was cancelled in row 6."),
])  # fmt: skip
@pytest.mark.parametrize("left", [60, 61])
def test_what_follows_from_an_order_that_was_not_open_is_told_under_it(
    left: int, only: str, cancel: str, said: str, is_mirrored: bool, tmp_path: Path,
    capsys: pytest.CaptureFixture[str],
) -> None:  # fmt: skip
    """With A's 60 shares, which are left, 60 are left of it and B; 61 are another fault."""
    closing = only == "closing"
    item = {"side": "", "price": "", "volume": 0, "left": ""} if closing else {
        "side": "bid", "price": "10.00", "volume": 40, "left": 60}
    made = "cancel,S,ask,,,,,,,," if closing else "trade,,,10.00,40,,,opening,,A,S"
    text = FOR_ONE_AUCTION.format(limit="10.01" if closing else "10.00", made=made, **item)
    text = text.replace(",opening,,,,,\n", f",{only},,,,,\n", 1).replace("new,B", f"{cancel}new,B")
    text = text.replace("none,10.00,50,,0", f"bid,10.00,50,,{left}")
    text = text.replace("10.00,100", "10.00,60") if closing else text
    path = tmp_path / "day.csv"
    path.write_text(mirrored(text) if is_mirrored else text)
    words = ["audit", str(path), "--reference", "10", "--tick-size", "0.01", "--quantity", "open"]
    assert main([*words, "--auctions", "opening,intraday,closing"]) == 4
    lines = capsys.readouterr().out.splitlines()
    assert lines[0].endswith(f": {said}")
    assert ("    surplus: recorded 60, lawful 0" in lines) == (left == 60)
    assert f"findings {left - 59}" in lines


def test_orders_on_the_other_sides_are_one_finding(
    tmp_path: Path, capsys: pytest.CaptureFixture[str]
) -> None:
    text = new("A", "bid", 9) + new("S", "ask", 9) + uncross("opening", 9, 0, "none", 1)
    lines = lines_of(text + trade("opening", "S", "A", 9), "opening", tmp_path, capsys)
    assert "findings 1" in lines and lines[0].endswith(": S is an ask. A is a bid.")


def test_a_quote_that_is_not_closed(tmp_path: Path, capsys: pytest.CaptureFixture[str]) -> None:
    text = new("A", "bid", 9) + new('"B', "bid", 9) + new("S", "ask", 9) + new("T", "ask", 9)
    lines = lines_of(text, "opening", tmp_path, capsys, 5)
    said = "a quote that it opens takes in 2 more rows, up to row 5"
    assert f"callauction: row 3: has 2 fields, the header 11: {said}" in lines


@pytest.mark.parametrize("column, is_said", [(",restriction", False), ("", True)])
def test_orders_without_a_restriction_are_said_beside_a_finding(
    column: str, is_said: bool, tmp_path: Path, capsys: pytest.CaptureFixture[str]
) -> None:
    path = tmp_path / "day.csv"
    rows = (HEADER + PASSED_OVER).splitlines()
    path.write_text("\n".join([rows[0] + column, *(row + "," * bool(column) for row in rows[1:])]))
    words = ["audit", str(path), "--reference", "10", "--tick-size", "0.01", "--quantity", "open"]
    assert main([*words, "--auctions", "intraday,closing"]) == 4
    said = "orders of which no column restriction says whether they are for one auction alone: 7"
    assert (said in capsys.readouterr().err) == is_said


def passed_over(time: bool) -> list[str]:
    """The rows of the day of PASSED_OVER, with times or without."""
    rows = PASSED_OVER.splitlines()
    ends = [at for at, row in enumerate(rows) if row.startswith("uncross")]
    hour = [8 + sum(at > end for end in ends) for at in range(len(rows))]
    clocks = [f"{hour[at]:02}:{at:02}:00" for at in range(len(rows))]
    for at, row in enumerate(rows):
        if row.startswith(("uncross", "trade")):
            clocks[at] = clocks[max(end for end in ends if end <= at)]
    return [row + clock * time for row, clock in zip(rows, clocks)]


@pytest.mark.parametrize("is_lawful", [True, False])
def test_a_day_that_is_pasted_twice(
    is_lawful: bool, tmp_path: Path, capsys: pytest.CaptureFixture[str]
) -> None:
    """The copied trades may be trades of their own, which the passed over order has none of."""
    rows = passed_over(True)
    if is_lawful:
        rows = [row for row in rows if not row.startswith(("trade,", "uncross,", "new,E", "new,G"))]
        rows += [uncross("intraday", 18, 19, "ask", 3)[:-1] + "09:00:00"]
        pairs = (("B", "A", 7), ("F", "A", 6), ("F", "C", 5))
        rows += [trade("intraday", *it)[:-1] + "09:00:00" for it in pairs]
    text = "".join(f"{row}\n" for row in [*rows, *rows])
    auctions = "intraday" if is_lawful else "intraday,closing"
    lines = lines_of(text, auctions, tmp_path, capsys, 5 if is_lawful else 4)
    assert f"findings {0 if is_lawful else 1}" in lines
    if not is_lawful:
        [line] = [line for line in lines if line.startswith("row ")]
        assert "A entered 08:00:00 stands before D entered 08:02:00 at 10.00" in line


@pytest.mark.parametrize("is_lawful", [True, False])
def test_trades_at_the_end_without_a_time_or_an_auction(
    is_lawful: bool, tmp_path: Path, capsys: pytest.CaptureFixture[str]
) -> None:
    """They are of the auctions that may have them, with the fault of the first."""
    made = [row for row in passed_over(False) if row.startswith("trade,")]
    rows = [row for row in passed_over(True) if not row.startswith("trade,")]
    if is_lawful:
        made[:3] = [trade("", *it)[:-1] for it in (("B", "A", 7), ("F", "A", 6), ("F", "C", 5))]
        made[3:] = [trade("", *it)[:-1] for it in (("E", "C", 11), ("E", "D", 1), ("G", "D", 7))]
    made = [row.replace("intraday", "").replace("closing", "") for row in made]
    text = "".join(f"{row}\n" for row in [*rows, *made])
    text = text.replace(",intraday,", ",,").replace(",closing,", ",,")
    lines = lines_of(text, "intraday,closing", tmp_path, capsys, 5 if is_lawful else 4)
    assert f"findings {0 if is_lawful else 1}" in lines
    certain = [line for line in lines if line.startswith("row ")]
    assert is_lawful or "lawful A 13 at 10.00: A entered 08:00:00 stands before " in certain[0]


def over_midnight(is_wrong: bool) -> Rows:
    """The rows of a lawful day whose opening is at 23:59:59, or with a wrong surplus at its end."""
    rows = [dict(row) for row in base_day().rows]
    ends = [row for row in rows if row["event"] == "uncross"]
    ends[-1]["surplus"] = str(int(ends[-1]["surplus"]) + is_wrong)
    shift = datetime.timedelta(days=1, seconds=-1) - of_clock(ends[0]["time"])
    for row in rows:
        row["moment"] = datetime.datetime(2026, 11, 27) + of_clock(row.pop("time")) + shift
    return rows


def of_clock(text: str) -> datetime.timedelta:
    return datetime.datetime.fromisoformat(f"2026-11-27T{text}") - datetime.datetime(2026, 11, 27)


@pytest.mark.parametrize("is_wrong", [False, True])
@pytest.mark.parametrize("form, has_sequence, words, wrong", [
    ("%H:%M:%S.%f", True, ["--sort"], 4), ("%H:%M:%S.%f", False, ["--sort"], 5),
    ("%H:%M:%S.%f", True, [], 4),
    ("%Y-%m-%dT%H:%M:%S.%f", False, [], 4), ("%Y-%m-%dT%H:%M:%S.%f", True, ["--sort"], 4),
])  # fmt: skip
def test_a_session_over_midnight_is_one_day(
    form: str, has_sequence: bool, words: list[str], wrong: int, is_wrong: bool, tmp_path: Path,
    capsys: pytest.CaptureFixture[str],
) -> None:  # fmt: skip
    """Its dates or its sequence say so; else it is what its rows may be."""
    rows = over_midnight(is_wrong)
    for number, row in enumerate(rows, 1):
        row["time"] = row.pop("moment").strftime(form)
        row |= {"sequence": str(number)} if has_sequence else {}
    found = audited(text_of(rows), words, tmp_path)
    assert found == (wrong if is_wrong else 0), capsys.readouterr()


def test_results_of_two_days_are_not_one(
    tmp_path: Path, capsys: pytest.CaptureFixture[str]
) -> None:
    """A closing and the next day's opening, which are less than a day apart."""
    rows = over_midnight(False)
    for row in rows:
        row["time"] = row.pop("moment").isoformat()
        row["auction"] = {"opening": "closing", "closing": "opening"}.get(
            row.get("auction", ""), row.get("auction", "")
        )
    assert audited(text_of(rows), [], tmp_path) == 1
    assert "results of two days" in capsys.readouterr().err


BOOK = "new,A,bid,10.02,300,,,,,,\nnew,B,bid,10.00,200,,,,,,\nnew,C,ask,10.00,400,,,,,,\n"
"""At 10.02 300 trade and 100 asks are left; at 10.00, the lawful price, 400, and 100 bids."""


def test_what_follows_from_a_wrong_price_is_told_under_it(
    tmp_path: Path, capsys: pytest.CaptureFixture[str]
) -> None:
    text = BOOK + "uncross,,ask,10.02,300,100,opening,1,,,\n"
    lines = lines_of(text + "trade,,,10.02,300,,opening,,A,C,\n", "opening", tmp_path, capsys)
    assert "findings 1" in lines and ": price: recorded 10.02, lawful 10.00: " in lines[0]
    assert sorted(line.strip() for line in lines[1 : lines.index("findings 1")]) == [
        "side: recorded ask, lawful bid",
        "trade: recorded no such trade, lawful bid B ask C: 100 at 10.00",
        "volume: recorded 300, lawful 400",
    ]


def test_what_follows_from_a_wrong_volume_is_told_under_it(
    tmp_path: Path, capsys: pytest.CaptureFixture[str]
) -> None:
    text = BOOK + "uncross,,bid,10.00,350,150,opening,2,,,\ntrade,,,10.00,300,,opening,,A,C,\n"
    lines = lines_of(text + "trade,,,10.00,50,,opening,,B,C,\n", "opening", tmp_path, capsys)
    assert "findings 1" in lines and ": volume: recorded 350, lawful 400: " in lines[0]
    assert [line.strip() for line in lines[1:3]] == [
        "surplus: recorded 150, lawful 100",
        "trade: recorded bid B ask C: 50 at 10.00, lawful bid B ask C: 100 at 10.00",
    ]


def test_what_does_not_follow_is_a_finding_of_its_own(
    tmp_path: Path, capsys: pytest.CaptureFixture[str]
) -> None:
    """Of 350 shares A has 300 before B, and not 150; 100 is the surplus of 400."""
    text = BOOK + "uncross,,bid,10.00,350,100,opening,2,,,\ntrade,,,10.00,150,,opening,,A,C,\n"
    lines = lines_of(text + "trade,,,10.00,200,,opening,,B,C,\n", "opening", tmp_path, capsys)
    assert "findings 3" in lines and ": volume: recorded 350, lawful 400: " in lines[0]
    assert lines[1].startswith("row 6, opening: ")


PAIRED = """event,order,member,side,price,quantity,surplus,auction,trades,of,time
new,A1,ADLER,bid,10.00,100,,,,,08:50:00
new,A2,BIRK,bid,10.00,100,,,,,08:52:00
new,B1,XENO,ask,10.00,60,,,,,08:53:00
new,B2,YVES,ask,10.00,60,,,,,08:54:00
uncross,,,bid,10.00,120,80,opening,3,,09:00:00
"""


def paired(is_mirrored: bool, asks_first: bool, member: str) -> str:
    """The day with A2's shares for A1 and both rows of each trade, A1's with a member."""
    text, owner = PAIRED, {"A1": member, "A2": "BIRK", "B1": "XENO", "B2": "YVES"}
    for number, (bid, ask, shares) in enumerate([("A2", "B1", 60), ("A2", "B2", 40),
                                                 ("A1", "B2", 20)]):
        rows = [f"trade,{order},{owner[order]},{side},10.00,{shares},,opening,,T{number},09:00:00\n"
                for order, side in ((bid, "bid"), (ask, "ask"))]
        text += "".join(rows[::-1] if asks_first else rows)
    return text.translate(str.maketrans("AB", "BA")).replace("bid", "?").replace(
        "ask", "bid").replace("?", "ask") if is_mirrored else text


@pytest.mark.parametrize("is_mirrored", [False, True])
@pytest.mark.parametrize("asks_first", [False, True])
def test_no_order_is_lent_the_member_of_its_trades_other_side(
    asks_first: bool, is_mirrored: bool, tmp_path: Path, capsys: pytest.CaptureFixture[str]
) -> None:
    """Of a trade that is told as an order's shares, in whichever row of both the order is."""
    path = tmp_path / "day.csv"
    path.write_text(paired(is_mirrored, asks_first, "ADLER"))
    words = ["audit", str(path), "--reference", "10", "--tick-size", "0.01", "--pair", "of"]
    assert main([*words, "--auctions", "opening"]) == 4
    lines = capsys.readouterr().out.splitlines()
    one = "B" if is_mirrored else "A"
    assert "findings 1" in lines and ": fill: recorded" in lines[0] and "(" not in lines[0]
    said = f": {one}1 entered 08:50:00 stands before {one}2 entered 08:52:00 at 10.00"
    assert lines[0].endswith(said)


@pytest.mark.parametrize("asks_first", [False, True])
@pytest.mark.parametrize("member, said", [
    ("ZENZ", "A1 entered 08:50:00 stands before A2 entered 08:52:00 at 10.00"),
    ("XENO", "A1 is an order of ADLER, not of XENO."),
])  # fmt: skip
def test_the_member_of_an_orders_own_side_is_told(
    member: str, said: str, asks_first: bool, tmp_path: Path, capsys: pytest.CaptureFixture[str]
) -> None:
    """One that no order has may stand for any."""
    path = tmp_path / "day.csv"
    path.write_text(paired(False, asks_first, member))
    words = ["audit", str(path), "--reference", "10", "--tick-size", "0.01", "--pair", "of"]
    assert main([*words, "--auctions", "opening"]) == 4
    assert capsys.readouterr().out.splitlines()[0].endswith(f": {said}")


def test_names_of_others_in_both_rows_of_each_trade_are_in_doubt(
    tmp_path: Path, capsys: pytest.CaptureFixture[str]
) -> None:
    """The rows' own members are none of orders."""
    path = tmp_path / "day.csv"
    rows = paired(False, False, "ADLER").splitlines(keepends=True)
    names = {"A1,ADLER": "A2,N1", "A2,BIRK": "A1,N2", "XENO": "N3", "YVES": "N4"}
    made = rows[6:]
    for name, other in names.items():
        made = [row.replace(name, other) for row in made]
    path.write_text("".join([*rows[:6], *made]))
    words = ["audit", str(path), "--reference", "10", "--tick-size", "0.01", "--pair", "of"]
    assert main([*words, "--auctions", "opening"]) == 5
    said = "no member of a trade is one of orders: the names may be others'"
    assert capsys.readouterr().out.splitlines()[0].endswith(said)


@pytest.mark.parametrize("is_mirrored", [False, True])
def test_one_share_too_many_is_of_the_order_that_has_not_so_many(
    is_mirrored: bool, tmp_path: Path, capsys: pytest.CaptureFixture[str]
) -> None:
    """D has 21 shares of B where 20 are lawful; both trade with others too, and D has some left."""
    text = new("A", "bid", 100) + new("D", "bid", 100) + new("B", "ask", 120) + new("C", "ask", 60)
    text += uncross("opening", 180, 20, "bid", 3) + trade("opening", "A", "B", 100)
    text += trade("opening", "D", "B", 21) + trade("opening", "D", "C", 60)
    if is_mirrored:
        text = text.replace("bid", "?").replace("ask", "bid").replace("?", "ask")
        rows = [row.split(",") for row in text.splitlines()]
        text = "".join(",".join([*row[:8], row[9], row[8], row[10]]) + "\n" for row in rows)
    lines = lines_of(text, "opening", tmp_path, capsys)
    said = "B has 120 open, and 121 are recorded of it (are hidden shares missing?)."
    assert "findings 1" in lines and lines[0].endswith(f": {said}")
    words = ["audit", str(tmp_path / "day.csv"), "--reference", "10", "--tick-size", "0.01"]
    assert main([*words, "--auctions", "opening", "--explain"]) == 4
    said = "80 to it, which has 100 open, and 81 are recorded of it."
    assert said in capsys.readouterr().out


NAMED = """event,order,{name},side,price,quantity,surplus,auction
new,A1,{ids[0]},bid,10.00,100,,
new,A2,{ids[1]},bid,10.00,100,,
new,B1,{ids[2]},ask,10.00,60,,
new,B2,{ids[3]},ask,10.00,60,,
uncross,,,bid,10.00,120,80,opening
fill,A1,{ids[4]},bid,10.00,60,,opening
fill,B1,{ids[5]},ask,10.00,60,,opening
fill,A1,{ids[6]},bid,10.00,40,,opening
fill,B2,{ids[7]},ask,10.00,40,,opening
fill,A2,{ids[8]},bid,10.00,21,,opening
fill,B2,{ids[9]},ask,10.00,21,,opening
"""


@pytest.mark.parametrize("name, ids, doubtful", [
    ("ClOrdID", "c1 c2 c3 c4 c1 c3 c1 c4 c2 c4", []),
    ("SecurityID", "X X X X X X X X X X", []),
    ("SessionID", "- - - - 2 2 2 2 2 2", []),
    ("TradeID", "- - - - T1 T1 T2 T2 T3 T3", []),
    ("TradeID", "- - - - T1 T1 T2 T3 T3 T3", ["B2"]),
])  # fmt: skip
def test_fills_of_one_order_correct_one_another_by_ids_of_trades_alone(
    name: str, ids: str, doubtful: list[str], tmp_path: Path, capsys: pytest.CaptureFixture[str]
) -> None:
    """21 shares of A2 and B2 are one too many; an order's id is on each of its fills."""
    path = tmp_path / "day.csv"
    path.write_text(NAMED.format(name=name, ids=ids.replace("-", "").split(" ")))
    words = ["audit", str(path), "--reference", "10", "--tick-size", "0.01", "--ignore", name]
    found = tmp_path / "found.csv"
    assert main([*words, "--auctions", "opening", "--findings", str(found)]) == 4
    lines = capsys.readouterr().out.splitlines()
    why = f"rows 10 and 12 have one {name}: is the later right?"
    with found.open() as file:
        fills = [it for it in csv.DictReader(file) if (it["item"], it["why"]) == ("fill", why)]
    assert [it["recorded"][:2] for it in fills] == doubtful
    certain = [line for line in lines if line.startswith("row ")]
    assert [line.split("recorded ")[1][:5] for line in certain] == ["A2 21", "B2 61"][
        : 2 - len(doubtful)]

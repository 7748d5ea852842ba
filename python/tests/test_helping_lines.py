"""Lines that say what helps where an extract is refused or in doubt."""
import io
import os
import re
from collections.abc import Callable
from pathlib import Path

import pytest
from callauction.__main__ import main
from callauction.verdict import audit_events
from damage import places
from desk import UNCROSS, Printed, audited, base_rows, text_of
from extracts import Rows
from judging import frame_of


@pytest.mark.parametrize("encoding", ["utf-16-le", "utf-16-be"])
def test_utf_16_without_a_mark_is_named(encoding: str, tmp_path: Path, capsys: Printed) -> None:
    path = tmp_path / "wide.csv"
    path.write_bytes(text_of(base_rows()).encode(encoding))
    words = ["audit", str(path), "--reference", "10.00", "--tick-size", "0.01"]
    assert main(words) == 1
    assert f"the file is UTF-16: say encoding {encoding}" in capsys.readouterr().err


def test_a_price_with_a_comma_hints_at_the_option(tmp_path: Path, capsys: Printed) -> None:
    rows = base_rows()
    rows[places(rows, "new")[0]]["price"] = "10,01"
    audited(text_of(rows), [], tmp_path)
    assert "is no decimal number (--decimal , says what parts decimals)" in capsys.readouterr().err


def test_a_header_alone_says_that_there_are_no_rows(tmp_path: Path, capsys: Printed) -> None:
    header = text_of(base_rows()).partition("\n")[0]
    assert audited(header + "\n", [], tmp_path) == 5
    assert "files with a header and no rows: 1" in capsys.readouterr().err


def test_a_column_of_instruments_hints_at_by(tmp_path: Path, capsys: Printed) -> None:
    rows: Rows = [dict(row, ISIN="DE0001") for row in base_rows()]
    assert audited(text_of(rows), [], tmp_path) == 1
    assert "--by ISIN judges each instrument by itself" in capsys.readouterr().err


def test_a_shape_makes_a_file_headed_by_numbers_no_journal(
    tmp_path: Path, capsys: Printed
) -> None:
    path = tmp_path / "tags.csv"
    path.write_text("35,37,150,54,44,38,60\n8,B1,0,1,10.00,100,20261127-08:50:01.000\n")
    words = ["audit", str(path), "--reference", "10.00", "--tick-size", "0.01"]
    assert main([*words, "--shape", "fix"]) == 5
    assert "day record" not in capsys.readouterr().err


def test_a_trade_of_more_than_is_open_names_the_order() -> None:
    verdict = audit_events(frame_of([
        dict(event="new", order="A", side="bid", quantity="100", price="10.00", time="08:50:01"),
        dict(event="new", order="S", side="ask", quantity="40", price="10.00", time="08:50:02"),
        dict(event="uncross", price="10.00", quantity="40", auction="opening", time="09:00"),
        dict(event="trade", bid="A", ask="S", quantity="50", price="10.00", auction="opening",
             time="09:00"),
    ]), reference="10", tick_size="0.01", auctions=["opening"])  # fmt: skip
    assert "S has 40 open, and no 50 (are hidden shares missing?)." in str(verdict), str(verdict)


class Unread(io.TextIOBase):
    """A pipe that nobody reads."""

    def write(self, text: str) -> int:
        raise BrokenPipeError

    def fileno(self) -> int:
        return os.dup(2)


def test_lines_that_nobody_reads_leave_the_status(
    tmp_path: Path, capsys: Printed, monkeypatch: pytest.MonkeyPatch
) -> None:
    rows = base_rows()
    place = places(rows, UNCROSS)[0]
    rows[place]["surplus"] = str(int(rows[place]["surplus"]) + 1)
    monkeypatch.setattr("sys.stdout", Unread())
    assert audited(text_of(rows), [], tmp_path) == 4
    assert "pipe" not in capsys.readouterr().err.casefold()


ORDER_AWAY = """
event,time,order,side,price,quantity,surplus,auction,trades,bid,ask
new,08:51:01,A,bid,10.02,1000,,,,,
new,08:53:09,S,ask,10.02,1000,,,,,
uncross,09:00:00,,bid,10.02,1000,500,opening,1,,
trade,09:00:00,,,10.02,1000,,opening,,A,S
new,17:26:00,T,ask,10.02,400,,,,,
new,08:52:05,B,bid,10.02,500,,,,,
uncross,17:30:00,,bid,10.02,400,100,closing,1,,
trade,17:30:00,,,10.02,400,,closing,,B,T
""".strip()
UNCROSS_AWAY = """
event,time,order,side,price,quantity,surplus,auction,trades,bid,ask
new,08:51:01,A,bid,10.02,1000,,,,,
new,08:53:09,S,ask,10.02,1000,,,,,
new,17:26:00,T,ask,10.02,400,,,,,
uncross,09:00:00,,,10.02,1000,0,opening,1,,
trade,09:00:00,,,10.02,1000,,opening,,A,S
new,17:27:00,B,bid,10.02,400,,,,,
uncross,17:30:00,,,10.02,400,0,closing,1,,
trade,17:30:00,,,10.02,400,,closing,,B,T
""".strip()


@pytest.mark.parametrize("text, why", [
    (ORDER_AWAY, "by its time row 7 is above row 4"),
    (UNCROSS_AWAY, "by its time row 4 is below row 5"),
    (UNCROSS_AWAY.replace("new,", "new,2026-11-27 "), "by its time row 4 is below row 5"),
])  # fmt: skip
def test_a_row_that_is_away_from_its_time_over_an_uncross_is_in_doubt(
    text: str, why: str, tmp_path: Path, capsys: Printed
) -> None:
    held = ["--auctions", "opening,closing"]
    assert audited(text, held, tmp_path) == 5
    assert why in capsys.readouterr().out
    wrong = text.replace("trade,09:00:00,,,10.02", "trade,09:00:00,,,10.03")
    assert audited(wrong, held, tmp_path) == 4


COARSE = """
event,time,order,side,price,quantity,surplus,auction,trades,bid,ask
new,08:51:01.120,A,bid,10.02,1000,,,,,
{more}new,09:00:18.310,S,ask,10.02,1000,,,,,
uncross,09:00:18,,,10.02,1000,0,opening,1,,
trade,09:00:18,,,10.02,1000,,opening,,A,S
""".strip()


@pytest.mark.parametrize("more", [0, 100])
def test_a_result_whose_time_is_coarser_than_those_of_orders(more: int, tmp_path: Path) -> None:
    """Sorted it is above orders that were before it in its second. By two seconds before an order
    that it executed it disagrees with the rows, unless that is below it there too.
    """
    many = "".join(f"new,09:00:18.{it},B{it},bid,9.99,1,,,,,\n" for it in range(100, 100 + more))
    text, held = COARSE.format(more=many), ["--auctions", "opening", "--sort"]
    assert audited(text, held, tmp_path) == 5
    late = text.replace(",09:00:18,", ",09:00:19.4,")
    assert audited(late, held, tmp_path) == 0
    assert audited(late.replace("1000,0,opening", "1000,7,opening"), held, tmp_path) == 4
    early = text.replace(",09:00:18,", ",09:00:16,")
    assert audited(early, held, tmp_path) == 5
    *lines, order, result, made = early.splitlines()
    assert audited("\n".join([*lines, result, order, made]), held, tmp_path) == 4


@pytest.mark.parametrize("form, shown", [
    (r"2026-11-27 \1", "'2026-11-27 08:51:01.120' and '09:00:18'"),
    (r"\1Z", "'08:51:01.120Z' and '09:00:18'"),
])  # fmt: skip
def test_times_of_two_forms_are_in_no_order(
    form: str, shown: str, tmp_path: Path, capsys: Printed
) -> None:
    text = re.sub(r"(?m)(?<=^new,)([\d:.]+)", form, COARSE.format(more=""))
    assert audited(text, ["--auctions", "opening", "--sort"], tmp_path) == 1
    assert f"sort: rows 2 and 4 have times of two forms, {shown}" in capsys.readouterr().err


BOOK = "time,order,side,price,quantity\n08:51,A,bid,10.02,9\n08:53,S,ask,10.02,9\n"
PUBLISHED = "event,price,quantity,surplus,side,auction\nuncross,10.02,9,0,none,opening\n"


@pytest.mark.parametrize("change, status, said", [
    (lambda text: text + "Total,,,,18\n", 5, "row 4 of book.csv: order is missing\n"),
    (lambda text: text.replace("08:53", "?"), 1,
     "1 times can't be read to sort rows, such as '?' in row 3 of book.csv\n"),
])  # fmt: skip
def test_a_total_below_a_book_is_a_bad_row(
    change: Callable[[str], str], status: int, said: str, tmp_path: Path, capsys: Printed
) -> None:
    book, published = tmp_path / "book.csv", tmp_path / "published.csv"
    book.write_text(change(BOOK))
    published.write_text(PUBLISHED)
    words = ["--reference", "10", "--tick-size", "0.01"]
    assert main(["audit-auction", str(book), "--published", str(published), *words]) == status
    assert said in capsys.readouterr().err


def test_an_order_for_an_auction_that_is_not_held_says_so(
    tmp_path: Path, capsys: Printed
) -> None:
    text = "event,order,side,price,quantity,restriction\nnew,A,bid,10,5,opening\nuncross,,,,0,\n"
    assert audited(text, ["--auctions", "closing"], tmp_path) == 5
    said = "PastAuction: restriction 'opening', an auction that isn't held or is over\n"
    assert said in capsys.readouterr().err


def test_one_option_has_the_words_of_several_columns(tmp_path: Path) -> None:
    theirs = {"event": {"new": "Neu"}, "side": {"bid": "K", "ask": "V"}}
    rows = [
        {name: theirs.get(name, {}).get(cell, cell) for name, cell in row.items()}
        for row in base_rows()
    ]
    words = ["--values", "event:Neu=new,side:K=bid,V=ask"]
    assert audited(text_of(rows), words, tmp_path) == 0


@pytest.mark.parametrize("bid, ask, status", [("NULL", "N/A", 5), ("Adler AG", "Cohn", 4)])
def test_other_names_in_all_trades_are_in_doubt(
    bid: str, ask: str, status: int, tmp_path: Path
) -> None:
    text = (
        "event,time,order,member,side,price,quantity,surplus,auction,trades,"
        "bid,ask,bid_member,ask_member\n"
        "new,08:51:01,A1,Adler,bid,20.02,1000,,,,,,,\n"
        "new,08:53:09,B4,Cohn,ask,20.02,1000,,,,,,,\n"
        "uncross,09:00:00,,,,20.02,1000,0,opening,1,,,,\n"
        f"trade,09:00:00,,,,20.02,1000,,opening,,A1,B4,{bid},{ask}\n"
    )
    words = ["--reference", "20", "--auctions", "opening"]
    assert audited(text, words, tmp_path) == status

"""The tables of files: the program's CSV as frames."""
from pathlib import Path

import callauction
import pandas
import pytest
from callauction.program import BadDayError, BadFileError, Day
from callauction.tables import BOOK, JOURNAL, TRADES, book_at, books_of, journal_of, trades_of
from days import AUDITS, EXAMPLES, day_of, form_of, options_of
from printed import csv_of


@pytest.mark.parametrize("file", EXAMPLES, ids=[file.stem for file in EXAMPLES])
def test_tables_are_the_stored_forms(file: Path) -> None:
    options = options_of(file)
    assert csv_of(callauction.read_trades(file, **options)) == form_of(file, "trades")
    assert csv_of(callauction.read_book(file, **options)) == form_of(file, "book")


@pytest.mark.parametrize("file", EXAMPLES, ids=[file.stem for file in EXAMPLES])
def test_a_journal_has_the_recorded_and_the_lawful_replies(file: Path) -> None:
    lines = file.with_suffix(".txt").read_text(encoding="utf-8").splitlines()
    texts = [line.split(": ", 1)[1] for line in lines]
    stored = Day(form_of(file, "journal").encode("ascii"))
    assert journal_of(stored)["lawful"].tolist() == texts
    assert journal_of(stored)["reply"].tolist() == texts
    assert journal_of(day_of(file))["reply"].tolist() == [""] * len(texts)
    assert journal_of(stored).attrs == journal_of(day_of(file)).attrs


@pytest.mark.parametrize("columns, frame", [
    (BOOK, books_of(day_of(EXAMPLES[0]))),
    (TRADES, trades_of(day_of(EXAMPLES[0]))),
    (JOURNAL, journal_of(day_of(EXAMPLES[0]))),
    (BOOK, books_of(Day(b"day,1,9,5,4,9,9,\n"))),
    (TRADES, trades_of(Day(b"day,1,9,5,4,9,9,\n"))),
    (JOURNAL, journal_of(Day(b"day,1,9,5,4,9,9,\n"))),
])
def test_columns_are_integers_and_words(columns: dict[str, str], frame: pandas.DataFrame) -> None:
    kinds = {name: kind.replace("str", "object") for name, kind in columns.items()}
    assert {name: str(kind) for name, kind in frame.dtypes.items()} == kinds


def test_market_orders_are_a_row_of_their_own() -> None:
    book = book_at(books_of(Day(b"1,enter,bid,7,market\n2,enter,ask,5,200\n")))
    market = book[book["limit"].isna()]
    assert market[["command", "bid", "ask"]].to_numpy().tolist() == [[3, 7, 0]]
    assert market[["demand", "supply", "volume", "surplus", "best"]].isna().all(axis=None)
    assert book["limit"].tolist()[1:] == [200]


def test_a_journal_has_each_field() -> None:
    text = (
        "day,1,9,5,4,8,99,2\n1,enter,bid,7,market,,closing,\n2,enter,ask,5,6,3,odd\n"
        "2,change,2,4,7,\n2,status,2,\n1,trade,1,\n1,delete,1,\n0,ask,\n0,uncross,\n"
    )
    frame = journal_of(Day(text.encode("ascii")))
    assert frame.attrs == dict(low=1, high=9, reference=5, members=4, open=8, calls=99, range=2)
    shown = frame.astype("object").where(frame.notna(), None)
    assert shown.drop(columns=["entry", "lawful"]).to_numpy().tolist() == [
        [1, "enter", "bid", None, None, 7, None, None, "closing", ""],
        [2, "enter", "ask", None, None, 5, 6, 3, "", "odd"],
        [2, "change", "", 2, None, 4, 7, None, "", ""],
        [2, "status", "", 2, None, None, None, None, "", ""],
        [1, "trade", "", None, 1, None, None, None, "", ""],
        [1, "delete", "", 1, None, None, None, None, "", ""],
        [0, "ask", "", None, None, None, None, None, "", ""],
        [0, "uncross", "", None, None, None, None, None, "", ""],
    ]


@pytest.mark.parametrize("text", [
    b'"day",1,9,5,4,9,9,\r\n\r\n1,"ask","a ""b"", c"\r2,ask,\n',
    b'\xef\xbb\xbfday,1,9,5,4,9,9,\n1,ask,"a ""b"", c"\n\n\n"2",ask,""',
])
def test_records_are_read_as_the_program_reads_them(text: bytes) -> None:
    assert journal_of(Day(text))["reply"].tolist() == ['a "b", c', ""]


@pytest.mark.parametrize("file", AUDITS, ids=[file.stem for file in AUDITS])
def test_an_audit_tells_what_the_program_prints(file: Path) -> None:
    frame = callauction.audit(file)
    lines = [
        f'{row.entry}: recorded "{row.recorded}", lawful "{row.lawful}"'
        for row in frame.itertuples()
    ]
    lines += [f"{name} {frame.attrs[name]}" for name in ("entries", "compared", "unlawful")]
    printed = file.with_suffix(".txt").read_text(encoding="utf-8").splitlines()
    assert lines == printed[:-1]
    assert frame.attrs["is_legal"] == (printed[-1] == "audit legal")


def test_a_recorded_text_may_look_like_a_finding(tmp_path: Path) -> None:
    path = tmp_path / "day.csv"
    path.write_text('day,1,9,5,4,9,9,\n1,ask,"x"", lawful ""y"\n', encoding="ascii")
    assert callauction.audit(path)["recorded"].tolist() == ['x", lawful "y']
    assert callauction.read_journal(path)["reply"].tolist() == ['x", lawful "y']


def test_a_book_is_found_by_its_command() -> None:
    books = books_of(day_of(next(file for file in EXAMPLES if file.stem == "day")))
    assert [book_at(books, command)["auction"][0] for command in (3, 6, 9, None)] == [
        "opening", "intraday", "closing", "closing"
    ]
    with pytest.raises(ValueError, match="no book before command 4; there are 3, 6, 9"):
        book_at(books, 4)
    with pytest.raises(ValueError, match="there are none"):
        book_at(books[:0])


def test_faults_are_raised_with_the_status(tmp_path: Path) -> None:
    path = tmp_path / "orders.csv"
    path.write_text("1,ask\n1,enter,bid,x,5\n", encoding="ascii")
    with pytest.raises(BadFileError, match="^record 2: bad field 4$") as bad:
        callauction.read_book(path)
    assert (bad.value.status, bad.value.record) == (1, 2)
    with pytest.raises(BadFileError, match="not a day record"):
        callauction.audit(path)
    path.write_text("1,ask\n", encoding="ascii")
    with pytest.raises(BadDayError, match="^bad reference$") as worse:
        callauction.read_trades(path, reference=2000)
    assert worse.value.status == 2
    assert worse.value.__notes__ == ["the reference 2000 is outside 1 to 1000"]
    with pytest.raises(TypeError, match="no option ticks"):
        callauction.read_book(path, ticks=5)
    with pytest.raises(OSError):
        callauction.read_journal(tmp_path / "none.csv")

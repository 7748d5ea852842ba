"""Files as spreadsheets write them."""
import io
import zipfile
from collections.abc import Callable
from pathlib import Path

import pytest
from callauction.__main__ import main
from damage import places
from desk import UNCROSS, Printed, audited, base_rows, text_of
from extracts import Rows


def german(rows: Rows) -> str:
    """The rows with semicolons, decimal commas and points between thousands."""
    for row in rows:
        row["price"] = row.get("price", "").replace(".", ",")
        for name in ("quantity", "surplus"):
            row[name] = f"{int(row[name]):,}".replace(",", ".") if row.get(name) else ""
    return "\ufeff" + text_of(rows, ";").replace("\n", "\r\n")


@pytest.mark.parametrize("added", [
    lambda head: "",
    lambda head: " \t ",
    lambda head: ";" * head.count(";"),
    lambda head: head,
])
@pytest.mark.parametrize("is_faulty", [False, True])
def test_lines_without_a_row_are_passed_over(
    added: Callable[[str], str], is_faulty: bool, tmp_path: Path, capsys: Printed
) -> None:
    """Empty ones, of blanks, of separators, and the header of each page; lines keep their numbers.
    """
    rows = base_rows()
    last = places(rows, UNCROSS)[-1]
    if is_faulty:
        rows[last]["quantity"] = "7"
    lines = german(rows).split("\r\n")
    more = added(lines[0].removeprefix("\ufeff"))
    text = "\r\n".join([*lines[:9], more, *lines[9:12], more, *lines[12:-1], more, ""])
    words = ["--separator", ";", "--decimal", ",", "--thousands", "."]
    assert audited(text, words, tmp_path) == (4 if is_faulty else 0)
    assert (f"row {last + 4}, " in capsys.readouterr().out) == is_faulty


@pytest.mark.parametrize("words, status", [([], 5), (["--thousands", "."], 0)])
def test_thousands_that_are_not_said_are_read_as_no_decimals(
    words: list[str], status: int, tmp_path: Path, capsys: Printed
) -> None:
    """By hand: 1,000 and 500 are bid, 1,500 are asked, and all are executed."""
    (tmp_path / "day.csv").write_text(
        "event,order,side,price,quantity,auction,surplus,trades,bid,ask\n"
        "new,A,bid,10.02,1.000,,,,,\nnew,B,bid,10.02,500,,,,,\nnew,S,ask,10.02,1.500,,,,,\n"
        "uncross,,none,10.02,1.500,opening,0,2,,\ntrade,,,10.02,1.000,,,,A,S\n"
        "trade,,,10.02,500,,,,B,S\n"
    )
    given = ["--reference", "10", "--tick-size", "0.01", "--auctions", "opening", *words]
    assert main(["audit", str(tmp_path / "day.csv"), *given]) == status
    hint = "row 2: quantity '1.000' is no whole number from 0 to 4,294,967,295 (--thousands says"
    assert (hint in capsys.readouterr().err) == (status == 5)


def zipped(name: str) -> bytes:
    """An archive of one file."""
    out = io.BytesIO()
    with zipfile.ZipFile(out, "w", zipfile.ZIP_DEFLATED) as archive:
        archive.writestr(name, text_of(base_rows()))
    return out.getvalue()


@pytest.mark.parametrize("begin, words, line", [
    (b"\xd0\xcf\x11\xe0\xa1\xb1\x1a\xe1", [], "this is a workbook or an archive, and no text"),
    (zipped("day.csv"), [], "this is a zip archive: unpack it, as gzip alone is read"),
    (zipped("[Content_Types].xml"), [], "this is a workbook or an archive, and no text: save"),
    (b'[{"event": "new"}]', [], "this is JSON, XML or HTML, and no table: save it as CSV"),
    (b'\n {"event": "new"}', [], "this is JSON, XML or HTML, and no table: save it as CSV"),
    (b'<?xml version="1.0"?>', [], "this is JSON, XML or HTML, and no table: save it as CSV"),
    (b"<HTML><table>", [], "this is JSON, XML or HTML, and no table: save it as CSV"),
    (b"Order book;;;\nevent;order;side;price\n", ["--separator", ";"],
     "line 1, 'Order book', has no names of columns: take out what is above these"),
])
def test_what_is_no_table_is_named(
    begin: bytes, words: list[str], line: str, tmp_path: Path, capsys: Printed
) -> None:
    assert audited(begin, words, tmp_path) == 1
    assert line in capsys.readouterr().err


@pytest.mark.parametrize("first", ["sep=;", '"sep=;"'])
def test_a_line_that_says_the_separator_is_passed_over(
    first: str, tmp_path: Path, capsys: Printed
) -> None:
    rows = base_rows()
    rows[places(rows, UNCROSS)[-1]]["quantity"] = "7"
    text = f"{first}\r\n" + text_of(rows, ";")
    assert audited(text, ["--separator", ";"], tmp_path) == 4
    assert f"row {places(rows, UNCROSS)[-1] + 3}, " in capsys.readouterr().out
    assert audited(text, [], tmp_path) == 1
    assert "the fields are parted by semicolons: say separator ';'" in capsys.readouterr().err


def test_an_index_without_a_name_is_passed_over(tmp_path: Path) -> None:
    """As pandas writes it; any other column without a name is refused."""
    lines = text_of(base_rows()).splitlines()
    index = ["", *map(str, range(len(lines) - 1))]
    assert audited("".join(f"{a},{b}\n" for a, b in zip(index, lines)), [], tmp_path) == 0
    index[2] = "7"
    assert audited("".join(f"{a},{b}\n" for a, b in zip(index, lines)), [], tmp_path) == 1


@pytest.mark.parametrize("sign", [" ", "\xa0", "\u2009", "\u202f"])
def test_a_blank_between_thousands_is_any_blank(sign: str, tmp_path: Path) -> None:
    rows = base_rows()
    for row in rows:
        shares = row.get("quantity", "")
        row["quantity"] = f"{int(shares):,}".replace(",", sign) if shares else ""
    assert any(sign in row["quantity"] for row in rows)
    assert audited(text_of(rows), ["--thousands", " "], tmp_path) == 0


@pytest.mark.parametrize("form", [
    lambda seconds: str(1795737600 + seconds),
    lambda seconds: f"{1795737600 + seconds}123",
    lambda seconds: f"{1795737600 + seconds}123456",
    lambda seconds: f"{1795737600 + seconds}123456789",
    lambda seconds: f"20261127{seconds // 3600:02}{seconds // 60 % 60:02}{seconds % 60:02}",
    lambda seconds: f"20261127{seconds // 3600:02}{seconds // 60 % 60:02}{seconds % 60:02}500",
])
def test_times_may_be_one_number(
    form: Callable[[int], str], tmp_path: Path, capsys: Printed
) -> None:
    """Of an epoch, in seconds to nanoseconds, or a date and a time; rows are sorted by them."""
    rows = base_rows()
    for number, row in enumerate(rows):
        hour, minute, second = map(int, row["time"].split(":"))
        row |= {"time": form(hour * 3600 + minute * 60 + second), "sequence": str(number)}
    assert audited(text_of(rows[::-1]), ["--sort"], tmp_path) == 0
    assert "can't be read" not in capsys.readouterr().err


def test_times_that_cannot_be_read_are_shown(tmp_path: Path, capsys: Printed) -> None:
    rows = base_rows()
    rows[0]["time"] = "5/6/2026 09:00"
    audited(text_of(rows), [], tmp_path)
    assert "times that can't be read, such as '5/6/2026 09:00': 1\n" in capsys.readouterr().err


def test_a_currency_is_named(tmp_path: Path, capsys: Printed) -> None:
    rows = base_rows()
    for price in ("$10.00", "10.00 EUR"):
        rows[places(rows, "new")[0]]["price"] = price
        assert audited(text_of(rows), [], tmp_path) == 5
        assert f"price '{price}' is no decimal number (is it with a currency? leave that out)" in (
            capsys.readouterr().err
        )


def test_a_result_that_is_corrected_back_is_the_last_one(tmp_path: Path) -> None:
    """The first one, another one, and the first one once more, which isn't one that was sent again.
    """
    rows = base_rows()
    first = places(rows, UNCROSS)[0]
    wrong = dict(rows[first], price=f"{float(rows[first]['price']) + 0.02:.2f}")
    rows[first + 1 : first + 1] = [wrong, dict(rows[first])]
    assert audited(text_of(rows), [], tmp_path) == 5
    rows[first + 2 : first + 2] = [dict(wrong)]
    rows[first + 2], rows[first + 3] = rows[first + 3], rows[first + 2]
    assert audited(text_of(rows), [], tmp_path) == 4


def test_empty_columns_without_a_name_are_passed_over(tmp_path: Path) -> None:
    text = "".join(f"{line},,,\n" for line in text_of(base_rows()).splitlines())
    assert audited(text, [], tmp_path) == 0


def test_times_may_be_of_twelve_hours(tmp_path: Path) -> None:
    """Sorted, as otherwise times decide little; 12 is midnight or noon, and 13 is no hour."""
    rows = base_rows()
    for number, row in enumerate(rows):
        row["sequence"] = str(number)
        row["time"] = f"{'12' if row['time'][:2] == '09' else row['time'][:2]}{row['time'][2:]} PM"
    assert audited(text_of(rows[::-1]), ["--sort"], tmp_path) == 0
    for row in rows[: len(rows) // 5]:
        row["time"] = "13:00:00 PM"
    assert audited(text_of(rows), ["--sort"], tmp_path) == 1

"""What is read of the program's output and of results, whatever comes."""
import io
import pathlib

import pytest
from callauction.market import Row, forms, rows


def test_what_is_no_result_is_refused(tmp_path: pathlib.Path) -> None:
    header = ",".join(rows.WRITTEN)
    for text in ("", "instrument\n", f"{header}\nA,1\n", f"{header}\nA,x{',' * 18}\n"):
        (tmp_path / "result.csv").write_text(text)
        with pytest.raises(ValueError):
            rows.read_rows(tmp_path / "result.csv")


def test_cells_are_read_as_they_were_written() -> None:
    row = Row("5", entries=0, opening_price=7, opening_side="none", seconds=0.25, fault="a,b")
    fields = [str(cell) for cell in rows.cells(row, rows.COLUMNS)]
    assert fields[:2] == ["5", "0"] and fields[2] == ""
    assert Row(*map(rows.read_cell, rows.COLUMNS, fields)) == row


def blocks(text: bytes, size: int) -> forms.Blocks:
    """The text as it comes in reads of `size` bytes."""

    class Slow(io.BytesIO):
        def read(self, _: int | None = -1) -> bytes:
            return super().read(size)

    return forms.blocks_of(Slow(text))


LINES = (
    b"1: entered 1\n2: opening no price\n3: refused 6 NotOperator\n"
    b"4: intraday price 206 volume 20 surplus 10 bid trades 2\n5: interrupted price 9 volume 1\n"
    b"6: closing price 5 volume 3 surplus 0 none trades 1\n7: order bid 5 at 9 visible 5\n"
)
AUDIT = (
    b'2: recorded "audit legal", lawful "entered 2"\n4: recorded "entries 5", lawful "deleted"\n'
    b"entries 8\ncompared 7\nunlawful 2\naudit bad 1\n"
)


@pytest.mark.parametrize("size", [1, 2, 3, 7, 64, 1_000])
def test_output_is_read_whatever_comes_together(size: int) -> None:
    assert forms.read_lines(blocks(LINES, size)) == {
        "entries": 7,
        "day": "over",
        "auctions": 3,
        "trades": 3,
        "intraday_price": 206,
        "intraday_volume": 20,
        "intraday_surplus": 10,
        "intraday_side": "bid",
        "closing_price": 5,
        "closing_volume": 3,
        "closing_surplus": 0,
        "closing_side": "none",
    }
    assert forms.read_audit(blocks(AUDIT, size)) == {
        "entries": 8,
        "compared": 7,
        "unlawful": 2,
        "first_unlawful": 2,
    }
    assert forms.read_trades(blocks(b"trade,..\n1,..\n2,..\n", size)) == {"trades": 2}


UNCROSSES = (
    b"2: opening no price\n4: interrupted price 9 volume 1 surplus 0 none\n"
    b"5: intraday price 206 volume 20 surplus 10 bid trades 2\n"
)
RESULTS = AUDIT + UNCROSSES + b"in closing\n"


@pytest.mark.parametrize("size", [1, 7, 64, 1_000])
def test_results_are_read_whatever_comes_together(size: int) -> None:
    expected = {
        "entries": 8,
        "compared": 7,
        "unlawful": 2,
        "first_unlawful": 2,
        "day": "closing",
        "auctions": 2,
        "trades": 2,
        "intraday_price": 206,
        "intraday_volume": 20,
        "intraday_surplus": 10,
        "intraday_side": "bid",
    }
    assert forms.read_results(blocks(RESULTS, size)) == expected
    differences = AUDIT[: AUDIT.index(b"entries 8")] * 50
    assert forms.read_results(blocks(differences + RESULTS, size)) == expected


@pytest.mark.parametrize(
    "text",
    [
        b"",
        AUDIT,
        AUDIT + UNCROSSES,
        AUDIT + UNCROSSES + b"day over\n",
        AUDIT + UNCROSSES + b"in intraday\n",
        AUDIT + b"2: opening price 5\nin intraday\n",
        RESULTS[:-1],
        RESULTS + b"more\n",
        UNCROSSES + b"in closing\n",
    ],
)
def test_results_of_another_form_are_refused(text: bytes) -> None:
    with pytest.raises(forms.OutputError):
        forms.read_results(blocks(text, 64))


def test_a_day_without_entries_is_read() -> None:
    assert forms.read_lines(blocks(b"", 9)) == {
        "entries": 0,
        "day": "opening",
        "auctions": 0,
        "trades": 0,
    }
    none = b"entries 0\ncompared 0\nunlawful 0\naudit legal\n"
    assert forms.read_audit(blocks(none, 9))["first_unlawful"] is None


@pytest.mark.parametrize("cut", [0, 10, len(AUDIT) - 30, len(AUDIT) - 1])
def test_a_cut_audit_is_refused(cut: int) -> None:
    with pytest.raises(forms.OutputError):
        forms.read_audit(blocks(AUDIT[:cut], 64))


@pytest.mark.parametrize("text", [b"1: opening price 5\n", b"hello\n", b"1: entered 1\n2"])
def test_lines_of_another_form_are_refused(text: bytes) -> None:
    with pytest.raises(forms.OutputError):
        forms.read_lines(blocks(text, 64))
    with pytest.raises(forms.OutputError):
        forms.read_trades(blocks(b"", 64))

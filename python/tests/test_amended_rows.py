"""Rows that are written in two ways, or amended."""
from collections.abc import Callable
from pathlib import Path

import pytest
from damage import places
from desk import TRADE, UNCROSS, Printed, audited, base_rows, text_of


@pytest.mark.parametrize("columns, change", [
    (("bid", "ask"), str.lower),
    (("bid", "ask"), lambda text: f"0{text}"),
    (("bid", "ask"), lambda text: f"{text}.0"),
    (("bid_member", "ask_member"), str.lower),
])
def test_ids_and_members_in_two_spellings_condemn_no_day(
    columns: tuple[str, ...], change: Callable[[str], str], tmp_path: Path, capsys: Printed
) -> None:
    rows = base_rows()
    for place in places(rows, TRADE):
        rows[place] |= {name: change(rows[place][name]) for name in columns}
    assert audited(text_of(rows), [], tmp_path) == 5
    assert "are written in two ways" in capsys.readouterr().out
    rows[places(rows, UNCROSS)[0]]["quantity"] = "7"
    assert audited(text_of(rows), [], tmp_path) == 4


def test_an_entry_that_a_later_row_corrects_is_in_doubt(tmp_path: Path) -> None:
    rows = base_rows()
    first = next(at for at in places(rows, "new") if rows[at].get("price"))
    rows.append(dict(rows[first]))
    rows[first]["price"] = "9.97" if rows[first]["price"] != "9.97" else "10.03"
    assert audited(text_of(rows), [], tmp_path) == 5


@pytest.mark.parametrize("numbers, said", [
    ("S{:05}", "that no row has (are rows missing?), such as 4: 2"),
    ("{}", "that no row has (are rows missing?), such as 4: 2"),
    ("09:00:{:02}", ""),
])  # fmt: skip
def test_numbers_that_are_missing_in_a_sequence_are_said(
    numbers: str, said: str, tmp_path: Path, capsys: Printed
) -> None:
    rows = base_rows()[:40]
    for place, row in enumerate(rows):
        row["sequence"] = numbers.format(1 + place + 2 * (place > 2))
    whole = [dict(row, sequence=numbers.format(1 + place)) for place, row in enumerate(rows)]
    audited(text_of(whole), [], tmp_path)
    assert "that no row has" not in capsys.readouterr().err
    audited(text_of(rows), [], tmp_path)
    assert said in capsys.readouterr().err
    apart = [dict(row, sequence=numbers.format(100 * place)) for place, row in enumerate(rows)]
    audited(text_of(apart), [], tmp_path)
    assert "that no row has" not in capsys.readouterr().err


def test_of_two_trades_with_one_sequence_either_may_be_right(tmp_path: Path) -> None:
    rows = base_rows()
    for number, row in enumerate(rows):
        row["sequence"] = str(number)
    first = places(rows, TRADE)[0]
    rows.append(dict(rows[first]))
    rows[first]["quantity"] = str(int(rows[first]["quantity"]) + 10)
    assert audited(text_of(rows), [], tmp_path) == 5

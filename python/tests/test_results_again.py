"""Results that are there again: a later one corrects the first, or interrupts it."""
from pathlib import Path

import pytest
from damage import places
from desk import TRADE, UNCROSS, Printed, audited, base_day, base_rows, text_of
from extracts import Rows
from judging import judged_rows


def corrected(rows: Rows, last: str, later: bool) -> None:
    """A result of the opening with other cells, below the right one or above it, at once or later.
    """
    first, second = places(rows, UNCROSS)[:2]
    price = f"{float(rows[first]['price']) + 0.02:.2f}"
    wrong, right = dict(rows[first], price=price, trades="77"), dict(rows[first])
    rows[first] = wrong if last == "right" else right
    other = right if last == "right" else wrong
    place = second if later else first + 1
    rows.insert(place, dict(other, time=rows[place - 1]["time"]))


@pytest.mark.parametrize("later", [True, False])
def test_a_corrected_result_condemns_no_day(
    later: bool, tmp_path: Path, capsys: Printed
) -> None:
    rows = base_rows()
    corrected(rows, "right", later)
    assert audited(text_of(rows), [], tmp_path) == 5
    printed = capsys.readouterr()
    assert "is a later result of the opening, read in its place" in printed.err
    assert "findings 0\n" in printed.out and "doubtful" not in printed.out


def test_a_corrected_result_of_the_one_auction_needs_no_name(tmp_path: Path) -> None:
    rows = base_rows()
    rows = rows[: 1 + max(at for at, row in enumerate(rows) if row.get("auction") == "opening")]
    place = places(rows, UNCROSS)[0]
    rows.append(dict(rows[place]))
    rows[place]["price"] = "9.00"
    for row in rows:
        row.pop("auction", None)
    assert audited(text_of(rows), ["--auctions", "opening"], tmp_path) == 5
    rows[-1]["price"] = "9.00"
    assert audited(text_of(rows), ["--auctions", "opening"], tmp_path) == 4


@pytest.mark.parametrize("later", [True, False])
@pytest.mark.parametrize("words", [["--range", "5.00"], ["--range", "2%"]])
def test_a_corrected_result_with_a_range_leaves_a_doubt(
    words: list[str], later: bool, tmp_path: Path, capsys: Printed
) -> None:
    """There the first result may be an interruption."""
    rows = base_rows()
    corrected(rows, "right", later)
    assert audited(text_of(rows), words, tmp_path) == 5
    assert "the later one may correct the other" in capsys.readouterr().out
    rows[places(rows, UNCROSS)[-1]]["quantity"] = "7"
    assert audited(text_of(rows), words, tmp_path) == 4


def test_an_interruption_that_has_the_name_of_its_auction_is_no_corrected_result() -> None:
    """By hand: 10.10 is beyond the range of 0.05, and 10.04, at which it ends, isn't."""
    rows: Rows = [
        dict(event="new", order="A", side="bid", price="10.10", quantity="10", time="09:00"),
        dict(event="new", order="S", side="ask", price="10.10", quantity="10", time="09:01"),
        dict(event="uncross", price="10.10", quantity="10", auction="interrupted", time="09:02"),
        dict(event="new", order="B", side="bid", price="10.04", quantity="50", time="09:03"),
        dict(event="new", order="T", side="ask", price="10.04", quantity="50", time="09:04"),
        dict(event="uncross", price="10.04", quantity="50", auction="opening", time="09:05"),
        dict(event="trade", bid="A", ask="T", quantity="10", price="10.04", time="09:05"),
        dict(event="trade", bid="B", ask="T", quantity="40", price="10.04", time="09:05"),
    ]  # fmt: skip
    terms = dict(reference="10", tick_size="0.01", auctions=["opening"], range="0.05")
    assert not judged_rows(rows, terms).findings, str(judged_rows(rows, terms))
    rows[2]["auction"] = "opening"
    [finding] = judged_rows(rows, terms).findings
    assert (finding.recorded, finding.lawful) == ("opening", "interrupted")


@pytest.mark.parametrize("number", range(3))
@pytest.mark.parametrize("later", [True, False])
def test_four_results_without_names_condemn_no_day(
    number: int, later: bool, tmp_path: Path, capsys: Printed
) -> None:
    """One is a later result of an auction; a fault in another auction is found."""
    rows = base_rows()
    ends = places(rows, UNCROSS)
    wrong = dict(rows[ends[number]], price=f"{float(rows[ends[number]]['price']) + 0.02:.2f}")
    right, rows[ends[number]] = rows[ends[number]], wrong
    rows.insert([*ends, len(rows)][number + 1] if later else ends[number] + 1, right)
    for row in rows:
        row.pop("auction", None)
    assert audited(text_of(rows), [], tmp_path) == 5
    assert "none says which auction it is of" in capsys.readouterr().out
    other = places(rows, UNCROSS)[0 if number == 2 else -1]
    rows[other]["quantity"] = str(int(rows[other]["quantity"]) + 1)
    assert audited(text_of(rows), [], tmp_path) == 4


def test_an_interruption_without_a_name_condemns_no_day(tmp_path: Path, capsys: Printed) -> None:
    """Of results without names one more is an interruption; the range isn't said."""
    rows = [dict(row) for row in base_day(True).rows]
    words = ["--reference", base_day(True).reference]
    for row in rows:
        row.pop("auction", None)
    assert audited(text_of(rows), words, tmp_path) == 5
    assert "none says which auction it is of" in capsys.readouterr().out


def test_an_earlier_result_of_an_auction_is_none_of_its_end(
    tmp_path: Path, capsys: Printed
) -> None:
    """An indication in the call phase has the auction's name; it is above orders of that."""
    rows = base_rows()
    first = places(rows, UNCROSS)[0]
    rows.insert(first - 3, dict(event=UNCROSS, auction="opening", price="9.99", quantity="10",
                                time=rows[first - 4]["time"]))  # fmt: skip
    assert audited(text_of(rows), [], tmp_path) == 5
    assert "is a later result of the opening" in capsys.readouterr().err


@pytest.mark.parametrize("later", [True, False])
def test_the_last_result_counts(later: bool, tmp_path: Path, capsys: Printed) -> None:
    rows = base_rows()
    corrected(rows, "wrong", later)
    assert audited(text_of(rows), [], tmp_path) == 4
    place = places(rows, UNCROSS)[1]
    assert f"row {place + 2}, " in capsys.readouterr().out


def test_a_correction_excuses_no_trades_at_two_prices(tmp_path: Path, capsys: Printed) -> None:
    rows = base_rows()
    corrected(rows, "right", False)
    place = places(rows, TRADE)[0]
    rows[place]["price"] = f"{float(rows[place]['price']) + 0.02:.2f}"
    assert audited(text_of(rows), [], tmp_path) == 4
    assert "trade: recorded" in capsys.readouterr().out

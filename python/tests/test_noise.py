"""Prices with the noise that numbers have in binary, as spreadsheets write them."""
from decimal import Decimal
from pathlib import Path

import pytest
from callauction.verdict import audit_events
from damage import places
from desk import UNCROSS, all_cells, audited, base_day, cells, text_of
from judging import frame_of

Printed = pytest.CaptureFixture[str]


def noisy(text: str) -> str:
    """The price with the noise of one operation, as of 0.1 + 0.2."""
    return repr(float(text) * (1 + 2**-52)) if "." in text else text


@pytest.mark.parametrize("events", ["new|replace", "uncross", "trade", "new|replace|uncross|trade"])
def test_noise_is_read_as_the_tick_next_to_it(
    events: str, tmp_path: Path, capsys: Printed
) -> None:
    rows = [dict(row) for row in base_day().rows]
    cells(events, "price", noisy)(rows)
    assert any(len(row.get("price", "")) > 15 for row in rows)
    assert audited(text_of(rows), [], tmp_path) == 0
    assert "prices with the noise of binary numbers" in capsys.readouterr().err
    rows[places(rows, UNCROSS)[0]]["quantity"] = "7"
    assert audited(text_of(rows), [], tmp_path) == 4


def test_the_remark_has_a_price_and_what_it_is_read_as(tmp_path: Path, capsys: Printed) -> None:
    text = """event,order,side,price,quantity,surplus,auction
new,A,bid,19.990000000000002,100,,
new,S,ask,19.99,100,,
uncross,,none,19.99,100,0,opening
"""
    words = ["--reference", "20", "--auctions", "opening"]
    assert audited(text, words, tmp_path) == 5
    said = "next to them, such as 19.990000000000002 as 19.99: 1\n"
    assert said in capsys.readouterr().err
    assert audited(text, [*words, "--tick-size", "none"], tmp_path) == 5
    assert said in capsys.readouterr().err


def test_a_noisy_reference_is_the_tick_next_to_it(tmp_path: Path) -> None:
    rows = [dict(row) for row in base_day().rows]
    words = ["--reference", repr(float(base_day().reference) * (1 + 2**-52))]
    assert len(words[1]) > 12 and audited(text_of(rows), words, tmp_path) == 0


@pytest.mark.parametrize("price", ["10.005", "10.0000001", "10.00000000001"])
def test_a_price_off_the_ticks_stays_what_it_is(
    price: str, tmp_path: Path, capsys: Printed
) -> None:
    rows = [dict(row) for row in base_day().rows]
    rows[places(rows, UNCROSS)[0]]["price"] = price
    assert audited(text_of(rows), [], tmp_path) == 4
    assert f"recorded {price}, lawful" in capsys.readouterr().out


def test_ticks_within_the_noise_are_told_apart() -> None:
    """Of a tick size of a few units in the last place, each price is what it is."""
    rows = [
        dict(event="new", order="A", side="bid", price="10.000000000000003", quantity="5"),
        dict(event="new", order="B", side="ask", price="10.000000000000003", quantity="5"),
        dict(event="uncross", price="10.000000000000003", quantity="5", surplus="0"),
    ]
    verdict = audit_events(
        frame_of(rows), reference="10", tick_size="0.000000000000003", auctions=["opening"]
    )
    assert len(verdict.bad_rows) == 2, str(verdict)


def test_cells_of_frames_may_be_noisy() -> None:
    rows = [dict(row) for row in base_day().rows]
    all_cells("price", lambda text: text)(rows)
    for row in rows:
        if row.get("price"):
            row["price"] = float(Decimal(row["price"])) * (1 + 2**-52)
    verdict = audit_events(frame_of(rows), reference=base_day().reference, tick_size="0.01")
    assert verdict.word == "lawful", str(verdict)

"""Rows that were copied."""
from pathlib import Path

from damage import places
from desk import TRADE, Printed, audited, base_day, base_rows, text_of
from extracts import Rows
from judging import judged, judged_rows


def test_a_trade_copied_to_another_place_condemns_no_day() -> None:
    day = base_day()
    made = places(day.rows, TRADE)
    for place in (made[0], made[-1]):
        extract = day.copy()
        other = made[1] + 1 if place == made[0] else len(extract.rows) - 2
        extract.rows.insert(other, dict(extract.rows[place]))
        if abs(other - place) > 1:
            verdict = judged(extract)
            assert verdict.word == "incomplete", str(verdict)
            assert "is there twice: is it one?" in str(verdict)


def test_a_cancel_of_some_shares_that_is_copied_condemns_no_day() -> None:
    """By hand: 10 are left of A's 20 after a cancel of 10, none after two."""
    cancel = dict(event="cancel", order="A", quantity="10", time="09:01")
    rows: Rows = [
        dict(event="new", order="A", side="bid", price="10.00", quantity="20", time="09:00"),
        cancel, cancel,
        dict(event="new", order="S", side="ask", price="10.00", quantity="10", time="09:02"),
        dict(event="uncross", price="10.00", quantity="10", auction="opening", time="09:03"),
    ]  # fmt: skip
    terms = dict(reference="10", tick_size="0.01", auctions=["opening"])
    verdict = judged_rows(rows, terms)
    assert verdict.word == "incomplete" and "is there twice" in str(verdict)
    rows[2] = dict(cancel, quantity="9")
    assert judged_rows(rows, terms).word == "unlawful"


def test_a_trade_with_an_id_is_one_wherever_its_copy_is(tmp_path: Path, capsys: Printed) -> None:
    for other in (False, True):
        rows = base_rows()
        made = places(rows, TRADE)
        for number, place in enumerate(made):
            rows[place]["TradeID"] = f"T{number}"
        rows.insert(len(rows) if other else made[0] + 1, dict(rows[made[0]]))
        assert audited(text_of(rows), ["--ignore", "TradeID"], tmp_path) == 0
        assert "rows that were sent again, read once: 1" in capsys.readouterr().err
        rows[made[0]]["TradeID"] = "T99"
        assert audited(text_of(rows), ["--ignore", "TradeID"], tmp_path) == 4

"""What an extract hasn't, or has in a cell that says nothing: it is said, and excuses what it may.
"""
import csv
import json
import random
from pathlib import Path

import pytest
from callauction.__main__ import main
from damage import places, timed_day
from desk import LINE, TRADE, UNCROSS, audited, base_day, base_rows, text_of
from extracts import Extract, Rows
from judging import judged
from planted import DAYS, planted
from small_days import small_day, verdict_of

Printed = pytest.CaptureFixture[str]
WORDS = ("#REF!", "#N/A", "#VALUE!", "#NAME?", "#DIV/0!", "#NUM!", "#NULL!", "n.a.", "n/a", "None",
         "nil", "null", "TBD", "?", "???", "-", "\u2014", "\u2013\u2013")  # fmt: skip


# ---- cells that say nothing


@pytest.mark.parametrize("word", WORDS)
@pytest.mark.parametrize("column", ["bid", "ask_member"])
def test_a_cell_of_a_trade_that_says_nothing_is_not_known(word: str, column: str) -> None:
    rows = small_day()
    rows[4][column] = word
    verdict = verdict_of(rows)
    assert not verdict.findings and verdict.word == "incomplete", str(verdict)


@pytest.mark.parametrize("word", WORDS)
def test_an_entry_whose_id_says_nothing_excuses_the_trades_of_its_order(word: str) -> None:
    rows = small_day()
    rows[1]["order"] = word
    verdict = verdict_of(rows)
    assert not verdict.findings and verdict.word == "incomplete", str(verdict)
    rows = small_day()
    rows[1]["member"], rows[4]["ask_member"] = word, "another"
    assert not verdict_of(rows).findings


def test_an_id_that_has_such_a_sign_is_one() -> None:
    rows = small_day()
    rows[1]["order"] = rows[4]["ask"] = "S-1?"
    assert verdict_of(rows).word == "lawful"
    rows[4]["ask"] = "nilsson"
    assert verdict_of(rows).word == "unlawful"


def with_a_damaged_id(seed: int) -> Extract | None:
    """A day of which one order that trades, and no other row names, has an id that a spreadsheet
    rounded in the row that enters it; None where there is none.
    """
    extract = timed_day(seed)
    rows = extract.rows
    changed = {rows[at]["order"] for at in places(rows, "replace", "cancel")}
    made = {rows[at][side] for at in places(rows, TRADE) for side in ("bid", "ask")} - changed
    those = [at for at in places(rows, "new") if rows[at]["order"] in made]
    if not those:
        return None
    rows[random.Random(seed).choice(those)]["order"] = "1.5E+02"
    for row in rows:  # two orders a member, whose ids begin with its letter
        for name in ("order", "bid", "ask"):
            if row.get(name, "").startswith("N"):
                row[name] = f"{chr(65 + int(row[name][1:]) % 9)}{row[name][1:]}"
    return extract


def test_an_entry_whose_id_is_damaged_condemns_no_day() -> None:
    count = 0
    for seed in range(DAYS // 2):
        extract = with_a_damaged_id(seed)
        if extract is not None:
            count += 1
            verdict = judged(extract)
            assert verdict.word == "incomplete", f"{seed}\n{verdict}"
            assert any("'1.5E+02': are both one order?" in it.doubt for it in verdict.doubtful)
    assert count > 5


def test_a_fault_beside_a_damaged_id_is_certain() -> None:
    count = 0
    for seed in range(DAYS // 2):
        extract = with_a_damaged_id(seed)
        fault = None if extract is None else planted(extract, len(extract.rows))
        if extract is not None and fault is not None:
            count += 1
            verdict = judged(extract)
            assert fault in [it.row for it in verdict.findings], f"{seed}\n{verdict}"
    assert count > 5


# ---- rows that a sequence lacks


@pytest.mark.parametrize("lost, many, word", [
    ([], 1, "lawful"), ([2], 1, "incomplete"), ([2, 4], 1, "lawful"), ([2, 4], 0, "incomplete"),
])  # fmt: skip
def test_one_missing_number_is_a_doubt_in_a_short_extract_too(
    lost: list[int], many: int, word: str
) -> None:
    """Of the closing's 86 entries and trades two may be missing, of the opening alone one."""
    rows = [row for row in small_day() if not many or row["time"] < "10"]
    numbers = [it for it in range(1, len(rows) + len(lost) + 1) if it not in lost]
    rows = [row | {"sequence": number} for row, number in zip(rows, numbers)]
    verdict = verdict_of(rows, auctions=["opening"] if many else ["opening", "intraday", "closing"])
    assert verdict.word == word, str(verdict)


@pytest.mark.parametrize("first", [0, 1, 8])
def test_a_sequence_that_begins_above_1_may_lack_orders(first: int) -> None:
    rows = [row | {"sequence": first + at} for at, row in enumerate(small_day())]
    said = {"the sequence begins above 1 (are rows cut off?), with": 8} if first == 8 else {}
    verdict = verdict_of(rows)
    assert verdict.word == "lawful" and verdict.notes == said
    rows[3] |= {"surplus": 5, "side": "bid"}  # as with a bid of 5 more
    verdict = verdict_of(rows)
    assert len([*verdict.findings, *verdict.doubtful]) == 1
    assert verdict.word == ("incomplete" if first == 8 else "unlawful"), str(verdict)
    rows[4]["price"] = "10.01"  # at two prices, whatever orders there were
    assert verdict_of(rows).word == "unlawful"


# ---- trades without a result


def test_trades_of_one_auction_at_two_prices_are_certain_without_its_result() -> None:
    rows = [row | ({"auction": "opening"} if row["event"] == TRADE else {})
            for row in small_day() if row["time"] < "10" and row["event"] != UNCROSS]  # fmt: skip
    assert verdict_of(rows, auctions=["opening"]).word == "incomplete"
    rows[-1]["price"] = "10.01"
    verdict = verdict_of(rows, auctions=["opening"])
    [finding] = verdict.findings
    assert (finding.recorded, finding.lawful) == ("trades at 10.00 and 10.01", "at one price")
    assert finding.auction == "opening" and verdict.explain(finding) and not verdict.doubtful
    whole = small_day()
    for row in whole:
        if row["event"] == TRADE:
            row["auction"] = "opening" if row["time"] < "10" else "closing"
    rows = [row for row in whole if row.get("auction") != "closing" or row["event"] != UNCROSS]
    assert verdict_of(rows).word == "incomplete"
    rows[-1]["price"] = "10.01"
    [finding] = verdict_of(rows).findings
    assert finding.rule == "All trades of an auction are at its one price."
    assert finding.auction == "closing"


# ---- cancels


def cancelled(is_fill: bool = False) -> Rows:
    """The opening executes B1, which is cancelled five minutes before."""
    rows = [row for row in small_day() if row["time"] < "10"]
    rows.insert(3, dict(event="cancel", order="B1", time="08:55:00"))
    if is_fill:
        rows[5:] = [dict(event="fill", order=id, quantity=shares, price="10.00", time="09:00:00")
                    for id, shares in (("B1", 300), ("S1", 100), ("S2", 200))]  # fmt: skip
    return rows


@pytest.mark.parametrize("is_fill", [False, True])
def test_an_order_that_is_executed_after_its_cancel_is_named(
    is_fill: bool, tmp_path: Path, capsys: Printed
) -> None:
    path, found, page = (tmp_path / name for name in ("day.csv", "found.csv", "day.html"))
    path.write_text(text_of(cancelled(is_fill)))
    words = [str(path), "--reference", "10", *LINE, "--auctions", "opening"]
    assert main(["audit", *words, "--explain", "--findings", str(found)]) == 4
    printed = capsys.readouterr()
    [line] = [it for it in printed.out.splitlines() if it.startswith("row ")]
    said = "B1 is cancelled in row 5, 08:55:00, above the uncross, and executed in row 7. "
    assert said in line and printed.out.count(said) == 2 and "cancels" not in printed.err
    [row] = csv.DictReader(found.read_text().splitlines())
    assert (row["kind"], row["rows"], row["item"]) == ("certain", "7", "fill" if is_fill else TRADE)
    assert said in row["why"]
    assert main(["report", *words, "-o", str(page)]) == 0
    told = page.read_text(encoding="utf-8")
    assert said in told and "cancels after the last auction" not in told


def test_a_cancel_before_the_auction_is_not_one_of_an_order_executed_before() -> None:
    rows = cancelled() + [row for row in small_day() if row["time"] > "10"]
    verdict = verdict_of(rows)
    assert len(verdict.findings) == 1 and not any("cancels" in note for note in verdict.notes)


# ---- what else a desk met


def test_a_reference_of_0_is_none_where_limits_are_above(tmp_path: Path, capsys: Printed) -> None:
    day, days = tmp_path / "day.csv", tmp_path / "days.csv"
    day.write_text(text_of([dict(row, isin="DE1") for row in base_rows()]))
    days.write_text("isin,reference,tick_size\nDE1,0.00,0.01\n")
    assert main(["audit", str(day), "--by", "isin", "--days", str(days)]) != 4
    assert "DE1, the reference is 0, and no limit: say --reference" in capsys.readouterr().err
    assert audited(text_of(base_rows()), ["--reference", "0"], tmp_path) == 2
    rows = [row | {"price": "0"} if row["event"] == "new" else row for row in small_day()]
    assert verdict_of(rows, reference="0", low="0").word != "lawful"


def test_no_spreadsheet_runs_a_text_of_a_file(tmp_path: Path) -> None:
    rows = [dict(row, isin="=1+1") for row in base_rows()]
    rows[places(rows, UNCROSS)[0]]["surplus"] += "7"
    path, found, written = (tmp_path / name for name in ("day.csv", "found.csv", "rows.csv"))
    path.write_text(text_of(rows))
    words = ["audit", str(path), "--reference", base_day().reference, *LINE, "--by", "isin"]
    assert main([*words, "--findings", str(found), "-o", str(written)]) == 4
    for each in (found, written):
        [row] = csv.DictReader(each.read_text().splitlines())
        assert row["instrument"] == "'=1+1"
    as_json = tmp_path / "found.json"
    assert main([*words, "--findings", str(as_json)]) == 4
    assert json.loads(as_json.read_text())[0]["instrument"] == "=1+1"


def test_a_later_result_has_its_own_time() -> None:
    rows = [row for row in small_day() if row["time"] < "10"]
    rows.append(rows[3] | {"quantity": 299, "time": "18:00:00"})
    verdict = verdict_of(rows, auctions=["opening"])
    assert {(it.row, it.time) for it in verdict.findings} == {(6, "18:00:00")}, str(verdict)


@pytest.mark.parametrize("is_right", [False, True])
def test_of_a_result_that_is_there_twice_around_another_of_its_number_either_may_be_right(
    is_right: bool,
) -> None:
    rows = [{**row, "sequence": str(number)} for number, row in enumerate(small_day())]
    place = places(rows, UNCROSS)[0]
    right, wrong = rows[place], {**rows[place], "quantity": "987"}
    both = [right, wrong] if is_right else [wrong, right]
    verdict = verdict_of([*rows[:place], *both, both[0], *rows[place + 1 :]])
    assert verdict.word == "incomplete", str(verdict)
    assert "says another quantity, and has its sequence" in " ".join(verdict.remarks())
    other = [{**it, "price": "9.31"} for it in both]
    verdict = verdict_of([*rows[:place], *other, other[0], *rows[place + 1 :]])
    assert [it.item for it in verdict.findings][:1] == ["price"], str(verdict)

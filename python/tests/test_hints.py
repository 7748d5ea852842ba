"""What an audit says beside its verdict: options that help, why an order comes first, what files
say of a day without findings.
"""
import csv
import json
import random
import re
from pathlib import Path

import pytest
from callauction.__main__ import main
from callauction.verdict import Reading, audit_events
from damage import DAMAGES, places, timed_day
from desk import UNCROSS, audited, base_day, text_of
from judging import frame_of, judged
from lines import timed_rows, untimed_rows
from shapes import Written, total_quantities

Printed = pytest.CaptureFixture[str]
HEADER = "event,order,side,price,quantity,surplus,auction,trades,bid,ask\n"


# ---- what replaces say


TOTALS = """new A bid 300 10.00
new S ask 100 10.00
uncross 10.00 100 200
trade A S 100 10.00
replace A bid 300 10.00
new T ask 300 10.00
uncross 10.00 200 100
trade A T 200 10.00"""
HELD = ["opening", "closing"]


def test_total_quantities_that_are_not_said_condemn_no_day() -> None:
    """Of A's 300, whether or not it was replaced, 100 were executed before."""
    terms = dict(reference="10", tick_size="0.01", auctions=HELD)
    frame = frame_of(untimed_rows(TOTALS))
    verdict = audit_events(frame, **terms)  # type: ignore[arg-type]
    assert verdict.word == "incomplete", str(verdict)
    assert "--quantity says which" in verdict.doubtful[0].doubt
    for quantity, word in (("open", "unlawful"), ("total", "incomplete")):
        reading = Reading(quantity=quantity, unrestricted=True)  # type: ignore[arg-type]
        verdict = audit_events(frame, reading=reading, **terms)  # type: ignore[arg-type]
        assert verdict.word == word and not verdict.doubtful, str(verdict)
    wrong = frame_of(untimed_rows(TOTALS.replace("10.00 200 100", "10.00 250 100")))
    assert audit_events(wrong, **terms).word == "unlawful"  # type: ignore[arg-type]


def test_a_day_that_no_quantity_makes_lawful_has_the_values_of_open_ones() -> None:
    """T should trade at 10.00 with C and A, of which 100 are open, or 40 if 100 are all of it: 80
    shares, with 50 bid left, or 70, with 10 asked.
    """
    frame = frame_of(timed_rows("""
        new 08:50:01 A bid 100 10.00
        new 08:50:02 S ask 60 10.00
        uncross 09:00 10.00 60 40 bid
        trade 09:00 A S 60 10.00
        replace 16:00:01 A bid 100 10.00
        new 16:00:02 C bid 30 10.02
        new 16:00:03 T ask 80 10.00
        new 16:00:04 V ask 50 10.02
        uncross 17:00 10.02 30 100 ask
        trade 17:00 C T 30 10.02
    """))
    reading = Reading(unrestricted=True)
    verdict = audit_events(frame, reference="10", tick_size="0.01", auctions=HELD, reading=reading)
    [found] = verdict.findings
    assert (found.item, found.auction, found.lawful) == ("price", "closing", "10.00")
    assert found.effect.endswith("and 10.00 executes 80 with 50 bid left."), found.effect
    assert "volume: recorded 30, lawful 80" in found.moved


def test_days_of_total_quantities_are_never_unlawful() -> None:
    hints = 0
    for seed in range(60):
        found = Written(timed_day(seed, 20), {})
        total_quantities(random.Random(seed), found)
        verdict = judged(found.extract)
        assert verdict.word != "unlawful", f"{seed}\n{verdict}"
        hints += any("--quantity says which" in it.doubt for it in verdict.doubtful)
    assert hints > 3


CLOSED = """new A bid 300 10.00
new S ask 100 10.00
uncross 10.00 100 200
trade A S 100 10.00
replace A bid 90 10.00
{more}new B bid 20 10.00
new T ask 80 10.00
uncross {result}
trade {made} 10.00"""
"""A has 90 open, or is closed, as 100 of these 90 were executed."""


@pytest.mark.parametrize("more, result, made, word", [
    ("", "10.00 20 60", "B T 20", "incomplete"),
    ("replace A bid 80 10.00\n", "10.00 20 60", "B T 20", "unlawful"),
    ("replace A bid 80 10.00\n", "10.00 80 20", "A T 60 10.00\ntrade B T 20",
     "unlawful"),
    ("new U ask 10 10.00\nuncross 10.00 10 80\ntrade A U 10 10.00\n", "10.00 20 60", "B T 20",
     "unlawful"),
])  # fmt: skip
def test_a_total_that_would_close_an_order_of_which_there_is_more_is_none(
    more: str, result: str, made: str, word: str
) -> None:
    """It is replaced again, or executed, below that row."""
    held = ["opening", "intraday", "closing"] if "uncross" in more else HELD
    frame = frame_of(untimed_rows(CLOSED.format(more=more, result=result, made=made)))
    terms = dict(reference="10", tick_size="0.01", reading=Reading(unrestricted=True))
    verdict = audit_events(frame, auctions=held, **terms)  # type: ignore[arg-type]
    assert verdict.word == word, str(verdict)
    assert ("--quantity says which" in str(verdict)) == (word == "incomplete")


@pytest.mark.parametrize("other", [
    ("trade A S 100", "trade A S 99"), ("new S ask 100", "new S ask 1e3"),
    ("uncross 10.00 100 200", "uncross 10.00 101 200"),
])  # fmt: skip
def test_a_total_may_close_its_order_where_what_was_executed_is_open(
    other: tuple[str, str]
) -> None:
    """No replace below denies it: the trade above, the book or the volume may be another."""
    day = CLOSED.format(more="replace A bid 80 10.00\n", result="10.00 20 60", made="B T 20")
    verdict = audit_events(frame_of(untimed_rows(day.replace(*other))), reference="10",
                           tick_size="0.01", auctions=HELD)  # fmt: skip
    assert not [it for it in verdict.findings if it.auction == "closing"], str(verdict)


@pytest.mark.parametrize("name", DAMAGES)
def test_damaged_days_of_total_quantities_are_never_unlawful(name: str) -> None:
    for seed in range(12):
        found = Written(timed_day(seed, 20), {})
        total_quantities(random.Random(seed), found)
        if DAMAGES[name](random.Random(seed), found.extract.rows) is not None:
            verdict = judged(found.extract)
            assert verdict.word != "unlawful", f"{seed}\n{verdict}"


# ---- why an order comes first


@pytest.mark.parametrize("side, other", [("bid", "ask"), ("ask", "bid")])
def test_the_order_that_was_jumped_is_explained(
    side: str, other: str, tmp_path: Path, capsys: Printed
) -> None:
    """B trades in the place of A; the order of the other side has its shares."""
    pair = "B,S" if side == "bid" else "S,B"
    text = (
        f"{HEADER}new,A,{side},10.00,100,,,,,\nnew,B,{side},10.00,100,,,,,\n"
        f"new,S,{other},10.00,100,,,,,\nuncross,,{side},10.00,100,100,opening,1,,\n"
        f"trade,,,10.00,100,,,,{pair}\n"
    )
    assert audited(text, ["--reference", "10", "--auctions", "opening", "--explain"], tmp_path) == 4
    line, first, second, *_ = capsys.readouterr().out.splitlines()
    why = "A entered in row 2 stands before B entered in row 3 at 10.00"
    assert line.endswith(f": {why}") and first.strip() == why
    assert "is number 1 of 2 in" in second or "is number 2 of 2 in" in second


def test_doubts_come_in_the_order_of_harm(tmp_path: Path, capsys: Printed) -> None:
    """Two jumps, of 20 shares and of 500, of orders that a missing one may be before; the first
    has the better price.
    """
    text = f"""{HEADER}new,X,bid,?,10,,,,,
new,A,bid,10.02,20,,,,,
new,B,bid,10.02,20,,,,,
new,C,bid,10.01,500,,,,,
cancel,Y,,,,,,,,
new,D,bid,10.00,500,,,,,
new,E,bid,10.00,500,,,,,
new,S,ask,10.00,1040,,,,,
uncross,,,10.00,1040,,opening,,,
trade,,,10.00,20,,,,A,S
trade,,,10.00,10,,,,B,S
trade,,,10.00,510,,,,C,S
trade,,,10.00,500,,,,E,S
"""
    words = ["--reference", "10", "--auctions", "opening"]
    path = tmp_path / "found.csv"
    audited(text, [*words, "--findings", str(path)], tmp_path)
    with path.open() as file:
        records = [it for it in csv.DictReader(file) if (it["kind"], it["item"]) == (
            "doubtful", "trade")]  # fmt: skip
    moved = [max(int(it.replace(",", "")) for it in re.findall(
        r": ([\d,]+) at 10", f"{row['recorded']} {row['lawful']}")) for row in records]  # fmt: skip
    assert len(moved) > 1 and moved == sorted(moved, reverse=True), records
    [line] = [it for it in capsys.readouterr().out.splitlines() if "trade: recorded" in it]
    assert line.startswith("doubtful") and f"recorded {records[0]['recorded']}, " in line


# ---- files of findings


@pytest.mark.parametrize("words", [
    ["--findings", "x.xlsx"], ["--findings", "x.parquet"], ["-o", "x.xlsx"], ["-o", "x.json"],
])
def test_a_file_of_another_form_is_refused(
    words: list[str], tmp_path: Path, capsys: Printed
) -> None:
    with pytest.raises(SystemExit) as ended:
        audited(text_of(base_day().rows), words, tmp_path)
    assert ended.value.code == 2
    found = capsys.readouterr()
    forms = "csv or json" if words[0] == "--findings" else "csv"
    assert found.err.endswith(f": {words[1]}: what is written is {forms}\n") and not found.out


def findings_of(path: Path) -> list[dict[str, str]]:
    if path.suffix == ".json":
        found: list[dict[str, str]] = json.loads(path.read_text())
        return found
    return [*csv.DictReader(path.read_text().splitlines())]


@pytest.mark.parametrize("name", ["found.csv", "found.json"])
@pytest.mark.parametrize("change, status, word, kinds", [
    (lambda rows: None, 0, "lawful", {"none"}),
    (lambda rows: rows.__delitem__(slice(places(rows, UNCROSS)[-1], None)), 5, "incomplete",
     {"none"}),
    (lambda rows: rows.clear(), 5, "incomplete", {"none"}),
    (lambda rows: rows[places(rows, UNCROSS)[0]].update(quantity="7"), 4, "unlawful", {"certain"}),
])
def test_a_file_of_findings_says_the_verdict(
    name: str, change: object, status: int, word: str, kinds: set[str], tmp_path: Path
) -> None:
    rows = [dict(row) for row in base_day().rows]
    change(rows)  # type: ignore[operator]
    path = tmp_path / name
    assert audited(text_of(rows), ["--findings", str(path)], tmp_path) == status
    found = findings_of(path)
    assert {it["kind"] for it in found} == kinds and {it["verdict"] for it in found} == {word}
    assert found[0]["command"] and len(found) == 1


def test_each_instrument_has_a_row_among_findings(tmp_path: Path) -> None:
    rows = [dict(row, isin=name) for row in base_day().rows for name in ("DE1", "DE2", "DE3")]
    next(it for it in rows if it["event"] == UNCROSS and it["isin"] == "DE2")["quantity"] = "7"
    path, days, written = (tmp_path / it for it in ("day.csv", "days.csv", "found.json"))
    path.write_text(text_of(rows))
    reference = base_day().reference
    days.write_text(f"isin,reference,tick_size\nDE1,{reference},0.01\nDE2,{reference},0.01\n")
    words = ["audit", str(path), "--by", "isin", "--days", str(days), "--findings", str(written)]
    assert main(words) == 4
    found = {it["instrument"]: it for it in findings_of(written)}
    kinds = {name: (it["kind"], it["verdict"]) for name, it in found.items()}
    assert kinds == {"DE1": ("none", "lawful"), "DE2": ("certain", "unlawful"),
                     "DE3": ("none", "fault")}  # fmt: skip
    assert "it isn't among the days" in found["DE3"]["why"] or "--reference" in found["DE3"]["why"]


# ---- rows of another form


def test_words_that_are_not_known_name_the_option_that_says_them(
    tmp_path: Path, capsys: Printed
) -> None:
    text = (f"{HEADER}Invoer,A,bid,10.00,100,,,,,\nnew,B,V,10.00,100,,,,,\n"
            "Trade correction,C,bid,10.00,100,,,,,\nnew,D,1,10.00,100,,,,,\n"
            "uncross,,,,0,,opening,,,\n")  # fmt: skip
    audited(text, ["--reference", "10", "--auctions", "opening"], tmp_path)
    lines = capsys.readouterr().err.splitlines()
    said = ["event:Invoer=OURS", "side:V=OURS", "'event:Trade correction=OURS'"]
    for line, option in zip(lines, said):
        assert line.endswith(f" (--values {option} says what it means)"), line
    assert lines[3].endswith("side '1' is none of bid, buy, ask, sell")


def test_rows_whose_last_separators_are_stripped_are_said(
    tmp_path: Path, capsys: Printed
) -> None:
    rows = ["new,A,bid,10.00,100,,,,,", "new,S,ask,10.00,100,,,,,",
            "uncross,,none,10.00,100,0,opening,1,,", "trade,,,10.00,100,,opening,,A,S"]  # fmt: skip
    text = HEADER + "\n".join(row.rstrip(",") for row in rows) + "\n"
    assert audited(text, ["--reference", "10", "--auctions", "opening"], tmp_path) == 1
    [line] = capsys.readouterr().err.splitlines()
    assert "no whole row has order, side, and 3 rows have another number of fields than" in line
    assert "row 2, which has 5 fields, the header 10: write a field for each column" in line


def test_a_separator_more_at_the_end_of_each_row_is_said(tmp_path: Path, capsys: Printed) -> None:
    rows = ["new,A,bid,10.00,100,,,,,", "new,S,ask,10.00,100,,,,,",
            "uncross,,none,10.00,100,0,opening,1,,", "trade,,,10.00,100,,opening,,A,S"]  # fmt: skip
    text = HEADER + "".join(f"{row},\n" for row in rows)
    words = ["--reference", "10", "--auctions", "opening"]
    assert audited(text, words, tmp_path) == 1
    [line] = capsys.readouterr().err.splitlines()
    assert line.endswith("each row ends in a ',' more than the header: write one at the end of "
                         "the header too")  # fmt: skip
    assert audited(text.replace("ask\n", "ask,\n", 1), words, tmp_path) == 0
    assert capsys.readouterr().err == ""

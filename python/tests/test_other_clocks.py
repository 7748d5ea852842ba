"""Clocks, cells and columns of systems that aren't ours: a note, or another way to write, changes
no verdict.
"""
import html
import json
import re
from collections.abc import Callable
from pathlib import Path
from typing import Any

import pytest
from callauction.__main__ import main
from callauction.verdict import page
from damage import ORDERS, places
from days import seconds
from desk import TRADE, UNCROSS, audited, base_day, base_rows, text_of
from extracts import Rows
from judging import read_as
from logs import lawful_log
from small_days import order, small_day, traded, verdict_of

Printed = pytest.CaptureFixture[str]
DAY = "2026-11-27"
EPOCH = 1795737600
"""The first second of that day."""


def shifted(time: str, by: int) -> str:
    at = seconds(time) + by
    return f"{at // 3600:02}:{at // 60 % 60:02}:{at % 60:02}"


# ---- trades before their orders


def early(gaps: list[int]) -> Rows:
    """The base day, whose first trades are by these seconds before the later of their orders."""
    rows = base_rows()
    entered = {row["order"]: row["time"] for row in rows if row["event"] == "new"}
    for place, gap in zip(places(rows, TRADE), gaps):
        last = max(entered[rows[place]["bid"]], entered[rows[place]["ask"]])
        rows[place]["time"] = shifted(last, -gap)
    return rows


EARLY = "trades and fills timed before an order of theirs was entered, by {} at most"


def test_trades_timed_before_their_orders_are_in_doubt_once_an_auction(
    tmp_path: Path, capsys: Printed
) -> None:
    note = f"{EARLY.format('5 s')} (do clocks differ?): 2"
    assert audited(text_of(early([2, 5])), [], tmp_path) == 5
    printed = capsys.readouterr()
    assert f"callauction: {note}\n" in printed.err
    [line] = [it for it in printed.out.splitlines() if it.startswith("doubtful: ")]
    assert "(as 1 more are), and timed 5 s before it: do clocks differ?" in line
    assert audited(text_of(early([2, 5])), ["--json"], tmp_path) == 5
    assert note in json.loads(capsys.readouterr().out)["remarks"]
    verdict = verdict_of(early([2, 5]), reference=base_day().reference)
    assert EARLY.format("5 s") in page.html_of(verdict, "Day")
    assert audited(text_of(early([0])), [], tmp_path) == 0 and not capsys.readouterr().err


def test_a_trade_in_a_coarser_time_than_its_order_is_not_before_it() -> None:
    rows = small_day()
    rows[0]["time"] = "08:59:59.750"
    for place, time in ((4, "08:59:59"), (5, "08:59:59.700")):
        rows[place] |= {"auction": "opening", "time": time}
    verdict = verdict_of(rows)
    assert verdict.word == "incomplete" and len(verdict.doubtful) == 1
    assert verdict.notes[f"{EARLY.format('0.05 s')} (do clocks differ?)"] == 1
    rows[5]["time"] = "08:59:59"
    assert verdict_of(rows).word == "lawful"


# ---- what became of an order that is cancelled once more


@pytest.mark.parametrize("cells, earlier, why", [
    ({}, [], "were executed before"),
    (dict(price="9.99"), [dict(event="cancel", order="X", time="08:55:00")],
     "were cancelled before"),
    (dict(price="9.99", restriction="opening"), [],
     "were for one auction alone, which is over"),
])  # fmt: skip
def test_a_cancel_or_an_expiry_says_why_its_order_is_not_open(
    cells: dict[str, str], earlier: Rows, why: str
) -> None:
    """X has 10 of the 100 shares of S1 that are left, and is cancelled after the opening."""
    rows = small_day()
    rows[1]["quantity"] = "110"
    rows[3] |= {"quantity": 310, "trades": 3}
    limit = {"price": "10.00"} | cells
    if "price" in cells:
        rows[1]["quantity"], rows[3]["quantity"], rows[3]["trades"] = 100, 300, 2
    rows.insert(3, order("X", "bid", quantity=10, time="08:50:03", **limit))
    rows[4:4] = earlier
    at = 4 + len(earlier) + 1
    if "price" not in cells:
        rows.insert(at, traded("X", "S1", 10, "10.00", "09:00:00"))
        rows[at + 1 : at + 3] = [traded("B1", "S1", 100, "10.00", "09:00:00"),
                                 traded("B1", "S2", 200, "10.00", "09:00:00")]
    rows.insert(at + 3, dict(event="cancel", order="X", time="12:00:00"))
    verdict = verdict_of(rows)
    said = {name: count for name, count in verdict.notes.items() if "cancels" in name}
    assert said == {f"cancels and expiries of orders that {why}": 1}, str(verdict)


# ---- cells


@pytest.mark.parametrize("word", ["NULL", "null", "N/A", "-"])
@pytest.mark.parametrize("is_faulty", [False, True])
def test_a_word_in_each_empty_cell_is_none(
    word: str, is_faulty: bool, tmp_path: Path, capsys: Printed
) -> None:
    """As a database writes them: in cells of results too, but for members of trades."""
    rows = base_rows()
    names = dict.fromkeys(name for row in rows for name in row)
    for event, cells in ((UNCROSS, ("surplus", "trades", "side")), (TRADE, ("auction", "price"))):
        for name in cells:
            del rows[places(rows, event)[0]][name]
    if is_faulty:
        rows[places(rows, UNCROSS)[1]]["surplus"] = "7"
    assert audited(text_of(rows), [], tmp_path) == (4 if is_faulty else 5)
    plain = capsys.readouterr()
    for row in rows:
        given = {"bid_member", "ask_member"} if row["event"] == TRADE else {"price"}
        row |= {name: word for name in {*names} - given if not row.get(name)}
    assert audited(text_of(rows), [], tmp_path) == (4 if is_faulty else 5)
    assert capsys.readouterr() == plain


def test_a_word_that_values_maps_stays_that_word(tmp_path: Path) -> None:
    rows = base_rows()
    for place in places(rows, *ORDERS):
        rows[place]["side"] = {"bid": "-", "ask": "+"}.get(rows[place].get("side", ""), "")
    assert audited(text_of(rows), ["--values", "side:-=bid,+=ask"], tmp_path) == 0


# ---- columns of dates and times


def apart(rows: Rows, date: str) -> Rows:
    """The rows with a date and a time in columns of their own."""
    return [
        {**{name: it for name, it in row.items() if name != "time"}, "Date": date, "Clock": time}
        for row in rows if (time := row["time"])
    ]  # fmt: skip


@pytest.mark.parametrize("date", ["2026-11-27", "20261127", "27.11.2026", "11/27/2026"])
@pytest.mark.parametrize("words", [[], ["--sort"]])
def test_a_date_and_a_time_apart_are_one_time(
    date: str, words: list[str], tmp_path: Path, capsys: Printed
) -> None:
    rows = base_rows()
    first = places(rows, UNCROSS)[0]
    rows[first]["quantity"] = "7"
    said = f"row {first + 2}, {date} {rows[first]['time']}, opening: "
    rows = apart(rows, date)
    rows = rows[::-1] if words else rows
    asked = [*words, "--columns", "time=Date+Clock"]
    assert audited(text_of(rows), asked, tmp_path) == 4
    assert said in capsys.readouterr().out or words
    rows[rows.index(next(it for it in rows if it.get("quantity") == "7"))]["quantity"] = "8"
    assert audited(text_of(rows), ["--columns", "time=Date+Clocks"], tmp_path) == 1
    assert "the table has no column 'Clocks' (is it 'Clock'?)" in capsys.readouterr().err


def test_columns_are_joined_for_ids_and_for_kinds_of_rows_too(tmp_path: Path) -> None:
    """Ids that are a member's own, and a date that trades alone have."""
    rows = base_rows()
    owners = {row["order"]: row["member"] for row in rows if row["event"] == "new"}
    numbers = {id: str(number) for number, id in enumerate(sorted(owners))}
    for row in rows:
        for name, whose in (("order", "whose"), ("bid", "buyer"), ("ask", "seller")):
            if row.get(name):
                row |= {whose: owners[row[name]], name: numbers[row[name]]}
    words = ["--columns", "order=whose+order,bid=buyer+bid,ask=seller+ask"]
    assert audited(text_of(rows), words, tmp_path) == 0
    rows[places(rows, TRADE)[0]]["buyer"] = "M9"
    assert audited(text_of(rows), words, tmp_path) == 4
    rows = [dict(row, day=DAY) if row["event"] == TRADE else row for row in base_rows()]
    assert audited(text_of(rows), ["--columns", "trade.time=day+time"], tmp_path) != 4


@pytest.mark.parametrize("unit, digits", [(1, ""), (10**3, ".125"), (10**6, ".125000"),
                                          (10**9, ".125000000")])
def test_times_of_an_epoch_are_shown_as_times_of_the_day(
    unit: int, digits: str, tmp_path: Path, capsys: Printed
) -> None:
    rows = base_rows()
    first = places(rows, UNCROSS)[0]
    rows[first]["quantity"], clock = "7", rows[first]["time"]
    for row in rows:
        row["time"] = str((EPOCH + seconds(row["time"])) * unit + unit // 8)
    assert audited(text_of(rows), [], tmp_path) == 4
    said = f"row {first + 2}, {DAY} {clock}{digits}Z, opening: volume: "
    assert said in capsys.readouterr().out


def test_a_number_that_is_of_no_year_is_shown_as_it_is(tmp_path: Path, capsys: Printed) -> None:
    rows = base_rows()
    first = places(rows, UNCROSS)[0]
    rows[first] |= {"quantity": "7", "time": "9" * 30}
    assert audited(text_of(rows), [], tmp_path) in (4, 5)
    assert f"row {first + 2}, {'9' * 30}, opening: volume: " in capsys.readouterr().out


# ---- prices on the command line


def test_options_take_the_decimal_sign_of_the_file(tmp_path: Path, capsys: Printed) -> None:
    rows = base_rows()
    for row in rows:
        if row.get("price"):
            row["price"] = row["price"].replace(".", ",")
    reference = base_day().reference.replace(".", ",")
    words = ["--separator", ";", "--decimal", ",", "--reference"]
    more = ["--tick-size=0,01", "--low=0,5", "--high=1.000,5", "--range=99,5%",
            "--second-reference=10,5", "--second-range=9,5"]
    dotted = [*words, reference, *more, "--thousands", "."]
    assert audited(text_of(rows, ";"), dotted, tmp_path) == 0
    assert audited(text_of(rows, ";"), [*words, base_day().reference], tmp_path) == 0
    assert audited(text_of(rows), ["--reference", reference], tmp_path) == 2
    assert f"reference {reference!r} is no decimal number" in capsys.readouterr().err
    days = tmp_path / "days.csv"
    days.write_text(f"isin;reference;tick_size\nX;{reference};0,01\n")
    for row in rows:
        row["isin"] = "X"
    asked = [*words, "1", "--by", "isin", "--days", str(days)]
    assert audited(text_of(rows, ";"), asked, tmp_path) == 0


# ---- lines that are no rows of the day


@pytest.mark.parametrize("last", [
    "Total,,,,12345", "Summe", ",,Total,,99", "TOTALS: 41 rows,,", "Gesamt:,,,,12.345",
])
@pytest.mark.parametrize("fault", ["", "7"])
def test_totals_at_the_end_are_counted_and_named_and_change_no_verdict(
    last: str, fault: str, tmp_path: Path, capsys: Printed
) -> None:
    rows = base_rows()
    rows[places(rows, UNCROSS)[0]]["surplus"] += fault
    text = text_of(rows)
    line_of = last if last.count(",") < 3 else last + "," * (text.count(",", 0, text.index("\n"))
                                                             - last.count(","))
    assert audited(text + line_of + "\n", [], tmp_path) == (4 if fault else 0)
    printed = capsys.readouterr()
    label = len(rows) + 2
    assert f"callauction: totals, which aren't read, in row {label}: 1\n" in printed.err
    assert "rows not read" not in printed.out and "doubtful" not in printed.out
    below = text.splitlines()
    middle = "\n".join([*below[:9], line_of, *below[9:], ""])
    assert audited(middle, [], tmp_path) == 5


def test_a_last_line_of_an_empty_quote_is_passed_over(tmp_path: Path, capsys: Printed) -> None:
    assert audited(text_of(base_rows()) + '""\n', [], tmp_path) == 0
    assert not capsys.readouterr().err


def test_a_header_once_more_in_a_log_of_tags_is_no_report(tmp_path: Path) -> None:
    names = {35: "35", 37: "37", 150: "150", 54: "54", 44: "44", 40: "40", 38: "38", 151: "151",
             31: "31", 32: "32", 880: "880", 625: "625", 448: "448", 60: "60", 17: "17", 59: "59"}
    lines = lawful_log(False).columns(names).splitlines()
    text = "\n".join([*lines[:9], "\ufeff" + lines[0], *lines[9:], lines[0], ""])
    verdict = read_as("fix", text, base_day(), tmp_path / "day.csv")
    assert not verdict.bad_rows and verdict.coverage["trades"][0] > 0, verdict.bad_rows


def test_a_header_with_a_mark_between_two_files_is_passed_over(tmp_path: Path) -> None:
    lines = text_of(base_rows()).splitlines()
    text = "\n".join(["\ufeff" + lines[0], *lines[1:9], "\ufeff" + lines[0], *lines[9:], ""])
    assert audited(text, [], tmp_path) == 0


# ---- members of FIX


@pytest.mark.parametrize("change", [
    lambda fields, member: [*fields, (76, member)],
    lambda fields, member: [*fields, (109, member)],
    lambda fields, member: [*fields, (109, "client"), (76, member)],
    lambda fields, member: [*fields, (453, "2"), (448, "trader"), (452, "12"), (448, member),
                            (452, "1")],
    lambda fields, member: [*fields, (453, "2"), (448, "trader"), (448, member), (452, "1")],
    lambda fields, member: [*fields, (453, "1"), (448, member), (447, "D")],
    lambda fields, member: [*fields, (76, "other"), (453, "1"), (448, member), (452, "1")],
])  # fmt: skip
def test_the_member_of_a_report_is_its_executing_firm(
    change: Callable[[list[Any], str], list[Any]], tmp_path: Path
) -> None:
    """By its party, or by what versions without parties have: ExecBroker (76), then ClientID."""
    log, rest = lawful_log(), (453, 448, 452)
    for place, fields in enumerate(log.messages):
        if (35, "8") in fields:
            member = dict(fields)[448]
            log.messages[place] = change([it for it in fields if it[0] not in rest], member)
    verdict = read_as("fix", log.tagged(), base_day(), tmp_path / "day.log")
    members = {order: row["member"] for order, row in log.orders.items()}
    assert dict(verdict.orders()[["order", "member"]].itertuples(index=False)) == members


@pytest.mark.parametrize("tag, name", [(109, "ClientID"), (76, "ExecBroker")])
def test_the_member_may_be_another_column_of_a_log(tag: int, name: str, tmp_path: Path) -> None:
    log = lawful_log()
    for fields in log.messages:
        if (35, "8") in fields:
            fields.append((tag, f"own {dict(fields)[448]}"))
    path = tmp_path / "day.log"
    path.write_text(log.tagged(), encoding="utf-8")
    words = ["--shape", "fix", "--columns", f"member={name}", "--tick-size", "0.01"]
    told = tmp_path / "day.html"
    given = ["--reference", base_day().reference, "-o", str(told)]
    assert main(["report", str(path), *words, *given]) == 0
    assert re.search(r">own M\d<", told.read_text(encoding="utf-8"))


# ---- a replace above the new order of its second


@pytest.mark.parametrize("kind", ["replace", "cancel"])
@pytest.mark.parametrize("words", [[], ["--sort"]])
def test_a_change_above_its_entry_at_one_time_is_below_it(
    kind: str, words: list[str], tmp_path: Path, capsys: Printed
) -> None:
    """A lawful day, whose row of an entry is behind that which changes it, in one second."""
    rows = base_rows()
    place = next(
        at for at in places(rows, kind)
        if any(rows[it]["order"] == rows[at]["order"] for it in places(rows, "new"))
        and not rows[at].get("kept") == "false"
    )  # fmt: skip
    entry = next(at for at in places(rows, "new") if rows[at]["order"] == rows[place]["order"])
    own, new = rows[place], rows[entry]
    own["time"] = new["time"]
    del rows[place]
    rows.insert(entry, own)
    own.pop("kept", None)
    status = audited(text_of(rows), words, tmp_path)
    printed = capsys.readouterr()
    assert "is entered in no row above" not in printed.err and "rows not read" not in printed.out
    assert status != 5
    own["time"] = shifted(new["time"], -1)
    audited(text_of(rows), [], tmp_path)
    assert "is entered in no row above" in capsys.readouterr().err


# ---- one reason of doubts is one line


def test_doubts_of_one_reason_are_one_line_and_all_in_the_file(
    tmp_path: Path, capsys: Printed
) -> None:
    """A row of an order that isn't read leaves all 86 missing trades of the closing in doubt."""
    rows = [row for row in small_day() if row["event"] != TRADE or row["time"] < "10"]
    rows.insert(7, dict(event="cancel", time="17:00:00"))
    rows.append(dict(event="cancel", order="B1", time="17:50:00"))
    why = "it isn't known what row 9 does: order is missing"
    path = tmp_path / "found.csv"
    words = ["--reference", "10", "--findings", str(path)]
    assert audited(text_of(rows), words, tmp_path) == 5
    out = capsys.readouterr().out.splitlines()
    [line] = [it for it in out if it.startswith("doubtful: ")]
    assert line.startswith("doubtful: row 97, 17:35:00, closing: trade: recorded no such trade, ")
    assert line.endswith(f" (85 more, in row 97): {why}") and "doubtful 86" in out
    assert len(path.read_text().splitlines()) == 87
    assert audited(text_of(rows), [*words, "--explain"], tmp_path) == 5
    assert sum(it.startswith("doubtful: ") for it in capsys.readouterr().out.splitlines()) == 1
    told = html.unescape(page.html_of(verdict_of(rows), "Day"))
    assert "86 doubtful findings of 1 reason" in told and told.count("In doubt: ") == 1
    assert "85 more, in row 95" in told and "The first of 86 is here" in told


def test_doubts_of_two_reasons_are_two_lines() -> None:
    """Trades of the opening aren't read, and of the closing neither is a cancel."""
    rows = [row for row in small_day() if row["event"] != TRADE or row["time"] > "10"]
    rows[4:4] = [traded("B1", "S1", 100, "?", "09:00:00"), traded("B1", "S2", 200, "?", "09:00:00")]
    rows.insert(8, dict(event="cancel", time="17:00:00"))
    uncross = rows[places(rows, UNCROSS)[-1]]
    uncross |= {"quantity": 859, "surplus": 1, "side": "bid"}
    verdict = verdict_of(rows)
    lines = [it for it in verdict.lines() if it.startswith("doubtful: ")]
    assert len(lines) == len({it.doubt for it in verdict.doubtful}) == 2 < len(verdict.doubtful)
    assert [" (1 more, in row 3): " in it for it in lines] == [True, False], lines

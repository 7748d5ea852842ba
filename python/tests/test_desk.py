"""Extracts as a desk meets them: each is a lawful day of the model, or one with a fault, that is
recorded in another way. The statuses are what a desk may be given: 0 lawful, 4 unlawful, 5
incomplete, 1 and 2 a file or a command line that is refused with one line.
"""
import csv
import hashlib
import json
import random
import re
import shlex
from collections.abc import Callable
from decimal import Decimal
from pathlib import Path
from typing import Any

import pytest
from callauction.__main__ import main
from damage import (
    ORDERS,
    Damage,
    paired_otherwise,
    places,
    timed_day,
    trades_of_both_sides,
)
from desk import (
    LINE, OPENING, TRADE, UNCROSS, Change, all_cells, as_fills, audited, base_day, by_order, cells,
    text_of,
)
from extracts import Rows, price_of
from judging import judged


def first(event: str, **values: str) -> Change:
    """Gives the first row of an event these cells."""

    def changed(rows: Rows) -> None:
        rows[places(rows, event)[0]].update(values)

    return changed


def twice(event: str) -> Change:
    """Each row has a sequence, and three of an event are there twice."""

    def changed(rows: Rows) -> None:
        number_all(rows)
        for place in places(rows, event)[:3][::-1]:
            rows.insert(place + 1, dict(rows[place]))

    return changed


def number_all(rows: Rows) -> None:
    for place, row in enumerate(rows):
        row["sequence"] = f"{place + 990}"


def rename(rows: Rows, name: Callable[[dict[str, Any], int], str]) -> None:
    """Gives each order an id, by its row `new` and how many its member entered before."""
    ids: dict[str, str] = {}
    counts: dict[str, int] = {}
    for row in rows:
        if row["event"] == "new":
            counts[row["member"]] = counts.get(row["member"], 0) + 1
            ids[row["order"]] = name(row, counts[row["member"]])
    for row in rows:
        for column in ("order", "bid", "ask"):
            if row.get(column):
                row[column] = ids[row[column]]


def ids_of_a_member(rows: Rows) -> None:
    rename(rows, lambda row, count: str(count))


def joined_ids(rows: Rows) -> None:
    rename(rows, lambda row, count: f"{row['member']}-{count}")


def zones(rows: Rows) -> None:
    for row in rows:
        hour = int(row["time"][:2]) - (row["event"] not in ORDERS)
        zone = "+01:00" if row["event"] in ORDERS else "Z"
        row["time"] = f"2026-11-25T{hour:02}{row['time'][2:]}{zone}"


def signed_surplus(rows: Rows) -> None:
    for place in places(rows, UNCROSS):
        if rows[place].pop("side", "") == "ask":
            rows[place]["surplus"] = f"-{rows[place]['surplus']}"


def swapped_sides(rows: Rows) -> None:
    for place in places(rows, TRADE):
        row = rows[place]
        row["bid"], row["ask"] = row["ask"], row["bid"]
        row["bid_member"], row["ask_member"] = row["ask_member"], row["bid_member"]


def at_the_uncross(rows: Rows) -> None:
    """The last row of an order before the opening has its time, and is below it."""
    place = places(rows, UNCROSS)[0]
    row = rows.pop(place - 1)
    row["time"] = rows[place - 1]["time"]
    rows.insert(place, row)


def sequenced(name: Callable[[int], str], is_below: bool = False) -> Change:
    """Rows have sequences, by which one below its uncross was above it."""

    def changed(rows: Rows) -> Rows:
        number_all(rows)
        if is_below:
            at_the_uncross(rows)
        for row in rows:
            row["sequence"] = name(int(row["sequence"]))
        return rows if is_below else rows[::-1]

    return changed


def later_trades(rows: Rows, auction: str = "") -> None:
    """Continuous trades behind later orders."""
    for number in range(2):
        pair = {"bid": rows[-1]["bid"], "ask": rows[-1]["ask"]}
        order = dict(event="new", order=f"L{number}", member="M1", side="bid", quantity="10",
                     price="9.00", time="18:00:00")  # fmt: skip
        named = {"auction": auction} if auction else {}
        made = dict(event=TRADE, **pair, quantity="7", price=rows[-1]["price"], time="18:00:01")
        rows += [order, {**made, **named}]


def of_one_member(rows: Rows) -> None:
    for column in ("member", "bid_member", "ask_member"):
        all_cells(column, lambda text: "M1")(rows)


def with_peaks(rows: Rows) -> None:
    for place in places(rows, "new"):
        rows[place]["peak"] = rows[place]["quantity"]


def appended(**values: str) -> Change:
    def changed(rows: Rows) -> None:
        rows.append(dict(values))

    return changed


def plain_date(rows: Rows) -> None:
    """Dates and hours have no zeros in front, so times have several lengths."""
    all_cells("time", lambda text: f"1.12.2026 {text.lstrip('0')}")(rows)


def negative(rows: Rows) -> None:
    all_cells("price", lambda text: str(Decimal(text) - 20))(rows)


CASES: dict[str, tuple[Change, int, list[str]]] = {
    "base": (lambda rows: None, 0, []),
    "ids of a member's own": (ids_of_a_member, 5, []),
    "ids joined with the member": (joined_ids, 0, []),
    "the first row is missing": (lambda rows: rows[1:], 5, []),
    "the first five rows are missing": (lambda rows: rows[5:], 5, []),
    "rows by order": (by_order, 1, []),
    "rows by order, sorted": (by_order, 0, ["--sort"]),
    "two zones": (zones, 0, []),
    "two zones, sorted": (zones, 0, ["--sort"]),
    "times that can't be sorted": (
        all_cells("time", lambda text: f"Nov 25 {text}"), 1, ["--sort"]),
    "new twice": (twice("new"), 0, []),
    "replace twice": (twice("replace"), 0, []),
    "cancel twice": (twice("cancel"), 0, []),
    "trade twice": (twice(TRADE), 0, []),
    "uncross twice": (twice(UNCROSS), 0, []),
    "prices with zeros": (all_cells("price", lambda text: f"{Decimal(text):.4f}"), 0, []),
    "exponents": (all_cells("price", lambda text: f"{float(text):e}"), 5, []),
    "signed surplus": (signed_surplus, 5, []),
    "one member": (of_one_member, 0, []),
    "for the intraday alone": (first("new", restriction="intraday"), 5, []),
    "trades of both sides": (lambda rows: dirty(trades_of_both_sides, rows), 5, []),
    "other pairing": (lambda rows: dirty(paired_otherwise, rows), 5, []),
    "fills": (as_fills, 5, []),
    "a word of a side": (cells("new", "side", lambda text: "Q", 1), 5, []),
    "a quantity that can't be read": (cells("new", "quantity", lambda text: "1e3", 1), 5, []),
    "member codes": (cells(TRADE, "bid_member", lambda text: text[:1]), 4, []),
    "negative prices": (negative, 0, ["--reference", "minus 20"]),
    "at the uncross's time, below it": (at_the_uncross, 5, []),
    "the same, sorted": (at_the_uncross, 5, ["--sort"]),
    "the same, with sequences": (sequenced(str, True), 0, ["--sort"]),
    "sequences as texts": (sequenced(lambda it: f"S{it:05}"), 0, ["--sort"]),
    "sequences with thousands": (
        lambda rows: all_cells("price", lambda text: text.replace(".", ","))(rows)
        or sequenced(lambda it: f"{it:,}".replace(",", "."))(rows), 0,
        ["--sort", "--thousands", ".", "--decimal", ","]),
    "sequences with thousands, unsaid": (
        sequenced(lambda it: f"{it:,}".replace(",", ".")), 1, ["--sort"]),
    "a peak of 0": (first("new", peak="0"), 0, []),
    "a peak of each order": (with_peaks, 0, []),
    "another tick size": (lambda rows: None, 5, ["--tick-size", "0.03"]),
    "trades behind later orders": (later_trades, 5, []),
    "a row that isn't an event": (
        appended(event="indicative", price="10.00", time="18:00:00"), 5, []),
    "the same left out": (
        appended(event="indicative", price="10.00", time="18:00:00"), 0,
        ["--where", "event != indicative"]),
    "where with times": (lambda rows: None, 0, ["--where", "time >= 08:00:00"]),
    "where with texts": (lambda rows: None, 1, ["--where", "event < 5"]),
    "trades stamped late": (cells(TRADE, "time", lambda text: f"{text[:5]}:59"), 0, []),
    "trades without a price": (cells(TRADE, "price", lambda text: ""), 0, []),
    "sides swapped": (swapped_sides, 4, []),
    "a cancel by another": (cells("cancel", "member", lambda text: "SUPERVISION"), 0, []),
    "fractional quantities": (all_cells("quantity", lambda text: f"{text}.5"), 5, []),
    "nominals": (all_cells("quantity", lambda text: f"{text}00000000"), 5, []),
    "words of sides": (
        cells("new|uncross", "side", lambda text: {"bid": "BUY", "ask": "Sell"}.get(text, text)),
        0, []),
    "capitals of ids in trades": (cells(TRADE, "bid", str.lower), 5, []),
    "two days": (
        lambda rows: [dict(row, time=f"2026-11-2{day}T{row['time']}") for day in (5, 6)
                      for row in rows], 1, []),
    "the file twice": (lambda rows: [dict(row) for row in rows * 2], 5, []),
    "dates without zeros, sorted": (plain_date, 0, ["--sort"]),
    "kept is N": (
        cells("replace", "kept", lambda text: text[0].upper()), 0,
        ["--values", "kept:T=true,F=false"]),
    "a mass cancel": (appended(event="cancel", member="M9", time="08:59:00"), 5, []),
    "trades in parts": (lambda rows: in_parts(rows), 0, []),
    "the last row uncross is missing": (
        lambda rows: [row for at, row in enumerate(rows) if at != places(rows, UNCROSS)[-1]], 5,
        []),
    "no row of an order": (lambda rows: [row for row in rows if row["event"] == UNCROSS], 5, []),
    "a price of thirty digits": (first("new", price="9" * 30), 0, []),
    "a price that can't be read": (first(UNCROSS, price="n/a"), 5, []),
}
FAULTS: dict[str, tuple[Change, int]] = {
    "a side of a surplus": (first(UNCROSS, side="none", surplus="5"), 1),
    "a trade a half tick off": (cells(TRADE, "price", lambda text: f"{text}5", 1), 1),
    "volumes counted twice": (cells(UNCROSS, "quantity", lambda text: str(2 * int(text))), 3),
    "a place that was kept": (
        cells("replace", "kept", lambda text: "false" if text == "true" else "true", 1), 1),
}  # fmt: skip


def dirty(damage: Damage, rows: Rows) -> None:
    """Damages rows in place."""
    assert damage(random.Random(1), rows) is not None


def in_parts(rows: Rows) -> Rows:
    """Each trade of more than one share is two rows of one pair."""
    found: Rows = []
    for row in rows:
        if row["event"] == TRADE and row["quantity"] != "1":
            found += [{**row, "quantity": "1"}, {**row, "quantity": str(int(row["quantity"]) - 1)}]
        else:
            found.append(row)
    return found


@pytest.mark.parametrize("name", CASES)
def test_an_extract_as_a_desk_has_it(
    name: str, tmp_path: Path, capsys: pytest.CaptureFixture[str]
) -> None:
    change, status, words = CASES[name]
    rows = [dict(row) for row in base_day().rows]
    rows = change(rows) or rows
    assert audited(text_of(rows), words, tmp_path) == status, capsys.readouterr()
    printed = capsys.readouterr()
    assert printed.out or printed.err.count("\n") == 1


@pytest.mark.parametrize("name", FAULTS)
def test_a_fault_is_found(
    name: str, tmp_path: Path, capsys: pytest.CaptureFixture[str]
) -> None:
    change, count = FAULTS[name]
    rows = [dict(row) for row in base_day().rows]
    change(rows)
    assert audited(text_of(rows), [], tmp_path) == 4
    out = capsys.readouterr().out
    assert f"\nfindings {count}\n" in out
    rows.append(dict(event="new", order="LATE", side="?", quantity="1", time="23:00:00"))
    assert audited(text_of(rows), [], tmp_path) == 4


def test_an_interruption_needs_its_range(tmp_path: Path) -> None:
    day = base_day(True)
    words = ["--reference", day.reference]
    text = text_of(day.rows)
    assert audited(text, [*words, "--range", str(day.range)], tmp_path) == 0
    assert audited(text, words, tmp_path) == 5


@pytest.mark.parametrize("content, words, status", [
    (lambda text: "sep=,\n" + text, [], 0),
    (lambda text: "".join(f"{line},\n" for line in text.splitlines()), [], 0),
    (lambda text: text + "end of the file\n", [], 5),
    (lambda text: "a title\n" + text, [], 1),
    (lambda text: text.encode("utf-16"), [], 1),
    (lambda text: text.encode("utf-16"), ["--encoding", "utf-16"], 0),
    (lambda text: b"PK\x03\x04" + text.encode(), [], 1),
    (lambda text: text.splitlines()[0] + "\n", [], 5),
    (lambda text: "", [], 1),
    (lambda text: text.replace("event", "Event", 1), [], 1),
    (lambda text: text.replace("\n", "\r\n"), [], 0),
])
def test_a_file_as_a_desk_has_it(
    content: Any, words: list[str], status: int, tmp_path: Path,
    capsys: pytest.CaptureFixture[str],
) -> None:
    found = audited(content(text_of(base_day().rows)), words, tmp_path)
    assert found == status, capsys.readouterr()
    if found == 1:
        assert capsys.readouterr().err.count("\n") == 1


@pytest.mark.parametrize("part", range(4))
def test_a_line_that_is_cut_condemns_no_lawful_day(
    part: int, tmp_path: Path, capsys: pytest.CaptureFixture[str]
) -> None:
    """Whatever the row is, an order, a result or a trade, and also where its event is cut."""
    lines = text_of(base_day().rows).splitlines()
    for place in range(1 + part, len(lines), 4):
        for cut in (lines[place][:-12], lines[place].replace(lines[place].split(",")[0], "?")):
            text = "\n".join([*lines[:place], cut, *lines[place + 1 :], ""])
            assert audited(text, [], tmp_path) == 5, f"{cut}\n{capsys.readouterr().out}"


def test_a_title_above_the_header_is_named(
    tmp_path: Path, capsys: pytest.CaptureFixture[str]
) -> None:
    assert audited("Orders of 27.11.2026\n\n" + text_of(base_day().rows), [], tmp_path) == 1
    assert "line 1, 'Orders of 27.11.2026', has no names of columns" in capsys.readouterr().err


# ---- several instruments


@pytest.mark.parametrize("change, words, status, line", [
    (lambda rows: None, [], 0, ""),
    (lambda rows: None, ["DE1,DE2,DE3"], 5, "DE3, it is among the days, and no row is of it"),
    (lambda rows: None, ["DE1"], 5, "DE2, there are order events: say --reference and --tick-size"),
    (lambda rows: cells(TRADE, "isin", lambda text: "")(rows), [], 5, " rows have no isin"),
    (lambda rows: cells("cancel", "isin", lambda text: "", 1)(rows), [], 5, "1 row has no isin"),
    (lambda rows: rows[places(rows, TRADE)[0]].update(isin="", event="?"), [], 5,
     "1 row has no isin"),
])
def test_one_instrument_never_ends_the_run_of_the_others(
    change: Any, words: list[str], status: int, line: str, tmp_path: Path,
    capsys: pytest.CaptureFixture[str],
) -> None:
    rows = [dict(row, isin=name) for row in base_day().rows for name in ("DE1", "DE2")]
    change(rows)
    names = (words or ["DE1,DE2"])[0].split(",")
    terms = f"{base_day().reference},0.01"
    days = tmp_path / "days.csv"
    days.write_text("".join(["isin,reference,tick_size\n", *(f"{it},{terms}\n" for it in names)]))
    path = tmp_path / "day.csv"
    path.write_text(text_of(rows))
    written = tmp_path / "rows.csv"
    given = ["audit", str(path), "--by", "isin", "--days", str(days), "-o", str(written)]
    assert main(given) == status, capsys.readouterr()
    assert line in capsys.readouterr().err
    table = csv.DictReader(written.read_text().splitlines())
    assert {"DE1", "DE2"} <= {row["instrument"] for row in table}


@pytest.mark.parametrize("separator", [";", "\t"])
def test_days_as_spreadsheets_write_them(separator: str, tmp_path: Path) -> None:
    path, days = tmp_path / "day.csv", tmp_path / "days.csv"
    path.write_text(text_of([dict(row, isin="DE1") for row in base_day().rows]))
    header, line = ["isin", "reference", "tick_size"], ["DE1", f"{base_day().reference}", "0.01"]
    rows = "".join(f"{separator.join(it)}\r\n" for it in (header, line))
    days.write_bytes(b"\xef\xbb\xbf" + rows.encode())
    assert main(["audit", str(path), "--by", "isin", "--days", str(days)]) == 0


@pytest.mark.parametrize("other, status", [("{}0", 0), ("21.00", 1), ("", 1)])
@pytest.mark.parametrize("is_book", [False, True])
def test_an_instrument_that_days_have_twice_has_one_row_or_is_refused(
    other: str, status: int, is_book: bool, tmp_path: Path, capsys: pytest.CaptureFixture[str]
) -> None:
    """With the same terms it is one, whatever zeros they have, and else which holds isn't known."""
    reference, days, book = base_day().reference, tmp_path / "days.csv", tmp_path / "book.csv"
    lines = ["isin,reference,tick_size", f"DE1,{reference},0.01", "", "DE2,5,0.01",
             f"DE1,{other.format(reference)},0.01"]  # fmt: skip
    first = places(base_day().rows, UNCROSS)[0]
    rows = [dict(row, isin=name) for row in base_day().rows for name in ("DE1", "DE2")]
    if is_book:
        book.write_text("isin,order,side,price,quantity\nDE1,A,bid,10,5\nDE2,A,bid,10,5\n")
        rows = [dict(row, price="none") for row in rows[2 * first : 2 * first + 2]]
        lines[3] = lines[3].replace("DE2,5", f"DE2,{reference}")
    else:
        rows = [row for row in rows if row["isin"] == "DE1"]
        lines[3] = ""
    (tmp_path / "day.csv").write_text(text_of(rows))
    asked = ["audit-auction", str(book), "--published"] if is_book else ["audit"]
    given = [*asked, str(tmp_path / "day.csv"), "--by", "isin", "--days", str(days)]
    days.write_text("\n".join([*lines[:4], ""]))
    alone = main(given)
    capsys.readouterr()
    days.write_text("\n".join([*lines, ""]))
    assert main(given) == (status or alone)
    said = "the days have DE1 twice, in rows 2 and 5, with other terms: leave one out"
    assert (said in capsys.readouterr().err) == bool(status)
    days.write_text(f"ISIN,reference,tick_size\nDE1,{reference},0.01\n")
    assert main(given) == 1
    assert "the days have no column 'isin' (is it 'ISIN'?)" in capsys.readouterr().err


@pytest.mark.parametrize("fault", ["", "7"])
def test_a_file_of_lines_that_end_in_a_return_is_read(
    fault: str, tmp_path: Path, capsys: pytest.CaptureFixture[str]
) -> None:
    """As a spreadsheet of old writes it: the same is printed as of others."""
    rows = [dict(row) for row in base_day().rows]
    rows[places(rows, UNCROSS)[0]]["surplus"] += fault
    status = 4 if fault else 0
    assert audited(text_of(rows), [], tmp_path) == status
    plain = capsys.readouterr()
    path, text = tmp_path / "day.csv", text_of(rows).replace("\n", "\r").encode()
    words = ["--reference", base_day().reference, *LINE]
    for title in (b"", b"sep=,\r", b"\r\r"):
        path.write_bytes(title + text)
        assert main(["audit", str(path), *words]) == status
        assert capsys.readouterr().out == plain.out or title
    path.write_bytes(text)
    assert main(["audit", str(path), *words, "--check"]) == 0
    assert f"rows uncross {len(places(rows, UNCROSS))}\n" in capsys.readouterr().out
    assert main(["report", str(path), *words, "-o", str(tmp_path / "day.html")]) == 0
    first = places(rows, UNCROSS)[0]
    book = tmp_path / "book.csv"
    book.write_bytes(b"order,side,price,quantity\rA,bid,10,5\r")
    path.write_bytes(text_of([dict(rows[first], price="none")]).replace("\n", "\r").encode())
    assert main(["audit-auction", str(book), "--published", str(path), *words]) in (0, 4, 5)
    path.write_bytes(text + b"Total,,,,12\r\nnew,A")  # of ends of both kinds
    assert main(["audit", str(path), *words]) in (4, 5)


def test_findings_in_files_have_numbers_without_commas(tmp_path: Path) -> None:
    rows = [dict(row) for row in base_day().rows]
    rows[places(rows, UNCROSS)[0]]["quantity"] = "1234567"
    path, written = tmp_path / "day.csv", tmp_path / "findings.csv"
    path.write_text(text_of(rows))
    given = ["audit", str(path), "--reference", f"{base_day().reference}", "--tick-size", "0.01"]
    assert main([*given, "--findings", str(written)]) == 4
    found = [row["recorded"] for row in csv.DictReader(written.read_text().splitlines())]
    assert "1234567" in found


def test_segments_of_an_instrument_are_apart(tmp_path: Path) -> None:
    rows = [dict(row, isin="DE1", segment=name) for row in base_day().rows for name in ("A", "B")]
    path, days = tmp_path / "day.csv", tmp_path / "days.csv"
    path.write_text(text_of(rows))
    days.write_text(f"isin,reference,tick_size\nDE1,{base_day().reference},0.01\n")
    assert main(["audit", str(path), "--by", "isin,segment", "--days", str(days)]) == 0
    assert main(["audit", str(path), "--by", "isin,nothing", "--days", str(days)]) == 1


# ---- what machines read


def test_findings_and_verdicts_are_read_by_machines(
    tmp_path: Path, capsys: pytest.CaptureFixture[str]
) -> None:
    rows = [dict(row) for row in base_day().rows]
    rows[places(rows, UNCROSS)[0]]["quantity"] = "7"
    rows[places(rows, UNCROSS)[0] + 1 :][places(rows[places(rows, UNCROSS)[0] + 1 :], "new")[0]][
        "quantity"] = "1e3"
    for name in ("found.csv", "found.json"):
        words = ["--json", "--findings", str(tmp_path / name)]
        assert audited(text_of(rows), words, tmp_path) == 4
        line = json.loads(capsys.readouterr().out)
        assert line["verdict"] == "unlawful" and line["findings"] == 1 and line["bad_rows"] == 1
        assert len(line["file_sha256"]) == 64 and line["command"].startswith("python3 -P -m ")
    found = [*csv.DictReader((tmp_path / "found.csv").read_text().splitlines())]
    assert [row["kind"] for row in found].count("certain") == 1
    assert found[0]["item"] == "volume" and found[0]["recorded"] == "7"
    assert len(found) == line["findings"] + line["doubtful"]
    assert len(json.loads((tmp_path / "found.json").read_text())) == len(found)


def test_a_range_may_be_a_percentage(
    tmp_path: Path, capsys: pytest.CaptureFixture[str]
) -> None:
    """In a far one the interruption of the interrupted day isn't lawful."""
    day = base_day(True)
    words = ["--reference", day.reference, "--range", "90%"]
    assert audited(text_of(day.rows), words, tmp_path) == 4
    assert "within the range of 90 % of it" in capsys.readouterr().out


@pytest.mark.parametrize("words, status, line", [
    (["--range", "2%"], 4, "range opening: 19.650 to 20.450, around 2 % of 20.050"),
    (["--range", "1.99%"], 4, "range opening: 19.655 to 20.445, around 1.99 % of 20.050"),
    (["--second-reference", "20.30", "--second-range", "1%"], 5,
     "range opening: 20.100 to 20.500, around 1 % of 20.300"),
    (["--second-reference", "20.50", "--second-range", "0.2%"], 4,
     "range opening: 20.460 to 20.540, around 0.2 % of 20.500"),
    (["--second-reference", "20.50", "--second-range", "0.05"], 5,
     "range opening: 20.450 to 20.550, around 20.500"),
])
def test_ranges_are_said_in_ticks_that_are_within_them(
    words: list[str], status: int, line: str, tmp_path: Path, capsys: pytest.CaptureFixture[str]
) -> None:
    """2 % of 20.05 is 0.401: 20.45, which is 0.400 away, is within it, and 20.455 isn't."""
    path = tmp_path / "day.csv"
    path.write_text(OPENING)
    is_within = status == 5 or words[1] == "2%"
    given = ["audit", str(path), "--reference", "20.050", "--tick-size", "0.005", *words]
    assert main([*given, "--auctions", "opening"]) == (5 if is_within else 4)
    printed = capsys.readouterr()
    assert line in printed.out.splitlines()
    assert ("lawful interrupted" in printed.out) != is_within


@pytest.mark.parametrize("words", [
    ["--second-range", "1%"], ["--second-reference", "20"], ["--range", "-1%"], ["--range", "x%"],
    ["--range", "%"],
])
def test_ranges_that_are_none_are_one_line(
    words: list[str], tmp_path: Path, capsys: pytest.CaptureFixture[str]
) -> None:
    path = tmp_path / "day.csv"
    path.write_text(OPENING)
    given = ["audit", str(path), "--reference", "20.05", "--tick-size", "0.005"]
    assert main([*given, *(f"{words[0]}={words[1]}",)]) == 2
    assert capsys.readouterr().err.count("\n") == 1


def test_the_second_reference_is_the_price_of_the_last_auction(
    tmp_path: Path, capsys: pytest.CaptureFixture[str]
) -> None:
    """The opening is at 20.45; the closing at 20.60 is 0.7 % from it and 1.5 % from 20.30."""
    path = tmp_path / "day.csv"
    path.write_text(OPENING + "new,C,bid,20.60,10,,\nnew,D,ask,20.60,10,,\n"
                    "uncross,,none,20.60,10,0,closing\n")
    words = ["audit", str(path), "--reference", "20.30", "--tick-size", "0.05", "--auctions",
             "opening,closing", "--second-reference", "20.30", "--second-range", "1%"]
    assert main(words) == 5
    out = capsys.readouterr().out
    assert "range closing: 20.25 to 20.65, around 1 % of 20.45\n" in out, out


def test_a_second_range_around_the_same_reference_is_the_first() -> None:
    """On the model's days with a range both references are one: the last price."""
    count = 0
    for seed in range(80):
        day = timed_day(seed)
        if day.range is None:
            continue
        count += any(outcome.is_interrupted for outcome in day.lawful)
        assert judged(day).word == "lawful"
        second = {"second_reference": day.reference, "second_range": day.range}
        assert judged(day, range=None, **second).word == "lawful"
        assert judged(day, **second).word == "lawful"
        far = judged(day, range=None, second_reference=day.reference, second_range="90%")
        stops = any(outcome.is_interrupted for outcome in day.lawful)
        assert far.word == ("unlawful" if stops else "lawful"), str(far)
    assert count > 3


# ---- evidence


def test_what_is_written_says_what_it_is_of(tmp_path: Path) -> None:
    rows = [dict(row) for row in base_day().rows]
    rows[places(rows, UNCROSS)[0]]["quantity"] = "7"
    written = {name: tmp_path / name for name in ("rows.csv", "found.csv")}
    words = ["-o", str(written["rows.csv"]), "--findings", str(written["found.csv"])]
    assert audited(text_of(rows), words, tmp_path) == 4
    content = (tmp_path / "day.csv").read_bytes()
    for path in written.values():
        [row] = csv.DictReader(path.read_text().splitlines())
        assert row["file_sha256"] == hashlib.sha256(content).hexdigest()
        assert re.fullmatch(r"\d{4}-\d\d-\d\dT\d\d:\d\d:\d\d\+00:00", row["date"])
        assert len(row["program_sha256"]) == 64 and row["version"]
        repeated = shlex.split(row["command"])
        assert repeated[:5] == ["python3", "-P", "-m", "callauction", "audit"]
        assert main(repeated[4:]) == 4


@pytest.mark.parametrize("command, ending", [("audit", "csv"), ("report", "html")])
def test_days_and_shape_are_hashed_too(
    command: str, ending: str, tmp_path: Path, capsys: pytest.CaptureFixture[str]
) -> None:
    """The references of the days decide, and how a shape reads rows."""
    day, days, shape = (tmp_path / name for name in ("day.csv", "days.csv", "own.toml"))
    day.write_text(text_of([dict(row, isin="DE1") for row in base_day().rows]))
    days.write_text(f"isin,reference,tick_size\nDE1,{base_day().reference},0.01\n")
    shape.write_text('decimal = "."\n')
    words = [command, str(day), "--by", "isin", "--days", str(days), "--shape", str(shape)]
    out, found = tmp_path / f"out.{ending}", tmp_path / "found.csv"
    more = ["--json", "--findings", str(found)] if command == "audit" else []
    assert main([*words, "-o", str(out), *more]) == 0
    hashes = " ".join(hashlib.sha256(it.read_bytes()).hexdigest() for it in (day, days, shape))
    printed = capsys.readouterr().out
    for text in [out.read_text(), *([printed, found.read_text()] if more else [])]:
        assert hashes in text
    words[words.index("--by") : words.index("--by") + 2] = []
    assert main([*words, "-o", str(out)]) == 2
    assert "--days needs --by" in capsys.readouterr().err


def test_rows_that_were_not_read_are_said_before_the_findings(
    tmp_path: Path, capsys: pytest.CaptureFixture[str]
) -> None:
    rows = [dict(row) for row in base_day().rows]
    cells("new", "quantity", lambda text: "1e3", 3)(rows)
    assert audited(text_of(rows), [], tmp_path) == 5
    printed = capsys.readouterr()
    [count] = re.findall(r"bad rows (\d+)\n", printed.err)
    assert int(count) >= 3 and f"rows not read {count}\nfindings 0\n" in printed.out


def test_a_wrong_price_says_what_it_would_have_executed(
    tmp_path: Path, capsys: pytest.CaptureFixture[str]
) -> None:
    """By hand: 300 are bid from 10.02 up and 200 at 10.00, 400 are asked up to 10.00."""
    path = tmp_path / "day.csv"
    path.write_text(
        "event,order,side,price,quantity,surplus,auction\n"
        "new,A,bid,10.02,300,,\nnew,B,bid,10.00,200,,\nnew,C,ask,10.00,400,,\n"
        "uncross,,bid,10.02,400,100,opening\n"
    )
    words = ["audit", str(path), "--reference", "10", "--tick-size", "0.01"]
    assert main([*words, "--auctions", "opening"]) == 4
    out = capsys.readouterr().out
    executes = "10.02 executes 300 with 100 ask left, and 10.00 executes 400 with 100 bid left."
    assert f"{executes}\n" in out


JUMP = """event,order,side,price,quantity,surplus,auction,trades,bid,ask
new,A,bid,10.00,100,,,,,
new,B,bid,10.00,50,,,,,
new,C,bid,10.00,30,,,,,
new,D,bid,10.00,180,,,,,
new,S,ask,10.00,180,,,,,
uncross,,bid,10.00,180,180,opening,1,,
trade,,,10.00,180,,,,D,S
"""


def test_one_jumped_priority_is_one_finding(
    tmp_path: Path, capsys: pytest.CaptureFixture[str]
) -> None:
    """D, the last of four bids, has all that A, B and C should have: the most harm is A's."""
    path, found = tmp_path / "day.csv", tmp_path / "found.json"
    path.write_text(JUMP)
    words = ["audit", str(path), "--reference", "10", "--tick-size", "0.01", "--auctions"]
    assert main([*words, "opening", "--findings", str(found)]) == 4
    lines = capsys.readouterr().out.splitlines()
    assert "findings 1" in lines and lines[0].endswith(
        "A entered in row 2 stands before D entered in row 5 at 10.00"
    )
    [record] = json.loads(found.read_text())
    moved = lines[1 : lines.index("findings 1")]
    assert "; ".join(line.strip() for line in moved) == record["moved"]
    whole = " ".join([lines[0], *moved])
    shares = [whole.index(f"bid {order} ask S: {count} at ") for order, count in
              (("D", 180), ("A", 100), ("B", 50), ("C", 30))]  # fmt: skip
    assert shares == sorted(shares), whole


def test_two_jumps_are_two_findings(
    tmp_path: Path, capsys: pytest.CaptureFixture[str]
) -> None:
    """B before A among the better bids, and D before C among the others."""
    path = tmp_path / "day.csv"
    path.write_text(
        "event,order,side,price,quantity,surplus,auction,trades,bid,ask\n"
        "new,A,bid,10.01,20,,,,,\nnew,B,bid,10.01,20,,,,,\nnew,S,ask,10.00,20,,,,,\n"
        "uncross,,bid,10.01,20,20,opening,1,,\ntrade,,,10.01,20,,,,B,S\n"
        "cancel,A,,,,,,,,\nnew,C,bid,10.00,9,,,,,\nnew,D,bid,10.00,9,,,,,\n"
        "new,T,ask,10.00,9,,,,,\n"
        "uncross,,bid,10.00,9,9,closing,1,,\ntrade,,,10.00,9,,,,D,T\n"
    )
    words = ["audit", str(path), "--reference", "10", "--tick-size", "0.01", "--auctions"]
    assert main([*words, "opening,closing"]) == 4
    assert "findings 2\n" in capsys.readouterr().out


def test_prices_have_the_digits_of_the_model() -> None:
    assert price_of(1005) == "10.05" and len(base_day().lawful) == 3


@pytest.mark.parametrize("command", ["audit", "report"])
def test_no_day_has_a_verdict_without_a_program(
    command: str, tmp_path: Path, capsys: pytest.CaptureFixture[str],
    monkeypatch: pytest.MonkeyPatch,
) -> None:
    """A lawful one neither: the hash that its rows say would be of nothing."""
    monkeypatch.setenv("CALLBOARD", "/none")
    day, out = tmp_path / "day.csv", tmp_path / "out"
    day.write_text(text_of([dict(row) for row in base_day().rows]))
    words = [command, str(day), "--reference", base_day().reference, "--tick-size", "0.01"]
    assert main([*words, "-o", str(out)]) == 3
    printed = capsys.readouterr()
    assert printed.err == "callauction: CALLBOARD names no program: /none\n"
    assert not printed.out and not out.exists()


def test_what_is_not_judged_stands_in_the_totals(
    tmp_path: Path, capsys: pytest.CaptureFixture[str]
) -> None:
    day, days = tmp_path / "day.csv", tmp_path / "days.csv"
    names = ("DE1", "DE2", "DE3")
    day.write_text(text_of([dict(row, isin=name) for name in names for row in base_day().rows]))
    days.write_text(f"isin,reference,tick_size\nDE1,{base_day().reference},0.01\n")
    words = ["audit", str(day), "--by", "isin", "--days", str(days)]
    assert main(words) == 5
    assert capsys.readouterr().out.splitlines()[0] == "not judged 2 of 3"
    with days.open("a") as file:
        file.writelines(f"{name},{base_day().reference},0.01\n" for name in names[1:])
    assert main(words) == 0
    assert "not judged" not in capsys.readouterr().out

"""Answers that were wrong once: published days that were cleared or condemned though they were not,
and inputs that ended in a traceback. Each is a test by its name.
"""
import bz2
import lzma
import random
from pathlib import Path
from typing import Any

import callauction
import pandas
import pytest
from callauction import market
from callauction.__main__ import main
from callauction.verdict import (
    ColumnError, ExtractError, Reading, audit_events, audit_instruments, read_table,
)
from extracts import Rows
from judging import frame_of
from small_days import order, small_day, verdict_of

GERMAN = """Aktion;AuftragsNr;Haendler;K/V;Limit;Stueck;Zeit;Ueberhang;Phase;Kauf;Verkauf
NEU;A17;Adler;K;20,02;1.200;08:50:01;;;;
NEU;B4;Birk;V;M;1.300;08:50:09;;;;
AUKTION;;;V;20,02;1.200;09:00:00;100;opening;;
HANDEL;;;;20,02;1.200;09:00:00;;;A17;B4
"""
GERMAN_READING = Reading(
    columns={
        "event": "Aktion",
        "order": "AuftragsNr",
        "member": "Haendler",
        "side": "K/V",
        "price": "Limit",
        "quantity": "Stueck",
        "time": "Zeit",
        "surplus": "Ueberhang",
        "auction": "Phase",
        "bid": "Kauf",
        "ask": "Verkauf",
    },
    values={
        "event": {"NEU": "new", "AUKTION": "uncross", "HANDEL": "trade"},
        "side": {"K": "bid", "V": "ask"},
    },
    separator=";",
    decimal=",",
    thousands=".",
    market=("M",),
)


def without(rows: Rows, event: str, *names: str) -> Rows:
    """The rows without these cells of an event."""
    return [
        {name: it for name, it in row.items() if row["event"] != event or name not in names}
        for row in rows
    ]


# ---- cleared though unlawful


def test_a_wrong_price_without_a_surplus_is_unlawful() -> None:
    rows = without(small_day(), "uncross", "surplus", "side")
    rows[3]["price"] = "12.34"
    verdict = verdict_of(rows)
    [finding] = verdict.findings
    assert (finding.item, finding.recorded, finding.lawful) == ("price", "12.34", "10.00")
    assert verdict.status == 4 and verdict.coverage["surpluses"] == (0, 2)


def test_a_wrong_price_alone_is_unlawful() -> None:
    rows = without(small_day(), "uncross", "surplus", "side", "quantity", "trades", "auction")
    rows = [row for row in rows if row["event"] != "trade"]
    rows[3]["price"] = "12.34"
    verdict = verdict_of(rows)
    assert [finding.item for finding in verdict.findings] == ["price"]
    assert verdict.word == "unlawful"


def test_86_missing_trades_of_the_closing_are_86_findings() -> None:
    rows = [row for row in small_day() if row["event"] != "trade" or row["time"] < "10"]
    verdict = verdict_of(rows)
    assert len(verdict.findings) == 86 and verdict.word == "unlawful"
    assert {finding.recorded for finding in verdict.findings} == {"no such trade"}
    assert len({finding.lawful for finding in verdict.findings}) == 86


def test_a_day_without_any_trade_rows_is_incomplete() -> None:
    verdict = verdict_of([row for row in small_day() if row["event"] != "trade"])
    assert verdict.word == "incomplete" and verdict.coverage["trades"] == (0, 88)
    assert "trades 0 of 88" in verdict.lines()


def test_nothing_compared_is_never_lawful() -> None:
    for rows in (small_day()[:3], [dict(event="uncross", time="09:00:00")] * 3):
        verdict = verdict_of(rows)
        assert verdict.word == "incomplete" and verdict.status == 5
        assert verdict.coverage["prices"] == (0, 3)


def test_a_surplus_on_the_wrong_side_is_unlawful_without_its_size() -> None:
    rows = without(small_day(), "uncross", "surplus")
    rows[3]["side"] = "ask"
    assert [finding.item for finding in verdict_of(rows).findings] == ["side"]


def test_trades_without_any_uncross_are_incomplete_and_told() -> None:
    verdict = verdict_of([row for row in small_day() if row["event"] != "uncross"])
    assert verdict.word == "incomplete" and verdict.coverage["prices"] == (0, 3)
    [(note, count)] = verdict.notes.items()
    assert note.startswith("trades and fills without any row uncross, which aren't compared (")
    assert "--shape FILE judges them, with the line results = \"trades\" in FILE" in note
    assert count == 88


# ---- condemned though lawful


def test_the_order_of_trades_means_nothing() -> None:
    rows = small_day()
    trades = [row for row in rows if row["event"] == "trade"]
    others = [row for row in rows if row["event"] != "trade"]
    for ordered in (others + trades[::-1], trades + others):
        assert verdict_of(ordered).word == "lawful"


def test_the_order_of_trades_means_nothing_without_times() -> None:
    rows = without(small_day(), "trade", "time")
    trades = [row for row in rows if row["event"] == "trade"]
    others = [row for row in rows if row["event"] != "trade"]
    for ordered in (rows, others + trades[::-1], trades + others):
        assert verdict_of(ordered).word == "lawful", str(verdict_of(ordered))


def test_rows_in_any_order_are_sorted_where_that_is_asked() -> None:
    rows = [dict(row, sequence=place) for place, row in enumerate(small_day())]
    assert verdict_of(rows[::-1], reading=Reading(sort=True)).word == "lawful"
    with pytest.raises(ExtractError, match="in reverse order .*: say --sort$"):
        verdict_of(rows[::-1])
    verdict = verdict_of([rows[1], rows[0], *rows[2:]])
    assert any(name.startswith("times that come before") for name in verdict.notes)


def test_a_trade_that_was_recorded_in_parts_is_lawful() -> None:
    rows = small_day()
    rows[5:6] = [dict(rows[5], quantity=150), dict(rows[5], quantity=50)]
    assert verdict_of(rows).word == "lawful"


def test_cancels_of_filled_orders_and_after_the_last_auction_are_accepted_and_counted() -> None:
    rows = small_day()
    rows.insert(7, dict(event="cancel", order="S1", time="13:00:01"))
    rows += [dict(event="cancel", order=f"S{k}", time="17:40:00") for k in (3, 4)]
    verdict = verdict_of(rows)
    assert verdict.word == "lawful"
    assert verdict.notes == {
        "cancels and expiries of orders that were executed before": 1,
        "cancels after the last auction": 2,
    }


# ---- one fault is one finding


def test_one_missing_trade_is_one_finding_and_no_cascade() -> None:
    rows = small_day()
    del rows[4]
    verdict = verdict_of(rows)
    [finding] = verdict.findings
    assert (finding.item, finding.auction, finding.row) == ("trade", "opening", 3)
    assert finding.lawful == "bid B1 ask S1: 100 at 10.00"


def test_one_wrong_price_of_a_whole_auction_is_one_finding() -> None:
    rows = small_day()
    for row in rows[:6]:
        if row["event"] in ("uncross", "trade"):
            row["price"] = "10.05"
    assert [finding.item for finding in verdict_of(rows).findings] == ["price"]
    [finding] = verdict_of(without(rows, "uncross", "price")).findings
    assert (finding.item, finding.recorded) == ("trade", "2 trades at 10.05")


# ---- findings, and no errors of format


def test_an_uncross_at_a_wrong_moment_is_a_finding() -> None:
    rows = small_day()
    rows.insert(2, rows.pop(3))
    assert "by its time row 3 is above row 2" in str(verdict_of(rows))
    rows = [dict(row, time="") for row in rows]
    verdict = verdict_of(rows)
    [finding] = verdict.findings
    assert (finding.item, finding.recorded, finding.lawful) == (
        "auction", "behind row 1", "behind row 3"
    )
    assert finding.rule == (
        "What was published, price 10.00 and volume 300, is the result of the book behind row 3, "
        "and not of the book behind row 1."
    )


def test_an_uncross_before_its_own_orders_is_a_finding() -> None:
    rows = small_day()
    rows.insert(0, rows.pop(3))
    [finding] = verdict_of([dict(row, time="") for row in rows]).findings
    assert (finding.item, finding.recorded) == ("auction", "before all orders")


def test_an_unknown_counterparty_is_a_finding() -> None:
    rows = small_day()
    rows[4]["ask"] = "S999"
    [finding] = verdict_of(rows).findings
    assert finding.recorded == "bid B1 ask S999: 100 at 10.00"
    assert finding.lawful == "bid B1 ask S1: 100 at 10.00"
    assert finding.rule == "S999 is the id of no order."


def test_a_counterparty_whose_entry_is_unread_is_said_to_be_so() -> None:
    rows = small_day()
    rows[1]["quantity"] = "1e2"
    verdict = verdict_of(rows)
    assert verdict.word == "incomplete"
    texts = [sentence for it in verdict.doubtful for sentence in verdict.explain(it)]
    assert "S1 is the id of no order that was read; row 1 has it, and wasn't read." in texts


def test_a_wrong_interruption_is_a_finding() -> None:
    rows = small_day()
    rows[3]["auction"] = "interrupted"
    [finding] = verdict_of(rows).findings
    assert (finding.item, finding.lawful) == ("auction", "opening")
    assert finding.rule == "An uncross that is interrupted has a price, and executes nothing."
    del rows[3]["trades"]
    verdict = verdict_of(rows)
    assert verdict.word == "incomplete" and not verdict.findings
    assert [finding.item for finding in verdict.doubtful] == ["auction"]


def test_a_trade_stamped_in_another_auction_is_a_finding() -> None:
    rows = small_day()
    rows[4].update(auction="closing", time="17:35:00")
    [finding] = verdict_of(rows).findings
    assert finding.recorded == "bid B1 ask S1: 100 at 10.00 in the closing"
    assert finding.lawful == "in the opening" and finding.row == 4


def test_a_bad_row_is_listed_and_the_rest_goes_on() -> None:
    rows = small_day()
    rows[3]["quantity"] = 299
    bad: Rows = [order(f"X{k}", "long", "10.00", 10, "08:50:30") for k in range(25)]
    verdict = verdict_of(rows[:3] + bad + rows[3:])
    assert [finding.item for finding in verdict.findings] == ["volume"]
    assert len(verdict.bad_rows) == 25 and verdict.remarks()[20] == "bad rows 25"
    said = "row 3: side 'long' is none of bid, buy, ask, sell (--values side:long=OURS says what"
    assert verdict.remarks()[0] == f"{said} it means)"
    clean = verdict_of(rows[:3] + bad[:1] + without(rows[3:], "none"), reference="10.00")
    assert clean.word == "unlawful"
    rows[3]["quantity"] = 300
    assert verdict_of(rows[:3] + bad[:1] + rows[3:]).word == "incomplete"


def test_more_than_63_members_appear_by_their_names() -> None:
    rows = small_day()
    rows[-1]["ask_member"] = "member of S4"
    verdict = verdict_of(rows)
    [finding] = verdict.doubtful
    assert finding.lawful == "bid B2 (member of B2) ask S88 (member of S88): 10 at 10.00"
    assert not verdict.findings and finding.rule == (
        "row 93 says that order 'S88' is member of S88's, and row 180 that it is member of S4's: "
        "is the first wrong?"
    )


# ---- extracts as they come


def test_a_german_extract_is_read(tmp_path: Path) -> None:
    path = tmp_path / "tag.csv"
    path.write_text(GERMAN, encoding="latin-1")
    verdict = audit_events(
        path, reference="19.90", tick_size="0.01", auctions=["opening"], reading=GERMAN_READING
    )
    assert not verdict.findings and verdict.coverage["trades"] == (1, 1)
    assert verdict.coverage["prices"] == (1, 1) and verdict.coverage["counts"] == (0, 1)


@pytest.mark.parametrize("name, meaning", [
    ("Surplus", "surplus"), ("Only", "restriction"), ("reply ", None), ("Limit", "price"),
    ("Qty", "quantity"), ("surplu", "surplus"), ("MemberID", "member"), ("isin", None),
])
def test_a_near_miss_of_a_column_is_named_with_its_likely_meaning(
    name: str, meaning: str | None
) -> None:
    frame = frame_of(small_day()).assign(**{name: "x"})
    with pytest.raises(ColumnError) as found:
        read_table(frame)
    hint = f" (is it {meaning}?)" if meaning else ""
    assert str(found.value).startswith(f"unknown column {name!r}{hint}: ")
    assert audit_events(frame, reference=10, reading=Reading(ignore=[name])).word == "lawful"


def test_an_extract_without_prices_is_refused() -> None:
    """Else each order would be a market order."""
    frame = frame_of(small_day()).rename(columns={"price": "limit"})
    with pytest.raises(ColumnError, match=r"^unknown column 'limit' \(is it price\?\)"):
        read_table(frame)
    with pytest.raises(ColumnError, match="^the table has no column price"):
        read_table(frame, Reading(ignore=["limit"]))
    assert read_table(frame, Reading(columns={"price": "limit"})).frame["price"].notna().any()


# ---- the command line: one line that says what to do


LINE = ["audit", "day.csv", "--reference", "19.90", "--tick-size", "0.01"]
GERMAN_WORDS = [
    "--separator", ";", "--decimal", ",", "--thousands", ".", "--market", "M", "--columns",
    "event=Aktion,order=AuftragsNr,member=Haendler,side=K/V,price=Limit,quantity=Stueck,time=Zeit",
    "--columns", "surplus=Ueberhang,auction=Phase,bid=Kauf,ask=Verkauf",
    "--values", "event:NEU=new,AUKTION=uncross,HANDEL=trade", "--values", "side:K=bid,V=ask",
]
COMMAS = GERMAN.replace(",", ".").replace(";", ",")
ORDERS = (
    "column order, side (the rows of orders, new, replace and cancel, have it: they must be in the "
    "file of the trades and results): say which it is, such as columns order=THEIRS; --columns "
)


@pytest.mark.parametrize("words, text, status, line", [
    (LINE, GERMAN, 1, "the fields are parted by semicolons: say separator ';'"),
    (["audit", "day.csv"], COMMAS, 1, "unknown columns 'Aktion', 'AuftragsNr'"),
    (["audit", "day.csv"], "event,order,side,price,quantity\n", 2,
     "there are order events: say --reference and --tick-size"),
    (["report", "day.csv", "-o", "x.html"], "event,order,side,price,quantity\n", 2,
     "there are order events: say --reference and --tick-size"),
    (LINE, "event,order,side,price,quantity,Only\n", 1,
     "unknown column 'Only' (is it restriction?)"),
    (LINE, "", 1, "the file is empty: it needs a header with the names of its columns"),
    (LINE, "event\n", 1, "the table has no column order, side, price, quantity"),
    (LINE, "event,bid,ask,price,quantity\ntrade,A,B,10,5\n", 1, f"the table has no {ORDERS}"),
    (LINE, "event,order,side,bid,ask,price,quantity\ntrade,,,A,B,10,5\n", 1,
     f"the table has no {ORDERS}"),
    (LINE, "event,order,side,bid,ask,price,quantity\ntrade,NULL,-,A,B,10,5\nuncross,,,,,10,5\n", 1,
     f"the table has no {ORDERS}"),
    (LINE, "event,order,side,bid,ask,price,quantity\nnew,A,,,,10,5\ntrade,,,A,B,10,5\n", 1,
     f"the table has no {ORDERS.replace('order, side', 'side').replace('order=', 'side=')}"),
    ([*LINE, "--where", "x"], "event,order,side,price,quantity\n", 2, "where 'x' is no condition"),
    ([*LINE, "--where", "event = new"], "event,order,side,price,quantity\n", 2, "is no condition"),
    ([*LINE, "--where", "event == a and side == b"], "event,order,side,price,quantity\n", 2,
     "is no condition"),
    ([*LINE, "--where", "price < much"], "event,order,side,price,quantity\n", 2,
     "'much' is neither a number nor a time"),
    ([*LINE, "--values", "x"], "event,order,side,price,quantity\n", 2, "--values 'x' is none such"),
    ([*LINE, "--auctions", "noon"], "event,order,side,price,quantity\n", 2, "auctions 'noon' must"),
    ([*LINE, "--encoding", "no"], "event,order,side,price,quantity\n", 2, "no encoding 'no'"),
    ([*LINE, "--columns", "prize=price"], "event,order,side,price,quantity\n", 2,
     "there is no column 'prize' (is it price?) to map 'price' to\n"),
    ([*LINE, "--columns", "price=Limit"], "event,order,side,price,quantity\n", 1,
     "the table has no column 'Limit'"),
    ([*LINE[:3], "x", *LINE[4:]], "event,order,side,price,quantity\n", 2,
     "reference 'x' is no dec"),
    (["plot", "day.csv", "-o", "x.svg"], "event,order,side,price,quantity\n", 1, "record 1: bad "),
    ([*LINE, "--by", "isin"], "event,order,side,price,quantity\n", 1, "has no column 'isin'"),
])
def test_a_fault_is_one_line(
    words: list[str], text: str, status: int, line: str, tmp_path: Path,
    monkeypatch: pytest.MonkeyPatch, capsys: pytest.CaptureFixture[str],
) -> None:
    monkeypatch.chdir(tmp_path)
    Path("day.csv").write_text(text, encoding="utf-8")
    if words[0] != "audit":
        pytest.importorskip("callauction._native")
    assert main(words) == status
    printed = capsys.readouterr()
    assert printed.err.count("\n") == 1 and line in printed.err and not printed.out, printed.err


def test_other_bytes_are_one_line(
    tmp_path: Path, monkeypatch: pytest.MonkeyPatch, capsys: pytest.CaptureFixture[str]
) -> None:
    monkeypatch.chdir(tmp_path)
    for content, line in (
        (
            "event,member\nnew,Mäkler\n".encode("latin-1"),
            "line 2 is no utf-8: say encoding latin-1",
        ),
        ("event,order\n".encode("utf-16"), "line 1 is no utf-8: say encoding utf-16"),
        (b"\x1f\x8bxx", "the file is cut or no gzip file: fetch it again"),
        (bz2.compress(b"event\n"), "this is compressed by bzip2: unpack it, as gzip alone is read"),
        (lzma.compress(b"event\n"), "this is compressed by xz: unpack it, as gzip alone is read"),
        (
            b"1,09:00:00,new,A1,bid,10.00,100\n",
            "record 1: not a day record, and no header of an extract, which names its columns",
        ),
    ):
        Path("day.csv").write_bytes(content)
        assert main(LINE) == 1
        assert capsys.readouterr().err == f"callauction: {line}\n"


@pytest.mark.parametrize("words", [[], ["--encoding", "latin-1"]])
@pytest.mark.parametrize("content", [
    b"%PDF-1.4\n%\xe2\xe3\xcf\xd3\n1 0 obj<</Type/Catalog>>\n",
    b"\x89PNG\r\n\x1a\n" + bytes(range(256)), random.Random(1).randbytes(9999),
], ids=["a PDF", "a picture", "noise"])
def test_what_is_no_text_is_named_in_any_encoding(
    content: bytes, words: list[str], tmp_path: Path, monkeypatch: pytest.MonkeyPatch,
    capsys: pytest.CaptureFixture[str],
) -> None:
    monkeypatch.chdir(tmp_path)
    Path("day.csv").write_bytes(content)
    assert main([*LINE, *words]) == 1
    said = "this is no text (a PDF, a picture or another program's): save it as CSV"
    assert capsys.readouterr().err == f"callauction: {said}\n"


def test_the_lines_of_a_verdict(
    tmp_path: Path, monkeypatch: pytest.MonkeyPatch, capsys: pytest.CaptureFixture[str]
) -> None:
    monkeypatch.chdir(tmp_path)
    Path("day.csv").write_text(GERMAN.replace("AUKTION;;;V;20,02", "AUKTION;;;V;20,01"))
    assert main([*LINE, *GERMAN_WORDS, "--auctions", "opening"]) == 4
    assert capsys.readouterr().out.splitlines() == [
        "row 4, 09:00:00, opening: price: recorded 20.01, lawful 20.02: It is the one best limit, "
        "so 20.02 is the price, whatever its surplus. 20.01, which is no order's limit, executes "
        "1,200 with 100 ask left, and 20.02 executes 1,200 with 100 ask left.",
        "findings 1",
        "prices 1 of 1",
        "volumes 1 of 1",
        "surpluses 1 of 1",
        "sides 1 of 1",
        "auctions 1 of 1",
        "counts 0 of 1",
        "trades 1 of 1",
        "unlawful",
    ]
    Path("day.csv").write_text(GERMAN)
    assert main([*LINE, *GERMAN_WORDS, "--auctions", "opening"]) == 5
    assert capsys.readouterr().out.splitlines()[-1] == "incomplete"
    assert main([*LINE, *GERMAN_WORDS, "--check"]) == 0
    out = capsys.readouterr().out.splitlines()
    assert out[0] == "event: Aktion (new, replace, cancel, uncross, trade, fill or bust)"
    assert "rows new 2" in out and "rows trade 1" in out and "bad rows 0" in out


def test_each_instrument_is_judged_by_itself(
    tmp_path: Path, monkeypatch: pytest.MonkeyPatch, capsys: pytest.CaptureFixture[str]
) -> None:
    monkeypatch.chdir(tmp_path)
    one, two = (frame_of(small_day()).assign(isin=name) for name in ("DE1", "DE2"))
    two.loc[3, "quantity"] = 299
    both = pandas.concat([one, two]).sort_index(kind="stable")
    both.to_csv("day.csv", index=False)
    Path("days.csv").write_text("isin,reference,tick_size\nDE1,10.00,0.01\nDE2,10.00,0.01\n")
    words = ["audit", "day.csv", "--by", "isin", "--days", "days.csv", "-o", "rows.csv"]
    assert main(words) == 4
    out = capsys.readouterr().out.splitlines()
    assert out[0].startswith("DE2, row 9, 09:00:00, opening: volume: recorded 299, lawful 300: ")
    assert out[1:4] == ["findings 1", "prices 6 of 6", "volumes 4 of 4"]
    assert out[-1] == "unlawful"
    rows = pandas.read_csv("rows.csv")
    assert rows["verdict"].tolist() == ["lawful", "unlawful"]
    assert rows["trades"].tolist() == rows["trades_due"].tolist() == [88, 88]
    assert f"DE2, {rows['first_finding'][1]}" == out[0]
    days = pandas.DataFrame({"isin": ["DE1", "DE2"], "reference": ["10.00", "x"]})
    assert market.audit_events is audit_instruments
    found = audit_instruments(both, "isin", days=days, tick_size="0.01")
    assert found["verdict"].tolist() == ["lawful", "fault"]
    assert found["fault"].fillna("").tolist() == ["", "reference 'x' is no decimal number"]
    assert found["findings"].tolist() == [0, pandas.NA]
    with pytest.raises(ColumnError, match=r"unknown column 'ref' \(is it reference\?\)"):
        audit_instruments(both, "isin", days=days.rename(columns={"reference": "ref"}))


# ---- journals


JOURNAL = (Path(__file__).resolve().parent.parent.parent / "examples/forms/day.journal.csv")


@pytest.mark.parametrize("change, status, coverage, word", [
    (lambda lines: lines, 0, ["replies 11 of 11", "auctions 3 of 3"], "lawful"),
    (lambda lines: lines[:-3], 5, ["replies 8 of 8", "auctions 2 of 3"], "incomplete"),
    (lambda lines: lines[:1], 5, ["replies 0 of 0", "auctions 0 of 3"], "incomplete"),
    (lambda lines: [lines[0], *(f"{line.rpartition(',')[0]}," for line in lines[1:])], 5,
     ["replies 0 of 11", "auctions 3 of 3"], "incomplete"),
])
def test_a_journal_that_was_cut_or_has_no_replies_is_incomplete(
    change: Any, status: int, coverage: list[str], word: str, tmp_path: Path,
    capsys: pytest.CaptureFixture[str],
) -> None:
    lines = JOURNAL.read_text(encoding="utf-8").splitlines()
    path = tmp_path / "day.csv"
    path.write_text("".join(f"{line}\n" for line in change(lines)), encoding="utf-8")
    assert main(["audit", str(path)]) == status
    assert capsys.readouterr().out.splitlines() == ["findings 0", *coverage, word]


def test_a_journal_that_was_cut_within_a_line_is_incomplete(
    tmp_path: Path, capsys: pytest.CaptureFixture[str]
) -> None:
    content = JOURNAL.read_text(encoding="utf-8")
    lines = content.splitlines(keepends=True)
    path = tmp_path / "day.csv"
    path.write_text("".join(lines[:9]) + lines[9][:5], encoding="utf-8")
    assert main(["audit", str(path)]) == 5
    assert capsys.readouterr().out.splitlines() == [
        "5 bytes follow entry 8", "findings 0", "replies 8 of 8", "auctions 2 of 3", "incomplete"
    ]
    found = callauction.audit(path)
    assert found.empty and found.attrs["is_cut"] and found.attrs["entries"] == 8
    path.write_text(content, encoding="utf-8")
    assert "is_cut" not in callauction.audit(path).attrs

"""Extracts that were put together: of orders and results, of days, instruments or markets."""
import re
from collections.abc import Callable
from pathlib import Path

import pytest
from callauction.__main__ import main
from callauction.verdict import audit_events, shapes
from damage import ORDERS, places, timed_day
from desk import TRADE, UNCROSS, Printed, audited, base_day, base_rows, refused, split, text_of
from extracts import Rows
from judging import frame_of
from lines import untimed_rows
from logs import FixLog
from logs import line as message_of


@pytest.mark.parametrize("part", [
    lambda orders, results: orders + results,
    lambda orders, results: results + orders,
    lambda orders, results: (
        [row for row in results if row["event"] == UNCROSS] + orders
        + [row for row in results if row["event"] == TRADE]),
    lambda orders, results: (
        [row for row in orders if row["event"] == "new"] + results
        + [row for row in orders if row["event"] != "new"]),
    lambda orders, results: (
        [row for row in base_rows() if row["event"] != "cancel"]
        + [row for row in orders if row["event"] == "cancel"]),
    lambda orders, results: base_rows()[::-1],
])  # fmt: skip
def test_files_put_together_are_refused_and_sorted_read(
    part: Callable[[Rows, Rows], Rows], tmp_path: Path, capsys: Printed
) -> None:
    rows = part(*split(base_rows()))
    assert "say --sort" in refused(rows, [], tmp_path, capsys)
    for number, row in enumerate(base_rows()):
        for it in rows:
            if {**it, "sequence": ""} == {**row, "sequence": ""}:
                it["sequence"] = str(number)
    assert audited(text_of(rows), ["--sort"], tmp_path) == 0


def test_the_orders_of_a_day_and_the_results_of_one_auction_are_refused(
    tmp_path: Path, capsys: Printed
) -> None:
    orders, results = split(base_rows())
    opening = [row for row in results if row["auction"] == "opening"]
    line = refused(orders + opening, ["--auctions", "opening"], tmp_path, capsys)
    assert "say --sort" in line
    assert audited(text_of(orders + opening), ["--auctions", "opening", "--sort"], tmp_path) == 0


def test_one_auction_may_be_put_together(tmp_path: Path) -> None:
    """Its orders are above its result, so that nothing is mixed; and a fault in it is found."""
    rows = base_rows()
    end = max(place for place, row in enumerate(rows) if row.get("auction") == "opening")
    orders, results = split(rows[: end + 1])
    assert audited(text_of(orders + results), ["--auctions", "opening"], tmp_path) == 0
    results[0]["quantity"] = "7"
    assert audited(text_of(orders + results), ["--auctions", "opening"], tmp_path) == 4


@pytest.mark.parametrize("part", [
    lambda orders, results: orders + results,
    lambda orders, results: results + orders,
    lambda orders, results: base_rows()[::-1],
])
def test_files_put_together_without_times_condemn_no_day(
    part: Callable[[Rows, Rows], Rows], tmp_path: Path, capsys: Printed
) -> None:
    rows = part(*split(base_rows()))
    for row in rows:
        del row["time"]
    line = refused(rows, [], tmp_path, capsys)
    assert "nothing says which orders each auction had" in line or "reverse order" in line


def test_orders_above_the_first_result_alone_are_judged_without_times() -> None:
    """The later auctions have no price, so nothing says that the rows are in another order."""
    rows: Rows = [
        dict(event="new", order="A", side="bid", price="10.00", quantity="10"),
        dict(event="new", order="B", side="ask", price="10.00", quantity="10"),
        dict(event="uncross", price="10.01", quantity="10", auction="opening"),
        dict(event="uncross", quantity="0", auction="intraday"),
        dict(event="uncross", quantity="0", auction="closing"),
    ]  # fmt: skip
    verdict = audit_events(frame_of(rows), reference="10", tick_size="0.01")
    assert [finding.item for finding in verdict.findings] == ["price"]


@pytest.mark.parametrize("hours", [-1, 1])
@pytest.mark.parametrize("events", [ORDERS, (UNCROSS, TRADE)])
def test_another_zone_that_is_not_said_hides_no_fault(
    hours: int, events: tuple[str, ...], tmp_path: Path
) -> None:
    """The rows of orders, or those of results, are stamped an hour off: results before orders that
    they executed are in doubt.
    """
    rows, is_early = base_rows(), (hours > 0) == (events == ORDERS)
    for place in places(rows, *events):
        time = rows[place]["time"]
        rows[place]["time"] = f"{int(time[:2]) + hours:02}{time[2:]}"
    assert audited(text_of(rows), [], tmp_path) == (5 if is_early else 0)
    rows[places(rows, UNCROSS)[0]]["quantity"] = "7"
    assert audited(text_of(rows), [], tmp_path) == 4


def with_date(rows: Rows, date: str) -> Rows:
    return [dict(row, time=f"{date}T{row['time']}") for row in rows]


def test_two_days_are_refused_with_the_condition_that_keeps_one(
    tmp_path: Path, capsys: Printed
) -> None:
    rows = with_date(base_rows(), "2026-11-25") + with_date(base_rows(), "2026-11-26")
    line = refused(rows, [], tmp_path, capsys)
    assert "are results of two days" in line and "--by" in line
    [condition] = re.findall("--where '(.*)'", line)
    assert audited(text_of(rows), ["--where", condition], tmp_path) == 0
    assert audited(text_of(rows), ["--where", condition.replace("<", ">=")], tmp_path) == 0


def test_two_days_without_dates_are_refused(tmp_path: Path, capsys: Printed) -> None:
    rows = base_rows()
    other = [dict(row) for row in rows]
    for row in other:
        row["time"] = f"{row['time'][:-1]}{9 - int(row['time'][-1])}"
    said = "are results of one auction, the opening, of two days or markets"
    assert said in refused(rows + other, [], tmp_path, capsys)


def test_orders_of_another_day_leave_a_doubt(tmp_path: Path, capsys: Printed) -> None:
    """They may be carried over, and the day is lawful with them; else nothing is certain."""
    rows = with_date(base_rows(), "2026-11-25")
    early = [dict(rows[0], time="2026-11-24T10:00:00"), *rows[1:]]
    assert audited(text_of(early), [], tmp_path) == 0
    other = dict(rows[0], order="OLD", time="2026-11-24T10:00:00", quantity="90000")
    assert audited(text_of([dict(other, side=side, order=side) for side in ("bid", "ask")] + rows),
                   [], tmp_path) == 5
    assert "are of two days" in capsys.readouterr().out


STANDING = """new A1 bid 100 10.00
new A2 bid 100 10.00
new B1 ask 100 10.00
uncross 10.00 100 100
trade A2 B1 100 10.00"""


def standing_day() -> Rows:
    """A1 is entered on the day before, and A2 trades before it."""
    rows = untimed_rows(STANDING)
    clocks = ("26T14:40", "27T08:52", "27T08:53", "27T09:00", "27T09:00")
    for number, (row, clock) in enumerate(zip(rows, clocks)):
        row |= {"time": f"2026-11-{clock}:00", "sequence": str(number + 1)}
    rows[3] |= {"auction": "opening", "side": "bid"}
    return rows


OPENING = ["--auctions", "opening"]
REDUCED = {"event": "cancel", "order": "A1", "quantity": "50", "time": "2026-11-27T08:55:00"}


@pytest.mark.parametrize("change, status", [
    (lambda rows: None, 5),  # A1 may have ended with its day
    (lambda rows: rows[0].update(sequence="9"), 5),
    (lambda rows: [row.update(sequence="") for row in rows], 5),
    (lambda rows: rows.insert(3, dict(REDUCED) | {"sequence": ""}), 4),
    (lambda rows: rows[0].update(time="2026-11-28T08:40:00"), 5),
    (lambda rows: [row.update(sequence="") for row in (*rows, rows.insert(3, dict(REDUCED)))
                   if row], 4),
])  # fmt: skip
def test_an_order_that_stands_from_the_day_before_is_certain_by_rows_of_the_day(
    change: Callable[[Rows], object], status: int, tmp_path: Path, capsys: Printed
) -> None:
    rows = standing_day()
    change(rows)
    assert audited(text_of(rows), OPENING, tmp_path) == status
    out = capsys.readouterr().out
    assert ("doubtful: " in out) == (status == 5)
    assert "A1 entered 2026-11-26T14:40:00 stands before A2" in out or status == 5


def test_orders_before_the_time_of_where_are_counted(tmp_path: Path, capsys: Printed) -> None:
    said = "orders entered before the time of --where (what of them stands is in no book): 1"
    for condition, is_said in (("time >= 2026-11-27T00:00:00", True), ("order != A1", False)):
        audited(text_of(standing_day()), [*OPENING, "--where", condition], tmp_path)
        assert (said in capsys.readouterr().err) == is_said


@pytest.mark.parametrize("column", ["isin", "Symbol", "Instrument ID", "WKN"])
def test_two_instruments_are_refused_without_by(
    column: str, tmp_path: Path, capsys: Printed
) -> None:
    rows = [{**row, column: name} for row in base_rows() for name in ("DE1", "DE2")]
    line = refused(rows, ["--ignore", "*"], tmp_path, capsys)
    assert f"{column} has 2 values, such as DE1 and DE2: say --by {column}" in line
    [condition] = re.findall("--where '(.*)'", line)
    assert audited(text_of(rows), ["--ignore", "*", "--where", condition], tmp_path) == 0
    assert audited(text_of(rows), ["--ignore", "*", "--by", column], tmp_path) == 0


@pytest.mark.parametrize("words", [[], ["--json"]])
def test_a_file_of_which_no_instrument_can_be_judged_is_a_bad_one(
    words: list[str], tmp_path: Path, capsys: Printed
) -> None:
    """Each has two days in it; where it isn't said what these were opened with, that is it."""
    rows = with_date(base_rows(), "2026-11-25") + with_date(base_rows(), "2026-11-26")
    text = text_of([{**row, "isin": name} for row in rows for name in ("DE1", "DE2")])
    assert audited(text, ["--by", "isin", *words], tmp_path) == 1
    line = capsys.readouterr().err
    assert "are results of two days" in line and line.endswith(" (and 1 more can't be judged)\n")
    (tmp_path / "day.csv").write_text(text)
    assert main(["audit", str(tmp_path / "day.csv"), "--by", "isin", *words]) == 2
    assert "say --reference and --tick-size" in capsys.readouterr().err


def test_trades_that_a_condition_leaves_out_are_counted(tmp_path: Path, capsys: Printed) -> None:
    """By hand: 500 of A and 100 of C trade with B's 600, and 400 are left of C."""
    (tmp_path / "day.csv").write_text(
        "event,order,side,price,quantity,auction,surplus,trades,bid,ask\n"
        "new,A,bid,10.02,500,,,,,\nnew,C,bid,10.02,500,,,,,\nnew,B,ask,10.02,600,,,,,\n"
        "uncross,,bid,10.02,600,opening,400,2,,\ntrade,,,10.02,500,,,,A,B\n"
        "trade,,,10.02,100,,,,C,B\n"
    )
    words = ["--reference", "10", "--tick-size", "0.01", "--auctions", "opening"]
    assert main(["audit", str(tmp_path / "day.csv"), *words]) == 0
    capsys.readouterr()
    given = [*words, "--where", "quantity >= 500"]
    assert main(["audit", str(tmp_path / "day.csv"), *given]) == 5
    printed = capsys.readouterr()
    assert "C ask B: 100 at 10.02: a trade of such an order doesn't meet --where\n" in printed.out
    assert "trades, fills and results that don't meet --where: 1\n" in printed.err


@pytest.mark.parametrize("tag, name", [(48, "SecurityID (48)"), (55, "Symbol (55)")])
def test_a_log_of_two_instruments_is_refused_without_by(
    tag: int, name: str, tmp_path: Path, capsys: Printed
) -> None:
    log, lines = FixLog(base_day(), 1), list[str]()
    for text in ("DE1", "DE2"):
        lines += [message_of([(tag, text) if it[0] == 48 else it for it in fields])
                  for fields in log.messages]  # fmt: skip
    content = "\n".join([*lines, ""])
    assert audited(content, ["--shape", "fix"], tmp_path) == 1
    column = name.split()[0]
    assert capsys.readouterr().err == (
        f"callauction: {name} has 2 values, such as DE1 and DE2: say --by {column}, or keep one by "
        f"--where '{column} == DE1'\n"
    )
    for words in (["--by", column], ["--where", f"{column} == DE1"]):
        assert audited(content, ["--shape", "fix", *words], tmp_path) == 5
        assert "findings 0\n" in capsys.readouterr().out


def test_a_log_that_is_cut_condemns_no_day(tmp_path: Path) -> None:
    """Behind each message, and within it."""
    day = timed_day(3, 12)
    messages = FixLog(day, 3).tagged("|").splitlines(keepends=True)
    path, count = tmp_path / "day.log", 0
    for end in range(3, len(messages)):
        whole = "".join(messages[:end])
        for content in (whole, whole[: -7 - end % 40]):
            path.write_text(content)
            verdict = audit_events(path, reference=day.reference, range=day.range,
                                   tick_size="0.01", reading=shapes.reading_of("fix"))  # fmt: skip
            assert verdict.word != "unlawful", f"{content[-200:]}\n{verdict}"
            count += len(verdict.doubtful)
    assert count


def test_one_instrument_may_have_other_columns(tmp_path: Path) -> None:
    """Its name has two spellings, and another column says that it is one."""
    rows = [{**row, "isin": "DE1", "Symbol": f"{number % 2}"}
            for number, row in enumerate(base_rows())]  # fmt: skip
    assert audited(text_of(rows), ["--ignore", "*"], tmp_path) == 0


@pytest.mark.parametrize("words", [[], ["--sort"]])
def test_no_sorting_is_advised_where_results_without_times_stand_below_all_orders(
    words: list[str], tmp_path: Path, capsys: Printed
) -> None:
    orders, results = split(base_rows())
    ends = [dict(row, time="", sequence="") for row in results if row["event"] == UNCROSS]
    line = refused([*orders, *ends], words, tmp_path, capsys)
    assert "results stand apart from orders and not all have a time" in line
    assert "say --sort" not in line

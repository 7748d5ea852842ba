"""Files that are cut: what may be missing behind their end is in doubt."""
import re
from pathlib import Path
from typing import Any

import pytest
from callauction.verdict import Reading, Verdict, audit_events, audit_instruments
from damage import places, timed_day
from desk import TRADE, UNCROSS, base_day, base_rows, text_of
from extracts import Extract
from judging import judged


def read_file(content: str, day: Extract, folder: Path) -> Verdict:
    path = folder / "day.csv"
    path.write_bytes(content.encode())
    return audit_events(path, reference=day.reference, tick_size="0.01", range=day.range)


@pytest.mark.parametrize("column", ["price", "quantity", "bid", "auction", "trades"])
def test_a_file_that_is_cut_within_its_last_row_condemns_no_day(
    column: str, tmp_path: Path
) -> None:
    """Behind any result or trade, with the column as the last one, within the cell or behind it."""
    day = base_day()
    names = dict.fromkeys(name for row in day.rows for name in row if name != column)
    rows = [{name: row.get(name, "") for name in [*names, column]} for row in day.rows]
    text = ",".join(rows[0]) + "\n"
    doubtful = 0
    for row in rows:
        line = ",".join(row.values())
        if row["event"] in (UNCROSS, TRADE):
            for cut in range(len(line) - len(row[column]), len(line) + 1):
                verdict = read_file(text + line[:cut], day, tmp_path)
                assert verdict.word != "unlawful", f"{line[:cut]}\n{verdict}"
                doubtful += len(verdict.doubtful)
        text += line + "\n"
    assert doubtful and read_file(text, day, tmp_path).word == "lawful"
    assert read_file(text[:-1], day, tmp_path).word == "lawful"


def test_a_file_that_is_cut_behind_any_row_condemns_no_day(tmp_path: Path) -> None:
    doubtful = 0
    for seed in range(6):
        day = timed_day(seed)
        lines = text_of(day.rows).splitlines(keepends=True)
        for end in range(2, len(lines)):
            verdict = read_file("".join(lines[:end]), day, tmp_path)
            assert verdict.word != "unlawful", f"{seed} {end}\n{verdict}"
            doubtful += len(verdict.doubtful)
    assert doubtful


def test_a_missing_trade_is_certain_where_a_later_row_follows(tmp_path: Path) -> None:
    day = base_day()
    rows = base_rows()
    del rows[-1]
    verdict = read_file(text_of(rows), day, tmp_path)
    assert verdict.word == "incomplete" and len(verdict.doubtful) == 1
    assert str(verdict.doubtful[0]).endswith(
        f": the file ends with row {len(rows) + 1}, and may be cut there"
    )
    late = dict(event="cancel", order=places(rows, "new") and rows[0]["order"], time="20:00:00")
    assert read_file(text_of([*rows, late]), day, tmp_path).word == "unlawful"
    path = tmp_path / "day.csv"
    path.write_text(text_of([*rows, late]))
    reading = Reading(where=("event != cancel",))
    if not places(base_rows(), "cancel"):
        found = audit_events(path, reference=day.reference, tick_size="0.01", reading=reading)
        assert found.word == "unlawful"
    assert judged(Extract(rows, day.reference, day.range, day.lawful)).word == "unlawful"


HELD = """new,B1,bid,20.02,500,08:10:00,,,,,
new,B2,bid,20.01,300,08:11:00,,,,,
new,S1,ask,20.00,600,08:12:00,,,,,
new,S2,ask,20.01,200,08:13:00,,,,,
uncross,,none,20.01,800,09:00:00,0,opening,3,,
trade,,,20.01,500,09:00:00,,,,B1,S1
trade,,,20.01,100,09:00:00,,,,B2,S1
trade,,,20.01,200,09:00:00,,,,B2,S2
""".splitlines()
HEAD = "event,order,side,price,quantity,time,surplus,auction,trades,bid,ask"


def words_by(by: str, lines: list[tuple[str, str]], folder: Path) -> dict[str, str]:
    """The verdicts on a file of rows of instruments by their names."""
    text = [f"{by},{HEAD}", *(f"{name},{line}" for name, line in lines)]
    (folder / "day.csv").write_text("\n".join(text) + "\n")
    terms: dict[str, Any] = dict(reference="20", tick_size="0.01", auctions=["opening"])
    found = audit_instruments(folder / "day.csv", by, **terms)
    return dict(zip(found["instrument"], found["verdict"]))


@pytest.mark.parametrize("has_times", [True, False])
def test_the_end_of_a_file_of_days_cuts_the_last_day_alone(has_times: bool, tmp_path: Path) -> None:
    """Times have no date: those of the next day fall behind those of the last auction."""
    days = ("03-02", "03-03", "03-04")
    own = HELD if has_times else [re.sub(r"0\d:\d\d:00", "", line) for line in HELD]
    for lost in days:
        lines = [(day, line) for day in days for line in own[: len(own) - (day == lost)]]
        wanted = dict.fromkeys(days, "lawful")
        wanted[lost] = "incomplete" if lost == days[-1] else "unlawful"
        assert words_by("day", lines, tmp_path) == wanted


def test_the_end_of_a_file_may_cut_each_instrument_of_its_last_day(tmp_path: Path) -> None:
    """Between each other by their times, on both days."""
    one, other = [[(it, line) for line in HELD] for it in ("A", "B")]
    day = [each for pair in zip(one, other) for each in pair][:-2]
    lines = [(f"{date},{name}", line) for date in ("03-02", "03-03") for name, line in day]
    found = words_by("date,isin", lines, tmp_path)
    assert found == {"03-02,A": "unlawful", "03-02,B": "unlawful",
                     "03-03,A": "incomplete", "03-03,B": "incomplete"}  # fmt: skip


def test_an_extra_trade_at_the_end_of_a_file_is_certain(tmp_path: Path) -> None:
    rows = base_rows()
    rows[-1]["quantity"] = str(int(rows[-1]["quantity"]) + 1)
    assert read_file(text_of(rows), base_day(), tmp_path).word == "unlawful"

"""The report of a day, and the command line. checks/report opens reports in a browser."""
import hashlib
import re
import subprocess
import sys
from pathlib import Path

import pytest
from callauction import finder, pages, report
from callauction.__main__ import main, watched
from callauction.program import Day
from callauction.tables import read_journal
from days import EXAMPLES, day_of, options_of, wide_day
from printed import TOP
from small_days import ADLER_AND_BIRK

CHANGED = TOP / "examples/audits/changed.csv"
CONVERSION = ["--tick-size", "0.01", "--reference", "19.90"]


def words_of(file: Path) -> list[str]:
    return [word for name, value in options_of(file).items() for word in (f"--{name}", str(value))]


def sections(text: str) -> list[str]:
    return re.findall(r'<h2 id="part-\d+">([^<]*)</h2>', text)


@pytest.mark.parametrize("file", EXAMPLES, ids=[file.stem for file in EXAMPLES])
def test_a_report_has_each_part(file: Path) -> None:
    text = report.html_of(day_of(file))
    heads = sections(text)
    assert heads[0] == "Result"
    assert heads[-4:] == ["Members", "Orders", "Refused commands", "Config"]
    commands = [re.search(r"command (\d+)", head)[1] for head in heads[1:-4]]  # type: ignore[index]
    books = day_of(file).printed("book").splitlines()[1:]
    assert commands == [*dict.fromkeys(line.split(",")[0] for line in books)]
    assert text.count("<img ") == 1 + len(commands) == text.count("data:image/svg+xml;base64,")
    assert "<script" not in text and "http" not in text


def test_the_audit_of_a_journal_comes_first() -> None:
    text = report.html_of(Day.read(CHANGED))
    assert sections(text)[:2] == ["Audit", "Result"]
    assert "<span>4 replies that aren&#x27;t lawful<" in text
    assert "<strong>not legal</strong>: of 8 entries 8 have a recorded reply, and 4 of" in text
    assert "entered 66" in text


def test_refused_commands_are_told() -> None:
    text = report.html_of(day_of(next(file for file in EXAMPLES if file.stem == "refusals")))
    for number in (1, 2, 3, 5, 6, 7, 8):
        assert f"refused {number} " in text


def test_texts_are_escaped() -> None:
    day = Day(b"day,1,9,5,4,9,9,\n1,ask,<b>&\n")
    text = report.html_of(day, "<i>day</i>")
    assert "&lt;b&gt;&amp;" in text and "<b>" not in text and "<i>" not in text


def test_a_long_book_is_shown_near_its_price() -> None:
    text = report.html_of(wide_day())
    [table] = re.findall(r'<table id="book-65537">.*?</table>', text, re.S)
    assert table.count("<tr") == pages.MOST_ROWS + 1 and 'class="price"' in table
    caption = "Book of 65,536 limits: limits in ticks, quantities in shares; the 300 rows nearest"
    assert caption in table and re.search(r"<td>\d{3},\d{3}</td>", table)
    assert len(text) < 3_000_000


def table(text: str, name: str) -> list[list[str]]:
    """The rows of a table, its caption being the first one."""
    [found] = re.findall(rf'<table id="{name}">.*?</table>', text, re.S)
    rows = re.findall(r"<tr.*?</tr>", found)
    cells = [re.findall(r"<t[hd][^>]*>(.*?)</t[hd]>", row) for row in rows]
    [caption] = re.findall(r"<caption><span>(.*?)</span></caption>", found)
    return [[re.sub(r"<.*?>", "", caption)], *cells]


def test_members_and_orders_are_listed() -> None:
    text = report.html_of(day_of(next(file for file in EXAMPLES if file.stem == "day")))
    caption, _, *rows = table(text, "members")
    assert caption[0].startswith("2 members: shares entered, bought and sold")
    assert rows == [["1", "2", "130", "120", "0", "400"], ["2", "2", "120", "0", "120", "0"]]
    caption, head, *rows = table(text, "orders")
    assert caption[0].startswith("4 orders: ") and head[-1] == "became"
    assert rows[2] == ["3", "1", "bid", "30", "market", "20", "10", "left"]
    caption, _, *rows = table(text, "uncrosses")
    assert caption[0].startswith("3 uncrosses: ") and len(rows) == 3
    assert table(text, "trades-3")[0][0].startswith("1 trade: ")
    assert table(text, "refused")[0][0].startswith("1 refused command")


def test_thousands_are_parted() -> None:
    text = report.html_of(Day(b"1,enter,bid,1234567,200\n2,enter,ask,2000,200\n0,uncross\n"))
    assert table(text, "book-3")[-1][1:5] == ["1,234,567", "2,000", "1,234,567", "2,000"]
    assert table(text, "trades-3")[-1][-2:] == ["2,000", "200"]
    assert table(text, "orders")[2][3:] == ["1,234,567", "200", "2,000", "1,232,567", "open"]
    assert ["commands that may come", "65,536"] in table(text, "config")


def test_a_wide_table_says_that_it_scrolls() -> None:
    text = report.html_of(day_of(next(file for file in EXAMPLES if file.stem == "day")))
    assert pages.SCROLLS in table(text, "book-3")[0][0]
    assert pages.SCROLLS not in table(text, "config")[0][0]
    assert ".wide .hint { display: inline; }" in pages.LOOK


def test_values_have_a_section() -> None:
    day = day_of(next(file for file in EXAMPLES if file.stem == "day"))
    text = report.html_of(day, values={3: 208, 4: 204})
    assert sections(text)[-3:] == ["Gains", "Refused commands", "Config"]
    assert "gain 480 of 480 possible, efficiency 100.0%" in text
    assert table(text, "gains")[2:] == [["1", "120", "0", "440"], ["2", "0", "120", "40"]]


# ---- the command line


def test_a_report_is_written(tmp_path: Path) -> None:
    file = next(file for file in EXAMPLES if file.stem == "interruption")
    assert main(["report", str(file), *words_of(file), "-o", str(tmp_path / "day.html")]) == 0
    written = (tmp_path / "day.html").read_text(encoding="utf-8")
    whole = report.html_of(day_of(file), "interruption.csv")
    assert sections(written) == [*sections(whole), "Evidence"]
    assert hashlib.sha256(file.read_bytes()).hexdigest() in written
    assert written.split("<main>")[1].startswith(whole.split("<main>")[1].split("</main>")[0])


def test_values_and_a_tick_size_are_read(
    tmp_path: Path, capsys: pytest.CaptureFixture[str]
) -> None:
    file = next(file for file in EXAMPLES if file.stem == "day")
    values, page = tmp_path / "values.csv", tmp_path / "day.html"
    values.write_text("order,value\n3,208\n4,204.5\n", encoding="utf-8")
    words = ["report", str(file), "--worth", str(values), "--tick-size", "0.01", "-o", str(page)]
    assert main(words) == 0
    assert "gain 470 of 470 possible" in page.read_text(encoding="utf-8")
    values.write_text("id,value\n3,208\n", encoding="utf-8")
    assert main(words) == 2
    assert capsys.readouterr().err == "callauction: worth: the columns are order and value\n"


@pytest.mark.parametrize("words", [
    [], ["--command", "3"], ["--course"], ["--course", "--tick-size", "0.05"],
    ["--allocation", "--command", "8"],
])
def test_a_picture_is_written(tmp_path: Path, words: list[str]) -> None:
    file = next(file for file in EXAMPLES if file.stem == "interruption")
    for name in ("day.svg", "day.png"):
        command = ["plot", str(file), *words_of(file), *words, "-o", str(tmp_path / name)]
        assert main(command) == 0 and (tmp_path / name).stat().st_size > 5_000


AUDITED = [
    *CHANGED.with_suffix(".txt").read_text(encoding="utf-8").splitlines()[:4],
    "findings 4",
    "replies 8 of 8",
    "auctions 1 of 3",
    "unlawful",
]
"""What is printed of CHANGED: the program's findings, and how much was compared."""


def test_an_audit_has_the_findings_of_the_program(capsys: pytest.CaptureFixture[str]) -> None:
    assert main(["audit", str(CHANGED)]) == 4
    assert capsys.readouterr().out.splitlines() == AUDITED
    assert main(["audit", str(TOP / "examples/forms/day.journal.csv")]) == 0


def test_events_are_converted_and_audited(
    tmp_path: Path, capsys: pytest.CaptureFixture[str]
) -> None:
    events, day, orders = tmp_path / "e.csv", tmp_path / "day.csv", tmp_path / "orders.csv"
    ADLER_AND_BIRK.replace({True: "true"}).to_csv(events, index=False)
    command = ["convert", str(events), *CONVERSION, "-o", str(day), "--orders", str(orders)]
    assert main(command) == 0
    assert read_journal(day)["reply"].tolist()[-1] == "trade 1 2 150 at 2002"
    assert orders.read_text(encoding="utf-8").splitlines()[1] == "1,A17,Adler,1,2"
    audit = ["audit", str(events), *CONVERSION, "--auctions", "opening"]
    assert main(audit) == 5
    out = capsys.readouterr().out.splitlines()
    assert out == ["findings 0", "prices 1 of 1", "volumes 1 of 1", "surpluses 1 of 1",
                   "sides 1 of 1", "auctions 0 of 1", "counts 0 of 1", "trades 1 of 1",
                   "incomplete"]
    events.write_text(re.sub(r"(uncross.*20)\.02", r"\1.01", events.read_text(encoding="utf-8")))
    assert main(audit) == 4
    out = capsys.readouterr().out.splitlines()
    assert out[0].startswith("row 7, 9:00:00, opening: price: recorded 20.01, lawful 20.02: ")
    assert out[1] == "findings 1" and out[-1] == "unlawful"


def test_an_extract_is_converted_as_it_comes(tmp_path: Path) -> None:
    """The German extract, and a cancel of a part of an order."""
    file, day = TOP / "examples/extracts/german.csv", tmp_path / "day.csv"
    words = file.with_suffix(".args").read_text(encoding="utf-8").split()
    del words[words.index("--auctions") : words.index("--auctions") + 2]
    part = tmp_path / "part.csv"
    lines = file.read_text(encoding="utf-8").splitlines()
    lines.insert(6, "CANCEL;E2;Ehrl;;;100;08:51:40,000;;;;;")
    part.write_text("".join(f"{line}\n" for line in lines), encoding="utf-8")
    assert main(["convert", str(part), *words, "-o", str(day)]) == 0
    assert day.read_text(encoding="utf-8").splitlines()[1:] == [
        "1,enter,bid,1200,2002,",
        "2,enter,bid,1000,2002,",
        "3,enter,ask,1000,market,",
        "4,enter,ask,500,2003,",
        "5,enter,bid,300,2000,",
        "5,change,5,200,2000,",
        "1,change,1,1000,2002,",
        "4,delete,4,deleted",
        "0,uncross,opening price 2002 volume 1000 surplus 1000 bid trades 1",
        "0,trade,1,trade 2 3 1000 at 2002",
    ]


@pytest.mark.parametrize("words, status, text", [
    (["report", "none.csv", "-o", "x"], 3, "No such file or directory"),
    (["report", str(EXAMPLES[0]), "-o", "x.CSV"], 2, "x.CSV: a report is HTML: name it so"),
    (["report", str(EXAMPLES[0]), "--low", "5", "--high", "2", "-o", "x"], 2,
     "callauction: bad bounds / low 5 is above high 2\n"),
    (["report", str(EXAMPLES[0]), "--high", "9", "-o", "x"], 2,
     "the reference 200 is outside 1 to 9"),
    (["report", str(CHANGED) + ".x", "-o", "x"], 3, "No such file"),
    (["audit", str(EXAMPLES[0])], 1, "record 1: not a day record"),
    (["plot", str(EXAMPLES[0]), "--command", "1", "-o", "x.svg"], 2, "no book before command 1"),
    (["convert", str(EXAMPLES[0]), *CONVERSION, "-o", "x"], 1, "unknown column"),
    (["convert", str(TOP / "docs/AUDIT.md"), "--tick-size", "0", "--reference", "1", "-o", "x"], 1,
     "has no names of columns: take out what is above these"),
    (["report", str(EXAMPLES[0]), "--low", "y", "-o", "x"], 2, "invalid literal"),
])
def test_faults_are_one_line(
    words: list[str], status: int, text: str, capsys: pytest.CaptureFixture[str], tmp_path: Path,
    monkeypatch: pytest.MonkeyPatch,
) -> None:
    monkeypatch.chdir(tmp_path)
    assert main(words) == status
    printed = capsys.readouterr()
    assert text in printed.err and printed.err.count("\n") == 1 and not printed.out
    assert not [*tmp_path.iterdir()]


@pytest.mark.parametrize("words", [
    [], ["paint"], ["report"], ["report", "x", "--open", "y", "-o", "z"]
])
def test_bad_command_lines_are_one_line(
    words: list[str], capsys: pytest.CaptureFixture[str]
) -> None:
    with pytest.raises(SystemExit) as ended:
        main(words)
    assert ended.value.code == 2
    assert capsys.readouterr().err.count("\n") == 1


@pytest.mark.parametrize("name", ["", "report", "audit", "plot", "convert"])
def test_help_is_printed(name: str, capsys: pytest.CaptureFixture[str]) -> None:
    with pytest.raises(SystemExit) as ended:
        main([*filter(None, [name]), "--help"])
    assert ended.value.code == 0
    assert capsys.readouterr().out.startswith("usage: callauction")


def test_a_missing_program_is_told(
    monkeypatch: pytest.MonkeyPatch, capsys: pytest.CaptureFixture[str]
) -> None:
    monkeypatch.setenv(finder.VARIABLE, "/none")
    assert main(["audit", str(CHANGED)]) == 3
    assert capsys.readouterr().err == "callauction: CALLBOARD names no program: /none\n"


def test_it_runs_as_a_module_and_reads_standard_input(tmp_path: Path) -> None:
    ran = subprocess.run(
        [sys.executable, "-m", "callauction", "audit", "-"],
        input=CHANGED.read_bytes(),
        capture_output=True,
        cwd=tmp_path,
    )
    assert ran.returncode == 4 and not ran.stderr
    assert ran.stdout.decode("ascii").splitlines() == AUDITED


@pytest.mark.parametrize("seconds, is_terminal", [(2, True), (0, True), (0, False)])
def test_only_long_work_shows_a_bar_on_a_terminal(
    seconds: int,
    is_terminal: bool,
    capsys: pytest.CaptureFixture[str],
    monkeypatch: pytest.MonkeyPatch,
) -> None:
    monkeypatch.setattr("callauction.__main__.SECONDS", seconds)
    monkeypatch.setattr("sys.stderr.isatty", lambda: is_terminal)
    assert sum(watched(range(1000))) == 499_500
    assert bool(capsys.readouterr().err) == (is_terminal and not seconds)

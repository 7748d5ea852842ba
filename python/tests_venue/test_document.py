"""What docs/VENUE.md shows: its day is one, its robot trades, its pictures are there."""
import pathlib
import re
import subprocess
import sys
import time

import served
from callauction.venue import Client, downloads, operator_words
from callauction.venue.config import DayTerms
from callauction.venue.instrument_board import BoardIdentity, InstrumentBoard, VenueResources
from callauction.venue.log import Log
from callauction.venue.members import Members
from served import Served

DOCUMENT = served.PACKAGE.parent / "docs/VENUE.md"


def blocks() -> list[str]:
    """The indented blocks of the document, without their indent."""
    text = DOCUMENT.read_text("utf-8")
    found = re.findall(r"(?:^    .*\n|^\n(?=    ))+", text, re.M)
    return [re.sub(r"^    ", "", block, flags=re.M).strip() for block in found]


def test_the_day_with_all_keys(tmp_path: pathlib.Path) -> None:
    path = served.PACKAGE / "callauction/venue/day.toml"
    assert DayTerms.read(path) == DayTerms()
    text = path.read_text("utf-8").replace('# range = "0.50"', 'range = "0.50" ')
    (tmp_path / "day.toml").write_text(text, encoding="utf-8")
    assert DayTerms.read(tmp_path / "day.toml").instruments[0].range == 50


def test_the_robot_of_the_document_trades_over_a_day(venue: Served) -> None:
    [command] = [block for block in blocks() if "robot.py" in block]
    path = DOCUMENT.parents[1] / command.split()[2]
    assert len(path.read_text("utf-8").splitlines()) <= 20
    words = [sys.executable, str(path), venue.url, venue.code, "Robby"]
    with subprocess.Popen(
        words, env=served.environment(), stdout=subprocess.PIPE, text=True
    ) as child:
        assert child.stdout is not None
        with Client(venue.url, venue.join("Anna")) as me:
            for auction, reply in (("opening", "entered 1"), ("intraday", "entered 3"),
                                   ("closing", "entered 4")):
                venue.do("start")
                assert child.stdout.readline() == f"{auction} {reply}\n"
                if auction == "opening":
                    me.enter("ask", 60, "1.50")
                venue.do("uncross")
        assert "'quantity': 60, 'price': '2.00'" in child.stdout.read()
        assert child.wait(20) == 0


def test_all_words_of_the_operator_are_there() -> None:
    """Each once in the first column of the table."""
    text = DOCUMENT.read_text("utf-8").partition("| WORD |")[2].partition("\n\n")[0]
    first = (row.split("|")[1] for row in text.splitlines()[2:])
    words = [word for cell in first for word in re.findall(r"\w+", cell)]
    acts = {*operator_words.STEPS, *operator_words.ACTS, "uncross", "extend"}
    assert sorted(words) == sorted(acts)


def test_all_downloads_are_there(venue: Served) -> None:
    """Each once in the first column of the table, in German, and of a round that is over."""
    text = DOCUMENT.read_text("utf-8").partition("| FILE |")[2].partition("\n\n")[0]
    first = (row.split("|")[1] for row in text.splitlines()[2:])
    files = [word for cell in first for word in re.findall(r"\w+", cell)]
    assert sorted(files) == sorted(downloads.DOWNLOADS)
    token = venue.join("Anna")
    venue.do("start")
    with Client(venue.url, token) as me:
        me.enter("bid", 1, "2.00")
    venue.do("uncross")
    venue.do("next", round=2)
    found = {}
    for file in files:
        path = f"api/download/{file}/XYZ?language=de&round=1"
        status, found[file] = venue.call(path, token=venue.operator)
        assert status == 200, (file, found[file])
    assert found["members"] == "\ufeffNummer;Name\n1;Anna\n"
    assert "\n1,enter,bid,1,200," in found["journal"]
    assert found["results"].startswith("\ufeffRunde;")
    assert found["trades"].startswith("\ufeffRunde;") and "<html lang=\"de\"" in found["report"]


def downloads_named() -> dict[str, str]:
    """What the document says of how each download is saved, by its name."""
    table = DOCUMENT.read_text("utf-8").partition("| FILE |")[2].partition("\n\n")[0]
    rows = [row.split("|") for row in table.splitlines()[2:]]
    return {file: row[3] for row in rows for file in re.findall(r"\w+", row[1])}


def test_the_files_of_downloads_are_named(tmp_path: pathlib.Path) -> None:
    """As they are saved, in English."""
    day, kept = DayTerms(), Log(tmp_path / "venue.log")
    resources = VenueResources(day, tmp_path, "none", kept)
    board = InstrumentBoard(BoardIdentity("XYZ"), day.instruments[0], day.rounds[0], resources)
    began = time.mktime((2026, 11, 30, 9, 0, 0, 0, 0, -1))
    lesson = downloads.Lesson(day, [], Members(day.members, kept), "none", began)
    for file, form in downloads_named().items():
        name = re.findall("`(.+?)`", form)[0].replace("TITLE-DATE", "Call-auction-2026-11-30")
        ends = "html" if f"{file} `.html`" in form else "csv"
        name = name.replace("FILE.csv", f"{file}.{ends}")
        assert downloads.file_of(file, lesson, board, "en") == name


def test_the_buttons_of_downloads_are_named() -> None:
    """Each has the word of its file, or the document has its name beside that."""
    pages = served.PACKAGE / "callauction/venue/pages"
    page, texts = (pages / "teacher.html").read_text(), (pages / "texts.js").read_text()
    buttons = re.findall(r'data-get="(\w+)" data-text="(\w+)"', page)
    assert {file for file, _ in buttons} == {*downloads_named()}
    for file, key in buttons:
        label = re.findall(rf'\b{key}: "([^"]+)"', texts)[0]
        is_named = f"({label}: `{file}`)" in DOCUMENT.read_text("utf-8")
        assert file in label.lower() or is_named, label


def test_the_pictures() -> None:
    named = re.findall(r"!\[[^]]+\]\(([^)]+)\)", DOCUMENT.read_text("utf-8"))
    assert len(named) == 4
    for name in named:
        assert (DOCUMENT.parent / name).read_bytes().startswith(b"\x89PNG")

"""What the operator takes home, round by round, with names and money."""
import asyncio
import contextlib
import csv
import errno
import io
import json
import pathlib
import re
import subprocess
import sys
import tempfile
import time
import urllib.error
import urllib.parse
import urllib.request
from concurrent.futures import ThreadPoolExecutor
from typing import Any

import pandas
import psutil
import pytest
import served
from callauction.pages import html_table
from callauction.venue import Client, VenueError, config, copies, downloads, log, report
from callauction.venue.instrument_board import BoardIdentity, InstrumentBoard, VenueResources
from callauction.venue.members import Members
from conftest import FAST
from patience import until
from rounds import download, sees, trade
from served import Served

DAY = FAST + """
[payoff]
base = "5"
rate = "0.5"
currency = "CHF"
[[round]]
title = "Try it"
practice = true
[[round]]
"""
VALUES = [{"member": "=Anna", "side": "bid", "price": "3.00", "quantity": 20},
          {"member": "Bert", "side": "ask", "price": "1.50", "quantity": 10}]


def rows(text: str) -> list[dict[str, str]]:
    """The rows of a CSV file."""
    return [*csv.DictReader(io.StringIO(text))]


def lesson(venue: Served) -> None:
    """Two rounds of two members, and somebody who does nothing."""
    anna, bert = venue.join("=Anna"), venue.join("Bert")
    venue.join("Carl")
    venue.do("give", values=VALUES)
    trade(venue, anna, bert, "2.00")
    venue.do("next", round=2)
    trade(venue, anna, bert, "2.50")


def test_the_efficiency_where_each_has_five_shares_to_sell(tmp_path: pathlib.Path) -> None:
    """Of the most that five shares allow, 12.00: two to Carl, worth 3.00 each, three to Anna; and
    a share that Carl sells, whose value is to buy, costs 10.00.
    """
    with served.served(tmp_path, FAST) as venue:
        tokens = [venue.join(name) for name in ("Anna", "Bert", "Carl")]
        file = "name,side,price,quantity\nAnna,bid,3,10\nBert,ask,1,10\nCarl,bid,4,2\n"
        limited = {"values": "list", "file": file, "shares": 5}
        venue.do("next", round=2, treatment=limited)
        for seller, quantity, gains in ((1, 5, "0.8333"), (2, 1, "0.2500")):
            venue.do("start")
            with Client(venue.url, tokens[seller]) as it, Client(venue.url, tokens[0]) as anna:
                with pytest.raises(VenueError, match="at most 5 shares more"):
                    it.enter("ask", 6, "2.00")
                anna.enter("bid", quantity, "2.00")
                it.enter("ask", quantity, "2.00")
                venue.do("uncross")
                until(lambda: gains in download(venue, "results"))
        found = [it for it in rows(download(venue, "results")) if it["round"] == "2"]
        assert {(it["possible"], it["efficiency"]) for it in found} == {("12.00", "0.2500")}
        assert [it["gain"] for it in found] == ["6.00", "5.00", "-8.00"]


def test_no_results_of_an_earlier_end_stay(tmp_path: pathlib.Path) -> None:
    """A day that goes on has none until it ends again; neither has a copy."""
    folder, copy = tmp_path / "venue", tmp_path / "copy"
    files = [folder / "results.csv", folder / "XYZ.members.csv"]
    with served.served(tmp_path, DAY) as venue:
        anna, bert = venue.join("Anna"), venue.join("Bert")
        trade(venue, anna, bert, "2.00")
    before = [it.read_text("utf-8-sig") for it in files]
    copies.backup(folder, copy)
    assert not any((copy / it.name).exists() for it in files)
    with served.served(tmp_path, DAY) as venue:
        assert not any(it.exists() for it in files)
        trade(venue, anna, venue.join("Carl"), "2.50")
        until(lambda: ",20,45.00," in download(venue, "results"))
        results = download(venue, "results")
    after = [it.read_text("utf-8-sig") for it in files]
    assert after[0] == results and after[0] != before[0] and after[1] != before[1]


def test_results_that_cant_be_written(tmp_path: pathlib.Path) -> None:
    """The end says which, and isn't one without a fault; the others are there."""
    folder = tmp_path / "venue"
    with served.served(tmp_path, DAY) as venue:
        anna, bert = venue.join("Anna"), venue.join("Bert")
        trade(venue, anna, bert, "2.00")
        (folder / "results.csv").mkdir()
        venue.child.terminate()
        _, error = venue.child.communicate(timeout=served.SECONDS)
    why = f"venue: {folder}/results.csv: Is a directory: move it away\n"
    assert (venue.child.returncode, error) == (3, why)
    assert (folder / "XYZ.members.csv").read_text() == "number,name\n1,Anna\n2,Bert\n"


def test_the_results(tmp_path: pathlib.Path) -> None:
    with served.served(tmp_path, DAY) as venue:
        lesson(venue)
        found = rows(download(venue, "results"))
        text = download(venue, "results")
    assert (tmp_path / "venue/results.csv").read_text("utf-8") == "\ufeff" + text
    assert [(it["round"], it["name"]) for it in found] == [
        *(("1", "'=Anna"), ("1", "Bert"), ("1", "Carl")),
        *(("2", "'=Anna"), ("2", "Bert"), ("2", "Carl")),
        *(("all", "Bert"), ("all", "'=Anna"), ("all", "Carl")),
    ]
    anna = found[3]
    assert anna == {
        "round": "2", "title": "", "practice": "no", "instrument": "XYZ", "name": "'=Anna",
        "robot": "", "side": "bid", "value": "3.00", "quantity": "20", "bought": "10",
        "paid": "25.00", "sold": "0", "received": "0.00", "gain": "5.00", "possible": "15.00",
        "efficiency": "1.0000", "payoff": "2.500", "removed": "no",
    }
    assert (found[0]["practice"], found[0]["title"], found[0]["payoff"]) == ("yes", "Try it", "")
    assert (found[5]["side"], found[5]["gain"]) == ("", "0.00")
    assert [(it["gain"], it["payoff"]) for it in found[-3:]] == [
        ("10.00", "10.00"), ("5.00", "7.50"), ("0.00", "5.00")
    ]


def test_who_was_removed_keeps_what_it_came_to(tmp_path: pathlib.Path) -> None:
    """Anna gains 10 in practice and 5 in the round that counts, Bert 5 and 10 of the 15 that are
    possible: that Bert is removed then changes none of it. Dora did nothing, and has no row.
    """
    with served.served(tmp_path, DAY) as venue:
        lesson(venue)
        venue.join("Dora")
        venue.do("remove", members=["Bert", "Dora"])
        venue.do("payoffs", shows="ranking")
        found, trades = rows(download(venue, "results")), rows(download(venue, "trades"))
        german = spreadsheet(venue, "results", "de").splitlines()
        report = download(venue, "report")
        shown = sees(venue, "ranking")
    assert [(it["round"], it["name"], it["gain"], it["payoff"], it["removed"]) for it in found] == [
        ("1", "'=Anna", "10.00", "", "no"), ("1", "Bert", "5.00", "", "yes"),
        ("1", "Carl", "0.00", "", "no"),
        ("2", "'=Anna", "5.00", "2.500", "no"), ("2", "Bert", "10.00", "5.000", "yes"),
        ("2", "Carl", "0.00", "0.000", "no"),
        ("all", "Bert", "10.00", "10.00", "yes"), ("all", "'=Anna", "5.00", "7.50", "no"),
        ("all", "Carl", "0.00", "5.00", "no"),
    ]
    assert {it["efficiency"] for it in found if it["round"] != "all"} == {"1.0000"}
    assert [(it["buyer"], it["seller"]) for it in trades] == [("'=Anna", "Bert")] * 2
    assert "alle;;;;Bert;;;;;;;;;10,00;;;10,00;ja" in german
    assert report.count(">Bert (removed)</") == 3 and ">Carl</" in report
    assert [(it["rank"], it["name"]) for it in shown["rows"]] == [(1, "=Anna"), (2, "Carl")]


def test_the_trades(tmp_path: pathlib.Path) -> None:
    with served.served(tmp_path, DAY) as venue:
        lesson(venue)
        text = download(venue, "trades")
    assert text == (
        "round,instrument,auction,trade,buyer,seller,quantity,price,amount\n"
        "1,XYZ,opening,1,'=Anna,Bert,10,2.00,20.00\n"
        "2,XYZ,opening,1,'=Anna,Bert,10,2.50,25.00\n"
    )


def test_the_report(tmp_path: pathlib.Path) -> None:
    """As docs/VENUE.md starts the venue: by the folder python, without a built library."""
    with served.served(tmp_path, DAY) as venue:
        lesson(venue)
        text = download(venue, "report")
    heads = re.findall(r"<h2[^>]*>([^<]+)</h2>", text)
    assert heads == ["Result", "Round 1 · Try it · practice", "Round 2"]
    assert "Opening: price 2.50 EUR, 10 shares" in text
    assert text.count("The record of 3 entries is legal.") == 2
    assert text.count("Efficiency: 100 % of the greatest possible gain, 15.00 EUR") == 2
    assert text.count("<img ") == 2
    for cell in ("&#x27;=Anna", "Bert", "25.00", "7.50"):
        assert f">{cell}</" in text


def test_a_report_of_a_day_without_auctions(venue: Served) -> None:
    assert "<h2" not in download(venue, "report")
    venue.join("Anna")
    venue.do("start")
    venue.do("uncross")
    assert "<img" not in download(venue, "report")
    assert rows(download(venue, "trades")) == []


def spreadsheet(venue: Served, kind: str, language: str) -> str:
    """A download for a spreadsheet, with the mark of UTF-8 at its beginning."""
    path = f"api/download/{kind}/XYZ?language={language}"
    return str(venue.call(path, token=venue.operator)[1])


def test_tables_for_a_german_spreadsheet(tmp_path: pathlib.Path) -> None:
    """As a German spreadsheet reads numbers: 2,50 and no 2.50, which it takes for a date."""
    with served.served(tmp_path, DAY) as venue:
        lesson(venue)
        trades, members = (spreadsheet(venue, it, "de") for it in ("trades", "members"))
        results = spreadsheet(venue, "results", "de")
        refused = venue.call("api/download/trades/XYZ?language=fr", token=venue.operator)
    assert trades == (
        "\ufeffRunde;Wertpapier;Auktion;Abschluss;Käufer;Verkäufer;Menge;Preis;Betrag\n"
        "1;XYZ;Eröffnung;1;'=Anna;Bert;10;2,00;20,00\n"
        "2;XYZ;Eröffnung;1;'=Anna;Bert;10;2,50;25,00\n"
    )
    assert members == "\ufeffNummer;Name\n1;'=Anna\n2;Bert\n"
    head, first, *others = results.splitlines()
    assert head == (
        "\ufeffRunde;Titel;Übung;Wertpapier;Name;Roboter;Seite;Wert;Menge;gekauft;bezahlt;verkauft;"
        "erhalten;Gewinn;möglicher Gewinn;Effizienz;Auszahlung;entfernt"
    )
    assert first == "1;Try it;ja;XYZ;'=Anna;;Kauf;3,00;20;10;20,00;0;0,00;10,00;15,00;1,0000;;nein"
    assert others[-1] == "alle;;;;Carl;;;;;;;;;0,00;;;5,00;nein"
    assert refused[0] == 400


def test_tables_for_an_english_spreadsheet(tmp_path: pathlib.Path) -> None:
    """They are those for programs, with the mark by which Excel knows UTF-8."""
    with served.served(tmp_path, DAY) as venue:
        lesson(venue)
        for kind in ("trades", "members", "results"):
            assert spreadsheet(venue, kind, "en") == "\ufeff" + download(venue, kind)


@pytest.mark.parametrize("kind, language, wanted", [
    ("results", "", "Märkte-1-Stunde-2-{}-results.csv"),
    ("results", "de", "Märkte-1-Stunde-2-{}-Ergebnisse.csv"),
    ("trades", "de", "Märkte-1-Stunde-2-{}-Abschlüsse.csv"),
    ("report", "en", "Märkte-1-Stunde-2-{}-report.html"),
    ("journal", "de", "Märkte-1-Stunde-2-{}-XYZ-journal.csv"),
    ("members", "de", "Märkte-1-Stunde-2-{}-XYZ-Namen.csv"),
])
def test_the_name_of_a_file(
    tmp_path: pathlib.Path, kind: str, language: str, wanted: str
) -> None:
    """It has the lesson and its day, and no letter that a file system doesn't take."""
    day = config.DayTerms(title=' Märkte 1: "Stunde/2" ')
    terms, began = day.instruments[0], 1_764_288_000.0
    kept = log.Log(tmp_path / "venue.log")
    resources = VenueResources(day, tmp_path, "none", kept)
    board = InstrumentBoard(BoardIdentity("XYZ"), terms, day.rounds[0], resources)
    lesson = downloads.Lesson(day, [], Members(day.members, kept), "none", began)
    name = downloads.file_of(kind, lesson, board, language)
    assert name == wanted.format(time.strftime("%Y-%m-%d", time.localtime(began)))
    head = downloads.disposition(name)
    head.encode("ascii")
    assert urllib.parse.unquote(head.partition("UTF-8''")[2]) == name
    assert re.search(r'filename="([^"]+)"', head)[1] == re.sub("[äü]", "_", name)  # type: ignore


def test_the_download_has_that_name(venue: Served) -> None:
    path = f"{venue.url}api/download/results/XYZ"
    asked = urllib.request.Request(path, headers={"Authorization": f"Bearer {venue.operator}"})
    with urllib.request.urlopen(asked, timeout=served.SECONDS) as answer:
        name = answer.headers["Content-Disposition"]
    assert re.search(r"UTF-8''Call-auction-\d{4}-\d\d-\d\d-results\.csv$", name)


def test_a_long_table_in_german() -> None:
    page = html_table(pandas.DataFrame({"Menge": range(12_345)}), "Abschlüsse", "trades")
    assert "(the first 300 of 12,345)" in page
    found = report.in_german(page)
    assert found.count("Abschlüsse (die ersten 300 von 12.345)") == 2 and "the first" not in found


def test_the_report_in_german(tmp_path: pathlib.Path) -> None:
    """Its sentences, its tables and its pictures; what is of no language stays."""
    with served.served(tmp_path, DAY) as venue:
        lesson(venue)
        text = str(spreadsheet(venue, "report", "de"))
    assert text.count('<html lang="de">') == 1
    heads = re.findall(r"<h2[^>]*>([^<]+)</h2>", text)
    assert heads == ["Ergebnis", "Runde 1 · Try it · Übung", "Runde 2"]
    for words in (
        "<h3>Eröffnung: Preis 2,50 EUR, 10 Stück</h3>",
        "Effizienz: 100 % des größten möglichen Gewinns, 15,00 EUR.",
        "<li>Nur Limits von Orders kommen infrage: 2,50.</li>",
        "<li>Limit 2,50 führt am meisten aus: 10.</li>",
        '<th scope="col">Auszahlung</th>',
        "<td>7,50</td>",
        'alt="Nachfrage und Angebot. Die Nachfrage bei 2,50,',
    ):
        assert words in text, words
    assert text.count("Die Aufzeichnung von 3 Einträgen ist regelgemäß.") == 2
    plain = re.sub(r"<style>.*?</style>|base64,[^\"]*", "", text, flags=re.DOTALL)
    assert not re.search(r"\b(the|price|limit|gain|shares|reference|buyer)\b", plain)
    assert not re.search(r"\d\.\d", plain)


def test_a_report_runs_nothing_of_the_folder_in_which_the_venue_began(
    tmp_path: pathlib.Path,
) -> None:
    trap = tmp_path / "trap"
    trap.mkdir()
    (trap / "pandas.py").write_text("open('sprung', 'w')")
    words = [sys.executable, "-P", *served.words_of("--folder", tmp_path / "venue")[1:]]
    words += ["--port", str(served.free_port())]
    pipe, environment = subprocess.PIPE, served.environment()
    with subprocess.Popen(
        words, env=environment, stdout=pipe, stderr=pipe, text=True, cwd=trap
    ) as child:
        try:
            venue = served.begun(child)
            venue.do("start")
            venue.do("uncross")
            assert "<html" in download(venue, "report")
            assert [*trap.iterdir()] == [trap / "pandas.py"]
        finally:
            child.kill()


def is_report(child: psutil.Process) -> bool:
    """Whether a process makes a report."""
    with contextlib.suppress(psutil.Error):
        return "callauction.venue.report" in child.cmdline()
    return False


def test_a_report_whose_process_is_killed(tmp_path: pathlib.Path) -> None:
    """As where memory is short: it may be asked for again, and operations read why."""
    with served.served(tmp_path, FAST) as venue, ThreadPoolExecutor() as pool:
        why = "it can't be made now, as its process was ended by signal 9: try again"
        asked = urllib.request.Request(
            f"{venue.url}api/download/report", headers={"Authorization": f"Bearer {venue.operator}"}
        )
        answer = pool.submit(urllib.request.urlopen, asked, timeout=served.SECONDS)
        children = psutil.Process(venue.child.pid).children
        until(lambda: any(map(is_report, children())))
        for child in filter(is_report, children()):
            child.kill()
        with pytest.raises(urllib.error.HTTPError) as found:
            answer.result()
        with found.value as fault:
            assert (fault.code, fault.headers["Retry-After"]) == (503, "3")
            assert json.loads(fault.read()) == {"error": "not_made", "text": why}
        assert "<html" in download(venue, "report")
        venue.child.terminate()
        _, error = venue.child.communicate(timeout=served.SECONDS)
        assert (venue.child.returncode, error) == (0, f"venue: the download of report: {why}\n")


NOT_NOW = {
    "no thread": RuntimeError("can't start new thread"),
    "no process": OSError(errno.EAGAIN, "Resource temporarily unavailable"),
    "no memory": OSError(errno.ENOMEM, "Cannot allocate memory"),
}


@pytest.mark.parametrize("what", NOT_NOW)
def test_a_process_that_cant_be_begun_now(what: str, monkeypatch: pytest.MonkeyPatch) -> None:
    async def fail(*words: object, **more: object) -> None:
        raise NOT_NOW[what]

    monkeypatch.setattr(asyncio, "create_subprocess_exec", fail)
    with pytest.raises(downloads.NotNowError, match="now, as memory is short: try again"):
        asyncio.run(downloads.printed_bytes(["true"], b""))


MEMORY, SIGNAL = "memory is short", "its process was ended by signal 9"


@pytest.mark.parametrize("last, why", [
    ("MemoryError", MEMORY),
    ("numpy._ArrayMemoryError: Unable to allocate 8 GiB", MEMORY),
    ("out of memory", MEMORY),
    ("callauction.program.FailedError: out of memory", MEMORY),
    ("callauction.program.FailedError: callboard can't be run: Cannot allocate memory", MEMORY),
    ("callauction.program.FailedError: callboard ended with status -9", SIGNAL),
    ("callauction.program.FailedError: callboard ended with status 3", ""),
    ("KeyError: 'round'", ""),
])
def test_a_process_that_fails(last: str, why: str) -> None:
    """As memory was short or its program was killed, or by itself."""
    words = [sys.executable, "-c", f"raise SystemExit({'Traceback ..' + chr(10) + last!r})"]
    said = f"it can't be made now, as {why}: try again" if why else last
    with pytest.raises(downloads.DownloadError) as found:
        asyncio.run(downloads.printed_bytes(words, b""))
    assert (str(found.value), isinstance(found.value, downloads.NotNowError)) == (said, bool(why))


def test_a_download_on_a_full_disk(tmp_path: pathlib.Path, monkeypatch: pytest.MonkeyPatch) -> None:
    """It says so, and isn't a fault of the venue."""
    day = config.DayTerms()
    kept = log.Log(tmp_path / "venue.log", False)
    lesson = downloads.Lesson(day, [], Members(day.members, kept), served.program())

    def fail(*words: object, **more: object) -> None:
        raise OSError(errno.ENOSPC, "No space left on device")

    monkeypatch.setattr(tempfile, "TemporaryDirectory", fail)
    board: Any = None
    for kind in ("trades", "report"):
        with pytest.raises(downloads.DownloadError, match="can't be made: No space left on device"):
            asyncio.run(downloads.made(kind, lesson, board))

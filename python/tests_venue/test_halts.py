"""What the teacher's page shows in a halt, and what comes of a resume."""
import pathlib
import time

import pytest
import served
from browsing import SCREEN, Page, joined, opened
from callauction.venue import Client, VenueError
from patience import until
from rounds import sees
from served import Served

DAY = """
sync = false
[phases]
call = 600
[[instrument]]
name = "APPLES"
title = "Apples"
[[instrument]]
name = "PEARS"
title = "Pears"
"""
WHY = "the journal is missing, and the log knows of 1 entries"
HALT = (
    f"Apples has halted: {WHY}. A file isn't as the venue wrote it, and nothing is executed on it. "
    "Put the right one back; then press “Try again”."
)
STEPS = ("start", "end", "freeze", "thaw", "uncross", "resume")


def offs(page: Page) -> set[str]:
    """The steps that the page says can't be taken."""
    return {it for it in STEPS if page.is_off(f"[data-do={it}]")}


def clocks(page: Page) -> set[str]:
    """What the clock shows within some seconds."""
    last, found = time.monotonic() + 2.5, set()
    while time.monotonic() < last:
        found.add(page.text("clock"))
        time.sleep(0.1)
    return found


def test_a_halt_of_one_of_two_instruments(tmp_path: pathlib.Path) -> None:
    """The page names it, why, and what to do; offers what can be done; its countdown stands."""
    with served.served(tmp_path, DAY) as venue:
        token = venue.join("Anna")
        venue.do("start", instrument="APPLES")
        with Client(venue.url, token) as me:
            assert me.enter("bid", 1, "2.00", instrument="APPLES").entry == 1
        journal, other = tmp_path / "venue/APPLES.journal.csv", tmp_path / "moved"
        with opened(tmp_path / "browser", f"{venue.url}teacher#{venue.operator}", SCREEN) as page:
            page.waits(lambda it: it.text("clock") != "")
            assert len(clocks(page)) > 1 and not page.shows("halts")
            journal.rename(other)
            page.waits(lambda it: it.shows("halts"))
            assert page.text("halts") == HALT and "venue has halted" not in page.text("open")
            assert offs(page) == {"start", "thaw", "uncross"}
            page.picture("halt")
            assert len(clocks(page)) == 1
            with Client(venue.url, token) as me, pytest.raises(VenueError) as found:
                me.enter("bid", 1, "2.00", instrument="APPLES")
            assert str(found.value).endswith("APPLES has halted; nothing was done")
            page.runs("const [it] = arguments; it.value = 'PEARS'; "
                      "it.dispatchEvent(new Event('change'))", page.find("#instrument"))
            assert page.text("halts") == HALT
            assert offs(page) == {"end", "freeze", "thaw", "uncross"}
            other.rename(journal)
            page.clicks("[data-do=resume]")
            page.waits(lambda it: not it.shows("halts"))
            assert page.is_off("[data-do=resume]") and not page.errors()


def test_a_resume_where_nothing_has_halted(tmp_path: pathlib.Path) -> None:
    with served.served(tmp_path, DAY) as venue:
        assert venue.do("resume") == {"done": "resume", "resumed": []}


def halts_of(venue: Served) -> set[str]:
    """The instruments that have halted."""
    looks = {name: f"api/look/state?instrument={name}" for name in ("APPLES", "PEARS")}
    found = {name: venue.call(look, token=venue.operator)[1] for name, look in looks.items()}
    return {name for name, it in found.items() if it["halted"]}


def test_a_resume_of_one_instrument(tmp_path: pathlib.Path) -> None:
    """The one that is named is tried again alone, all where none is; one that isn't there is
    refused.
    """
    journals = [tmp_path / f"venue/{name}.journal.csv" for name in ("APPLES", "PEARS")]
    with served.served(tmp_path, DAY) as venue:
        token = venue.join("Anna")
        for name in ("APPLES", "PEARS"):
            venue.do("start", instrument=name)
            with Client(venue.url, token) as me:
                me.enter("bid", 1, "2.00", instrument=name)
        for journal in journals:
            journal.rename(f"{journal}.moved")
        until(lambda: halts_of(venue) == {"APPLES", "PEARS"})
        for journal in journals:
            pathlib.Path(f"{journal}.moved").rename(journal)
        asked = {"do": "resume", "instrument": "NOPE"}
        assert venue.call("api/operator", asked, venue.operator)[1]["error"] == "unknown_instrument"
        assert venue.do("resume", instrument="PEARS")["resumed"] == ["PEARS"]
        assert halts_of(venue) == {"APPLES"}
        assert venue.do("resume")["resumed"] == ["APPLES"]
        assert halts_of(venue) == set()


def test_a_refusal_goes_once_trading_goes_on(tmp_path: pathlib.Path) -> None:
    """On a member's page and on the teacher's; what was done goes once trading halts."""
    with served.served(tmp_path, DAY) as venue, joined(tmp_path / "anna", venue, "Anna") as anna:
        venue.do("start", instrument="APPLES")
        anna.waits(lambda it: not it.is_off("#send"))
        anna.types(quantity="1", price="2.00")
        with opened(tmp_path / "teacher", f"{venue.url}teacher#{venue.operator}", SCREEN) as page:
            log, other = tmp_path / "venue/venue.log", tmp_path / "moved"
            page.runs("document.querySelector('[data-do=freeze]').closest('details').open = true")
            for step in ("freeze", "thaw"):
                page.waits(lambda it: not it.is_off(f"[data-do={step}]"))
                page.clicks(f"[data-do={step}]")
            page.waits(lambda it: it.text("said") == "Done")
            log.rename(other)
            for it in (anna, page):
                it.waits(lambda it: it.text("phase") == "Halted" and it.text("said") == "")
            anna.clicks("#send")
            anna.waits(lambda it: it.text("said").startswith("Trading has halted"))
            page.clicks("[data-do=resume]")
            page.waits(lambda it: "bad" in str(it.find("#said").get_attribute("class")))
            other.rename(log)
            venue.do("resume")
            for it in (anna, page):
                it.waits(lambda it: it.text("phase") != "Halted" and it.text("said") == "")


def test_who_joins_in_a_halt_joins_once_it_is_over(tmp_path: pathlib.Path) -> None:
    with served.served(tmp_path, DAY) as venue, opened(tmp_path / "anna", venue.url) as anna:
        token = venue.join("Bert")
        log, other = tmp_path / "venue/venue.log", tmp_path / "moved"
        log.rename(other)
        look = "api/look/state?instrument=PEARS"
        while not venue.call(look, token=token)[1]["halted"]:
            time.sleep(0.2)
        anna.waits(lambda it: it.shows("join"))
        anna.types(code=venue.code, name="Anna")
        anna.clicks("#join button")
        anna.waits(lambda it: it.text("join-said") == (
            "Trading has halted. Leave this page open: it tries to join again by itself."))
        other.rename(log)
        venue.do("resume")
        anna.waits(lambda it: it.text("who") == "Anna")


def test_a_round_beside_a_board_that_has_halted(tmp_path: pathlib.Path) -> None:
    """The page says which one, and begins the next round after a question alone."""
    with served.served(tmp_path, DAY) as venue:
        token = venue.join("Anna")
        for name in ("APPLES", "PEARS"):
            venue.do("start", instrument=name)
        with Client(venue.url, token) as me:
            assert me.enter("bid", 1, "2.00", instrument="PEARS").entry == 1
        for name in ("APPLES", "PEARS"):
            venue.do("uncross", instrument=name)
        journal, other = tmp_path / "venue/PEARS.journal.csv", tmp_path / "moved"
        with opened(tmp_path / "browser", f"{venue.url}teacher#{venue.operator}", SCREEN) as page:
            page.waits(lambda it: not it.is_off("#next-round"))
            journal.rename(other)
            page.waits(lambda it: it.shows("halts"))
            for button in ("#asking-no", "#asking-yes"):
                page.clicks("#next-round")
                page.waits(lambda it: it.text("asking-head") == "Begin round 2?")
                page.clicks("#asking-yes")
                page.waits(lambda it: it.text("asking-head") == (
                    "It isn't known what PEARS has. Begin round 2 anyway?"))
                assert page.text("asking-help").startswith("Cancel, mend what is said on top, and")
                page.clicks(button)
                page.waits(lambda it: not it.shows("asking"))
            page.waits(lambda it: not it.shows("halts"))
            other.rename(journal)
            assert sees(venue, "round")["round"] == 2 and not page.errors()

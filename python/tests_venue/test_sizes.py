"""The pages on screens of all sizes, in both languages, with long names and orders of four digits:
no page is wider than its screen, nothing is cut, controls are in reach, figures are read from afar.
"""
import contextlib
from collections.abc import Callable, Iterator
from typing import Any

import pytest
import served
from browsing import Page, enters, joins, opened
from callauction.venue import Client

SIZES = [(320, 640), (390, 844), (768, 1024), (1024, 768), (1280, 800), (1920, 1080)]
MEMBERS = 60
DAY = """
title = "Wertpapiermikrostruktur."
sync = false
[phases]
call = 0
[members]
joins = 0
rate = 100000
burst = 100000
[[instrument]]
name = "APPLE"
title = "Apples"
tick_size = "0.50"
low = "1.00"
high = "9000.00"
reference = "5000.00"
range = "500.00"
[[round]]
values = "none"
"""
TABS = ("auction", "class", "values", "rounds", "settings")
CUT = """
const kept = "section, header, form, dialog, body.beamer main, body.beamer .scene";
return [...document.querySelectorAll(kept)].filter((it) => it.getClientRects().length
  && (it.scrollWidth > it.clientWidth + 1
    || it.closest(".beamer") && innerWidth >= 768 && it.scrollHeight > it.clientHeight + 1))
  .map((it) => `${it.tagName} ${it.id} ${it.className} ${it.scrollWidth}/${it.clientWidth} `
    + `${it.scrollHeight}/${it.clientHeight}`);
"""
SMALL = """
return [...document.querySelectorAll("main *, header *")].filter((it) => it.getClientRects().length
  && [...it.childNodes].some((node) => node.nodeType === 3 && node.data.trim())
  && parseFloat(getComputedStyle(it).fontSize) < arguments[0])
  .map((it) => `${it.tagName} ${it.id} ${it.textContent.slice(0, 30)}`);
"""


@pytest.fixture(scope="module")
def lesson(tmp_path_factory: pytest.TempPathFactory) -> Iterator[dict[str, Any]]:
    """A venue with 60 members, and the pages of one of them, of the teacher and of the beamer."""
    folder = tmp_path_factory.mktemp("lesson")
    with contextlib.ExitStack() as stack:
        venue = stack.enter_context(served.served(folder, DAY))
        found: dict[str, Any] = {"venue": venue}
        for name, path in {"member": "", "teacher": f"teacher#{venue.operator}",
                           "beamer": f"beamer#{venue.beamer}"}.items():
            found[name] = stack.enter_context(opened(folder / name, venue.url + path))
        joins(found["member"], venue.code, "W" * 40)
        surname = "von Hohenfels und Oberstudienau"
        names = [f"Mina {surname} {number:02}" for number in range(1, MEMBERS)]
        found["tokens"] = [venue.join(name) for name in names]
        yield found


def check_sizes(lesson: dict[str, Any], is_there: Callable[[Page], bool]) -> None:
    """Raises AssertionError where a page is wider than its screen, or something of it is cut."""
    faults = []
    for language in ("en", "de"):
        for name in ("member", "teacher", "beamer"):
            page = lesson[name]
            page.speaks(language)
            page.waits(is_there)
            for tab in TABS if name == "teacher" else [""]:
                if tab:
                    page.clicks(f"#tab-{tab}")
                faults += [f"{language} {name} {tab} {it}" for it in faults_of(page)]
    assert not faults, "\n".join(faults)


def faults_of(page: Page) -> Iterator[str]:
    """What doesn't fit on a page, on screens of all sizes."""
    for width, height in SIZES:
        page.resizes((width, height))
        if (excess := page.excess(width)) > 0:
            yield f"at {width} pixels is {excess} wider"
        for cut in page.runs(CUT):
            yield f"at {width} pixels cuts {cut}"


def phase_is(english: str, german: str) -> Callable[[Page], bool]:
    """Whether a page shows a phase."""
    return lambda page: page.text("phase") in (english, german)


def test_before_the_call(lesson: dict[str, Any]) -> None:
    there = phase_is("Opening auction · no call yet", "Eröffnungsauktion · noch kein Aufruf")
    check_sizes(lesson, there)


def test_in_the_call(lesson: dict[str, Any]) -> None:
    venue, member = lesson["venue"], lesson["member"]
    venue.do("give", low="1000.00", high="8000.00", quantity=1234)
    venue.do("start")
    venue.do("show", shows="all")
    for place, token in enumerate(lesson["tokens"]):
        with Client(venue.url, token) as me:
            side, far = ("bid", 1) if place % 2 else ("ask", -1)
            me.enter(side, 1000 + place, f"{5000 + far * 10 * (place - 20):.2f}")
    member.speaks("en")
    member.waits(lambda it: not it.is_off("#send"))
    enters(member, "ask", "12,345", "8,765.50")
    enters(member, "bid", "1234", "4321.00")
    member.clicks("#more summary")
    member.types(peak="1000")
    member.find("#only").send_keys("the closing alone")
    enters(member, "bid", "4321", "3,210.50")
    check_sizes(lesson, phase_is("Opening auction · call phase", "Eröffnungsauktion · Aufrufphase"))


def test_an_interruption(lesson: dict[str, Any]) -> None:
    venue, beamer = lesson["venue"], lesson["beamer"]
    for side, token in zip(("bid", "ask"), lesson["tokens"]):
        with Client(venue.url, token) as me:
            me.enter(side, 900_000, "8000.00")
    assert venue.do("uncross")["reply"].startswith("interrupted")
    english = "Opening auction · volatility interruption"
    check_sizes(lesson, phase_is(english, "Eröffnungsauktion · Volatilitätsunterbrechung"))
    for page in ("member", "teacher", "beamer"):
        lesson[page].speaks("en")
        lesson[page].waits(lambda it: it.text("phase") == english)
        if page == "teacher":
            lesson[page].clicks("#tab-auction")
        assert lesson[page].text("interruption").startswith(
            "Nothing was executed: the price would have been 8,000.00, too far from the reference "
            "5,000.00."), page
        assert not lesson[page].shows("scene-result" if page == "beamer" else "outcome")
    colour = "return getComputedStyle(document.getElementById('interruption')).borderColor"
    good = "return getComputedStyle(document.querySelector('dd.good')).color"
    assert beamer.runs(colour) != beamer.runs(good)


def test_after_the_uncross(lesson: dict[str, Any]) -> None:
    venue, beamer = lesson["venue"], lesson["beamer"]
    venue.do("uncross")
    venue.do("payoffs", shows="ranking")
    check_sizes(lesson, phase_is("Opening auction · over", "Eröffnungsauktion · beendet"))
    beamer.resizes((1920, 1080))
    beamer.waits(lambda it: bool(it.text("why")))
    assert len(beamer.rows("ranking")) > 3, "a ranking has all the room that there is"
    assert beamer.runs(SMALL, 20) == []


def test_the_screen_is_read_from_the_last_row(lesson: dict[str, Any]) -> None:
    venue, beamer = lesson["venue"], lesson["beamer"]
    venue.do("start")
    beamer.resizes((1920, 1080))
    beamer.waits(phase_is("Intraday auction · call phase", "Untertägige Auktion · Aufrufphase"))
    size = "return Math.min(...[...document.querySelectorAll(arguments[0])]" \
        ".map((it) => parseFloat(getComputedStyle(it).fontSize)))"
    assert beamer.runs(size, "#figures dd") >= 60
    assert beamer.runs(size, "#figures dt, #phase, h2, #course text") >= 24
    assert beamer.runs(SMALL, 20) == []


def test_controls_are_in_reach(lesson: dict[str, Any]) -> None:
    """However far a page is scrolled, and with a class of 60."""
    teacher = lesson["teacher"]
    for width, height in SIZES:
        teacher.resizes((width, height))
        teacher.clicks("#tab-class")
        teacher.runs("scrollTo(0, document.documentElement.scrollHeight)")
        places = teacher.runs(
            "return [...document.querySelectorAll('.bar [data-do=start], .bar [role=tab]')]"
            ".map((it) => it.getBoundingClientRect()).map((it) => [it.top, it.bottom])")
        assert all(0 <= top < bottom <= height for top, bottom in places), (width, places)
        share = teacher.runs("return document.querySelector('.bar').offsetHeight") / height
        assert share < 0.45, (width, share)


def test_the_pages_complain_of_nothing(lesson: dict[str, Any]) -> None:
    for name in ("member", "teacher", "beamer"):
        assert lesson[name].errors() == []


def test_the_pictures_fill_their_places(lesson: dict[str, Any]) -> None:
    beamer = lesson["beamer"]
    for width, height in SIZES[3:]:
        beamer.resizes((width, height))
        inner, outer = beamer.runs(
            "return ['#book svg', '#book'].map((it) => document.querySelector(it))"
            ".map((it) => [it.clientWidth, it.clientHeight])")
        assert inner == outer and min(inner) > 150

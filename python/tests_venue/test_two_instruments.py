"""The teacher's page where there are several instruments: which one it acts on is to be seen in
each tab, and is named where something is lost.
"""
import pathlib
from collections.abc import Iterator

import pytest
import served
from browsing import SCREEN, Page, opened
from callauction.venue import Client, VenueError
from conftest import FAST

DAY = FAST + """
[[instrument]]
name = "TEA"
title = "Tea"
[[instrument]]
name = "RICE"
title = "Rice"
"""
TABS = ("auction", "class", "values", "rounds", "settings")


@pytest.fixture(scope="module")
def lesson(tmp_path_factory: pytest.TempPathFactory) -> Iterator[tuple[served.Served, Page]]:
    """A venue of two instruments with two members, and the teacher's page."""
    folder = tmp_path_factory.mktemp("two")
    with served.served(folder, DAY) as venue:
        for name in ("Anna", "Bert"):
            venue.join(name)
        url = f"{venue.url}teacher#{venue.operator}"
        with opened(folder / "teacher", url, SCREEN) as page:
            page.waits(lambda it: len(it.rows("members")) == 2 or it.shows("choosing"))
            yield venue, page


def chooses(page: Page, name: str) -> None:
    """Chooses an instrument."""
    page.runs("const [it, name] = arguments; it.value = name; "
              "it.dispatchEvent(new Event('change'))", page.find("#instrument"), name)


def heads(page: Page) -> list[str]:
    """The heads of the columns of values and of gains."""
    return [page.find(f"#members [data-sort={it}]").text for it in ("value", "gain")]


def test_the_instrument_is_named_in_each_tab(lesson: tuple[served.Served, Page]) -> None:
    _, page = lesson
    for tab in TABS:
        page.clicks(f"#tab-{tab}")
        page.waits(lambda it: it.shows(tab))
        assert page.shows("choosing") and page.shows("instrument"), tab
        page.resizes((390, 1000))
        assert page.shows("instrument") and page.excess(390) <= 0, tab
        page.resizes(SCREEN)


def test_values_and_gains_are_those_of_the_instrument(lesson: tuple[served.Served, Page]) -> None:
    venue, page = lesson
    for name, price in (("TEA", "3.00"), ("RICE", "4.00")):
        values = [{"member": "Anna", "side": "bid", "price": price, "quantity": 10}]
        venue.do("give", instrument=name, values=values)
    page.clicks("#tab-class")
    for name, title, value in (("TEA", "Tea", "3.00"), ("RICE", "Rice", "4.00")):
        chooses(page, name)
        page.waits(lambda it: value in it.rows("members")[0][3])
        assert heads(page) == [f"Value: {title}", f"Gain: {title}"]


def test_a_question_names_the_instrument(lesson: tuple[served.Served, Page]) -> None:
    _, page = lesson
    page.clicks("#tab-values")
    chooses(page, "RICE")
    page.types(low="1", high="2")
    page.clicks("#giving button")
    page.waits(lambda it: it.shows("asking"))
    assert page.text("asking-head") == "Hand out new values of Rice now?"
    assert page.text("asking-help") == (
        "All members get new values of Rice, in place of those that they have; gains count anew "
        "from now on.")
    page.clicks("#asking-no")
    page.runs("const [it] = arguments; it.value = 'new'; it.dispatchEvent(new Event('input'))",
              page.find("#whom"))
    page.clicks("#giving button")
    page.waits(lambda it: it.text("give-said") == "Values handed out: 1.")


def test_of_one_instrument_nothing_is_named(tmp_path: pathlib.Path) -> None:
    with served.served(tmp_path, FAST) as venue:
        venue.join("Anna")
        with opened(tmp_path / "page", f"{venue.url}teacher#{venue.operator}", SCREEN) as page:
            page.clicks("#tab-class")
            page.waits(lambda it: len(it.rows("members")) == 1)
            assert heads(page) == ["Value", "Gain"] and not page.shows("choosing")


def test_shares_and_money_are_of_each_instrument(lesson: tuple[served.Served, Page]) -> None:
    """Each may sell ten of the one and ten of the other, at any price where the value covers it."""
    venue, page = lesson
    treatment = {"values": "keep", "shares": 10, "money": "50.00", "covered": True}
    venue.do("treat", treatment=treatment)
    page.clicks("#tab-rounds")
    page.waits(lambda it: it.text("this-treatment") == (
        "The book is closed. Orders on the other side than one's value, or of more shares than it "
        "has, are refused; its price is no limit. Each may sell 10 shares of each instrument at "
        "most. Each may spend 50.00 EUR in each instrument at most."))
    carl = venue.join("Carl")
    values = [{"member": "Carl", "side": "ask", "price": "3.00", "quantity": 20}]
    for name in ("TEA", "RICE"):
        venue.do("give", instrument=name, values=values, replace=True)
        venue.do("start", instrument=name)
    with Client(venue.url, carl) as me:
        for name in ("TEA", "RICE"):
            assert me.enter("ask", 10, "1.00", instrument=name).reply == "entered 1"
            with pytest.raises(VenueError, match="at most 0 shares more"):
                me.enter("ask", 1, "1.00", instrument=name)


def test_which_auctions_are_going_on(tmp_path: pathlib.Path) -> None:
    """A round that can't begin says of which boards."""
    with served.served(tmp_path, DAY) as venue:
        asked = "api/operator", {"do": "next", "round": 2}, venue.operator
        venue.do("start", instrument="RICE")
        one = venue.call(*asked)
        venue.do("start", instrument="TEA")
        venue.do("end", instrument="RICE")
        two = venue.call(*asked)
        text = "an auction is going on of {}: end its call, and uncross"
        assert (one[0], one[1]["text"]) == (409, text.format("RICE"))
        assert (two[0], two[1]["text"]) == (409, text.format("TEA, RICE"))
        for name in ("TEA", "RICE"):
            venue.do("uncross", instrument=name)
        assert venue.call(*asked)[0] == 200


def test_the_book_has_one_head(tmp_path: pathlib.Path) -> None:
    """Picture and table are of one book, which the table is still named by."""
    with served.served(tmp_path, FAST) as venue:
        url = f"{venue.url}teacher#{venue.operator}"
        with opened(tmp_path / "teacher", url, SCREEN) as page:
            venue.do("start")
            with Client(venue.url, venue.join("Anna")) as anna:
                anna.enter("bid", 10, "2.00")
            page.waits(lambda it: it.rows("ladder") == [["10", "2.00", ""]])
            assert page.text("auction").splitlines().count("Book") == 1
            assert page.find("#ladder").accessible_name == "Book"

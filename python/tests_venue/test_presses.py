"""Presses and the focus on a page outlast the traffic of a class of 40."""
import itertools
import pathlib
import time
from collections.abc import Callable, Iterator
from typing import Any

import crowd
import pytest
import served
from browsing import SCREEN, Page, enters, joined, opened
from conftest import FAST
from selenium.webdriver.common.keys import Keys

ROBOTS, PAUSE = 40, 0.5
PRESS, PRESSES = 0.12, 12
NUMBERS = itertools.count()
DAY = f"""
title = "Busy"
{FAST}
[[instrument]]
name = "APPLE"
low = "1.00"
high = "9.00"
reference = "5.00"
"""
COUNT = """
window.changes = 0;
new MutationObserver((found) => { window.changes += found.length; })
  .observe(document.getElementById(arguments[0]),
    { subtree: true, childList: true, characterData: true });
"""


@pytest.fixture(scope="module")
def venue(tmp_path_factory: pytest.TempPathFactory) -> Iterator[served.Served]:
    """A venue in its call, with 40 robots at work."""
    with served.served(tmp_path_factory.mktemp("venue"), DAY) as found:
        tokens = [found.join(f"Robot {number}") for number in range(ROBOTS)]
        found.do("start")
        with crowd.busy(found, tokens, PAUSE):
            yield found


@pytest.fixture
def anna(venue: served.Served, tmp_path: pathlib.Path) -> Iterator[Page]:
    """A member's page, which counts how often its figures change."""
    with joined(tmp_path / "anna", venue, f"Anna {next(NUMBERS)}") as page:
        page.waits(lambda it: not it.is_off("#send"))
        page.runs(COUNT, "figures")
        yield page


def is_busy(page: Page) -> bool:
    """Whether others have changed what the page shows a few times by now."""
    return int(page.runs("return window.changes")) > 5


def test_each_press_on_an_order(anna: Page) -> None:
    for place in range(PRESSES):
        enters(anna, "bid", str(100 + place), "1.10")
    for left in range(PRESSES, 0, -1):
        anna.waits(has_orders(left))
        anna.presses("#orders tbody tr:nth-child(1) [data-name=change]", PRESS)
        assert anna.text("order-head").startswith("Change order "), f"press {left} got lost"
        anna.clicks("#cancel")
        anna.presses(f"#orders tbody tr:nth-child({(left + 1) // 2}) [data-name=delete]", PRESS)
        anna.waits(has_orders(left - 1))
    assert is_busy(anna)


def test_the_focus_stays(anna: Page) -> None:
    enters(anna, "bid", "100", "1.20")
    enters(anna, "bid", "200", "1.30")
    anna.tabs_to("#orders tbody tr:nth-child(2) [data-name=delete]")
    anna.runs("window.changes = 0; window.focused = document.activeElement")
    begin = time.monotonic()
    anna.waits(lambda it: is_busy(it) and time.monotonic() - begin > 3)
    assert anna.runs("return document.activeElement === window.focused")
    anna.hits(Keys.ENTER)
    anna.waits(lambda it: [row[1] for row in it.rows("orders")] == ["100"])
    focused = "return document.activeElement.dataset.name"
    assert anna.runs(focused) == "delete", "it goes to the neighbour"
    anna.hits(Keys.SPACE)
    anna.waits(lambda it: it.rows("orders") == [])
    assert anna.runs("return document.activeElement.tagName") != "BODY"


def test_what_is_typed_stays(anna: Page) -> None:
    anna.types(quantity="12")
    anna.runs("window.changes = 0")
    anna.find("#price").send_keys("4.")
    anna.waits(is_busy)
    anna.find("#price").send_keys("50")
    assert anna.find("#price").get_attribute("value") == "4.50"
    assert anna.text("preview") == "You enter: buy 12 at 4.50, together 54.00 EUR"


def test_each_press_of_the_teacher(venue: served.Served, tmp_path: pathlib.Path) -> None:
    url = f"{venue.url}teacher#{venue.operator}"
    with opened(tmp_path / "teacher", url, SCREEN) as teacher:
        teacher.clicks("#tab-class")
        teacher.waits(lambda it: len(it.rows("members")) >= ROBOTS)
        teacher.runs(COUNT, "figures")
        codes: set[str] = set()
        for place in range(PRESSES):
            row = f"#members tbody tr:nth-child({3 * place + 1})"
            teacher.runs(f"document.querySelector('{row}').scrollIntoView({{block: 'center'}})")
            teacher.presses(f"{row} [data-name=code]", PRESS)
            teacher.waits(has_code(row))
            codes.add(teacher.find(f"{row} .own-code").text)
        assert len(codes) == PRESSES and is_busy(teacher)
        assert teacher.errors() == []


def has_orders(count: int) -> Callable[[Page], bool]:
    """Whether this many orders are open."""
    return lambda page: len(page.rows("orders")) == count


def has_code(row: str) -> Callable[[Page], bool]:
    """Whether the member of a row has a code."""
    def found(page: Page) -> Any:
        return bool(page.find(f"{row} .own-code").text)

    return found

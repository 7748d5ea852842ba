"""The three pages in a browser: a lesson of two members, from joining to trades.

With VENUE_PICTURES their pictures are kept in that folder.
"""
import contextlib
import pathlib
import re
import time
from collections.abc import Iterator
from typing import Any

import contrast
import pytest
import served
from browsing import PAGES, SCREEN, TELEPHONE, Page, browser, enters, joins, opened
from callauction.venue import Client, messages
from selenium.webdriver.common.by import By

MOST_BYTES = 200 * 1024
DAY = """
title = "Monday's lesson"
language = "en"
sync = false
[phases]
call = 600
[[instrument]]
name = "APPLE"
title = "Apples"
tick_size = "0.01"
low = "1.00"
high = "9.00"
reference = "5.00"
"""


@pytest.fixture(scope="module")
def lesson(tmp_path_factory: pytest.TempPathFactory) -> Iterator[dict[str, Any]]:
    """A venue, and a browser for each of two members, the teacher and the beamer."""
    folder = tmp_path_factory.mktemp("lesson")
    with contextlib.ExitStack() as stack:
        venue = stack.enter_context(served.served(folder, DAY))
        found: dict[str, Any] = {"venue": venue}
        pages = {
            "anna": (venue.url, TELEPHONE),
            "bert": (venue.url, TELEPHONE),
            "teacher": (f"{venue.url}teacher#{venue.operator}", SCREEN),
            "beamer": (f"{venue.url}beamer#{venue.beamer}", SCREEN),
        }
        for name, (url, size) in pages.items():
            driver = stack.enter_context(browser(folder / name))
            found[name] = Page(driver, url, size)
        yield found


def test_the_pages_are_small_and_name_nothing_elsewhere() -> None:
    files = [*PAGES.iterdir()]
    assert sum(file.stat().st_size for file in files) < MOST_BYTES
    for file in files:
        for found in re.findall(r"(?:https?|wss?)://[^\"'`\s]+", file.read_text("utf-8")):
            assert found == "http://www.w3.org/2000/svg"


ENTRY = re.compile(r'(?:^|[{,] ?)\s*(\w+): ("(?:[^"\\]|\\.)*"(?:\s*\+ "(?:[^"\\]|\\.)*")*)', re.M)
"""A key of texts.js, and its words."""
MADE = re.compile("[A-Z]|(e|n|help|how|next|order|robot|surplus|why)_|opening|intraday|closing")
"""Keys that pages make: of errors, refusals, and kinds of things."""


def words_of(text: str) -> dict[str, list[str]]:
    """The keys of a language, with the gaps of each."""
    return {key: sorted(re.findall(r"\{\d\}", words)) for key, words in ENTRY.findall(text)}


def test_both_languages_have_all_words() -> None:
    text = (PAGES / "texts.js").read_text("utf-8")
    english, german = map(words_of, re.split(r"^  de: \{", text, flags=re.M))
    assert english == german and len(english) > 200
    asked = set()
    for file in PAGES.iterdir():
        if file.name != "texts.js":
            text = file.read_text("utf-8")
            found = re.findall(
                r"data-text=\"(\w+)\"|\btext\(\"(\w+)\"[,)]|NumberFault\(\"(\w+)\"", text
            )
            asked |= {"".join(names) for names in found}
    assert asked <= {*english}
    others = "".join(it.read_text("utf-8") for it in PAGES.iterdir() if it.name != "texts.js")
    unused = [key for key in english if key not in asked and not MADE.match(key)]
    assert [key for key in unused if f'"{key}"' not in others] == []
    assert {f"e_{code}" for code in messages.ERRORS} <= {*english}


def can_be_read(lesson: dict[str, Any]) -> None:
    """Raises AssertionError where something of a page is hard to read, by day or by night."""
    for name in ("anna", "teacher", "beamer"):
        for scheme in ("dark", "light"):
            assert contrast.faults(lesson[name].driver, scheme) == [], (name, scheme)


def test_a_lesson(lesson: dict[str, Any]) -> None:
    venue, anna, bert = lesson["venue"], lesson["anna"], lesson["bert"]
    teacher, beamer = lesson["teacher"], lesson["beamer"]
    anna.waits(lambda it: it.shows("join"))
    joins(anna, venue.code, "Anna")
    joins(bert, venue.code, "Bert")
    beamer.waits(lambda it: it.text("code") == venue.code and it.text("count") == "2")
    teacher.clicks("#tab-class")
    teacher.waits(lambda it: {row[1] for row in it.rows("members")} == {"Anna", "Bert"})
    assert anna.is_off("#send")
    can_be_read(lesson)
    venue.do("give", values=[
        {"member": "Anna", "side": "bid", "price": "6.00", "quantity": 100},
        {"member": "Bert", "side": "ask", "price": "4.00", "quantity": 100},
    ])
    anna.waits(lambda it: "each is worth 6.00 EUR to you" in it.text("value"))
    bert.waits(lambda it: it.find("input[value=ask]").is_selected())
    teacher.clicks("[data-do=start]")
    anna.waits(lambda it: it.text("phase") == "Opening auction · call phase")
    enters(anna, "bid", "100", "5,40")
    assert anna.text("said") == "Order 1 entered: buy 100 at 5.40"
    enters(bert, "ask", "60", "5.10")
    anna.waits(lambda it: "Indicative price\n5.40" in it.text("figures"))
    bert.waits(lambda it: [row[:3] for row in it.rows("orders")] == [["Sell", "60", "5.10"]])
    assert bert.find("input[value=ask]").is_selected(), "the side stays"
    teacher.clicks("#tab-settings")
    teacher.clicks("input[value=all]")
    beamer.waits(lambda it: bool(it.driver.find_elements(By.CSS_SELECTOR, "#book path.bids")))
    can_be_read(lesson)
    teacher.clicks("[data-do=uncross]")
    anna.waits(lambda it: it.text("result") == "Opening auction: price 5.40, volume 60")
    anna.waits(lambda it: it.text("own-result") == "You bought 60 at 5.40.")
    anna.waits(lambda it: [row[:3] for row in it.rows("fills")] == [["Buy", "60", "5.40"]])
    anna.waits(lambda it: "Your gain: 36.00 EUR" in it.text("value"))
    anna.waits(lambda it: [row[1:4] for row in it.rows("orders")] == [["40", "5.40", "60"]])
    for name in ("anna", "bert", "teacher", "beamer"):
        assert len(lesson[name].picture()) > 10_000
        assert lesson[name].errors() == []


def test_the_screen_after_an_uncross(lesson: dict[str, Any]) -> None:
    beamer, teacher = lesson["beamer"], lesson["teacher"]
    beamer.waits(lambda it: it.text("result") == "5.40")
    assert beamer.text("result-volume") == "60"
    beamer.waits(lambda it: it.rows("trades") == [["Anna", "Bert", "60"]])
    beamer.waits(lambda it: "60 %" in it.text("efficiency"))
    beamer.waits(lambda it: it.text("why") == (
        "60 shares, the most, can be traded at each of 5.10 and 5.40.\n"
        "What is left over is all to buy, so the highest of them is the price: 5.40."))
    assert "5.40" in beamer.text("crossing"), "the crossing stays"
    size = "return parseFloat(getComputedStyle(document.getElementById(arguments[0])).fontSize)"
    beamer.resizes((1920, 1080))
    assert beamer.runs(size, "result") >= 120
    beamer.resizes(SCREEN)
    beamer.clicks("#replay")
    beamer.waits(lambda it: it.text("replay-at") == "Order 2 of 2 · Price 5.40")
    beamer.waits(lambda it: it.text("replay-at") == "" and it.text("replay") == "Replay")
    teacher.clicks("#tab-class")
    teacher.waits(lambda it: [[row[0], row[1], row[4]] for row in it.rows("members")] == [
        ["2", "Anna", "36.00"], ["1", "Bert", "84.00"]])
    teacher.clicks("[data-sort=gain] button")
    assert [row[1] for row in teacher.rows("members")] == ["Bert", "Anna"]
    assert teacher.find("[data-sort=gain]").get_attribute("aria-sort") == "descending"
    can_be_read(lesson)


def test_a_change_and_a_delete(lesson: dict[str, Any]) -> None:
    venue, anna = lesson["venue"], lesson["anna"]
    venue.do("start")
    anna.waits(lambda it: it.text("phase") == "Intraday auction · call phase")
    anna.clicks("#orders tbody [data-name=change]")
    assert anna.text("order-head") == "Change order 1"
    anna.types(quantity="30", price="5.20")
    anna.clicks("#send")
    anna.waits(lambda it: [row[1:3] for row in it.rows("orders")] == [["30", "5.20"]])
    assert anna.text("said").startswith("Order 1 changed: 30 at 5.20")
    anna.clicks("#orders tbody [data-name=delete]")
    anna.waits(lambda it: it.rows("orders") == [])
    assert anna.text("said") == "Order 1 deleted"


def test_a_market_order_leaves_the_price_free(lesson: dict[str, Any]) -> None:
    anna = lesson["anna"]
    anna.clicks("#market")
    assert not anna.find("#price").is_enabled()
    anna.types(quantity="10")
    anna.clicks("#send")
    anna.waits(lambda it: it.text("said").endswith(" entered: buy 10 at market"))
    anna.waits(lambda it: it.find("#price").is_enabled() and not it.find("#market").is_selected())
    enters(anna, "bid", "10", "4.00")
    anna.waits(lambda it: [row[2] for row in it.rows("orders")] == ["market", "4.00"])
    for left in (1, 0):
        anna.clicks("#orders tbody [data-name=delete]")
        anna.waits(lambda it: not it.text("said") or it.text("said").endswith("deleted"))
        anna.waits(lambda it, left=left: len(it.rows("orders")) == left)


REFUSED = [
    ({"quantity": "5", "price": "9.01"}, "Limit price: from 1.00 to 9.00.", "price"),
    ({"quantity": "5", "price": "5.005"}, "Limit price: in steps of 0.01.", "price"),
    ({"quantity": "5", "price": ""}, "Limit price: enter a number.", "price"),
    ({"quantity": "0", "price": "5"}, "Quantity: at least 1.", "quantity"),
    ({"quantity": "1.000", "price": "5"},
     "Quantity: “1.000” is no whole number. Write a thousand as 1000 or 1,000.", "quantity"),
    ({"quantity": "1e3", "price": "5"},
     "Quantity: “1e3” can't be read as one number. Write a thousand as 1000 or 1,000, "
     "a fraction as in 1,234.5.", "quantity"),
]


@pytest.mark.parametrize("typed, said, field", REFUSED)
def test_a_fault_is_said_and_stays(
    lesson: dict[str, Any], typed: dict[str, str], said: str, field: str
) -> None:
    bert = lesson["bert"]
    bert.clicks("input[value=ask]")
    bert.types(**typed)
    bert.clicks("#send")
    bert.waits(lambda it: it.text("said") == said)
    kept = {name: bert.find(f"#{name}").get_attribute("value") for name in typed}
    assert kept == typed and bert.find("input[value=ask]").is_selected()
    assert bert.runs("return document.activeElement.id") == field
    assert bert.find(f"#{field}").get_attribute("aria-invalid") == "true"
    assert contrast.faults(bert.driver, "dark") == contrast.faults(bert.driver, "light") == []


def test_two_presses_are_one(lesson: dict[str, Any], tmp_path: pathlib.Path) -> None:
    """Of who joins, and of the teacher."""
    venue, teacher = lesson["venue"], lesson["teacher"]
    twice = "const it = document.querySelector(arguments[0]); it.click(); it.click()"
    asked = "return performance.getEntriesByName(location.origin + arguments[0]).length"
    with opened(tmp_path, venue.url) as page:
        page.waits(lambda it: it.shows("join"))
        page.types(code=venue.code, name="Hasty")
        page.runs(twice, "#join button")
        page.waits(lambda it: it.text("who") == "Hasty")
        assert page.runs(asked, "/api/join") == 1
    venue.do("remove", member="Hasty")
    teacher.clicks("#tab-auction")
    if teacher.is_off("[data-do=freeze]"):  # where no test above has begun a call
        venue.do("start")
        teacher.waits(lambda it: not it.is_off("[data-do=freeze]"))
    before = teacher.runs(asked, "/api/operator")
    teacher.runs(twice, "[data-do=freeze]")
    teacher.waits(lambda it: not it.is_off("[data-do=thaw]"))
    teacher.runs(twice, "[data-do=thaw]")
    teacher.waits(lambda it: not it.is_off("[data-do=freeze]"))
    assert teacher.runs(asked, "/api/operator") == before + 2


def test_what_the_auction_refuses_stays_in_the_form(lesson: dict[str, Any]) -> None:
    bert = lesson["bert"]
    bert.types(quantity="7", price="5.00")
    bert.clicks("#more summary")
    bert.find("#only").send_keys("the opening alone")
    bert.clicks("#send")
    bert.waits(lambda it: it.text("said") == "Refused: the auction that it is for is past.")
    assert bert.find("#quantity").get_attribute("value") == "7"
    bert.find("#only").send_keys("every auction")
    bert.clicks("#more summary")


def test_a_member_comes_again_and_speaks_german(lesson: dict[str, Any]) -> None:
    anna = lesson["anna"]
    anna.driver.refresh()
    anna.waits(lambda it: it.text("who") == "Anna")
    anna.clicks("#language")
    anna.waits(lambda it: it.text("phase") == "Untertägige Auktion · Aufrufphase")
    assert anna.find("html").get_attribute("lang") == "de"
    anna.waits(lambda it: "5,40" in it.text("figures"))
    anna.types(quantity="1.000", price="4.50")
    assert anna.text("preview") == "Sie geben ein: Kauf von 1.000 zu 4,50, zusammen 4.500,00 EUR"
    anna.clicks("#market")
    assert anna.text("preview") == "Sie geben ein: Kauf von 1.000 ohne Limit"
    anna.clicks("#market")
    anna.clicks("#language")
    anna.types(quantity="", price="")


def test_who_leaves_is_asked(lesson: dict[str, Any]) -> None:
    bert = lesson["bert"]
    bert.clicks("#leave")
    bert.clicks("#asking-no")
    assert bert.text("who") == "Bert" and not bert.shows("asking")


def test_two_tabs_of_a_telephone(lesson: dict[str, Any], tmp_path: pathlib.Path) -> None:
    """They are one member, who leaves in both, and joins again in both."""
    venue = lesson["venue"]
    with opened(tmp_path, venue.url) as page:
        driver: Any = page.driver
        joins(page, venue.code, "Tim")
        first = driver.current_window_handle
        driver.switch_to.new_window("tab")
        driver.get(venue.url)
        page.waits(lambda it: it.text("who") == "Tim")
        page.clicks("#leave")
        page.clicks("#asking-yes")
        page.waits(lambda it: it.shows("join"))
        second = driver.current_window_handle
        driver.switch_to.window(first)
        page.waits(lambda it: it.shows("join") and not it.shows("trading"))
        joins(page, venue.do("code", member="Tim")["code"], "Tim")
        driver.switch_to.window(second)
        page.waits(lambda it: it.text("who") == "Tim" and it.shows("trading"))
        assert page.text("join-said") == ""
        venue.do("remove", member="Tim")
        for tab in (second, first):
            driver.switch_to.window(tab)
            page.waits(lambda it: it.text("join-said").startswith("You aren't known here any"))


@pytest.mark.parametrize("page", ["teacher", "beamer"])
def test_a_page_without_its_token_says_how_it_is_opened(
    lesson: dict[str, Any], tmp_path: pathlib.Path, page: str
) -> None:
    with opened(tmp_path, f"{lesson['venue'].url}{page}") as found:
        found.waits(lambda it: f"the line that begins with “{page}”" in it.text("closed"))
        assert not found.shows("open") and found.errors() == []


HOLDS = """
const held = [], kinds = ["fills", "trades", "efficiency"];
window.isHeld = false;
window.letGo = () => { window.isHeld = false; for (const hear of held.splice(0)) hear(); };
window.WebSocket = class extends WebSocket {
  set onmessage(heard) {
    super.onmessage = (event) => {
      const isLate = window.isHeld && kinds.includes(JSON.parse(event.data).type);
      if (isLate) held.push(() => heard(event));
      else heard(event);
    };
  }
};
"""
"""Holds back what comes of trades, as on a busy machine, until it is let go."""


def test_nothing_is_said_of_trades_before_they_have_come(
    tmp_path: pathlib.Path, venue: served.Served
) -> None:
    """The result of an uncross is shown at once, and who traded a little later."""
    bert = venue.join("Bert")
    with contextlib.ExitStack() as stack:
        pages = []
        for name, path in ("anna", ""), ("beamer", f"beamer#{venue.beamer}"):
            page = stack.enter_context(opened(tmp_path / name, venue.url + path))
            driver: Any = page.driver
            script = {"source": HOLDS}
            driver.execute_cdp_cmd("Page.addScriptToEvaluateOnNewDocument", script)
            driver.refresh()
            pages.append(page)
        anna, beamer = pages
        joins(anna, venue.code, "Anna")
        venue.do("give", values=[
            {"member": "Anna", "side": "bid", "price": "3.00", "quantity": 10},
            {"member": "Bert", "side": "ask", "price": "1.00", "quantity": 10}])
        venue.do("start")
        anna.waits(lambda it: not it.is_off("#send"))
        enters(anna, "bid", "5", "2.00")
        with Client(venue.url, bert) as me:
            me.enter("ask", 5, "2.00")
        for page in pages:
            page.runs("window.isHeld = true")
        venue.do("uncross")
        anna.waits(lambda it: it.text("result") == "Opening auction: price 2.00, volume 5")
        beamer.waits(lambda it: it.text("result") == "2.00" and bool(it.text("why")))
        assert (anna.text("own-result"), beamer.text("efficiency")) == ("", "")
        assert "You didn't trade" not in anna.text("trading")
        for page in pages:
            page.runs("window.letGo()")
        anna.waits(lambda it: it.text("own-result") == "You bought 5 at 2.00.")
        beamer.waits(lambda it: it.text("efficiency").startswith("Efficiency 50 %"))


VALUES = [("bid", 7.2), ("bid", 6.6), ("bid", 6.1), ("bid", 5.7), ("bid", 5.2), ("bid", 4.6),
          ("ask", 3.1), ("ask", 3.9), ("ask", 4.3), ("ask", 4.9), ("ask", 5.5), ("ask", 6.4)]
"""What a crowd was handed out. It bids a little less than its values, and asks a little more."""
ORDER = (10, 4, 8, 2, 11, 6, 3, 9, 1, 7, 5)
"""Who enters after whom."""


def test_a_crowd(lesson: dict[str, Any]) -> None:
    """The pictures of docs/VENUE.md: a class in its call phase, and what came of it."""
    venue, pages = lesson["venue"], [lesson[name] for name in ("anna", "teacher", "beamer")]
    beamer = lesson["beamer"]
    names = ["Anna", *(f"Student {number}" for number in range(2, len(VALUES) + 1))]
    tokens = {name: venue.join(name) for name in names[1:]}
    venue.do("uncross")
    venue.do("next", round=2)
    lesson["teacher"].clicks("#tab-auction")
    venue.do("give", to="all", replace=True, values=[
        {"member": name, "side": side, "price": f"{value:.2f}", "quantity": 100}
        for name, (side, value) in zip(names, VALUES)
    ])
    for page, size in zip(pages, ((390, 844), (1280, 800), (1280, 720))):
        page.resizes(size)
    venue.do("start")
    lesson["anna"].waits(lambda it: "7.20 EUR" in it.text("value") and not it.is_off("#send"))
    enters(lesson["anna"], "bid", "100", "6.90")
    for place in ORDER:
        name, (side, value) = names[place], VALUES[place]
        price = value - 0.2 if side == "bid" else value + 0.2
        with Client(venue.url, tokens[name]) as member:
            member.enter(side, 50 + 10 * (place % 6), f"{price:.2f}")
        time.sleep(0.3)  # so that the course of the price can be seen
    for page in pages:
        page.waits(lambda it: "Indicative price\n5.50" in it.text("figures"))
    for name in ("member", "teacher", "beamer"):
        page = lesson["anna" if name == "member" else name]
        page.runs("window.scrollTo(0, 0)")
        assert len(page.picture(name)) > 10_000
    venue.do("end")
    for page in pages:
        page.waits(lambda it: it.text("phase") == "Opening auction · call ended")
    venue.do("uncross")
    beamer.waits(lambda it: len(it.rows("trades")) > 1 and " %" in it.text("efficiency"))
    beamer.waits(lambda it: bool(it.text("why")))
    beamer.picture("result")
    venue.do("start")
    venue.do("uncross")
    beamer.waits(lambda it: it.text("result") == "no price, nothing was executed")
    beamer.find("#which").send_keys("Opening auction")
    beamer.waits(lambda it: it.text("result") == "5.50" and len(it.rows("trades")) > 2)
    beamer.clicks("#replay")
    beamer.waits(lambda it: it.text("replay-at").startswith("Order 12 of 12"))
    can_be_read(lesson)
    assert all(page.errors() == [] for page in pages)


def test_each_field_has_a_name(lesson: dict[str, Any]) -> None:
    for name in ("anna", "teacher", "beamer"):
        driver = lesson[name].driver
        lesson[name].runs("for (const it of document.querySelectorAll('details')) it.open = true")
        for field in driver.find_elements(By.CSS_SELECTOR, "input, select, button"):
            if field.is_displayed():
                assert field.accessible_name, field.get_attribute("outerHTML")

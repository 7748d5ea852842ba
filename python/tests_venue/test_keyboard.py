"""A lesson by the keyboard alone: joining, a call, orders, changes, the uncross."""
import contextlib
import pathlib

import contrast
import served
from browsing import SCREEN, Page, opened
from callauction.venue import Client
from conftest import FAST
from rounds import VALUES, trade
from selenium.webdriver.common.keys import Keys


def writes(page: Page, field: str, words: str) -> None:
    """Goes to a field and writes over what it has."""
    page.tabs_to(f"#{field}")
    page.writes(words)


def hits(page: Page, selector: str, key: str = Keys.ENTER) -> None:
    """Goes to a button and hits a key."""
    page.tabs_to(selector)
    page.hits(key)


def sees_focus(page: Page) -> bool:
    """Whether what has the focus is framed."""
    outline = "return getComputedStyle(document.activeElement).outlineStyle"
    return str(page.runs(outline)) != "none"


def test_a_lesson_by_the_keyboard(tmp_path: pathlib.Path) -> None:
    with contextlib.ExitStack() as stack:
        venue = stack.enter_context(served.served(tmp_path, FAST))
        anna = stack.enter_context(opened(tmp_path / "anna", venue.url))
        teacher = stack.enter_context(
            opened(tmp_path / "teacher", f"{venue.url}teacher#{venue.operator}", SCREEN))
        beamer = stack.enter_context(
            opened(tmp_path / "beamer", f"{venue.url}beamer#{venue.beamer}", SCREEN))
        bert = stack.enter_context(Client(venue.url, venue.join("Bert")))
        anna.waits(lambda it: it.shows("join"))
        writes(anna, "code", venue.code)
        writes(anna, "name", "Anna")
        anna.hits(Keys.ENTER)
        anna.waits(lambda it: it.text("who") == "Anna")
        teacher.waits(lambda it: it.shows("open") and not it.is_off("[data-do=start]"))
        hits(teacher, "[data-do=start]")
        assert sees_focus(teacher)
        anna.waits(lambda it: not it.is_off("#send"))
        orders(anna)
        bert.enter("ask", 50, "1.90")
        teaches(teacher)
        anna.waits(lambda it: it.text("own-result") == "You bought 50 at 2.00.")
        beamer.waits(lambda it: it.shows("replay"))
        hits(beamer, "#replay", Keys.SPACE)
        beamer.waits(lambda it: it.text("replay") == "Stop")
        for page in (anna, teacher, beamer):
            assert contrast.faults(page.driver, "dark") == []
            assert page.errors() == []


TWO = FAST + """
[[instrument]]
name = "XYZ"
[[instrument]]
name = "NICKEL"
"""
HELD = """
const held = { key: "n", repeat: true, bubbles: true };
document.activeElement.dispatchEvent(new KeyboardEvent("keydown", held));
"""
"""What a browser says again and again of a key that is held."""


def names_on(beamer: Page) -> set[str]:
    """The names of members that the screen shows."""
    return {name for name in ("Anna", "Bert") if name in beamer.find("body").text}


def picks(beamer: Page, choice: str, words: str) -> None:
    """Chooses from a list by the mouse."""
    beamer.presses(f"#{choice}", 0.1)
    options = beamer.find(f"#{choice}").find_elements("tag name", "option")
    next(it for it in options if it.text == words).click()


def test_the_screen_hides_names_by_a_key(tmp_path: pathlib.Path) -> None:
    """Also where its page comes again, and where the key is held; a letter that a choice takes
    hides none, but one that was made by the mouse takes none. What was gained is shown still, under
    its head, and that names are hidden.
    """
    with contextlib.ExitStack() as stack:
        venue = stack.enter_context(served.served(tmp_path, TWO))
        anna, bert = venue.join("Anna"), venue.join("Bert")
        venue.do("give", values=[it | {"quantity": 20} for it in VALUES], instrument="XYZ")
        trade(venue, anna, bert, "2.00", "XYZ")
        trade(venue, anna, bert, "2.10", "XYZ")
        beamer = stack.enter_context(
            opened(tmp_path / "beamer", f"{venue.url}beamer#{venue.beamer}", SCREEN))
        gains = [["1", "Bert", "11.00"], ["2", "Anna", "9.00"]]
        beamer.waits(lambda it: it.rows("ranking") == gains)
        beamer.waits(lambda it: it.rows("trades") == [["Anna", "Bert", "10"]])
        for shows, head in (("ranking", "Name"), ("none", "Who gained most")):
            venue.do("payoffs", shows=shows)
            beamer.waits(lambda it: it.text("ranking-head") == head, 20)
        beamer.runs("document.querySelector('#which').focus()")
        beamer.hits("n")
        assert names_on(beamer) == {"Anna", "Bert"} and not beamer.shows("nameless")
        picks(beamer, "which", "Opening auction")
        picks(beamer, "which", "Intraday auction")
        for keys in ("n", "nn"):
            beamer.hits(*keys)
            beamer.waits(lambda it: not names_on(it))
            assert beamer.runs(HELD) is None and not names_on(beamer)
            assert beamer.rows("ranking") == [[rank, "", gain] for rank, _, gain in gains]
            assert beamer.text("ranking-head") == "Who gained most"
            assert beamer.text("nameless") == "Names hidden (n)"
            beamer.picture("names-hidden")
            beamer.driver.refresh()
            beamer.waits(lambda it: len(it.rows("ranking")) == 2 and it.shows("placing"))
            assert not names_on(beamer) and beamer.text("nameless")
        beamer.hits("N")
        beamer.waits(lambda it: names_on(it) == {"Anna", "Bert"} and it.rows("ranking") == gains)
        assert not beamer.shows("nameless")
        beamer.picture("names-shown")
        assert beamer.errors() == []


def orders(anna: Page) -> None:
    """Enters two orders, changes one, deletes the other."""
    anna.tabs_to("input[name=side]")
    anna.hits(Keys.ARROW_DOWN, Keys.ARROW_UP)
    writes(anna, "quantity", "80")
    writes(anna, "price", "2.10")
    anna.hits(Keys.ENTER)
    anna.waits(lambda it: it.text("said") == "Order 1 entered: buy 80 at 2.10")
    writes(anna, "quantity", "10")
    hits(anna, "#market", Keys.SPACE)
    hits(anna, "#send")
    anna.waits(lambda it: it.text("said") == "Order 2 entered: buy 10 at market")
    anna.waits(lambda it: len(it.rows("orders")) == 2)
    hits(anna, "[aria-label='Delete 2']")
    anna.waits(lambda it: it.text("said") == "Order 2 deleted" and len(it.rows("orders")) == 1)
    hits(anna, "[aria-label='Change 1']", Keys.SPACE)
    assert anna.runs("return document.activeElement.id") == "quantity"
    writes(anna, "price", "2.00")
    anna.hits(Keys.ENTER)
    anna.waits(lambda it: it.text("said").startswith("Order 1 changed: 80 at 2.00"))


def teaches(teacher: Page) -> None:
    """Goes through the tabs by the arrows, hands out values, sorts members, uncrosses."""
    teacher.tabs_to("[role=tab][aria-selected=true]")
    teacher.hits(Keys.ARROW_RIGHT)
    teacher.waits(lambda it: it.shows("members"))
    hits(teacher, "[data-sort=name] button")
    assert [row[1] for row in teacher.rows("members")] == ["Anna", "Bert"]
    teacher.tabs_to("[role=tab][aria-selected=true]")
    teacher.hits(Keys.ARROW_RIGHT)
    writes(teacher, "low", "1.00")
    writes(teacher, "high", "3.00")
    teacher.hits(Keys.ENTER)
    teacher.waits(lambda it: it.text("give-said") == "Values handed out: 2.")
    hits(teacher, "[data-do=uncross]", Keys.SPACE)
    teacher.waits(lambda it: it.text("phase") == "Opening auction · over")

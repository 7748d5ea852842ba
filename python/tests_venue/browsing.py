"""Pages of a venue in browsers without a window, and what somebody does there."""
import contextlib
import os
import pathlib
from collections.abc import Callable, Iterator
from typing import Any

import served
from selenium import webdriver
from selenium.common.exceptions import StaleElementReferenceException, WebDriverException
from selenium.webdriver.chrome.options import Options
from selenium.webdriver.chrome.service import Service
from selenium.webdriver.common.action_chains import ActionChains
from selenium.webdriver.common.by import By
from selenium.webdriver.common.keys import Keys
from selenium.webdriver.remote.webelement import WebElement
from selenium.webdriver.support.wait import WebDriverWait

PAGES = served.PACKAGE / "callauction/venue/pages"
SECONDS = 120
TELEPHONE, SCREEN = (390, 1000), (1280, 1000)
Size = tuple[int, int]
CHAIN: Any = ActionChains
DRAWN = "const [done] = arguments; requestAnimationFrame(() => requestAnimationFrame(() => done()))"
"""Answers once the page is drawn anew."""


class Page:
    """A page in a window of its own browser."""

    def __init__(self, driver: webdriver.Chrome, url: str, size: Size) -> None:
        self.driver = driver
        driver.get(url)
        self.resizes(size)

    # ---- what is there

    def find(self, selector: str) -> WebElement:
        """The first element that a selector names. Raises NoSuchElementException."""
        return self.driver.find_element(By.CSS_SELECTOR, selector)

    def text(self, name: str) -> str:
        """What is written in an element."""
        return str(self.find(f"#{name}").text)

    def shows(self, name: str) -> bool:
        """Whether an element is to be seen."""
        return bool(self.find(f"#{name}").is_displayed())

    def is_off(self, selector: str) -> bool:
        """Whether a button says that it can't be used now."""
        return self.find(selector).get_attribute("aria-disabled") == "true"

    def rows(self, table: str) -> list[list[str]]:
        """The cells of the rows of a table."""
        found = self.driver.find_elements(By.CSS_SELECTOR, f"#{table} tbody tr")
        return [[it.text for it in row.find_elements(By.TAG_NAME, "td")] for row in found]

    def runs(self, script: str, *arguments: Any) -> Any:
        """What a script of the browser answers."""
        driver: Any = self.driver
        return driver.execute_script(script, *arguments)

    def waits(self, holds: Callable[["Page"], bool], seconds: float = SECONDS) -> None:
        """Waits until this holds. Raises TimeoutException."""
        waiting = WebDriverWait(
            self.driver, seconds, 0.05, ignored_exceptions=[StaleElementReferenceException]
        )
        waiting.until(lambda _: holds(self))

    # ---- what is done

    def types(self, **values: str) -> None:
        """Fills fields."""
        for name, value in values.items():
            field = self.find(f"#{name}")
            field.clear()
            field.send_keys(value)

    def clicks(self, selector: str) -> None:
        """Clicks on what is there by then."""
        def is_clicked(page: "Page") -> bool:
            with contextlib.suppress(WebDriverException):
                found = page.find(selector)
                page.runs("arguments[0].scrollIntoView({ block: 'center' })", found)
                found.click()
                return True
            return False

        self.waits(is_clicked)

    def presses(self, selector: str, seconds: float) -> None:
        """Presses the mouse's button on an element for a while, as a hand does."""
        chain: Any = CHAIN(self.driver, duration=0)
        chain.move_to_element(self.find(selector)).click_and_hold().pause(seconds).release()
        chain.perform()

    def hits(self, *keys: str) -> None:
        """Hits keys, wherever the focus is."""
        chain: Any = CHAIN(self.driver)
        chain.send_keys(*keys).perform()

    def writes(self, words: str) -> None:
        """Writes over what the field with the focus has."""
        chain: Any = CHAIN(self.driver)
        chain.key_down(Keys.CONTROL).send_keys("a").key_up(Keys.CONTROL).send_keys(words).perform()

    def tabs_to(self, selector: str) -> None:
        """Goes on by the Tab key until an element has the focus. Raises AssertionError."""
        for _ in range(200):
            if self.runs("return document.activeElement.matches(arguments[0])", selector):
                return
            self.hits(Keys.TAB)
        raise AssertionError(f"the Tab key doesn't lead to {selector}")

    # ---- how it is shown

    def resizes(self, size: Size) -> None:
        """A screen of this width and height, in CSS pixels."""
        metrics = {"width": size[0], "height": size[1], "deviceScaleFactor": 1, "mobile": False}
        driver: Any = self.driver
        driver.execute_cdp_cmd("Emulation.setDeviceMetricsOverride", metrics)
        driver.execute_async_script(DRAWN)

    def speaks(self, language: str) -> None:
        """Comes again in another language."""
        self.runs("localStorage.setItem('venue.language', arguments[0])", language)
        self.driver.refresh()

    def excess(self, width: int) -> int:
        """How many pixels the page is wider than a screen of this width."""
        return int(self.runs("return document.documentElement.scrollWidth")) - width

    def picture(self, name: str = "") -> bytes:
        """Its picture, which is kept where it has a name and a folder is named."""
        found = bytes(self.driver.get_screenshot_as_png())
        if name and (folder := os.environ.get("VENUE_PICTURES")):
            pathlib.Path(folder, f"{name}.png").write_bytes(found)
        return found

    def errors(self) -> list[str]:
        """What the browser complains of, but for what the venue refuses."""
        driver: Any = self.driver
        found = [it for it in driver.get_log("browser") if it["level"] == "SEVERE"]
        return [str(it) for it in found if it["source"] != "network"]


@contextlib.contextmanager
def browser(folder: pathlib.Path) -> Iterator[webdriver.Chrome]:
    """A browser without a window, and without a network beyond this machine."""
    options: Any = Options()
    words = ["--headless=new", "--no-sandbox", "--disable-gpu", "--hide-scrollbars", "--lang=en"]
    words += ["--host-resolver-rules=MAP * ~NOTFOUND, EXCLUDE 127.0.0.1"]
    for word in [*words, f"--user-data-dir={folder}"]:
        options.add_argument(word)
    options.binary_location = "/usr/bin/chromium"
    options.set_capability("goog:loggingPrefs", {"browser": "ALL"})
    driver = webdriver.Chrome(service=Service("/usr/bin/chromedriver"), options=options)
    try:
        yield driver
    finally:
        driver.quit()


@contextlib.contextmanager
def opened(folder: pathlib.Path, url: str, size: Size = TELEPHONE) -> Iterator[Page]:
    """A page in a browser of its own."""
    with browser(folder) as driver:
        yield Page(driver, url, size)


@contextlib.contextmanager
def joined(folder: pathlib.Path, venue: served.Served, name: str) -> Iterator[Page]:
    """The page of a new member."""
    with opened(folder, venue.url) as page:
        joins(page, venue.code, name)
        yield page


def joins(page: Page, code: str, name: str) -> None:
    """Joins by the form of the page."""
    page.waits(lambda it: it.shows("join"))
    page.types(code=code.lower(), name=name)
    page.clicks("#join button")
    page.waits(lambda it: it.text("who") == name)


def enters(page: Page, side: str, quantity: str, price: str) -> None:
    """Enters an order, and waits until it is answered."""
    page.clicks(f"input[value={side}]")
    page.types(quantity=quantity, price=price)
    page.clicks("#send")
    page.waits(lambda it: " entered: " in it.text("said") and not it.is_off("#send"))

"""A network that is lost: the page says so within three seconds, shows what isn't answered yet, and
no order is entered twice.
"""
import asyncio
import contextlib
import pathlib
import signal
import threading
import time
from collections.abc import Iterator

import pytest
import served
from browsing import Page, enters, joins, opened
from conftest import FAST
from patience import TIMED

pytestmark = TIMED

LOST_SECONDS = 3.0
LATE = """
window.marks = {};
const mark = (name) => { window.marks[name] ??= performance.now(); };
new MutationObserver(() => {
  if (!document.getElementById("lost").hidden) mark("lost");
  if (document.getElementById("said").classList.contains("waits")) mark("waits");
}).observe(document.body, { attributes: true, childList: true, subtree: true });
// How late the page's own clock is at most: what a busy machine adds to each wait.
let [beaten, late] = [performance.now(), 0];
setInterval(() => {
  const now = performance.now();
  [late, beaten] = [Math.max(late, now - beaten - 50), now];
  window.marks.late = late;
}, 50);
document.getElementById("send").addEventListener("click", () => mark("sent"));
"""
"""Marks when the page says something, by its own clock: a driver is slower than a page."""
IS_SEEN = """
const place = document.getElementById(arguments[0]).getBoundingClientRect();
return document.elementFromPoint(place.x + place.width / 2, place.y + place.height / 2)
  === document.getElementById(arguments[0]);
"""
"""Whether the middle of an element is on the screen, and nothing covers it."""


class Network:
    """A proxy before a venue, which can hold back all that comes, and lets it go on later."""

    def __init__(self, port: int) -> None:
        self._port = port
        self.port = served.free_port()
        self.is_held = threading.Event()
        self._is_over = threading.Event()
        self._thread = threading.Thread(target=lambda: asyncio.run(self._run()))
        self._thread.start()

    async def _run(self) -> None:
        listening = await asyncio.start_server(self._joined, "127.0.0.1", self.port)
        while not self._is_over.is_set():
            await asyncio.sleep(0.02)
        listening.close()

    async def _joined(self, near: asyncio.StreamReader, back: asyncio.StreamWriter) -> None:
        """Passes on what somebody says, and what it is answered."""
        far, on = await asyncio.open_connection("127.0.0.1", self._port)
        await asyncio.gather(self._pass(near, on), self._pass(far, back))

    async def _pass(self, coming: asyncio.StreamReader, going: asyncio.StreamWriter) -> None:
        with contextlib.suppress(ConnectionError):
            while block := await coming.read(1 << 16):
                while self.is_held.is_set():
                    await asyncio.sleep(0.02)
                going.write(block)
                await going.drain()
        going.close()

    def end(self) -> None:
        """Ends it, with all that it holds."""
        self._is_over.set()
        self._thread.join()


@pytest.fixture
def venue(tmp_path: pathlib.Path) -> Iterator[served.Served]:
    """A venue in its call."""
    with served.served(tmp_path, FAST) as found:
        found.do("start")
        yield found


@pytest.fixture
def network(venue: served.Served) -> Iterator[Network]:
    """A network before the venue."""
    found = Network(int(venue.url.rstrip("/").rpartition(":")[2]))
    yield found
    found.end()


@pytest.fixture
def anna(venue: served.Served, network: Network, tmp_path: pathlib.Path) -> Iterator[Page]:
    """A member beyond the network."""
    address = f"http://127.0.0.1:{network.port}/"
    with opened(tmp_path / "anna", address, (390, 664)) as page:
        joins(page, venue.code, "Anna")
        page.waits(lambda it: not it.is_off("#send"))
        yield page


def orders(venue: served.Served) -> list[str]:
    """The orders that the journal has."""
    journal = venue.call("api/download/journal/XYZ", token=venue.operator)[1]
    return [line for line in journal.splitlines() if ",enter," in line]


def seconds(page: Page, name: str, since: float) -> float:
    """The seconds of the page's clock from then until something was marked, less those by which
    that clock was late.
    """
    marks = page.runs("return window.marks")
    return float(marks[name] - since - marks["late"]) / 1000


def test_an_order_in_a_lost_network(venue: served.Served, network: Network, anna: Page) -> None:
    enters(anna, "bid", "10", "2.00")
    anna.types(quantity="20", price="1.90")
    anna.runs(LATE)
    begin = anna.runs("return performance.now()")
    network.is_held.set()
    anna.clicks("#send")
    pending = ("Sending: buy 20 at 1.90 …", "Not confirmed yet: buy 20 at 1.90.")
    anna.waits(lambda it: it.text("said").startswith(pending))
    assert anna.is_off("#send")
    anna.clicks("#send")
    anna.waits(lambda it: it.shows("lost"))
    assert seconds(anna, "lost", begin) < LOST_SECONDS
    assert seconds(anna, "waits", anna.runs("return window.marks.sent")) < 1
    assert anna.runs(IS_SEEN, "send") and anna.runs(IS_SEEN, "said")
    assert anna.text("said").startswith("Not confirmed yet: buy 20 at 1.90.")
    assert anna.find("#quantity").get_attribute("value") == "20"
    anna.clicks("#send")
    time.sleep(6)
    anna.clicks("#send")
    network.is_held.clear()
    anna.waits(lambda it: it.text("said") == "Order 2 entered: buy 20 at 1.90")
    anna.waits(lambda it: not it.shows("lost") and len(it.rows("orders")) == 2)
    assert len(orders(venue)) == 2
    assert anna.find("#quantity").get_attribute("value") == ""


def test_an_order_outlasts_a_reload(venue: served.Served, anna: Page) -> None:
    venue.child.send_signal(signal.SIGSTOP)
    try:
        anna.types(quantity="20", price="1.90")
        anna.clicks("#send")
        anna.waits(lambda it: "buy 20 at 1.90" in it.text("said"))
        kept = anna.runs("return sessionStorage.getItem('venue.open')")
        assert '"quantity":20' in kept
    finally:
        venue.child.send_signal(signal.SIGCONT)
    anna.waits(lambda it: it.text("said") == "Order 1 entered: buy 20 at 1.90")
    anna.runs("sessionStorage.setItem('venue.open', arguments[0])", kept)
    anna.driver.refresh()
    anna.waits(lambda it: it.text("said") == "Order 1 entered: buy 20 at 1.90")
    assert len(orders(venue)) == 1


def test_a_venue_that_sleeps(venue: served.Served, anna: Page) -> None:
    enters(anna, "bid", "10", "2.00")
    anna.runs(LATE)
    begin = anna.runs("return performance.now()")
    venue.child.send_signal(signal.SIGSTOP)
    try:
        anna.waits(lambda it: it.shows("lost"))
        assert seconds(anna, "lost", begin) < LOST_SECONDS
        anna.clicks("#orders [data-name=delete]")
        anna.waits(lambda it: it.text("said").startswith("Not confirmed yet: delete order 1."))
    finally:
        venue.child.send_signal(signal.SIGCONT)
    anna.waits(lambda it: it.text("said") == "Order 1 deleted" and not it.shows("lost"))


def test_a_venue_that_ends_and_comes_again(tmp_path: pathlib.Path) -> None:
    port = served.free_port()
    with served.served(tmp_path, FAST, "--port", port) as first:
        with opened(tmp_path / "anna", first.url) as anna:
            joins(anna, first.code, "Anna")
            first.do("start")
            anna.waits(lambda it: not it.is_off("#send"))
            first.child.kill()
            first.child.communicate()
            anna.waits(lambda it: it.shows("lost"))
            anna.types(quantity="20", price="1.90")
            anna.clicks("#send")
            with served.served(tmp_path, FAST, "--port", port) as second:
                anna.waits(lambda it: it.text("said") == "Order 1 entered: buy 20 at 1.90")
                assert len(orders(second)) == 1

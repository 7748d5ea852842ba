"""What the venue says why: the German pages say it in German."""
import ast
import re
from collections.abc import Iterator
from typing import Any

import pytest
import served
from browsing import Page, joins, opened
from callauction.venue import messages
from callauction.venue.downloads import NotNowError
from callauction.venue.recovery import LONGER, OTHER_ENTRIES, OTHER_FIRST
from callauction.venue.timekeeping import (
    ENDED_BY_CLOCK, ENDED_SINCE, ENDED_WHILE_HALTED, WHAT_COMES,
)

PACKAGE = served.PACKAGE / "callauction/venue"
SAID = {"bad_message", "bad_phase", "bad_name", "above_limit", "not_covered", "no_shares"}
SAID |= {"no_money"}
"""The errors whose reason the pages add."""
FAULTS = {"PhaseError", "HandError"}
"""What becomes such an error."""
NOT_BY_PAGES = re.compile(
    "the operator can't|treatment is no|open is neither|kind is one|to is all|how is one|values is"
    "|a value has a member|.* is no (list of )?texts?$|shows is one|the (body|message) "
    "|the first message|this (is|isn't|look)|a ping|first is|auction is no"
    "|there is no (\\{\\} in|such round)|side is|only is|topics are|price is no text|a token"
    "|the book is closed|this day has no sessions by FIX|.* is there twice"
)
"""What only programs can do wrong: no page sends it."""
READ = """
const [reasons, settle] = arguments;
import("/pages/reasons.js").then((module) => settle(reasons.map((it) => module.reasonIn(it, "de"))),
  (fault) => settle(String(fault)));
"""


def text_of(node: ast.expr) -> str | None:
    """A text of the source, with {} for what it fills in; None where it is none."""
    if isinstance(node, ast.Constant) and isinstance(node.value, str):
        return node.value
    if isinstance(node, ast.JoinedStr):
        return "".join(text_of(it) or "{}" for it in node.values)
    return None


def reason_of(call: ast.Call) -> str | None:
    """The reason that a call of an exception's class says."""
    name = call.func.id if isinstance(call.func, ast.Name) else ""
    if name in FAULTS and call.args:
        return text_of(call.args[0])
    if name == "MessageError" and len(call.args) == 2:
        code = text_of(call.args[0])
        return text_of(call.args[1]) if code is None or code in SAID else None
    return text_of(call.args[1]) if name == "check_room" else None


def reasons() -> Iterator[str]:
    """All reasons that the package's sources have, each once."""
    found: dict[str, None] = {}
    for path in sorted(PACKAGE.glob("*.py")):
        for node in ast.walk(ast.parse(path.read_text("utf-8"))):
            if isinstance(node, ast.Call) and (reason := reason_of(node)):
                found[reason] = None
    yield from (it for it in found if not NOT_BY_PAGES.match(it))


FILLED = {
    "{} is no whole number from {} to {}": "seconds is no whole number from 1 to 86400",
    "the price {} {}": "the price 2.005 is no multiple of the tick size 0.01",
    "the reference {} {}": "the reference 2.005 is no multiple of the tick size 0.01",
    "a member has at most {} of an instrument":
        "a member has at most 64 open orders of an instrument",
    "line {}: {}": "line 2: unexpected end of data",
    "text {}": "text has more than 240 letters",
}
"""Reasons whose gaps have other reasons."""


@pytest.fixture(scope="module")
def page(tmp_path_factory: pytest.TempPathFactory) -> Iterator[Page]:
    """A page of a venue, whose modules can be asked."""
    folder = tmp_path_factory.mktemp("reasons")
    day = '[[round]]\ncovered = true\n'
    with served.served(folder, day) as venue, opened(folder / "page", venue.url) as found:
        found.runs("localStorage.setItem('venue.language', 'de')")
        found.driver.refresh()
        joins(found, venue.code, "Anna")
        venue.do("start")
        yield found


def in_german(page: Page, said: list[str]) -> list[str]:
    """What the German pages say."""
    driver: Any = page.driver
    found = driver.execute_async_script(READ, said)
    assert isinstance(found, list), found
    return found


def test_each_reason_is_said_in_german(page: Page) -> None:
    texts = [FILLED.get(it, it.replace("{}", "7")) for it in reasons()]
    assert len(texts) > 25 and messages.ERRORS.keys() >= SAID
    found = in_german(page, texts)
    assert [text for text, german in zip(texts, found) if text == german] == []
    assert [it for it in found if re.search(r"\{\}|undefined| the | is ", it)] == []


@pytest.mark.parametrize("said, german", [
    ("an order has at most 1000000 shares", "eine Order hat höchstens 1.000.000 Stück"),
    ("a member has at most 1040 commands, while a quarter of the day's is left, of an instrument",
     "ein Mitglied hat höchstens 1.040 Eingaben, solange am Tag nur noch ein Viertel übrig ist"),
    ("the value 11.00 isn't from 0.00 to 10.00",
     "der Wert 11,00 liegt nicht zwischen 0,00 und 10,00"),
    ("the phase is call and no longer waiting",
     "der Stand ist „Aufrufphase“ und nicht mehr „noch kein Aufruf“"),
    ("round: title 'a b' has more than 40 letters", "Titel: 'a b' hat mehr als 40 Zeichen"),
    ("round: title 'a<b' has <, > or a control character",
     "Titel: 'a<b' enthält <, > oder ein Steuerzeichen"),
    ("text has <, > or a control character", "hier steht <, > oder ein Steuerzeichen"),
    ("there is no member Ann {} from 1 to 2", "Ann {} from 1 to 2 ist kein Mitglied"),
    (ENDED_BY_CLOCK.format(7200.5, "XYZ"),
     "die Uhr ist der letzten Zeile des Protokolls 7.200,5 s voraus, der Aufruf von XYZ danach zu "
     "Ende"),
    (ENDED_SINCE.format(7200.5, "XYZ"),
     "die letzte Zeile des Protokolls ist 7.200,5 s alt, der Aufruf von XYZ seitdem zu Ende"),
    (ENDED_WHILE_HALTED.format("XYZ"),
     "der Aufruf von XYZ ging zu Ende, während es ausgesetzt war"),
    (WHAT_COMES[False], "„Verlängern“ hilft"),
    (WHAT_COMES[True].format(30), "er geht noch 30 s weiter, dann wird der Preis ermittelt"),
    (str(NotNowError("its process was ended by signal 9")),
     "das geht gerade nicht, der Prozess wurde durch Signal 9 beendet: noch einmal versuchen"),
    (str(NotNowError("memory is short")),
     "das geht gerade nicht, der Speicher ist knapp: noch einmal"),
    ("as nobody ever said", "as nobody ever said"),
])
def test_a_reason(page: Page, said: str, german: str) -> None:
    assert in_german(page, [said]) == [german]


HALTS = (
    "journal failed",
    "journal in use",
    "journal open failed",
    "the journal is missing",
    "the journal is missing, and the log knows of 3 entries",
    "the journal is an older one: it has 2 entries, and the log knows of 3",
    "the journal is another one: its first 3 entries aren't those of which the log knows",
    OTHER_FIRST,
    OTHER_ENTRIES,
    LONGER.format(4, 3),
    "the journal was changed while its program began",
    "the journal has entries, and the log none of its messages",
    "entry 3 of the journal is no message of the log",
    "/day/XYZ.journal.csv may be written by other users: chmod go-w",
    "/day/XYZ.journal.csv belongs to another user: find out who, then chown",
    "/day/XYZ.journal.csv is a link: put the file itself there",
    "/day/XYZ.journal.csv is no regular file: move it away",
    "the program was ended by signal 9",
    "the program hasn't answered for 10 s",
    "the program hasn't begun for 60 s",
    "the program can't be run: No such file or directory",
    "the program doesn't run",
    "the program answers entry 3 after entry 3",
    "the venue's log can't be written: it waits for the disk for more than 10 s",
    "the venue's log can't be written: No space left on device",
    "the venue's log can't be written: it was changed by others",
)
"""Why an instrument or the venue has halted, as the teacher's page says it."""


def test_each_reason_of_a_halt_is_said_in_german(page: Page) -> None:
    found = in_german(page, [*HALTS])
    english = "| the |is missing| aren't | isn't |can't|hasn't|doesn't|changed by|No space"
    assert [it for it in found if re.search(english.strip("|"), it)] == []
    assert [it for it in HALTS if it in found] == []


def test_a_member_reads_it(page: Page) -> None:
    page.waits(lambda it: not it.is_off("#send"))
    page.types(quantity="5", price="2,00")
    page.clicks("#send")
    page.waits(lambda it: it.text("said") == (
        "Ihr Wert deckt diese Stücke nicht; nichts wurde angenommen. "
        "(auf dieser Seite höchstens noch 0 Stück)"))

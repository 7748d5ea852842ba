"""Numbers as people type them on the pages: understood in the page's language, or refused with the
reason, and never taken as another number.
"""
import random
import re
from collections.abc import Iterator
from typing import Any

import pytest
import served
from browsing import Page, opened

TERMS = {"low": "0.50", "high": "20000.00", "tick_size": "0.05"}
MOST = 1_000_000
READ = """
const [kind, cases, terms, most, settle] = arguments;
import("/pages/numbers.js").then((numbers) => settle(cases.map(([words, language]) => {
  try {
    if (kind === "price") return numbers.priceOf(words, language, terms);
    if (kind === "quantity") return numbers.quantityOf(words, language, most);
    if (kind === "grouped") return numbers.grouped(words, language);
    return numbers.decimalOf(words, language);
  } catch (fault) {
    return fault.code ?? String(fault);
  }
})), (fault) => settle(String(fault)));
"""


@pytest.fixture(scope="module")
def page(tmp_path_factory: pytest.TempPathFactory) -> Iterator[Page]:
    """A page of a venue, whose modules can be asked."""
    folder = tmp_path_factory.mktemp("numbers")
    with served.served(folder) as venue, opened(folder / "page", venue.url) as found:
        yield found


def read(page: Page, kind: str, *cases: tuple[str, str]) -> Any:
    """What the module makes of texts, each in a language."""
    driver: Any = page.driver
    return driver.execute_async_script(READ, kind, [list(it) for it in cases], TERMS, MOST)


QUANTITIES = {
    "en": {
        "7": 7, " 1000 ": 1000, "1,000": 1000, "12,345": 12345, "1 000": 1000, "1,000,000": 1000000,
        "007": 7, "1\u00a0000": 1000, "1\u202f000": 1000, "1.000": "n_whole", "1,00": "n_whole",
        "1.5": "n_whole", "2.0": "n_whole", "0": "n_none", "0,000": "n_whole", "": "n_empty",
        "  ": "n_empty", "-5": "n_signed", "+5": "n_signed", "−5": "n_signed", "1e3": "n_unread",
        "0x10": "n_unread", "1,0000": "n_whole", "1,000,00": "n_unread", "12,34,567": "n_unread",
        "1234,567": "n_unread", "1.000.000": "n_unread", "1 00": "n_unread", "1'000": "n_unread",
        "ten": "n_unread", "٣": "n_unread", "１": "n_unread", "1 000,000": "n_unread",
        "1,000,001": "n_above", "9" * 40: "n_above", "NaN": "n_unread", "Infinity": "n_unread",
    },
    "de": {
        "7": 7, "1000": 1000, "1.000": 1000, "12.345": 12345, "1 000": 1000, "1.000.000": 1000000,
        "1,000": "n_whole", "1.00": "n_whole", "1,5": "n_whole", "1,000,000": "n_unread",
        "1.000.00": "n_unread", "1e3": "n_unread", "1.000.001": "n_above", "0": "n_none",
    },
}
PRICES = {
    "en": {
        "5.40": "5.40", "5,40": "5.40", "5,4": "5.40", ".55": "0.55", "0,55": "0.55", "5": "5.00",
        "1,234.50": "1234.50", "12,345.05": "12345.05", "1234.5": "1234.50", "1,234": "1234.00",
        "05.40": "5.40", "0,550": "0.55", "5.400": "5.40", "5.41": "n_step", "5.4001": "n_step",
        "0.45": "n_bounds", "20,000.05": "n_bounds", "30000": "n_bounds", "5.": "n_unread",
        ".": "n_unread", "5..4": "n_unread", "1.2.3": "n_unread", "1.234,50": "n_unread",
        "5,4,0": "n_unread", "market": "n_unread", "-5": "n_signed", "": "n_empty",
        "5 EUR": "n_unread", "1,23.50": "n_unread",
    },
    "de": {
        "5,40": "5.40", "5.40": "5.40", "1.234,50": "1234.50", "1.234": "1234.00",
        "1234,5": "1234.50",
        "5.400": "5400.00", "5,400": "5.40", "1,234.50": "n_unread", "5,": "n_unread",
        "0,45": "n_bounds", "5,41": "n_step",
    },
}


@pytest.mark.parametrize("language", ["en", "de"])
@pytest.mark.parametrize("kind, table", [("quantity", QUANTITIES), ("price", PRICES)])
def test_each_text(page: Page, kind: str, table: dict[str, Any], language: str) -> None:
    cases = table[language]
    found = read(page, kind, *((words, language) for words in cases))
    assert dict(zip(cases, found)) == cases


def whole_of(text: str, group: str) -> str | None:
    """The digits of a whole number that may have marks of thousands, all of one kind."""
    if re.fullmatch("[0-9]+", text):
        return text
    for mark in (group, " "):
        first, *others = text.split(mark)
        if others and re.fullmatch("[1-9][0-9]{0,2}", first):
            if all(re.fullmatch("[0-9]{3}", it) for it in others):
                return first + "".join(others)
    return None


def meaning(text: str, language: str) -> str | None:
    """The decimal that a text is in a language, None where it is none or could be two."""
    point, group = (".", ",") if language == "en" else (",", ".")
    front, mark, back = text.strip(" ").rpartition(point)
    if not mark:
        whole = whole_of(back, group)
        if whole is not None:
            return whole
    elif re.fullmatch("[0-9]+", back):
        whole = whole_of(front, group) if front else "0"
        if whole is not None:
            return f"{whole}.{back}"
    one, *rest = text.strip(" ").split(group)
    if len(rest) == 1 and re.fullmatch("[0-9]+", one) and re.fullmatch("[0-9]+", rest[0]):
        if one == "0" or len(rest[0]) != 3:
            return f"{one}.{rest[0]}"
    return None


def without_zeros(decimal: str) -> str:
    """A decimal without zeros in front."""
    return re.sub("^0+(?=[0-9])", "", decimal)


def test_texts_by_chance(page: Page) -> None:
    """As another reader of them, written otherwise, has it."""
    chance = random.Random(5)
    texts = ["".join(chance.choices("0123456789.,. ", k=chance.randint(1, 9))) for _ in range(6000)]
    texts = [text for text in texts if text.strip(" ")]
    for language in ("en", "de"):
        wanted = [meaning(text, language) for text in texts]
        found = read(page, "decimal", *((text, language) for text in texts))
        as_wanted = [it and without_zeros(it) for it in wanted]
        assert [it if not it.startswith("n_") else None for it in found] == as_wanted
        assert sum(it is not None for it in wanted) > 300


def test_no_text_is_two_numbers(page: Page) -> None:
    """Both languages read a text alike, but where its one mark has three digits behind it."""
    texts = [f"{whole}{mark}{part}" for whole in ("0", "5", "12", "123") for mark in ".,"
             for part in ("1", "12", "123", "1234")]
    english = read(page, "decimal", *((it, "en") for it in texts))
    german = read(page, "decimal", *((it, "de") for it in texts))
    other = [text for text, one, two in zip(texts, english, german) if one != two]
    assert set(other) == {text for text in texts if re.fullmatch("[1-9][0-9]*[.,]123", text)}


def test_what_is_shown_is_read_again(page: Page) -> None:
    chance = random.Random(6)
    numbers = [f"{chance.randrange(10 ** digits)}.{chance.randrange(100):02}"
               for digits in range(1, 12) for _ in range(20)]
    for language in ("en", "de"):
        shown = read(page, "grouped", *((it, language) for it in numbers))
        assert read(page, "decimal", *((it, language) for it in shown)) == numbers


def test_how_numbers_are_shown(page: Page) -> None:
    cases = ["1000", "999", "1234567.50", "-36.00", "0.5", "-1234"]
    english = read(page, "grouped", *((it, "en") for it in cases))
    german = read(page, "grouped", *((it, "de") for it in cases))
    assert english == ["1,000", "999", "1,234,567.50", "−36.00", "0.5", "−1,234"]
    assert german == ["1.000", "999", "1.234.567,50", "−36,00", "0,5", "−1.234"]



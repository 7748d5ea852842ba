"""Why an auction has its price, as the screen says it: each sentence holds of the book, by the
rules of docs/MODEL.md, which are stated again here.
"""
import random
import re
from collections.abc import Iterator, Mapping
from typing import Any

import pytest
import served
from browsing import Page, opened

ShownBook = dict[str, Any]
BookOrders = list[tuple[str, int, int]]
"""Sides, limits in cents, and shares."""
BOOKS = 2_000
MONEY = r"\d+[.,]\d\d"
READ = """
const [books, language, settle] = arguments;
localStorage.setItem("venue.language", language);
const venue = import("/pages/common.js"), why = import("/pages/why.js");
Promise.all([venue, why]).then(([, { reasonsOf }]) => settle(books.map(reasonsOf)),
  (fault) => settle(String(fault)));
"""


def written(cents: int) -> str:
    """A price as the venue writes it."""
    return f"{cents // 100}.{cents % 100:02}"


def kept_of(levels: list[ShownBook]) -> tuple[int, int]:
    """The lower and the upper of the best limits that are kept."""
    sides = {side: [it["cents"] for it in levels if it["side"] == side] for side in ("bid", "ask")}
    if not sides["bid"] and not sides["ask"]:
        return min(it["cents"] for it in levels), max(it["cents"] for it in levels)
    return max(sides["bid"], default=0), min(sides["ask"], default=10**9)


def book_of(orders: BookOrders, reference: int) -> ShownBook:
    """The book of limit orders as the venue's replay has it."""
    levels: list[ShownBook] = []
    for limit in sorted({it[1] for it in orders}, reverse=True):
        bid, ask = (
            sum(it[2] for it in orders if it[:2] == (side, limit)) for side in ("bid", "ask")
        )
        demand = sum(it[2] for it in orders if it[0] == "bid" and it[1] >= limit)
        supply = sum(it[2] for it in orders if it[0] == "ask" and it[1] <= limit)
        side = "bid" if demand > supply else "ask" if supply > demand else "none"
        levels.append({"price": written(limit), "cents": limit, "bid": bid, "ask": ask,
                       "demand": demand, "supply": supply, "volume": min(demand, supply),
                       "surplus": abs(demand - supply), "side": side})  # fmt: skip
    most = max(it["volume"] for it in levels)
    least = min(it["surplus"] for it in levels if it["volume"] == most)
    for it in levels:
        it["is_best"] = (it["volume"], it["surplus"]) == (most, least)
    found = {"levels": levels, "reference": written(reference), "market": {"bid": 0, "ask": 0}}
    return found | decided(levels, most, reference)


def decided(levels: list[ShownBook], most: int, reference: int) -> ShownBook:
    """The price of a book, in cents too, and the rule that made it."""
    best = [it for it in levels if it["is_best"]]
    if not most:
        return {"price": None, "rule": None}
    sides = {it["side"] for it in best}
    if len(best) == 1:
        rule, price = "single", best[0]["cents"]
    elif sides == {"bid"}:
        rule, price = "highest", max(it["cents"] for it in best)
    elif sides == {"ask"}:
        rule, price = "lowest", min(it["cents"] for it in best)
    else:
        low, high = kept_of(best)
        rule, price = "reference", min(max(reference, low), high)
    return {"price": written(price), "cents": price, "rule": rule}


def numbers(words: str) -> list[int]:
    """The prices that words name, in cents."""
    return [int(re.sub(r"\D", "", it)) for it in re.findall(MONEY, words)]


SIDES = {
    "en": rf"Of them ({MONEY}) is the highest with shares left to buy, "
    rf"({MONEY}) the lowest with some left to sell; of these two the reference chooses\.",
    "de": rf"Davon ist ({MONEY}) das höchste, bei dem Kauf übrig bleibt, "
    rf"({MONEY}) das niedrigste, bei dem Verkauf übrig bleibt; von den beiden wählt die Referenz\.",
}
CHOICES = {
    "en": {
        "above": rf"The reference, ({MONEY}), isn't below the higher of the two, so that is the "
        rf"price: ({MONEY})\.",
        "below": rf"The reference, ({MONEY}), isn't above the lower of the two, so that is the "
        rf"price: ({MONEY})\.",
        "between": rf"The reference, ({MONEY}), lies between them, so it is the price\.",
    },
    "de": {
        "above": rf"Die Referenz ({MONEY}) liegt nicht unter dem höheren der beiden, also ist das "
        rf"der Preis: ({MONEY})\.",
        "below": rf"Die Referenz ({MONEY}) liegt nicht über dem niedrigeren der beiden, also ist "
        rf"das der Preis: ({MONEY})\.",
        "between": rf"Die Referenz ({MONEY}) liegt dazwischen, also ist sie der Preis\.",
    },
}
"""What may be said where the reference decides, with the prices that it names."""


def check(book: ShownBook, said: list[str], language: str) -> None:
    """Raises AssertionError where a sentence on the reference isn't so, or one is missing."""
    best = [it for it in book["levels"] if it["is_best"]]
    low, high = kept_of(best)
    reference = numbers(book["reference"])[0]
    has_sides = any(it["side"] != "none" for it in best)
    *_, sides, last = ["", *said]
    assert bool(re.fullmatch(SIDES[language], sides)) == has_sides, (book, said)
    if has_sides:
        assert numbers(sides) == [low, high], (book, said)
    chosen = [key for key, it in CHOICES[language].items() if re.fullmatch(it, last)]
    assert len(chosen) == 1, said
    holds: Mapping[str, bool] = {
        "above": reference >= high, "below": reference <= low, "between": low < reference < high,
    }
    ends = {"above": [reference, high], "below": [reference, low], "between": [reference]}
    assert holds[chosen[0]] and numbers(last) == ends[chosen[0]], (book, said)


@pytest.fixture(scope="module")
def page(tmp_path_factory: pytest.TempPathFactory) -> Iterator[Page]:
    """A page of a venue, whose modules can be asked."""
    folder = tmp_path_factory.mktemp("why")
    with served.served(folder, "") as venue, opened(folder / "page", venue.url) as found:
        yield found


def said_of(page: Page, books: list[ShownBook], language: str) -> list[list[str]]:
    """The sentences of books in a language."""
    page.speaks(language)
    driver: Any = page.driver
    found = driver.execute_async_script(READ, books, language)
    assert isinstance(found, list), found
    return found


TIE: BookOrders = [("bid", 1200, 100), ("bid", 1150, 50), ("ask", 1150, 100), ("ask", 1175, 50)]
"""At 11.50 fifty are left to buy, at 11.75 and 12.00 fifty to sell."""


@pytest.mark.parametrize("reference, price, end", [
    (1200, "11.75", "The reference, 12.00, isn't below the higher of the two, so that is the "
     "price: 11.75."),
    (1175, "11.75", "The reference, 11.75, isn't below the higher of the two, so that is the "
     "price: 11.75."),
    (1160, "11.60", "The reference, 11.60, lies between them, so it is the price."),
    (1100, "11.50", "The reference, 11.00, isn't above the lower of the two, so that is the "
     "price: 11.50."),
])
def test_a_reference_beyond_the_kept_limits(
    page: Page, reference: int, price: str, end: str
) -> None:
    book = book_of(TIE, reference)
    assert (book["rule"], book["price"]) == ("reference", price)
    assert said_of(page, [book], "en") == [[
        "100 shares, the most, can be traded at each of 11.50, 11.75 and 12.00.",
        "Of them 11.50 is the highest with shares left to buy, 11.75 the lowest with some left to "
        "sell; of these two the reference chooses.", end]]


@pytest.mark.parametrize("language", ["en", "de"])
def test_each_sentence_holds(page: Page, language: str) -> None:
    chance = random.Random(7)
    books: list[ShownBook] = []
    while len(books) < BOOKS:
        orders = [
            (chance.choice(("bid", "ask")), chance.randrange(190, 211), 50)
            for _ in range(chance.choice((4, 8, 12, 20)))
        ]
        book = book_of(orders, chance.randrange(190, 211))
        if book["rule"] == "reference":
            books.append(book)
    for book, said in zip(books, said_of(page, books, language), strict=True):
        check(book, said, language)

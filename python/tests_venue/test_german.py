"""The German of a report: each sentence that the package gives for a price, and what it writes on a
picture.
"""
import re

import pandas
import pytest
from callauction import plot, reasons
from callauction.pages import new_figure
from callauction.venue import german

COLUMNS = ("command", "auction", "limit", "bid", "ask", "demand", "supply", "volume", "surplus",
           "side", "best", "rule")  # fmt: skip


def book(*levels: tuple[object, ...], market: tuple[int, int] = (0, 0)) -> pandas.DataFrame:
    """The book of an opening, the highest limit first."""
    orders = (7, "opening", None, *market, 0, 0, 0, 0, "none", 0, "")
    rows = [orders, *((7, "opening", *level) for level in levels)]
    frame = pandas.DataFrame(rows, columns=COLUMNS)
    return frame.astype({"limit": "Int64"})


ONE = book((201, 0, 9000, 1000, 10000, 1000, 9000, "ask", 0, ""),
           (200, 1500, 1000, 1500, 1000, 1000, 500, "bid", 1, "single"))  # fmt: skip


@pytest.mark.parametrize("said, wanted", [
    ("Limits 1.99, 2.00 and 2.50 execute most, 1,000.",
     "Die Limits 1,99; 2,00 und 2,50 führen am meisten aus: 1.000."),
    ("Only limits of orders are candidates: 1, 2 and so on up to 1234.5 (1,012 limits).",
     "Nur Limits von Orders kommen infrage: 1; 2 und so weiter bis 1234,5 (1.012 Limits)."),
    ("Both leave a surplus of 1,200 on the bid side, so the highest, 0.125, is the price.",
     "Beide lassen einen Überhang von 1.200 auf der Kaufseite, also ist das höchste, 0,125, der "
     "Preis."),
    ("The lesser of the two, 500, can be executed, and a surplus of 100 is left on the ask side.",
     "Das Kleinere von beiden, 500, kann ausgeführt werden, und ein Überhang von 100 bleibt auf "
     "der Verkaufsseite."),
    ("price 2.50, volume 1,000, surplus 5 bid", "Preis 2,50, Volumen 1.000, Überhang 5 Kauf"),
    ("as nobody ever said 1.5", "as nobody ever said 1,5"),
])
def test_a_sentence(said: str, wanted: str) -> None:
    assert german.sentence(said) == wanted


HIGH = (202, 100, 0, 100, 100, 100, 0, "none", 1)
LOW = (201, 0, 100, 100, 100, 100, 0, "none", 1)
BIDS = (202, 100, 0, 150, 100, 100, 50, "bid", 1), (201, 0, 100, 150, 100, 100, 50, "bid", 1)
ASKS = (202, 100, 0, 100, 150, 100, 50, "ask", 1), (201, 0, 100, 100, 150, 100, 50, "ask", 1)
MIXED = ASKS[0], BIDS[1]
MORE = (200, 5, 0, 105, 100, 100, 5, "bid", 0, "")
BOOKS = {
    "single": ONE,
    "alone": book((200, 100, 100, 100, 100, 100, 0, "none", 1, "single")),
    "least": book((*HIGH, ""), (*LOW, "reference"), MORE),
    "highest": book((*BIDS[0], "highest"), (*BIDS[1], "")),
    "lowest": book((*ASKS[0], ""), (*ASKS[1], "lowest")),
    "upper": book((*HIGH, "reference"), (*LOW, "")),
    "lower": book((*HIGH, ""), (*LOW, "reference")),
    "between": book((203, *HIGH[1:], ""), (202, 0, 0, *HIGH[3:8], 0, "reference"), (*LOW, "")),
    "mixed": book((*MIXED[0], "reference"), (*MIXED[1], "")),
    "one market": book((*HIGH, "reference"), (*LOW, ""), market=(30, 0)),
    "other market": book((*HIGH, "reference"), (*LOW, ""), market=(0, 30)),
    "both markets": book((*HIGH, "reference"), (*LOW, ""), market=(30, 40)),
    "market alone": book((202, 0, 0, 30, 40, 30, 10, "ask", 0, "market"), market=(30, 40)),
}
"""A book for each sentence of a price."""


@pytest.mark.parametrize("name", BOOKS)
def test_each_sentence_of_a_price_has_its_german(name: str) -> None:
    for said in reasons.explain(BOOKS[name], reference=202, named=lambda tick: f"{tick / 100:.2f}"):
        found = german.sentence(said)
        assert found != german.number(said), said
        assert not re.search(r"\b(the|is|are|of|and|so|bid|ask|on)\b|\d\.\d\d\b", found), found


def test_no_german_sentence_is_of_no_use() -> None:
    said = {it for table in BOOKS.values() for it in reasons.explain(table, reference=202)}
    sentences = [(it, words) for it, words in german.PATTERNS if words.endswith(".")]
    assert [words for it, words in sentences if not any(map(it.fullmatch, said))] == []


def test_a_picture() -> None:
    axes = plot.book(ONE, reference=201, tick_size="0.01", ax=new_figure().subplots())
    german.write_on(axes)
    assert axes.get_title(loc="left") == (
        "Eröffnung, vor Eingabe 7\nPreis 2,00, Volumen 1.000, Überhang 500 Kauf"
    )
    assert (axes.get_xlabel(), axes.get_ylabel()) == (
        "Menge (Stück)", "Limit (Preis, Schritt 0,01)"
    )
    assert {it.get_text() for it in axes.get_legend().get_texts()} == {
        "Nachfrage", "Angebot", "ausführbares Volumen", "beste Limits", "Überhang", "Preis 2,00",
        "Referenz 2,01",
    }
    assert "2,00" in [it.get_text() for it in axes.get_yticklabels()]
    axes.figure.draw_without_rendering()
    width = axes.get_legend().get_window_extent().width
    assert width <= axes.get_window_extent().width
    assert "10.000" in [it.get_text() for it in axes.get_xticklabels()]

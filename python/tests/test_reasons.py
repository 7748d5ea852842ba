"""Why this price: a sentence for each step that decided, with the book's numbers."""
from pathlib import Path

import callauction
import pytest
from callauction.course import references_of
from callauction.program import Day
from callauction.reasons import explain
from callauction.tables import books_of, journal_of
from days import EXAMPLES, day_of, stored
from explained import DECIDED, EXECUTED


def test_each_example_is_worked_out() -> None:
    assert sorted(DECIDED) == [file.stem for file in EXAMPLES]


@pytest.mark.parametrize("file", EXAMPLES, ids=[file.stem for file in EXAMPLES])
def test_each_book_of_an_example_is_explained(file: Path) -> None:
    books = stored(file.stem)
    wanted = DECIDED[file.stem]
    references = references_of(journal_of(day_of(file)), wanted)
    assert list(books["command"].unique()) == list(wanted)
    last = EXECUTED.get(file.stem, {})
    assert {*last} <= {*wanted}
    for command, sentences in wanted.items():
        whole = [*sentences, *last.get(command, [])]
        assert [*explain(books, command, references[command])] == whole


def test_without_a_reference_its_number_is_left_out() -> None:
    books = stored("reference_above")
    assert "The reference is at or above the higher of them, so 210 is the price." in explain(books)


def test_ticks_are_named_as_one_likes() -> None:
    books = stored("reference")
    text = str(explain(books, reference=200, named=lambda tick: f"{tick / 100:.2f}"))
    assert "Limits 1.90 and 2.10 execute most, 100." in text
    assert "The reference, 2.00, lies between them, so it is the price." in text


def test_many_limits_are_counted() -> None:
    orders = [f"1,enter,bid,5,{tick}\n2,enter,ask,5,{tick}\n" for tick in range(100, 109)]
    sentences = callauction.explain(books_of(Day("".join(orders).encode("ascii"))))
    assert sentences[0] == (
        "Only limits of orders are candidates: 100, 101 and so on up to 108 (9 limits)."
    )


def test_of_four_best_limits_the_reference_chooses() -> None:
    orders = ["bid,50,190", "bid,100,210", "ask,100,180", "ask,50,200"]
    text = "".join(f"1,enter,{order}\n" for order in orders)
    for reference, decision in (
        (170, "The reference, 170, is at or below the lower of them, so 190 is the price."),
        (195, "The reference, 195, lies between them, so it is the price."),
        (200, "The reference, 200, is at or above the higher of them, so 200 is the price."),
    ):
        books = books_of(Day(text.encode("ascii"), ("--reference", str(reference))))
        assert explain(books, reference=reference)[:4] == (
            "Only limits of orders are candidates: 180, 190, 200 and 210.",
            "Limits 180, 190, 200 and 210 execute most, 100.",
            "Some leave 50 on the bid side and others 50 on the ask side, so the highest of the "
            "first, 190, and the lowest of the others, 200, are kept.",
            decision,
        )


def test_sentences_are_shown_one_below_another() -> None:
    books = books_of(day_of(EXAMPLES[0]))
    found = explain(books)
    assert str(found) == "\n".join(found)
    assert found._repr_html_().count("<p>") == len(found)
    with pytest.raises(ValueError, match="no book before command 77"):
        explain(books, 77)

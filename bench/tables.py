"""The tables that the measures print, and whether those of two runs agree."""
import re

NUMBER = re.compile(r"\d[\d,]*(?:\.\d+)?")
"""A number in a cell of a table."""
MOST_APART = 0.05
"""How far the numbers of two runs may be from each other, as a part of the greater one."""


def numbers_in(text: str) -> list[tuple[str, str]]:
    """The numbers in the tables of a text, each with the row that it stands in."""
    rows = [line for line in text.splitlines() if line.startswith("| ")]
    return [(it, found) for it in rows for found in NUMBER.findall(it)]


def is_near(first: str, second: str) -> bool:
    """Whether two printed numbers are the same within MOST_APART, or by one of their last digit."""
    places = max(len(it.partition(".")[2]) for it in (first, second))
    one, other = (float(it.replace(",", "")) for it in (first, second))
    return abs(one - other) <= max(MOST_APART * max(one, other), 1.01 * 10**-places)


def apart(first: str, second: str) -> list[str]:
    """The rows of the second text's tables with a number that is far from the first's; all where
    the tables aren't of one form.
    """
    one, other = numbers_in(first), numbers_in(second)
    if len(one) != len(other):
        return [*dict.fromkeys(row for row, _ in other)]
    pairs = zip(one, other)
    return [*dict.fromkeys(row for (_, a), (row, b) in pairs if not is_near(a, b))]


def row(*cells: str) -> None:
    """Prints a row of a table."""
    print("| " + " | ".join(cells) + " |", flush=True)


def head(*cells: str) -> None:
    """Prints the first two rows of a table."""
    row(*cells)
    row(*["---"] * len(cells))

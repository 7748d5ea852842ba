"""The report of a venue as one HTML file, without network or script: what members are paid, and for
each round the audit of its journal, what members traded and gained, and each auction with its
reasons, its picture and its trades. Prices and money are those of the currency. It is in English
or in German.

It is a process of its own, for its memory: `python3 -m callauction.venue.report` reads what
downloads.py gives it from standard input.
"""
import html
import json
import pathlib
import re
import sys
from collections.abc import Callable, Sequence
from decimal import Decimal

import pandas

from callauction import plot
from callauction.pages import FIRST, Section, html_image, html_page, html_table, new_figure
from callauction.program import Day
from callauction.reasons import explain
from callauction.tables import audit_of, book_at, books_of
from callauction.venue import german, sheets
from callauction.venue.json_types import Json

PRICED = re.compile(r"(opening|intraday|closing|interrupted) price (\d+) volume (\d+)")
REPORT_MEMBERS = (
    *("name", "side", "value", "quantity"),
    *("bought", "paid", "sold", "received", "gain"),
)
REPORT_TRADES = ("trade", "buyer", "seller", "quantity", "price", "amount")
"""The columns of the tables of members and of trades."""
TEXTS = {
    "en": {
        "result": "Result",
        "paid": "What members gained in all rounds and are paid, {}",
        "record": "The record of {} entries is {}.",
        "legal": "legal",
        "not_legal": "not legal",
        "legal_part": "legal as far as it is whole",
        "efficiency": "Efficiency: {} of the greatest possible gain, {}",
        "members": "Members: quantities in shares, money in {}",
        "trades": "Trades: quantities in shares, money in {}",
        "removed": "{} (removed)",
        "nothing": "Nothing was executed.",
        "price": "price {} {}, {} shares",
        "picture": "Demand and supply.",
        "opening": "Opening",
        "intraday": "Intraday",
        "closing": "Closing",
        "interrupted": "Interrupted",
    },
    "de": {
        "result": "Ergebnis",
        "paid": "Was Mitglieder in allen Runden gewannen und ausgezahlt bekommen, {}",
        "record": "Die Aufzeichnung von {} Einträgen ist {}.",
        "legal": "regelgemäß",
        "not_legal": "nicht regelgemäß",
        "legal_part": "regelgemäß, soweit sie ganz ist",
        "efficiency": "Effizienz: {} des größten möglichen Gewinns, {}",
        "members": "Mitglieder: Mengen in Stück, Geld in {}",
        "trades": "Abschlüsse: Mengen in Stück, Geld in {}",
        "removed": "{} (entfernt)",
        "nothing": "Nichts wurde ausgeführt.",
        "price": "Preis {} {}, {} Stück",
        "picture": "Nachfrage und Angebot.",
        "opening": "Eröffnung",
        "intraday": "Untertägig",
        "closing": "Schluss",
        "interrupted": "Unterbrochen",
    },
}
"""What the report says; values fill the gaps."""
MARKUP = (
    ('<html lang="en">', '<html lang="de">'),
    ('<nav aria-label="Sections">', '<nav aria-label="Abschnitte">'),
    ('<span class="hint"> (scrolls sideways)</span>',
     '<span class="hint"> (seitlich schieben)</span>'),
)  # fmt: skip
"""What the markup of a page has in English, and in German."""
FIRST_ROWS = re.compile(re.escape(FIRST).replace(r"\{\}", r"([\d,]+)"))
"""What the caption of a table says that isn't whole."""


class WrittenNumber:
    """A decimal number in a table, as it is written."""

    def __init__(self, text: str) -> None:
        self.text = text

    def __str__(self) -> str:
        return self.text


def said(asked: Json, key: str, *values: str) -> str:
    """What the report says in its language, with these values in the gaps."""
    language = asked["language"]
    if language == "de":
        values = tuple(map(german.number, values))
    return TEXTS[language][key].format(*values)


def html_of(asked: Json) -> str:
    """The page of what downloads.asked_of says."""
    parts = paid_part(asked)
    for board in asked["boards"]:
        parts += board_part(asked, board)
    page = html_page(asked["title"], parts)
    return in_german(page) if asked["language"] == "de" else page


def in_german(page: str) -> str:
    """A page whose markup is in German too."""
    for english, other in MARKUP:
        page = page.replace(english, other)
    return FIRST_ROWS.sub(lambda it: german.number(f" (die ersten {it[1]} von {it[2]})"), page)


def paid_part(asked: Json) -> list[Section]:
    """What members are paid, who gained most first."""
    rows = [marked(asked, row) for row in asked["results"] if row["round"] == "all"]
    if not rows:
        return []
    caption = said(asked, "paid", asked["currency"])
    table = table_of(asked, rows, ("name", "gain", "payoff"), caption, "paid")
    return [(said(asked, "result"), table)]


def board_part(asked: Json, board: Json) -> list[Section]:
    """The part of a board: its audit, its members, its auctions."""
    day = Day(pathlib.Path(board["journal"]).read_bytes())
    text = audited(asked, day) + efficiency(asked, board) + members_part(asked, board)
    for command, book in auctions_of(day):
        text += auction_of(asked, board, day, command, book)
    return [(board["title"], text)]


def audited(asked: Json, day: Day) -> str:
    """Whether all replies of a journal are lawful."""
    counts = audit_of(day).attrs
    verdict = "legal" if counts["is_legal"] else "not_legal"
    if counts["is_legal"] and counts.get("is_cut"):
        verdict = "legal_part"
    look = "good" if counts["is_legal"] else "bad"
    words = said(asked, "record", f"{counts['entries']:,}", said(asked, verdict))
    return f'<p class="{look}">{words}</p>'


def efficiency(asked: Json, board: Json) -> str:
    """How much of the greatest possible gain there was."""
    if board["efficiency"] is None:
        return ""
    words = said(asked, "efficiency", board["efficiency"], board["possible"])
    return f"<p>{words} {html.escape(board['currency'])}.</p>"


def members_part(asked: Json, board: Json) -> str:
    """What the members of a board traded and gained."""
    rows = [
        marked(asked, row)
        for row in asked["results"]
        if (row["round"], row.get("instrument")) == (str(board["round"]), board["instrument"])
    ]
    if not rows:
        return ""
    caption = said(asked, "members", board["currency"])
    return table_of(asked, rows, REPORT_MEMBERS, caption, f"members-{board['key']}")


def marked(asked: Json, row: Json) -> Json:
    """A row of the results, with the mark of a member who was removed behind its name."""
    if row.get("removed") != "yes":
        return row
    return row | {"name": TEXTS[asked["language"]]["removed"].format(row["name"])}


def table_of(
    asked: Json, rows: list[Json], columns: Sequence[str], caption: str, name: str
) -> str:
    """A table of these columns of rows, in the language of the report."""
    language = asked["language"]
    heads = [sheets.head("may" if it == "side" else it, language) for it in columns]
    cells = [[cell_of(it, row.get(it, ""), language) for it in columns] for row in rows]
    return html_table(pandas.DataFrame(cells, columns=heads), caption, name)


def cell_of(column: str, value: str, language: str) -> object:
    """A cell: a decimal number goes to the right in its column, also where it is below 0."""
    text = sheets.cell(column, value, language)
    return WrittenNumber(text) if text and column in sheets.DECIMAL_COLUMNS else text


def auctions_of(day: Day) -> list[tuple[int, pandas.DataFrame]]:
    """The books before the uncrosses of a day, by the numbers of their commands."""
    books, replies = books_of(day), replies_of(day)
    commands = sorted({int(it) for it in books["command"]})
    return [(it, book_at(books, it)) for it in commands if PRICED.match(replies.get(it, ""))]


def replies_of(day: Day) -> dict[int, str]:
    """The replies to the uncrosses of a journal by the numbers of their commands, in ticks."""
    lines = day.content.decode("ascii").splitlines()[1:]
    rows = (line.rpartition(",") for line in lines)
    return {place: reply for place, (record, _, reply) in enumerate(rows, 1) if "uncross" in record}


def reference_before(day: Day, command: int) -> int:
    """The reference price before a command, in ticks: the last price, or the first reference."""
    first = day.content.decode("ascii").partition("\n")[0]
    found = int(first.split(",")[REFERENCE_FIELD])
    for place, reply in replies_of(day).items():
        priced = PRICED.match(reply)
        if place < command and priced and priced[1] != "interrupted":
            found = int(priced[2])
    return found


REFERENCE_FIELD = 3
"""The field of a day record that has the reference."""


def auction_of(
    asked: Json, board: Json, day: Day, command: int, book: pandas.DataFrame
) -> str:
    """An auction: its price, why it is that, its picture, its trades."""
    found = PRICED.match(replies_of(day)[command])
    assert found is not None
    named, size = namer(board["tick_size"]), board["tick_size"]
    reference = reference_before(day, command)
    sentences = [*explain(book, command, reference, named)]
    figure = new_figure()
    axes = plot.book(book, reference=reference, tick_size=size, ax=figure.subplots())
    if asked["language"] == "de":
        sentences = [*map(german.sentence, sentences)]
        german.write_on(axes)
    shown = said(asked, "price", named(int(found[2])), board["currency"], f"{int(found[3]):,}")
    head = html.escape(f"{said(asked, found[1])}: {shown}")
    steps = "".join(f"<li>{html.escape(sentence)}</li>" for sentence in sentences)
    label = f"{said(asked, 'picture')} {' '.join(sentences[-2:])}"
    name = f"{board['key']}-{command}"
    return (
        f"<h3>{head}</h3><ol>{steps}</ol>"
        f"{html_image(figure, label, name)}{trades_part(asked, board, found[1], name)}"
    )


def namer(tick_size: str) -> Callable[[int], str]:
    """What writes a tick as a price."""
    size = Decimal(tick_size)
    return lambda tick: format(tick * size, "f")


def trades_part(asked: Json, board: Json, auction: str, name: str) -> str:
    """The trades of an auction with the names of both members; none where it was interrupted."""
    where = str(board["round"]), board["instrument"], auction
    rows = [
        row
        for row in asked["trades"]
        if (row["round"], row["instrument"], row["auction"]) == where
    ]
    if not rows:
        return f"<p>{said(asked, 'nothing')}</p>"
    caption = said(asked, "trades", board["currency"])
    return table_of(asked, rows, REPORT_TRADES, caption, f"trades-{name}")


if __name__ == "__main__":
    sys.stdout.write(html_of(json.load(sys.stdin)))

"""Tables as CSV files: for programs with commas and decimal points, and for a spreadsheet of a
language as that reads them.
"""
import csv
import io
from collections.abc import Iterable, Sequence

PLAIN = ""
"""The language of a table for programs."""
SHEET_LANGUAGES = (PLAIN, "en", "de")
SIGNATURE = "\ufeff"
"""By it a spreadsheet knows that a file is UTF-8."""
DECIMAL_COLUMNS = frozenset(
    ("value", "paid", "received", "gain", "possible", "efficiency", "payoff", "price", "amount")
)
"""The columns that are decimal numbers."""
GERMAN_HEADS = {
    "round": "Runde", "title": "Titel", "practice": "Übung", "instrument": "Wertpapier",
    "name": "Name", "robot": "Roboter", "side": "Seite", "value": "Wert", "quantity": "Menge",
    "bought": "gekauft", "paid": "bezahlt", "sold": "verkauft", "received": "erhalten",
    "gain": "Gewinn", "possible": "möglicher Gewinn", "efficiency": "Effizienz",
    "payoff": "Auszahlung", "auction": "Auktion", "trade": "Abschluss", "buyer": "Käufer",
    "seller": "Verkäufer", "price": "Preis", "amount": "Betrag", "number": "Nummer", "may": "darf",
    "removed": "entfernt",
}  # fmt: skip
"""What the columns are in German."""
GERMAN_CELLS = {
    "round": {"all": "alle"},
    "practice": {"yes": "ja", "no": "nein"},
    "removed": {"yes": "ja", "no": "nein"},
    "side": {"bid": "Kauf", "ask": "Verkauf"},
    "robot": {"zero": "zufällig", "truthful": "Wert", "shading": "unter Wert"},
    "auction": {"opening": "Eröffnung", "intraday": "untertägig", "closing": "Schluss"},
}
"""What cells of a column are in German, where they are words of the venue."""
SheetRow = dict[str, object]


def table(columns: Sequence[str], rows: Iterable[SheetRow], language: str = PLAIN) -> bytes:
    """A CSV file; for a spreadsheet in a language of SHEET_LANGUAGES it is marked as UTF-8, and in
    German it has semicolons between, decimal commas and German words.
    """
    text = io.StringIO()
    mark = ";" if language == "de" else ","
    writer = csv.writer(text, delimiter=mark, lineterminator="\n")
    writer.writerow([head(column, language) for column in columns])
    for row in rows:
        writer.writerow([cell(it, row.get(it, ""), language) for it in columns])
    return (SIGNATURE * (language != PLAIN) + text.getvalue()).encode("utf-8")


def head(column: str, language: str) -> str:
    """What heads a column."""
    return GERMAN_HEADS[column] if language == "de" else column


def cell(column: str, value: object, language: str) -> str:
    """A cell of a column."""
    if language != "de":
        return str(value)
    if column in DECIMAL_COLUMNS:
        return decimal(str(value), language)
    return GERMAN_CELLS.get(column, {}).get(str(value), str(value))


def decimal(text: str, language: str) -> str:
    """A decimal number as a spreadsheet of a language reads it."""
    return text.replace(".", ",") if language == "de" else text

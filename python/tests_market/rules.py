"""What the rules say of a journal, by the model of checks/model, which shares no code with the
program; and random journals.
"""
import pathlib
import sys
from typing import Any

sys.path.insert(0, str(pathlib.Path(__file__).resolve().parents[2]))

from checks.generators import journals, orders  # noqa: E402
from checks.model import answers  # noqa: E402
from checks.model.files import whole_part  # noqa: E402

AUCTIONS = ("opening", "intraday", "closing")
UNLAWFUL, INCOMPLETE = 4, 5
COUNTS = {"entries", "compared", "unlawful"}
"""The lines of an audit that count."""

Texts = dict[str, str]
"""Journals by their instruments; a character is a byte."""
KnownColumns = dict[str, Any]
"""The columns of a row that are not None, without the seconds."""


def random_texts(count: int, kind: str = "short") -> Texts:
    """The random journals of the first seeds, in whole lines; one in four, about, is spoiled."""
    texts = {}
    for seed in range(1, count + 1):
        given = orders.order_file(kind, seed)
        text = journals.journal_of(kind, seed, *given)[1]
        texts[f"{kind} {seed}"] = text if text.endswith("\n") else text + "\n"
    return texts


def answer(text: str, form: str) -> answers.Answer:
    """The status, the output and the standard error that the rules give for a journal."""
    return answers.answer(text, answers.DEFAULTS, form)


def row_of(instrument: str, text: str) -> KnownColumns:
    """What the rules say of a journal."""
    status, audit, fault = answer(text, "audit")
    if fault:
        return {"instrument": instrument, "fault": fault.splitlines()[0]}
    row: KnownColumns = {"instrument": instrument, "auctions": 0, "trades": 0}
    counts = [line.split() for line in audit.splitlines() if line.split()[0] in COUNTS]
    row |= {name: int(count) for name, count in counts}
    if status == UNLAWFUL:
        row["first_unlawful"] = int(audit.split(":")[0])
    whole = whole_part(text)
    for line in answer(whole, "lines")[1].splitlines():
        take_uncross(row, line.split(": ", 1)[1].split())
    if whole == text:
        row["day"] = (*AUCTIONS, "over")[row["auctions"]]
    return row


def status_of(rows: list[KnownColumns]) -> int:
    """The status of an audit with these rows."""
    if any("fault" in row for row in rows):
        return 1
    if any(row["unlawful"] for row in rows):
        return UNLAWFUL
    is_whole = all(
        row["compared"] == row["entries"] and row.get("day") == "over" for row in rows
    )
    return 0 if is_whole and any(row["compared"] for row in rows) else INCOMPLETE


def take_uncross(row: KnownColumns, words: list[str]) -> None:
    """Takes in what the words of a reply say of an auction that ended, if they do."""
    if words[0] not in AUCTIONS:
        return
    row["auctions"] += 1
    if words[1] == "price":
        row[f"{words[0]}_price"] = int(words[2])
        row[f"{words[0]}_volume"] = int(words[4])
        row[f"{words[0]}_surplus"] = int(words[6])
        row[f"{words[0]}_side"] = words[7]
        row["trades"] += int(words[9])


def rows_of(texts: Texts) -> list[KnownColumns]:
    """What the rules say of journals, in the order of their instruments."""
    return [row_of(instrument, texts[instrument]) for instrument in sorted(texts)]

"""Hidden shares of iceberg orders that rows may lack, as orders are executed with more than theirs.
"""
import dataclasses

import numpy

from callauction.verdict.cells import Ints
from callauction.verdict.judging import Judge
from callauction.verdict.paths import Judged, Judgement
from callauction.verdict.phases import recorded_sums
from callauction.verdict.rows import RESTRICTION_OF, CellCode, Kind, PriceCode, Rows
from callauction.verdict.rules import Rules

MORE = "row {} has {:,} shares, and {:,} are executed: are hidden ones missing?{}"
COLUMN = " (or a column peak)"


def lacking(found: Judgement, rows: Rows) -> tuple[Rows, str] | None:
    """The rows with the shares that orders lack to what was executed of them, and why; None where
    none lacks any, or a column says their peaks.
    """
    if rows.has_peaks:
        return None
    more, why = numpy.zeros(len(rows.kind), "i8"), ""
    entered = rows.entered(len(rows.names.ids) + 1)
    for judged in found.uncrosses:
        book = dict(zip(judged.book.key.tolist(), judged.book.quantity.tolist()))
        made = recorded_sums(rows, judged.traded, judged.filled).by_key()
        for key, shares in made.items() if judged.result is not None else ():
            place = _row_of(rows, key, judged.place) if shares > book.get(key, 0) else -1
            counts = (CellCode.MISSING, RESTRICTION_OF[judged.auction])
            if place >= 0 and rows.restriction[entered[key]] in counts:
                more[place] += shares - book.get(key, 0)
                own, hint = int(rows.quantity[place]), COLUMN * ("peak" not in rows.names.theirs)
                why = why or MORE.format(rows.labels[place], own, own + int(more[place]), hint)
    return (dataclasses.replace(rows, quantity=rows.quantity + more), why) if why else None


def _row_of(rows: Rows, key: int, below: int) -> int:
    """The last row above a place that gives an order its shares; below 0 where it has none there.
    """
    those = numpy.flatnonzero(rows.key[:below] == key)
    gone = those[(rows.kind[those] == Kind.CANCEL) & (rows.quantity[those] <= 0)]
    given = those[(rows.kind[those] == Kind.NEW) | (rows.kind[those] == Kind.REPLACE)]
    return int(given[-1]) if len(given) and not len(gone) else -1


def with_rests(day: tuple[Rows, Rules]) -> tuple[Rows, Rules]:
    """The rows with more shares of the last order that may trade of a side, where a published
    surplus has them: hidden ones behind the executed ones. Raises ExtractError and ProgramError.
    """
    rows, rules = day
    for _ in rules.due:
        gaps = (_gap(rows, each) for each in Judge(rows, rules).judge().uncrosses)
        place, shares = next((it for it in gaps if it[0] >= 0), (-1, 0))
        if place < 0:
            break
        quantity: Ints = rows.quantity.copy()
        quantity[place] += shares
        rows = dataclasses.replace(rows, quantity=quantity)
    return rows, rules


def _gap(rows: Rows, judged: Judged) -> tuple[int, int]:
    """The row of the order whose shares a published surplus has too, and how many more these are;
    below 0 for none.
    """
    side, price = int(rows.side[judged.place]), int(rows.price[judged.place])
    if judged.result is None or side not in (1, 2) or price < 0:
        return -1, 0
    due = judged.result.surplus if judged.result.side in (0, side) else -judged.result.surplus
    shares, book = int(rows.surplus[judged.place]) - due, judged.book
    level = book.price if side == 1 else -book.price
    limit = price if side == 1 else -price
    may = (book.price == PriceCode.MARKET) | (level >= limit)
    these = book.ranked((book.side == side) & book.counted(judged.auction) & may)
    if shares <= 0 or not len(these):
        return -1, 0
    return _row_of(rows, int(book.key[these[-1]]), judged.place), shares

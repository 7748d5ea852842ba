"""Ids that replaces give in a column that isn't read, by which rows name orders that none enters:
which column says them. Two instruments may have an id in common: each has its own orders.
"""
import dataclasses
from collections.abc import Container, Iterable, Mapping

import numpy

from callauction.verdict.cells import Codes, Ints
from callauction.verdict.columns import is_id
from callauction.verdict.respelling import MOST_TEXTS
from callauction.verdict.rows import BadRow, Doubt, Kind, Rows

BEFORE = "{} has {!r}: is it that order? (--columns replace.order={},replace.new_order={})"
AFTER = "{} of row {} has that id: did the replace give it? (--columns new_order={})"
Id = tuple[int, str]
"""The number of an instrument, and an id that rows of it have."""


def look_for_given(rows: Rows, instruments: Codes) -> None:
    """Takes replaces of orders that no row enters for unread ones of that which a column that isn't
    read names, where a row enters it; and says which such column of a replace has the id of a trade
    whose order no row enters. `instruments` numbers the instrument of each row.
    """
    lost = [it.place for it in rows.bad if it.kind == Kind.REPLACE and it.doubt is Doubt.ORDER]
    made, own = _unknown(rows, instruments), rows.names.theirs.get("order")
    if own is None or not (lost or made) or len(lost) + len(made) > MOST_TEXTS:
        return
    numbers = {*instruments[lost].tolist(), *(number for number, _ in made)}
    entered = _entered(rows, instruments, numbers)
    for column in rows.names.unread:
        told = {place: (int(instruments[place]), _before(rows, place, column)) for place in lost}
        those = {place: it for place, it in told.items() if it in entered}
        rows.key[[*those]] = [entered[it] for it in those.values()]
        said = {place: BEFORE.format(column, text, column, own)
                for place, (_, text) in those.items()}  # fmt: skip
        rows.bad = [_in_doubt(it, said.get(it.place, "")) for it in rows.bad]
        given = _after(rows, instruments, made, column) if made else {}
        rows.given |= given
        done = {number for number, _ in those.values()}
        lost = [place for place in lost if instruments[place] not in done]
        done |= {*instruments[[*given]].tolist()}
        made = {it for it in made if it[0] not in done}


def _entered(rows: Rows, instruments: Codes, numbers: Iterable[int]) -> dict[Id, int]:
    """By their ids the keys of the orders that rows of these instruments enter."""
    news = rows.of(Kind.NEW)
    news = news[numpy.isin(instruments[news], [*numbers])]
    keys = rows.key[news].tolist()
    numbers = instruments[news].tolist()
    return {(number, rows.names.order(key)): key for number, key in zip(numbers, keys)}


def _in_doubt(row: BadRow, why: str) -> BadRow:
    """A row that may be of another order, where it is said why."""
    if not why:
        return row
    return dataclasses.replace(row, why=f"{row.why}: {why}", doubt=Doubt.BOOKS, since=row.place)


def _unknown(rows: Rows, instruments: Codes) -> set[Id]:
    """The ids in trades and fills of orders that no row enters."""
    entered = rows.entered(len(rows.names.ids) + 1)
    parts = ((rows.bid, Kind.TRADE), (rows.ask, Kind.TRADE), (rows.key, Kind.FILL))
    keys = {pair for it, kind in parts for these in [rows.of(kind)]
            for pair in zip(it[these].tolist(), instruments[these].tolist())}  # fmt: skip
    return {(number, rows.names.order(key)) for key, number in keys if key >= 0 > entered[key]}


def _before(rows: Rows, place: int, column: str) -> str:
    """The id that a column of a replace has; empty for none. A number may be anything but in a
    column of ids.
    """
    text = rows.names.their_cell(place, column)
    return text if is_id(column) or not text.isdigit() else ""


def _after(rows: Rows, instruments: Codes, made: Container[Id], column: str) -> Mapping[int, str]:
    """By the place of the first replace of an instrument that has one of these ids in a column, how
    it has.
    """
    replaces: Ints = rows.of(Kind.REPLACE)
    codes, texts = rows.names.texts(replaces, column)
    found = dict[int, int]()
    for at, code, number in zip(replaces.tolist(), codes.tolist(), instruments[replaces].tolist()):
        text = texts[code] if code >= 0 else ""
        if (number, text) in made and (is_id(column) or not text.isdigit()):
            found.setdefault(number, at)
    return {at: AFTER.format(column, rows.labels[at], column) for at in found.values()}

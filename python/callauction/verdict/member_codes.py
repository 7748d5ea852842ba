"""Members whose trades have a code that no order has: after a merger, or where others execute."""
import dataclasses

import numpy
import pandas

from callauction.verdict.cells import Ints
from callauction.verdict.respelling import is_placeholder
from callauction.verdict.rows import OF_ORDERS, CellCode, Kind, Rows

RENAMED = "members of trades may be renamed: {} in orders, {} in trades{}"
_PARTS = (
    ("bid_member", Kind.TRADE, "bid"),
    ("ask_member", Kind.TRADE, "ask"),
    ("member", Kind.FILL, "key"),
)
"""The columns that say members, of which rows, and which of their ids is of the order."""


def without_codes(rows: Rows) -> tuple[Rows, str] | None:
    """The rows with members as orders have them for codes that only trades and fills have, and why;
    None where no code seems to be a member's other name. Such a code is of one member, or of those
    alone that have no other, and at two sides of rows at least, or there are more such codes, or it
    begins their names, as a firm's those of its desks; it is of more orders than one, whose entry
    may be wrong.
    """
    said = _said(rows)
    meant = _meant(said, rows)
    own = said[said["code"] != ""].merge(meant, on=["owner", "code"])
    is_sure = (meant["many"] > 1).any() or own.loc[own["is_whole"], "place"].nunique() > 1
    if not is_sure or own["order"].nunique() < 2:
        return None
    changed = {}
    for column, _, _ in _PARTS:
        these = own[own["column"] == column]
        changed[column] = getattr(rows, column).copy()
        changed[column][these["place"]] = these["owner"]
    first, others = own.sort_values("place", kind="stable").iloc[0], len(meant) - 1
    more = f", and {others} other{'s' * (others > 1)}" if others else ""
    name = rows.names.member(int(first["owner"]))
    return dataclasses.replace(rows, **changed), RENAMED.format(name, first["code"], more)


def _said(rows: Rows) -> "pandas.DataFrame":
    """What trades and fills say of the members of orders: their rows, in which column, the order,
    its member, and the code that no order has, empty where it is that member. Rows with a member
    of other orders, or a word for none, are left out.
    """
    entered, known, parts = rows.entered(len(rows.names.ids) + 1), _known(rows), []
    for column, kind, ids in _PARTS:
        these = rows.of(kind)
        these = these[entered[getattr(rows, ids)[these]] >= 0]
        order, said = getattr(rows, ids)[these], getattr(rows, column)[these]
        owner = rows.member[entered[order]]
        is_new = (said != CellCode.MISSING) & ~numpy.isin(said, known)
        cells = {"place": these, "column": column, "order": order, "owner": owner, "code": ""}
        part = pandas.DataFrame(cells)
        part.loc[is_new, "code"] = _texts(rows, these[is_new], column)
        parts.append(part[(owner >= 0) & (is_new | (said == owner))])
    found = pandas.concat(parts, ignore_index=True)
    words = [*filter(is_placeholder, found["code"].unique().tolist())]
    return found[~found["code"].isin(words)]


def _known(rows: Rows) -> Ints:
    """The members that rows of orders have, those that can't be read too."""
    bad = [row.place for row in rows.bad if row.kind in OF_ORDERS and row.place >= 0]
    orders = numpy.union1d(rows.of(*OF_ORDERS), numpy.array(bad, "i8"))
    found: Ints = numpy.unique(rows.member[orders])
    return found


def _texts(rows: Rows, these: Ints, column: str) -> list[str]:
    """The members that these rows say in a column of ours, as Names.recorded has them."""
    numbers, theirs = getattr(rows, column)[these].tolist(), rows.names.theirs.get(column)
    texts = [rows.names.member(number) for number in numbers]
    if theirs is None:
        return texts
    codes, words = rows.names.texts(these, theirs)
    return [words[code] if code >= 0 else text for code, text in zip(codes.tolist(), texts)]


def _meant(said: "pandas.DataFrame", rows: Rows) -> "pandas.DataFrame":
    """Members of orders with the code of their trades: of how many sides of these, whether of all,
    and whether it begins their names.
    """
    new = said[said["code"] != ""]
    many = new.groupby(["owner", "code"]).size().reset_index(name="many")
    whole = said.groupby("owner").size()
    many["is_whole"] = many["many"] == many["owner"].map(whole)
    names = (rows.names.member(owner).casefold() for owner in many["owner"])
    codes = many["code"].str.casefold()
    many["is_desk"] = [name.startswith(code) for name, code in zip(names, codes)]
    is_only = many.groupby("code")["owner"].transform("size") == 1
    good = many[is_only | many["is_whole"] & ((many["many"] > 1) | many["is_desk"])]
    found = good.sort_values("many", ascending=False, kind="stable").drop_duplicates("owner")
    return found

"""Orders whose entry says another member than all other rows of theirs: either may be wrong."""
import dataclasses
from collections.abc import Iterator
from typing import NamedTuple

import numpy

from callauction.verdict.cells import Ints
from callauction.verdict.columns import look_of
from callauction.verdict.respelling import is_placeholder
from callauction.verdict.rows import BadRow, CellCode, Kind, Rows

ENTRIES_A_FAULT = 20
"""Of so many entries one may be wrong at most, or one of less."""
WRONG = "row {} says that order {!r} is {}'s, and {} that it is {}'s: is the first wrong?"


class _Said(NamedTuple):
    """A row says of an order, in a column of ours, that it is of a member."""

    key: int
    place: int
    column: str
    member: str


class Owners:
    """What a day's rows say of the members of orders."""

    def __init__(self, rows: Rows) -> None:
        self.rows = rows
        self.entered = rows.entered(len(rows.names.ids) + 1)
        owned = self.entered[self.entered >= 0]
        self.owner = numpy.full(len(self.entered), CellCode.MISSING, "i8")
        self.owner[rows.key[owned]] = rows.member[owned]
        self.lost = {row.place: row for row in rows.bad
                     if row.kind == Kind.REPLACE and row.place >= 0}  # fmt: skip
        """The replaces that aren't read, as those by others than their order's member."""

    def told(self) -> tuple[Rows, str] | None:
        """The rows, of which all that say so of an order are of its entry's member, and why; None
        where the entry of no order may be wrong, or those of too many.
        """
        those = self._wrong()
        entries = int((self.owner >= 0).sum())
        if not 0 < len(those) <= max(1, entries // ENTRIES_A_FAULT):
            return None
        return self._with_owners(those), self._why(next(iter(those.values())))

    def _parts(self) -> Iterator[tuple[str, Ints, Ints]]:
        """The rows that say a member in a column, with the orders that they say it of."""
        rows = self.rows
        traded, lost = rows.of(Kind.TRADE), numpy.array([*self.lost], "i8")
        yield "bid_member", traded, rows.bid[traded].astype("i8")
        yield "ask_member", traded, rows.ask[traded].astype("i8")
        own = numpy.concatenate([rows.of(Kind.FILL, Kind.REPLACE, Kind.CANCEL), lost])
        yield "member", own, rows.key[own].astype("i8")

    def _wrong(self) -> dict[int, list[_Said]]:
        """By its key what rows say of an order whose entry may be wrong: all one other member."""
        rows, odd = self.rows, dict[int, list[_Said]]()
        agreed = numpy.zeros(len(self.owner), bool)
        parts = [*self._parts()]
        for column, places, keys in parts:
            same = (keys >= 0) & (getattr(rows, column)[places] == self.owner[keys])
            agreed[keys[same]] = True
        for column, places, keys in parts:
            members = getattr(rows, column)[places]
            is_named = (keys >= 0) & (members != CellCode.MISSING)
            differs = is_named & (self.owner[keys] >= 0) & ~agreed[keys]
            differs &= (members != self.owner[keys]) & (rows.kind[places] != Kind.CANCEL)
            for place, key in zip(places[differs].tolist(), keys[differs].tolist()):
                name = rows.names.recorded(place, column, int(getattr(rows, column)[place]))
                odd.setdefault(key, []).append(_Said(key, place, column, name))
        return {key: own for key, own in odd.items() if self._may_be_wrong(own)}

    def _may_be_wrong(self, said: list[_Said]) -> bool:
        """Whether all say one member, who has another order, is said in two rows, or whose name
        looks like those of others.
        """
        name, rows = said[0].member, self.rows
        if any(it.member != name for it in said) or is_placeholder(name):
            return False
        entry = int(self.entered[said[0].key])
        others = rows.of(Kind.NEW)
        others = numpy.unique(rows.member[others[others != entry]])
        names = {rows.names.member(it) for it in others.tolist()}
        is_like = look_of(name) in map(look_of, names)
        return name in names or is_like or len({it.place for it in said}) > 1

    def _with_owners(self, those: dict[int, list[_Said]]) -> Rows:
        """The rows with the members of orders' entries in what is said of them."""
        rows = self.rows
        changed = {name: getattr(rows, name).copy()
                   for name in ("kind", "bid_member", "ask_member", "member")}  # fmt: skip
        found = set[int]()
        for said in (it for own in those.values() for it in own):
            changed[said.column][said.place] = self.owner[said.key]
            if rows.kind[said.place] == Kind.BAD:
                changed["kind"][said.place] = self.lost[said.place].kind
                found.add(said.place)
        bad: list[BadRow] = [row for row in rows.bad if row.place not in found]
        return dataclasses.replace(rows, bad=bad, **changed)

    def _why(self, said: list[_Said]) -> str:
        """Which row says another member than others."""
        rows, entry = self.rows, int(self.entered[said[0].key])
        own, order = rows.names.member(rows.member[entry]), rows.names.order(said[0].key)
        row = f"row {rows.labels[said[0].place]}" + (" and others" if len(said) > 1 else "")
        return WRONG.format(rows.labels[entry], order, own, row, said[0].member)

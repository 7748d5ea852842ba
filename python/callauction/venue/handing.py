"""How values are handed out: by chance, by schedules of demand and supply, from a list of names, or
those that are there, kept or shuffled.
"""
import csv
import dataclasses
import io
from collections.abc import Iterable, Mapping, Sequence
from typing import Protocol

from callauction.venue.chance import CHANCE
from callauction.venue.gains import ShareValue
from callauction.venue.member_names import folded
from callauction.words import SIDES

HANDING_WAYS = ("none", "keep", "shuffle", "chance", "schedule", "list")
FROM_GERMAN = {
    "seite": "side", "preis": "price", "wert": "price", "menge": "quantity", "stück": "quantity",
    "runde": "round", "kauf": "bid", "verkauf": "ask",
}  # fmt: skip
"""What German words of a list of values mean."""
COLUMNS = ("name", "side", "price", "quantity", "round")
"""The columns of a list of values, of which the last may be left out."""


class HandError(ValueError):
    """Values that can't be handed out so; the text says why."""


class ListError(HandError):
    """A list whose row can't be handed out so; `where` it is: its line, if it has one, its member.
    """

    def __init__(self, text: str, row: "ListedValue") -> None:
        super().__init__(text)
        self.where = f"{f'line {row.line}: ' if row.line else ''}{row.member}"


class Prices(Protocol):
    """What makes a tick of a price. Raises HandError where no value may be this."""

    def __call__(self, price: str, /) -> int: ...


@dataclasses.dataclass(frozen=True)
class ListedValue:
    """A value of a list: its round, None for each; whose it is; its price as a decimal text; its
    line of a file.
    """

    round: int | None
    member: str
    side: str
    price: str
    quantity: int
    line: int | None = dataclasses.field(default=None, compare=False, repr=False)


@dataclasses.dataclass(frozen=True)
class Rule:
    """How values are handed out, with prices as decimal texts: `chance` from low to high, half of
    the members buying; `schedule`, one price of demand or supply after the other; `list`, rows; or
    one of HANDING_WAYS that needs nothing else.
    """

    how: str = "keep"
    low: str = ""
    high: str = ""
    quantity: int = 100
    demand: tuple[str, ...] = ()
    supply: tuple[str, ...] = ()
    rows: tuple[ListedValue, ...] = ()

    def check(self, tick_of: Prices) -> None:
        """Raises HandError where it can't be followed with these prices."""
        if self.how == "chance" and not (self.low and self.high):
            raise HandError("values by chance have a low and a high price")
        if self.how == "chance" and tick_of(self.low) > tick_of(self.high):
            raise HandError(f"low {self.low} is above high {self.high}")
        if self.how == "schedule" and not (self.demand and self.supply):
            raise HandError("a schedule has prices of demand and of supply")
        if self.how == "list" and not self.rows:
            raise HandError("the list of values is empty")
        for price in (*self.demand, *self.supply):
            tick_of(price)
        for row in self.rows:
            try:
                tick_of(row.price)
            except HandError as fault:
                raise ListError(str(fault), row) from None

    def dealt(
        self,
        names: Sequence[str],
        before: Mapping[str, ShareValue],
        tick_of: Prices,
        number: int = 1,
    ) -> dict[str, ShareValue]:
        """The values of a group's members, who had others before, in the round of this number.
        Raises HandError.
        """
        self.check(tick_of)
        held = {name: before[name] for name in names if name in before}
        match self.how:
            case "keep":
                return held
            case "shuffle":
                ring = CHANCE.sample([*held], len(held))
                return {name: held[of] for name, of in zip(ring, ring[1:] + ring[:1])}
            case "chance":
                low, high = tick_of(self.low), tick_of(self.high)
                ticks = [CHANCE.randint(low, high) for _ in names]
                return self._in_turn(names, [*zip(len(names) * SIDES, ticks)])
            case "schedule":
                slots = in_turn([*map(tick_of, self.demand)], [*map(tick_of, self.supply)])
                return self._in_turn(names, slots)
            case "list":
                return values_of(self.rows, names, tick_of, number)
        return {}

    def _in_turn(
        self, names: Sequence[str], slots: Sequence[tuple[str, int]]
    ) -> dict[str, ShareValue]:
        """A value for each name, in an order by chance; the first again where there are no more."""
        order = CHANCE.sample([*names], len(names))
        places = (slots[place % len(slots)] for place in range(len(order)))
        return {
            name: ShareValue(side, tick, self.quantity)
            for name, (side, tick) in zip(order, places)
        }


def in_turn(demand: Sequence[int], supply: Sequence[int]) -> list[tuple[str, int]]:
    """The prices of a schedule one after the other, so that each beginning has of both sides as
    much as the whole, the first ones first.
    """
    placed = [
        ((place + 0.5) / len(ticks), side, tick)
        for side, ticks in zip(SIDES, (demand, supply))
        for place, tick in enumerate(ticks)
    ]
    return [(side, tick) for _, side, tick in sorted(placed, key=lambda it: it[0])]


def values_of(
    rows: Iterable[ListedValue], names: Iterable[str], tick_of: Prices, number: int
) -> dict[str, ShareValue]:
    """What the rows of a round say of these members."""
    there = {folded(name): name for name in names}
    return {
        there[member]: ShareValue(row.side, tick_of(row.price), row.quantity)
        for row in rows
        if (member := folded(row.member)) in there and row.round in (None, number)
    }


def rows_of_members(
    rows: Iterable[ListedValue], titles: Mapping[str, str]
) -> tuple[tuple[ListedValue, ...], tuple[ListedValue, ...]]:
    """The rows of members, with their names, and those of nobody yet; `titles` are keys of names.
    """
    names = {folded(title): name for title, name in titles.items()}
    found, absent = [], []
    for row in rows:
        if (name := names.get(folded(row.member))) is not None:
            found.append(dataclasses.replace(row, member=name))
        else:
            absent.append(row)
    return tuple(found), tuple(absent)


def rows_of(text: str) -> tuple[ListedValue, ...]:
    """The rows of a CSV file with the columns name, side, price, quantity, and perhaps round, or
    their German words. Where its first line has semicolons between, its prices may have decimal
    commas. Raises HandError, which names the line, also of a name that has two values in a round.
    """
    file = io.StringIO(text.removeprefix("\ufeff"))
    mark = max(",;", key=file.readline().count)
    file.seek(0)
    reader = csv.DictReader(file, delimiter=mark, strict=True)
    heads = [it.strip().casefold() for it in reader.fieldnames or ()]
    reader.fieldnames = columns = [FROM_GERMAN.get(it, it) for it in heads]
    check_heads(heads, columns)
    found = []
    lines: dict[str, dict[int | None, int]] = {}
    try:
        for row in reader:
            check_columns(row, reader.line_num)
            it = row_of(row, reader.line_num, mark == ";")
            check_once(it, reader.line_num, lines.setdefault(folded(it.member), {}))
            found.append(it)
    except csv.Error as fault:
        raise HandError(f"line {reader.line_num}: {fault}") from None
    return tuple(found)


def check_heads(heads: Sequence[str], columns: Sequence[str]) -> None:
    """Raises HandError where a column is missing, is there twice, or is none of a list, by its head
    as it is written.
    """
    if not {*COLUMNS[:4]} <= {*columns}:
        raise HandError("the first line isn't name,side,price,quantity, perhaps with round")
    for head, column in zip(heads, columns):
        if column and column not in COLUMNS:
            raise HandError(f"there is no column {head!r}, but {', '.join(COLUMNS)}")
        if column and columns.count(column) > 1:
            raise HandError(f"two columns are {column!r}")


def check_columns(row: Mapping[str | None, str | list[str] | None], line: int) -> None:
    """Raises HandError where a cell of a row that has something is in no column: where a price has
    a decimal comma between commas, what follows it would be taken for another.
    """
    beyond, unnamed = row.get(None) or (), row.get("") or ""
    found = next((it for it in (unnamed, *beyond) if it.strip()), None)
    if found is not None:
        raise HandError(f"line {line}: {found!r} is in no column: decimal commas need semicolons")


def check_once(it: ListedValue, line: int, lines: dict[int | None, int]) -> None:
    """Raises HandError where a name has a value in the round of a row already, by the `lines` that
    it has for its rounds, to which this one is added.
    """
    others = lines if it.round is None else {None, it.round} & lines.keys()
    if others:
        first = min(lines[round_] for round_ in others)
        raise HandError(f"line {line}: {it.member!r} is in line {first} too")
    lines[it.round] = line


def row_of(row: Mapping[str, str | None], line: int, has_comma: bool = False) -> ListedValue:
    """A row of a file, whose price may have a decimal comma. Raises HandError."""
    cells = {key: " ".join((value or "").split()) for key, value in row.items() if key}
    side = FROM_GERMAN.get(cells["side"].casefold(), cells["side"].casefold())
    if not cells["name"]:
        raise HandError(f"line {line}: the name is empty")
    if side not in SIDES:
        raise HandError(f"line {line}: side {cells['side']!r} is neither bid nor ask")
    if not cells["quantity"].isdecimal() or not 1 <= int(cells["quantity"][:12]) <= 10**9:
        raise HandError(f"line {line}: quantity {cells['quantity']!r} is no number of shares")
    number = cells.get("round", "")
    if number and not (number.isdecimal() and 1 <= int(number[:6]) <= 10_000):
        raise HandError(f"line {line}: round {number!r} is no number of a round")
    return ListedValue(
        int(number) if number else None,
        cells["name"],
        side,
        cells["price"].replace(",", ".") if has_comma else cells["price"],
        int(cells["quantity"]),
        line,
    )

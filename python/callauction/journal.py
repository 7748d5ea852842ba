"""Another system's record of a day as a journal: `from_frame`, and the way back to its own names.

The frame has a row for each event, in the order in which the board took them. Its columns are

- `event`: `new`, `replace`, `cancel`, `uncross` (an auction ended) or `trade`;
- `order`: the order's id; `member`: who sent it, which `replace` and `cancel` may
  leave out;
- `side`: `bid` or `buy`, `ask` or `sell`; `price`: a decimal, missing for a market order;
- `quantity`: shares, at `replace` what is open after it, at `cancel` what is taken out where
  that isn't all; `peak`: of an iceberg order;
- `restriction`: `opening` or `closing`, where the order is for that auction alone;
- `time`: any; `kept`: at `replace`, whether the place in time was kept, if that is known.

What was published of an auction is in the row `uncross`, as far as it is known: `price`,
`quantity` (what was executed), `surplus` and its `side`, `trades` (how many) and `auction`
(`opening`, `intraday`, `closing`, or `interrupted` where nothing was executed). A row `trade` has
the ids of both orders in `bid` and `ask`, `quantity` and `price`, in the order in which they were
made. Columns that nobody needs may be missing; another column is refused, since it may be one of
these by another name: without `price` each order is a market order.

Nothing is decided here: which id an order gets, and whether it is taken, says the library.
"""
import dataclasses
import os
import pathlib
import re
from collections.abc import Collection
from typing import Any

import pandas

from callauction.auction import Auction
from callauction.conversion import SHARED, Conversion, argument_ticks, price_bounds
from callauction.course import reference_of
from callauction.frame_cells import FrameError
from callauction.frame_rows import FrameRow
from callauction.limits import MOST_CALLS, MOST_OPEN
from callauction.prices import Grid, argument, grid_of, tick_size_of
from callauction.program import Day
from callauction.progress import Progress
from callauction.reasons import Explanation, explain
from callauction.tables import audit_of, books_of, journal_of, trades_of
from callauction.verdict.columns import OTHER_NAMES, refuse_unknown

COLUMNS = (
    "event",
    "order",
    "member",
    "side",
    "price",
    "quantity",
    "peak",
    "restriction",
    "time",
    "kept",
    "surplus",
    "trades",
    "auction",
    "bid",
    "ask",
)
"""The columns that a frame may have."""


@dataclasses.dataclass(frozen=True)
class Journal:
    """A frame as a journal, and the maps back to the frame's ids, members, times and prices.

    `text` is the journal; `grid` has the price of each tick; `orders` has by the journal's id the
    frame's `order` and `member`, the `number` of that member in the journal, and the `row`;
    `entries` has for each entry of the journal the frame's `row`, `time`, `event`, `order` and
    `member`. All tables have the frame's ids, members, prices and times.
    """

    text: str
    grid: Grid
    orders: pandas.DataFrame
    entries: pandas.DataFrame

    def __repr__(self) -> str:
        return f"<Journal of {len(self.entries):,} entries and {len(self.orders):,} orders>"

    def day(self) -> Day:
        """The journal for the program, in its own ids, numbers and ticks."""
        return Day(self.text.encode("ascii"))

    def save(self, path: str | os.PathLike[str]) -> None:
        """Writes the journal to a file. Raises OSError."""
        pathlib.Path(path).write_text(self.text, encoding="ascii")

    def trades(self) -> pandas.DataFrame:
        """The lawful trades: the columns of tables.TRADES, but `price` (a Decimal) for the tick,
        and the `time` of their uncross. Raises ProgramError.
        """
        found = trades_of(self.day()).rename(columns={"tick": "price"})
        for side in ("bid", "ask"):
            found[f"{side}_member"] = [self.orders.at[id, "member"] for id in found[side]]
            found[side] = [self._order(id) for id in found[side]]
        found["price"] = found["price"].astype("object").map(self.grid.price)
        times = self._uncrossed_at()
        found["time"] = [times[auction] for auction in found["auction"]]
        return found

    def _uncrossed_at(self) -> dict[str, Any]:
        """By the name of an auction, the time of the uncross that ended it."""
        journal = journal_of(self.day())
        ends = journal[journal["command"] == "uncross"]
        return {
            text.split()[0]: self.entries.at[entry, "time"]
            for entry, text in zip(ends["entry"], ends["lawful"])
        }

    def books(self) -> pandas.DataFrame:
        """The books behind the prices (tables.BOOK), with Decimals as limits; None is a market
        order's. Raises ProgramError.
        """
        found = books_of(self.day())
        limits = found["limit"].astype("object")
        found["limit"] = [None if tick is pandas.NA else self.grid.price(tick) for tick in limits]
        return found

    def explain(self, command: int | None = None) -> Explanation:
        """Why the book before this entry has its price, in prices. Raises ProgramError, and
        ValueError where there is no such book.
        """
        day = self.day()
        books = books_of(day)
        reference = reference_of(day, books, command)
        return explain(books, command, reference, lambda tick: str(self.grid.price(tick)))

    def audit(self) -> pandas.DataFrame:
        """The recorded results that aren't lawful: `entry`, its `row`, `time`, `event`, `order` and
        `member`, and both texts, in the ids and prices of the frame. `attrs` are as of
        tables.audit_of. Raises ProgramError.
        """
        found = audit_of(self.day())
        attrs = found.attrs
        for column in ("recorded", "lawful"):
            found[column] = [self.translated(text) for text in found[column]]
        joined = found.join(self.entries, on="entry")[[*FRAME_AUDIT]]
        joined.attrs.update(attrs)
        return joined

    def translated(self, reply: str) -> str:
        """The text of a reply in the ids and prices of the frame."""
        bests = _BESTS.fullmatch(reply)
        if bests:
            return f"no price bid {self._best(bests[1])} ask {self._best(bests[2])}"
        text = _TICK.sub(lambda found: f"{found[1]} {self.grid.price(int(found[2]))}", reply)
        text = _ENTERED.sub(lambda found: f"entered {self._order(int(found[1]))}", text)
        return _TRADE.sub(
            lambda found: f"trade {self._order(int(found[1]))} {self._order(int(found[2]))}", text
        )

    def _order(self, id: int) -> Any:
        """The frame's id of an order; the journal's where it has none."""
        return self.orders.at[id, "order"] if id in self.orders.index else id

    def _best(self, limit: str) -> str:
        return limit if limit == "-" else str(self.grid.price(int(limit)))


FRAME_AUDIT = ("entry", "row", "time", "event", "order", "member", "recorded", "lawful")
"""The columns of an audit, in the ids and prices of the frame."""
_BESTS = re.compile(r"no price bid (\d+|-) ask (\d+|-)")
_TICK = re.compile(r"\b(price|at) (\d+)")
_ENTERED = re.compile(r"\bentered (\d+)")
_TRADE = re.compile(r"\btrade (\d+) (\d+)")


# ---- from the frame to the journal


def from_frame(
    frame: pandas.DataFrame,
    tick_size: object,
    *,
    reference: object,
    low: object = None,
    high: object = None,
    range: object = None,
    ignore: Collection[str] = (),
    watch: Progress = iter,
) -> Journal:
    """The journal of a frame of order events (see the module).

    `tick_size` is the step between two prices, `reference` the last price before the day; `low` and
    `high` are the lowest and the highest price, without them those of the orders and the reference;
    `range` is how far a price may lie from the reference before an uncross is interrupted. All are
    decimals: a Decimal, a text, an int, or a float, which means the shortest decimal that
    gives it. `ignore` names columns that are passed over, `*` each unknown one. `watch` is given
    the rows, such as tqdm.tqdm.

    Raises ColumnError for an unknown column; FrameError with the row and the value where a price is
    off the grid of ticks, an id is unknown or used twice, a word or a number is none, the prices
    span more than 65,536 ticks, there are more than 1,048,576 entries, times fall, or the board
    would refuse a new order; ValueError for the other arguments.
    """
    rows = _rows_of(frame.rename(columns=OTHER_NAMES), ignore)
    size = tick_size_of(tick_size)
    first = argument("reference", reference)
    lowest, highest = price_bounds(rows, size, first, low, high)
    grid = grid_of(size, lowest, highest)
    span = None if range is None else argument_ticks("range", range, Grid(size))
    ends = argument_ticks("low", lowest, grid), argument_ticks("high", highest, grid)
    day = (*ends, argument_ticks("reference", first, grid))
    made = Conversion(grid, Auction(*day, MOST_OPEN, MOST_CALLS, span))
    with made.auction:
        for row in watch(rows):
            made.add(row)
    head = ("day", *day, SHARED + 1, MOST_OPEN, MOST_CALLS, "" if span is None else span)
    text = "".join(f"{line}\n" for line in [",".join(map(str, head)), *made.lines])
    return Journal(text, grid, _orders(made), _entries(made))


def _rows_of(frame: pandas.DataFrame, ignore: Collection[str]) -> list[FrameRow]:
    """The rows of a frame with our columns. Raises ValueError, ColumnError, and FrameError where
    times fall.
    """
    if not frame.columns.is_unique:
        raise ValueError("frame has a column twice")
    refuse_unknown(frame.columns, COLUMNS, ignore)
    rows = [FrameRow(*pair) for pair in zip(frame.index, frame.to_dict("records"))]
    _check_times_rise(frame)
    return rows


def _orders(made: Conversion) -> pandas.DataFrame:
    """The orders by their ids here."""
    rows = [
        (id, order, member, made.numbers[member], row)
        for order, (id, member, row) in made.orders.items()
    ]
    columns = ["id", "order", "member", "number", "row"]
    return pandas.DataFrame(rows, columns=columns).set_index("id")


def _entries(made: Conversion) -> pandas.DataFrame:
    """The entries by their numbers from 1."""
    columns = ["row", "time", "event", "order", "member"]
    found = pandas.DataFrame(made.entries, columns=columns)
    found.index = pandas.RangeIndex(1, len(found) + 1, name="entry")
    return found


def _check_times_rise(frame: pandas.DataFrame) -> None:
    """Raises FrameError where a time, which isn't a text, comes before the one above it."""
    if "time" not in frame or frame["time"].dtype == "object":
        return
    times = frame["time"].reset_index(drop=True)
    falls = (times.diff().dropna() < times.diff().dropna() * 0).to_numpy().nonzero()[0]
    for place in falls[:1]:
        label, value = frame.index[place + 1], times[place + 1]
        raise FrameError(label, "time", value, "comes before that of the row above")

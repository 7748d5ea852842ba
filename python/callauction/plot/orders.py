"""Pictures of orders: their queue, and who trades with whom. Where single orders would be too small
to be read, neighbours are drawn together, and the picture says so.
"""
import dataclasses
import itertools
from collections.abc import Callable, Iterator, Sequence

import pandas
from matplotlib.axes import Axes

from callauction.outcomes import HasDay, Queue, queue_of
from callauction.plot.style import (
    DEMAND,
    DIGIT,
    PALE,
    PRICE,
    SIZE,
    SUPPLY,
    Namer,
    finish,
    mark_shares,
    namer_of,
    new_axes,
    points,
)
from callauction.program import Day
from callauction.words import MARKET, Side

MOST_SINGLE = 40
"""A new figure is as high as this number of rows of a queue needs; a longer queue has groups."""
ROW = 13.0
"""The height of a row of a queue, in points."""
BESIDE_ROWS = 110.0
"""The height of what is above and below the rows of a new figure, in points."""
COLORS = {"bid": DEMAND, "ask": SUPPLY}
BAR_FONT_SIZE = 8.0
"""The size of the words within bars and beside them, in points."""
LINE = 1.25 * BAR_FONT_SIZE
"""The height of a line of such words, in points."""
WIDEST = 11.0
"""The most inches of a new figure of an allocation."""
BAR = 0.84
"""The height of a bar of an allocation; its row is 1 high."""


@dataclasses.dataclass(frozen=True)
class _Row:
    """A bar of a queue: what it is called, its open shares, and those that are executed."""

    name: str
    quantity: int
    executed: int

    @property
    def words(self) -> str:
        return f"{self.executed:,} of {self.quantity:,}"


def queue(
    day: Day | pandas.DataFrame | HasDay,
    side: Side,
    limit: int | str | None = None,
    command: int | None = None,
    *,
    tick_size: object = None,
    ax: Axes | None = None,
) -> Axes:
    """Draws the orders of a side in price-time priority, the first one at the top: the open shares
    of each before an uncross, and those of them that it executes.

    `limit` keeps the orders at one limit, in ticks, or those at `"market"`. The uncross is the one
    that was this command; without one it is an uncross now. Where the axes have no room for a row
    of each order, a row has the orders of a limit, of several limits, or some that follow one
    another at a limit; its name and the title say which. With a `tick_size` limits are prices.
    Draws on `ax`, or on a new figure, which is as high as up to MOST_SINGLE orders need, and
    answers the axes. Raises ProgramError, and ValueError where the command was no uncross, or the
    queue is empty.
    """
    named = namer_of(None, tick_size)
    found = queue_of(day, command)
    orders = found.orders[found.orders["side"] == side.name.lower()]
    if limit is not None:
        orders = found.at(side.name.lower(), None if limit == MARKET else int(limit))
    at = "" if limit is None else " at market" if limit == MARKET else f" at {named(int(limit))}"
    if orders.empty:
        raise ValueError(f"there is no {side.name.lower()}{at} in the {found.auction} auction")
    axes = ax if ax is not None else new_axes((SIZE[0], _inches(len(orders))))
    axes.figure.draw_without_rendering()
    rows = [*_rows_of(orders, _room(axes), named)]
    _draw_rows(axes, rows, COLORS[side.name.lower()])
    more = "" if len(rows) == len(orders) else f", {len(orders):,} orders in {len(rows)} groups"
    head = f"{found.auction}, {side.name.lower()}s{at} in their priority{more}"
    axes.set_title(f"{head}\n{_shares(orders)} executed{_ending(found)}", loc="left")
    finish(axes)
    mark_shares(axes)
    return axes


def _inches(orders: int) -> float:
    """How high a new figure is: as a row of each order needs, if there aren't too many."""
    return SIZE[1] if orders > MOST_SINGLE else max(SIZE[1], (orders * ROW + BESIDE_ROWS) / 72)


def _room(axes: Axes) -> int:
    """How many rows the axes have room for, below the legend."""
    return max(3, int((points(axes)[1] - 2.5 * ROW) / ROW))


def _rows_of(orders: pandas.DataFrame, most: int, named: Namer) -> Iterator[_Row]:
    """Orders in their priority as no more rows than `most`."""
    levels = [level for _, level in orders.groupby(orders["limit"].fillna(0), sort=False)]
    if len(orders) > most and len(levels) >= most:
        yield from (_row(level, named, f": {_count(level)}") for level in _together(levels, most))
        return
    size = _run(list(map(len, levels)), most)
    for level in levels:
        for begin in range(0, len(level), size):
            part = level[begin : begin + size]
            place = f", {begin + 1:,} to {begin + len(part):,} of {len(level):,} orders"
            yield _row(part, named, f": {_count(level)}" if len(part) == len(level) else place)


def _together(levels: list[pandas.DataFrame], most: int) -> Iterator[pandas.DataFrame]:
    """Limits that follow one another, as many in each group; market orders by themselves."""
    market = int(levels[0]["limit"].isna().all())
    yield from levels[:market]
    each = -(-(len(levels) - market) // (most - market))
    for begin in range(market, len(levels), each):
        yield pandas.concat(levels[begin : begin + each])


def _run(counts: list[int], most: int) -> int:
    """How many orders of a limit follow one another in a row: the least of 1, 2, 5, 10, 20, 50 and
    so on with which limits of these counts of orders take no more rows than `most`.
    """
    sizes = (step * int(10**zeros) for zeros in itertools.count() for step in (1, 2, 5))
    return next(size for size in sizes if sum(-(-count // size) for count in counts) <= most)


def _row(orders: pandas.DataFrame, named: Namer, place: str) -> _Row:
    """The row of these orders; `place` says which ones of a limit they are."""
    quantity, executed = int(orders["quantity"].sum()), int(orders["executed"].sum())
    if len(orders) == 1:
        return _Row(_named(orders.iloc[0], named), quantity, executed)
    limits = orders["limit"]
    at = MARKET if limits.isna().all() else f"at {named(int(limits.min()))}"
    if limits.nunique() > 1:
        at += f" to {named(int(limits.max()))}"
    return _Row(f"{at}{place}", quantity, executed)


def _count(orders: pandas.DataFrame) -> str:
    """How many orders these are, and of how many members."""
    members = orders["member"].nunique()
    of = f"member {orders['member'].iloc[0]}" if members == 1 else f"{members} members"
    return f"{len(orders):,} orders of {of}"


def _named(order: "pandas.Series", named: Namer) -> str:
    """An order's id, member and limit, and its peak where it shows less than it has."""
    at = MARKET if pandas.isna(order.limit) else f"at {named(int(order.limit))}"
    shown = "" if order.visible == order.quantity else f", shows {order.visible:,}"
    return f"order {order.order}, member {order.member}, {at}{shown}"


def _draw_rows(axes: Axes, rows: Sequence[_Row], color: str) -> None:
    """A bar for each row, from the top: its open shares, the executed ones, and both in words."""
    places = [-row for row in range(len(rows))]
    quantities = [row.quantity for row in rows]
    axes.barh(places, quantities, color=PALE[color], label="open before")
    axes.barh(places, [row.executed for row in rows], color=color, label="executed")
    axes.set_yticks(places, [row.name for row in rows], fontsize=BAR_FONT_SIZE)
    axes.set_ylim(0.5 - len(rows), 0.5)
    axes.set_xlabel("quantity (shares)")
    axes.spines[["top", "right"]].set_visible(False)
    axes.figure.draw_without_rendering()
    width = points(axes)[0]
    words = max(len(row.words) for row in rows) * DIGIT * BAR_FONT_SIZE + 6
    axes.set_xlim(0, max(quantities) * width / max(width - words, width / 4))
    for place, row in zip(places, rows):
        axes.annotate(
            row.words,
            (row.quantity, place),
            (3, 0),
            textcoords="offset points",
            fontsize=BAR_FONT_SIZE,
            va="center",
        )


def _shares(orders: pandas.DataFrame) -> str:
    """How many of their shares are executed."""
    return f"{orders['executed'].sum():,} of {orders['quantity'].sum():,} shares"


def _ending(found: Queue) -> str:
    return ", interrupted" if found.is_interrupted else ""


# ---- who trades with whom

FillTexts = Callable[[range], tuple[str, ...]]
"""What is said of the fills, or trades, with these places: a line each."""


def allocation(
    day: Day | pandas.DataFrame | HasDay,
    command: int | None = None,
    *,
    tick_size: object = None,
    ax: Axes | None = None,
) -> Axes:
    """Draws who trades with whom: the executed shares of the bids laid end to end in their
    priority, those of the asks below them, and between them each trade, which is where a bid and an
    ask overlap.

    The uncross is the one that was this command; without one it is an uncross now. What is too
    narrow for its words is drawn together with its neighbours, and the title says so. With a
    `tick_size` the price is a decimal. Draws on `ax`, or on a new figure, which is wider for more
    orders, and answers the axes. Raises ProgramError, and ValueError where the command was no
    uncross, or nothing is executed.
    """
    named = namer_of(None, tick_size)
    found = queue_of(day, command)
    if not len(found.trades):
        which = "an uncross now" if command is None else f"command {found.command}"
        raise ValueError(f"nothing is executed by {which}")
    filled = found.orders[found.orders["executed"] > 0]
    bids, asks = (filled[filled["side"] == side] for side in ("bid", "ask"))
    axes = ax if ax is not None else new_axes((_inches_across(len(bids), len(asks)), SIZE[1]))
    is_single = _draw_all_spans(axes, bids, asks, found.trades["quantity"].tolist())
    tick, count = named(int(found.trades["tick"][0])), len(found.trades)
    words = f"{count:,} trade{'s' * (count != 1)} at {tick}"
    if not is_single:
        words += f" of {len(bids):,} bids and {len(asks):,} asks, small ones drawn together"
    axes.set_title(f"{found.auction}, who trades with whom\n{words}", loc="left")
    finish(axes)
    mark_shares(axes)
    return axes


def _inches_across(*counts: int) -> float:
    """How wide a new figure is: as the words of each order need, if there aren't too many."""
    return min(WIDEST, max(SIZE[0], 1 + 0.8 * max(counts)))


def _draw_all_spans(
    axes: Axes, bids: pandas.DataFrame, asks: pandas.DataFrame, trades: list[int]
) -> bool:
    """The spans of the bids, of the trades and of the asks: whether each is drawn by itself."""
    axes.set_yticks((2, 1, 0), ("bids", "trades", "asks"))
    axes.set_ylim(-0.6, 2.6)
    axes.set_xlim(0, sum(trades))
    axes.set_xlabel("executed shares, end to end")
    axes.set_title("\n", loc="left")
    axes.spines[["top", "right", "left"]].set_visible(False)
    axes.figure.draw_without_rendering()
    rows = [
        (bids["executed"].tolist(), _words_of_orders(bids), DEMAND),
        (trades, _words_of_trades(trades), ""),
        (asks["executed"].tolist(), _words_of_orders(asks), SUPPLY),
    ]
    drawn = [_draw_spans(axes, 2 - row, *those) for row, those in enumerate(rows)]
    return all(drawn)


def _words_of_orders(orders: pandas.DataFrame) -> FillTexts:
    """What is said of orders that are executed: which, whose, and how many shares."""
    side = orders["side"].iloc[0]
    ids, members, shares = (orders[name].tolist() for name in ("order", "member", "executed"))

    def words(places: range) -> tuple[str, ...]:
        first, part = places.start, slice(places.start, places.stop)
        of = len({*members[part]})
        what = f"{side} {ids[first]}" if len(places) == 1 else f"{len(places):,} {side}s"
        whose = f"member {members[first]}" if of == 1 else f"{of} members"
        return what, whose, f"{sum(shares[part]):,}"

    return words


def _words_of_trades(quantities: list[int]) -> FillTexts:
    """What is said of trades: their shares, and how many they are."""

    def words(places: range) -> tuple[str, ...]:
        shares = f"{sum(quantities[places.start : places.stop]):,}"
        return (shares,) if len(places) == 1 else (f"{len(places):,} trades", shares)

    return words


def _draw_spans(axes: Axes, place: int, lengths: list[int], words: FillTexts, color: str) -> bool:
    """Bars end to end with their words, white ones without a colour: whether each of these lengths
    has a bar of its own.
    """
    width, height = points(axes)
    box = _Box(width / sum(lengths), BAR * height / 3.2)
    groups = _groups(lengths, words, box)
    ends = [0, *itertools.accumulate(lengths)]
    begins = [ends[group.start] for group in groups]
    spans = [ends[group.stop] - ends[group.start] for group in groups]
    axes.barh(
        [place] * len(groups),
        spans,
        left=begins,
        height=BAR,
        color=color or "white",
        edgecolor="white" if color else PRICE,
        linewidth=1.0,
    )
    for group, begin, span in zip(groups, begins, spans):
        lines = words(group)
        axes.text(
            begin + span / 2,
            place,
            "\n".join(lines),
            ha="center",
            va="center",
            fontsize=BAR_FONT_SIZE,
            color="white" if color else PRICE,
            rotation=0 if box.holds(lines, span) else 90,
        )
    return len(groups) == len(lengths)


@dataclasses.dataclass(frozen=True)
class _Box:
    """The room of bars: how many points wide a share is, and how many points high a bar."""

    share: float
    height: float

    def holds(self, words: tuple[str, ...], shares: int, is_upright: bool = False) -> bool:
        """Whether a bar of these shares has room for these words, which may be upright."""
        long, high = max(map(len, words)) * DIGIT * BAR_FONT_SIZE + 8, len(words) * LINE + 4
        room = self.share * shares
        if is_upright:
            return high <= room and long <= self.height
        return long <= room and high <= self.height


def _groups(lengths: list[int], words: FillTexts, box: _Box) -> list[range]:
    """Places that follow one another, together where they are too narrow for their words."""

    def holds(group: range, is_upright: bool) -> bool:
        span = sum(lengths[group.start : group.stop])
        lines = words(group)
        return box.holds(lines, span) or (is_upright and box.holds(lines, span, is_upright=True))

    groups: list[range] = []
    begin = 0
    for place in range(len(lengths)):
        if holds(range(place, place + 1), True):
            groups += [range(begin, place)] * (begin < place)
            groups.append(range(place, place + 1))
            begin = place + 1
        elif holds(range(begin, place + 1), False):
            groups.append(range(begin, place + 1))
            begin = place + 1
    groups += [range(begin, len(lengths))] * (begin < len(lengths))
    while len(groups) > 1 and (narrow := [k for k, it in enumerate(groups) if not holds(it, True)]):
        _join(groups, narrow[0], lengths)
    return groups


def _join(groups: list[range], place: int, lengths: list[int]) -> None:
    """Joins the group at this place with the smaller one of its neighbours."""
    beside = [it for it in (place - 1, place + 1) if 0 <= it < len(groups)]
    other = min(beside, key=lambda it: sum(lengths[groups[it].start : groups[it].stop]))
    first, last = sorted((place, other))
    groups[first : last + 1] = [range(groups[first].start, groups[last].stop)]

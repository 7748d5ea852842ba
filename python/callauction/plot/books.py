"""The picture of a book: see book."""
from typing import Protocol

import pandas
from matplotlib.axes import Axes
from matplotlib.patches import StepPatch

from callauction.plot.style import (
    DEMAND,
    MOST_DRAWN,
    PALE,
    PRICE,
    REFERENCE,
    SUPPLY,
    VOLUME,
    Namer,
    finish,
    mark_shares,
    mark_ticks,
    namer_of,
    new_axes,
    numbers,
    points,
    unit_of,
)
from callauction.tables import book_at

MOST_BARS = 200
"""The volume of a book of no more limits has a bar at each; else it is the area under both curves.
"""
MOST_LARGE_MARKS = 30
"""More best limits than these have small marks."""
REACH = 10
"""A reference of no more ticks beyond the book than this, or than the book is wide, is drawn in its
place; one further off is an arrow at the edge.
"""
BELOW, ABOVE = "below", "above"
"""Where such a reference lies."""


class HasBook(Protocol):
    """What has books, such as a RecordedAuction."""

    def books(self) -> pandas.DataFrame:
        """All its books (tables.BOOK)."""
        ...

    def reference(self, command: int | None = None) -> int | None:
        """The reference price before a command, in ticks; None where it isn't known."""
        ...


def book(
    auction: HasBook | pandas.DataFrame,
    command: int | None = None,
    *,
    reference: int | None = None,
    named: Namer | None = None,
    tick_size: object = None,
    ax: Axes | None = None,
) -> Axes:
    """Draws a book, its limits upright and its shares across: demand and supply as steps at the
    limits, where the greater end of each holds; the executable volume at each limit; the best
    limits, the auction price with its volume and surplus, and the reference.

    `auction` is a RecordedAuction or a table of books (tables.BOOK). The book is the one before the
    command with this number, without one the last. A RecordedAuction knows the reference; to a
    table `reference` adds it, in ticks. With a `tick_size` limits are named as prices; `named`
    gives a tick another name. Draws on `ax`, or on a new figure, and answers the axes. Raises
    ValueError where there is no such book, or for a bad tick size.
    """
    table, reference = _books_of(auction, command, reference)
    name, unit = namer_of(named, tick_size), unit_of(named, tick_size)
    found = book_at(table, command)
    axes = ax if ax is not None else new_axes()
    levels = found[found["limit"].notna()][::-1]
    far, ends = _set_ends(axes, levels, reference)
    _draw_curves(axes, found[found["limit"].isna()].iloc[0], levels, ends)
    _draw_volume(axes, levels)
    _draw_best(axes, levels, name)
    label = "" if reference is None else f"reference {name(reference)}"
    if reference is not None and not far:
        _draw_reference(axes, reference, label)
    is_now = command is None and not isinstance(auction, pandas.DataFrame)
    _label(axes, _head(found, is_now), levels, name, unit)
    begin = finish(axes, rows=1 if far == ABOVE else 0)
    if far:
        _draw_far(axes, far, label, begin)
    mark_ticks(axes, ends, _wanted(levels), name)
    mark_shares(axes)
    return axes


def _books_of(
    auction: HasBook | pandas.DataFrame, command: int | None, reference: int | None
) -> tuple[pandas.DataFrame, int | None]:
    """A table of books, and the reference price before a command, in ticks."""
    if isinstance(auction, pandas.DataFrame):
        return auction, reference
    books = auction.books()
    return books, auction.reference(command) if reference is None else reference


def _set_ends(
    axes: Axes, levels: pandas.DataFrame, reference: int | None
) -> tuple[str, tuple[float, float]]:
    """Sets the ends of the picture; where the reference is beyond them (_far), and these ends."""
    far = _far(levels, reference)
    ends = _ends(levels, None if far else reference)
    axes.set_ylim(*ends)
    return far, ends


def _far(levels: pandas.DataFrame, reference: int | None) -> str:
    """The side of the picture, BELOW or ABOVE, beyond which a reference lies too far to be drawn in
    its place; nothing where it doesn't.
    """
    if reference is None or not len(levels):
        return ""
    low, high = (int(tick) for tick in numbers(levels["limit"])[[0, -1]])
    reach = max(REACH, high - low)
    if reference < low - reach:
        return BELOW
    return ABOVE if reference > high + reach else ""


def _ends(levels: pandas.DataFrame, reference: int | None) -> tuple[float, float]:
    """The ends of the picture, in ticks: beyond all levels and the reference."""
    ticks = [*numbers(levels["limit"])[[0, -1]]] if len(levels) else []
    ticks += [reference] if reference is not None else []
    if not ticks:
        return 0.0, 1.0
    room = max(1.0, (max(ticks) - min(ticks)) * 0.04)
    return min(ticks) - room, max(ticks) + room


def _draw_volume(axes: Axes, levels: pandas.DataFrame) -> None:
    """The executable volume: bars at the limits, or the area under demand and supply."""
    if not levels["volume"].gt(0).any():
        return
    ticks = numbers(levels["limit"])
    if len(levels) <= MOST_BARS:
        low, high = axes.get_ylim()
        gap = min((ticks[1:] - ticks[:-1]).tolist(), default=1)
        width = 0.6 * gap / (high - low) * points(axes)[1]
        axes.hlines(
            ticks,
            0,
            numbers(levels["volume"]),
            color=PALE[VOLUME],
            linewidth=max(0.8, min(7.0, width)),
            label="executable volume",
            zorder=1,
        )
        return
    demand, supply = numbers(levels["demand"]), numbers(levels["supply"])
    between = [min(pair) for pair in zip(demand[1:].tolist(), supply[:-1].tolist())]
    patch = StepPatch(
        between,
        ticks,
        orientation="horizontal",
        fill=True,
        facecolor=PALE[VOLUME],
        edgecolor="none",
        rasterized=len(levels) > MOST_DRAWN,
        label="executable volume",
        zorder=1,
    )
    axes.add_artist(patch)


def _draw_curves(
    axes: Axes, market: "pandas.Series", levels: pandas.DataFrame, ends: tuple[float, float]
) -> None:
    """Demand and supply at each tick."""
    ticks = numbers(levels["limit"])
    low, high = ends
    # The demand at a limit holds down to the limit below, the supply up to the limit above.
    demand = [*numbers(levels["demand"]), int(market["bid"])]
    supply = [int(market["ask"]), *numbers(levels["supply"])]
    for name, shares, color, line in (
        ("demand", demand, DEMAND, "-"),
        ("supply", supply, SUPPLY, "--"),
    ):
        patch = StepPatch(
            shares,
            [low, *ticks, high],
            orientation="horizontal",
            baseline=None,
            fill=False,
            edgecolor=color,
            linestyle=line,
            linewidth=1.8,
            rasterized=len(levels) > MOST_DRAWN,
            label=name,
            zorder=2.5,
        )
        axes.add_artist(patch)
    axes.set_xlim(0, 1.06 * max(*demand, *supply, 1))


def _draw_best(axes: Axes, levels: pandas.DataFrame, named: Namer) -> None:
    """The best limits, each an open mark at its volume, and the auction price, a dot that is seen
    within such a mark, with its surplus.
    """
    best = levels[levels["best"] == 1]
    if len(best):
        axes.plot(
            numbers(best["volume"]),
            numbers(best["limit"]),
            linestyle="",
            marker="D",
            markersize=11 if len(best) <= MOST_LARGE_MARKS else 4,
            markerfacecolor="none",
            markeredgecolor=PRICE,
            label="best limits",
            zorder=4,
        )
    for _, price in levels[levels["rule"] != ""].iterrows():
        tick, volume, surplus = (int(price[name]) for name in ("limit", "volume", "surplus"))
        if surplus:
            axes.hlines(
                tick, volume, volume + surplus, color=PRICE, linewidth=3, label="surplus", zorder=3
            )
        label = f"price {named(tick)}"
        axes.plot(
            [volume], [tick], linestyle="", marker="o", markersize=5, color=PRICE, label=label,
            zorder=5,
        )  # fmt: skip


def _draw_reference(axes: Axes, reference: int, label: str) -> None:
    """A line at the reference, as wide as the picture."""
    right = axes.get_xlim()[1]
    axes.hlines(reference, 0, right, color=REFERENCE, linestyle=":", label=label, zorder=1.5)


def _draw_far(axes: Axes, side: str, text: str, begin: float) -> None:
    """An arrow at the edge, to a reference that lies beyond it; `begin` is that of the legend."""
    _, height = points(axes)
    edge, inwards = (0.0, 12) if side == BELOW else (begin, -12)
    axes.annotate(
        text,
        (0.97, edge),
        (0.95, edge + inwards / height),
        xycoords="axes fraction",
        color=REFERENCE,
        fontsize="small",
        ha="right",
        va="center",
        bbox={"facecolor": "white", "edgecolor": "none", "pad": 1.0},
        arrowprops={"arrowstyle": "->", "color": REFERENCE},
    )


def _wanted(levels: pandas.DataFrame) -> list[int]:
    """The ticks whose labels matter: the price, and the ends of the best limits."""
    price = numbers(levels["limit"][levels["rule"] != ""])
    best = numbers(levels["limit"][levels["best"] == 1])
    return [*map(int, price), *map(int, best[[0, -1]] if len(best) > 2 else best)]


def _head(found: pandas.DataFrame, is_now: bool) -> str:
    """Which book this is."""
    command, auction = found["command"].iloc[0], found["auction"].iloc[0]
    return str(auction) if is_now else f"{auction}, before command {command}"


def _label(axes: Axes, head: str, levels: pandas.DataFrame, named: Namer, unit: str) -> None:
    """What the picture shows, and in which units."""
    axes.set_title(f"{head}\n{_words_of_price(levels, named)}", loc="left")
    axes.set_ylabel(f"limit ({unit})")
    axes.set_xlabel("quantity (shares)")
    axes.spines[["top", "right"]].set_visible(False)


def _words_of_price(levels: pandas.DataFrame, named: Namer) -> str:
    """The auction price of a book in words."""
    for _, price in levels[levels["rule"] != ""].iterrows():
        side = "" if price["side"] == "none" else f" {price['side']}"
        name = named(int(price["limit"]))
        return f"price {name}, volume {price['volume']:,}, surplus {price['surplus']:,}{side}"
    return "no price"

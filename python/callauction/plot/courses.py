"""The picture of a day's course: see indicative."""
from typing import Any, Protocol

import numpy
import pandas
from matplotlib.axes import Axes
from matplotlib.collections import PolyCollection

from callauction.course import INTERRUPTED, Course, course_of
from callauction.plot.style import (
    DEMAND,
    DIGIT,
    MOST_DRAWN,
    PALE,
    PRICE,
    REFERENCE,
    VOLUME,
    Namer,
    finish,
    namer_of,
    new_axes,
    numbers,
    points,
    thousands,
    unit_of,
    whole_steps,
)
from callauction.program import Day

MOST_MARKED_CALLS = 100
"""Calls of a day of no more have a mark each."""
HEIGHTS = (3, 2)
"""How high the panels of the price and of the volume are, to one another."""
UNCROSS_FONT_SIZE = 9.0
"""The size of the words at uncrosses, in points."""


class HasCourse(Protocol):
    """What has a course, such as a RecordedAuction."""

    def course(self) -> Course:
        """How its day went."""
        ...


def indicative(
    journal: Day | pandas.DataFrame | Course | HasCourse,
    *,
    tick_size: object = None,
    ax: Axes | None = None,
) -> tuple[Axes, Axes]:
    """Draws the indicative price over the calls of a day, below it the indicative volume, and the
    uncrosses in words.

    `journal` is a Day, a journal's frame (tables.JOURNAL), a Course or a RecordedAuction. With a
    `tick_size` prices are decimals. The two panels take the place of `ax`, or a new figure, and
    share the calls. Answers both, that of the price first; a day without prices has neither axis of
    prices nor of volumes. Raises ProgramError, and ValueError for a bad tick size.
    """
    name, unit = namer_of(None, tick_size), unit_of(None, tick_size)
    course = _course(journal)
    axes, volume_axes = _panels(ax if ax is not None else new_axes())
    shown = course.indicative
    has_price = bool(shown["price"].notna().any() or course.uncrosses["price"].notna().any())
    end = end_of(shown)
    if has_price:
        _draw_shown(axes, volume_axes, shown, end)
    _draw_priced(axes, course.uncrosses)
    _label(axes, volume_axes, unit, name)
    _set_ends(axes, volume_axes, end, has_price)
    _draw_words(axes, volume_axes, course.uncrosses, name)
    return axes, volume_axes


def _course(journal: Day | pandas.DataFrame | Course | HasCourse) -> Course:
    if isinstance(journal, Course):
        return journal
    if isinstance(journal, Day | pandas.DataFrame):
        return course_of(journal)
    return journal.course()


def _panels(axes: Axes) -> tuple[Axes, Axes]:
    """Two axes one below the other, in the place of these, which become the upper ones."""
    figure = axes.figure
    spec = axes.get_subplotspec() if hasattr(axes, "get_subplotspec") else None
    if spec is not None:
        grid = spec.subgridspec(2, 1, height_ratios=HEIGHTS, hspace=0.08)
        axes.set_subplotspec(grid[0])
        return axes, figure.add_subplot(grid[1], sharex=axes)
    box = axes.get_position()
    low = box.height * HEIGHTS[1] / sum(HEIGHTS)
    axes.set_position([box.x0, box.y0 + low * 1.1, box.width, box.height - low * 1.1])
    return axes, figure.add_axes([box.x0, box.y0, box.width, low], sharex=axes)


def end_of(shown: pandas.DataFrame) -> float:
    """Where the picture of a course ends: as far behind its last call that what is shown after this
    call is seen.
    """
    last = int(shown["command"].max()) if len(shown) else 1
    return 1 + 1.02 * last


def _draw_shown(axes: Axes, volume_axes: Axes, shown: pandas.DataFrame, end: float) -> None:
    """The indicative price and volume; those after the last call hold up to the end. Where there is
    no price the picture is grey.
    """
    calls = [*shown["command"], end]
    held = [*range(len(shown)), len(shown) - 1]
    prices = shown["price"].astype("float64").to_numpy()[held]
    _draw_without(axes, [0, *calls], numpy.array([True, *shown["price"].isna()]))
    mark = "." if len(shown) <= MOST_MARKED_CALLS else ""
    if shown["price"].notna().any():
        axes.step(
            calls, prices, where="post", color=DEMAND, marker=mark, markevery=slice(len(shown)),
            label="indicative price",
        )  # fmt: skip
    volume_axes.fill_between(
        calls,
        shown["volume"].astype("float64").fillna(0).to_numpy()[held],
        step="post",
        color=VOLUME,
        linewidth=0,
        rasterized=len(shown) > MOST_DRAWN,
        label="indicative volume",
    )


def _draw_without(axes: Axes, calls: list[float], is_without: Any) -> None:
    """The calls without a price, as spans: whether each one is, up to the next call."""
    changes = numpy.flatnonzero(numpy.diff([False, *is_without, False]))
    spans = [(calls[first], calls[last]) for first, last in zip(changes[::2], changes[1::2])]
    areas = PolyCollection(
        [[(left, 0), (right, 0), (right, 1), (left, 1)] for left, right in spans],
        transform=axes.get_xaxis_transform(),
        facecolor=PALE[REFERENCE],
        edgecolor=REFERENCE,
        linewidth=0.3,
        label="no price",
        zorder=0,
    )
    axes.add_collection(areas, autolim=False)


def _draw_priced(axes: Axes, uncrosses: pandas.DataFrame) -> None:
    """The prices of uncrosses, a mark each."""
    priced = uncrosses[uncrosses["price"].notna()]
    for label, marker, rows in (
        ("auction price", "o", priced[priced["auction"] != INTERRUPTED]),
        ("price of an interrupted uncross", "X", priced[priced["auction"] == INTERRUPTED]),
    ):
        if len(rows):
            axes.plot(
                rows["command"],
                numbers(rows["price"]),
                linestyle="",
                marker=marker,
                markersize=8,
                markerfacecolor="none" if marker == "o" else PRICE,
                color=PRICE,
                label=label,
                zorder=4,
            )


def _label(axes: Axes, volume_axes: Axes, unit: str, named: Namer) -> None:
    """What the picture of a course shows, and in which units."""
    axes.set_title("indicative price and volume", loc="left")
    axes.set_ylabel(f"price ({unit})")
    axes.tick_params(labelbottom=False)
    volume_axes.set_xlabel("call (number of the command)")
    volume_axes.set_ylabel("volume (shares)")
    whole_steps(volume_axes.xaxis, thousands)
    whole_steps(axes.yaxis, named, 5)
    whole_steps(volume_axes.yaxis, thousands, 4)
    for each in (axes, volume_axes):
        each.spines[["top", "right"]].set_visible(False)


def _set_ends(axes: Axes, volume_axes: Axes, end: float, has_price: bool) -> None:
    """The ends of the panels: all calls, volumes from 0, no axis where there is no price."""
    axes.set_xlim(0, end)
    volume_axes.set_ylim(bottom=0)
    low, high = axes.get_ylim()
    if high - low < 2:
        axes.set_ylim(low - 1, high + 1)
    if not has_price:
        axes.text(0.5, 0.3, "no price on this day", transform=axes.transAxes, ha="center")
        for each in (axes, volume_axes):
            each.yaxis.set_visible(False)
            each.spines["left"].set_visible(False)


def words_of(uncrosses: pandas.DataFrame, named: Namer) -> list[str]:
    """What is said at each uncross: its auction, and its price if there was one."""
    return [
        f"{row.auction} {'no price' if pandas.isna(row.price) else named(int(row.price))}"
        for row in uncrosses.itertuples()
    ]


def _draw_words(
    axes: Axes, volume_axes: Axes, uncrosses: pandas.DataFrame, named: Namer
) -> None:
    """A line for each uncross, and its words above the prices, without one over another."""
    calls, words = uncrosses["command"].tolist(), words_of(uncrosses, named)
    for call in calls:
        for each in (axes, volume_axes):
            each.axvline(call, color=REFERENCE, linestyle=":", linewidth=1, zorder=1)
    axes.figure.draw_without_rendering()
    places = _places(axes, calls, words)
    begin = finish(axes, rows=1 + max((row for _, row, _ in places), default=-1))
    _, height = points(axes)
    for call, word, (anchor, row, _) in zip(calls, words, places):
        axes.annotate(
            word,
            (call, begin - (4 + 12 * row) / height),
            (2 if anchor == "left" else -2, 0),
            xycoords=("data", "axes fraction"),
            textcoords="offset points",
            fontsize=UNCROSS_FONT_SIZE,
            ha=anchor,
            va="top",
            color=REFERENCE,
        )


def _places(axes: Axes, calls: list[int], words: list[str]) -> list[tuple[str, int, float]]:
    """Of each word the edge that is at its line, its row, and where it ends, in points."""
    low, high = axes.get_xlim()
    width, _ = points(axes)
    ends: list[float] = []
    found = []
    for call, word in zip(calls, words):
        at, long = (call - low) / (high - low) * width, len(word) * DIGIT * UNCROSS_FONT_SIZE + 4
        anchor, begin = ("left", at) if at + long <= width else ("right", at - long)
        row = next((row for row, end in enumerate(ends) if end <= begin), len(ends))
        ends[row : row + 1] = [begin + long]
        found.append((anchor, row, begin + long))
    return found

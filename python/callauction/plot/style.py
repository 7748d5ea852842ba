"""What the pictures share: colours, names of ticks, and texts that stay within their axes."""
from collections.abc import Callable, Sequence
from typing import Any

import matplotlib.pyplot as pyplot
import numpy
import pandas
from matplotlib.axes import Axes
from matplotlib.ticker import FixedLocator, FuncFormatter, MaxNLocator

from callauction.prices import Grid, tick_size_of

DEMAND, SUPPLY, VOLUME, PRICE, REFERENCE = "#0069a6", "#b34700", "#00735a", "#000000", "#5c5c5c"
"""Colours that people with any eyes can distinguish, each of a contrast of 4.5 or more to white."""
PALE = {DEMAND: "#bcdcf0", SUPPLY: "#f6d3bd", VOLUME: "#a8d9c9", REFERENCE: "#eeeeee"}
"""Their pale kin, for areas behind lines."""
SIZE = (6.0, 4.4)
"""The inches of a new figure."""
MOST_DRAWN = 2_000
"""More levels than these are drawn as points of a picture, in place of shapes each."""
FONTS = (8.5, 7.0, 5.5)
"""The sizes of a legend's letters, in points; the first one for which there is room."""
MOST_LEGEND = 0.35
"""The most of the height of axes that a legend takes, where it has room otherwise."""
DIGIT = 0.64
"""The width of a digit, as a share of the size of its font."""
Namer = Callable[[int], str]
"""What gives a tick its name."""


def new_axes(size: tuple[float, float] = SIZE) -> Axes:
    """The axes of a new figure of this width and height, in inches."""
    _, axes = pyplot.subplots(figsize=size, layout="constrained")
    return axes


def numbers(column: "pandas.Series") -> Any:
    """A column of integers, of which none is missing, as matplotlib takes it."""
    return column.astype("int64").to_numpy()


def thousands(number: int) -> str:
    """A number of shares or calls, in which thousands are parted."""
    return f"{number:,.0f}"


def namer_of(named: Namer | None, tick_size: object) -> Namer:
    """What gives a tick its name: `named`, or its price where there is a tick size, or its number.
    Raises ValueError for a tick size that isn't above 0.
    """
    if named is not None:
        return named
    if tick_size is None:
        return str
    grid = Grid(tick_size_of(tick_size))
    return lambda tick: f"{grid.price(tick):f}"


def unit_of(named: Namer | None, tick_size: object) -> str:
    """The unit of an axis of ticks that are named so."""
    if tick_size is not None and named is None:
        return f"price, tick size {tick_size}"
    return "ticks" if named is None else "price"


def points(axes: Axes) -> tuple[float, float]:
    """The width and the height of axes in points, 72 of an inch, as they lie now."""
    box = axes.get_window_extent()
    scale = 72 / axes.figure.dpi
    return float(box.width * scale), float(box.height * scale)


# ---- texts that stay where a picture is kept


def finish(axes: Axes, rows: int = 0) -> float:
    """Puts the legend and `rows` lines of text into a band above the data, within the axes, so that
    no picture cuts them off, and makes a title fit. Answers where the band begins under the legend,
    as a share of the axes' height.
    """
    figure = axes.figure
    figure.draw_without_rendering()
    legend = _legend(axes)
    _fit_title(axes)
    _, height = points(axes)
    taken = 0.0
    if legend is not None:
        taken = legend.get_window_extent().height * 72 / figure.dpi / height
    begin = 1 - min(taken, 0.7)
    share = min(1 - begin + (rows * 12 + 6) / height, 0.8)
    low, high = axes.get_ylim()
    axes.set_ylim(low, low + (high - low) / (1 - share))
    _keep_ticks(axes, low, high, int(height * (1 - share) / 20))
    return begin


def _legend(axes: Axes) -> Any:
    """A legend that is no wider than the axes and takes as little of their height as can be, of
    letters that aren't small without need, if there is anything to list.
    """
    handles, labels = axes.get_legend_handles_labels()
    if not handles:
        return None
    room = axes.get_window_extent()
    for size, columns in [(size, columns) for size in FONTS for columns in (4, 3, 2)]:
        legend = axes.legend(
            handles,
            labels,
            loc="upper center",
            ncols=columns,
            frameon=False,
            fontsize=size,
            markerscale=0.6,
            borderaxespad=0.1,
            columnspacing=1.2,
            handlelength=1.6,
        )
        box = legend.get_window_extent()
        if box.width <= room.width and box.height <= MOST_LEGEND * room.height:
            break
    return legend


def _fit_title(axes: Axes) -> None:
    """A title whose letters are small enough for the figure."""
    title = axes.title if axes.title.get_text() else axes._left_title
    if not title.get_text():
        return
    whole = axes.figure.bbox
    while title.get_fontsize() > 5:
        box = title.get_window_extent()
        if box.x1 <= whole.x1 and box.y1 <= whole.y1:
            return
        title.set_fontsize(title.get_fontsize() * 0.93)


def _keep_ticks(axes: Axes, low: float, high: float, most: int) -> None:
    """Ticks of the axis of shares or prices from `low` to `high`, as many as have room, and none in
    the band above.
    """
    locator = axes.yaxis.get_major_locator()
    if isinstance(locator, MaxNLocator):
        locator = MaxNLocator(nbins=max(1, min(6, most)), integer=True)
    places = [place for place in locator.tick_values(low, high) if low <= place <= high]
    axes.yaxis.set_major_locator(FixedLocator(places))


def whole_steps(axis: Any, named: Namer, steps: int = 6) -> None:
    """Ticks at whole numbers with these names."""
    axis.set_major_locator(MaxNLocator(nbins=steps, integer=True))
    axis.set_major_formatter(FuncFormatter(lambda number, _: named(round(number))))


def mark_ticks(
    axes: Axes, ends: tuple[float, float], wanted: Sequence[int], named: Namer
) -> None:
    """Labels the axis of limits, which is upright, between these ends: at each wanted tick for
    whose label there is room, the first ones first, and at others between them.
    """
    low, high = ends
    bottom, top = axes.get_ylim()
    _, height = points(axes)
    room = 1.45 * _label_size(axes.yaxis) / height * (top - bottom)
    steps = max(1, min(8, int((high - low) / room / 1.5)))
    others = MaxNLocator(nbins=steps, integer=True).tick_values(low, high)
    kept: list[int] = []
    for tick in [*wanted, *(int(other) for other in others if other == int(other))]:
        if max(low, 1) <= tick <= high and all(abs(tick - other) >= room for other in kept):
            kept.append(tick)
    axes.set_yticks(sorted(kept), [named(tick) for tick in sorted(kept)])


def mark_shares(axes: Axes) -> None:
    """Labels the axis of shares, which lies across, at whole numbers for which there is room."""
    _, most = axes.get_xlim()
    width, _ = points(axes)
    longest = (len(thousands(round(most))) + 1) * DIGIT * _label_size(axes.xaxis)
    whole_steps(axes.xaxis, thousands, max(1, min(6, int(width / longest))))


def _label_size(axis: Any) -> float:
    """The size of an axis's labels, in points."""
    labels = axis.get_ticklabels()
    return float(labels[0].get_fontsize()) if labels else 10.0


def contrast(color: str) -> float:
    """The contrast of a colour to white, from 1 to 21."""
    parts = numpy.array([int(color[place : place + 2], 16) / 255 for place in (1, 3, 5)])
    linear = numpy.where(parts <= 0.04045, parts / 12.92, ((parts + 0.055) / 1.055) ** 2.4)
    return float(1.05 / (linear @ (0.2126, 0.7152, 0.0722) + 0.05))

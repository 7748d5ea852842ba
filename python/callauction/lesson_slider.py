"""The slider of a lesson: what the limit of an order does, as a table, a picture and HTML."""
import base64
import html
import io
from collections.abc import Sequence
from typing import TYPE_CHECKING

import pandas

from callauction import plot
from callauction.lesson import LessonOrder, auction_of
from callauction.plot.style import thousands, whole_steps
from callauction.words import NoPrice, Price

if TYPE_CHECKING:
    from matplotlib.axes import Axes
    from matplotlib.figure import Figure

MOVED = ("limit", "price", "volume", "surplus")
"""The columns of what an order's limit does."""


def moved(orders: Sequence[LessonOrder], place: int, limits: Sequence[int]) -> pandas.DataFrame:
    """What the limit of the order at this place, from 0 on, does to the price, the
    volume and the surplus (MOVED); `<NA>` where there is no price.
    """
    rows = []
    for limit in limits:
        with auction_of(*_with(orders, place, limit)) as auction:
            rows.append((limit, *_numbers(auction.display())))
    return pandas.DataFrame(rows, columns=list(MOVED)).astype("Int64")


def _with(orders: Sequence[LessonOrder], place: int, limit: int) -> list[LessonOrder]:
    """The orders, that at this place with another limit."""
    side, quantity, _ = orders[place]
    return [*orders[:place], (side, quantity, limit), *orders[place + 1 :]]


def _numbers(shown: Price | NoPrice) -> tuple[int | None, ...]:
    if isinstance(shown, NoPrice):
        return None, None, None
    return shown.tick, shown.volume, shown.surplus


def draw_moved(
    orders: Sequence[LessonOrder], place: int, limit: int, found: pandas.DataFrame
) -> "Figure":
    """Draws the book with this limit of an order; beside it what each limit does (`moved`): volume
    and surplus, the limit upright as in the book, and the price. Answers the figure.
    """
    import matplotlib.pyplot as pyplot

    figure, (book, shares, price) = pyplot.subplots(
        1, 3, figsize=(11, 4.2), layout="constrained", gridspec_kw={"width_ratios": (5, 3, 3)}
    )
    with auction_of(*_with(orders, place, limit)) as auction:
        plot.book(auction, ax=book)
    whose = f"limit of order {place + 1} (ticks)"
    limits = found["limit"].astype("float64")
    for name, mark in (("volume", "o"), ("surplus", "s")):
        shares.plot(found[name].astype("float64"), limits, marker=mark, label=name)
    shares.axhline(limit, color="black", linestyle=":")
    _label(shares, "shares", whose)
    price.plot(limits, found["price"].astype("float64"), marker="o", label="price")
    price.axvline(limit, color="black", linestyle=":")
    _label(price, whose, "price (ticks)")
    return figure


def _label(axes: "Axes", across: str, upright: str) -> None:
    """What the axes of a panel are, in whole numbers, and its legend above it."""
    whole_steps(axes.xaxis, thousands, 4)
    whole_steps(axes.yaxis, str)
    axes.set_xlabel(across)
    axes.set_ylabel(upright)
    axes.legend(fontsize="small", loc="lower left", bbox_to_anchor=(0, 1), ncols=2, frameon=False)


_MOVE = (
    "this.parentNode.parentNode.querySelectorAll('img').forEach((it, place) => "
    "it.style.display = place == this.value ? '' : 'none');"
    "this.nextElementSibling.textContent = this.dataset.limits.split(' ')[this.value]"
)
"""What a move of the slider does in the browser."""


def slider_of(
    orders: Sequence[LessonOrder],
    place: int,
    limits: Sequence[int],
    start: int,
    found: pandas.DataFrame,
) -> str:
    """The slider as HTML: a picture for each limit, of which one is seen."""
    pictures = []
    for limit, (_, row) in zip(limits, found.iterrows()):
        words = html.escape(f"limit {limit}: " + ", ".join(f"{k} {row[k]}" for k in MOVED[1:]))
        style = "" if limit == start else ' style="display:none"'
        data = _png(draw_moved(orders, place, limit, found))
        pictures.append(f'<img alt="{words}"{style} src="data:image/png;base64,{data}">')
    listed = " ".join(map(str, limits))
    slider = (
        f'<label>limit of order {place + 1}: <input type="range" min="0" max="{len(limits) - 1}" '
        f'value="{[*limits].index(start)}" data-limits="{listed}" oninput="{_MOVE}"> '
        f"<output>{start}</output></label>"
    )
    return f"<div>{slider}<div>{''.join(pictures)}</div></div>"


def _png(figure: "Figure") -> str:
    """A figure as a PNG in base64; it is closed."""
    import matplotlib.pyplot as pyplot

    kept = io.BytesIO()
    figure.savefig(kept, format="png", dpi=80)
    pyplot.close(figure)
    return base64.b64encode(kept.getvalue()).decode("ascii")

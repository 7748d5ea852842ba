"""Pictures by their data: what the artists hold is what the tables say."""
from collections.abc import Iterator
from pathlib import Path
from typing import Any

import matplotlib.pyplot as pyplot
import numpy
import pandas
import pytest
from callauction import Side, commands, plot
from callauction.course import INDICATIVE, UNCROSSES, Course, course_of
from callauction.outcomes import queue_of
from callauction.plot import style
from callauction.program import Day
from callauction.recording import RecordedAuction
from callauction.tables import BOOK, book_at, books_of, journal_of, table_of
from days import EXAMPLES, day_of, form_of, stored, wide_day
from matplotlib.axes import Axes


@pytest.fixture(autouse=True)
def _figures_are_closed() -> Iterator[None]:
    pyplot.switch_backend("Agg")
    yield
    pyplot.close("all")


def named(axes: Axes, label: str) -> Any:
    """The one artist with this label."""
    [found] = [artist for artist in axes.get_children() if artist.get_label() == label]
    return found


def labels(axes: Axes) -> list[str]:
    return [text.get_text() for text in axes.get_legend().get_texts()]


def steps(axes: Axes, label: str) -> tuple[list[float], list[float]]:
    patch = named(axes, label)
    assert patch.orientation == "horizontal"
    data = patch.get_data()
    return [*data.values], [*data.edges]


def bars(axes: Axes, label: str) -> list[tuple[float, float, float]]:
    """The tick, the begin and the end of each bar, which lies across."""
    lines = [segment.tolist() for segment in named(axes, label).get_segments()]
    assert all(line[0][1] == line[1][1] for line in lines)
    return [(line[0][1], line[0][0], line[1][0]) for line in lines]


def marks(axes: Axes, label: str) -> list[tuple[int, int]]:
    """The tick and the shares of each mark of a book."""
    line = named(axes, label)
    return [*zip(line.get_ydata(), line.get_xdata())]


def points(axes: Axes, label: str) -> list[tuple[int, int]]:
    line = named(axes, label)
    return [*zip(line.get_xdata(), line.get_ydata())]


def ticks(axes: Axes) -> list[str]:
    return [text.get_text() for text in axes.get_yticklabels()]


def example(name: str) -> Day:
    return day_of(next(file for file in EXAMPLES if file.stem == name))


# ---- a book


def test_a_book_is_drawn_by_its_table() -> None:
    axes = plot.book(stored("surplus_bid"), reference=200)
    demand, supply = steps(axes, "demand"), steps(axes, "supply")
    assert demand == ([600, 600, 600, 400, 0], [197, 198, 199, 201, 202, 203])
    assert supply == ([0, 200, 500, 500, 500], [197, 198, 199, 201, 202, 203])
    assert bars(axes, "executable volume") == [
        (198, 0, 200), (199, 0, 500), (201, 0, 500), (202, 0, 400)
    ]
    assert marks(axes, "best limits") == [(199, 500), (201, 500)]
    assert marks(axes, "price 201") == [(201, 500)]
    assert bars(axes, "surplus") == [(201, 500, 600)]
    [(tick, low, high)] = bars(axes, "reference 200")
    assert (tick, low) == (200, 0) and high > 600
    assert axes.get_title(loc="left") == (
        "opening, before command 6\nprice 201, volume 500, surplus 100 bid"
    )
    assert (axes.get_xlabel(), axes.get_ylabel()) == ("quantity (shares)", "limit (ticks)")
    assert {"199", "201"} <= {*ticks(axes)}
    assert labels(axes) == [
        "demand", "supply", "executable volume", "best limits", "surplus", "price 201",
        "reference 200",
    ]


@pytest.mark.parametrize("file", EXAMPLES, ids=[file.stem for file in EXAMPLES])
def test_each_example_is_drawn_by_its_table(file: Path) -> None:
    books = table_of(form_of(file, "book"), BOOK)
    for command in books["command"].unique():
        axes = plot.book(books, command)
        book = book_at(books, command)
        market, rising = book.iloc[0], book.iloc[:0:-1]
        assert steps(axes, "demand")[0] == [*rising["demand"], market["bid"]]
        assert steps(axes, "supply")[0] == [market["ask"], *rising["supply"]]
        listed = {"demand", "supply"}
        if rising["volume"].gt(0).any():
            listed.add("executable volume")
            assert bars(axes, "executable volume") == [
                (row.limit, 0, row.volume) for row in rising.itertuples()
            ]
        best = rising[rising["best"] == 1]
        if len(best):
            listed.add("best limits")
            assert marks(axes, "best limits") == [*zip(best["limit"], best["volume"])]
        for price in rising[rising["rule"] != ""].itertuples():
            listed.add(f"price {price.limit}")
            assert str(price.limit) in ticks(axes)
            assert marks(axes, f"price {price.limit}") == [(price.limit, price.volume)]
            if price.surplus:
                listed.add("surplus")
                assert bars(axes, "surplus") == [
                    (price.limit, price.volume, price.volume + price.surplus)
                ]
        assert {*labels(axes)} == listed
        pyplot.close(axes.figure)


def test_a_picture_is_drawn_where_one_likes() -> None:
    _, (left, right) = pyplot.subplots(1, 2)
    books = stored("opening")
    assert plot.book(books, 8, ax=right) is right
    assert not left.get_children()[0].get_label().startswith("demand") and not left.get_legend()
    assert plot.indicative(day_of(EXAMPLES[0]), ax=left)[0] is left
    with pytest.raises(ValueError, match="no book before command 5"):
        plot.book(books, 5)


def test_a_book_without_limits_is_drawn() -> None:
    books = stored("market_orders")
    axes = plot.book(books, 7)
    assert steps(axes, "demand")[0] == [100] and steps(axes, "supply")[0] == [0]
    assert axes.get_title(loc="left").endswith("no price")
    axes = plot.book(books, 7, reference=200)
    assert steps(axes, "demand") == ([100], [199, 201])


@pytest.mark.parametrize("reference, side", [(1, "below"), (188, ""), (212, ""), (900, "above")])
def test_a_far_reference_is_an_arrow_at_the_edge(reference: int, side: str) -> None:
    axes = plot.book(stored("surplus_bid"), reference=reference)
    low, high = axes.get_ylim()
    if not side:
        assert f"reference {reference}" in labels(axes) and low < reference < high
        return
    assert low == 197 and f"reference {reference}" not in labels(axes)
    assert max(steps(axes, "demand")[1]) == 203
    [arrow] = axes.texts
    assert arrow.get_text() == f"reference {reference}" and arrow.arrow_patch is not None
    (_, end), (_, begin) = arrow.xy, arrow.xyann
    assert (end == 0 < begin) if side == "below" else (0.5 < begin < end < 1)


def test_prices_are_decimals_where_a_tick_size_is_known() -> None:
    axes = plot.book(stored("surplus_bid"), reference=200, tick_size="0.05")
    assert axes.get_ylabel() == "limit (price, tick size 0.05)"
    assert {"9.95", "10.05"} <= {*ticks(axes)} and "price 10.05" in labels(axes)
    assert "price 10.05, volume 500" in axes.get_title(loc="left")
    axes = plot.book(stored("surplus_bid"), named=lambda tick: f"at {tick}")
    assert axes.get_ylabel() == "limit (price)" and "at 201" in ticks(axes)
    with pytest.raises(ValueError, match="tick_size 0 isn't above 0"):
        plot.book(stored("surplus_bid"), tick_size=0)


def test_a_price_is_seen_within_its_best_limit() -> None:
    axes = plot.book(stored("surplus_bid"))
    best, price = named(axes, "best limits"), named(axes, "price 201")
    assert best.get_markerfacecolor() == "none"
    assert price.get_markersize() < best.get_markersize() / 2
    assert price.get_zorder() > best.get_zorder()


def test_a_recorded_auction_knows_its_reference() -> None:
    with RecordedAuction(reference=150) as auction:
        auction.enter(1, Side.BID, 5, 160)
        auction.enter(2, Side.ASK, 5, 140)
        axes = plot.book(auction)
        assert marks(axes, "price 150") == [(150, 5)]
        assert axes.get_title(loc="left").startswith("opening\nprice 150, ")
        auction.uncross()
        assert "reference 150" in labels(plot.book(auction, 3))
        auction.enter(1, Side.BID, 5, 170)
        auction.enter(2, Side.ASK, 5, 170)
        auction.uncross()
        assert "reference 170" in labels(plot.book(auction))
        assert points(plot.indicative(auction)[0], "auction price") == [(3, 150), (6, 170)]


# ---- what is kept of a picture


def lies_within(inner: Any, outer: Any) -> bool:
    """Whether a box of the screen lies within another one, but for a point's breadth."""
    return bool(
        inner.x0 >= outer.x0 - 1
        and inner.y0 >= outer.y0 - 1
        and inner.x1 <= outer.x1 + 1
        and inner.y1 <= outer.y1 + 1
    )


def drawn(axes: Axes, folder: Path, least: int = 2) -> bytes:
    """The picture as a file, and that its texts lie within it, the legend within its axes, without
    one tick's text over another's.
    """
    figure = axes.figure
    figure.savefig(folder / "picture.svg")
    renderer = figure.canvas.get_renderer()
    for axis, along in ((axes.xaxis, 0), (axes.yaxis, 1)):
        texts = [text for text in axis.get_ticklabels() if text.get_text()]
        boxes = [text.get_window_extent(renderer).get_points()[:, along] for text in texts]
        boxes = sorted(boxes, key=lambda box: float(box[0]))
        assert all(first[1] < second[0] for first, second in zip(boxes, boxes[1:]))
        assert least <= len(texts) <= 12
    if axes.get_legend():
        legend = axes.get_legend().get_window_extent(renderer)
        assert lies_within(legend, axes.get_window_extent(renderer))
    for text in (*axes.texts, axes._left_title):
        assert lies_within(text.get_window_extent(renderer), figure.bbox)
    return (folder / "picture.svg").read_bytes()


SIZES = [(3.0, 2.4), plot.SIZE, (12.0, 8.0)]


@pytest.mark.parametrize("size", SIZES)
@pytest.mark.parametrize("layout", ["constrained", "tight", None])
def test_what_is_drawn_is_kept_at_each_size(
    size: tuple[float, float], layout: str | None, tmp_path: Path
) -> None:
    for name in ("surplus_bid", "far_limit"):
        figure, axes = pyplot.subplots(figsize=size, layout=layout)
        plot.book(stored(name), reference=200, ax=axes)
        top = axes.transData.transform((0, max(steps(axes, "demand")[1])))[1]
        assert drawn(axes, tmp_path, 1 if size[0] < 4 else 2)
        # No curve runs behind the legend.
        assert top <= axes.get_legend().get_window_extent().y0 + 1
        pyplot.close(figure)


def test_pictures_side_by_side_keep_their_legends(tmp_path: Path) -> None:
    figure, panels = pyplot.subplots(2, 2, figsize=(9, 6))
    for axes in panels.flat:
        plot.book(stored("surplus_bid"), reference=200, ax=axes)
    figure.savefig(tmp_path / "four.png")
    for axes in panels.flat:
        assert lies_within(axes.get_legend().get_window_extent(), axes.get_window_extent())


def test_two_ticks_are_readable(tmp_path: Path) -> None:
    day = Day(b"1,enter,bid,5,2\n2,enter,ask,3,1\n", ("--high", "2", "--reference", "1"))
    assert drawn(plot.book(books_of(day), reference=1), tmp_path)


def test_65536_ticks_are_readable(tmp_path: Path) -> None:
    books = books_of(wide_day())
    axes = plot.book(books, reference=30_000)
    rising = books[books["limit"].notna()][::-1]
    assert len(rising) == 65_536
    assert steps(axes, "demand")[0][:-1] == rising["demand"].tolist()
    assert len(drawn(axes, tmp_path)) < 1_000_000


@pytest.mark.parametrize("count, is_area", [(200, False), (201, True)])
def test_the_volume_of_many_limits_is_one_area(count: int, is_area: bool) -> None:
    orders = [f"1,enter,{'bid' if k % 3 else 'ask'},{k % 7 + 1},{k + 1}\n" for k in range(count)]
    books = books_of(Day("".join(orders).encode("ascii")))
    axes = plot.book(books, reference=100)
    found = named(axes, "executable volume")
    assert (found.get_alpha() or 1) == 1
    if not is_area:
        assert len(found.get_segments()) == count
        return
    rising = books[books["limit"].notna()][::-1]
    demand, supply = rising["demand"].tolist(), rising["supply"].tolist()
    # Between two limits the demand is that of the upper one, the supply that of the lower one.
    wanted = [min(demand[k + 1], supply[k]) for k in range(count - 1)]
    assert steps(axes, "executable volume") == (wanted, rising["limit"].tolist())
    assert found.get_fill()


def test_lines_and_words_have_contrast() -> None:
    for color in (style.DEMAND, style.SUPPLY, style.VOLUME, style.PRICE, style.REFERENCE):
        assert style.contrast(color) >= 4.5
    assert style.contrast("#ffffff") == 1 and round(style.contrast("#000000")) == 21
    assert round(style.contrast("#767676"), 2) == 4.54


# ---- a course


@pytest.mark.parametrize("name", ["interruption", "day", "opening", "refusals"])
def test_a_course_is_what_asking_after_each_command_shows(name: str) -> None:
    file = next(file for file in EXAMPLES if file.stem == name)
    day = day_of(file)
    lines = day.content.decode("ascii").splitlines()
    asked = Day("".join(f"{line}\n0,ask\n" for line in lines).encode("ascii"), day.words)
    texts = journal_of(asked)["lawful"][1::2]
    course = course_of(day)
    shown = [
        f"price {row.price} volume {row.volume} surplus {row.surplus} {row.side}"
        for row in course.indicative.itertuples()
        if row.side
    ]
    assert shown == [text for text in texts if text.startswith("price")]
    assert course.indicative["command"].tolist() == [*range(1, len(lines) + 1)]
    assert course.indicative["side"].ne("").tolist() == [t.startswith("price") for t in texts]


def test_uncrosses_are_those_of_the_journal() -> None:
    course = course_of(example("interruption"))
    shown = course.uncrosses.astype("object").where(course.uncrosses.notna(), None)
    assert shown.to_numpy().tolist() == [
        [3, "interrupted", 206, 100, 0, "none", 0],
        [5, "opening", None, None, None, "", 0],
        [7, "interrupted", 206, 100, 0, "none", 0],
        [8, "intraday", 206, 100, 0, "none", 1],
    ]
    for frame, columns in ((course.uncrosses, UNCROSSES), (course.indicative, INDICATIVE)):
        assert {name: str(kind) for name, kind in frame.dtypes.items()} == columns


def test_a_course_is_drawn_by_its_data(tmp_path: Path) -> None:
    course = course_of(example("interruption"))
    axes, volume_axes = plot.indicative(course)
    line = named(axes, "indicative price")
    wanted = course.indicative["price"].astype("float64").to_numpy()
    assert numpy.array_equal(line.get_ydata()[:-1], wanted, equal_nan=True)
    assert [*line.get_xdata()][:-1] == course.indicative["command"].tolist()
    assert points(axes, "price of an interrupted uncross") == [(3, 206), (7, 206)]
    assert points(axes, "auction price") == [(8, 206)]
    [area] = [artist for artist in volume_axes.collections]
    assert area.get_paths()[0].vertices[:, 1].max() == 100
    assert [text.get_text() for text in axes.texts] == [
        "interrupted 206", "opening no price", "interrupted 206", "intraday 206"
    ]
    assert (axes.get_ylabel(), volume_axes.get_ylabel()) == ("price (ticks)", "volume (shares)")
    assert labels(axes) == [
        "no price", "indicative price", "auction price", "price of an interrupted uncross"
    ]  # fmt: skip
    assert drawn(axes, tmp_path, 0) and drawn(volume_axes, tmp_path)


@pytest.mark.parametrize("size", SIZES)
@pytest.mark.parametrize("way", ["constrained", "none", "free"])
def test_the_panels_of_a_course_share_the_calls(
    size: tuple[float, float], way: str, tmp_path: Path
) -> None:
    figure = pyplot.figure(figsize=size, layout="constrained" if way == "constrained" else None)
    given = figure.add_axes([0.2, 0.2, 0.7, 0.6]) if way == "free" else figure.subplots()
    axes, volume_axes = plot.indicative(example("interruption"), ax=given, tick_size="0.01")
    figure.savefig(tmp_path / "course.png")
    assert axes is given and axes.get_shared_x_axes().joined(axes, volume_axes)
    upper, lower = axes.get_window_extent(), volume_axes.get_window_extent()
    assert (upper.x0, upper.x1) == pytest.approx((lower.x0, lower.x1)) and upper.y0 > lower.y1
    assert axes.get_ylabel() == "price (price, tick size 0.01)"
    assert axes.texts[0].get_text() == "interrupted 2.06"
    boxes = [text.get_window_extent() for text in axes.texts]
    for place, box in enumerate(boxes):
        assert lies_within(box, figure.bbox)
        assert not any(box.overlaps(other) for other in boxes[place + 1 :])


@pytest.mark.parametrize("content", [b"", b"1,enter,bid,5,200\n0,uncross\n"])
def test_a_day_without_prices_has_no_axis_of_prices(content: bytes) -> None:
    course = course_of(Day(content))
    assert course.indicative["price"].isna().all()
    for axes in plot.indicative(course):
        assert not axes.yaxis.get_visible() and not axes.get_legend()
    words = [text.get_text() for text in pyplot.gcf().axes[0].texts]
    assert words == ["no price on this day", *["opening no price"] * bool(content)]


@pytest.mark.parametrize("before", [0, 1, 150, 3_000])
def test_a_price_that_comes_last_and_stays_is_seen(before: int, tmp_path: Path) -> None:
    orders = "1,enter,bid,5,100\n" * before + "1,enter,bid,5,200\n2,enter,ask,5,200\n"
    course = course_of(Day(orders.encode("ascii")))
    axes, volume_axes = plot.indicative(course)
    axes.figure.savefig(tmp_path / "course.png")
    line = named(axes, "indicative price")
    shown = ~numpy.isnan(line.get_ydata())
    span = numpy.array(line.get_xdata())[shown]
    assert set(line.get_ydata()[shown]) == {200}
    assert span[0] == before + 2 and span[-1] == axes.get_xlim()[1]
    width = (span[-1] - span[0]) / axes.get_xlim()[1] * axes.get_window_extent().width
    assert width >= 5
    [area] = volume_axes.collections
    extents = area.get_paths()[0].get_extents()
    assert (extents.x1, extents.y1) == (span[-1], 5)


def test_a_course_of_many_commands_is_shown_whole() -> None:
    shown = {"command": range(4, 80_004, 4), "price": 200, "volume": 5, "surplus": 0}
    looks = pandas.DataFrame(shown)
    course = Course(looks.assign(side="none").astype(INDICATIVE), course_of(Day(b"")).uncrosses)
    axes, _ = plot.indicative(course)
    assert axes.get_xlim()[1] > 80_000


# ---- orders


def test_a_queue_is_drawn_in_its_priority(tmp_path: Path) -> None:
    day = example("time_priority")
    wanted = queue_of(day)
    axes = plot.queue(day, Side.BID)
    bids = wanted.orders[wanted.orders["side"] == "bid"]
    opened, executed = axes.containers
    assert [bar.get_width() for bar in opened] == bids["quantity"].tolist()
    assert [bar.get_width() for bar in executed] == bids["executed"].tolist()
    assert drawn(axes, tmp_path, 1)


def queued() -> RecordedAuction:
    """Bids at market, at 201 and at 200, of which an ask of 260 takes some."""
    auction = RecordedAuction()
    auction.enter(1, Side.BID, 100, 200)
    auction.enter(2, Side.BID, 100, 201, peak=40)
    auction.enter(3, Side.BID, 50)
    auction.enter(4, Side.BID, 60, 201)
    auction.enter(5, Side.ASK, 180, 201)
    return auction


def rows(axes: Axes) -> list[str]:
    """The names of the rows of a queue, the first one at the top."""
    return [text.get_text() for text in axes.get_yticklabels()]


def test_a_queue_has_the_fills_of_its_orders(tmp_path: Path) -> None:
    with queued() as auction:
        axes = plot.queue(auction, Side.BID)
        assert rows(axes) == [
            "order 3, member 3, market",
            "order 2, member 2, at 201, shows 40",
            "order 4, member 4, at 201",
            "order 1, member 1, at 200",
        ]
        opened, executed = axes.containers
        assert [bar.get_width() for bar in opened] == [50, 100, 60, 100]
        assert [bar.get_width() for bar in executed] == [50, 100, 30, 0]
        words = [text.get_text() for text in axes.texts]
        assert words == ["50 of 50", "100 of 100", "30 of 60", "0 of 100"]
        heights = [bar.get_y() for bar in opened]
        assert heights == sorted(heights, reverse=True)
        assert axes.get_title(loc="left") == (
            "opening, bids in their priority\n180 of 310 shares executed"
        )
        assert drawn(axes, tmp_path, 1)
        at = plot.queue(auction, Side.BID, limit=201, tick_size="0.1")
        assert [bar.get_width() for bar in at.containers[1]] == [100, 30]
        assert "bids at 20.1 in their priority" in at.get_title(loc="left")
        market = plot.queue(auction, Side.BID, limit="market")
        assert [bar.get_width() for bar in market.containers[0]] == [50]
        with pytest.raises(ValueError, match="^there is no ask at 200 in the opening auction$"):
            plot.queue(auction, Side.ASK, limit=200)


def test_a_long_queue_at_one_limit_has_rows_of_as_many_orders(tmp_path: Path) -> None:
    orders = "".join(f"1,enter,bid,{k + 1},200\n" for k in range(100))
    axes = plot.queue(Day(f"{orders}2,enter,ask,2000,200\n".encode("ascii")), Side.BID)
    assert rows(axes)[:2] == ["at 200, 1 to 10 of 100 orders", "at 200, 11 to 20 of 100 orders"]
    # 1 + .. + 62 are 1,953, so order 63 gets 47, and the row of 61 to 70 has 61 + 62 + 47.
    assert [bar.get_width() for bar in axes.containers[1]][4:] == [455, 555, 170, 0, 0, 0]
    assert [bar.get_width() for bar in axes.containers[0]][6] == sum(range(61, 71))
    assert "100 orders in 10 groups\n2,000 of 5,050 shares" in axes.get_title(loc="left")
    assert drawn(axes, tmp_path, 1)


def test_a_long_queue_of_some_limits_has_a_row_of_each() -> None:
    orders = [f"{k % 3},enter,ask,10,{200 + k % 8}\n" for k in range(80)]
    axes = plot.queue(Day("".join([*orders, "1,enter,ask,7,market\n"]).encode("ascii")), Side.ASK)
    assert rows(axes)[0] == "order 81, member 1, market"
    assert rows(axes)[1:] == [
        f"at {limit}, {part} of 10 orders"
        for limit in range(200, 208)
        for part in ("1 to 5", "6 to 10")
    ]


def crowd(count: int, deviation: float) -> RecordedAuction:
    """Orders of 30 members around 200, a few at market."""
    dice = numpy.random.default_rng(count)
    limits = dice.normal(200, deviation, count).round().clip(1, 1000).astype(object)
    limits[dice.random(count) < 0.05] = None
    sides = dice.integers(1, 3, count)
    auction = RecordedAuction()
    orders = commands(
        member=dice.integers(1, 31, count), side=sides, quantity=dice.integers(1, 500, count),
        limit=limits,
    )  # fmt: skip
    auction.apply_many(orders)
    return auction


def apart(boxes: list[Any]) -> bool:
    """Whether no box of the screen overlaps another one."""
    return not any(
        box.overlaps(other) for place, box in enumerate(boxes) for other in boxes[place + 1 :]
    )


@pytest.mark.parametrize(
    "count, deviation", [(6, 2), (40, 4), (43, 4), (300, 15), (2000, 60), (2000, 2)]
)
@pytest.mark.parametrize("side", [Side.BID, Side.ASK])
def test_a_queue_is_readable(count: int, deviation: float, side: Side) -> None:
    with crowd(count, deviation) as auction:
        axes = plot.queue(auction, side)
        orders = queue_of(auction).orders
    those = orders[orders["side"] == side.name.lower()]
    for bars_of, name in zip(axes.containers, ("quantity", "executed")):
        assert sum(bar.get_width() for bar in bars_of) == those[name].sum()
    figure = axes.figure
    figure.canvas.draw()
    for texts in (axes.get_yticklabels(), axes.texts):
        boxes = [text.get_window_extent() for text in texts]
        assert len(boxes) == len(axes.containers[0]) and apart(boxes)
        assert all(lies_within(box, figure.bbox) for box in boxes)
        assert all(text.get_fontsize() >= 8 for text in texts)
    is_single = len(axes.containers[0]) == len(those)
    assert is_single == (count <= 43)
    assert ("groups" in axes.get_title(loc="left")) != is_single


def test_a_queue_on_given_axes_has_the_rows_that_fit() -> None:
    figure, axes = pyplot.subplots(figsize=(6, 3), layout="constrained")
    with crowd(60, 10) as auction:
        plot.queue(auction, Side.BID, ax=axes)
    figure.canvas.draw()
    assert 3 <= len(rows(axes)) <= 12
    assert apart([text.get_window_extent() for text in axes.get_yticklabels()])


def test_an_allocation_has_a_span_for_each_fill_and_trade(tmp_path: Path) -> None:
    with queued() as auction:
        auction.enter(6, Side.ASK, 30, 200)
        auction.uncross()
        axes = plot.allocation(auction, 7)
        trades = auction.trades()
    bids, made, asks = axes.containers
    assert [bar.get_width() for bar in bids] == [50, 100, 60]
    assert [bar.get_x() for bar in bids] == [0, 50, 150]
    assert [bar.get_width() for bar in asks] == [30, 180]
    assert [bar.get_width() for bar in made] == [30, 20, 100, 60] == trades["quantity"].tolist()
    words = [text.get_text() for text in axes.texts]
    assert words[1] == "bid 2\nmember 2\n100" and words[-1] == "ask 5\nmember 5\n180"
    assert words[3:7] == ["30", "20", "100", "60"]
    assert axes.get_title(loc="left") == "opening, who trades with whom\n4 trades at 201"
    assert drawn(axes, tmp_path)
    for size in SIZES:
        figure, small = pyplot.subplots(figsize=size, layout="constrained")
        plot.allocation(example("opening"), 8, ax=small)
        assert drawn(small, tmp_path, 1)


@pytest.mark.parametrize("count, deviation", [(6, 2), (40, 4), (86, 4), (300, 15), (2000, 60)])
def test_an_allocation_is_readable(count: int, deviation: float) -> None:
    with crowd(count, deviation) as auction:
        axes = plot.allocation(auction)
        found = queue_of(auction)
    sides = found.orders["side"][found.orders["executed"] > 0]
    figure = axes.figure
    figure.canvas.draw()
    spans = [bar for container in axes.containers for bar in container]
    assert len(axes.texts) == len(spans)
    for text, bar in zip(axes.texts, spans):
        assert lies_within(text.get_window_extent(), bar.get_window_extent())
        assert text.get_fontsize() >= 8
    counts = [(sides == "bid").sum(), len(found.trades), (sides == "ask").sum()]
    for container, single in zip(axes.containers, counts):
        assert sum(bar.get_width() for bar in container) == found.trades["quantity"].sum()
        assert len(container) <= min(single, 40)
    is_single = [len(container) for container in axes.containers] == counts
    assert ("small ones drawn together" in axes.get_title(loc="left")) != is_single


def test_without_trades_there_is_no_allocation() -> None:
    with pytest.raises(ValueError, match="nothing is executed by command 3"):
        plot.allocation(example("interruption"), 3)
    with pytest.raises(ValueError, match="nothing is executed by an uncross now"):
        plot.allocation(Day(b"1,enter,bid,5,200\n"))

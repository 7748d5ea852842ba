"""What may be together in one file and mustn't be judged so: two days, two markets, or a file of
orders and one of results.
"""
from collections.abc import Iterator, Sequence

import numpy
import pandas

from callauction.verdict import time_columns
from callauction.verdict.cells import Ints
from callauction.verdict.columns import ExtractError
from callauction.verdict.corrected_results import doubled, has_more, results_of
from callauction.verdict.rows import OF_ORDERS, Kind, Rows
from callauction.words import AUCTIONS


def is_one_session(rows: Rows) -> bool:
    """Whether rows of two dates are of one session: no longer than LONGEST_SESSION, its auctions in
    their order.
    """
    at = rows.time[(rows.kind != Kind.BAD) & (rows.time != time_columns.NO_TIME)]
    names = rows.auction[results_of(rows)]
    return bool(
        len(at) and at.max() - at.min() < time_columns.LONGEST_SESSION and (names > 0).all()
        and (numpy.diff(names.astype("i8")) > 0).all()
    )  # fmt: skip


def refuse_days(rows: Rows) -> None:
    """Raises ExtractError where results have two dates, or where rows of later orders are between
    two results of one auction.
    """
    results, days = results_of(rows), list[tuple[str, int]]()
    for place in results.tolist():
        date = rows.names.date(place)
        days += [(str(date), place)] if date is not None else []
    (first, one), (last, other) = min(days, default=("", 0)), max(days, default=("", 0))
    if first != last and not is_one_session(rows):
        condition = f"{rows.names.theirs['time']} < {last}T00:00:00"
        _refuse(rows, (one, other), "results of two days", f"--where '{condition}'")
    of_auctions = [results[rows.auction[results] == 1 + number] for number in range(len(AUCTIONS))]
    is_single = sum(len(those) > 1 for those in of_auctions) == 1
    for number, those in enumerate(of_auctions):
        for one, other in zip(those.tolist(), those[1:].tolist()):
            time, own = rows.time[other], rows.kind[one:other] == Kind.NEW
            if is_single and time == rows.time[one]:  # a correction with the time of the auction
                continue
            if time != time_columns.NO_TIME and (rows.time[one:other][own] > time).any():
                what = f"results of one auction, the {AUCTIONS[number]}, of two days or markets"
                _refuse(rows, (one, other), what, "--where")


def _refuse(rows: Rows, both: tuple[int, int], what: str, how: str) -> None:
    one, other = (rows.labels[place] for place in both)
    raise ExtractError(
        f"rows {one} and {other} are {what}: keep one by {how}, or name a column that tells them "
        "apart by --by"
    )


def refuse_markets(rows: Rows, due: Sequence[int]) -> None:
    """Raises ExtractError where an unread column of results and entries tells two markets apart."""
    groups, results = [*doubled(rows, due).values()], results_of(rows)
    if not groups and (len(results) <= len(due) or (rows.auction[results] > 0).any()):
        return
    for name in rows.names.unread:
        for one, other in _told_apart(rows, due, groups, name):
            texts = [rows.names.their_cell(place, name) for place in (one, other)]
            raise ExtractError(
                f"rows {rows.labels[one]} and {rows.labels[other]} are results of one auction, of "
                f"{texts[0]} and {texts[1]} in {name}: say --by {name}, or keep one by --where "
                f"'{name} == {texts[0]}'"
            )


def refuse_sums(rows: Rows, due: Sequence[int]) -> None:
    """Raises ExtractError where there are more results than auctions, and the trades of one add up
    to the volumes of its results, which differ, as those of two markets do.
    """
    made = rows.of(Kind.TRADE, Kind.FILL)
    for those in doubled(rows, due).values() if has_more(rows, due) else ():
        own, volumes = made[rows.auction[made] == rows.auction[those[0]]], rows.quantity[those]
        fills = own[rows.kind[own] == Kind.FILL]
        shares = 2 * rows.quantity[own].sum() - rows.quantity[fills].sum()
        is_other = volumes.min() > 0 and len(numpy.unique(volumes)) == len(volumes)
        if is_other and shares == 2 * volumes.sum():
            _refuse(rows, (int(those[0]), int(those[1])), "results of two markets", "--where")


def _told_apart(
    rows: Rows, due: Sequence[int], groups: Sequence[Ints], name: str
) -> Iterator[tuple[int, int]]:
    """Two results of each auction that have other texts of a column, all of whose texts in results
    are in entries; where no result has a name, each text has one for each auction.
    """
    results, news = results_of(rows), rows.of(Kind.NEW)
    codes = rows.names.codes(numpy.concatenate([results, news]), name)
    own = codes[: len(results)]
    if not len(own) or not numpy.isin(own, codes[len(results) :]).all() or own.min() < 0:
        return
    counts = numpy.unique(own, return_counts=True)[1]
    if (rows.auction[results] <= 0).all() and len(counts) > 1 and counts.min() >= len(due):
        groups = [results]
    for those in groups:
        numbers = own[numpy.searchsorted(results, those)]
        if (numbers != numbers[0]).any():
            yield int(those[0]), int(those[numbers != numbers[0]][0])


def refuse_parts(rows: Rows, due: Sequence[int]) -> None:
    """Raises ExtractError where orders or results are put together so that their times, or their
    names, are in another order than the rows; without times where orders are above all of several
    uncrosses, of which a later one executes shares, or below all of them. One result above the
    orders of its auction is a fault of its own where its trades are below them.
    """
    orders = rows.of(*OF_ORDERS)
    ends = rows.of(Kind.UNCROSS)
    names = rows.auction[ends] - 1
    if len(names) > 1 and names.tolist() == [*due][::-1]:
        raise ExtractError("results are in reverse order (is the newest row first?): say --sort")
    timed = orders[rows.time[orders] != time_columns.NO_TIME]
    is_timed = len(timed) > 0 and len(ends) > 0 and (rows.time[ends] != time_columns.NO_TIME).all()
    falls = numpy.flatnonzero(rows.time[ends[1:]] < rows.time[ends[:-1]])
    if is_timed and len(falls):
        both = ends[falls[0] : falls[0] + 2]
        one, other = rows.labels[both]
        is_next_day = rows.time[both[0]] - rows.time[both[1]] > time_columns.LONGEST_SESSION
        how = "a session over midnight needs dates or a sequence" if is_next_day else "say --sort"
        raise ExtractError(f"the times of results, rows {one} and {other}, fall: {how}")
    is_apart = len(orders) > 0 and len(ends) > 1
    is_above = is_apart and orders[-1] < ends[0] and (rows.quantity[ends[1:]] > 0).any()
    wrong = orders if is_above or is_apart and orders[0] > ends[-1] else orders[:0]
    wrong = _by_time(rows, timed, ends) if is_timed else wrong
    if len(wrong):
        raise ExtractError(_why_apart(rows, int(wrong[0]), int(ends[0]), is_timed))


def _why_apart(rows: Rows, order: int, result: int, is_timed: bool) -> str:
    """Why a row of an order and a result of another place are no day's: by their times, or as these
    don't say where results belong, which no sorting mends.
    """
    one, other = rows.labels[order], rows.labels[result]
    if is_timed or not rows.is_sorted and (rows.number[[order, result]] >= 0).all():
        return (
            f"rows {one} and {other} are in another order than their times (are orders and results "
            "put together?): say --sort"
        )
    return (
        f"rows {one} and {other}: results stand apart from orders and not all have a time, so that "
        "nothing says which orders each auction had"
    )


def _by_time(rows: Rows, orders: Ints, ends: Ints) -> Ints:
    """The rows of orders below all results, and above or below all uncrosses where all entries are,
    that by their times aren't there; below all uncrosses those of several alone. A copy of a row
    above says nothing.
    """
    at, end = rows.time[orders], numpy.sort(rows.time[ends])
    is_dated = [rows.names.date(int(it[0])) is not None for it in (orders, ends)]
    slack = time_columns.SECOND if ":" in rows.names.time(int(ends[0])) else 0
    last = numpy.flatnonzero((rows.kind >= Kind.UNCROSS) & (rows.kind <= Kind.FILL))[-1]
    news = orders[rows.kind[orders] == Kind.NEW]
    wrong = (orders > last) & (at < end[-1])
    if len(news) and news[-1] < ends[0]:
        wrong |= (orders < ends[0]) & (at > end[0] + slack)
    elif len(news) and news[0] > ends[-1]:
        phases = numpy.searchsorted(end, at, "right")
        early = (orders > ends[-1]) & (phases < len(end))
        wrong |= early & (len(numpy.unique(phases[early])) > 1)
    names = ("time", "kind", "key", "quantity", "price")
    copies = pandas.DataFrame({it: getattr(rows, it)[orders] for it in names}).duplicated()
    found: Ints = orders[wrong & (is_dated[0] == is_dated[1]) & ~copies.to_numpy()]
    return found

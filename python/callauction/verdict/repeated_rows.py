"""Rows that are there twice: sent again, which are read once; and of trades those that may be so,
for each side, copied, or amended by a later one. And rows that numbers of a sequence lack.
"""
from collections import Counter
from collections.abc import Sequence
from typing import NamedTuple

import numpy
import pandas

from callauction.verdict import time_columns
from callauction.verdict.cells import NO_ROWS, Codes, Ints, Mask, numbered, paired_codes
from callauction.verdict.column_words import Columns
from callauction.verdict.columns import is_id, is_trade_id, is_unknown, look_of
from callauction.verdict.paths import Judgement
from callauction.verdict.phases import recorded_sums
from callauction.verdict.rows import (
    OF_ORDERS, SAID, AuctionCode, BadRow, CellCode, Doubt, Hole, Kind, Rows,
)  # fmt: skip

_NO_RESULT = -100
ROWS_AGAIN = "rows that were sent again, read once"
GAPS = "numbers of the sequence that no row has (are rows missing?)"
BEGINS = "the sequence begins above 1 (are rows cut off?), with"
RARE = 20
"""Of so many numbers one is missing at most, or one of less, where none but a row's may be."""
_MADE = (Kind.TRADE, Kind.FILL)
TRIES = 2_000
"""How many ways there are at most to leave copies out of an auction."""


def drop_sent_again(
    rows: Rows, columns: Columns, sequence: Ints | None, instruments: Codes
) -> None:
    """Leaves out rows that were sent again: all cells the same, and the sequence and the time; or,
    without sequences, the time, where a second one would change nothing. One of another's sequence
    and time with other cells is a bad one.
    """
    if sequence is None:
        these = numpy.concatenate([_repeatable(rows), _with_ids(rows, columns)])
        if len(these) > 1:
            content = pandas.Series(columns.content(these))
            again = content.duplicated() & ~_has_others(rows, these, content)
            _drop(rows, these[again.to_numpy()])
        return
    _drop_results(rows, columns, instruments)
    marks = paired_codes(paired_codes(instruments, numbered(rows.time)), sequence + 1)
    twice = pandas.Series(marks).duplicated(keep=False).to_numpy()
    these = numpy.flatnonzero(twice & (sequence >= 0) & (rows.kind != Kind.BAD))
    if len(these) < 2:
        return
    content = pandas.Series(columns.content(these))
    again = content.duplicated().to_numpy()
    for place in these[again & _has_others(rows, these, content).to_numpy()].tolist():
        _unsay(rows, place, these)
    _drop(rows, these[again])
    left = these[(rows.kind[these] != Kind.BAD) & (rows.kind[these] != Kind.UNCROSS)]
    for place in left[pandas.Series(marks[left]).duplicated().to_numpy()]:
        _refuse_both(rows, columns, int(left[marks[left] == marks[place]][0]), int(place))


def drop_sides_again(rows: Rows, columns: Columns, sequence: Ints, instruments: Codes) -> None:
    """Leaves out rows of trades that were sent again, with all cells, the sequence and the time,
    before those of both sides are joined.
    """
    made = rows.of(Kind.TRADE)
    these = made[sequence[made] >= 0]
    if len(these) < 2:
        return
    marks = paired_codes(paired_codes(instruments, numbered(rows.time))[these], sequence[these] + 1)
    own = paired_codes(marks, columns.content(these))
    _drop(rows, these[pandas.Series(own).duplicated().to_numpy()])


def _drop_results(rows: Rows, columns: Columns, instruments: Codes) -> None:
    """Leaves out later results that say what the one before of their auction says, with its name
    and its time: all but the sequence is the same.
    """
    is_named = (rows.kind == Kind.UNCROSS) & (rows.auction > 0)
    these = numpy.flatnonzero(is_named & (rows.time != time_columns.NO_TIME))
    if len(these) > 1:
        own = paired_codes(instruments[these], columns.content(these, "sequence"))
        content = pandas.Series(own)
        again = content.duplicated() & ~_has_others(rows, these, content)
        _drop(rows, these[again.to_numpy()])


def _unsay(rows: Rows, place: int, these: Ints) -> None:
    """Takes out of the other results of an auction, of these rows, what one that is there twice
    says otherwise: nothing says which is right.
    """
    is_own = (rows.kind[these] == Kind.UNCROSS) & (rows.auction[these] == rows.auction[place])
    for name in SAID:
        values = getattr(rows, name)
        odd = these[is_own & (values[these] != values[place])]
        values[odd] = CellCode.MISSING
        for other in odd.tolist():
            why = f"row {rows.labels[place]} says another {name}, and has its sequence"
            rows.bad.append(BadRow(other, rows.labels[other], why, Doubt.ITEM, other))


def _refuse_both(rows: Rows, columns: Columns, first: int, second: int) -> None:
    """Refuses a row with another's sequence, as either may be right; of two trades both."""
    made = [rows.kind[it] in (Kind.TRADE, Kind.FILL) for it in (first, second)]
    doubt = Doubt.TRADES if made[1] else Doubt.BOOKS
    why = f"sequence {columns.cells('sequence').text(second)!r} is another row's"
    rows.refuse(second, why, doubt, first)
    if all(made):
        rows.refuse(first, why, doubt)


def _has_others(rows: Rows, these: Ints, content: "pandas.Series") -> "pandas.Series":
    """Which of these rows are results of an auction above which another one is: the last counts."""
    kind, auction = rows.kind[these], rows.auction[these]
    is_result = (kind == Kind.UNCROSS) & (auction != AuctionCode.INTERRUPTED)
    of_auction = pandas.Series(numpy.where(is_result, auction, _NO_RESULT))
    return (content.groupby(of_auction).shift() != content) & is_result


def _with_ids(rows: Rows, columns: Columns) -> Ints:
    """The trades and fills with another's id in an unread column, whose cells are all the same."""
    these = rows.of(Kind.TRADE, Kind.FILL)
    read = {*columns.names.values(), *columns.reading.columns.values(), columns.reading.pair}
    for name in columns.source.names:
        if name in read or not is_id(name):
            continue
        ids = pandas.Series(columns.source.cells(name).codes()[0][these])
        if ids.min() < 0 or ids.nunique() < 2:
            continue
        twice = ids.duplicated(keep=False).to_numpy()
        if len({*columns.content(these[twice]).tolist()}) == ids[twice].nunique():
            return numpy.asarray(these[twice])
    return numpy.asarray(these[:0])


def _drop(rows: Rows, again: Ints) -> None:
    rows.kind[again] = Kind.BAD
    rows.notes[ROWS_AGAIN] += len(again)


def _repeatable(rows: Rows) -> Ints:
    """Rows of which one more changes nothing: at one time, an entry or a named result at any."""
    kind = rows.kind
    named = (kind == Kind.UNCROSS) & (rows.auction > 0) & (rows.time != time_columns.NO_TIME)
    whole = (kind == Kind.REPLACE) | (kind == Kind.UNCROSS) & ~named
    whole |= (kind == Kind.CANCEL) & (rows.quantity <= 0)
    tied = numpy.flatnonzero(whole & (numpy.bincount(rows.group)[rows.group] > 1))
    marks = paired_codes(rows.group[tied] * 8 + kind[tied], rows.key[tied] + 1)
    news, named = numpy.flatnonzero(kind == Kind.NEW), numpy.flatnonzero(named)
    twice = [
        these[pandas.Series(values).duplicated(keep=False).to_numpy()]
        for these, values in ((tied, marks), (news, rows.key[news]), (named, rows.auction[named]))
    ]
    return numpy.sort(numpy.concatenate(twice))


# ---- rows of trades that may be there twice


def second_trades(rows: Rows) -> Ints:
    """The second row of each of several trades, busted, unread and continuous ones too, where each
    has two; else none.
    """
    unread = [it.place for it in rows.bad if it.doubt is Doubt.TRADES and it.place >= 0]
    is_other = (rows.kind == Kind.BAD) & (rows.auction == AuctionCode.CONTINUOUS) & (rows.bid >= 0)
    trades = numpy.union1d(rows.of(Kind.TRADE, Kind.TAKEN), numpy.flatnonzero(is_other))
    trades = numpy.union1d(trades, numpy.array(unread, "i8"))
    keys = [rows.quantity[trades], *(side[trades].astype("i8") for side in (rows.ask, rows.bid))]
    order: Ints = numpy.lexsort(keys)
    is_even = len(order) > 3 and len(order) % 2 == 0
    one, two = order[: len(order) & -2 : 2], order[1::2]
    if not is_even or any(not numpy.array_equal(it[one], it[two]) for it in keys):
        return NO_ROWS
    found: Ints = trades[order[1::2]]
    return found


def copies(rows: Rows, judgement: Judgement) -> Ints:
    """The rows of trades and fills that are the same as one above, and those of cancels of some
    shares that are; first those whose orders differ. Trades with sure ids of their own are none.
    """
    parts = (rows.kind == Kind.CANCEL) & (rows.quantity > 0)
    made = numpy.union1d(rows.of(Kind.TRADE, Kind.FILL), numpy.flatnonzero(parts))
    names = ("kind", "time", "key", "bid", "ask", "quantity", "price", "auction", "member",
             "bid_member", "ask_member")  # fmt: skip
    frame = pandas.DataFrame({name: getattr(rows, name)[made] for name in names})
    content, unsure = frame.copy(), numpy.zeros(len(made), bool)
    for name in (it for it in rows.names.unread if is_trade_id(it) or it == rows.names.pair):
        frame[f"unread {name}"] = rows.names.codes(made, name)
        unsure |= unsure_ids(rows, made, name)
    last = numpy.argsort(unsure, kind="stable")
    unsure[last] &= content.iloc[last].duplicated().to_numpy()
    again = frame.duplicated().to_numpy() | unsure
    found: Ints = made[again]
    those = (each for it in judgement.uncrosses for each in it.differences)
    differing = [key for each in those for key in each.keys]
    keys = (rows.key[found], rows.bid[found], rows.ask[found])
    are = [(it < 0) | numpy.isin(it, differing) for it in keys]
    found = found[numpy.argsort(~numpy.all(are, axis=0), kind="stable")]
    return found


def unsure_ids(rows: Rows, made: Ints, name: str) -> Mask:
    """Which of these rows have an id of a trade that may be another's: a word for none, one that
    looks as none of the others does, which are alike, or where each other id has several rows, one
    of two that have one row each.
    """
    gone = numpy.flatnonzero((rows.kind == Kind.BAD) & (rows.bid >= 0))
    codes, texts = rows.names.texts(numpy.concatenate([made, gone]), name)
    known = codes >= 0
    if not texts:
        return ~known[: len(made)]
    looks = [look_of(text) for text in texts]
    ((look, count),) = Counter(looks).most_common(1)
    is_alike = len(texts) - count <= max(1, len(texts) // RARE)
    odd = [is_unknown(text) or is_alike and own != look for text, own in zip(texts, looks)]
    is_lone = numpy.bincount(codes[known], minlength=len(texts)) == 1
    are_odd = numpy.array(odd) | is_lone & (is_lone.sum() == 2) & (len(texts) > 3)
    found: Mask = ~known | numpy.append(are_odd, False)[codes]
    return found[: len(made)]


def too_many(rows: Rows, judgement: Judgement, those: Ints) -> Ints:
    """Those copies without which each order of their auctions has its lawful shares, but for trades
    that may be none, and best as many trades as are published are left; none where there are no
    such ones.
    """
    found = []
    for judged in judgement.uncrosses:
        odd = (it for it in judged.differences if it.doubt and it.lawful is None)
        strays = [place for it in odd for place in it.places]
        traded, filled = (it[~numpy.isin(it, strays)] for it in (judged.traded, judged.filled))
        own = those[numpy.isin(those, traded if len(traded) else filled)].tolist()
        if judged.result is None or not own:
            continue
        done = recorded_sums(rows, traded, filled).by_key()
        due = judged.result.fills.by_key()
        excess = {key: done.get(key, 0) - due.get(key, 0) for key in {*done, *due}}
        excess = {key: it for key, it in excess.items() if it}
        many = len(traded) - int(rows.count[judged.place])
        found += _without(rows, own, excess, [TRIES], many) or (
            _without(rows, own, excess, [TRIES]) or [])  # fmt: skip
    return numpy.array(sorted(found), "i8")


def _without(
    rows: Rows, those: list[int], excess: dict[int, int], tries: list[int], many: int | None = None
) -> list[int] | None:
    """Rows, so many or any number, which together have these shares of each order; None where none
    have, or there are too many ways to try.
    """
    if not excess:
        return None if many else []
    tries[0] -= 1
    if tries[0] < 0 or min(excess.values()) < 0 or many is not None and many <= 0:
        return None
    key = next(iter(excess))
    for at, place in enumerate(those):
        keys = _keys(rows, place)
        shares = int(rows.quantity[place])
        if key not in keys or any(excess.get(it, 0) < shares for it in keys):
            continue
        left = {it: more - shares * (it in keys) for it, more in excess.items()}
        left = {it: more for it, more in left.items() if more}
        rest = [*those[:at], *those[at + 1 :]]
        found = _without(rows, rest, left, tries, None if many is None else many - 1)
        if found is not None:
            return [place, *found]
    return None


def _keys(rows: Rows, place: int) -> set[int]:
    """The orders of a trade or a fill."""
    if rows.kind[place] == Kind.TRADE:
        return {int(rows.bid[place]), int(rows.ask[place])}
    return {int(rows.key[place])}


def amended(rows: Rows) -> tuple[Ints, str]:
    """The trades and fills which a later one may correct, and why: it has their orders, and their
    id in a column that isn't read and isn't of their orders.
    """
    made = rows.of(Kind.TRADE, Kind.FILL)
    for name in filter(is_id, rows.names.unread):
        codes = rows.names.codes(made, name)
        keys = {name: getattr(rows, name)[made] for name in ("bid", "ask", "key")}
        frame = pandas.DataFrame({**keys, "id": codes})
        again = frame.duplicated(keep="last").to_numpy()
        if not again.any() or codes.min() < 0 or _is_of_orders(rows, made[again], name):
            continue
        again &= _are_of_two(frame)
        if again.any():
            groups = frame[again].drop_duplicates()
            first = numpy.flatnonzero((frame == groups.iloc[0]).all(axis=1))[[0, -1]]
            both = "rows {} and {}".format(*rows.labels[made[first]])
            those = both if len(groups) == 1 else f"rows, such as {both},"
            return made[again], f"{those} have one {name}: is the later right?"
    return NO_ROWS, ""


def _are_of_two(frame: "pandas.DataFrame") -> Mask:
    """Which rows have an id that no more than two orders have, as a trade has two."""
    parts = [frame[["id", name]].set_axis(["id", "key"], axis=1) for name in ("bid", "ask", "key")]
    whole = pandas.concat(parts)
    orders = whole[whole["key"] >= 0].drop_duplicates()["id"].value_counts()
    found: Mask = (frame["id"].map(orders) <= 2).to_numpy()
    return found


def _is_of_orders(rows: Rows, these: Ints, name: str) -> bool:
    """Whether a column has ids of orders, their members or instruments, and none of trades."""
    keys = [getattr(rows, each)[these] for each in ("key", "bid", "ask")]
    orders = rows.of(*OF_ORDERS)
    orders = orders[numpy.isin(rows.key[orders], numpy.concatenate(keys))]
    codes = rows.names.codes(numpy.concatenate([these, orders]), name)
    own = {*zip(rows.key[orders].tolist(), codes[len(these) :].tolist())}
    made = codes[: len(these)].tolist()
    return any(not own.isdisjoint(zip(each.tolist(), made)) for each in keys)


# ---- rows that a sequence lacks


class Gap(NamedTuple):
    """Numbers that no row has, the first and last, whether few enough that each was a row's, and
    whether they are those below the first, as where rows were cut off.
    """

    first: int
    last: int
    is_rare: bool = False
    is_begin: bool = False


def gaps_of(*numbers: Ints) -> list[Gap]:
    """The gaps in the numbers of rows, which are below 0 for none; none where as many are missing
    as there are, or more, as where others' rows have a part of them. Numbers without a gap that
    begin above 1 have one below.
    """
    known = numpy.unique(numpy.concatenate([it[it >= 0] for it in numbers]))
    steps = numpy.diff(known)
    missing = int((steps - 1).sum())
    if missing >= len(known):
        return []
    if not missing:
        first = int(known[0])
        return [Gap(1, first - 1, is_begin=True)] * (first > 1)
    ends = numpy.flatnonzero(steps > 1).tolist()
    is_rare = missing * RARE <= max(RARE, len(known))
    return [Gap(int(known[at]) + 1, int(known[at + 1]) - 1, is_rare) for at in ends]


def remark_of(gaps: Sequence[Gap]) -> dict[str, int]:
    """How many numbers are missing, in words."""
    many = sum(it.last - it.first + 1 for it in gaps)
    if gaps and gaps[0].is_begin:
        return {BEGINS: many + 1}
    return {f"{GAPS}, such as {gaps[0].first}": many} if gaps else {}


def find_holes(rows: Rows, gaps: Sequence[Gap]) -> None:
    """Notes where rows with the numbers of gaps may be: one hole between two known numbers."""
    own = numpy.flatnonzero(rows.number >= 0)
    if not len(own) or not gaps:
        return
    own = own[numpy.argsort(rows.number[own], kind="stable")]
    lasts = numpy.array([it.last for it in gaps], "i8")
    nexts = numpy.searchsorted(rows.number[own], lasts, "right")
    rows.lacks_rows = any(it.is_rare for it in gaps)
    first_below = numpy.minimum.accumulate(own[::-1])[::-1]
    ends = rows.of(Kind.UNCROSS)
    is_above = bool(numpy.isin(rows.kind[ends[ends > 0] - 1], _MADE).any())
    for number in numpy.unique(nexts, return_index=True)[1].tolist():
        at, doubt, since = int(nexts[number]), Doubt.TRADES, len(rows.kind) - 1
        if at < len(own):
            above = int(own[at - 1]) if at else -1
            doubt = _doubt_between(rows, above, int(own[at]), is_above)
            doubt = Doubt.ORDER if gaps[number].is_begin else doubt
            since = int(first_below[at]) - 1
        rows.holes.append(Hole.of(doubt, since, gaps[number].first, gaps[number].last))


def _doubt_between(rows: Rows, above: int, below: int, is_above: bool) -> Doubt:
    """What rows may be that are missing between two: among trades of one auction trades alone."""
    one, other = (int(rows.kind[it]) if it >= 0 else Kind.NEW for it in (above, below))
    if other in _MADE and one in (Kind.UNCROSS, *_MADE) and rows.time[above] == rows.time[below]:
        return Doubt.TRADES
    is_of_orders = other in OF_ORDERS or other == Kind.UNCROSS and not is_above
    return Doubt.BOOKS if one in OF_ORDERS and is_of_orders else Doubt.ANY

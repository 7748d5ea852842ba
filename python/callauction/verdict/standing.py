"""What stands in two readings of a day, and what stands in one of them alone, which is in doubt."""
import dataclasses
from collections.abc import Sequence

import numpy

from callauction.verdict import time_columns
from callauction.verdict.comparing import Difference, doubted
from callauction.verdict.judging import Judge
from callauction.verdict.other_reading import OtherReading, ReadDay, of_rows
from callauction.verdict.paths import Judged, Judgement
from callauction.verdict.phases import recorded_sums
from callauction.verdict.rows import CellCode, Kind, Rows
from callauction.verdict.uncross_doubts import Mark, marked

LATE = "trades without a time or an auction may be of any"


def standing(first: Judgement, day: ReadDay, changes: Sequence[OtherReading]) -> Judgement:
    """The judgement of the day in one of these readings, which leave each row in its place, with
    what the first judgement shows too; all else of both is in doubt. The first one where no reading
    has fewer certain differences. Raises ProgramError.
    """
    late, best = _placed(day[0], first), first
    those: list[OtherReading] = [*changes]
    if late is not None:
        placed: Rows = late
        those.append(of_rows(lambda _: placed, LATE))
    for change in those:
        rows, rules = change.apply(day)
        if rows.labels is day[0].labels and _certain(best) > 1:
            found = _merged(first, Judge(rows, rules).judge(), (day[0], rows), change)
            if 0 < _certain(found) < _certain(best):
                best = found
    return best


def _certain(judgement: Judgement) -> int:
    """How many differences are certain."""
    return sum(len(each.certain) for each in judgement.uncrosses)


def _merged(
    first: Judgement, other: Judgement, both: tuple[Rows, Rows], change: OtherReading
) -> Judgement:
    """Both judgements in one, each of its rows, as standing has it; without uncrosses where theirs
    differ.
    """
    if [it.place for it in first.uncrosses] != [it.place for it in other.uncrosses]:
        return dataclasses.replace(other, uncrosses=())
    pairs = zip(first.uncrosses, other.uncrosses)
    merged = _in_own_values if change.keeps_values else _both
    if _says_otherwise(*both):
        merged = _in_other_values
    found = tuple(merged(one, each, both, change.why) for one, each in pairs)
    return dataclasses.replace(first, uncrosses=found)


def _says_otherwise(rows: Rows, read: Rows) -> bool:
    """Whether what was published has other values in a reading than in the file, or numbers of
    prices that are others.
    """
    these = rows.of(Kind.UNCROSS, Kind.TRADE, Kind.FILL)
    both = [(getattr(rows, name)[these], getattr(read, name)[these])
            for name in ("price", "quantity", "surplus")]  # fmt: skip
    are_others = any(((one != it) & (it != CellCode.MISSING)).any() for one, it in both)
    return are_others or rows.prices != read.prices


def _in_other_values(one: Judged, other: Judged, both: tuple[Rows, Rows], why: str) -> Judged:
    """An uncross of the first reading, whose differences are certain where the other one, in which
    values are others, has one of the same cells, or of the same missing trade.
    """
    rows = both[0]

    def cells(it: Difference) -> Mark:
        spots = frozenset(rows.spots[[*it.places]].tolist())
        return it.item, spots, it.rule, it.keys if it.recorded is None else ()

    own = {*map(cells, other.certain)}
    kept = tuple(it if cells(it) in own else doubted([it], why)[0] for it in one.differences)
    return dataclasses.replace(one, differences=kept)


def _both(one: Judged, other: Judged, both: tuple[Rows, Rows], why: str) -> Judged:
    """An uncross in another reading, with what that shows of the first one and with the differences
    of the first one in doubt.
    """
    kept = _agreeing(other, one, both[0], _alike(one, other, both), why)
    shown = {marked(it, both[0]) for it in kept}
    rest = [it for it in doubted(one.differences, why) if marked(it, both[0]) not in shown]
    return dataclasses.replace(other, differences=(*kept, *rest))


def _in_own_values(one: Judged, other: Judged, both: tuple[Rows, Rows], why: str) -> Judged:
    """An uncross of the first reading, with what that shows of another one."""
    kept = _agreeing(one, other, both[0], _alike(one, other, both), why)
    return dataclasses.replace(one, differences=kept)


def _agreeing(
    shown: Judged, by: Judged, rows: Rows, same: set[int], why: str
) -> tuple[Difference, ...]:
    """The differences of an uncross in one reading: certain where those by another one are, or of
    the shares of the same orders; else in doubt.
    """
    certain = {marked(it, rows) for it in by.certain}
    return tuple(
        it if marked(it, rows) in certain or it.is_of_shares_alone and same & {*it.keys}
        else doubted([it], why)[0] for it in shown.differences
    )  # fmt: skip


def _alike(one: Judged, other: Judged, both: tuple[Rows, Rows]) -> set[int]:
    """The orders that have too many shares in both readings of an uncross, or too few in both."""
    signs = _signs(one, both[0])
    return {key for key, sign in _signs(other, both[1]).items() if signs.get(key) == sign}


def _signs(judged: Judged, rows: Rows) -> dict[int, int]:
    """By key whether more (1) or fewer (-1) shares of an order than lawful were recorded."""
    if judged.result is None:
        return {}
    made, due = recorded_sums(rows, judged.traded, judged.filled).by_key(), judged.result.fills
    gaps = {key: made.get(key, 0) - shares for key, shares in due.by_key().items()}
    gaps |= {key: shares for key, shares in made.items() if key not in gaps}
    return {key: 1 if gap > 0 else -1 for key, gap in gaps.items() if gap}


# ---- trades that say nothing of their auction


def _placed(rows: Rows, found: Judgement) -> Rows | None:
    """The rows with trades of no time and no name in the nearest auction, below their orders; None
    without any, or with one auction.
    """
    ended = [it for it in found.uncrosses if it.is_ended and it.result is not None]
    is_late = (rows.kind == Kind.TRADE) & (rows.time == time_columns.NO_TIME) & (rows.auction <= 0)
    if len(ended) < 2 or not is_late.any():
        return None
    state, entered = rows.auction.copy(), rows.entered(len(rows.names.ids) + 1)
    for place in numpy.flatnonzero(is_late).tolist():
        last = max(0, *(int(entered[it[place]]) for it in (rows.bid, rows.ask)))
        far = [(last > it.place, *_distance(rows, place, it)) for it in ended]
        state[place] = 1 + ended[far.index(min(far))].auction
    return dataclasses.replace(rows, auction=state)


def _distance(rows: Rows, place: int, judged: Judged) -> tuple[bool, bool, bool]:
    """How far a trade is from an auction: of another price, no lawful pair, no open orders."""
    assert judged.result is not None
    result, pair = judged.result, (int(rows.bid[place]), int(rows.ask[place]))
    prices = (int(rows.price[judged.place]), result.price)
    is_lawful = bool(((result.bid == pair[0]) & (result.ask == pair[1])).any())
    is_open = bool(numpy.isin(pair, judged.book.key).all())
    return int(rows.price[place]) not in prices, not is_lawful, not is_open

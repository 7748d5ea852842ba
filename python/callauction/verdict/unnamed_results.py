"""Which auctions results may be of that don't say it."""
import dataclasses
import enum
from collections.abc import Iterator, Sequence

import numpy

from callauction.verdict.cells import Ints
from callauction.verdict.corrected_results import ends_of, others_said, with_last
from callauction.verdict.paths import Judgement
from callauction.verdict.rows import AuctionCode, CellCode, Kind, Rows
from callauction.verdict.rules import Rules

MOST_RESULTS, MOST_ODD = 8, 2
"""How many results are named, and how many in all may be corrected, or auctions have none."""


class Role(enum.Enum):
    """What a result may be of its auction."""

    END = "its result"
    STOP = "its interruption"
    EARLIER = "one that the next one corrects"


Named = tuple[tuple[int, Role], ...]
"""Of which auction of the day each result is, by its place among them, and as what."""


def namings(found: Judgement, rows: Rows, rules: Rules) -> list[Named]:
    """The ways in which results without names may be those of the auctions, where they aren't
    fewer: those by which fewest were corrected or are missing come first. Until one is wrong, may
    be an interruption for which no range is said, or may be corrected, all are as they were judged.
    """
    results, due = ends_of(rows), rules.due
    is_few = len(due) <= len(results) <= MOST_RESULTS
    if not is_few or len({*due}) < len(due) or (rows.auction[results] > 0).any():
        return []
    stops = _stops(found, rows, results)
    count = others_said(rows, results[:-1], results[1:])  # which the next one may correct
    earlier = [bool(it > 0 if len(results) > len(due) else it == 1) for it in count] + [False]
    first = _judged(found, rules, dict(zip(results.tolist(), stops)))
    ways = [first[:-1] if first and earlier[len(first) - 1] else first]
    for place in range(len(ways[0]), len(results)):
        roles = [Role.END, *[Role.STOP] * stops[place], *[Role.EARLIER] * earlier[place]]
        ways = [it for way in ways for it in _longer(way, len(due), roles)]
    odd = {way: _odd(way, len(due)) for way in ways}
    return sorted((way for way in odd if odd[way] <= MOST_ODD), key=odd.__getitem__)


def _stops(found: Judgement, rows: Rows, results: Ints) -> list[bool]:
    """Which results may be interruptions: priced, and without trades of their time or a count, if
    others have these.
    """
    made = ((rows.kind == Kind.TRADE) | (rows.kind == Kind.FILL)).any()
    made = made or (rows.count[results] >= 0).any()
    both = ((it.place, numpy.concatenate([it.traded, it.filled])) for it in found.uncrosses)
    busy = [place for place, own in both if (rows.time[own] == rows.time[place]).any()]
    are = (rows.price[results] >= 0) & (rows.count[results] <= 0) & ~numpy.isin(results, busy)
    return [bool(it and made) for it in are]


def _judged(found: Judgement, rules: Rules, stops: dict[int, bool]) -> Named:
    """What the first results were judged to be."""
    names: list[tuple[int, Role]] = []
    for each in found.uncrosses:
        if each.place not in stops:
            continue
        number = sum(role is Role.END for _, role in names)
        is_open = stops[each.place] and not rules.has_range
        if each.differences or is_open or number >= len(rules.due):
            break
        names.append((number, Role.STOP if each.is_interrupted else Role.END))
    return tuple(names)


def _longer(way: Named, many: int, roles: Sequence[Role]) -> Iterator[Named]:
    """A naming of some results with each way in which the next one may have one of these roles."""
    last, role = way[-1] if way else (-1, Role.END)
    first = last + (role is Role.END)
    for number in range(first, last + 1 if role is Role.EARLIER else many):
        for each in roles:
            longer = (*way, (number, each))
            is_again = each is Role.STOP and number == last
            if not is_again and _odd(longer, number) <= MOST_ODD:
                yield longer


def _odd(way: Named, many: int) -> int:
    """How many results are corrected, and how many of the first auctions have none."""
    ended = {number for number, role in way if role is Role.END}
    return sum(role is Role.EARLIER for _, role in way) + sum(it not in ended for it in range(many))


def with_names(rows: Rows, due: Sequence[int], way: Named) -> Rows:
    """The rows with the results named in this way, those that are corrected as bad rows."""
    results, state = ends_of(rows), rows.auction.copy()
    stopped = AuctionCode.INTERRUPTED
    state[results] = [stopped if role is Role.STOP else 1 + due[it] for it, role in way]
    rows = dataclasses.replace(rows, auction=state)
    numbers = numpy.array([CellCode.MISSING if role is Role.STOP else it for it, role in way])
    for number in numpy.unique(numbers[numbers >= 0]).tolist():
        those = results[numbers == number]
        if len(those) > 1:
            rows = with_last(rows, those, due[number])
    return rows

"""The judgement of a day beside other readings of it by which it may be lawful."""
import dataclasses
import itertools

import numpy

from callauction.progress import Progress
from callauction.verdict.comparing import doubted
from callauction.verdict.judging import Judge
from callauction.verdict.mixed_files import refuse_markets, refuse_parts
from callauction.verdict.other_reading import OtherReading, ReadDay
from callauction.verdict.other_readings import OtherReadings
from callauction.verdict.paths import Judgement
from callauction.verdict.reorderings import (
    by_number, by_time, falls_of, falls_of_numbers, other_orders,
)  # fmt: skip
from callauction.verdict.respelling import respelled
from callauction.verdict.rows import Rows
from callauction.verdict.rules import Rules
from callauction.verdict.spellings import in_one_spelling
from callauction.verdict.standing import standing
from callauction.verdict.uncross_doubts import Mark, marked

MOST_READINGS = 64
"""How many readings are tried."""


def judged_beside_others(
    rows: Rows, rules: Rules, whole: Rows, watch: Progress = iter
) -> Judgement:
    """The judgement of a day; `whole` has the results that others correct too. What differs is in
    doubt where another reading, or several together, haven't it and bring no other certain
    difference; so is a lawful day whose rows are in another order than their times. What is certain
    in one spelling of ids and members is so in each. Raises ExtractError and ProgramError.
    """
    judge = Judge(rows, rules)
    found = _as_it_is(judge, watch)
    if not found.unlawful:
        return found
    refuse_parts(rows, rules.due)
    refuse_markets(whole, rules.due)
    found = _read_otherwise(found, judge)
    spelled = respelled(rows) if found.unlawful else None
    if spelled is None:
        return found
    other = Judge(spelled[0], rules)
    return in_one_spelling(found, _read_otherwise(_as_it_is(other), other), other.rows, spelled[1])


def _as_it_is(judge: Judge, watch: Progress = iter) -> Judgement:
    """The judgement of rows as they are, a lawful one beside their order by times; in doubt where
    rows were sorted and nothing says where one belongs.
    """
    rows, found = judge.rows, judge.judge(watch)
    falls, (numbers, is_rare) = falls_of(rows), falls_of_numbers(rows)
    why = falls or numbers * is_rare
    if why and not any(each.differences for each in found.uncrosses):
        other = by_time(rows) if falls else by_number(rows)
        found = _beside(found, rows, other, judge.rules, why)
    if rows.is_sorted and judge.doubts.odd is not None and not found.doubt:
        found = dataclasses.replace(found, doubt=judge.doubts.odd[1].text)
    return found


def _read_otherwise(first: Judgement, judge: Judge) -> Judgement:
    """The judgement with what other readings haven't in doubt."""
    if not first.unlawful:
        return first
    rows, rules, found = judge.rows, judge.rules, first
    ways = [*OtherReadings(found, judge).lists(), *other_orders(judge, found)]
    combined = itertools.product(*([None, *those] for those in ways if those))
    readings = ([each for each in it if each is not None] for it in combined)
    for those in sorted(filter(None, readings), key=len)[:MOST_READINGS]:
        found = _without(found, first, (rows, rules), those)
    return standing(found, (rows, rules), [each for those in ways for each in those])


def _beside(found: Judgement, rows: Rows, other: Rows, rules: Rules, why: str) -> Judgement:
    """The judgement of a lawful day, in doubt where rows in another order aren't lawful."""
    judged = Judge(other, rules).judge()
    if not judged.unlawful:
        return found
    order = numpy.argsort(rows.spots)
    place = order[numpy.searchsorted(rows.spots[order], other.spots)]
    shown = {
        int(place[at]): [
            dataclasses.replace(it, places=(*place[[*it.places]].tolist(),))
            for it in doubted(own, why)
        ]
        for at, own in judged.by_place.items()
    }
    return dataclasses.replace(found.with_differences(shown), doubt=why)


def _without(
    found: Judgement, first: Judgement, day: ReadDay, those: list[OtherReading]
) -> Judgement:
    """The judgement with what other readings haven't in doubt, where they bring nothing certain
    that the first judgement hasn't. An uncross that is wrong in both stays as it is where they have
    for certain what the first one has in doubt.
    """
    if not found.unlawful:
        return found
    rows = day[0]
    for change in those:
        day = change.apply(day)
    judge, spots = Judge(*day), rows.spots
    unlawful = numpy.flatnonzero(numpy.isin(day[0].spots, spots[[*first.unlawful]]))
    other = judge.tried({*unlawful.tolist()})
    if other is None:
        return found
    before = {spots[each.place]: each for each in first.uncrosses}
    left = dict[int, set[Mark]]()
    for each in other.uncrosses:
        spot = int(day[0].spots[each.place])
        above = before.get(spot)
        marks = {marked(it, day[0]) for it in each.certain}
        left[spot] = judge.uncross_doubts.left_in(each)
        if marks - {marked(it, rows) for it in (above.certain if above else ())}:
            left[spot] = {marked(it, rows) for it in (above.differences if above else ())}
            if marks - left[spot] or not above or not above.certain:
                return found
    return _cleared(found, rows, left, "; ".join(it.why for it in those))


def _cleared(found: Judgement, rows: Rows, left: dict[int, set[Mark]], why: str) -> Judgement:
    """The judgement with what isn't left of an uncross, by where it is in the table, in doubt."""
    those = {}
    for place, own in found.by_place.items():
        kept = left.get(int(rows.spots[place]), ())
        those[place] = [it if marked(it, rows) in kept else doubted([it], why)[0] for it in own]
    return found.with_differences(those)

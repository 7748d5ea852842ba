"""Judgements of a day of which ids and members are written in two ways: as rows write them, and in
one spelling.
"""
import dataclasses

from callauction.verdict.comparing import Difference, doubted
from callauction.verdict.paths import Judged, Judgement
from callauction.verdict.rows import Rows
from callauction.verdict.uncross_doubts import marked


def in_one_spelling(first: Judgement, other: Judgement, rows: Rows, why: str) -> Judgement:
    """The judgement of a day as it is written, beside that of its rows in one spelling, which is
    `other`. In doubt is what one of them hasn't: a trade may be right by its spelling alone. What
    is certain in one spelling stands where rows as they are differ too.
    """
    if not other.unlawful:
        found = tuple(
            dataclasses.replace(it, differences=doubted(it.differences, why))
            for it in first.uncrosses
        )
        return dataclasses.replace(first, uncrosses=found)
    others = {each.place: each for each in other.uncrosses}
    found = tuple(_both(it, others.get(it.place, it), rows, why) for it in first.uncrosses)
    return dataclasses.replace(first, uncrosses=found)


def _both(one: Judged, other: Judged, rows: Rows, why: str) -> Judged:
    """An uncross in one spelling, with what differs in both in doubt but for what does in each."""
    kept = [
        it if it.doubt or _is_shown(it, one, rows) else doubted([it], why)[0]
        for it in other.differences
    ]
    shown = {marked(it, rows) for it in kept}
    rest = [it for it in doubted(one.differences, why) if marked(it, rows) not in shown]
    return dataclasses.replace(other, differences=(*kept, *rest))


def _is_shown(each: Difference, one: Judged, rows: Rows) -> bool:
    """Whether an uncross has such a difference, or one of this item in a row of it."""
    mark = marked(each, rows)
    return any(
        marked(it, rows) == mark or it.item == each.item and {*it.places} & {*each.places}
        for it in one.differences
    )

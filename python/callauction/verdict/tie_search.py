"""Other orders of rows of one time, by which an uncross may be lawful."""
import dataclasses
from collections.abc import Callable, Iterator

from callauction.verdict.cells import Ints
from callauction.verdict.day_rows import DayRows
from callauction.verdict.paths import Moment, Path
from callauction.verdict.phases import BeyondError
from callauction.verdict.ties import Ties
from callauction.verdict.uncross_doubts import Mark, UncrossDoubts, marked

Variants = Callable[[Moment], Iterator[Path]]
"""The paths after an uncross at its moment, the recorded one first. Raises BeyondError."""


class Orderings:
    """Tries for an uncross that differs what its rows of one time give in another order."""

    def __init__(self, day: DayRows, ties: Ties, uncross_doubts: UncrossDoubts) -> None:
        self.day, self.rows, self.ties = day, day.rows, ties
        self.uncross_doubts = uncross_doubts

    def lawful(self, moment: Moment, found: list[Path], variants: Variants) -> list[Path]:
        """The paths by other orders of rows of one time that make most of an uncross lawful,
        if any.
        """
        last, these = found[0].judged[-1], moment.these
        cuts, best = self.ties.cuts(moment.place, these), list[Path]()
        why, others = self.ties.orders_of_ties(these)
        for before, reason in [*cuts, *((it, why) for it in others or ())]:
            paths = self._read_so(moment, before, found, reason, variants)
            left = [each[0].judged[-1].certain for each in (paths, best) if each]
            if paths and (not best or len(left[0]) < len(left[1])):
                best = paths
            if best and not best[0].judged[-1].certain:
                return best
        if others is not None:
            above = self.day.orders[: moment.path.taken]
            why = self.ties.carried(moment.path.state.book, above)
        why = self.ties.untried(moment.place) or why * (others is not None)
        if why:
            return [self.uncross_doubts.with_doubt(each, last.differences, why) for each in found]
        return best

    def _read_so(
        self, moment: Moment, before: Ints, found: list[Path], why: str, variants: Variants
    ) -> list[Path]:
        """The paths of an uncross with these rows before it, where they clear what differs in
        those that were found, or some of it; these where they may, as the program can't hold so
        many.
        """
        differences = found[0].judged[-1].differences
        certain, left = {marked(it, self.rows) for it in found[0].judged[-1].certain}, set[Mark]()
        try:
            other = [*variants(dataclasses.replace(moment, these=before))]
            left = self.uncross_doubts.left_in(other[0].judged[-1]) & certain
            new = {marked(it, self.rows) for it in other[0].judged[-1].certain} - certain
            if new or left == certain:
                return []
        except BeyondError:
            other = found
        return [self.uncross_doubts.with_doubt(each, differences, why, left) for each in other]

"""Other moments of an uncross: rows behind which all that was published of it is lawful."""
import dataclasses
import functools
from collections.abc import Iterator

import numpy

from callauction.verdict import comparing
from callauction.verdict.cells import Ints
from callauction.verdict.comparing import Difference, KeyedFill, KeyedTrade, doubted
from callauction.verdict.day_rows import DayRows
from callauction.verdict.early_rows import Early
from callauction.verdict.executions import Executions
from callauction.verdict.paths import Judged, Moment, Path
from callauction.verdict.phases import indicated
from callauction.verdict.rows import Kind, PriceCode
from callauction.verdict.tie_search import Variants
from callauction.verdict.uncross_doubts import UncrossDoubts

MOST_MOMENTS = 25
"""How many moments are tried for an uncross that seems to be at a wrong one."""
CANCELLED = (
    "{} is cancelled in row {}{}, above the uncross, and executed in row {}. What was published is "
    "the result of the book behind row {}, before that cancel, and not of the book {}."
)


class Moments:
    """Tries an uncross that seems to be at a wrong moment at others."""

    def __init__(self, day: DayRows, executions: Executions, uncross_doubts: UncrossDoubts) -> None:
        self.day, self.rows, self.executions = day, day.rows, executions
        self.uncross_doubts = uncross_doubts

    @functools.cached_property
    def early(self) -> Early:
        """What of the day is timed before its orders."""
        return Early(self.rows)

    def lawful(self, moment: Moment, first: Judged, variants: Variants) -> list[Path]:
        """The paths in which an uncross that seems to be at a wrong moment is at another one."""
        later = self._later(moment)
        is_moved = len(first.differences) > 1 or any(
            each.item == "price" and each.lawful == PriceCode.NO_PRICE for each in first.differences
        )
        return self._at_another_moment(moment, later, variants) if later or is_moved else []

    def _later(self, moment: Moment) -> list[int]:
        """The places of rows after the uncross that entered orders of its recorded trades."""
        rows, moment = self.rows, self.executions.with_named(moment)
        traded, filled = moment.traded, moment.filled
        keys = numpy.concatenate([rows.bid[traded], rows.ask[traded], rows.key[filled]])
        places = self.day.entered[keys]
        found: list[int] = places[places > moment.place].tolist()
        return found

    def _at_another_moment(
        self, moment: Moment, later: list[int], variants: Variants
    ) -> list[Path]:
        """The paths after the uncross at another moment at which all of it is lawful, or none."""
        for place, before in self._other_moments(moment, later):
            paths = [*variants(dataclasses.replace(moment, these=before))]
            if not paths[0].judged[-1].differences:
                labels, above = self.rows.labels, "before all orders"
                if len(moment.these):
                    above = f"behind row {labels[moment.these[-1]]}"
                wrong = self._of_cancelled(moment, place, above) or Difference(
                    "auction", above, f"behind row {labels[place]}", (moment.place,)
                )
                own = dataclasses.replace(paths[0].judged[-1], place=moment.place)
                why = self.uncross_doubts.why(moment.path, moment.place)
                why = why or self.early.of_auction(own)[0] or self._of_late(moment, place)
                found = doubted([wrong], why)
                return [path.with_last(differences=found) for path in paths]
        return []

    def _of_late(self, moment: Moment, place: int) -> str:
        """Why a result may have been published late: its trades stand behind its lawful moment,
        above the next row of an order.
        """
        rows, both = self.rows, self.executions.with_named(moment)
        made = numpy.concatenate([both.traded, both.filled])
        behind = moment.these[moment.these > place]
        if not len(made) or not len(behind) or made.max() > behind[0] or made.min() < place:
            return ""
        label = rows.labels[made.max()]
        return f"its trades, up to row {label}, are above: was it published late?"

    def _of_cancelled(self, moment: Moment, place: int, above: str) -> Difference | None:
        """The first trade or fill of an order that is cancelled behind the lawful moment of an
        uncross and above its row; None without one.
        """
        rows, both = self.rows, self.executions.with_named(moment)
        made = numpy.sort(numpy.concatenate([both.traded, both.filled]))
        gone = moment.these[(rows.kind[moment.these] == Kind.CANCEL) & (moment.these > place)]
        for cancel in gone[rows.quantity[gone] <= 0].tolist():
            key = int(rows.key[cancel])
            own = [it[made] == key for it in (rows.bid, rows.ask, rows.key)]
            these = made[numpy.any(own, axis=0)]
            if not len(these):
                continue
            at, labels = int(these[0]), rows.labels
            bid, of = int(rows.bid[at]), (int(rows.quantity[at]), int(rows.price[at]))
            one: KeyedTrade | KeyedFill = KeyedFill(key, *of)
            one = KeyedTrade(bid, int(rows.ask[at]), *of) if bid >= 0 else one
            time, name = rows.names.legible_time(cancel), rows.names.order(key)
            rule = CANCELLED.format(name, labels[cancel], f", {time}" * bool(time), labels[at],
                                    labels[place], above)  # fmt: skip
            item = "trade" if bid >= 0 else comparing.FILL_ITEM
            return Difference(item, one, None, (at,), (key,), rule=rule)
        return None

    def _other_moments(self, moment: Moment, later: list[int]) -> Iterator[tuple[int, Ints]]:
        """Rows behind which price, volume and surplus are lawful, with the phase before each."""
        rows, day, state = self.rows, self.day, moment.path.state
        price, volume = rows.price[moment.place], rows.quantity[moment.place]
        if price < 0 or volume < 0 or state.executed is not None:
            return
        end = len(day.orders)
        if moment.number + 1 < len(day.uncrosses):
            end = int(numpy.searchsorted(day.orders, day.uncrosses[moment.number + 1]))
        whole = day.orders[moment.path.taken : end]
        sent, *shown = indicated(
            state.book, rows, whole, moment.auction, state.reference, day.room
        )
        good = (shown[0] == price) & (shown[1] == volume) & (sent >= max(later, default=-1))
        if rows.surplus[moment.place] >= 0:
            good &= shown[2] == rows.surplus[moment.place]
        for place in sent[good][:MOST_MOMENTS].tolist():
            yield place, whole[whole <= place]

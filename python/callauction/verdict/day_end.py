"""The end of a day: the judgement of its best path, with what no uncross has and what is to be
known of the rows.
"""
import dataclasses
from collections import Counter
from collections.abc import Iterator, Sequence

from callauction.verdict import comparing
from callauction.verdict.certain import ONE_PRICE, Certain
from callauction.verdict.comparing import Difference, doubted
from callauction.verdict.day_rows import DayRows
from callauction.verdict.doubts import Doubts
from callauction.verdict.executions import Executions
from callauction.verdict.fix import TAGS
from callauction.verdict.orders import notes_of
from callauction.verdict.paths import Judged, Judgement, Path
from callauction.verdict.rows import CellCode, Kind, Rows
from callauction.words import AUCTIONS

FALLING = "times that come before that of the row above (sort reads rows by time)"
LATE_CANCELS = "cancels after the last auction"
NO_UNCROSS = "trades and fills without any row uncross, which aren't compared"
FROM_TRADES = " (--shape FILE judges them, with the line results = \"trades\" in FILE)"
UNSAID = ": no column says which auction they are of (--columns auction=THEIRS)"
LATE_ORDERS = "orders and replaces after the last auction"
BEYOND = "auctions beyond what this program holds"
NO_SEARCH = "uncrosses whose other moments are too many orders to try"
NO_AUCTION_NAMED = (CellCode.BAD, CellCode.MISSING, 0)
"""What a row says of its auction where it names none."""


def reconciled(judged: Sequence[Judged]) -> list[list[Difference]]:
    """The differences of each uncross, a trade that was looked for at another one being one."""
    those = [each.differences for each in judged]
    if not any(each.recorded is None for it in those for each in it):
        return [list(each) for each in those]
    return comparing.reconciled_uncrosses(those, [each.auction for each in judged])


def count_of(path: Path) -> tuple[int, int]:
    """How many differences a path has, but for names of members, which each has, and how many
    certain ones.
    """
    both = (each for those in reconciled(path.judged) for each in those)
    found = [each for each in both if each.recorded != each.lawful]
    return len(found), sum(not each.doubt for each in found)


class Ending:
    """Says what a day's path gives once all its uncrosses are judged."""

    def __init__(
        self, day: DayRows, executions: Executions, doubts: Doubts, certain: Certain
    ) -> None:
        self.day, self.rows, self.executions = day, day.rows, executions
        self.doubts, self.certain = doubts, certain

    def with_left_over(self, path: Path) -> Path:
        """The path with trades and fills of an auction without a row as extra ones of its last
        uncross, in doubt.
        """
        ended = {each.auction for each in path.judged if each.is_ended or each.beyond}
        found = list[Difference]()
        for auction in sorted({*self.day.due} - ended):
            name = AUCTIONS[auction]
            extra = doubted(self.executions.named(auction), f"the {name} has no row uncross")
            found += [dataclasses.replace(it, auction=name) for it in extra]
        if not path.judged or not found:
            return path
        return path.with_last(differences=(*path.judged[-1].differences, *found))

    def judgement(self, path: Path, left_out: int) -> Judgement:
        """The judgement of the best path; for so many uncrosses no other moment was tried."""
        day, judged = self.day, self._filed(path)
        bad = sorted([*self.rows.bad, *path.refused], key=lambda row: row.place)
        over = sum(each.result is None for each in judged)
        stops = len(judged) - over - path.state.ended
        notes = self._notes(path, left_out)
        return Judgement(
            (*judged, *self._at_two_prices(judged)), len(day.due) + max(0, stops), tuple(bad),
            +notes, day.has_trades, day.has_fills,
        )  # fmt: skip

    def _filed(self, path: Path) -> tuple[Judged, ...]:
        """The uncrosses of a path, each with the auctions that it and its trades may be of."""
        pairs = zip(path.judged, self.doubts.busts.limited(reconciled(path.judged)))
        return tuple(
            dataclasses.replace(
                it, differences=tuple(map(self.doubts.filed, those)),
                name=" or ".join(self.doubts.homes.get(it.place, ())),
            )
            for it, those in pairs
        )  # fmt: skip

    def _notes(self, path: Path, left_out: int) -> Counter[str]:
        """What is worth to know of the day's rows."""
        notes = Counter(self.rows.notes)
        notes[FALLING] += self.doubts.falls
        notes.update(notes_of(self.rows, path))
        if path.state.ended >= len(self.day.due):
            below = self.day.orders[path.taken :]
            below = below[self.rows.are_behind(below, path.judged[-1].place)]
            late = self.rows.kind[below] == Kind.CANCEL
            notes[LATE_CANCELS] += int(late.sum())
            notes[LATE_ORDERS] += int((~late).sum())
        if not path.judged:
            why = _without_names(self.rows) if self.rows.makes_results else FROM_TRADES
            notes[f"{NO_UNCROSS}{why}"] += len(self.rows.of(Kind.TRADE, Kind.FILL))
        for each in path.judged:
            notes[f"{BEYOND} ({each.beyond})"] += bool(each.beyond)
        notes[NO_SEARCH] += left_out
        return notes

    def _at_two_prices(self, judged: Sequence[Judged]) -> Iterator[Judged]:
        """Auctions without a row uncross whose trades, which name them, are at two prices; one of
        another name is none of theirs.
        """
        made, state = self.rows.of(Kind.TRADE, Kind.FILL), self.rows.auction
        held = {
            it.auction for it in judged
            if state[it.place] in (*NO_AUCTION_NAMED, 1 + it.auction)
        }  # fmt: skip
        for auction in sorted({*self.day.due} - held):
            own = made[state[made] == 1 + auction]
            found = [*self.certain.prices(int(own[0]), own)] if len(own) else []
            found = [each for each in found if each.rule == ONE_PRICE]
            if found:
                yield Judged(int(own[0]), auction, tuple(found))


def _without_names(rows: Rows) -> str:
    """Why trades give no result: which column names no auction."""
    theirs = rows.names.theirs.get("auction", "")
    tag = f" ({TAGS[theirs]})" if theirs in TAGS else ""
    return f": {theirs}{tag} names no auction in their rows" if theirs else UNSAID

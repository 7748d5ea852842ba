"""The judgement of a day: each auction by itself, on the book that the one before it left.

Where a recorded result isn't the lawful one, what comes next may follow the one or the other: an
engine goes on from what it did, a fault of the record alone changes nothing. Both are tried, and
the day with the fewest differences is taken, so one fault is one finding.
"""
import dataclasses
import enum
from collections.abc import Iterator

import numpy

from callauction.progress import Progress
from callauction.verdict.cells import NO_ROWS, Ints
from callauction.verdict.certain import Certain, with_certain
from callauction.verdict.comparing import (
    NAMED, PRIORITY, Difference, compared_items, doubted, price_said,
)  # fmt: skip
from callauction.verdict.day_end import Ending, count_of
from callauction.verdict.day_rows import DayRows
from callauction.verdict.doubts import Doubts
from callauction.verdict.executions import Executions
from callauction.verdict.moments import Moments
from callauction.verdict.paths import Judged, Judgement, Moment, Path, PathState
from callauction.verdict.phases import (
    BeyondError, Result, Sums, Taken, advance, empty, recorded_sums, uncross,
)  # fmt: skip
from callauction.verdict.rows import (
    INTERRUPTED, RESTRICTION_OF, SAID_AUCTIONS, AuctionCode, CellCode, PriceCode, Rows,
)  # fmt: skip
from callauction.verdict.rules import Rules
from callauction.verdict.tie_search import Orderings
from callauction.verdict.uncross_doubts import Items, UncrossDoubts
from callauction.words import AUCTIONS

MOST_PATHS = 12
"""How many paths of a day are followed at a time."""


class Search(enum.Enum):
    """Where other paths are looked for behind an uncross that differs at its row."""

    ORDERS = "in other orders of rows of one time"
    MOMENTS = "in these, and at other moments of the uncross"


class Judge:
    """Judges the uncrosses of a day one after the other. Its bookkeeping is that of open orders:
    each price, fill and refusal is the program's. Raises ExtractError as Doubts.

    Which trades are of an uncross is Executions', why what differs is in doubt UncrossDoubts';
    Orderings and Moments try what the rows may mean else, and Ending sums the day up.
    """

    def __init__(self, rows: Rows, rules: Rules) -> None:
        self.day = day = DayRows(rows, rules)
        self.rows, self.rules, self.due = rows, rules, day.due
        self.uncrosses, self.orders, self.entered = day.uncrosses, day.orders, day.entered
        self.doubts = Doubts(rows, self.uncrosses, self.orders, self.due, self.entered)
        self.contradictions = Certain(rows, self.doubts, len(self.due), self.entered)
        self.executions = Executions(day, self.doubts)
        self.uncross_doubts = UncrossDoubts(day, self.doubts, self.contradictions)
        self.orderings = Orderings(day, self.doubts.ties, self.uncross_doubts)
        self.moments = Moments(day, self.executions, self.uncross_doubts)
        self.ending = Ending(day, self.executions, self.doubts, self.contradictions)
        self.left_out: set[int] = set()
        """The places of uncrosses for which no other moment could be tried."""

    def judge(self, watch: Progress = iter) -> Judgement:
        """All uncrosses of the day, which `watch` is given. Raises ProgramError."""
        found = self._on_best_path(watch)
        ended = sum(each.is_ended or bool(each.beyond) for each in found.uncrosses)
        if found.unlawful and ended < len(self.due) and self.doubts.doubt_all_unnamed():
            found = self._on_best_path()
        return found

    def _on_best_path(self, watch: Progress = iter) -> Judgement:
        paths = self._begun()
        for number, place in enumerate(watch(self.uncrosses.tolist())):
            paths = self._longer(number, place, paths, Search.MOMENTS)
        return self._best(paths)

    def tried(self, places: set[int]) -> Judgement | None:
        """All uncrosses of the day, none at another moment; None where one that isn't at these
        places is unlawful. Raises ProgramError.
        """
        paths = self._begun()
        for number, place in enumerate(self.uncrosses.tolist()):
            paths = self._longer(number, place, paths, Search.ORDERS)
            if place not in places and paths[0].judged[-1].certain:
                return None
        return self._best(paths)

    def _begun(self) -> list[Path]:
        """The one path before the first uncross."""
        executed = numpy.zeros(len(self.day.room), "i8") if self.rules.has_totals else None
        reference = self.rows.prices.index(self.rules.reference)
        first = PathState(empty(), reference, executed)
        if self.rules.second_reference is not None:
            second = self.rows.prices.index(self.rules.second_reference)
            first = dataclasses.replace(first, second=second)
        return [Path((), first)]

    def _longer(self, number: int, place: int, paths: list[Path], search: Search) -> list[Path]:
        """The best paths behind an uncross; where each differs, others are searched."""
        found = [each for path in paths for each in self._behind(number, place, path)]
        if min(found, key=count_of).judged[-1].certain:
            found = [each for path in paths for each in self._behind(number, place, path, search)]
        return sorted(found, key=count_of)[:MOST_PATHS]

    def _best(self, paths: list[Path]) -> Judgement:
        """The judgement of the path with the fewest differences."""
        best = min((self.ending.with_left_over(path) for path in paths), key=count_of)
        return self.ending.judgement(best, len(self.left_out))

    # ---- an uncross on a path

    def _behind(
        self, number: int, place: int, path: Path, search: Search | None = None
    ) -> Iterator[Path]:
        """The paths after an uncross; where it differs, those that are searched for too."""
        own = self.executions.of(number)
        traded, filled = (numpy.concatenate(each) for each in zip(path.waiting, own))
        path = dataclasses.replace(path, waiting=Path.waiting)
        ended = path.state.ended
        if path.judged and path.judged[-1].beyond:
            yield self._beyond(path, place, traded, filled, path.judged[-1].beyond)
            return
        if ended >= len(self.due):
            word = SAID_AUCTIONS[max(0, self.rows.auction[place])] or "uncross"
            late = Difference("auction", word, "day over", (place,))
            found = doubted([late], self.uncross_doubts.why_auction(path, place))
            yield path.longer(Judged(place, CellCode.MISSING, found, traded=traded, filled=filled))
            return
        these = self.orders[path.taken : int(numpy.searchsorted(self.orders, place))]
        moment = Moment(number, place, path, self.due[ended], these, traded, filled)
        try:
            yield from self._paths(moment, search)
            named = self.rows.auction[place] - 1
            if named in self.due[ended + 1 :]:
                yield from self._skipping(moment, self.due.index(named, ended + 1))
        except BeyondError as fault:
            yield self._beyond(path, place, traded, filled, str(fault))

    def _beyond(self, path: Path, place: int, traded: Ints, filled: Ints, why: str) -> Path:
        """The path after an uncross of too large a book: of its named or its next auction."""
        state = self.rows.auction
        stopped = AuctionCode.INTERRUPTED
        ended = sum(bool(it.beyond) and state[it.place] != stopped for it in path.judged)
        auction = self.due[min(path.state.ended + ended, len(self.due) - 1)]
        if 0 < state[place] != AuctionCode.INTERRUPTED:
            auction = int(state[place]) - 1
        named = self.executions.of(NAMED + auction)
        traded, filled = (numpy.concatenate(it) for it in zip((traded, filled), named))
        found = tuple(self.contradictions.of(place, auction, traded, filled))
        judged = Judged(place, auction, found, traded=traded, filled=filled, beyond=why)
        return path.longer(judged)

    def _paths(self, moment: Moment, search: Search | None) -> list[Path]:
        """The paths after an uncross at its row, or where that differs at other moments."""
        found = [*self._variants(moment)]
        first = found[0].judged[-1]
        if not first.certain or search is None:
            return found
        try:
            others = self.orderings.lawful(moment, found, self._variants)
            if others and not others[0].judged[-1].certain:
                return others
            if search is Search.ORDERS:
                return others or found
            return self.moments.lawful(moment, first, self._variants) or others or found
        except BeyondError:
            self.left_out.add(moment.place)
            return found

    def _skipping(self, moment: Moment, ended: int) -> Iterator[Path]:
        """The paths in which the auctions before the recorded one weren't held."""
        state = moment.path.state
        row = (moment.place,)
        skip = Difference("auction", AUCTIONS[self.due[ended]], AUCTIONS[moment.auction], row)
        over = [RESTRICTION_OF[it] for it in self.due[state.ended : ended]]
        book = state.book.take(~numpy.isin(state.book.restriction, [it for it in over if it > 0]))
        state = dataclasses.replace(state, book=book, ended=ended, is_extended=False)
        path = dataclasses.replace(moment.path, state=state)
        skipped = doubted([skip], self.uncross_doubts.why_auction(moment.path, moment.place))
        moved = dataclasses.replace(moment, path=path, auction=self.due[ended])
        for longer in self._variants(moved):
            yield longer.with_last(differences=(*skipped, *longer.judged[-1].differences))

    def _variants(self, moment: Moment) -> Iterator[Path]:
        """The paths after an uncross: first as is recorded, where it is recorded whether it was
        interrupted and that isn't lawful; then as is lawful. Raises BeyondError.
        """
        state, rows, room = moment.path.state, self.rows, self.day.room
        taken = advance(state.book, rows, moment.these, moment.auction, state.executed, room)
        result = uncross(taken.book, moment.auction, state.reference)
        is_out = not state.is_extended and self._is_out(result, state)
        recorded = self._says_interrupted(moment)
        if recorded is False and is_out:
            word = SAID_AUCTIONS[max(0, rows.auction[moment.place])] or "executed"
            why = self.uncross_doubts.unsaid_stop
            wrong = Difference("auction", word, INTERRUPTED, (moment.place,), doubt=why)
            yield from self._executed(moment, taken, result, wrong)
        if recorded and not is_out:
            yield self._interrupted(moment, taken, result, False)
        if is_out:
            yield self._interrupted(moment, taken, result, True)
        else:
            yield from self._executed(moment, taken, result, None)

    def _is_out(self, result: Result, state: PathState) -> bool:
        """Whether a lawful price is beyond a range."""
        prices = self.rows.prices
        second = None if state.second < 0 else prices[state.second]
        ranges = self.rules.ranges(prices[state.reference], second)
        price = None if result.price is None else prices[result.price]
        return price is not None and any(span.is_out(price, at) for span, at in ranges)

    def _says_interrupted(self, moment: Moment) -> bool | None:
        """Whether an uncross is recorded as interrupted; None where nothing says it."""
        state = self.rows.auction[moment.place]
        if state > 0:
            return bool(state == AuctionCode.INTERRUPTED)
        has_any = len(moment.traded) or len(moment.filled) or self.rows.count[moment.place] > 0
        return False if has_any else None

    def _interrupted(self, moment: Moment, taken: Taken, result: Result, is_lawful: bool) -> Path:
        """The path after an interruption; its trades come at the next uncross."""
        word = AuctionCode.INTERRUPTED if is_lawful else 1 + moment.auction
        items = compared_items(self.rows, moment.place, result, word)
        self.uncross_doubts.doubt_stop(items, self.uncross_doubts.unsaid_stop)
        state = dataclasses.replace(moment.path.state, book=taken.book, is_extended=True)
        judged = self._judged(moment, taken, result, items, [])
        judged = dataclasses.replace(
            judged, is_interrupted=is_lawful, traded=NO_ROWS, filled=NO_ROWS
        )
        path = self._path(moment, judged, taken, state)
        return dataclasses.replace(path, waiting=(moment.traded, moment.filled))

    def _executed(
        self, moment: Moment, taken: Taken, result: Result, wrong: Difference | None
    ) -> Iterator[Path]:
        """The paths after an uncross that ended its auction; `wrong` is what differs as such."""
        rows, place = self.rows, moment.place
        moment = self.executions.with_named(moment)
        items = compared_items(rows, place, result, 1 + moment.auction)
        if wrong is not None:
            items["auction"] = wrong
        elif rows.auction[place] == AuctionCode.INTERRUPTED:
            self.uncross_doubts.doubt_stop(items)
        is_wrong = items.get("price") is not None
        found, pairs = self.executions.compared(moment, taken.book, result, is_wrong)
        found = self.uncross_doubts.doubted_stop(place, found)
        strays = self.doubts.strays_in(found)
        trades = len(moment.traded) - len(strays)
        self.uncross_doubts.doubt_count(place, items, found, result, trades)
        judged = self._judged(moment, taken, result, items, found)
        judged = dataclasses.replace(judged, is_ended=True, pairs=pairs)
        doubt = moment.path.doubt or self.doubts.below(strays)
        moment = dataclasses.replace(moment, path=dataclasses.replace(moment.path, doubt=doubt))
        for state, fills in self._next_states(moment, taken, result):
            yield self._path(moment, dataclasses.replace(judged, fills=fills), taken, state)

    def _judged(
        self, moment: Moment, taken: Taken, result: Result, items: Items, found: list[Difference]
    ) -> Judged:
        """The uncross with its differences and their doubts."""
        of_items = [each for each in items.values() if each is not None]
        of_items = self.doubts.doubted_items(of_items, result, self.rules.tick_size)
        differences = (*of_items, *found, *self._priorities(taken))
        if differences:
            differences = self.uncross_doubts.doubted_books(differences, items, moment, taken)
        if any(each.doubt for each in differences):
            certain = self.contradictions.of(
                moment.place, moment.auction, moment.traded, moment.filled
            )
            differences = with_certain(differences, certain)
        state = moment.path.state
        return Judged(
            moment.place, moment.auction, differences, result, taken.book, state.reference,
            state.is_extended, False, frozenset(items), moment.traded, moment.filled,
            taken=moment.path.taken + len(moment.these), second=state.second,
        )  # fmt: skip

    def _priorities(self, taken: Taken) -> Iterator[Difference]:
        """Where it was recorded otherwise whether a replace kept its place in time."""
        rows, words = self.rows, ("place lost", "place kept")
        said = rows.kept[taken.replaces]
        for place in taken.replaces[(said >= 0) & (said != taken.kept)].tolist():
            recorded, key = int(rows.kept[place]), int(rows.key[place])
            yield Difference(PRIORITY, words[recorded], words[1 - recorded], (place,), (key,))

    def _path(self, moment: Moment, judged: Judged, taken: Taken, state: PathState) -> Path:
        """The path of a moment, longer by its uncross."""
        path = moment.path
        longer = dataclasses.replace(
            path, state=state, taken=path.taken + len(moment.these),
            refused=(*path.refused, *taken.refused),
            closed=numpy.concatenate([path.closed, taken.closed]),
        )  # fmt: skip
        return longer.longer(judged)

    # ---- what is open next

    def _next_states(
        self, moment: Moment, taken: Taken, result: Result
    ) -> Iterator[tuple[PathState, Sums]]:
        """The states after an uncross, the recorded one first: by the recorded fills and the
        recorded price where there are any, and by the lawful ones; each with these fills. Without a
        recorded price none may be executed.
        """
        now, published = moment.path.state.reference, price_said(self.rows, moment.place, result)
        references = [now if result.price is None else result.price]
        if published != PriceCode.UNSAID:
            references.insert(0, now if published == PriceCode.NO_PRICE else published)
        done = recorded_sums(self.rows, moment.traded, moment.filled)
        several = [result.fills]
        if not done.agrees(result.fills) and (len(done.keys) or published == PriceCode.NO_PRICE):
            several.insert(0 if len(done.keys) else 1, done)
        for fills in several:
            for reference in dict.fromkeys(references):
                is_priced = published >= 0 or result.price is not None
                yield self._state(moment, taken, reference, fills, is_priced), fills

    def _state(
        self, moment: Moment, taken: Taken, reference: int, fills: Sums, is_priced: bool
    ) -> PathState:
        """The state after these fills: what is left stays, but for orders of this auction alone."""
        book, state, room = taken.book, moment.path.state, self.day.room
        room[:] = 0
        room[fills.keys] = fills.shares
        rest = book.quantity - room[book.key]
        left = dataclasses.replace(book, quantity=rest)
        is_left = (rest > 0) & ~book.is_for(moment.auction)
        executed = None if state.executed is None else state.executed + room
        second = reference if state.second >= 0 and is_priced else state.second
        return PathState(left.take(is_left), reference, executed, False, state.ended + 1, second)

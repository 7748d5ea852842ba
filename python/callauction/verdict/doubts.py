"""What leaves a difference in doubt: readings of the rows by which what was published is lawful.

Each doubt is a line's end, empty where there is none. docs/AUDIT.md has the rules with an example
of each.
"""
import dataclasses
import datetime
import fractions
import functools
import itertools
from collections.abc import Iterable
from decimal import Decimal

import numpy

from callauction.verdict import time_columns
from callauction.verdict.busts import Busts
from callauction.verdict.cells import Ints, Mask
from callauction.verdict.columns import ExtractError
from callauction.verdict.comparing import Difference, KeyedFill, KeyedTrade, keys_of, member_columns
from callauction.verdict.mixed_files import is_one_session
from callauction.verdict.paths import Moment
from callauction.verdict.phases import Result, StandingBook
from callauction.verdict.respelling import TWO_WAYS, is_placeholder, is_respelled, respelled
from callauction.verdict.rows import AuctionCode, BadRow, CellCode, Doubt, Kind, Rows
from callauction.verdict.ties import Ties
from callauction.verdict.unnamed_trades import Strays
from callauction.words import AUCTIONS

MOST_FALLS = 10
"""Rows whose times fall more often, and in more than a tenth of all, are in no order of time."""
NO_NAMES = "it isn't said which auctions the rows are of: --auctions says it"
IN_A_PHASE = "is a trade within a call phase: audit-auction judges days with continuous trading"
MAY_BE_OUTSIDE = "may be a trade outside of the auctions"
OUTSIDE = f"rows of orders are before it, so it {MAY_BE_OUTSIDE}"
OF_OTHERS = f"no row enters its orders, and it isn't at the auction's time, so it {MAY_BE_OUTSIDE}"


@dataclasses.dataclass(frozen=True)
class BookDoubt:
    """Why books are in doubt; `lacks_orders` says that all that they may lack are orders."""

    text: str
    lacks_orders: bool = False


def book_doubt_of(rows: Iterable[BadRow], place: int) -> BookDoubt | None:
    """Why the book at a place is in doubt, for rows that aren't read; None where it isn't."""
    above = [row for row in rows if row.is_order and row.since < place]
    worst = next((row for row in above if row.is_blank), None)
    if worst is not None:
        return BookDoubt(worst.unknown)
    return BookDoubt(f"an order may be missing: {above[0]}", True) if above else None


class Doubts:
    """The doubts of a day's rows. Raises ExtractError where their times are in no order."""

    def __init__(
        self, rows: Rows, uncrosses: Ints, orders: Ints, due: list[int], entered: Ints
    ) -> None:
        self.rows, self.uncrosses, self.orders, self.entered = rows, uncrosses, orders, entered
        self.ties = Ties(rows, orders)
        self.falls = self._falls()
        self.other_day = self._other_day()
        self.odd = self._odd()
        self._may_be_another = rows.is_sorted and bool(rows.is_odd[uncrosses].any())
        self.bad = sorted([*self._from_first(rows.bad), *rows.holes], key=lambda row: row.since)
        unread = [row.place for row in rows.bad if row.is_order and row.place >= 0]
        self.all_orders = numpy.union1d(orders, numpy.array(unread, "i8"))
        """With those that can't be read."""
        self.busts = Busts(rows)
        self.gap = self._gap(due)
        strays = Strays(rows, self.all_orders, uncrosses)
        self.within, self.homes = strays.within(), strays.auctions(due)
        """Trades within a call phase; and by their places of which auctions trades that name none,
        and results, may be, where a result is missing.
        """
        self.unknown = self._unknown()

    def _from_first(self, bad: list[BadRow]) -> list[BadRow]:
        """Bad rows, each with its doubt from the first uncross on that it may be above: by its
        place, its time or its number in a sequence; above all where its time can't be read.
        """
        rows, are = self.rows, [row.is_order and row.place >= 0 for row in bad]
        at = numpy.array([row.place for row in itertools.compress(bad, are)], "i8")
        first = numpy.full(len(at), len(rows.kind))
        for end in self.uncrosses[::-1].tolist():
            is_above = rows.group[at] == rows.group[end]
            for values, least in ((rows.time, time_columns.NO_TIME + 1), (rows.number, 0)):
                is_above |= (values[at] < values[end]) & (values[at] >= least)
            first[is_above] = end
        first[rows.is_odd[at]] = 0
        since = iter((first - 1).tolist())
        return [
            dataclasses.replace(row, since=min(row.since, next(since))) if is_own else row
            for row, is_own in zip(bad, are)
        ]

    def _falls(self) -> int:
        """How many times of orders are before that of the row above. Raises ExtractError."""
        timed = self.orders[self.rows.time[self.orders] != time_columns.NO_TIME]
        at = self.rows.time[timed]
        falls = numpy.flatnonzero(at[1:] < at[:-1])
        if len(falls) > max(MOST_FALLS, len(at) // 10):
            one, other = self.rows.labels[timed[falls[0] : falls[0] + 2]]
            raise ExtractError(
                f"the times of {len(falls):,} rows, such as {one} and {other}, fall: say --sort"
            )
        return len(falls)

    def _other_day(self) -> BookDoubt | None:
        """Why all books are in doubt: rows of orders have other dates than results, or several."""
        rows, known = self.rows, dict[datetime.date | None, int]()
        starts = numpy.unique(rows.time[self.orders] // time_columns.DAY, return_index=True)[1]
        for place in [*self.uncrosses[:1].tolist(), *self.orders[starts].tolist()]:
            known.setdefault(rows.names.date(place), place)
        labels = [rows.labels[place] for date, place in known.items() if date is not None][:2]
        if self.rows.next_day:
            return BookDoubt(self.rows.next_day)
        if len(labels) < 2 or is_one_session(rows) or self._has_carried_orders():
            return None
        are = f"rows {labels[0]} and {labels[1]} are of two days"
        return BookDoubt(f"{are}: which orders of the first stand isn't said; --by parts two days")

    def _has_carried_orders(self) -> bool:
        """Whether rows of orders with another date than the first result's are of orders that stand
        from days before: rows of its date name each of them. An order that no such row names may
        have ended with its day.
        """
        rows, orders = self.rows, self.orders
        day, days = (rows.time[it] // time_columns.DAY for it in (self.uncrosses[:1], orders))
        old = orders[(days != day) & (days >= 1)]
        if not len(day) or day <= 0 or (rows.time[old] // time_columns.DAY > day).any():
            return False
        own = numpy.flatnonzero((rows.kind != Kind.BAD) & (rows.time // time_columns.DAY == day))
        named = numpy.concatenate([it[own] for it in (rows.key, rows.bid, rows.ask)])
        return bool(numpy.isin(rows.key[old], named).all())

    def _odd(self) -> tuple[int, BookDoubt] | None:
        """From which place on the order of rows isn't known, as times can't be read, and why: the
        call phase of the first one, or the day's begin where more than a tenth are so, others fall,
        rows were sorted by their times, or the last row has none: it may only have been put last.
        """
        rows = self.rows
        both = numpy.union1d(self.orders, self.uncrosses)
        odd = both[rows.is_odd[both]]
        if not len(odd):
            return None
        first, above = int(odd[0]), self.uncrosses[self.uncrosses < odd[0]]
        is_few = len(odd) <= max(1, len(both) // 10) and not self.falls and not rows.is_sorted
        is_put_last = odd[-1] == both[-1] and not rows.names.time(int(odd[-1]))
        cell, text = rows.names.time(first), f"row {rows.labels[first]} has no time"
        if cell:
            text = f"the time of row {rows.labels[first]}, {cell!r}, can't be read"
        is_placed = is_few and not is_put_last and len(above) > 0
        begin = int(above[-1]) if is_placed else -1
        return begin, BookDoubt(f"{text}, and which row came first decides")

    def _gap(self, due: list[int]) -> tuple[int, str] | None:
        """From which place on a row of an uncross may be missing, and why: the names of the
        auctions leave one out, or there are fewer rows than auctions, and no names.
        """
        state = self.rows.auction[self.uncrosses]
        places = self.uncrosses[state != AuctionCode.INTERRUPTED]
        names = (self.rows.auction[places] - 1).tolist()
        first = next((at for at, (name, it) in enumerate(zip(names, due)) if name != it), None)
        if first is None or len(names) >= len(due):
            return None
        if max(names) < 0:
            return 0, NO_NAMES
        rest = iter(due[first:])
        if not all(name in rest for name in names[first:]):
            return None
        above = int(places[first - 1]) + 1 if first else 0
        return above, f"the {AUCTIONS[due[first]]} has no row: --auctions says which are held"

    def doubt_all_unnamed(self) -> bool:
        """Where no row says of which auction it is, one that is missing, as some are of an uncross
        that was interrupted, is a gap from the day's begin on: whether that is so only now.
        """
        is_new = self.gap is None and bool((self.rows.auction[self.uncrosses] <= 0).all())
        self.gap = (0, NO_NAMES) if is_new else self.gap
        return is_new

    def above(self, place: int, refused: Iterable[BadRow]) -> BookDoubt | None:
        """Why the book at a place is in doubt: rows above are missing, or orders traded between."""
        if self.gap is not None and place >= self.gap[0]:
            return BookDoubt(self.gap[1])
        if len(self.within) and self.within[0] < place:
            return BookDoubt(f"row {self.rows.labels[self.within[0]]} {IN_A_PHASE}")
        found = [book_doubt_of([*self.bad, *refused], place), self.unknown, self.other_day]
        if self.odd is not None and self.odd[0] < place:
            found.insert(1, self.odd[1])
        doubts = [it for it in found if it is not None]
        return next((it for it in doubts if not it.lacks_orders), next(iter(doubts), None))

    def why_name(self, place: int) -> str:
        """Why an uncross may be another auction's than the due one, or late: that is no matter of
        books, but rows of results may be missing, do what isn't known, or have no place.
        """
        if self.gap is not None and place >= self.gap[0]:
            return self.gap[1]
        if self.rows.next_day:
            return self.rows.next_day
        if self.odd is not None and self._may_be_another:
            return self.odd[1].text
        odd = (row for row in self.bad if row.doubt is Doubt.ANY and row.since < place)
        return next((row.unknown for row in odd if not self._is_of_order(row)), "")

    def _is_of_order(self, row: BadRow) -> bool:
        """Whether a bad row names an order that is entered, so that it is no result."""
        key = int(self.rows.key[row.place]) if row.place >= 0 else CellCode.MISSING
        return key >= 0 and self.entered[key] >= 0

    def _unknown(self) -> BookDoubt | None:
        """Why all books of the day are in doubt: a trade or a fill, busted ones too, is of an order
        no row enters, or may be, as one is of which a side isn't said.
        """
        rows, named = self.rows, []
        if (self.entered < 0).all():
            return BookDoubt("no row enters an order")
        unread, own = numpy.zeros(len(rows.kind), bool), self.entered.copy()
        bad = (row.place for row in rows.bad if row.doubt in (Doubt.TRADES, Doubt.BUST))
        unread[[place for place in bad if place >= 0]] = True
        for row in sorted(rows.bad, key=lambda it: -it.place):
            if row.doubt is Doubt.ORDER and row.place >= 0:  # the first one enters it
                own[rows.key[row.place]] = row.place
        for event, keys in ((Kind.TRADE, rows.bid), (Kind.TRADE, rows.ask), (Kind.FILL, rows.key)):
            made = (rows.kind == event) | (rows.kind == Kind.TAKEN) | unread
            these = numpy.flatnonzero(made & (keys >= 0))
            at = own[keys[these]]
            named += these[(at < 0) | (self.entered[keys[these]] < 0) & (at > these)][:1].tolist()
        if named:
            why = f"row {rows.labels[min(named)]} is a trade of an order that no row enters"
            given = next(iter(rows.given.values()), "")
            return BookDoubt(f"{why}: {given}", False) if given else BookDoubt(why, True)
        place, side = self._one_sided()
        trade = f"the trade of row {rows.labels[place]}"
        why = f"the {side} of {trade} isn't said: does a row enter it?"
        return BookDoubt(why, True) if side else None

    def _one_sided(self) -> tuple[int, str]:
        """The first trade of which one side isn't said, beside others, and which side it is, empty
        where there is none.
        """
        rows = self.rows
        found = [
            (row.place, side) for row in rows.bad if row.kind == Kind.TRADE and row.place >= 0
            for side, one, other in (("bid", rows.bid, rows.ask), ("ask", rows.ask, rows.bid))
            if one[row.place] < 0 <= other[row.place]
        ]  # fmt: skip
        fills = (row.place for row in rows.bad if row.kind == Kind.FILL and row.place >= 0)
        found += [(place, "order") for place in fills if rows.key[place] < 0]
        return min(found, default=(-1, ""))

    # ---- items, trades and fills

    def doubted_items(
        self, differences: list[Difference], result: Result, tick_size: Decimal | None
    ) -> list[Difference]:
        """The differences, that of a price which is a reference beside the ticks in doubt."""
        if tick_size is None or result.price is None:
            return differences
        price = self.rows.prices[result.price]
        if (fractions.Fraction(price) / fractions.Fraction(tick_size)).denominator == 1:
            return differences
        why = f"the reference, {price}, is no multiple of the tick size"
        return [
            dataclasses.replace(each, doubt=why) if each.item == "price" else each
            for each in differences
        ]

    def doubted_trades(
        self, found: list[Difference], by_order: list[Difference], moment: Moment,
        book: StandingBook, result: Result,
    ) -> list[Difference]:  # fmt: skip
        """The differences of an auction's trades and fills, with their doubts. Who traded with whom
        is in doubt where all that differs by order is.
        """
        made = moment.traded, moment.filled
        outside = self.outside(numpy.concatenate(made), moment.place)
        own = (these[~numpy.isin(these, outside)] for these in made)
        why = self.ties.of_shares(book, moment.auction, result, *made)
        why = why or self.ties.of_shares(book, moment.auction, result, *own)
        strays = {*outside.tolist()}
        end = "" if why else self.why_executions_missing(moment.place, *made, result.volume)
        of_orders = [
            self.stray(it).doubt if _is_extra(it, strays) else self._why_trade(it, end)
            for it in by_order if not why
        ]  # fmt: skip
        chosen = of_orders[0] if all(of_orders) and of_orders else ""

        def doubt_of(it: Difference) -> str:
            if why and not has_lawful_orders(it):
                return why
            is_pairing = it.recorded is not None and not has_lawful_orders(it)
            return self._why_naming(it) or self._why_trade(it, end) or chosen * is_pairing

        return [
            self.stray(it) if _is_extra(it, strays)
            else dataclasses.replace(it, doubt=doubt_of(it)) for it in found
        ]  # fmt: skip

    def _why_naming(self, each: Difference) -> str:
        """Why the members of a trade or fill that is lawful else may be right: as placeholders,
        or as other spellings of the orders' own.
        """
        one, other, rows = each.recorded, each.lawful, self.rows
        if not isinstance(one, KeyedTrade | KeyedFill) or one != other:
            return ""
        owners = [int(rows.member[self.entered[key]]) for key in keys_of(one)]
        pairs = [
            (rows.names.recorded(place, column, int(getattr(rows, column)[place])),
             rows.names.member(owner))
            for place in each.places
            for owner, column in zip(owners, member_columns(one))
            if getattr(rows, column)[place] not in (CellCode.MISSING, owner)
        ]  # fmt: skip
        if pairs and all(is_placeholder(name) for name, _ in pairs):
            return f"{pairs[0][0]!r} is no member of orders, and may stand for any"
        if pairs and all(is_respelled(*pair) for pair in pairs):
            return TWO_WAYS.format(*pairs[0])
        return self._other_names

    @functools.cached_property
    def _other_names(self) -> str:
        """Why no member of a trade or a fill is known: none is an order's in any spelling."""
        rows = self.rows
        of_fills = rows.member[rows.of(Kind.FILL)]
        named = numpy.concatenate([rows.bid_member, rows.ask_member, of_fills])
        own = rows.member[rows.kind != Kind.FILL]
        if numpy.isin(named[named >= 0], own).any() or respelled(rows):
            return ""
        return "no member of a trade is one of orders: the names may be others'"

    def outside(self, these: Ints, place: int) -> Ints:
        """Which of these trades and fills may be of no auction, or of one whose row is missing:
        they name none, and rows of orders are between them and the uncross, or around them, or
        they have another time than it has, where a row is missing or none enters their orders.
        """
        rows = self.rows
        orders = self.all_orders
        after = int(numpy.searchsorted(orders, place))
        first = orders[after] if after < len(orders) else len(rows.kind)
        is_other = these > first
        if self.gap is not None:
            is_other |= (these >= self.gap[0]) & (rows.time[these] != rows.time[place])
        is_other |= self._are_unentered(these) & self._are_apart(these, place)
        is_other = is_other & (rows.auction[these] <= 0) | numpy.isin(these, self.within)
        found: Ints = these[is_other | numpy.isin(these, [*self.homes])]
        return found

    def _are_unentered(self, these: Ints) -> Mask:
        """Which of these trades and fills are of orders that no row enters."""
        rows = self.rows
        keys = (rows.bid[these], rows.ask[these], rows.key[these])
        are = [(it >= 0) & (self.entered[it] >= 0) for it in keys]
        found: Mask = ~numpy.any(are, axis=0)
        return found

    def _are_apart(self, these: Ints, place: int) -> Mask:
        """Which of these rows are more than a second before or after an uncross."""
        time, own = self.rows.time[these], self.rows.time[place]
        is_timed = (time != time_columns.NO_TIME) & (own != time_columns.NO_TIME)
        found: Mask = is_timed & (numpy.abs(time - own) > time_columns.SECOND)
        return found

    def stray(self, each: Difference) -> Difference:
        """An extra trade or fill that may be another auction's, or of none: which, and why."""
        homes = self.homes.get(each.places[0], ())
        is_of_others = self._are_unentered(numpy.array(each.places, "i8")).all()
        why = self.gap[1] if self.gap is not None else OF_OTHERS if is_of_others else OUTSIDE
        if homes:
            are = "has no row" if len(homes) == 1 else "have no row"
            why = f"the {' and the '.join(homes)} {are}: --auctions says which are held"
        return self.filed(dataclasses.replace(each, doubt=why))

    def filed(self, each: Difference) -> Difference:
        """The difference of a doubtful trade or fill, with the auction that it may be of."""
        is_made = each.doubt and isinstance(each.recorded, KeyedTrade | KeyedFill)
        homes = {self.homes.get(place) for place in each.places if is_made}
        home = homes.pop() if len(homes) == 1 else None
        return dataclasses.replace(each, auction=" or ".join(home)) if home else each

    def is_stray(self, each: Difference) -> bool:
        """Whether an extra trade or fill may be so."""
        return each.recorded is not None and each.places != () and each == self.stray(each)

    def strays_in(self, found: Iterable[Difference]) -> set[int]:
        """The rows of extra trades and fills that may be another auction's, or of none."""
        return {place for it in found if self.is_stray(it) for place in it.places}

    def below(self, strays: set[int]) -> str:
        """Why the books below such rows are in doubt: their orders may have traded before."""
        those = numpy.array(sorted(strays - {*self.within.tolist()}), "i8")
        first = next(iter(those[~self._are_unentered(those)].tolist()), None)
        return "" if first is None else f"row {self.rows.labels[first]} {MAY_BE_OUTSIDE}"

    @functools.cached_property
    def _unentered(self) -> dict[int, object]:
        """By the key of an order that no row enters the first row that changes or cancels it; none
        where a row that isn't read may enter it.
        """
        those = [row for row in self.rows.bad if row.is_order][::-1]
        if not all(row.is_lost and row.place >= 0 for row in those):
            return {}
        return {int(self.rows.key[row.place]): row.label for row in those}

    def _why_unentered(self, each: Difference) -> str:
        """Why a trade or a fill may be of an order that is known by another id."""
        one = each.recorded
        keys = keys_of(one) if isinstance(one, KeyedTrade | KeyedFill) else ()
        unentered = next((key for key in keys if key in self._unentered), None)
        if unentered is None:
            return ""
        name, label = self.rows.names.order(unentered), self._unentered[unentered]
        return f"row {label} changes {name}, which none enters: is it another's new id?"

    def _why_trade(self, each: Difference, end: str) -> str:
        """Why the difference of a trade or a fill isn't certain."""
        if why := self._why_unentered(each):
            return why
        if each.recorded is None or each.excess < 0:
            found = self.why_missing(each.lawful) or end
            return found or self.busts.why(each) * (each.recorded is not None)
        return self.busts.why(each)

    def why_executions_missing(self, place: int, traded: Ints, filled: Ints, volume: int) -> str:
        """Why trades or fills of an auction may be missing: a hole is below its uncross and above
        the next one, or above it without an order between, or the file ends.
        """
        later = self.uncrosses[self.uncrosses > place].min(initial=len(self.rows.kind))
        above = self.all_orders[self.all_orders < place].max(initial=-1)
        for hole in self.rows.holes:
            if hole.is_trade and above <= hole.since < later:
                return f"a trade may be missing: {hole}"
        return self.why_end(place, traded, filled, volume)

    def why_end(self, place: int, traded: Ints, filled: Ints, volume: int) -> str:
        """Why trades or fills of an auction may be missing below the file's end: it ends with them,
        or with the uncross, no row of a later moment is below, and they don't add up to the volume.
        """
        rows, end = self.rows, self.rows.end
        if end is None:
            return ""
        last = int(numpy.flatnonzero(rows.kind >= Kind.NEW)[-1])
        these = numpy.append(traded, filled)
        is_own = (rows.labels[numpy.append(these, place)] == end.label).any()
        ends = time_columns.nanosecond(end.time, rows.names.dates)
        is_timed = time_columns.NO_TIME not in (ends, rows.time[last])
        if not is_own and is_timed and abs(ends - int(rows.time[last])) > time_columns.SECOND:
            return ""
        published = int(rows.quantity[place])
        shares = 2 * int(rows.quantity[traded].sum()) + int(rows.quantity[filled].sum())
        is_whole = shares >= 2 * (volume if published < 0 else published)
        if is_whole or not is_own and last != max(place, these.max(initial=0)):
            return ""
        if is_own:
            return f"the file ends with row {end.label}, and may be cut there"
        own = rows.labels[last]
        side = "before" if ends < rows.time[last] and is_timed else "after"
        near = "" if end.label == own else f", less than a second {side} row {own}"
        return f"the file ends with row {end.label}{near}, and may be cut there"

    def why_missing(self, lawful: object) -> str:
        """Why a trade or a fill may be missing among the rows alone, and which is that."""
        unread = next((row for row in self.rows.bad if row.is_trade), None)
        if unread is not None:
            return f"a trade isn't read: {unread}"
        if half := self._half(lawful):
            return half
        if isinstance(lawful, KeyedTrade | KeyedFill) and self.rows.dropped:
            if {*map(self.rows.names.order, keys_of(lawful))} & self.rows.dropped:
                return "a trade of such an order doesn't meet --where"
        return self._why_busted(lawful)

    def _half(self, lawful: object) -> str:
        """Why a fill may be missing: a trade of its price has no row of its order's side."""
        rows = self.rows
        halves = numpy.flatnonzero(rows.is_half & (rows.kind == Kind.FILL))
        if isinstance(lawful, KeyedFill):
            halves = halves[rows.side[halves] != rows.side[self.entered[lawful.order]]]
            is_own = (rows.price[halves] == lawful.price) | (rows.price[halves] < 0)
            halves = halves[is_own | (lawful.price < 0)]
        if not len(halves):
            return ""
        return f"the trade of row {rows.labels[halves[0]]} has no row of its other side"

    def _why_busted(self, lawful: object) -> str:
        """Why a trade or a fill may be missing: a bust takes such a one out, which may have no row
        itself.
        """
        rows = self.rows
        lost = [it.place for it in rows.bad if it.doubt is Doubt.BUST and it.place >= 0]
        taken = numpy.union1d(rows.of(Kind.TAKEN), numpy.array(lost, "i8"))
        if isinstance(lawful, KeyedTrade | KeyedFill):
            shares = rows.quantity[taken]
            is_read = rows.kind[taken] != Kind.BAD
            taken = taken[is_read | (shares < 0) | (shares == lawful.quantity)]
        if isinstance(lawful, KeyedTrade):
            taken = taken[(rows.bid[taken] == lawful.bid) & (rows.ask[taken] == lawful.ask)]
        elif isinstance(lawful, KeyedFill):
            keys = (rows.bid[taken], rows.ask[taken], rows.key[taken])
            taken = taken[numpy.any([it == lawful.order for it in keys], axis=0)]
        if not len(taken):
            return ""
        label = rows.labels[taken[0]]
        is_lost = rows.kind[taken[0]] == Kind.BAD
        return (
            f"row {label} is a bust of it, and the trade may have no row" if is_lost
            else f"a bust takes the trade of row {label} out"
        )  # fmt: skip


def _is_extra(each: Difference, strays: set[int]) -> bool:
    """Whether a trade or a fill is an extra one, whose rows are all such strays."""
    return each.lawful is None and each.places != () and {*each.places} <= strays


def has_lawful_orders(each: Difference) -> bool:
    """Whether a trade or a fill is lawful but for its price or its members."""
    one, other = each.recorded, each.lawful
    if isinstance(one, KeyedTrade) and isinstance(other, KeyedTrade):
        return (one.bid, one.ask, one.quantity) == (other.bid, other.ask, other.quantity)
    if isinstance(one, KeyedFill) and isinstance(other, KeyedFill):
        return (one.order, one.quantity) == (other.order, other.quantity)
    return isinstance(one, str)

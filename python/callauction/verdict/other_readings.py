"""What may be read otherwise in the rows of a day: a list of readings for each cause."""
import dataclasses
import functools
from collections.abc import Mapping

import numpy

from callauction.verdict.cells import Ints
from callauction.verdict.corrected_results import (
    corrected, doubled, has_more, in_parts, stopped_again, with_last_stops, with_parts,
)  # fmt: skip
from callauction.verdict.coverage import PRICE_ITEMS
from callauction.verdict.hidden_shares import lacking, with_rests
from callauction.verdict.judging import Judge
from callauction.verdict.lots import in_shares, lot_of, orders_in_shares, parts_in_shares
from callauction.verdict.member_codes import without_codes
from callauction.verdict.other_reading import OtherReading, of_rows
from callauction.verdict.owners import Owners
from callauction.verdict.paths import Judgement
from callauction.verdict.repeated_rows import amended, copies, second_trades, too_many
from callauction.verdict.respelling import OTHER_IDS, have_other_ids, misentered, renamed, respelled
from callauction.verdict.rows import INTERRUPTED, Doubt, Kind, Rows
from callauction.verdict.rules import Rules
from callauction.verdict.table import End
from callauction.verdict.totals import Totals
from callauction.verdict.units import in_one_unit, why_two_units
from callauction.verdict.unnamed_results import namings, with_names
from callauction.verdict.unpriced import unpriced

TWICE = "each trade has two rows: is there one for each side?"
TOTALS = "replaces may say an order's whole quantity, and not what is open: --quantity says which"
PERCENT = "the range may be a percentage"
CORRECTED = "an auction has two results: the later one may correct the other"
IN_PARTS = "more rows of results than auctions: are rows {} and {} of one?"
STOPPED_AGAIN = "an auction has two interruptions: the later one may correct the other"
MAY_BE_MISSING = "a result may be missing or correct another, and none says which auction it is of"


class OtherReadings:
    """What may be read otherwise in rows of this order: a list for each cause, of whose readings no
    two go together, while those of several causes do.
    """

    def __init__(self, found: Judgement, judge: Judge) -> None:
        self.found, self.judge, self.rows, self.rules = found, judge, judge.rows, judge.rules
        self.again = second_trades(self.rows)
        self.earlier, self.why_earlier = amended(self.rows)
        self.respelled = respelled(self.rows)
        self.spelled = (
            self.respelled or renamed(self.rows, found) or misentered(self.rows, found)
        )

    def lists(self) -> list[list[OtherReading]]:
        """The readings by their causes."""
        return [
            self._one_side(), self._corrections(), self._stopped_again(),
            [*self._names(), *self._in_parts()],
            self._copies(), self._amended(), self._cut(), self._spellings(), self._owners(),
            self._codes(), self._unchanged(), self._percent(), self._totals(), self._lacking(),
            self._lots(), self._lots_of_some(),
            self._units(),  # the last, as prices have other numbers then
        ]  # fmt: skip

    def _one_side(self) -> list[OtherReading]:
        """Each trade has two rows, one for each side."""
        return [_without_rows(self.rows, self.again, TWICE)] if len(self.again) else []

    def _corrections(self) -> list[OtherReading]:
        """A later result corrects another."""
        if not _may_correct(self.found, self.rows, self.rules):
            return []
        return [of_rows(functools.partial(corrected, due=self.rules.due), CORRECTED)]

    def _in_parts(self) -> list[OtherReading]:
        """A result has two rows."""
        those = in_parts(self.rows, self.rules.due)
        if not len(those):
            return []
        ends = self.rows.of(Kind.UNCROSS)
        below = ends[numpy.searchsorted(ends, those[0]) + 1]
        why = IN_PARTS.format(*self.rows.labels[[those[0], below]].tolist())
        return [of_rows(functools.partial(with_parts, those=those), why)]

    def _stopped_again(self) -> list[OtherReading]:
        """A later row of an interruption corrects the one above it."""
        return [of_rows(with_last_stops, STOPPED_AGAIN)] if len(stopped_again(self.rows)) else []

    def _names(self) -> list[OtherReading]:
        """Results are of other auctions."""
        due = self.rules.due
        ways = namings(self.found, self.rows, self.rules)
        named = (functools.partial(with_names, due=due, way=it) for it in ways)
        return [of_rows(change, MAY_BE_MISSING) for change in named]

    def _copies(self) -> list[OtherReading]:
        """Rows are there twice: but for those that are second ones of each trade, first those that
        are too many of their orders, then all, then one alone.
        """
        those = copies(self.rows, self.found)
        extra = _too_many(self.found, self.judge, those)
        is_second = numpy.isin(those, self.again)
        those = those[numpy.argsort(is_second, kind="stable")]
        single = [those[at : at + 1] for at in range(len(those))] if len(those) > 1 else []
        has_others = not is_second.all()
        is_part = 0 < len(extra) < len(those)
        labels = self.rows.labels
        return [
            _without_rows(self.rows, each, f"row {labels[each[0]]} is there twice: is it one?")
            for each in [extra] * is_part + ([those] * has_others + single)[:5]
        ]

    def _amended(self) -> list[OtherReading]:
        """Rows are amended by later ones."""
        if not len(self.earlier):
            return []
        return [_without_rows(self.rows, self.earlier, self.why_earlier)]

    def _cut(self) -> list[OtherReading]:
        """The file's last row is cut."""
        end = self.rows.end
        if end is None or not end.is_cut:
            return []
        why = f"the file ends within a line, and row {end.label} may be cut"
        return [of_rows(functools.partial(_cut_off, end), why)]

    def _spellings(self) -> list[OtherReading]:
        """Ids are spelled otherwise, or trades have others than orders."""
        rows, ways = self.rows, list[OtherReading]()
        if self.spelled is not None:
            ways = [of_rows(functools.partial(_respelled, self.spelled[0]), self.spelled[1])]
        again = numpy.union1d(copies(rows, self.found), self.earlier)
        if self.respelled is None and have_other_ids(rows, self.found, again):
            ways.append(_without_rows(rows, rows.of(Kind.TRADE, Kind.FILL), OTHER_IDS))
        return ways

    @property
    def _plain(self) -> Rows:
        """The rows in one spelling."""
        return self.rows if self.spelled is None else self.spelled[0]

    def _owners(self) -> list[OtherReading]:
        """The entry of an order has a wrong member."""
        told = Owners(self._plain).told()
        return [] if told is None else [of_rows(_with_owners, told[1])]

    def _codes(self) -> list[OtherReading]:
        """Members have other codes in trades than in orders."""
        told = without_codes(self._plain)
        return [] if told is None else [of_rows(_without_codes, told[1])]

    def _unchanged(self) -> list[OtherReading]:
        """Replaces without a price leave it as it is."""
        return [*unpriced(self.rows)]

    def _percent(self) -> list[OtherReading]:
        """The range is a percentage."""
        span, reference = self.rules.range, self.rules.reference
        if span is None or span.whole is not None or not reference:
            return []
        of_it = dataclasses.replace(span, whole=reference)
        return [
            OtherReading(
                lambda day: (day[0], dataclasses.replace(day[1], range=of_it)), PERCENT
            )
        ]  # fmt: skip

    def _totals(self) -> list[OtherReading]:
        """Replaces say the total of an order."""
        if not self.rules.may_have_totals:
            return []
        if not Totals(self.found, self.rows, self.judge.doubts).may_be():
            return []
        return [
            OtherReading(
                lambda day: (day[0], dataclasses.replace(day[1], has_totals=True)), TOTALS,
                keeps_values=True,
            )
        ]  # fmt: skip

    def _lacking(self) -> list[OtherReading]:
        """Orders show a part of their shares alone."""
        shown = lacking(self.found, self.rows)
        if shown is None:
            return []
        more, why = shown[0].quantity - self.rows.quantity, shown[1]
        whole = of_rows(lambda it: with_arrays({"quantity": it.quantity + more}, it), why)
        rests = OtherReading(lambda day: with_rests(whole.apply(day)), why)
        return [dataclasses.replace(it, keeps_values=True) for it in (whole, rests)]

    def _lots(self) -> list[OtherReading]:
        """Quantities are lots of shares."""
        ways = in_shares(self.rows, *lot_of(self.found))
        lots = ((dict(quantity=it.quantity, surplus=it.surplus), why) for it, why in ways)
        return [of_rows(functools.partial(with_arrays, those), why) for those, why in lots]

    def _lots_of_some(self) -> list[OtherReading]:
        """Quantities of some orders are lots: of those of which no order is executed with all such
        as make the day lawful; of none that were executed where hidden shares may be lacking. Or
        those of a part of the rows are, if nothing differs so.
        """
        ways = [*orders_in_shares(self.found, self.rows)] if self.rows.has_peaks else []
        made = (
            (of_rows(functools.partial(with_arrays, dict(quantity=many)), why), is_sure)
            for many, why, is_sure in ways
        )
        parts = (of_rows(functools.partial(with_arrays, those), why)
                 for those, why in parts_in_shares(self.found, self.rows))  # fmt: skip
        return [
            *(it for it, is_sure in made if is_sure or not self._judged_so(it).unlawful),
            *(it for it in parts if not any(self._judged_so(it).by_place.values())),
        ]

    def _judged_so(self, reading: OtherReading) -> Judgement:
        """The judgement of the day in a reading."""
        return Judge(*reading.apply((self.rows, self.rules))).judge()

    def _units(self) -> list[OtherReading]:
        """Prices are in two units."""
        why, reference = why_two_units(self.rows, self.rules.reference), self.rules.reference
        return [of_rows(functools.partial(in_one_unit, reference=reference), why)] if why else []


def _too_many(found: Judgement, judge: Judge, those: Ints) -> Ints:
    """The copies of cancels, and of trades those that are too many of their orders without them."""
    rows, rules = judge.rows, judge.rules
    cancels = those[rows.kind[those] == Kind.CANCEL]
    if not 0 < len(cancels) < len(those):
        return too_many(rows, found, those)
    rows, rules = _without_rows(rows, cancels, "").apply((rows, rules))
    extra = too_many(rows, Judge(rows, rules).judge(), those)
    return numpy.concatenate([cancels, extra])


def _without_rows(rows: Rows, these: Ints, why: str) -> OtherReading:
    """The change that leaves rows out."""
    is_out = numpy.isin(numpy.arange(len(rows.kind)), these)
    return of_rows(
        lambda it: with_arrays({"kind": numpy.where(is_out, Kind.BAD, it.kind)}, it), why
    )


def _may_correct(found: Judgement, rows: Rows, rules: Rules) -> bool:
    """Whether a later result of an auction may correct another: where there aren't more of them
    than auctions the name of one may be wrong instead, so the other must say another fault. None
    does where the range interrupts the first, as then a later one is that of its extension.
    """
    groups = doubled(rows, rules.due).values()
    by_place = found.by_place
    firsts = [it for own in groups for it in by_place.get(int(own[0]), ()) if not it.doubt]
    is_stop = any(it.item == "auction" and it.lawful == INTERRUPTED for it in firsts)
    others = [by_place.get(place, ()) for own in groups for place in own[:-1].tolist()]
    is_wrong = all(any(it.item in PRICE_ITEMS for it in those) for those in others)
    return bool(groups) and not is_stop and (has_more(rows, rules.due) or is_wrong)


def with_arrays(arrays: Mapping[str, Ints], rows: Rows) -> Rows:
    """The rows with other arrays."""
    return dataclasses.replace(rows, **arrays)


def _respelled(other: Rows, rows: Rows) -> Rows:
    """The rows with the ids and the members of others, and those that these read."""
    names = ("key", "bid", "ask", "bid_member", "ask_member", "member")
    changed = {name: getattr(other, name) for name in names}
    lost = [row for row in rows.bad if row.kind != Kind.BAD and other.kind[row.place] >= Kind.NEW]
    kind = rows.kind.copy()
    kind[[row.place for row in lost]] = [row.kind for row in lost]
    bad = [row for row in rows.bad if row not in lost]
    return dataclasses.replace(rows, kind=kind, bad=bad, **changed)


def _with_owners(rows: Rows) -> Rows:
    """The rows with the members that orders' entries say."""
    found = Owners(rows).told()
    return rows if found is None else found[0]


def _without_codes(rows: Rows) -> Rows:
    """The rows with members of trades as orders have them."""
    found = without_codes(rows)
    return rows if found is None else found[0]


def _cut_off(end: End, rows: Rows) -> Rows:
    """The rows without what the last row of a file says, but for that there is a result."""
    rows = dataclasses.replace(rows, kind=rows.kind.copy(), bad=[*rows.bad])
    rows.end = End(end.label, "", False)
    for place in numpy.flatnonzero((rows.labels == end.label) & (rows.kind >= Kind.NEW)).tolist():
        if rows.kind[place] in (Kind.TRADE, Kind.FILL):
            rows.kind[place] = Kind.BAD
        elif rows.kind[place] == Kind.UNCROSS:
            rows = rows.with_said(place, None)
        else:
            rows.refuse(place, "the line is cut", Doubt.BOOKS)
    return rows

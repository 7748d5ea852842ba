"""The verdict on what was published: its findings, and how much was compared."""
import collections
import dataclasses
import itertools
from collections.abc import Iterable, Iterator, Sequence

import pandas

from callauction import statuses
from callauction.reasons import Explanation
from callauction.verdict import joint_differences
from callauction.verdict.comparing import Difference, KeyedFill, KeyedTrade, Value
from callauction.verdict.context import AROUND, Context, queue_of
from callauction.verdict.coverage import Coverage, coverage_of
from callauction.verdict.explain import (
    book_sentences, effect_of, recorded_members, rule_of, sentences_of,
)  # fmt: skip
from callauction.verdict.orders import orders_of
from callauction.verdict.paths import Judged, Judgement
from callauction.verdict.rows import BadRow, PriceCode, Rows
from callauction.verdict.rules import Rules

LAWFUL, UNLAWFUL, INCOMPLETE = "lawful", "unlawful", "incomplete"
STATUSES = {
    LAWFUL: statuses.DONE, UNLAWFUL: statuses.UNLAWFUL, INCOMPLETE: statuses.INCOMPLETE,
}  # fmt: skip
"""The exit status of each verdict."""
MOST_BAD_ROWS = 20
"""How many bad rows are printed."""
MOST_NAMED = 5
"""How many rows are named of findings that have the reason of another one."""
FINDING_COLUMNS = ("row", "time", "auction", "item", "recorded", "lawful", "rule")
"""The columns of a frame of findings."""
NO_SUCH = {"trade": "no such trade", "fill": "no such fill", "price": "no price"}


@dataclasses.dataclass(frozen=True)
class Finding:
    """A published item that isn't the lawful one: the row that has it and its time (those of the
    uncross where a trade is missing), the auction, what was recorded and what is lawful, and the
    rule in a sentence. All is in the extract's ids, members, times and prices. `doubt` is why it
    isn't certain, empty where it is; `effect` what a recorded price would have executed beside the
    lawful one; `moved` has the other trades or fills that one jumped priority moved, most harm
    first.
    """

    number: int
    row: object
    time: str
    auction: str
    item: str
    recorded: str
    lawful: str
    rule: str
    rows: tuple[object, ...] = dataclasses.field(repr=False)
    _of: tuple[Context, Difference] = dataclasses.field(repr=False, compare=False)
    doubt: str = ""
    effect: str = ""
    moved: tuple[str, ...] = ()

    def __str__(self) -> str:
        return self.lines()[0]

    def lines(self, others: str = "") -> list[str]:
        """The line of the finding, with others of its reason, and one for each that it moved."""
        where = ", ".join(filter(None, [f"row {self.row}", self.time, self.auction]))
        found = f"{where}: {self.item}: recorded {self.recorded}, lawful {self.lawful}"
        line = " ".join(filter(None, [f"{found}: {self.rule}", self.effect]))
        if self.doubt:
            line = f"doubtful: {found}{f' ({others})' if others else ''}: {self.doubt}"
        return [line, *(f"    {each}" for each in self.moved)]


@dataclasses.dataclass(frozen=True)
class Verdict:
    """Whether what was published is lawful: `findings` are the items that aren't for certain,
    `doubtful` those that aren't unless what their reason says is otherwise, `coverage` says how
    many were compared, `bad_rows` are rows that couldn't be read or that the rules refuse, and
    `notes` counts what else was met.
    """

    findings: tuple[Finding, ...]
    doubtful: tuple[Finding, ...]
    coverage: Coverage
    bad_rows: tuple[BadRow, ...]
    notes: collections.Counter[str]
    judgement: Judgement = dataclasses.field(repr=False)
    rows: Rows = dataclasses.field(repr=False)
    rules: Rules = dataclasses.field(repr=False)

    @property
    def word(self) -> str:
        """`lawful` where all that the rules give was published and compared, and nothing differs;
        `unlawful` where something does for certain; else `incomplete`.
        """
        if self.findings:
            return UNLAWFUL
        lacks_rows = self.bad_rows or self.rows.lacks_rows
        is_open = self.doubtful or lacks_rows or self.judgement.doubt
        return LAWFUL if self.coverage.is_complete and not is_open else INCOMPLETE

    @property
    def status(self) -> int:
        """The exit status of this verdict: 0 lawful, 4 unlawful, 5 incomplete."""
        return STATUSES[self.word]

    @property
    def is_lawful(self) -> bool:
        """Whether the verdict is lawful, which an incomplete one isn't."""
        return self.word == LAWFUL

    def explain(self, finding: Finding) -> Explanation:
        """Why a finding is one, in sentences with the numbers of its book. Raises ProgramError."""
        context, difference = finding._of
        found = sentences_of(context, difference)
        found += [finding.effect] * bool(finding.effect)
        if finding.doubt:
            found.append(f"In doubt: {finding.doubt}{'' if finding.doubt.endswith('?') else '.'}")
        unread = sum(row.is_order for row in self.bad_rows)
        if unread:
            found.append(
                f"Rows of orders that couldn't be read or were refused: {unread:,}. With them the "
                "book may be another one."
            )
        return Explanation(found)

    def queue(self, finding: Finding, around: int = AROUND) -> pandas.DataFrame:
        """The orders of both sides in their priority around those of a finding, with the shares
        that were recorded as executed and those that are lawful: the columns are context.QUEUE.
        `around` is how many orders are shown before and after; none are of an auction without row.
        """
        context, difference = finding._of
        found = queue_of(context, difference.keys, around)
        return found[:0] if difference.auction else found

    def queued(self, finding: Finding) -> dict[str, int]:
        """How many orders are in the queue of each side, of which `queue` has those around."""
        return {side: len(those) for side, those in finding._of[0].queues.items()}

    def orders(self) -> pandas.DataFrame:
        """The orders that the rules accept, with what became of each (orders.ORDERS)."""
        return orders_of(self.judgement, self.rows, self.rules)

    def why(self, judged: Judged) -> Explanation:
        """Why an auction has its lawful price, or none. Raises ProgramError."""
        return Explanation(book_sentences(Context(judged, self.rows, self.rules)))

    def frame(self) -> pandas.DataFrame:
        """The findings as a frame (FINDING_COLUMNS), under their numbers from 1."""
        return findings_frame(self.findings)

    def reasons(self) -> dict[str, list[Finding]]:
        """The doubtful findings by their reasons."""
        found: dict[str, list[Finding]] = {}
        for each in self.doubtful:
            found.setdefault(each.doubt, []).append(each)
        return found

    def shown(self) -> list[tuple[Finding, str]]:
        """The findings, of doubtful ones of one reason the first, and which others there are."""
        doubtful = [(those[0], others_of(those[1:])) for those in self.reasons().values()]
        return [*((it, "") for it in self.findings), *doubtful]

    def lines(self) -> list[str]:
        """What the command line prints: findings or reasons, counts, the coverage, the verdict."""
        counts = counts_of(len(self.bad_rows), len(self.findings), len(self.doubtful))
        return [*self.told(), *self.ranges(), *counts, *self.coverage.lines(), self.word]

    def told(self, is_explained: bool = False) -> Iterator[str]:
        """The lines of the findings, and those of their sentences where these are asked for."""
        for finding, others in self.shown():
            yield from finding.lines(others)
            if is_explained:
                yield from (f"    {sentence}" for sentence in self.explain(finding))

    def ranges(self) -> list[str]:
        """Prices from which to which an uncross isn't interrupted, by percentages or two ranges;
        multiples of the tick size where that is known.
        """
        found, size = list[str](), self.rules.tick_size
        if self.rules.second is None and (not self.rules.range or not self.rules.range.whole):
            return found
        for judged in self.judgement.uncrosses:
            if judged.result is not None and not judged.is_extended:
                context = Context(judged, self.rows, self.rules)
                for span, at in context.ranges:
                    low, high = (context.price(it) for it in span.bounds(at, size))
                    of = f"{span} of {context.price(at)}" if span.whole else context.price(at)
                    found.append(f"range {context.auction}: {low} to {high}, around {of}")
        return found

    def remarks(self) -> list[str]:
        """What goes to standard error: the first bad rows, how many there are, and the notes."""
        holes = self.rows.holes if self.rows.lacks_rows else []
        rows = [*lines_of(self.bad_rows), *map(str, holes[:MOST_BAD_ROWS])]
        if self.bad_rows:
            rows.append(f"bad rows {len(self.bad_rows)}")
        return rows + [f"{name}: {count}" for name, count in self.notes.items()]

    def __str__(self) -> str:
        return "\n".join(self.lines())

    def __repr__(self) -> str:
        return f"<Verdict {self.word}: findings {len(self.findings)}, {self.coverage}>"


def others_of(findings: Sequence[Finding]) -> str:
    """How many findings these are, and their first rows; empty for none."""
    return _more(str(each.row) for each in findings)


def lines_of(bad: Iterable[BadRow]) -> list[str]:
    """A line for each of the first bad rows; those of one order that no row enters are in one."""
    those = dict[str | int, list[BadRow]]()
    for row in bad:
        those.setdefault(row.why if row.is_lost else len(those), []).append(row)
    shown = itertools.islice(those.values(), MOST_BAD_ROWS)
    both = ((first, _more(str(row.label) for row in others)) for first, *others in shown)
    return [f"{first} ({more})" if more else str(first) for first, more in both]


def _more(rows: Iterable[str]) -> str:
    """How many more there are, and the first rows that have them; empty for none."""
    named = [*rows]
    shown = [*dict.fromkeys(named)]
    name, end = "row" if len(shown) == 1 else "rows", " .." * (len(shown) > MOST_NAMED)
    text = f"{len(named):,} more, in {name} {', '.join(shown[:MOST_NAMED])}{end}"
    return text if named else ""


def counts_of(bad_rows: int, findings: int, doubtful: int) -> list[str]:
    """The counts of rows not read, of findings and of doubtful ones; the first and last if any."""
    unread = [f"rows not read {bad_rows}"] * bool(bad_rows)
    return [*unread, f"findings {findings}", *[f"doubtful {doubtful}"] * bool(doubtful)]


def findings_frame(findings: Iterable[Finding]) -> pandas.DataFrame:
    """Findings as a frame (FINDING_COLUMNS), numbered from 1; the rule of a doubtful one is its
    reason.
    """
    rows = [[getattr(finding, name) for name in FINDING_COLUMNS] for finding in findings]
    index = pandas.RangeIndex(1, len(rows) + 1, name="finding")
    return pandas.DataFrame(rows, index, [*FINDING_COLUMNS])


def verdict_of(judgement: Judgement, rows: Rows, rules: Rules) -> Verdict:
    """The verdict of a judgement. Raises ProgramError."""
    findings = [*_findings(judgement, rows, rules)]
    certain = tuple(it for it in findings if not it.doubt)
    doubtful = tuple(it for it in findings if it.doubt)
    coverage = coverage_of(judgement, rows)
    bad, notes = judgement.bad_rows, judgement.notes
    return Verdict(certain, doubtful, coverage, bad, notes, judgement, rows, rules)


def _findings(judgement: Judgement, rows: Rows, rules: Rules) -> Iterator[Finding]:
    """The findings in the order of their uncrosses, numbered among those of their kind."""
    numbers: collections.Counter[bool] = collections.Counter()
    for number, judged in enumerate(judgement.uncrosses):
        context = Context(judged, rows, rules, judgement.uncrosses[:number])
        for those in joint_differences.grouped(context, judged.differences):
            is_certain = not those[0].doubt
            numbers[is_certain] += 1
            yield _finding(numbers[is_certain], context, those)


def _finding(number: int, context: Context, those: Sequence[Difference]) -> Finding:
    """Differences that are one finding, most harm first; a doubtful one's rule is its reason."""
    first, *others = those
    whole = joint_differences.joined_differences(those)
    recorded, lawful = _both(context, first)
    labels = [context.rows.labels[place] for place in whole.places] or [context.label]
    moved = (f"{each.item}: recorded {one}, lawful {other}"
             for each in others for one, other in [_both(context, each)])  # fmt: skip
    own = whole.places and context.rows.names.legible_time(whole.places[0])
    return Finding(
        number, labels[0], own or context.time, _auction(context, first), first.item, recorded,
        lawful, first.doubt or rule_of(context, whole), (*labels,), (context, whole), first.doubt,
        effect_of(context, first), (*moved,),
    )  # fmt: skip


def _is_elsewhere(difference: Difference) -> bool:
    """Whether a trade or a fill is another auction's, which is what is lawful then."""
    made = isinstance(difference.recorded, KeyedTrade | KeyedFill)
    return made and isinstance(difference.lawful, str)


def _auction(context: Context, difference: Difference) -> str:
    """The auction of a difference, of a trade of another one that one."""
    elsewhere = str(difference.lawful) if _is_elsewhere(difference) else difference.auction
    return elsewhere or context.judged.name or context.auction


def _both(context: Context, difference: Difference) -> tuple[str, str]:
    """The recorded and the lawful value of a difference."""
    recorded = _shown(context, difference, difference.recorded)
    lawful = _shown(context, difference, difference.lawful)
    if _is_elsewhere(difference):
        return f"{recorded} in the {context.auction}", f"in the {lawful}"
    return recorded, lawful


def _shown(context: Context, difference: Difference, value: Value) -> str:
    """A recorded or a lawful value of an item."""
    if value is None:
        return NO_SUCH.get(difference.item, "none")
    if isinstance(value, KeyedTrade):
        return _trade(context, value, difference)
    if isinstance(value, KeyedFill):
        return _fill(context, value, difference)
    if isinstance(value, str):
        return value
    if difference.item == "price":
        if value == PriceCode.NO_PRICE:
            return "no price"
        return context.price(context.rows.prices[value])
    return f"{value:,}"


def _at(context: Context, price: int) -> str:
    return f" at {context.price(context.rows.prices[price])}" if price >= 0 else ""


def _fill(context: Context, fill: KeyedFill, difference: Difference) -> str:
    """A fill in the extract's names, with its member where another one was recorded."""
    member, owner = recorded_members(context, difference)[0], context.member(fill.order)
    name = owner if fill is difference.lawful else member
    shown = f" ({name})" if member and owner not in ("", member) else ""
    return f"{context.order(fill.order)}{shown} {fill.quantity:,}{_at(context, fill.price)}"


def _trade(context: Context, trade: KeyedTrade, difference: Difference) -> str:
    """A trade in the extract's names, with its members where these were recorded."""
    members = recorded_members(context, difference)
    if trade is difference.lawful and any(members):
        members = context.member(trade.bid), context.member(trade.ask)
    names = [
        f"{side} {context.order(key)}" + (f" ({member})" if member else "")
        for side, key, member in zip(("bid", "ask"), (trade.bid, trade.ask), members)
    ]
    return f"{' '.join(names)}: {trade.quantity:,}{_at(context, trade.price)}"

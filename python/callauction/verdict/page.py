"""The report of an extract as one HTML file: the verdict and the findings first, then each finding
with its rule and its queue, then the auctions, the members and the orders. See html_of. That of
many instruments is a page with a row for each, and links to the pages of those not lawful.
"""
import fractions
import html
import pathlib
import re
import textwrap
from collections.abc import Iterator, Mapping
from decimal import Decimal
from urllib.parse import quote

import pandas
from matplotlib.axes import Axes

from callauction import plot
from callauction.pages import (
    BOOKED, caption_of, counted, evidence_parts, html_image, html_page, html_table, near_price,
    new_figure,
)  # fmt: skip
from callauction.progress import Progress
from callauction.verdict.audited import FAULT, Audited
from callauction.verdict.context import Context, price_text
from callauction.verdict.findings import LAWFUL, MOST_BAD_ROWS, Finding, Verdict, findings_frame
from callauction.verdict.instruments import InstrumentTable
from callauction.verdict.orders import members_of
from callauction.verdict.paths import Judged
from callauction.verdict.rows import INTERRUPTED
from callauction.verdict.rules import Rules
from callauction.verdict.times import seconds

MOST_FIRST = 12
"""How many findings the first page shows; the others follow below."""
MOST_EXPLAINED = 50
"""How many findings are shown with their rule and queue."""
UNIT = "limits as prices, quantities in shares"
TITLE = 38
"""How many letters a line of a picture's title has at most."""
_JOINED = "\xa0"
"""A blank at which no line of a title ends, as it does behind a comma."""
QUEUED = ("open", "recorded", "lawful")
"""The columns of a queue that count shares."""
_STAMP = re.compile(
    r"(?<![\w.:])(?P<date>\d{4}-\d\d-\d\dT?|\d{8}[T-]|\d{1,2}\.\d{1,2}\.\d{4})[ ]?"
    r"(?=\d\d?:\d\d:\d\d)"
)
_CLOCK = re.compile(r"(?P<clock>\d\d?:\d\d:\d\d)(?:[.,](?P<part>\d{1,9}))(?!\d)")
ORDER = ("unlawful", FAULT, "incomplete", LAWFUL)
"""Which instruments come first, by their verdicts."""
LISTED = ("verdict", "findings", "doubtful", "rows not read", "compared", "what is first")
Part = tuple[str, str]
"""A section: its heading and its HTML."""


def html_of(
    verdict: Verdict, title: str, watch: Progress = iter, facts: Mapping[str, str] = {},
    pages: Mapping[str, str] = {},
) -> str:  # fmt: skip
    """The report of a verdict; `facts` says what it is of and by, and `pages` has links to others.
    `watch` is given the auctions, such as tqdm.tqdm. Raises ProgramError.
    """
    parts = [_first(verdict), *_explained(verdict)]
    held = [judged for judged in verdict.judgement.uncrosses if judged.result is not None]
    parts += [_auction(verdict, judged) for judged in watch(held)]
    orders = verdict.orders()
    parts += [_members(orders), _orders(orders, verdict.rules), *_bad_rows(verdict)]
    return html_page(title, [*_shortened(parts), *evidence_parts(facts)], "desk", pages)


def _first(verdict: Verdict) -> Part:
    """The verdict, the coverage, and the findings in short."""
    look = "good" if verdict.word == LAWFUL else "bad"
    certain = counted(len(verdict.findings), "finding")
    doubtful = counted(len(verdict.doubtful), "doubtful finding")
    counts = [certain] * bool(verdict.findings) + [doubtful] * bool(verdict.doubtful)
    text = (
        f'<p class="{look}">What was published is <strong>{verdict.word}</strong>: '
        f"{' and '.join(counts) or certain}. Compared: {html.escape(str(verdict.coverage))}."
    )
    if verdict.bad_rows:
        text += f" Rows that couldn't be read or were refused: {len(verdict.bad_rows):,}."
    text += "</p>"
    text += _listed(verdict, False, certain)
    text += _listed(verdict, True, f"{doubtful} of {counted(len(verdict.reasons()), 'reason')}")
    return "Verdict", text + "".join(f"<p>{html.escape(it)}</p>" for it in verdict.ranges())


def _listed(verdict: Verdict, is_doubtful: bool, caption: str) -> str:
    """The table of the first certain findings, each with its rule, or of the first doubtful one of
    each reason; empty for none.
    """
    found = [it for it in verdict.shown() if bool(it[0].doubt) == is_doubtful]
    if not found:
        return ""
    below = MOST_EXPLAINED if len(verdict.shown()) > MOST_EXPLAINED else "all"
    more = f": the first {MOST_FIRST}, {below} are below" if len(found) > MOST_FIRST else ""
    shown = found[:MOST_FIRST]
    frame = findings_frame(it for it, _ in shown).astype({"row": "str"})
    if any(others for _, others in shown):
        frame["others"] = [others for _, others in shown]
    links = {str(it.row): f"#{mark_of(it)}" for it, _ in shown[::-1]}
    name = "doubtful" if is_doubtful else "findings"
    return html_table(frame, caption + more, name, (), links)


def mark_of(finding: Finding) -> str:
    """By what a finding is linked to in its page."""
    return f"{'doubt' if finding.doubt else 'finding'}-{finding.number}"


def _explained(verdict: Verdict) -> Iterator[Part]:
    """The findings, each with its rule and its queue."""
    found, many = verdict.shown()[:MOST_EXPLAINED], len(verdict.findings) + len(verdict.doubtful)
    if not found:
        return
    first = "The first" if len(found) == 1 else f"The first {len(found)}"
    more = f"{first} of {many:,} {'is' if len(found) == 1 else 'are'} here, --findings has all."
    text = f"<p>{more}</p>" if len(found) < many else ""
    yield "Findings", text + "".join(_finding(verdict, *it) for it in found)


def _finding(verdict: Verdict, finding: Finding, others: str) -> str:
    """A finding with its rule, what it moved and its queue, and which others have its reason."""
    sentences = "".join(f"<li>{html.escape(it)}</li>" for it in verdict.explain(finding))
    moved = "".join(f"<li>{html.escape(it)}</li>" for it in finding.moved)
    text = (
        f"<p>Recorded: {html.escape(finding.recorded)}. Lawful: {html.escape(finding.lawful)}.</p>"
        f"<ol>{sentences}</ol>"
    )
    text += f"<p>It also moved:</p><ul>{moved}</ul>" if moved else ""
    text += f"<p>For this reason {html.escape(others)}.</p>" if others else ""
    queue = verdict.queue(finding).astype("object")
    queue["price"] = _limits(queue["price"], verdict.rules)
    shown, queued = queue["side"].value_counts(), verdict.queued(finding)
    more = [f"{shown.get(side, 0):,} of {counted(many, side)}" for side, many in queued.items()
            if shown.get(side, 0) < many]  # fmt: skip
    caption = "The queue: open before the uncross, recorded and lawful shares"
    caption += f"; {' and '.join(more)} are here" if more else ""
    name = mark_of(finding).replace("finding", "queue")
    table = html_table(queue, caption, f"{name}-table", QUEUED) if len(queue) else ""
    where = ", ".join(filter(None, [f"row {finding.row}", finding.time, finding.auction]))
    word = "Doubtful" if finding.doubt else "Finding"
    head = html.escape(f"{word} {finding.number}: {finding.item}, {where}")
    return f'<h3 id="{mark_of(finding)}">{head}</h3>{text}{table}'


def _limits(prices: "pandas.Series", rules: Rules) -> list[str]:
    """Limits in words, with the decimals of the tick size."""
    return ["market" if it is None else price_text(it, rules.tick_size) for it in prices]


def _auction(verdict: Verdict, judged: Judged) -> Part:
    """A book: why it has its price, its picture, its table, and the lawful trades."""
    context = Context(judged, verdict.rows, verdict.rules)
    sentences = verdict.why(judged)
    steps = "".join(f"<li>{html.escape(sentence)}</li>" for sentence in sentences)
    name = f"{context.auction}-{context.label}"
    figure = new_figure()
    _draw(context, figure.subplots())
    text = f"Demand and supply before the uncross. {' '.join(sentences[-2:])}"
    book = near_price(context.books)
    book["limit"] = [
        it if it == "market" else context.price(context.named(it)) for it in book["limit"]
    ]
    parts = [
        f"<h3>Why this price</h3><ol>{steps}</ol>",
        html_image(figure, text, f"book {name}"),
        html_table(book, caption_of(context.books, "Book", UNIT), f"book-{name}", BOOKED),
    ]
    trades = lawful_trades(context)
    if len(trades) and not judged.is_interrupted:
        caption = counted(len(trades), "lawful trade")
        parts.append(html_table(trades, caption, f"trades-{name}", ("quantity",)))
    word = INTERRUPTED if judged.is_interrupted else "uncrossed"
    where = ", ".join(filter(None, [f"row {context.label}", context.time]))
    return f"{context.auction.title()}, {word}, {where}", "".join(parts)


def lawful_trades(context: Context) -> pandas.DataFrame:
    """The lawful trades of an auction in the extract's ids, members and prices."""
    result, price = context.result, context.lawful_price
    pairs = zip(result.bid.tolist(), result.ask.tolist(), result.quantity.tolist())
    rows = [
        (context.order(bid), context.member(bid), context.order(ask), context.member(ask), shares,
         context.price(price))
        for bid, ask, shares in pairs
        if price is not None
    ]  # fmt: skip
    columns = ["bid", "bid_member", "ask", "ask_member", "quantity", "price"]
    return pandas.DataFrame(rows, columns=columns)


def _draw(context: Context, axes: Axes) -> None:
    """The picture of a book, whose ticks are steps between its prices."""
    prices = [context.rows.prices[it] for it in context.uncross.named if it >= 0]
    size, digits = context.rules.tick_size, max(-int(it.as_tuple().exponent) for it in prices)
    step = fractions.Fraction(1, 10 ** max(0, digits))  # else the last digit of the prices
    step = step if size is None else fractions.Fraction(size)

    def named(tick: int) -> str:
        price = fractions.Fraction(prices[0]) + tick * step
        return context.price(Decimal(price.numerator) / Decimal(price.denominator))

    def at(price: Decimal) -> int:
        return int(fractions.Fraction(price - prices[0]) / step)

    book = context.books.copy()
    limits = [None if it is pandas.NA else at(context.named(it)) for it in book["limit"]]
    book["limit"] = pandas.Series(limits, book.index, dtype="Int64")
    plot.book(book, reference=at(context.reference), named=named, ax=axes)
    title = re.sub(r"(?<!,) ", _JOINED, axes.get_title("left").partition("\n")[2])
    axes.set_title("\n".join(textwrap.wrap(title, TITLE)).replace(_JOINED, " "), loc="left")


def _members(orders: pandas.DataFrame) -> Part:
    """What each member entered and traded by the rules, and how much better than its limits."""
    found = members_of(orders)
    if not len(found):
        return "Members", "<p>No order was entered.</p>"
    note = (
        "<p>Bought, sold: lawful shares. Better: how much better than their limits a member's "
        "limit orders traded, in prices times shares.</p>"
    )
    found["better"] = [f"{it:,f}" if it else "0" for it in found["better"]]
    found["member"] = found["member"].where(found["member"] != "", "not recorded")
    caption = f"{counted(len(found), 'member')}: shares entered, bought and sold"
    counts = ("orders", "entered", "bought", "sold")
    return "Members", note + html_table(found, caption, "members", counts)


def _orders(orders: pandas.DataFrame, rules: Rules) -> Part:
    """What became of each order."""
    if not len(orders):
        return "Orders", "<p>No order was entered.</p>"
    listed = orders.drop(columns="better")
    listed["limit"] = _limits(orders["limit"], rules)
    caption = f"{counted(len(orders), 'order')}: {UNIT}; traded: lawful shares"
    counts = ("quantity", "traded", "recorded", "open")
    return "Orders", html_table(listed, caption, "orders", counts)


def _bad_rows(verdict: Verdict) -> Iterator[Part]:
    """The rows that couldn't be read or were refused, and what else was met."""
    if verdict.bad_rows:
        rows = [(row.label, row.why) for row in verdict.bad_rows[:MOST_BAD_ROWS]]
        frame = pandas.DataFrame(rows, columns=["row", "why"])
        caption = f"Bad rows: {len(rows):,} of {len(verdict.bad_rows):,}"
        yield "Bad rows", html_table(frame, caption, "bad-rows")
    if verdict.notes:
        notes = pandas.DataFrame(verdict.notes.items(), columns=["what", "rows"])
        yield "Notes", html_table(notes, "What else was met", "notes")


def _shortened(parts: list[Part]) -> list[Part]:
    """A page's sections, whose times have no digits that none needs, and no date that all have: the
    first section says it.
    """
    texts = [text for part in parts for text in part]
    dates = {found["date"] for text in texts for found in _STAMP.finditer(text)}
    digits = max(
        (len(it["part"].rstrip("0")) for text in texts for it in _CLOCK.finditer(text)), default=0
    )

    def cut(found: "re.Match[str]") -> str:
        clock, part = found["clock"], found["part"].ljust(digits, "0")[:digits]
        return f"{clock}{found[0][len(clock)]}{part}" if digits else clock

    def short(text: str) -> str:
        text = _STAMP.sub("", text) if len(dates) == 1 else text
        return _CLOCK.sub(cut, text)

    found = [(short(head), short(text)) for head, text in parts]
    if len(dates) == 1:
        head, text = found[0]
        found[0] = head, f"{text}<p>All times are of {dates.pop().strip('T- ')}.</p>"
    return found


# ---- many instruments


def write_instruments(
    instruments: InstrumentTable, path: pathlib.Path, title: str, facts: Mapping[str, str],
    watch: Progress,
) -> None:  # fmt: skip
    """Writes the page of a market, and beside it a folder of its name with those of instruments,
    which are linked. `watch` is given the instruments, then the pages. Raises ProgramError and
    OSError.
    """
    dates = instruments.table.dates
    found = sorted(instruments.one_by_one(None, watch),
                   key=lambda each: (ORDER.index(each.word), _in_time(each.name, dates)))
    folder, files = path.with_suffix(""), dict[str, str]()
    names = [each.name for each in found if each.word not in (LAWFUL, FAULT)]
    for name in names:
        files[name] = _file_name(name, {*files.values()})
    for place, name in enumerate(watch(names)):
        folder.mkdir(exist_ok=True)
        beside = {"before": names[place - 1 : place], "next": names[place + 1 : place + 2]}
        pages = {f"All of {title}": f"../{quote(path.name)}"}
        pages |= {f"{word}: {it}": files[it] for word, those in beside.items() for it in those}
        text = html_of(instruments.verdict(name), f"{title}: {name}", iter, facts, pages)
        (folder / files[name]).write_text(text, encoding="utf-8")
    links = {name: f"{quote(folder.name)}/{file}" for name, file in files.items()}
    path.write_text(_market_html(found, title, facts, links, dates), encoding="utf-8")


def _in_time(name: str, dates: str) -> list[tuple[Decimal, str]]:
    """By what names are sorted, which may have several parts: dates by time, above others."""
    found = [(seconds(f"{part} 0:00", dates), part) for part in name.split(",")]
    return [(Decimal("Infinity") if at is None else at, part) for at, part in found]


def _file_name(name: str, taken: set[str]) -> str:
    """A name for the file of an instrument, which no other has."""
    plain = re.sub(r"[^A-Za-z0-9.-]", "_", name).strip(".") or "_"
    found, count = f"{plain}.html", 1
    while found in taken:
        count += 1
        found = f"{plain}-{count}.html"
    return found


def _first_line(each: Audited) -> str:
    """The fault of an instrument, its first finding, or what else leaves it open."""
    open_ = (*each.lines, *each.remarks) if each.word != LAWFUL else ()
    return str(each.fault or each.first or next(iter(open_), ""))


def _market_html(
    found: list[Audited], title: str, facts: Mapping[str, str], links: Mapping[str, str], dates: str
) -> str:
    """The page of instruments, or of days alone, in this order."""
    words = [each.word for each in found]
    counts = ", ".join(f"{words.count(word):,} {word}" for word in ORDER if word in words)
    look = "good" if {*words} == {LAWFUL} else "bad"
    are_days = all(seconds(f"{each.name} 0:00", dates) is not None for each in found)
    noun = "day" if are_days else "instrument"
    text = f'<p class="{look}">{counted(len(found), noun)}: <strong>{counts}</strong>.</p>'
    rows = [
        (each.name or "(none)", each.word, each.findings, each.doubtful, each.bad_rows,
         "{:,} of {:,}".format(*each.coverage.total), _first_line(each))
        for each in found
    ]  # fmt: skip
    frame = pandas.DataFrame(rows, columns=[noun, *LISTED])
    caption = f"{noun.title()}s"
    text += html_table(frame, caption, "instruments", LISTED[1:4], links, len(rows))
    parts = _shortened([("Verdict", text)])
    return html_page(title, [*parts, *evidence_parts(facts)], "desk market")

"""A day as one HTML file that needs no network and no script: see html_of.

It has the audit of a journal, the results and the course of the day, each auction with its reasons,
its picture, its book and its trades, the members, the orders with what became of them, the refused
commands, and the config. All numbers are those that the program prints or the library answers.
"""
import html
from collections.abc import Mapping

import pandas
from matplotlib.figure import Figure

from callauction import plot
from callauction.course import INTERRUPTED, Course, course_of, references_of
from callauction.gains import Gains, gains_of, shown
from callauction.outcomes import members_of, outcomes_of, played
from callauction.pages import (
    BOOKED,
    Section,
    caption_of,
    counted,
    evidence_parts,
    html_image,
    html_page,
    html_table,
    near_price,
    new_figure,
    shown_cell,
)
from callauction.program import DAY_FIELDS, Day
from callauction.progress import Progress
from callauction.reasons import explain
from callauction.tables import audit_of, book_at, books_of, journal_of, trades_of


def html_of(
    day: Day,
    title: str = "A day of call auctions",
    watch: Progress = iter,
    values: Mapping[int, float] | None = None,
    tick_size: object = None,
    facts: Mapping[str, str] = {},
) -> str:
    """The report of an order file or a journal. `watch` is given its steps, such as tqdm.tqdm.
    With `values` it has what the members gained (gains.gains_of), with a `tick_size` its pictures
    have prices; `facts` says what it is of and by. Raises ProgramError, and ValueError for bad
    values or a bad tick size.
    """
    journal, books, trades = journal_of(day), books_of(day), trades_of(day)
    course, arrays = course_of(journal), played(journal)
    commands = [int(command) for command in books["command"].unique()]
    references = references_of(journal, commands)
    parts = [*_audit(day), _result(course, tick_size)]
    for command in watch(commands):
        book = book_at(books, command)
        figure = new_figure()
        reference = references[command]
        plot.book(book, reference=reference, tick_size=tick_size, ax=figure.subplots())
        parts.append(_auction(book, reference, course, trades, figure))
    orders = outcomes_of(arrays)
    parts += [_members(orders), _orders(orders)]
    parts += [] if values is None else [_gains(gains_of(arrays, values))]
    parts += [_refused(journal), _config(journal), *evidence_parts(facts)]
    return html_page(title, parts)


# ---- the sections


def _audit(day: Day) -> list[Section]:
    """Whether the recorded replies are lawful; nothing for an order file."""
    if not day.is_journal():
        return []
    found = audit_of(day)
    counts = found.attrs
    verdict = "legal" if counts["is_legal"] else "not legal"
    text = (
        f'<p class="{"good" if counts["is_legal"] else "bad"}">The record is <strong>{verdict}'
        f"</strong>: of {counts['entries']:,} entries {counts['compared']:,} have a recorded reply,"
        f" and {counts['unlawful']:,} of these differ from the lawful one.</p>"
    )
    if len(found):
        count = "1 reply that isn't lawful"
        if len(found) > 1:
            count = f"{len(found):,} replies that aren't lawful"
        text += html_table(found, count, "audit")
    return [("Audit", text)]


def _result(course: Course, tick_size: object) -> Section:
    """The uncrosses, and the indicative price and volume over the calls."""
    figure = new_figure()
    plot.indicative(course, tick_size=tick_size, ax=figure.subplots())
    count = counted(len(course.uncrosses), "uncross")
    table = html_table(
        course.uncrosses,
        f"{count}: price in ticks, volume and surplus in shares",
        "uncrosses",
        ("volume", "surplus", "trades"),
    )
    text = f"Indicative price and volume over the day, with {count}"
    return "Result", table + html_image(figure, text, "course")


def _auction(
    book: pandas.DataFrame,
    reference: int | None,
    course: Course,
    trades: pandas.DataFrame,
    figure: Figure,
) -> Section:
    """A book: why it has its price, its picture, its table, and the trades that it made."""
    command, auction = int(book["command"].iloc[0]), book["auction"].iloc[0]
    done = course.uncrosses[course.uncrosses["command"] == command]["auction"]
    is_executed = len(done) > 0 and done.iloc[0] != INTERRUPTED
    ending = "uncrossed" if is_executed else "interrupted" if len(done) else "at the end"
    sentences = explain(book, command, reference)
    steps = "".join(f"<li>{html.escape(sentence)}</li>" for sentence in sentences)
    text = f"Demand and supply before command {command}. {' '.join(sentences[-2:])}"
    made = trades[trades["auction"] == auction] if is_executed else trades[:0]
    parts = [
        f"<h3>Why this price</h3><ol>{steps}</ol>",
        html_image(figure, text, f"book {command}"),
        html_table(near_price(book), caption_of(book, "Book"), f"book-{command}", BOOKED),
    ]
    if len(made):
        caption = f"{counted(len(made), 'trade')}: quantity in shares, tick"
        parts.append(html_table(made, caption, f"trades-{command}", ("quantity",)))
    return f"{auction.title()}, command {command}, {ending}", "".join(parts)


def _members(orders: pandas.DataFrame) -> Section:
    """What each member entered and traded, and how much better than its limits."""
    found = members_of(orders)
    if not len(found):
        return "Members", "<p>No order was entered.</p>"
    note = (
        "<p>Better: how much better than their limits a member's limit orders traded, in ticks "
        "times shares.</p>"
    )
    caption = f"{counted(len(found), 'member')}: shares entered, bought and sold"
    counts = ("orders", "entered", "bought", "sold", "better")
    return "Members", note + html_table(found, caption, "members", counts)


def _orders(orders: pandas.DataFrame) -> Section:
    """What became of each order."""
    if not len(orders):
        return "Orders", "<p>No order was entered.</p>"
    kept = ["order", "member", "side", "quantity", "limit", "traded", "open", "became"]
    listed = orders[kept].astype("object")
    listed["limit"] = listed["limit"].where(listed["limit"].notna(), "market")
    caption = f"{counted(len(orders), 'order')}: quantities in shares, limit in ticks"
    return "Orders", html_table(listed, caption, "orders", ("quantity", "traded", "open"))


def _gains(found: Gains) -> Section:
    """What the members gained."""
    caption = f"Gains of {counted(len(found.members), 'member')}, in ticks times shares"
    note = f"<p>The members' {html.escape(str(found))}, in ticks times shares.</p>"
    listed = found.members.assign(gain=found.members["gain"].map(shown))
    return "Gains", note + html_table(listed, caption, "gains", ("bought", "sold"))


def _refused(journal: pandas.DataFrame) -> Section:
    """The commands that the auction refuses."""
    found = journal[journal["lawful"].str.startswith("refused")]
    if not len(found):
        return "Refused commands", "<p>No command was refused.</p>"
    kept = ["entry", "member", "command", "side", "id", "quantity", "limit", "peak", "lawful"]
    caption = counted(len(found), "refused command")
    return "Refused commands", html_table(
        found[kept], caption, "refused", ("quantity", "peak")
    )


def _config(journal: pandas.DataFrame) -> Section:
    """What the day was opened with."""
    texts = {
        "low": "lowest tick",
        "high": "highest tick",
        "reference": "first reference price (ticks)",
        "members": "members",
        "open": "orders that may be open at a time",
        "calls": "commands that may come",
        "range": "ticks from the reference beyond which an uncross is interrupted",
    }
    values = [journal.attrs[name] for name in DAY_FIELDS]
    frame = pandas.DataFrame(
        {"what": texts.values(), "value": [shown_cell(value, "none", True) for value in values]}
    )
    return "Config", html_table(frame, "What the day was opened with", "config")

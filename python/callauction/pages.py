"""The HTML of a report: its page, its tables and its pictures, without network or script."""
import base64
import html
import io
from collections.abc import Iterable, Iterator, Mapping, Sequence

import matplotlib
import numpy
import pandas
from matplotlib.figure import Figure

BOOKED = ("bid", "ask", "demand", "supply", "volume", "surplus")
"""The columns of a book that count shares."""
MOST_ROWS = 300
"""How many rows of a table are shown; its caption says where there are more."""
LOOK = """
:root { color-scheme: light; }
body { font: 1rem/1.5 system-ui, sans-serif; color: #1a1a1a; background: #fff;
  max-width: 54rem; margin: 0 auto; padding: 1rem; }
h1 { font-size: 1.6rem; line-height: 1.2; } h2 { font-size: 1.3rem; margin-top: 2.5rem;
  border-top: 2px solid #1a1a1a; padding-top: .5rem; } h3 { font-size: 1.05rem; }
nav ul { padding: 0; list-style: none; display: flex; flex-wrap: wrap; gap: .25rem 1rem; }
a { color: #00548a; } .desk { max-width: 78rem; } .market { max-width: 112rem; }
.desk p, .desk ol { max-width: 54rem; }
h1, h2, h3, dd { overflow-wrap: anywhere; } .desk td.text { overflow-wrap: break-word; }
.desk tbody > tr > * { vertical-align: top; }
.wide { overflow-x: auto; } .wide:focus-visible { outline: 3px solid #00548a; }
.hint { display: none; font-weight: 400; }
table { border-collapse: collapse; font-variant-numeric: tabular-nums; margin: 1rem 0; }
caption { text-align: left; font-weight: 600; padding-bottom: .3rem; }
caption span { display: inline-block; max-width: calc(100vw - 2.5rem); }
th, td { padding: .2rem .6rem; border-bottom: 1px solid #ccc; text-align: right; }
thead th { border-bottom: 2px solid #1a1a1a; } th { font-weight: 600; }
.text { text-align: left; } tr.price > * { background: #e3f1ea; }
figure { margin: 1rem 0; } img { width: 100%; max-width: 36rem; height: auto; }
.good { border-left: .4rem solid #00735a; padding-left: .6rem; }
.bad { border-left: .4rem solid #b03a00; padding-left: .6rem; }
@media screen and (min-width: 80rem) { .market thead th { white-space: nowrap; } }
@media (max-width: 36rem) { body { padding: .6rem; font-size: .95rem; }
  th, td { padding: .2rem .35rem; font-size: .85rem; } .wide .hint { display: inline; }
  #findings, #doubtful { min-width: 54rem; } }
@page { margin: 1.5cm; }
@media print { body { max-width: none; padding: 0; font-size: 10pt; } nav { display: none; }
  .wide { overflow: visible; } .wide .hint { display: none; }
  th, td { padding: .1rem .3rem; font-size: 8.5pt; } p, li { orphans: 3; widows: 3; }
  figure, tr, ol, .good, .bad, .short { break-inside: avoid; }
  h2, h3, caption, thead, h2 + p { break-after: avoid; }
  .long tbody tr:nth-child(-n+3) { break-after: avoid; }
  .long tbody tr:nth-last-child(-n+3) { break-before: avoid; }
  thead { display: table-header-group; } img { max-width: 13cm; } }
"""
MOST_SHORT = 15
"""A table of no more rows isn't parted on paper."""
NARROW = 44
"""How many letters a telephone shows side by side."""
SCROLLS = " (scrolls sideways)"
FIRST = " (the first {} of {})"
"""What a caption says of a table of which as many rows are shown."""
SIZE = (5.0, 4.2)
"""The inches of a picture, whose texts are still readable on a telephone."""
Section = tuple[str, str]
"""A section of a page: its heading and its HTML."""


def shown_cell(value: object, missing: str = "", is_count: bool = False) -> str:
    """A cell, as the program prints it; of a count of shares with its thousands parted."""
    if value is None or value is pandas.NA:
        return missing
    if is_count and isinstance(value, int | float | numpy.integer):
        return f"{value:,}" if isinstance(value, int | numpy.integer) else f"{value:,.10g}"
    return str(value)


def counted(count: int, name: str) -> str:
    """A count with its noun, such as `1 uncross` and `3 trades`."""
    ending = "es" if name.endswith("s") else "s"
    return f"{count:,} {name}{ending * (count != 1)}"


def caption_of(
    rows: pandas.DataFrame, name: str, unit: str = "limits in ticks, quantities in shares"
) -> str:
    """The caption of a book with its count of limits, which says where not all are shown."""
    limits = counted(int(rows["limit"].notna().sum()), "limit")
    more = "" if len(rows) <= MOST_ROWS else f"; the {MOST_ROWS} rows nearest to the price"
    return f"{name} of {limits}: {unit}{more}"


def near_price(book: pandas.DataFrame) -> pandas.DataFrame:
    """The market orders and the rows nearest to the price, or to where demand and supply part; with
    words for what is missing. The rule's column is headed `price`, as the program heads it.
    """
    levels = book[1:]
    priced = levels.index[levels["rule"] != ""]
    centers = priced if len(priced) else levels.index[levels["demand"] >= levels["supply"]]
    center = centers[0] if len(centers) else 1
    first = max(1, min(center - MOST_ROWS // 2, len(book) - MOST_ROWS + 1))
    shown = pandas.concat([book[:1], book[first : first + MOST_ROWS - 1]])
    shown = shown.drop(columns=["command", "auction"]).rename(columns={"rule": "price"})
    shown = shown.astype("object")
    shown["limit"] = shown["limit"].where(shown["limit"].notna(), "market")
    return shown


def html_table(
    frame: pandas.DataFrame, caption: str, name: str, counts: Iterable[str] = (),
    links: Mapping[str, str] = {}, most: int = MOST_ROWS,
) -> str:  # fmt: skip
    """A table with a caption, whose first column heads its rows; in the columns `counts` thousands
    are parted, first cells are links by `links`, and `most` rows are shown. A wide one scrolls, and
    says so on a narrow screen; a short one is kept on one page of paper.
    """
    more = FIRST.format(f"{most:,}", f"{len(frame):,}") if len(frame) > most else ""
    columns = [str(column) for column in frame.columns]
    kinds = [_kind(frame[name]) for name in frame]
    heads = "".join(f'<th scope="col"{kind}>{name}</th>' for name, kind in zip(columns, kinds))
    counted = [column in {*counts} for column in columns]
    texts = [
        [shown_cell(value, "", is_count) for value, is_count in zip(row, counted)]
        for row in frame[:most].itertuples(index=False)
    ]
    rows = "".join(_row(columns, kinds, row, links.get(row[0], "")) for row in texts)
    label = html.escape(caption + more)
    hint = f'<span class="hint">{SCROLLS}</span>' if _width(columns, texts) > NARROW else ""
    look = "wide short" if len(texts) <= MOST_SHORT else "wide long"
    return (
        f'<div class="{look}" role="region" tabindex="0" aria-label="{label}"><table id="{name}">'
        f"<caption><span>{label}{hint}</span></caption><thead><tr>{heads}</tr></thead>"
        f"<tbody>{rows}</tbody></table></div>"
    )


def _kind(column: "pandas.Series") -> str:
    """The class of a column: words go to the left, numbers to the right."""
    texts = {value for value in column if isinstance(value, str)} - {"", "market", "none"}
    return "" if all(text.replace(".", "", 1).isdigit() for text in texts) else ' class="text"'


def _width(columns: Sequence[str], rows: Sequence[Sequence[str]]) -> int:
    """How wide a table is at least, in letters, with the room between its columns: a cell may be
    parted between its words.
    """
    longest = [
        max(len(word) for cell in column for word in cell.split() or [""])
        for column in zip(columns, *rows)
    ]
    return sum(longest) + 2 * len(longest)


def _row(columns: Sequence[str], kinds: Sequence[str], row: Sequence[str], link: str) -> str:
    """A row, which is marked where it is the auction price's."""
    first, *others = (html.escape(cell) for cell in row)
    first = f'<a href="{html.escape(link)}">{first}</a>' if link else first
    is_price = "best" in columns and others[-1] != ""
    cells = "".join(f"<td{kind}>{value}</td>" for kind, value in zip(kinds[1:], others))
    opening = '<tr class="price">' if is_price else "<tr>"
    return f'{opening}<th scope="row"{kinds[0]}>{first}</th>{cells}</tr>'


def new_figure() -> Figure:
    """An empty picture of a page, of SIZE inches."""
    return Figure(figsize=SIZE, layout="constrained")


def html_image(figure: Figure, text: str, name: str) -> str:
    """A picture as SVG within the page, with a text for those who don't see it."""
    file = io.StringIO()
    with matplotlib.rc_context({"svg.hashsalt": name}):
        figure.savefig(file, format="svg", metadata={"Date": None})
    code = base64.b64encode(file.getvalue().encode("utf-8")).decode("ascii")
    source = f"data:image/svg+xml;base64,{code}"
    return f'<figure><img alt="{html.escape(text)}" src="{source}"></figure>'


def html_page(
    title: str, parts: list[Section], look: str = "", pages: Mapping[str, str] = {}
) -> str:
    """The page of sections, each with its heading; `look` is the classes of the body, `pages` has
    the links of other pages by their texts.
    """
    others = "".join(
        f'<li><a href="{html.escape(link)}">{html.escape(text)}</a></li>'
        for text, link in pages.items()
    )
    others = f'<nav aria-label="Pages"><ul>{others}</ul></nav>\n' if others else ""
    kind = f' class="{look}"' if look else ""
    links = "".join(
        f'<li><a href="#part-{place}">{html.escape(head)}</a></li>'
        for place, (head, _) in enumerate(parts, 1)
    )
    sections = "".join(
        f'<section aria-labelledby="part-{place}"><h2 id="part-{place}">{html.escape(head)}</h2>'
        f"{text}</section>\n"
        for place, (head, text) in enumerate(parts, 1)
    )
    return (
        '<!DOCTYPE html>\n<html lang="en">\n<head>\n<meta charset="utf-8">\n'
        '<meta name="viewport" content="width=device-width, initial-scale=1">\n'
        f"<title>{html.escape(title)}</title>\n<style>{LOOK}</style>\n</head>\n"
        f"<body{kind}>\n<header>{others}<h1>{html.escape(title)}</h1>\n"
        f'<nav aria-label="Sections"><ul>{links}</ul></nav></header>\n<main>\n{sections}</main>\n'
        "</body>\n</html>\n"
    )


def evidence_parts(facts: Mapping[str, str]) -> Iterator[Section]:
    """What a page is of and by."""
    if facts:
        lines = (f"<dt>{name}</dt><dd>{html.escape(it)}</dd>" for name, it in facts.items())
        yield "Evidence", f"<dl>{''.join(lines)}</dl>"

"""The report of an extract: the verdict and the findings first, each with its rule and queue."""
import html
import re
from decimal import Decimal
from pathlib import Path
from urllib.parse import unquote

import pandas
import pytest
from callauction.__main__ import main
from callauction.verdict import page
from callauction.verdict.orders import members_of
from judging import frame_of, judged

from extracts import TOP, Rows, random_day
from small_days import small_day, verdict_of

EXTRACT = TOP / "examples/extracts/german.csv"


def sections(text: str) -> list[str]:
    return [html.unescape(it) for it in re.findall(r'<h2 id="part-\d+">([^<]*)</h2>', text)]


def test_the_verdict_and_the_findings_come_first(tmp_path: Path) -> None:
    words = EXTRACT.with_suffix(".args").read_text(encoding="utf-8").split()
    path = tmp_path / "day.html"
    assert main(["report", str(EXTRACT), *words, "-o", str(path)]) == 0
    text = path.read_text(encoding="utf-8")
    assert sections(text) == [
        "Verdict",
        "Findings",
        "Opening, uncrossed, row 9, 09:00:00,000",
        "Members",
        "Orders",
        "Evidence",
    ]
    first = text.index("Finding 1: trade, row 10, 09:00:00,000, opening</h3>")
    assert text.index('<a href="#finding-1">10</a>') < first
    assert "<strong>unlawful</strong>: 1 finding. Compared: prices 1 of 1, " in text[:first]
    rule = "A17 entered 08:50:01,123 stands before C3 entered 08:50:02,400 at 20.02"
    assert rule in text[:first] and rule in text[first:]
    [queue] = re.findall(r'<table id="queue-1-table">.*?</table>', text, re.S)
    for cells in (("bid", "1", "A17", "Adler"), ("ask", "1", "B4", "Birk")):
        assert all(f">{cell}<" in queue for cell in cells)
    assert ">market<" in queue and ">20.02<" in queue
    assert "<script" not in text and "http" not in text


def cells_of(text: str, name: str) -> list[list[str]]:
    """The rows of a table without its head."""
    [table] = re.findall(rf'<table id="{name}">.*?</table>', text, re.S)
    rows = re.findall(r"<tr[^>]*>(.*?)</tr>", table, re.S)[1:]
    return [[html.unescape(it) for it in re.findall(r"<t[hd][^>]*>([^<]*)<", row)] for row in rows]


def test_members_and_orders_have_what_is_lawful_beside_what_is_recorded(tmp_path: Path) -> None:
    words = EXTRACT.with_suffix(".args").read_text(encoding="utf-8").split()
    path = tmp_path / "day.html"
    assert main(["report", str(EXTRACT), *words, "-o", str(path)]) == 0
    text = path.read_text(encoding="utf-8")
    assert cells_of(text, "orders") == [
        ["A17", "Adler", "bid", "1,200", "20.02", "1,000", "0", "0", "executed"],
        ["C3", "Cohn", "bid", "1,000", "20.02", "0", "1,000", "1,000", "left"],
        ["B4", "Birk", "ask", "1,000", "market", "1,000", "1,000", "0", "executed"],
        ["G6", "Dorn", "ask", "500", "20.03", "0", "0", "500", "deleted"],
        ["E2", "Ehrl", "bid", "300", "20.00", "0", "0", "300", "left"],
    ]
    assert cells_of(text, "members")[:2] == [
        ["Adler", "1", "1,200", "1,000", "0", "0"],
        ["Birk", "1", "1,000", "0", "1,000", "0"],
    ]


class Tracked:
    """An order by the rows of an extract alone."""

    def __init__(self, row: dict[str, str]) -> None:
        self.left = self.entered = int(row["quantity"])
        self.is_bid, self.limit = row["side"] == "bid", row.get("price")
        self.member, self.only = row["member"], row.get("restriction", "")
        self.traded, self.better, self.became = 0, Decimal(0), ""

    def trade(self, shares: int, price: Decimal) -> None:
        self.traded += shares
        self.left -= shares
        if self.limit:
            gap = Decimal(self.limit) - price
            self.better += shares * (gap if self.is_bid else -gap)
        if not self.left:
            self.became = "executed"


def tracked(rows: Rows) -> dict[str, Tracked]:
    """The orders of a day, by the rows of a lawful extract in their order."""
    found: dict[str, Tracked] = {}
    ended = ""
    for row in [*rows, {"event": "uncross"}]:
        if row["event"] not in ("trade", "fill"):
            for order in found.values():
                if not order.became and ended and ended == order.only:
                    order.became = "lapsed"
            ended = ""
        match row["event"]:
            case "new":
                found[row["order"]] = Tracked(row)
            case "replace":
                order = found[row["order"]]
                order.left, order.limit = int(row["quantity"]), row.get("price")
            case "cancel":
                order = found[row["order"]]
                if row.get("quantity"):
                    order.left -= int(row["quantity"])
                else:
                    order.became = "deleted"
            case "uncross":
                ended = row.get("auction", "")
            case "trade":
                for side in ("bid", "ask"):
                    found[row[side]].trade(int(row["quantity"]), Decimal(row["price"]))
    return found


@pytest.mark.parametrize("seed", range(60))
def test_orders_and_members_of_random_days_are_those_of_their_rows(seed: int) -> None:
    extract = random_day(seed, most=25)
    orders = judged(extract).orders()
    expected = tracked(extract.rows)
    assert [*orders["order"]] == [*expected]
    for row in orders.itertuples():
        order = expected[row.order]
        assert (row.quantity, row.traded, row.open) == (order.entered, order.traded, order.left)
        assert row.became == (order.became or "left"), row
        assert row.better == (order.better if order.limit else None)
        assert row.recorded is pandas.NA or row.recorded == order.traded
    for row in members_of(orders).itertuples():
        those = [order for order in expected.values() if order.member == row.member]
        assert row.orders == len(those) and row.entered == sum(it.entered for it in those)
        assert row.bought == sum(it.traded for it in those if it.is_bid)
        assert row.sold == sum(it.traded for it in those if not it.is_bid)
        assert row.better == sum(it.better for it in those if it.limit)


def test_orders_behind_the_last_uncross_are_open() -> None:
    rows = small_day()[:8]
    rows.append(dict(event="cancel", order="B2", quantity=20, time="17:31:00"))
    found = verdict_of(rows).orders()
    last = found[found["order"] == "B2"]
    assert last[["quantity", "open", "became"]].values.tolist() == [[860, 840, "open"]]


def test_members_and_prices_are_those_of_the_extract() -> None:
    rows = small_day()
    text = page.html_of(verdict_of(rows), "day")
    assert "<strong>lawful</strong>: 0 findings" in text
    [trades] = re.findall(r'<table id="trades-closing-94">.*?</table>', text, re.S)
    assert trades.count("<tr") == 87 and ">member of S88<" in trades and ">10.00<" in trades
    [book] = re.findall(r'<table id="book-closing-94">.*?</table>', text, re.S)
    assert '<tr class="price"><th scope="row">10.00</th>' in book
    assert len(sections(text)) == 6


@pytest.mark.parametrize("seed", range(5))
def test_random_days_have_a_section_for_each_uncross(seed: int) -> None:
    extract = random_day(seed)
    verdict = judged(extract)
    text = page.html_of(verdict, "<day>")
    assert len(sections(text)) == 3 + len(extract.lawful) and "&lt;day&gt;" in text
    assert text.count("<img ") == len(extract.lawful)


def test_bad_rows_and_notes_are_told() -> None:
    rows = small_day()
    rows.insert(2, dict(event="new", order="X", side="long", quantity=1, time="08:50:01"))
    rows.append(dict(event="cancel", order="S4", time="17:40:00"))
    text = page.html_of(verdict_of(rows), "day")
    assert "is none of bid, buy, ask, sell" in html.unescape(text)
    assert sections(text)[-2:] == ["Bad rows", "Notes"]
    assert "Rows that couldn't be read or were refused: 1." in html.unescape(text)
    assert len(frame_of(rows)) == len(rows)


def test_the_first_line_counts_doubtful_findings_too() -> None:
    """An order that can't be read leaves a wrong surplus in doubt."""
    rows = small_day()
    rows.insert(0, dict(event="new", order="X", side="long", quantity=1, time="08:50:00"))
    wrong = next(row for row in rows if row["event"] == "uncross")
    wrong["surplus"] = int(wrong["surplus"]) + 1
    text = html.unescape(page.html_of(verdict_of(rows), "day"))
    assert "<strong>incomplete</strong>: 1 doubtful finding. Compared: " in text


def test_times_are_as_short_as_they_can_be() -> None:
    """All are of one day and in whole milliseconds."""
    rows = small_day()
    for row in rows:
        row["time"] = f"2026-11-27T{row['time']}.120000"
    text = html.unescape(page.html_of(verdict_of(rows), "day"))
    assert "All times are of 2026-11-27." in text
    assert "T08:" not in text and ".120000" not in text and "row 3, 09:00:00.12<" in text
    rows[0]["time"] = "2026-11-26T09:00:00.123400"
    rows[4]["quantity"] += 1
    text = page.html_of(verdict_of(rows), "day")
    assert "All times are of" not in text and "2026-11-27T" in text and "2026-11-26T" in text


def test_times_of_a_market_are_as_short_too(tmp_path: Path) -> None:
    rows = [dict(row, isin="DE1", time=f"2026-11-27T{row['time']}.120000") for row in small_day()]
    rows[4]["quantity"] += 1
    frame_of(rows).to_csv(tmp_path / "day.csv", index=False)
    path = tmp_path / "market.html"
    words = ["report", str(tmp_path / "day.csv"), "--by", "isin", "--reference", "10.00"]
    assert main([*words, "--tick-size", "0.01", "-o", str(path)]) == 0
    text = path.read_text(encoding="utf-8")
    assert "All times are of 2026-11-27." in text and "row 6, 09:00:00.12," in text


def test_many_findings_are_below_the_verdict() -> None:
    rows = small_day()
    for row in rows:
        row["price"] = "10" if row.get("price") else ""
    for row in [it for it in rows if it["event"] == "trade"][::2]:
        row["quantity"] = int(row["quantity"]) + 1
    verdict = verdict_of(rows, reference="10")
    assert len(verdict.findings) > page.MOST_FIRST
    text = page.html_of(verdict, "day")
    assert f"{len(verdict.findings)} findings: the first 12, all are below<" in text
    links = re.findall(r'<a href="#part-', text[: text.index("<main>")])
    assert len(links) == len(sections(text)) == 8
    assert sections(text)[-1] == "Notes"  # no column has restrictions
    assert text.count('<h3 id="finding-') == min(len(verdict.findings), page.MOST_EXPLAINED)
    assert {cells[6] for cells in cells_of(text, "queue-1-table")} == {"10.00"}


def test_a_market_has_one_page_with_links(tmp_path: Path) -> None:
    """The unlawful instrument comes first and has a page; the lawful one has none."""
    rows = [dict(row, isin=name) for row in small_day() for name in ("DE 1", "DE2")]
    wrong = next(row for row in rows if row["event"] == "uncross" and row["isin"] == "DE2")
    wrong["surplus"] = int(wrong["surplus"]) + 1
    frame_of(rows).to_csv(tmp_path / "day.csv", index=False)
    (tmp_path / "days.csv").write_text(
        "isin,reference,tick_size\nDE 1,10.00,0.01\nDE2,10.00,0.01\nDE3,1,1\n"
    )
    path = tmp_path / "market.html"
    words = ["report", str(tmp_path / "day.csv"), "--by", "isin", "--days"]
    assert main([*words, str(tmp_path / "days.csv"), "-o", str(path)]) == 0
    text = path.read_text(encoding="utf-8")
    names = [cells[0] for cells in cells_of(text, "instruments")]
    assert '<a href="market/DE2.html">DE2</a>' in text and text.count("<a href=") == 3
    assert [it.name for it in (tmp_path / "market").iterdir()] == ["DE2.html"]
    assert "1 unlawful, 1 fault, 1 lawful" in text
    own = (tmp_path / "market/DE2.html").read_text(encoding="utf-8")
    assert "<strong>unlawful</strong>: 1 finding." in own
    assert '<a href="../market.html">All of day.csv</a>' in own
    assert names[1:] == ["DE3", "DE 1"]


def test_pages_of_instruments_have_links_to_one_another(tmp_path: Path) -> None:
    """In the order of the market's page; two names that make one file have two."""
    names = ["A/1", "A 1", "B"]
    rows = [dict(row, isin=name) for row in small_day() for name in names]
    for row in rows:
        if "surplus" in row:
            row["surplus"] = int(row["surplus"]) + 1
    frame_of(rows).to_csv(tmp_path / "day.csv", index=False)
    path = tmp_path / "the market.html"
    words = ["report", str(tmp_path / "day.csv"), "--by", "isin", "--reference", "10.00"]
    assert main([*words, "--tick-size", "0.01", "-o", str(path)]) == 0
    links = re.findall('href="(the%20market/[^"]*)"', path.read_text(encoding="utf-8"))
    assert links == [f"the%20market/{it}.html" for it in ("A_1", "A_1-2", "B")]
    pages = [(tmp_path / unquote(it)).read_text(encoding="utf-8") for it in links]
    found = [re.findall('<li><a href="([^#"]*)">([^<]*)</a>', text) for text in pages]
    up = ("../the%20market.html", "All of day.csv")
    assert found[0] == [up, ("A_1-2.html", "next: A/1")]
    assert found[1] == [up, ("A_1.html", "before: A 1"), ("B.html", "next: B")]
    assert found[2] == [up, ("A_1-2.html", "before: A/1")]


def test_days_are_listed_in_time_and_named_so(tmp_path: Path) -> None:
    days = ["01.02.2026", "01.03.2026", "02.02.2026", "26.01.2026"]
    rows = [dict(row, day=day) for day in days for row in small_day()]
    frame_of(rows).to_csv(tmp_path / "days.csv", index=False)
    path = tmp_path / "market.html"
    words = ["report", str(tmp_path / "days.csv"), "--by", "day", "--reference", "10.00"]
    assert main([*words, "--tick-size", "0.01", "-o", str(path)]) == 0
    text = path.read_text(encoding="utf-8")
    names = [cells[0] for cells in cells_of(text, "instruments")]
    assert names == ["26.01.2026", "01.02.2026", "02.02.2026", "01.03.2026"]
    assert ">4 days: <strong>4 lawful</strong>" in text and "instruments:" not in text


def test_a_queue_of_which_a_part_is_shown_says_so() -> None:
    """The first of 12 bids is passed over for the second; five more are shown on each side of
    both.
    """
    own = dict(event="new", price="10.00", quantity="5")
    rows: Rows = [
        dict(own, order=f"B{at}", side="bid", time=f"8:{at}:00") for at in range(10, 22)
    ]
    made = dict(price="10.00", quantity="5", auction="opening", time="9:00:00")
    rows += [
        dict(own, order="S", side="ask", time="8:30:00"),
        dict(event="uncross", **made, side="bid", surplus="55", trades="1"),
        dict(event="trade", **made, bid="B11", ask="S"),
    ]
    text = page.html_of(verdict_of(rows, reference="10", auctions=["opening"]), "day")
    captions = re.findall(r"<caption><span>(The queue[^<]*)<", text)
    assert captions == [
        "The queue: open before the uncross, recorded and lawful shares; 7 of 12 bids are here"
    ]
    assert len(cells_of(text, "queue-1-table")) == 7 + 1

"""Rows that are missing in a sequence: what they may be leaves a doubt, and no more than that."""
import random
from collections.abc import Callable
from pathlib import Path

import numpy
import pandas
import pytest
from callauction.__main__ import main
from callauction.verdict import (
    Reading, audit_auction, audit_events, audit_instruments, column_words,
)
from callauction.verdict.cells import frame_source
from damage import busted, places, timed_day
from desk import TRADE, UNCROSS, audited, base_day, text_of
from extracts import Extract, Rows
from judging import frame_of, judged
from lines import untimed_rows

Printed = pytest.CaptureFixture[str]


def numbered(rows: Rows) -> Rows:
    for number, row in enumerate(rows, 1):
        row["sequence"] = str(number)
    return rows


def without(rows: Rows, *those: int) -> Rows:
    """The rows with their numbers but for some."""
    return [row for at, row in enumerate(numbered(rows)) if at not in those]


@pytest.mark.parametrize("many", [1, 2, 5])
@pytest.mark.parametrize("is_one", [True, False])
@pytest.mark.parametrize("has_busts", [True, False])
def test_a_lawful_day_of_which_rows_are_missing_is_never_unlawful(
    many: int, is_one: bool, has_busts: bool
) -> None:
    doubtful = 0
    for seed in range(30):
        extract, chance = timed_day(seed), random.Random(seed)
        if has_busts:
            busted(chance, extract.rows)
            busted(chance, extract.rows)
        count = len(extract.rows)
        begin = chance.randrange(1, count - many - 1)
        those = range(begin, begin + many) if is_one else chance.sample(range(1, count - 1), many)
        extract.rows[:] = without(extract.rows, *those)
        if has_busts and not places(extract.rows, "bust"):
            continue  # nothing says that trades may be taken out
        verdict = judged(extract)
        assert verdict.word != "unlawful", f"{seed} {[*those]}\n{verdict}"
        doubtful += any("of the sequence" in it.doubt for it in verdict.doubtful)
    assert doubtful > 3


@pytest.mark.parametrize("each, status", [(10**6, 5), (5, 0)])
def test_a_number_that_is_missing_is_a_row_where_few_are(
    each: int, status: int, tmp_path: Path, capsys: Printed
) -> None:
    """One number of a day that lacks none else was a row's, which isn't known; where many are
    missing they were another system's.
    """
    rows = numbered([dict(row) for row in base_day().rows])
    middle = len(rows) // 2
    for at, row in enumerate(rows):
        row["sequence"] = str(int(row["sequence"]) + (at >= middle) + at // each)
    found = tmp_path / "found.csv"
    assert audited(text_of(rows), ["--findings", str(found)], tmp_path) == status
    printed = capsys.readouterr()
    assert "(are rows missing?)" in printed.err and "findings 0\n" in printed.out
    said = f"no row has the number {middle + int(rows[0]['sequence'])} of the sequence"
    assert (said in printed.err) == (said in found.read_text()) == (status == 5)


def test_a_gap_of_one_instrument_leaves_its_day_incomplete() -> None:
    """Where a sequence is theirs together the row may have been of either."""
    for is_shared in (False, True):
        rows, days = of_two(7, is_shared)
        mine = [at for at, row in enumerate(rows) if row["isin"] == "DE1"]
        left = [row for at, row in enumerate(rows) if at != mine[len(mine) // 2]]
        found = audit_instruments(frame_of(left), "isin", days=days)
        words = {row.instrument: row.verdict for row in found.itertuples()}
        assert words == {"DE1": "incomplete", "DE2": "incomplete" if is_shared else "lawful"}


def of_two(seed: int, is_shared: bool) -> tuple[Rows, pandas.DataFrame]:
    """The rows of two instruments, one by one, numbered together or each by itself; and what their
    days were opened with.
    """
    days = {"DE1": timed_day(seed), "DE2": timed_day(seed + 1000)}
    parts = {name: [dict(row, isin=name) for row in day.rows] for name, day in days.items()}
    longest = max(map(len, parts.values()))
    rows = [row for at in range(longest) for part in parts.values() for row in part[at : at + 1]]
    for those in [rows] if is_shared else parts.values():
        numbered(those)
    terms = [(name, day.reference, day.range or "", "0.01") for name, day in days.items()]
    return rows, pandas.DataFrame(terms, columns=["isin", "reference", "range", "tick_size"])


@pytest.mark.parametrize("is_shared", [True, False])
@pytest.mark.parametrize("many", [1, 3])
def test_rows_that_instruments_lack_leave_them_in_doubt(many: int, is_shared: bool) -> None:
    """A number that two instruments share may have been of either; else each has its own."""
    is_doubtful = {True: 0, False: 0}
    for seed in range(25):
        chance = random.Random(seed)
        rows, days = of_two(seed, is_shared)
        own = [at for at, row in enumerate(rows) if row["isin"] == "DE1"]
        those = chance.sample(own[:-1], many)  # of the last row nothing says that it is missing
        left = [row for at, row in enumerate(rows) if at not in those]
        found = audit_instruments(frame_of(left), "isin", days=days)
        assert "unlawful" not in [*found["verdict"]], f"{seed} {those}\n{found.to_string()}"
        lacking = found[found["doubtful"].fillna(0) > 0]["instrument"]
        is_doubtful[True] += "DE1" in [*lacking]
        is_doubtful[False] += "DE2" in [*lacking]
    assert is_doubtful[True] > 2 and not is_doubtful[False]


@pytest.mark.parametrize("is_shared", [True, False])
def test_a_number_of_another_instrument_is_no_hole(is_shared: bool) -> None:
    """A wrong volume stays certain where nothing is missing; beside a number that may have been of
    this instrument it is in doubt, beside one that was the other's it isn't.
    """
    rows, days = of_two(7, is_shared)
    ends = [at for at, row in enumerate(rows) if row["event"] == UNCROSS and row["isin"] == "DE2"]
    rows[ends[1]]["surplus"] = str(int(rows[ends[1]]["surplus"] or 0) + 1)

    def word(*missing: int) -> object:
        left = [row for at, row in enumerate(rows) if at not in missing]
        found = audit_instruments(frame_of(left), "isin", days=days)
        return {row.instrument: row.verdict for row in found.itertuples()}["DE2"]

    orders = [at for at, row in enumerate(rows[: ends[0]]) if row["event"] in ("replace", "new")]
    other = next(at for at in orders[3:] if rows[at]["isin"] == "DE1")
    assert word() == "unlawful"
    assert word(other) == ("incomplete" if is_shared else "unlawful")


def with_wrong_volume(extract: Extract, number: int) -> Rows:
    rows = [dict(row) for row in extract.rows]
    row = rows[places(rows, UNCROSS)[number]]
    row["quantity"] = str(int(row["quantity"]) + 1)
    return rows


def test_what_is_above_a_hole_is_certain(tmp_path: Path) -> None:
    """With trades, which don't add up to the wrong volume, it is certain below the hole too, but
    for the last auction, whose trades may be cut off.
    """
    ends = places(base_day().rows, UNCROSS)
    changes = places(base_day().rows, "replace", "cancel")
    hole = next(at for at in changes if ends[0] < at < ends[1])
    for number in range(2):
        rows = without(with_wrong_volume(base_day(), number), hole)
        assert audited(text_of(rows), [], tmp_path) == 4
        untraded = [row for row in with_wrong_volume(base_day(), number) if row["event"] != TRADE]
        left = without(untraded, untraded.index(base_day().rows[hole]))
        assert audited(text_of(left), [], tmp_path) == (4 if number == 0 else 5)


DAY = """new A bid 100 10.00
new B bid 100 10.00
new C bid 100 10.00
new S ask 200 10.00
uncross 10.00 200 100
trade A S 100 10.00
trade B S 100 10.00"""


def opening(text: str, *missing: int) -> str:
    """The word of a day without some of its rows, from 1."""
    rows = without(untimed_rows(text), *(number - 1 for number in missing))
    verdict = audit_events(
        frame_of(rows), reference="10", tick_size="0.01", auctions=["opening"]
    )
    return verdict.word


@pytest.mark.parametrize("change", [
    lambda text: text.replace("trade B S 100 10.00", "trade B S 100 10.01"),
    lambda text: text.replace("trade B S 100", "trade B S 90"),
    lambda text: text.replace("trade B S 100", "trade B S 110"),
    lambda text: text.replace("new C bid 100 10.00", "new C bid 100 9.99").replace(
        "trade B S", "trade C S"),
])
def test_what_no_missing_order_explains_is_certain(change: Callable[[str], str]) -> None:
    """Two prices, shares unequal to the volume, and a trade beyond its order's limit: the row that
    is missing is above the order.
    """
    assert opening(DAY) == "incomplete" and opening(DAY, 2) == "incomplete"
    wrong = change(DAY).replace("\nnew B", "\nnew X bid 10 9.00\nnew B")
    assert opening(wrong, 2) == "unlawful"


@pytest.mark.parametrize("event", ["new S2 ask 100 10.00", "replace C bid 100 10.02", "cancel A"])
def test_orders_that_may_be_missing_leave_a_doubt(event: str) -> None:
    """With the missing row, whatever it is, C trades lawfully in the place of A or B."""
    wrong = DAY.replace("trade A S", "trade C S").replace("\nnew S", f"\n{event}\nnew S")
    assert opening(wrong.replace(f"\n{event}", "")) == "unlawful"
    assert opening(wrong, 4) == "incomplete"


def test_a_trade_that_may_be_missing_is_one_of_its_auction() -> None:
    text = DAY + """
new D bid 50 10.00
new T ask 50 10.00
uncross 10.00 50 100
trade C T 50 10.00"""
    rows = untimed_rows(text)
    for place, row in enumerate(rows):
        row |= {} if row["event"] == "new" else {"auction": "opening" if place < 7 else "closing"}
    for missing, word in ((5, "unlawful"), (6, "incomplete")):  # row 6 may have been an order
        left = without([dict(it) for it in rows], missing)
        terms = dict(reference="10", tick_size="0.01", auctions=["opening", "closing"])
        assert audit_events(frame_of(left), **terms).word == "incomplete"  # type: ignore[arg-type]
        del left[-1]
        assert audit_events(frame_of(left), **terms).word == word  # type: ignore[arg-type]


def test_books_of_many_auctions_have_some_numbers_of_a_sequence(tmp_path: Path) -> None:
    book, published = tmp_path / "book.csv", tmp_path / "published.csv"
    book.write_text("id,order,side,price,quantity,sequence\n" + "".join(
        f"{name},{order},{side},10.00,100,{number}\n"
        for name in ("X", "Y")
        for order, side, number in (("A", "bid", 1), ("B", "bid", 3), ("S", "ask", 4))
    ))  # fmt: skip
    header = "id,price,quantity,surplus,side"
    published.write_text(f"{header}\nX,10.00,100,100,bid\nY,10.00,100,90,bid\n")
    words = ["audit-auction", str(book), "--published", str(published), "--by", "id"]
    assert main([*words, "--reference", "10", "--tick-size", "0.01"]) == 4


def test_the_orders_of_a_book_have_some_numbers_of_a_sequence() -> None:
    """Those between were of orders that aren't open any more."""
    book = pandas.DataFrame({
        "order": ["A", "B", "S"], "side": ["bid", "bid", "ask"], "price": ["10.00"] * 3,
        "quantity": [100, 100, 100], "sequence": [1, 3, 5],
    })  # fmt: skip
    for surplus, word in ((100, "incomplete"), (90, "unlawful")):
        published = {"price": "10.00", "volume": 100, "surplus": surplus}
        assert audit_auction(book, published, reference="10", tick_size="0.01").word == word


# ---- how a sequence is read


@pytest.mark.parametrize("texts", [
    ["1", "2", "3"], ["7", "", "007", " 12 ", "0"], ["", "", ""], ["1", "1", "999999999999999999"],
    [],
])
def test_whole_numbers_of_a_sequence_are_read_without_their_texts(
    texts: list[str], monkeypatch: pytest.MonkeyPatch
) -> None:
    """As they are read by their texts, which takes thrice the time of all else."""
    source = frame_source(pandas.DataFrame({"n": texts}, dtype=str))
    slow, quick = (column_words.Columns(source, {"sequence": "n"}, Reading()) for _ in range(2))
    slow.__dict__["_whole_sequences"] = None
    due = slow.sequence(), slow.row_numbers()
    monkeypatch.delattr(column_words.Columns, "_counted")
    for one, other in zip(due, (quick.sequence(), quick.row_numbers())):
        assert (one is None) == (other is None)
        assert one is None or other is None or numpy.array_equal(one, other)


@pytest.mark.parametrize("text", ["S1", "1.0", "1" * 19, "09:00:00", "-1", "\u0661"])
def test_other_numbers_of_a_sequence_are_read_by_their_texts(text: str) -> None:
    source = frame_source(pandas.DataFrame({"n": ["1", text]}))
    assert source.cells("n").numbers() is None

"""Records of other systems as journals: exact prices, maps back, errors by row; and a fuzz."""
import datetime
import math
from decimal import Decimal
from typing import Any

import callauction as words
import numpy
import pandas
import pytest
from callauction.frame_cells import FrameError
from callauction.frame_rows import EVENTS
from callauction.journal import Journal, from_frame
from callauction.prices import BadCellError, decimal_of, grid_of, whole_of
from callauction.program import Day
from callauction.recording import RecordedAuction
from callauction.tables import books_of, journal_of
from days import auctions, commands
from hypothesis import given, settings, strategies
from printed import TOP
from small_days import ADLER_AND_BIRK


def adler_and_birk(**changes: dict[int, Any]) -> pandas.DataFrame:
    """That record with other cells: by column and row."""
    frame = ADLER_AND_BIRK.astype("object").copy()
    for column, cells in changes.items():
        for row, value in cells.items():
            frame.loc[row, column] = value
    return frame


def converted(frame: pandas.DataFrame, **options: Any) -> Journal:
    given: dict[str, Any] = {"reference": "19.90"} | options
    return from_frame(frame, "0.01", **given)


def entries_of(journal: Journal) -> list[str]:
    return journal.text.splitlines()[1:]


def new(order: object, member: object = "M", **cells: Any) -> dict[str, Any]:
    return dict(event="new", order=order, member=member, side="bid", quantity=10) | cells


# ---- a record of another system


def test_the_record_of_the_docs_becomes_its_journal() -> None:
    stored = (TOP / "examples/audits/elsewhere.csv").read_text(encoding="ascii").splitlines()
    journal = converted(ADLER_AND_BIRK, low="10.00", high="30.00")
    assert entries_of(journal) == stored[1:]
    assert journal.text.splitlines()[0] == "day,1000,3000,1990,64,65536,1048576,"
    assert journal.audit().attrs == dict(entries=8, compared=4, unlawful=0, is_legal=True)


def test_tables_are_in_the_names_from_there() -> None:
    journal = converted(ADLER_AND_BIRK)
    assert journal.trades().to_dict("records") == [
        dict(trade=1, auction="opening", bid="A17", bid_member="Adler", ask="B4", ask_member="Birk",
             quantity=150, price=Decimal("20.02"), time="9:00:00")
    ]
    limits = journal.books()["limit"].tolist()
    assert limits == [None, Decimal("20.02"), None]
    assert journal.orders.to_dict("list") == dict(
        order=["A17", "B4", "B5"], member=["Adler", "Birk", "Birk"], number=[1, 2, 2], row=[0, 1, 3]
    )
    assert journal.entries.loc[7].tolist() == [5, "9:00:00", "uncross", None, None]
    assert journal.explain(7)[2] == "Limit 20.02 executes most, 150."
    assert journal.explain()[-1].startswith("There are market orders alone, 150 on the ask side")


def test_an_audit_names_what_is_unlawful_as_it_is_named_there() -> None:
    frame = adler_and_birk(price={5: "20.01"}, quantity={6: 140}, kept={2: False})
    found = converted(frame).audit()
    assert found.drop(columns=["member"]).to_numpy().tolist() == [
        [3, 2, "8:51:30", "replace", "A17", "changed moved", "changed kept"],
        [6, 5, "9:00:00", "uncross", None, "price 20.01 volume 150 surplus 150 ask",
         "price 20.02 volume 150 surplus 150 ask"],
        [8, 6, "9:00:00", "trade", None, "trade A17 B4 140 at 20.02", "trade A17 B4 150 at 20.02"],
    ]
    assert found["member"].tolist() == ["Adler", None, None]
    assert found.attrs == dict(entries=8, compared=4, unlawful=3, is_legal=False)


def test_replies_are_translated_to_the_ids_and_prices_of_the_frame() -> None:
    journal = converted(ADLER_AND_BIRK)
    for reply, text in (
        ("entered 2", "entered B4"),
        ("entered 9", "entered 9"),
        ("changed kept", "changed kept"),
        ("order bid 200 at 2002 visible 100", "order bid 200 at 20.02 visible 100"),
        ("order bid 2002 market visible 2002", "order bid 2002 market visible 2002"),
        ("no price bid 1990 ask -", "no price bid 19.90 ask -"),
        ("no price bid - ask 2000", "no price bid - ask 20.00"),
        ("interrupted price 2000 volume 5 surplus 6 bid",
         "interrupted price 20.00 volume 5 surplus 6 bid"),
        ("opening no price", "opening no price"),
        ("refused 5 UnknownOrder", "refused 5 UnknownOrder"),
    ):
        assert journal.translated(reply) == text


def test_what_is_published_becomes_the_reply_that_says_it() -> None:
    priced: dict[str, Any] = dict(price="20.02", quantity=150, surplus=150, side="ask")
    published: list[tuple[dict[str, Any], list[str]]] = [
        ({}, ["0,uncross,"]),
        (dict(quantity=0, price=None, auction="opening"), ["0,uncross,opening no price"]),
        (dict(quantity=0, price=None), ["0,uncross,"]),
        (dict(price="20.02", quantity=150), ["0,uncross,"]),
        (priced, ["0,ask,price 2002 volume 150 surplus 150 ask", "0,uncross,"]),
        (priced | dict(auction="opening"),
         ["0,ask,price 2002 volume 150 surplus 150 ask", "0,uncross,"]),
        (priced | dict(auction="opening", trades=1),
         ["0,uncross,opening price 2002 volume 150 surplus 150 ask trades 1"]),
        (priced | dict(auction="interrupted"),
         ["0,uncross,interrupted price 2002 volume 150 surplus 150 ask"]),
        (priced | dict(surplus=0, side=None),
         ["0,ask,price 2002 volume 150 surplus 0 none", "0,uncross,"]),
    ]
    for cells, entries in published:
        rows = [dict(event="uncross") | cells]
        assert entries_of(converted(pandas.DataFrame(rows))) == entries


def test_a_replace_that_the_board_refuses_is_told() -> None:
    rows = [
        new("a", price="20"), new("b", "N", side="ask", price="20"), dict(event="uncross"),
        dict(event="replace", order="a", quantity=5, price="20"), dict(event="cancel", order="b"),
    ]
    journal = converted(pandas.DataFrame(rows))
    columns = ["row", "order", "member", "recorded", "lawful"]
    assert journal.audit()[columns].to_numpy().tolist() == [
        [3, "a", "M", "changed", "refused 5 UnknownOrder"],
        [4, "b", "N", "deleted", "refused 5 UnknownOrder"],
    ]


def test_orders_have_all_their_fields() -> None:
    rows = [
        new(7.0, 3.0, price=20, quantity="100", peak="10", restriction="closing"),
        new(8, 3, side="sell", quantity=30.0, peak=None, restriction="opening"),
        new(
            Decimal(9),
            "x",
            side="ask",
            price=Decimal("20.00"),
            peak=math.nan,
            restriction=pandas.NA,
        ),
    ]
    journal = converted(pandas.DataFrame(rows))
    assert entries_of(journal) == [
        "1,enter,bid,100,2000,10,closing,",
        "1,enter,ask,30,market,,opening,",
        "2,enter,ask,10,2000,",
    ]
    assert journal.orders["order"].tolist() == [7, 8, 9]


# ---- many members


def test_more_members_than_numbers_share_them_and_orders_tell_whose_they_are() -> None:
    rows = [
        new(f"o{k}", f"member {k}", side="bid" if k % 2 else "ask", price="20.00")
        for k in range(130)
    ]
    rows += [dict(event="cancel", order="o129", member="member 129"), dict(event="uncross")]
    journal = converted(pandas.DataFrame(rows))
    assert journal.orders["number"].tolist() == [1 + k % 63 for k in range(130)]
    trades = journal.trades()
    assert len(trades) == 64
    for side in ("bid", "ask"):
        assert (trades[f"{side}_member"] == "member " + trades[side].str[1:]).all()
    assert journal.audit().attrs["is_legal"]
    with pytest.raises(FrameError, match="^row 131: member 'member 66' isn't 'member 3', who "):
        rows[-1] = dict(event="cancel", order="o3", member="member 66")
        converted(pandas.DataFrame(rows))


# ---- prices


@pytest.mark.parametrize("value, text", [
    (20, "20"), ("20.050", "20.050"), (20.05, "20.05"), (Decimal("-1.5"), "-1.5"), ("-0.1", "-0.1"),
    (numpy.float64(0.1), "0.1"), (numpy.int32(7), "7"), (1e-7, "0.0000001"),
    (1e16, "10000000000000000"),
    (Decimal("1E+2"), "100"), (" 3 ", "3"), ("+4", "4"),
])
def test_decimals_are_exact(value: object, text: str) -> None:
    assert decimal_of(value) == Decimal(text)


@pytest.mark.parametrize("value", [
    "", "x", "1e5", "1_000", "١", "nan", "Infinity", math.inf, True, Decimal("1E+40"), "1" * 40,
    object(), "1,5", "0x10", Decimal("NaN"), b"1", 1e300, ".5", "5.",
])
def test_other_things_are_no_decimals(value: object) -> None:
    with pytest.raises(BadCellError):
        decimal_of(value)


@pytest.mark.parametrize("value", [-1, 4_294_967_296, "1.5", 1.5, "x"])
def test_other_things_are_no_whole_numbers(value: object) -> None:
    with pytest.raises(BadCellError):
        whole_of(value)


@given(
    strategies.decimals("0.000001", "1000", places=6),
    strategies.integers(-10_000_000, 10_000_000),
    strategies.integers(0, 65_535),
)
def test_each_tick_has_its_price(size: Decimal, low: int, ticks: int) -> None:
    grid = grid_of(size, low * size, (low + ticks) * size)
    first = grid.tick(low * size)
    assert 1 <= first <= 1_000_000 and grid.tick((low + ticks) * size) == first + ticks <= 1_000_000
    assert grid.price(first) == low * size
    with pytest.raises(BadCellError, match="no multiple of the tick size"):
        grid.tick(low * size + size / 2)


def test_prices_that_are_no_ticks_are_steps_above_a_base() -> None:
    rows = [new(1, price="-5.00"), new(2, side="ask", price="-7.50"), dict(event="uncross")]
    journal = from_frame(pandas.DataFrame(rows), "0.50", reference="-6")
    assert journal.text.splitlines()[0].startswith("day,1,6,4,")
    assert journal.trades()["price"].tolist() == [Decimal("-6.00")]
    high = from_frame(pandas.DataFrame([new(1, price="25000.01")]), "0.01", reference="25000")
    assert entries_of(high) == ["1,enter,bid,10,2,"] and high.grid.base == Decimal("24999.99")


def test_a_range_is_a_distance_of_prices() -> None:
    assert converted(ADLER_AND_BIRK, range="0.05").text.splitlines()[0].endswith(",5")
    with pytest.raises(ValueError, match="^range 0.055 is no multiple of the tick size 0.01"):
        converted(ADLER_AND_BIRK, range="0.055")


# ---- errors name the row and the value


@pytest.mark.parametrize("changes, text", [
    (dict(price={3: "20.005"}), "row 3: price '20.005' is no multiple of the tick size 0.01"),
    (dict(price={3: 20.005}), "row 3: price 20.005 is no multiple of the tick size 0.01"),
    (dict(price={5: "20.005"}), "row 5: price '20.005' is no multiple of the tick size 0.01"),
    (dict(price={6: None}), "row 6: price is missing"),
    (dict(price={0: "a"}), "row 0: price 'a' is no decimal number"),
    (dict(price={3: "700"}), "row 3: price '700' and 19.90 are more than 65,536 ticks apart"),
    (dict(order={4: "B6"}), "row 4: order 'B6' is the id of no order before it"),
    (dict(order={2: "B5"}), "row 2: order 'B5' is the id of no order before it"),
    (dict(order={3: "A17"}), "row 3: order 'A17' was entered before, in row 0"),
    (dict(order={1: None}), "row 1: order is missing"),
    (dict(bid={6: "C"}), "row 6: bid 'C' is the id of no order before it"),
    (dict(ask={6: None}), "row 6: ask is missing"),
    (dict(member={4: "Adler"}), "row 4: member 'Adler' isn't 'Birk', who entered order 'B5'"),
    (dict(member={0: math.nan}), "row 0: member is missing"),
    (dict(side={0: "long"}), "row 0: side 'long' is none of bid, buy, ask, sell"),
    (dict(side={5: None}), "row 5: side is missing"),
    (dict(event={1: "fill"}),
     "row 1: event 'fill' is none of new, replace, cancel, uncross, trade"),
    (dict(quantity={0: -5}), "row 0: quantity -5 is no whole number from 0 to 4,294,967,295"),
    (dict(quantity={0: 2.5}), "row 0: quantity 2.5 is no whole number from 0 to 4,294,967,295"),
    (dict(quantity={0: 0}), "row 0: quantity 0 can't be entered: refused 1 BadQuantity"),
    (dict(peak={0: 500}), "row 0: peak 500 can't be entered: refused 3 BadPeak"),
    (dict(restriction={0: "noon"}), "row 0: restriction 'noon' is none of opening, closing"),
    (dict(auction={5: "noon"}),
     "row 5: auction 'noon' is none of opening, intraday, closing, interrupted"),
    (dict(kept={2: "no"}), "row 2: kept 'no' is neither true nor false"),
])
def test_an_error_names_the_row_and_the_value(changes: dict[str, Any], text: str) -> None:
    with pytest.raises(FrameError) as found:
        converted(adler_and_birk(**changes))
    assert str(found.value) == text


def test_an_error_names_the_label_of_the_row() -> None:
    frame = adler_and_birk(price={3: "20.005"}).set_index("time")
    with pytest.raises(FrameError, match="^row 8:52:00: price '20.005'") as found:
        converted(frame)
    fault = found.value
    assert (fault.row, fault.column, fault.value) == ("8:52:00", "price", "20.005")


def test_an_order_behind_its_auction_is_an_error() -> None:
    rows = [dict(event="uncross"), new(1, restriction="opening")]
    why = "^row 1: restriction 'opening' can't be entered: refused 9"
    with pytest.raises(FrameError, match=why):
        converted(pandas.DataFrame(rows))
    rows = [*[dict(event="uncross")] * 3, new(1)]
    with pytest.raises(FrameError, match="^row 3: order 1 can't be entered: refused 7 DayOver"):
        converted(pandas.DataFrame(rows))
    with pytest.raises(FrameError, match="^row 0: price '20.02' can't be entered: refused 2 Bad"):
        converted(ADLER_AND_BIRK, high="20.01")


def test_falling_times_are_an_error() -> None:
    begin = datetime.datetime(2026, 11, 24, 8, 50)
    times = [begin + datetime.timedelta(seconds=s) for s in (0, 1, 2, 2, 1, 5, 6)]
    for column in (times, [0, 1, 2, 2, 1, 5, 6]):
        with pytest.raises(FrameError, match="^row 4: time .* comes before that of the row above"):
            converted(ADLER_AND_BIRK.assign(time=column))
    assert converted(ADLER_AND_BIRK.assign(time=range(7))).entries["time"].tolist()[-1] == 6


def test_more_calls_than_a_journal_has_are_an_error(monkeypatch: pytest.MonkeyPatch) -> None:
    monkeypatch.setattr("callauction.conversion.MOST_CALLS", 6)
    with pytest.raises(FrameError, match="^row 5: event 'uncross' is one entry more than the 6 "):
        converted(ADLER_AND_BIRK)


@pytest.mark.parametrize("options, text", [
    (dict(reference="x"), "reference 'x' is no decimal number"),
    (dict(reference="19.905"), "reference 19.905 is no multiple of the tick size 0.01"),
    (dict(low="30"), "low 30, reference 19.90 and high 19.90 must rise, over at most 65,536 ticks"),
    (dict(high="900"),
     "low 19.90, reference 19.90 and high 900 must rise, over at most 65,536 ticks"),
    (dict(low="19.001"), "low 19.001 is no multiple of the tick size 0.01"),
])
def test_bad_arguments_are_named(options: dict[str, str], text: str) -> None:
    with pytest.raises(ValueError) as found:
        converted(ADLER_AND_BIRK, **options)
    assert str(found.value) == text
    for size in (0, "-1", "x"):
        with pytest.raises(ValueError, match="^tick_size"):
            from_frame(ADLER_AND_BIRK, size, reference=1)


def test_a_column_may_stand_once() -> None:
    frame = pandas.concat([ADLER_AND_BIRK, ADLER_AND_BIRK[["side"]]], axis=1)
    with pytest.raises(ValueError, match="a column twice"):
        converted(frame)


# ---- random days there and back


def recorded_elsewhere(auction: RecordedAuction) -> pandas.DataFrame:
    """The accepted events of a day as another system has them, with all that it published."""
    rows: list[dict[str, Any]] = []
    seen = 0
    for member, command, reply in auction._record:
        match command, reply:
            case words.Enter() as order, words.Entered(id):
                rows.append(entered(member, order, id))
            case words.Change(id, quantity, limit), words.Changed(kept):
                rows.append(dict(event="replace", order=f"#{id}", quantity=quantity,
                                 price=cents(limit), kept=kept))
            case words.Delete(id), words.Deleted():
                rows.append(dict(event="cancel", order=f"#{id}", member=f"M{member}"))
            case words.Uncross(), words.Uncrossed(kind, price, trades):
                name = kind.name.lower()
                rows.append(dict(event="uncross", auction=name, trades=trades) | published(price))
                for row in auction.trades().iloc[seen : seen + trades].itertuples():
                    rows.append(dict(event="trade", bid=f"#{row.bid}", ask=f"#{row.ask}",
                                     quantity=row.quantity, price=cents(row.tick)))
                seen += trades
            case words.Uncross(), words.Interrupted(price):
                rows.append(dict(event="uncross", auction="interrupted") | published(price))
    return pandas.DataFrame(rows, columns=sorted({name for row in rows for name in row}))


def cents(limit: int | None) -> str | None:
    return None if limit is None else f"{limit // 100}.{limit % 100:02}"


def entered(member: int, order: words.Enter, id: int) -> dict[str, Any]:
    restriction = {0: None, 1: "opening", 2: "closing"}[order.restriction]
    return dict(event="new", order=f"#{id}", member=f"M{member}", side=order.side.name.lower(),
                quantity=order.quantity, price=cents(order.limit), peak=order.peak,
                restriction=restriction)


def published(price: words.Price | None) -> dict[str, Any]:
    if price is None:
        return dict(quantity=0)
    side = price.side.name.lower() if price.surplus else None
    return dict(price=cents(price.tick), quantity=price.volume, surplus=price.surplus, side=side)


@settings(deadline=None, max_examples=50)
@given(auctions(), strategies.lists(commands(), max_size=40))
def test_random_days_come_back(
    auction: RecordedAuction, given_commands: list[tuple[int, words.Command]]
) -> None:
    with auction:
        for member, command in given_commands:
            auction.apply(member, command)
        frame = recorded_elsewhere(auction)
        wanted = auction.trades()
        config = auction.config
        books = auction.books()
    span = None if config.range is None else cents(config.range)
    journal = from_frame(frame, "0.01", reference=cents(config.reference), range=span,
                         low=cents(config.low), high=cents(config.high))
    assert journal.audit().attrs["is_legal"]
    assert journal.audit().attrs["compared"] == (journal_of(journal.day())["reply"] != "").sum()
    found = journal.trades()
    for side in ("bid", "ask"):
        assert found[side].tolist() == [f"#{id}" for id in wanted[side]]
        assert found[f"{side}_member"].tolist() == [f"M{k}" for k in wanted[f"{side}_member"]]
    assert found["price"].tolist() == [Decimal(tick) / 100 for tick in wanted["tick"]]
    columns = [name for name in books if name != "command"]
    assert books_of(journal.day())[columns].equals(books[columns])


# ---- a fuzz: whatever a frame has, it becomes a journal that the program reads, or one error


CELLS = strategies.one_of(
    strategies.none(),
    strategies.sampled_from(["", "bid", "sell", "market", "opening", "interrupted", "a", "20"]),
    strategies.sampled_from([0, 1, 5, 20, -1, 2**40, 10**30, True, math.nan, math.inf, 20.01, 5.5]),
    strategies.sampled_from([Decimal("20.01"), Decimal("sNaN"), pandas.NA, pandas.NaT, b"x", [1]]),
    strategies.text(max_size=3),
    strategies.floats(),
    strategies.integers(),
    strategies.decimals(),
)
GOOD = {
    "event": strategies.sampled_from([*EVENTS, "new", "new"]),
    "order": strategies.sampled_from(["a", "b", "c", 1, 2]),
    "member": strategies.sampled_from(["x", "y"]),
    "side": strategies.sampled_from(["bid", "ask", "buy", "sell"]),
    "price": strategies.sampled_from([None, "20.00", "20.01", "19.99", 20]),
    "quantity": strategies.sampled_from([1, 5, 10, "10", 7.0]),
    "peak": strategies.sampled_from([None, None, 1]),
    "restriction": strategies.sampled_from([None, None, "opening", "closing"]),
    "bid": strategies.sampled_from(["a", "b"]),
    "ask": strategies.sampled_from(["a", "b"]),
    "surplus": strategies.sampled_from([None, 0, 5]),
    "trades": strategies.sampled_from([None, 1]),
    "auction": strategies.sampled_from([None, "opening", "interrupted"]),
    "kept": strategies.sampled_from([None, True, False]),
    "time": strategies.none(),
}
ROWS = strategies.lists(strategies.fixed_dictionaries(GOOD), min_size=1, max_size=12)


@settings(deadline=None, max_examples=200)
@given(ROWS, strategies.lists(strategies.tuples(
    strategies.integers(0, 11), strategies.sampled_from([*GOOD]), CELLS), max_size=2))
def test_any_frame_is_a_journal_or_one_error(
    rows: list[dict[str, Any]], changes: list[tuple[int, str, Any]]
) -> None:
    for row, column, value in changes:
        rows[row % len(rows)][column] = value
    try:
        journal = converted(pandas.DataFrame(rows, dtype="object"))
    except FrameError as fault:
        assert f"row {fault.row}: {fault.column}" in str(fault) and "\n" not in str(fault)
        place: Any = fault.row
        assert rows[place][fault.column] is fault.value or fault.value is None
        return
    assert len(journal.entries) == journal.text.count("\n") - 1
    audit = journal.audit()
    assert audit.attrs["entries"] == len(journal.entries)
    assert audit.attrs["unlawful"] == len(audit)
    assert Day(journal.text.encode("ascii")).is_journal()
    journal.trades(), journal.books(), journal.explain()

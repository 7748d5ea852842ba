"""Arrays of commands of columns: nothing of them is cut, and the auction takes what they say."""
import collections
import io
import re
from typing import Any

import hypothesis
import numpy
import pandas
import pytest
from arrayed import array_of
from callauction import (
    COMMAND,
    Auction,
    Change,
    Command,
    CommandTag,
    Delete,
    Enter,
    Indicate,
    OrderStatus,
    ReadTrade,
    RecordedAuction,
    Restriction,
    Side,
    Uncross,
    commands,
)
from callauction.columns import NAMES
from hypothesis import strategies

BID, ASK = Side.BID, Side.ASK


def test_columns_make_orders() -> None:
    limits, peaks = [200, 199, None], [None, 3, None]
    made = commands(side=[BID, ASK, BID], quantity=[5, 6, 7], limit=limits, peak=peaks)
    wanted = array_of([(1, Enter(BID, 5, 200)), (1, Enter(ASK, 6, 199, 3)), (1, Enter(BID, 7))])
    assert made.dtype == COMMAND and made.tobytes() == wanted.tobytes()


def test_one_number_is_that_of_all() -> None:
    made = commands(side=numpy.array([1, 2, 1]), quantity=100, limit=numpy.float64(200), member=3,
                    restriction=Restriction.CLOSING_ONLY)
    closing = Restriction.CLOSING_ONLY
    wanted = array_of([(3, Enter(side, 100, 200, None, closing)) for side in (BID, ASK, BID)])
    assert made.tobytes() == wanted.tobytes()
    assert len(commands(side=BID, quantity=5)) == 1
    assert len(commands(side=[], quantity=[], limit=[])) == 0


def test_columns_make_all_commands() -> None:
    made = commands(
        tag=[*CommandTag], side=[BID, *[None] * 6], quantity=[5, 6, *[None] * 5],
        limit=[200, *[None] * 6], id=[None, 1, 2, 3, None, 4, None], member=[1, 2, 3, 4, 5, 6, 0],
    )  # fmt: skip
    wanted: list[tuple[int, Command]] = [
        (1, Enter(BID, 5, 200)), (2, Change(1, 6)), (3, Delete(2)), (4, OrderStatus(3)),
        (5, Indicate()), (6, ReadTrade(4)), (0, Uncross()),
    ]  # fmt: skip
    assert made.tobytes() == array_of(wanted).tobytes()


def test_a_frame_makes_commands() -> None:
    frame = pandas.DataFrame({"side": [1, 2], "quantity": [5.0, 6.0]})
    frame["limit"] = pandas.array([200, None], "Int64")
    wanted = array_of([(4, Enter(BID, 5, 200)), (4, Enter(ASK, 6))])
    assert commands(frame, member=4).tobytes() == wanted.tobytes()
    assert commands(dict(frame), member=4).tobytes() == wanted.tobytes()
    words = frame.assign(side=["bid", "ask"], member=4)
    assert commands(words).tobytes() == wanted.tobytes()
    with pytest.raises(TypeError, match="^qty is no column of commands: these are tag, member, "):
        commands(frame.rename(columns={"quantity": "qty"}))
    with pytest.raises(TypeError, match="^side is in the frame and given beside it$"):
        commands(frame, side=BID)


def test_words_of_files_are_numbers() -> None:
    made = commands(
        tag=["enter", "enter", "change", "delete", "status", "ask", "trade", "uncross"],
        side=["bid", "ask", *[None] * 6], quantity=[5, 6, 7, *[None] * 5],
        limit=["market", 199, "market", *[None] * 5], id=[None, None, 1, 2, 3, None, 4, None],
        restriction=["closing", "opening", *[""] * 6], member=3,
    )  # fmt: skip
    opening, closing = Restriction.OPENING_ONLY, Restriction.CLOSING_ONLY
    wanted: list[Command] = [
        Enter(BID, 5, restriction=closing), Enter(ASK, 6, 199, restriction=opening),
        Change(1, 7), Delete(2), OrderStatus(3), Indicate(), ReadTrade(4), Uncross(),
    ]  # fmt: skip
    assert made.tobytes() == array_of([(3, command) for command in wanted]).tobytes()


def test_a_column_that_is_text_for_its_word() -> None:
    frame = pandas.read_csv(io.StringIO("side,quantity,limit\nbid,5,200\nask,5,market\n"))
    made = commands(frame)
    assert made["limit"].tolist() == [200, 0] and made["has_limit"].tolist() == [1, 0]


def test_the_frame_of_a_journal_is_applied_again() -> None:
    with RecordedAuction() as auction, Auction() as other:
        auction.enter(1, BID, 500, 202, peak=100)
        auction.enter(2, ASK, 300, restriction=Restriction.OPENING_ONLY)
        auction.change(1, 1, 400, 201)
        auction.order_status(1, 1)
        auction.uncross()
        frame = auction.journal()
        names = ["member", "side", "quantity", "limit", "peak", "id"]
        other.apply_many(commands(frame[names], tag=frame["command"], restriction=frame["only"]))
        assert other.trades().tolist() == auction.copy()._auction.trades().tolist()
        assert other.state() == auction.state()


@pytest.mark.parametrize("frame", [
    [1, 2], pandas.Series([1, 2]), numpy.zeros(2, COMMAND), "day.csv", 5, [{"side": 1}],
])  # fmt: skip
def test_what_is_no_frame_is_refused(frame: Any) -> None:
    kind = type(frame).__name__
    text = f"frame must be a mapping or frame of columns, not {kind}"
    with pytest.raises(TypeError, match=f"^{re.escape(text)}$"):
        commands(frame, quantity=5)


def test_the_frame_of_open_orders_enters_them_again() -> None:
    names = ("side", "quantity", "limit")
    with RecordedAuction() as auction, Auction() as other:
        auction.enter(1, BID, 5, restriction=Restriction.CLOSING_ONLY)
        auction.enter(1, ASK, 6, 210)
        frame = auction.orders()
        made = commands(frame[[*names]], restriction=frame["only"])
        other.apply_many(made)
        listed = other.orders()
    assert listed[[*names, "restriction", "has_limit"]].tolist() == [
        (BID, 5, 0, Restriction.CLOSING_ONLY, 0), (ASK, 6, 210, Restriction.NONE, 1)
    ]  # fmt: skip


def test_a_limit_of_nan_names_the_cure() -> None:
    """The text says what to do, and that does it."""
    frame = pandas.DataFrame({"side": ["bid", "bid"], "quantity": 5, "limit": [50.0, None]})
    text = "limit: element 1, nan, is no exact whole number: where it is missing, give None, or "
    with pytest.raises(ValueError, match=re.escape(f'{text}a Series.astype("Int64")') + "$"):
        commands(frame)
    for limit in (frame["limit"].astype("Int64"), [50, None]):
        made = commands(frame.drop(columns="limit"), limit=limit)
        assert made["has_limit"].tolist() == [1, 0] and made["limit"].tolist() == [50, 0]
    with pytest.raises(ValueError, match="^member: element 0, nan, is no exact whole number$"):
        commands(side=BID, quantity=5, member=float("nan"))


HIDDEN = numpy.ma.array([1, 2], mask=[0, 1])  # type: ignore[no-untyped-call]
BAD: list[tuple[type[Exception], str, dict[str, Any]]] = [
    (ValueError, "limit: element 1, 199.95, is no exact whole number", {"limit": [200, 199.95]}),
    (ValueError, "limit: element 1, nan, is", {"limit": numpy.array([200, numpy.nan])}),
    (ValueError, "limit: element 0, nan, is", {"limit": pandas.Series([None, 200.0])}),
    (ValueError, "quantity: element 0, inf, is", {"quantity": [float("inf"), 1]}),
    (ValueError, "quantity: element 0, 1e[+]17, is", {"quantity": numpy.array([1e17, 1])}),
    (TypeError, "quantity: element 0 must be an integer, not bool", {"quantity": [True, 2]}),
    (TypeError, "quantity must be integers, not bool", {"quantity": numpy.array([True, False])}),
    (TypeError, "quantity: element 1 .* not bool", {"quantity": pandas.array([1, True], "object")}),
    (ValueError, "member: element 1 must be from 0 to 255, not 300", {"member": [1, 300]}),
    (ValueError, "member: element 1 must .* not 300", {"member": numpy.array([1, 300])}),
    (ValueError, "member: element 1 is missing", {"member": [1, None]}),
    (ValueError, "limit: element 0 must be from 0 to 4294967295, not -1", {"limit": [-1, 1]}),
    (ValueError, "limit: element 1 .* not 4294967296", {"limit": numpy.array([1, 1 << 32])}),
    (ValueError, "quantity: element 0 must .* not 18446744073709551616", {"quantity": 1 << 64}),
    (ValueError, "limit: element 1 is masked: None is an order without it$", {"limit": HIDDEN}),
    (ValueError, "quantity: element 1 is masked$", {"quantity": HIDDEN}),
    (TypeError, "limit: element 1 must be an integer, not str", {"limit": ["market", "x"]}),
    (ValueError, "side: element 1 must be BID or ASK, as ENTER needs it", {"side": ["bid", ""]}),
    (ValueError, "side: element 0 must be one of Side, not 3", {"side": [3, 1]}),
    (ValueError, "side: element 1 must be BID or ASK, as ENTER needs it", {"side": [BID, None]}),
    (ValueError, "side: element 0 must be BID or ASK", {"side": numpy.array([0, 1])}),
    (ValueError, "quantity: element 1 must be a number, as ENTER", {"quantity": [5, None]}),
    (ValueError, "id: element 0 must be a number, as DELETE needs it", {"tag": CommandTag.DELETE}),
    (ValueError, "tag: element 0 must be one of CommandTag, not 8", {"tag": 8}),
    (ValueError, "restriction: element 0 must be one of Restriction", {"restriction": 3}),
    (ValueError, "columns must have one length, not side 2, limit 3", {"limit": [1, 2, 3]}),
    (ValueError, "limit must have one dimension, not 2", {"limit": numpy.ones((2, 2))}),
    (TypeError, "limit: element 0 must be an integer, not str", {"limit": "200"}),
    (TypeError, "limit: element 1 must be an integer, not str", {"limit": [200, "201"]}),
    (TypeError, "limit: element 0 must be an integer, not list", {"limit": [[1], [2]]}),
    (TypeError, "limit: element 0 must be an integer, not set", {"limit": {1, 2}}),
    (TypeError, "side: element 1 must be an integer, not str", {"side": ["bid", "buy"]}),
    (TypeError, "limit: element 0 must .* not complex", {"limit": numpy.array([1j, 2])}),
    (TypeError, r"side: element 0 must .* not str \(words: 'bid', 'ask'\)$", {"side": ["Bid", 1]}),
    (TypeError, r"tag: element 0 must .* \(words: 'enter', 'change', 'delete', .*'uncross'\)$",
     {"tag": "new"}),
    (TypeError, r"restriction: .* \(words: '', 'opening', 'closing'\)$", {"restriction": "x"}),
    (TypeError, r"limit: element 0 must .* str \(words: 'market'\)$", {"limit": ["Market", 1]}),
    (TypeError, "quantity: element 0 must be an integer, not str$", {"quantity": "market"}),
    (TypeError, "side: element 0 must be an integer, not list$", {"side": [[1], 2]}),
]


@pytest.mark.parametrize("fault, text, given", BAD)
def test_what_numpy_would_cut_is_refused(
    fault: type[Exception], text: str, given: dict[str, Any]
) -> None:
    columns: dict[str, Any] = {"side": [BID, ASK], "quantity": 5} | given
    with pytest.raises(fault, match=f"^{text}"):
        commands(**columns)


def test_the_greatest_numbers_are_kept() -> None:
    most = numpy.array([(1 << 64) - 1, 1], "u8")
    made = commands(side=BID, quantity=most, peak=most, limit=[(1 << 32) - 1, 0], member=255)
    assert made["quantity"].tolist() == made["peak"].tolist() == most.tolist()
    assert made["limit"].tolist() == [(1 << 32) - 1, 0] and made["has_limit"].tolist() == [1, 1]


MOST = dict(tag=7, member=(1 << 8) - 1, side=2, quantity=(1 << 64) - 1, limit=(1 << 32) - 1,
            peak=(1 << 64) - 1, id=(1 << 32) - 1, restriction=2, client=(1 << 64) - 1)  # fmt: skip
"""The greatest number that a column may have."""
NEEDED = {"side": {1}, "quantity": {1, 2}, "id": {2, 3, 4, 6}}
"""The tags of the commands that need a number of a column."""
NUMBERS = strategies.one_of(
    strategies.none(),
    strategies.integers(-2, 300),
    strategies.integers(),
    strategies.floats(),
    strategies.booleans(),
    strategies.text(max_size=2),
)


def one_or_two(numbers: strategies.SearchStrategy[Any]) -> strategies.SearchStrategy[Any]:
    """Columns of one number for all commands, or of two."""
    return strategies.one_of(numbers, strategies.lists(numbers, min_size=2, max_size=2))


def good(name: str) -> strategies.SearchStrategy[Any]:
    """Columns of this name whose numbers their field can hold; of a side two are one's."""
    least, most = int(name in ("tag", "side")), MOST[name]
    few = strategies.integers(least, min(most, 3))
    missing = [strategies.none(), strategies.just("")] if name in ("limit", "peak") else []
    kinds = few, few.map(float), few.map(numpy.int64), strategies.integers(least, most), *missing
    return one_or_two(strategies.one_of(*kinds))


GOOD = strategies.fixed_dictionaries(
    {name: good(name) for name in ("side", "quantity", "id")},
    optional={name: good(name) for name in NAMES if name not in ("side", "quantity", "id")},
)
GIVEN = strategies.builds(
    dict.__or__, GOOD,
    strategies.just({}) | strategies.dictionaries(
        strategies.sampled_from(NAMES), one_or_two(NUMBERS), max_size=2
    ),
)  # fmt: skip


def number_of(name: str, value: Any) -> int | None:
    """The number that a value of a column stands for, None where it is missing. Raises ValueError
    where it stands for none.
    """
    if value == "" and name == "restriction":
        return 0
    if value in (None, "") and name not in ("tag", "member", "restriction"):
        return None
    is_number = isinstance(value, int | numpy.int64) and not isinstance(value, bool)
    if not is_number and not (isinstance(value, float) and abs(value) <= 1 << 53):
        raise ValueError
    if value != int(value) or not int(name == "tag") <= value <= MOST[name]:
        raise ValueError
    return int(value)


def numbers_of(given: dict[str, Any]) -> dict[str, list[int | None]]:
    """The numbers of each column that is given or has a default. Raises ValueError where one value
    stands for none, or a command has not what it needs.
    """
    there = {name: column for name, column in given.items() if column is not None}
    columns = {"tag": 1, "member": 1, "restriction": 0} | there
    count = max(len(it) if isinstance(it, list) else 1 for it in columns.values())
    listed = {name: it if isinstance(it, list) else [it] * count for name, it in columns.items()}
    found = {name: [number_of(name, it) for it in listed[name]] for name in listed}
    for name, tags in NEEDED.items():
        lacking = [None, 0] if name == "side" else [None]
        numbers = found.get(name, [None] * count)
        if any(tag in tags and it in lacking for tag, it in zip(found["tag"], numbers)):
            raise ValueError
    return found


def test_what_is_made_is_commands() -> None:
    """Each array is one of commands, whose numbers are the given ones, and what can't be one is
    refused: of the random columns many are this and many that.
    """
    met: collections.Counter[str] = collections.Counter()

    @hypothesis.settings(max_examples=300, deadline=None, database=None)
    @hypothesis.given(GIVEN)
    def is_made_or_refused(given: dict[str, Any]) -> None:
        try:
            wanted = numbers_of(given)
        except ValueError:
            met["refused"] += 1
            with pytest.raises((TypeError, ValueError)):
                commands(**given)
            return
        met["made"] += 1
        made = commands(**given)
        for name in NAMES:
            numbers = wanted.get(name, [None] * len(made))
            assert made[name].tolist() == [number or 0 for number in numbers], name
            if name in ("limit", "peak"):
                flags = [int(number is not None) for number in numbers]
                assert made[f"has_{name}"].tolist() == flags, name
        with Auction() as auction:
            assert len(auction.apply_many(made)) == len(made)

    is_made_or_refused()
    assert met["made"] > 100 and met["refused"] > 80, met

"""The table of refusals after many commands."""
import callauction
import numpy
import pytest
from arrayed import array_of
from callauction import (
    COMMAND,
    ENTRY,
    RECEIPT,
    REPLY,
    Auction,
    Board,
    Change,
    Command,
    Enter,
    Entered,
    FullError,
    Indicate,
    Refusal,
    Refused,
    Side,
    Uncross,
    reply_of,
)

COLUMNS = {"place": "int64", "refusal": "int64", "name": "object"}
GIVEN: list[tuple[int, Command]] = [
    (1, Enter(Side.BID, 500, 200)),
    (1, Enter(Side.BID, 500, 2000)),
    (2, Indicate()),
    (2, Change(1, 100)),
    (3, Uncross()),
]


def test_refused_commands_have_a_row_each() -> None:
    commands = array_of(GIVEN)
    with Auction() as auction:
        replies = auction.apply_many(commands)
    found = callauction.refusals(replies)
    assert {name: str(kind) for name, kind in found.dtypes.items()} == COLUMNS
    assert found.to_numpy().tolist() == [
        [1, 2, "BAD_LIMIT"], [3, 5, "UNKNOWN_ORDER"], [4, 6, "NOT_OPERATOR"]
    ]
    found = callauction.refusals(replies, commands)
    assert found["member"].tolist() == [1, 2, 3]
    assert found["command"].tolist() == ["ENTER", "CHANGE", "UNCROSS"]


def test_the_receipts_of_a_member_are_replies_too() -> None:
    given = array_of([(1, command) for _, command in GIVEN])
    with Board(2) as board:
        receipts = board[1].apply_many(given)
    assert receipts.dtype == RECEIPT
    found = callauction.refusals(receipts, given)
    assert {name: str(found[name].dtype) for name in COLUMNS} == COLUMNS
    assert found.to_numpy().tolist() == [
        [1, 2, "BAD_LIMIT", 1, "ENTER"],
        [4, 6, "NOT_OPERATOR", 1, "UNCROSS"],
    ]
    assert reply_of(receipts[0]) == Entered(1)
    assert reply_of(receipts[1]) == Refused(Refusal.BAD_LIMIT)
    assert callauction.refusals(receipts[:1]).empty
    with pytest.raises(ValueError, match="^record is no reply of an auction$"):
        reply_of(numpy.zeros(1, RECEIPT)[0])


def test_the_receipts_before_an_error_are_replies_too() -> None:
    given = array_of([(1, Enter(Side.BID, 5, 2000))] * 3)
    with Board(2, max_calls=3, reserve=1) as board:
        with pytest.raises(FullError) as stopped:
            board[1].apply_many(given)
    assert stopped.value.replies is not None
    assert callauction.refusals(stopped.value.replies, given)["place"].tolist() == [0, 1]


def test_a_day_without_refusals_has_an_empty_table() -> None:
    found = callauction.refusals(numpy.zeros(0, REPLY))
    assert found.empty and found.columns.tolist() == ["place", "refusal", "name"]
    assert callauction.refusals(numpy.zeros(0, REPLY), numpy.zeros(0, COMMAND)).empty


def test_other_arrays_are_no_replies() -> None:
    text = "^replies must be an array of REPLY or RECEIPT, not of "
    others = {"COMMAND": COMMAND, "ENTRY": ENTRY, "float64": numpy.dtype("f8")}
    for name, dtype in others.items():
        with pytest.raises(TypeError, match=f"{text}{name}$"):
            callauction.refusals(numpy.zeros(1, dtype))
    with pytest.raises(TypeError, match=f"{text}a struct of other fields$"):
        callauction.refusals(numpy.zeros(1, [("tag", "u1"), ("id", "u4")]))
    with pytest.raises(TypeError, match="^record must be an element of .* REPLY or RECEIPT$"):
        reply_of(numpy.zeros(1, ENTRY)[0])
    with pytest.raises(TypeError, match="commands must be a numpy array, not list"):
        callauction.refusals(numpy.zeros(1, REPLY), [])  # type: ignore[arg-type]
    with pytest.raises(ValueError, match="commands must have 1 elements or more, not 0"):
        callauction.refusals(numpy.zeros(1, REPLY), numpy.zeros(0, COMMAND))

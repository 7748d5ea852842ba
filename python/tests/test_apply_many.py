"""Arrays of commands: agreement with single calls, garbage, and arrays that are refused."""
import re
from collections.abc import Callable
from typing import Any

import callauction as words
import hypothesis
import numpy
import pytest
from arrayed import array_of
from callauction import (
    COMMAND,
    REPLY,
    Auction,
    CommandTag,
    FullError,
    NoCommandError,
    NotAppliedError,
    Side,
    reply_of,
)
from callauction.arrays import Structs
from hypothesis import strategies

BID, ASK = Side.BID, Side.ASK
SHORT = hypothesis.settings(max_examples=300, deadline=None, database=None)


def some(count: int) -> Structs:
    """So many orders of member 1."""
    return array_of([(1, words.Enter(BID, 5, 1 + place % 1000)) for place in range(count)])


def replied(error: NotAppliedError) -> Structs:
    """The replies before the error, which there are where an array was given."""
    assert error.replies is not None
    return error.replies


def test_each_command_of_an_array_has_its_reply() -> None:
    with Auction() as auction:
        commands = some(3)
        replies = auction.apply_many(commands)
        assert replies.dtype == REPLY
        assert replies["id"].tolist() == [1, 2, 3]
        assert auction.calls == 3


def test_the_array_that_is_given_is_written() -> None:
    with Auction() as auction:
        replies = numpy.full(5, 7, "u8").repeat(8).view(REPLY)[:4]
        assert auction.apply_many(some(4), replies) is replies
        assert [reply_of(reply) for reply in replies] == [words.Entered(k) for k in range(1, 5)]


def test_commands_that_may_not_be_written_are_read() -> None:
    commands = some(3)
    commands.flags.writeable = False
    before = commands.tobytes()
    with Auction() as auction:
        assert len(auction.apply_many(commands)) == 3
    assert commands.tobytes() == before


def test_an_empty_array_is_no_call() -> None:
    with Auction() as auction:
        assert len(auction.apply_many(numpy.zeros(0, COMMAND))) == 0
        assert len(auction.apply_many(numpy.zeros(0, COMMAND), numpy.zeros(0, REPLY))) == 0
        assert auction.calls == 0


def test_a_part_of_an_array_is_applied_alone() -> None:
    with Auction() as auction:
        replies = numpy.zeros(10, REPLY)
        auction.apply_many(some(10)[3:5], replies[7:9])
        assert replies["tag"].tolist() == [0] * 7 + [1, 1, 0]


def test_the_first_struct_of_no_command_ends_it() -> None:
    commands = some(5)
    commands["tag"][3] = 99
    with Auction() as auction:
        replies = numpy.zeros(5, REPLY)
        with pytest.raises(NoCommandError, match="^command 3: .*: tag 99$") as raised:
            auction.apply_many(commands, replies)
        assert raised.value.applied == 3
        assert replied(raised.value)["id"].tolist() == [1, 2, 3]
        assert replies["id"].tolist() == [1, 2, 3, 0, 0]
        assert isinstance(raised.value, ValueError)
        assert auction.calls == 3


@pytest.mark.parametrize("field, number, text", [
    ("tag", 0, "tag 0"),
    ("side", 0, "side 0"),
    ("restriction", 3, "restriction 3"),
    ("has_limit", 2, "has_limit 2"),
    ("has_limit", 0, "limit 1 without has_limit"),
    ("peak", 7, "peak 7 without has_peak"),
])
def test_the_wrong_field_is_named(field: str, number: int, text: str) -> None:
    commands = some(1)
    commands[field] = number
    with Auction() as auction, pytest.raises(NoCommandError, match=f": {text}$"):
        auction.apply_many(commands)


def test_a_full_auction_ends_it() -> None:
    with Auction(max_calls=4) as auction:
        with pytest.raises(FullError, match="^command 4: ") as raised:
            auction.apply_many(some(6))
        assert raised.value.applied == 4
        assert replied(raised.value)["id"].tolist() == [1, 2, 3, 4]
        with pytest.raises(FullError) as raised:
            auction.apply_many(some(1))
        assert raised.value.applied == 0 and len(replied(raised.value)) == 0


def test_arrays_of_another_kind_are_refused() -> None:
    unaligned = numpy.zeros(3 * COMMAND.itemsize + 1, "u1")[1:].view(COMMAND)
    packed = numpy.dtype([(name, COMMAND[name]) for name in COMMAND.names or ()])
    swapped = COMMAND.newbyteorder()
    fixed = numpy.zeros(3, REPLY)
    fixed.flags.writeable = False
    bad: list[tuple[type[Exception], str, list[Any]]] = [
        (TypeError, "commands", [[1, 2]]),
        (TypeError, "commands", [None]),
        (TypeError, "commands", [bytes(32)]),
        (TypeError, "commands", [numpy.zeros(3)]),
        (TypeError, "commands", [numpy.zeros(3, REPLY)]),
        (TypeError, "commands", [numpy.zeros(3, packed)]),
        (TypeError, "commands", [numpy.zeros(3, swapped)]),
        (ValueError, "commands", [numpy.zeros((3, 3), COMMAND)]),
        (ValueError, "commands", [numpy.zeros((), COMMAND)]),
        (ValueError, "commands", [numpy.zeros(6, COMMAND)[::2]]),
        (ValueError, "commands", [some(3)[::-1]]),
        (ValueError, "commands", [unaligned]),
        (TypeError, "replies", [some(3), bytearray(192)]),
        (TypeError, "replies", [some(3), some(3)]),
        (ValueError, "replies", [some(3), fixed]),
        (ValueError, "replies", [some(3), numpy.zeros(2, REPLY)]),
        (ValueError, "replies", [some(3), numpy.zeros(4, REPLY)]),
        (ValueError, "replies", [some(3), numpy.zeros(6, REPLY)[::2]]),
    ]
    for fault, name, given in bad:
        with Auction() as auction:
            with pytest.raises(fault, match=f"^{name} must "):
                auction.apply_many(*given)
            assert auction.calls == 0


@pytest.mark.parametrize("begin", [0, 40, 80])
def test_arrays_that_share_memory_are_refused(begin: int) -> None:
    read, written = 2 * COMMAND.itemsize, 2 * REPLY.itemsize
    memory = numpy.zeros(written + read, "u1")
    memory[begin : begin + read].view(COMMAND)[:] = some(2)
    replies = memory[:written].view(REPLY)
    with Auction() as auction:
        with pytest.raises(ValueError, match="^replies must share no memory"):
            auction.apply_many(memory[begin : begin + read].view(COMMAND), replies)
        assert auction.calls == 0
        apart = memory[written:].view(COMMAND)
        apart[:] = some(2)
        assert auction.apply_many(apart, replies)["id"].tolist() == [1, 2]


@pytest.mark.parametrize("record", [None, 5, bytes(64), some(1)[0], numpy.zeros(1, REPLY)])
def test_what_is_no_reply_is_refused(record: object) -> None:
    with pytest.raises(TypeError, match="^record must be"):
        reply_of(record)  # type: ignore[arg-type]


# ---- garbage


def limit_of(row: numpy.void) -> int | None:
    return int(row["limit"]) if row["has_limit"] else None


OF_AN_ID: dict[CommandTag, Callable[[int], words.Command]] = {
    CommandTag.DELETE: words.Delete,
    CommandTag.ORDER_STATUS: words.OrderStatus,
    CommandTag.READ_TRADE: words.ReadTrade,
}


def has_its_flag(row: numpy.void, name: str) -> bool:
    """Whether a value's flag is 1, or both are 0."""
    return bool(row["has_" + name] == 1 or (row["has_" + name] == 0 and row[name] == 0))


def command_in(row: numpy.void) -> words.Command | None:
    """The command of a struct, by the header, or None."""
    tag = int(row["tag"])
    if tag == CommandTag.ENTER:
        is_flagged = has_its_flag(row, "limit") and has_its_flag(row, "peak")
        if row["side"] not in (1, 2) or row["restriction"] > 2 or not is_flagged:
            return None
        peak = int(row["peak"]) if row["has_peak"] else None
        restriction = words.Restriction(int(row["restriction"]))
        side, quantity = Side(int(row["side"])), int(row["quantity"])
        return words.Enter(side, quantity, limit_of(row), peak, restriction)
    if tag == CommandTag.CHANGE:
        if not has_its_flag(row, "limit"):
            return None
        return words.Change(int(row["id"]), int(row["quantity"]), limit_of(row))
    if tag in (CommandTag.DELETE, CommandTag.ORDER_STATUS, CommandTag.READ_TRADE):
        return OF_AN_ID[CommandTag(tag)](int(row["id"]))
    return words.Indicate() if tag == CommandTag.INDICATE else words.Uncross() if tag == 7 else None


def agrees(commands: Structs) -> None:
    """An array does what its commands do one by one, up to the first that is none."""
    given: list[tuple[int, words.Command]] = []
    for row in commands:
        command = command_in(row)
        if command is None:
            break
        given.append((int(row["member"]), command))
    applied = len(given)
    with Auction(max_open=4, range=3) as auction, auction.copy() as other:
        try:
            replies = auction.apply_many(commands)
            assert applied == len(commands)
        except NoCommandError as error:
            assert error.applied == applied < len(commands)
            assert re.search(r": (tag|side|restriction|has_|limit|peak)[^:]*\d", str(error))
            replies = replied(error)
        wanted = [other.apply(member, command) for member, command in given]
        assert [reply_of(reply) for reply in replies] == wanted
        assert auction.calls == other.calls == applied
        assert numpy.array_equal(auction.ladder(), other.ladder())
        assert numpy.array_equal(auction.trades(), other.trades())


def rows(size: int) -> strategies.SearchStrategy[bytes]:
    """Bytes of up to eight structs of this size."""
    return strategies.integers(0, 8).flatmap(
        lambda count: strategies.binary(min_size=size * count, max_size=size * count)
    )


@SHORT
@hypothesis.given(rows(COMMAND.itemsize))
def test_garbage_does_what_it_stands_for(given: bytes) -> None:
    agrees(numpy.frombuffer(given, COMMAND))


FIELDS = strategies.tuples(
    strategies.sampled_from([0, 1, 2, 3, 10, 20, 10**9, 10**9 + 1, 2**64 - 1]),
    strategies.sampled_from([0, 1, 5, 2**64 - 1]),
    strategies.sampled_from([0, 1, 2**64 - 1]),
    strategies.sampled_from([0, 1, 2, 3, 2**32 - 1]),
    strategies.sampled_from([0, 1, 199, 200, 201, 205, 1000, 1001, 2**32 - 1]),
    strategies.sampled_from([0, 0, 1, 255]),
    strategies.sampled_from([1, 1, 1, 1, 1, 2, 3, 4, 5, 6, 7, 7, *range(0, 10), 255]),
    strategies.sampled_from([1, 2, 1, 2, 1, 2, 1, 2, 0, 3, 255]),
    strategies.sampled_from([0, 0, 0, 0, 0, 1, 2, 3, 255]),
    strategies.sampled_from([1, 1, 1, 1, 1, 0, 2, 255]),
    strategies.sampled_from([0, 0, 0, 0, 0, 1, 2, 255]),
)


@SHORT
@hypothesis.given(strategies.lists(FIELDS, max_size=30))
def test_near_commands_do_what_they_stand_for(given: list[tuple[int, ...]]) -> None:
    agrees(numpy.array(given, COMMAND))


@SHORT
@hypothesis.given(strategies.binary(min_size=64, max_size=64))
def test_garbage_is_no_reply_or_is_read(given: bytes) -> None:
    record = numpy.frombuffer(given, REPLY)[0]
    try:
        reply_of(record)
    except ValueError as fault:
        assert str(fault) == "record is no reply of an auction"


ANYTHING = strategies.one_of(
    strategies.none(),
    strategies.integers(),
    strategies.integers(0, 1010),
    strategies.floats(),
    strategies.text(max_size=3),
    strategies.sampled_from([*Side, *words.Restriction, *words.Refusal]),
)


@SHORT
@hypothesis.given(strategies.lists(ANYTHING, min_size=6, max_size=6))
def test_any_arguments_are_answered_or_raise(given: list[object]) -> None:
    with Auction() as auction:
        calls: list[tuple[Any, int]] = [
            (auction.enter, 6),
            (auction.change, 4),
            (auction.delete, 2),
            (auction.order_status, 2),
            (auction.indicate, 1),
            (auction.read_trade, 2),
            (auction.uncross, 1),
            (auction.apply, 2),
        ]
        for call, count in calls:
            try:
                call(*given[:count])
            except (TypeError, ValueError):
                pass
        assert isinstance(auction.enter(1, BID, 1), words.Entered | words.Refused)

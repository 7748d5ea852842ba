"""The engine of audits answers alike by the library and by the program, and shows a line of the
program that is no reply.
"""
import random
import re
from typing import Any

import numpy
import pytest
from callauction.arrays import COMMAND
from callauction.program import Day
from callauction.verdict import audit_events, engine
from callauction.words import CommandTag, ReplyTag, Side
from damage import timed_day
from judging import frame_of

COMPARED = ("tag", "id", "ask", "quantity", "volume", "surplus", "tick", "side", "auction", "kept",
            "refusal", "has_tick", "trades")  # fmt: skip
"""The fields of replies that are read."""


def commands_of(chance: random.Random, count: int) -> Any:
    """Commands of any kind, each by a member who may give it."""
    found = numpy.zeros(count, COMMAND)
    for one in found:
        tag = chance.choice([1, 1, 1, 1, 2, 3, 5, 6, 7])
        one["tag"], one["member"] = tag, engine.OPERATOR if tag == 7 else engine.MEMBER
        if tag in (CommandTag.ENTER, CommandTag.CHANGE):
            one["quantity"] = chance.choice([0, 5, 10, 100])
            one["has_limit"] = chance.random() < 0.8
            one["limit"] = chance.randint(1, 9) if one["has_limit"] else 0
        if tag == CommandTag.ENTER:
            one["side"], one["restriction"] = chance.randint(1, 2), chance.choice([0, 0, 0, 1, 2])
        elif tag in (CommandTag.CHANGE, CommandTag.DELETE, CommandTag.READ_TRADE):
            one["id"] = chance.randint(1, 20)
    return found


@pytest.mark.parametrize("seed", range(40))
def test_both_answer_alike(seed: int, monkeypatch: pytest.MonkeyPatch) -> None:
    commands = commands_of(random.Random(seed), 60)
    found = engine.answers(9, 4, 8, commands)
    monkeypatch.setattr(engine, "_library", lambda: None)
    printed = engine.answers(9, 4, 8, commands)
    for name in COMPARED:
        own = found[name]
        if name == "trades":
            own = numpy.where(found["has_tick"] == 1, own, 0)
        shown = numpy.isin(found["tag"], _with(name))
        assert numpy.array_equal(own[shown], printed[name][shown]), name


def _with(name: str) -> list[ReplyTag]:
    """The tags of the replies that have a field of the program's lines."""
    prices = [ReplyTag.PRICED, ReplyTag.UNCROSSED]
    if name in ("volume", "surplus", "side", "has_tick", "tick"):
        return prices
    fields = {
        "id": [ReplyTag.ENTERED, ReplyTag.TRADED],
        "ask": [ReplyTag.TRADED],
        "quantity": [ReplyTag.TRADED],
        "auction": [ReplyTag.UNCROSSED],
        "kept": [ReplyTag.CHANGED],
        "refusal": [ReplyTag.REFUSED],
        "trades": [ReplyTag.UNCROSSED],
    }
    return fields.get(name, [*ReplyTag])


def answered_by(monkeypatch: pytest.MonkeyPatch, count: int, *lines: str) -> Any:
    """The replies to so many commands, for which the program prints these lines."""
    text = "".join(f"{line}\n" for line in lines)
    monkeypatch.setattr(engine, "_library", lambda: None)
    monkeypatch.setattr(Day, "printed", lambda day: text)
    commands = numpy.zeros(count, COMMAND)
    commands["tag"], commands["member"] = CommandTag.INDICATE, engine.MEMBER
    return engine.answers(9, 4, 8, commands)


def test_a_line_for_each_command_is_read(monkeypatch: pytest.MonkeyPatch) -> None:
    lines = (
        "1: price 4 volume 5 surplus 6 ask",
        "2: price 4 volume 5 surplus 0 none",
        "3: closing price 7 volume 8 surplus 9 bid trades 2",
    )
    found = answered_by(monkeypatch, 3, *lines)
    assert found["tag"].tolist() == [ReplyTag.PRICED, ReplyTag.PRICED, ReplyTag.UNCROSSED]
    assert found["side"].tolist() == [Side.ASK, Side.NONE, Side.BID]
    assert found["surplus"].tolist() == [6, 0, 9]


@pytest.mark.parametrize("line", [
    "1: price 4 volume 5 surplus 6 kept",
    "1: price 4 volume 5 surplus 6 opening",
    "1: price 4 volume 5 surplus 6 7",
    "1: closing price 4 volume 5 surplus 6 moved trades 1",
    "1: halted",
    "1: ",
    "one: deleted",
    "deleted",
])
def test_a_line_that_is_no_reply_is_shown(line: str, monkeypatch: pytest.MonkeyPatch) -> None:
    with pytest.raises(AssertionError, match=f"^{re.escape(line)}$"):
        answered_by(monkeypatch, 1, line)


@pytest.mark.parametrize("count, lines", [
    (2, ("1: deleted",)), (1, ("1: deleted", "2: deleted")), (1, ()),
])
def test_lines_are_as_many_as_commands(
    count: int, lines: tuple[str, ...], monkeypatch: pytest.MonkeyPatch
) -> None:
    with pytest.raises(ValueError, match="shorter|longer"):
        answered_by(monkeypatch, count, *lines)


def test_an_audit_is_the_same_by_the_program(monkeypatch: pytest.MonkeyPatch) -> None:
    for seed in range(12):
        extract = timed_day(seed)
        row = extract.rows[-1]
        if row["event"] == "trade":
            row["quantity"] = str(int(row["quantity"]) + 1)
        given: dict[str, Any] = dict(reference=extract.reference, range=extract.range)
        found = audit_events(frame_of(extract.rows), **given)
        monkeypatch.setattr(engine, "_library", lambda: None)
        assert audit_events(frame_of(extract.rows), **given).lines() == found.lines()
        monkeypatch.undo()

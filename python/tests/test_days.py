"""Whole days: the example files, and random ones beside the rules and beside the program."""
import os
import subprocess
from pathlib import Path

import pytest
from arrayed import array_of
from callauction import Auction, Traded, reply_of
from callauction.written import text_of
from printed import TOP, Options, commands_of, lines_of, opened

from checks.generators import orders
from checks.model import answers
from checks.model.files import FileFault

EXAMPLES = sorted((TOP / "examples").glob("*.csv"))
PROGRAM = os.environ.get("CALLBOARD")
"""The program that random files are given to, where python/test was given one."""


def options_of(file: Path) -> Options:
    """The options that an example is run with."""
    beside = file.with_suffix(".args")
    given = beside.read_text(encoding="utf-8").split() if beside.exists() else []
    named = {name.removeprefix("--"): int(value) for name, value in zip(given[::2], given[1::2])}
    defaults: Options = answers.DEFAULTS
    return defaults | named


def ways(options: Options, text: str) -> list[list[str]]:
    """The lines of a file, by calls, at once by an array after a reset, and in a copy from its
    middle on.
    """
    commands = commands_of(text)
    with opened(options) as auction:
        singly = lines_of(auction, commands)
        auction.reset()
        half = len(commands) // 2
        replies = [*auction.apply_many(array_of(commands[:half]))]
        with auction.copy() as other:
            replies += [*other.apply_many(array_of(commands[half:]))]
        assert auction.calls == half
    at_once = [f"{place}: {text_of(reply_of(row))}" for place, row in enumerate(replies, 1)]
    return [singly, at_once]


def test_there_are_examples() -> None:
    assert len(EXAMPLES) > 20


@pytest.mark.parametrize("file", EXAMPLES, ids=[file.stem for file in EXAMPLES])
def test_each_example_gives_its_lines(file: Path) -> None:
    wanted = file.with_suffix(".txt").read_text(encoding="utf-8").splitlines()
    assert ways(options_of(file), file.read_text(encoding="utf-8")) == [wanted, wanted]


def program_lines(program: str, options: Options, text: str) -> list[str]:
    """What the program prints for an order file."""
    words = [program, *orders.option_words(options)]
    ran = subprocess.run(words, input=text, capture_output=True, text=True, check=True, timeout=60)
    return ran.stdout.splitlines()


@pytest.mark.parametrize("kind, seeds", [("short", range(400)), ("long", range(12))])
def test_random_days_agree_with_the_rules_and_the_program(kind: str, seeds: range) -> None:
    played = 0
    for seed in seeds:
        options, text = orders.order_file(kind, seed)
        try:
            wanted = answers.printed(text, options).splitlines()
        except FileFault:
            continue  # one command more than `calls`: the program runs none
        assert ways(options, text) == [wanted, wanted], f"{kind} {seed}"
        if PROGRAM:
            assert program_lines(PROGRAM, options, text) == wanted, f"{kind} {seed}"
        played += 1
    assert played > 0.9 * len(seeds)


def test_the_tape_is_that_of_the_trades_asked_for() -> None:
    options, text = orders.order_file("long", 3)
    with opened(options) as auction:
        auction.apply_many(array_of(commands_of(text)))
        tape = auction.trades()
        numbers = range(0) if auction.is_full else range(1, len(tape) + 1)
        asked = [auction.read_trade(1, k) for k in numbers]
    for trade, row in zip(asked, tape):
        assert trade == Traded(*(int(row[name]) for name in ("bid", "ask", "quantity", "tick")))


def test_an_auction_may_have_one_tick() -> None:
    with Auction(5, 5, 5, 1, 1) as auction:
        assert auction.ladder()[0].tolist() == [0]

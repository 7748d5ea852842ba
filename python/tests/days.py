"""Days for tests: the examples with their options, and random commands."""
from collections.abc import Iterator
from pathlib import Path

import callauction as words
import pandas
from callauction.program import Day
from callauction.recording import RecordedAuction
from callauction.tables import BOOK, table_of
from hypothesis import strategies
from printed import TOP, Options

from checks.generators import orders as generated
from checks.model import answers

EXAMPLES = sorted((TOP / "examples").glob("*.csv"))
AUDITS = sorted((TOP / "examples/audits").glob("*.csv"))
FORMS = TOP / "examples/forms"
FEW = strategies.integers(1, 4)
TICKS = strategies.integers(5, 12)


def options_of(file: Path) -> dict[str, int]:
    """The options beside an example."""
    beside = file.with_suffix(".args")
    given = beside.read_text(encoding="utf-8").split() if beside.exists() else []
    return {name.removeprefix("--"): int(value) for name, value in zip(given[::2], given[1::2])}


def day_of(file: Path) -> Day:
    return Day.read(file, **options_of(file))


def order_files(count: int) -> Iterator[tuple[Options, str]]:
    """The examples, and so many random files, each with its options."""
    for file in EXAMPLES:
        yield answers.DEFAULTS | options_of(file), file.read_text(encoding="utf-8")
    for seed in range(count):
        yield generated.order_file("short", seed)


def form_of(file: Path, form: str) -> str:
    return (FORMS / f"{file.stem}.{form}.csv").read_text(encoding="utf-8")


def by_the_rules(day: Day, form: str) -> tuple[int, str, str]:
    """What the model of checks/model answers to a journal: a status, a text, and a fault."""
    content = day.content.decode("ascii")
    answer: tuple[int, str, str] = answers.answer(content, answers.DEFAULTS, form)
    return answer


def orders() -> strategies.SearchStrategy[words.Enter]:
    """New orders, most of them good: near a few ticks, a third of them market orders."""
    restricted = [words.Restriction.OPENING_ONLY, words.Restriction.CLOSING_ONLY]
    return strategies.builds(
        words.Enter,
        strategies.sampled_from([words.Side.BID, words.Side.ASK]),
        strategies.sampled_from([0, 1, 10, 10, 20, 50, 1_000_000_000, 1_000_000_001]),
        strategies.none() | TICKS | TICKS,
        strategies.none() | strategies.none() | strategies.sampled_from([0, 1, 10, 60]),
        strategies.sampled_from([words.Restriction.NONE] * 4 + restricted),
    )


def commands() -> strategies.SearchStrategy[tuple[int, words.Command]]:
    """A member and a command; ids and numbers are among the first ones."""
    ids = strategies.integers(1, 9)
    other = strategies.one_of(
        strategies.builds(words.Change, ids, FEW.map(lambda k: 10 * k), strategies.none() | TICKS),
        strategies.builds(words.Delete, ids),
        strategies.builds(words.OrderStatus, ids),
        strategies.builds(words.ReadTrade, ids),
        strategies.just(words.Indicate()),
    )
    members = strategies.integers(0, 3)
    return strategies.one_of(
        strategies.tuples(members, orders()),
        strategies.tuples(members, orders()),
        strategies.tuples(members, other),
        strategies.tuples(strategies.integers(0, 1), strategies.just(words.Uncross())),
    )


def auctions() -> strategies.SearchStrategy[RecordedAuction]:
    """Auctions of a few ticks, with little or much room, with and without a range."""
    return strategies.builds(
        RecordedAuction,
        strategies.just(6),
        strategies.just(11),
        strategies.integers(6, 11),
        strategies.sampled_from([1, 3, 50]),
        strategies.just(200),
        strategies.none() | strategies.integers(0, 3),
    )


def stored(name: str) -> pandas.DataFrame:
    """The stored books of an example."""
    return table_of(form_of(Path(name), "book"), BOOK)


def wide_day() -> Day:
    """An order at each of 65,536 ticks."""
    orders = (
        f"1,enter,{'bid' if tick % 2 else 'ask'},{tick % 97 + 1},{tick}\n"
        for tick in range(1, 65_537)
    )
    words = ("--high", "65536", "--reference", "30000", "--open", "65536", "--calls", "65537")
    return Day("".join(orders).encode("ascii"), words)


def seconds(time: str) -> int:
    """The seconds of a time such as 08:50:01 since midnight."""
    hour, minute, second = map(int, time.split(":"))
    return 3600 * hour + 60 * minute + second

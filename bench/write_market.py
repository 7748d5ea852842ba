#!/usr/bin/python3
"""Writes a market: `bench/write_market.py FOLDER [OPTIONS]`, a journal for each instrument.

    --instruments N  how many (2,000)
    --entries N      how many entries they have in all, about (10,000,000)
    --changed N      of how many instruments some replies are recorded otherwise (20)
    --seed N         another market
    --program P      the built program (what callauction.market finds)

The same options always give the same files. The sizes follow a power law: the K-th largest has
entries as K to the power of -0.9, none less than 12 or more than a day may have. A day has three
auctions over 1,000 ticks: entries, changes and deletes that hit open orders, and asks, as in
bench/orders.py. The replies are the program's own; in an instrument of the changed ones, one to
three of them get another number. FOLDER/changed.txt lists these: the instrument, how many of its
replies were changed, and the number of the first, as an audit has to find them.
"""
import argparse
import concurrent.futures
import dataclasses
import os
import pathlib
import random
import re
import shutil
import subprocess
import sys
from collections.abc import Iterator

import orders

TOP = pathlib.Path(__file__).resolve().parent.parent
sys.path.insert(0, str(TOP / "python"))

from callauction import finder  # noqa: E402

POWER = 0.9
LEAST, MOST = 12, 1_000_000
AUCTIONS = 3
TICKS = 1_000
MOST_BOOK = 3_000
"""How many orders are open at most, about."""
OPEN, CALLS = 4_096, 1_048_576
DAY = f"day,1,{TICKS},{TICKS // 2},{orders.MEMBERS},{OPEN},{CALLS},\n"
MOST_CHANGED = 3
NUMBER = re.compile(r"\d+")


def sizes(instruments: int, entries: int) -> list[int]:
    """How many entries each instrument has, the largest first: about `entries` in all.

    What is cut off at the most, or added for the least, is not spread over the others.
    """
    shares = [(place + 1) ** -POWER for place in range(instruments)]
    whole = sum(shares)
    return [min(MOST, max(LEAST, round(entries * share / whole))) for share in shares]


def phase(market: orders.Market, count: int) -> Iterator[str]:
    """The commands of a call phase: entries until there is a book, and then as in orders.mixed."""
    size = min(MOST_BOOK, count // 2)
    for place in range(count):
        roll = market.dice.random()
        if place < size:
            yield market.enter()
        elif roll < 0.10:
            yield f"{market.dice.randrange(orders.MEMBERS)},ask"
        elif roll < 0.35 and market.open:
            yield market.change()
        elif not market.open or (roll < 0.675 and len(market.open) < size * 1.1):
            yield market.enter()
        else:
            yield market.delete()


def commands(count: int, dice: random.Random) -> Iterator[str]:
    """A day of `count` commands. After an uncross only orders that came since are named."""
    next_id = 1
    for auction in range(AUCTIONS):
        market = orders.Market(TICKS, dice)
        market.next_id = next_id
        ends = [count * (auction + step) // AUCTIONS for step in range(2)]
        yield from phase(market, ends[1] - ends[0] - 1)
        yield "0,uncross"
        next_id = market.next_id


def lawful(program: str, entries: Iterator[str]) -> list[str]:
    """The journal of a day, as the program prints it: its lines."""
    text = DAY + "".join(f"{entry},\n" for entry in entries)
    words = [program, "--print", "journal"]
    ran = subprocess.run(words, input=text, stdout=subprocess.PIPE, text=True, check=True)
    return ran.stdout.splitlines(keepends=True)


def changed(lines: list[str], dice: random.Random) -> tuple[list[str], list[int]]:
    """The lines with another number in a few replies, and the numbers of their entries, which rise.
    """
    numbered = [place for place in range(1, len(lines)) if NUMBER.search(reply_of(lines[place]))]
    chosen = sorted(dice.sample(numbered, min(len(numbered), dice.randint(1, MOST_CHANGED))))
    found = [*lines]
    for place in chosen:
        reply = reply_of(lines[place])
        other = NUMBER.sub(lambda number: str(int(number[0]) + 1), reply, count=1)
        found[place] = lines[place].removesuffix(reply) + other
    return found, chosen


def reply_of(line: str) -> str:
    """The recorded reply of an entry's line, with the line's end."""
    return line.rsplit(",", 1)[1]


@dataclasses.dataclass(frozen=True)
class JournalPlan:
    """A journal to write: the place of its instrument, how many commands it has, the seed of all,
    and whether some of its replies are changed.
    """

    place: int
    count: int
    seed: int
    is_changed: bool


def write(folder: pathlib.Path, journal: JournalPlan, program: str) -> str:
    """Writes the journal of an instrument by this program: its line of changed.txt, if it is a
    changed one.
    """
    dice = random.Random(f"{journal.seed} {journal.place}")
    name = f"I{journal.place + 1:05}"
    lines = lawful(program, commands(journal.count, dice))
    lines, entries = changed(lines, dice) if journal.is_changed else (lines, [])
    with open(folder / f"{name}.csv", "w", encoding="ascii") as out:
        out.writelines(lines)
    return f"{name} {len(entries)} {entries[0]}\n" if entries else ""


def write_market(folder: pathlib.Path, asked: argparse.Namespace, program: str) -> None:
    """Writes all journals by this program, on all cores, and the list of the changed ones."""
    dice = random.Random(asked.seed)
    counts = sizes(asked.instruments, asked.entries)
    dice.shuffle(counts)
    chosen = set(dice.sample(range(asked.instruments), asked.changed))
    journals = [
        JournalPlan(place, count, asked.seed, place in chosen) for place, count in enumerate(counts)
    ]
    with concurrent.futures.ProcessPoolExecutor() as pool:
        longest_first = sorted(journals, key=lambda it: -it.count)
        tasks = [pool.submit(write, folder, it, program) for it in longest_first]
        lines = sorted(task.result() for task in tasks)
    (folder / "changed.txt").write_text("".join(lines), encoding="ascii")


def arguments() -> argparse.ArgumentParser:
    """What reads the words of the command line."""
    parser = argparse.ArgumentParser(prog="bench/write_market.py", description="Writes a market.")
    parser.add_argument("folder", type=pathlib.Path, help="where; what it has goes")
    parser.add_argument("--instruments", type=int, default=2_000)
    parser.add_argument("--entries", type=int, default=10_000_000)
    parser.add_argument("--changed", type=int, default=20)
    parser.add_argument("--seed", type=int, default=20261124)
    parser.add_argument("--program")
    return parser


def main() -> None:
    asked = arguments().parse_args()
    begun = asked.folder.with_name(f"{asked.folder.name}.new")
    shutil.rmtree(begun, ignore_errors=True)
    begun.mkdir(parents=True)
    write_market(begun, asked, asked.program or finder.program_path())
    shutil.rmtree(asked.folder, ignore_errors=True)
    os.replace(begun, asked.folder)


if __name__ == "__main__":
    main()

"""What an added order costs with the price after it, on dense and on sparse books of 1,000 and of
65,536 ticks.

Runs `clock price` of crates/clock. At 65,536 ticks it may take three times as long as at 1,000, and
2,000 nanoseconds at most.
"""
import argparse

import measuring
from measuring import Figures
from tables import head, row

MOST_TIMES = 3.0
MOST_NANOSECONDS = 2_000
SMALL, LARGE = "1000", "65536"
BOOKS = [
    ("dense", f"{SMALL} {SMALL}", f"{LARGE} {LARGE}"),
    ("sparse", f"{SMALL} 20", f"{LARGE} 20"),
]
"""A name, and the ticks and limits of a book of 1,000 ticks and of one of 65,536."""


def measure(asked: argparse.Namespace) -> bool:
    clock = measuring.our_clock(asked.clock)
    found: Figures = {}
    for _ in range(asked.runs):
        measuring.collect_figures([clock, "price"], found, units=1)
    best = {name: min(numbers) for name, numbers in found.items()}
    head("ticks", "limits", "ns an order and price")
    for name, nanoseconds in best.items():
        row(*name.split(), f"{nanoseconds:.0f}")
    print()
    head("book", f"{LARGE} ticks : {SMALL}", "at most")
    is_right = max(ns for name, ns in best.items() if name.startswith(LARGE)) <= MOST_NANOSECONDS
    for name, small, large in BOOKS:
        ratio = best[large] / best[small]
        is_right &= ratio <= MOST_TIMES
        row(name, f"{ratio:.2f}", f"{MOST_TIMES:.2f}")
    return is_right

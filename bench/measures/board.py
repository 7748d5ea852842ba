"""What a board's calls and looks take beside the same commands on an auction alone.

Runs `clock board` of crates/clock: nanoseconds for one, the best of the runs (beside calls the
middle one, as a thread that found no core makes no calls), and calls or looks a second of all
members together. Its members enter, change and delete orders and ask, on a book of 1,000 orders.
"""
import argparse
import statistics

import measuring
from measuring import Figures
from tables import head, row

ORDER = [
    "apply-alone",
    "apply-and-show-alone",
    "calls-of-1-member",
    "calls-of-2-members",
    "calls-of-4-members",
    "look",
    "look-of-4-members",
    "look-beside-calls",
    "look-beside-calls-now-and-then",
    "look-under-lock",
    "look-under-lock-beside-calls",
]
RATIOS = [
    ("a call of one member : apply alone", "calls-of-1-member", "apply-alone"),
    ("a call of one member : apply and show", "calls-of-1-member", "apply-and-show-alone"),
    ("calls a second of 4 members : of 1", "calls-of-1-member", "calls-of-4-members"),
    ("looks a second of 4 members : of 1", "look", "look-of-4-members"),
    ("a look beside calls : an idle one", "look-beside-calls", "look"),
    ("a look beside calls now and then : an idle one", "look-beside-calls-now-and-then", "look"),
]


def measure(asked: argparse.Namespace) -> bool:
    clock = measuring.our_clock(asked.clock)
    found: Figures = {}
    for _ in range(asked.runs):
        measuring.collect_figures([clock, "board"], found, units=1)
    taken = {
        name: statistics.median_low(numbers) if "beside" in name else min(numbers)
        for name, numbers in found.items()
    }
    head("what", "ns", "a second")
    for name in ORDER:
        row(name, f"{taken[name]:.1f}", f"{1e9 / taken[name]:,.0f}")
    print()
    head("ratio", "times")
    for what, above, below in RATIOS:
        row(what, f"{taken[above] / taken[below]:.2f}")
    return True

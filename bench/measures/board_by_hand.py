"""What a call on a board takes beside one on a board written by hand.

Runs bench/board_by_hand.cpp, which has both: nanoseconds of the wall for a call, the best of the
runs, by 1, 2, 4 and 8 threads at once. A board written by hand is a mutex, an auction of the
library, a vector for the history and a sequence lock for what is shown. Needs c++.
"""
import argparse
import tempfile

import measuring
from measuring import Figures
from tables import head, row

LIMITS = {"waiting": 1.0, "trying": 1.1}
"""The most that a call may take, in times of one on the board written by hand."""
THREADS = (1, 2, 4, 8)


def measure(asked: argparse.Namespace) -> bool:
    library = measuring.our_library(asked.library)
    found: Figures = {}
    with tempfile.TemporaryDirectory() as folder:
        program = measuring.compiled("board_by_hand.cpp", library, folder)
        for _ in range(asked.runs):
            measuring.collect_figures([program], found)
    is_right = True
    head("calls, threads", "ns", "by hand, ns", "ours : by hand", "limit")
    for way, limit in LIMITS.items():
        for threads in THREADS:
            name = f"{way}-{threads}"
            ours, by_hand = min(found[name]), min(found[f"{name}-by-hand"])
            is_right &= ours <= limit * by_hand
            row(name, f"{ours:.1f}", f"{by_hand:.1f}", f"{ours / by_hand:.2f}", f"{limit}")
    return is_right

"""What the calls of the library for C take beside the same commands on an auction inside.

Runs bench/library.c and `clock board` of crates/clock in turns: nanoseconds, the best and the
middle one of the runs. `clone-over` writes over the last clone. `apply-display` is an `apply` with
a `display` after it, which a call on a board makes too; `board-call` is one where nobody has
looked, `board-call-watched` one where somebody has; `board-call-of-4` has four members at once on
threads of their own, a call on the wall. Needs cc.
"""
import argparse
import statistics
import tempfile

import measuring
from measuring import Figures
from tables import head, row

INSIDE = "apply-alone"
ORDER = [INSIDE, "apply", "apply-many", "clone", "clone-over", "close", "reset"]
ORDER += ["apply-display", "board-call", "board-call-watched", "board-call-of-4", "board-look"]
CALLS = ["apply", "apply-many", *ORDER[-5:-1]]
"""Those that are held against the command inside."""


def measure(asked: argparse.Namespace) -> bool:
    library, clock = measuring.our_library(asked.library), measuring.our_clock(asked.clock)
    found: Figures = {}
    with tempfile.TemporaryDirectory() as folder:
        program = measuring.compiled("library.c", library, folder)
        for _ in range(asked.runs):
            measuring.collect_figures([program], found)
            measuring.collect_figures([clock, "board"], found, units=1)
    head("call", "best, ns", "middle, ns", "best : inside", "middle : inside")
    inside = min(found[INSIDE]), statistics.median_low(found[INSIDE])
    for name in ORDER:
        taken = min(found[name]), statistics.median_low(found[name])
        ratios = [f"{it / of:.2f}" if name in CALLS else "" for it, of in zip(taken, inside)]
        row(name, *[f"{it:,.1f}" for it in taken], *ratios)
    return True

"""What calls from Python take beside the same calls from C.

Runs bench/python.c and bench/python_calls.py in turns: nanoseconds, the best and the middle one of
all means of a thousand calls. Needs what python/build needs.
"""
import argparse
import os
import statistics
import subprocess
import sys
import tempfile

import measuring
from measuring import Figures
from tables import head, row

sys.path.insert(0, str(measuring.TOP / "build"))

import debian  # noqa: E402


def measure(asked: argparse.Namespace) -> bool:
    interpreter = debian.python_with(("cffi", "numpy", "Python.h"))
    library = measuring.our_library(asked.library)
    from_c: Figures = {}
    from_python: Figures = {}
    with tempfile.TemporaryDirectory() as folder:
        package = f"{folder}/package"
        build = [str(measuring.TOP / "python/build"), str(library), package]
        subprocess.run(build, check=True, stdout=sys.stderr)
        program = measuring.compiled("python.c", library, folder)
        calls = [interpreter, str(measuring.TOP / "bench/python_calls.py")]
        environment = os.environ | {"PYTHONPATH": package}
        for _ in range(asked.runs):
            measuring.collect_figures([program], from_c)
            measuring.collect_figures(calls, from_python, environment)
    head("call", "C, best, ns", "C, middle", "Python, best", "Python, middle", "more, ns", "times")
    for name, numbers in from_c.items():
        ours = min(from_python[name]), statistics.median_low(from_python[name])
        theirs = min(numbers), statistics.median_low(numbers)
        more, times = ours[0] - theirs[0], ours[0] / theirs[0]
        row(name, *[f"{it:.1f}" for it in [*theirs, *ours]], f"{more:.0f}", f"{times:.2f}")
    return True

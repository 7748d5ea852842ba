"""What a machine has free for checks of proofs."""
import os
import pathlib
import re

GIB = 2**30
GIB_OF_A_CHECK = 4
"""The memory that has to be free where a check of proofs begins."""


def cores() -> int:
    """How many cores this process may use."""
    return len(os.sched_getaffinity(0))


def free_gib() -> float:
    """The memory that is free, in GiB; unknown counts as plenty."""
    try:
        text = pathlib.Path("/proc/meminfo").read_text(encoding="ascii")
    except OSError:
        return float("inf")
    found = re.search(r"MemAvailable:\s+(\d+) kB", text)
    return int(found[1]) * 1024 / GIB if found else float("inf")

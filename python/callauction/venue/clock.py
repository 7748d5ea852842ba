"""The clock by which call phases begin and end: the time of the epoch as it was when this process
began, and how long it has run, asleep too. So a call phase keeps its length where the machine's
clock is set.
"""
import contextlib
import pathlib
import time

BOOT_ID = pathlib.Path("/proc/sys/kernel/random/boot_id")
BEGAN = time.time() - time.clock_gettime(time.CLOCK_BOOTTIME)


def boot() -> str:
    """What names this run of the machine, in which `BEGAN` differs by as much as its clock was set;
    empty where that can't be known.
    """
    with contextlib.suppress(OSError):
        return BOOT_ID.read_text("ascii").strip()
    return ""


def set_by() -> float:
    """By how many seconds the machine's clock was set since this process began: it is as much ahead
    of `now`.
    """
    return time.time() - now()


def now() -> float:
    """The time, in seconds of the epoch."""
    return BEGAN + time.clock_gettime(time.CLOCK_BOOTTIME)

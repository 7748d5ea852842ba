"""Which instruments, or days, of a file its end can't cut."""
import numpy

from callauction.verdict import time_columns
from callauction.verdict.cells import Codes, Ints, Mask

FALL = 60 * time_columns.SECOND
"""By how much times fall at least where the rows of another day, or instrument, begin."""


def are_over(codes: Codes, count: int, time: Ints | None) -> Mask:
    """Which of so many instruments, by the number of each row's (below 0 for none), have no row
    behind a file's end: times, in nanoseconds, fall by more than FALL below their last row. Where
    times (None for none) say nothing of it, and each has its rows together, all but the last one.
    """
    known = numpy.flatnonzero(codes >= 0)
    own, last = codes[known], numpy.full(count, -1, "i8")
    last[own] = known
    if time is not None and (time != time_columns.NO_TIME).any():
        lowest = numpy.where(time == time_columns.NO_TIME, numpy.iinfo("i8").max, time)
        lowest = numpy.minimum.accumulate(lowest[::-1])[::-1]
        falls: Mask = lowest[last] < numpy.where(last < 0, time_columns.NO_TIME, time[last] - FALL)
        return falls
    parts = 1 + numpy.count_nonzero(own[1:] != own[:-1])
    is_apart = parts == numpy.count_nonzero(last >= 0)
    found: Mask = is_apart & (last < last.max(initial=-1))
    return found

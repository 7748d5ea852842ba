"""A column of times as whole nanoseconds: cells of one length and layout are read at once."""
import re

import numpy

from callauction.verdict import times
from callauction.verdict.cells import Bytes, Cells, Ints

NO_TIME = numpy.iinfo("i8").min
"""The number of a time that isn't there or can't be read."""
SECOND = 10**9
DAY = times.DAY_SECONDS * SECOND
LONGEST_SESSION = 18 * 3600 * SECOND
"""How long a session may be in nanoseconds: times that fall by more are the next day's."""
DATED = 2 * DAY
"""From which nanosecond on a time has a date: below it one without may be the next day's."""
_AT_ONCE = 1 << 17


def dates_of(cells: Cells) -> str:
    """Which of times.STROKES the dates of a column of times are (times.strokes_of)."""
    start = cells.start[cells.length > 0]
    if not (cells.buffer[start[:, None] + [1, 2]] == ord("/")).any():
        return ""
    codes, first = cells.layouts()
    found = set[str]()
    for number, row in enumerate(first.tolist()):
        date = times.date_text(cells.text(row))
        those = cells.take(numpy.flatnonzero(codes == number))
        width = numpy.full(len(those), len(date))
        found |= {*Cells(those.buffer, those.start, width).texts()[1]} if date else {""}
    return times.strokes_of(found)


def nanoseconds(cells: Cells, dates: str = "") -> Ints:
    """Each cell's time in nanoseconds, as verdict.times has it in seconds; NO_TIME for none."""
    found = numpy.full(len(cells), NO_TIME, "i8")
    for length in numpy.unique(cells.length[cells.length > 0]):
        rows = numpy.flatnonzero(cells.length == length)
        for begin in range(0, len(rows), _AT_ONCE):
            _read(cells, rows[begin : begin + _AT_ONCE], int(length), found, dates)
    left = numpy.flatnonzero((found == NO_TIME) & (cells.length > 0))
    if len(left):
        codes, texts = cells.take(left).texts()
        found[left] = numpy.array([*(nanosecond(it, dates) for it in texts), NO_TIME], "i8")[codes]
    return found


def nanosecond(text: str, dates: str = "") -> int:
    """The nanoseconds of one time, NO_TIME where it is none or isn't whole in them."""
    value = times.seconds(text, dates)
    scaled = None if value is None else value * SECOND
    return NO_TIME if scaled is None or scaled != int(scaled) or scaled >= 2**62 else int(scaled)


def _read(cells: Cells, rows: Ints, length: int, found: Ints, dates: str) -> None:
    """Reads the cells of one length that are laid out as the first of them."""
    layout = times.CLOCK.fullmatch(cells.text(int(rows[0])))
    if layout is None or layout.end() != length or layout["half"] or not layout["second"]:
        return
    signs = cells.buffer[cells.start[rows][:, None] + numpy.arange(length)]
    is_digit = (signs >= ord("0")) & (signs <= ord("9"))
    good = (is_digit == is_digit[0]).all(1)
    zone = layout.span("zone")
    literal = [it for it in range(length) if not is_digit[0, it] or zone[0] <= it < zone[1]]
    good &= (signs[:, literal] == signs[0, literal]).all(1)
    hour, minute, second = (_number(signs, layout, it) for it in ("hour", "minute", "second"))
    good &= (hour <= 23) & (minute <= 59) & (second <= 60)
    clock = hour * 3600 + minute * 60 + second - times.offset(layout["zone"])
    if layout["date"] is not None:
        begin, end = layout.span("date")
        width = numpy.full(len(rows), end - begin)
        codes, texts = Cells(cells.buffer, cells.start[rows] + begin, width).texts()
        days = numpy.array([times.days(text, dates) or 0 for text in texts], "i8")[codes]
        clock, good = clock + days * times.DAY_SECONDS, good & (days > 0)
    value = clock * SECOND
    if layout["part"] is not None:
        value += _number(signs, layout, "part") * 10 ** (9 - len(layout["part"]))
    found[rows[good]] = value[good]


def _number(signs: Bytes, layout: "re.Match[str]", name: str) -> Ints:
    """The whole number that a part of each cell is."""
    begin, end = layout.span(name)
    value = numpy.zeros(len(signs), "i8")
    for place in range(begin, end):
        value = value * 10 + (signs[:, place] - ord("0"))
    return value

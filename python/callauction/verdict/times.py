"""Times of an extract as numbers that can be compared."""
import datetime
import re
from collections.abc import Iterable
from decimal import Decimal

import pandas

CLOCK = re.compile(
    r"(?:(?P<date>\d{4}-\d\d-\d\d|\d{8}|\d{1,2}\.\d{1,2}\.\d{4}|\d{4}/\d{1,2}/\d{1,2}"
    r"|\d{1,2}/\d{1,2}/\d{4})[T \-])?"
    r"(?P<hour>\d{1,2}):(?P<minute>\d\d)(?::(?P<second>\d\d)(?:[.,](?P<part>\d{1,9}))?)?"
    r"(?: ?(?P<half>[AP]M))?(?P<zone>Z|[+-]\d\d:?\d\d)?",
    re.ASCII,
)
"""A time of day with signs."""
_STAMP = re.compile(
    r"(?P<date>(?:19|20)\d{6})(?P<hour>\d\d)(?P<minute>\d\d)(?P<second>\d\d)"
    r"(?P<part>(?:\d{3}){0,3})(?P<half>)(?P<zone>)",
    re.ASCII,
)
"""A date and a time without signs."""
_EPOCHS = ((10**17, 10**9), (10**14, 10**6), (10**11, 10**3))
"""From which number on one is of nanoseconds, of microseconds and of milliseconds."""
_EPOCH = 10**8
"""From which number on one counts from an epoch."""
_LAST = 253_402_300_800
"""The first second that is of no year of four digits."""
_NUMBER = re.compile(r"\d{1,30}(?:[.,]\d{1,30})?", re.ASCII)
_DATES = {"-": "%Y-%m-%d", ".": "%d.%m.%Y", "": "%Y%m%d", "/": "%Y/%m/%d"}
STROKES = {"dmy": "%d/%m/%Y", "mdy": "%m/%d/%Y"}
"""What a date with strokes and the year last may be."""
DAY_SECONDS = 86_400
_FIRST_DAY = datetime.date(1970, 1, 1).toordinal() - 1
"""The day before the first one: so nanoseconds of a date fit into 62 bits."""


def shown(value: object) -> str:
    """A time as an extract has it; empty for none."""
    if value is None or value is pandas.NaT or value is pandas.NA or value != value:
        return ""
    if isinstance(value, datetime.datetime | datetime.time):
        return value.isoformat()
    return str(value).strip()


def legible(text: str) -> str:
    """A time as a person reads it: that of an epoch's number in place of that, in UTC."""
    number = _number(text)
    if number is None or not _EPOCH <= number[0] < _LAST * number[1]:
        return text
    digits = len(str(number[1])) - 1 - int(number[0].as_tuple().exponent)
    whole, part = divmod(number[0] / number[1], 1)
    moment = datetime.datetime(1970, 1, 1) + datetime.timedelta(seconds=int(whole))
    return f"{moment}{f'{part:.{digits}f}'[1:]}Z"


def _found(text: str) -> "re.Match[str] | None":
    """The parts of a time; None for a number, or none."""
    return _STAMP.fullmatch(text) or CLOCK.fullmatch(text)


def _number(text: str) -> tuple[Decimal, int] | None:
    """The number that a time is, and how many of it are a second; None for another one."""
    if _STAMP.fullmatch(text) or not _NUMBER.fullmatch(text):
        return None
    number = Decimal(text.replace(",", "."))
    return number, next((unit for least, unit in _EPOCHS if number >= least), 1)


def seconds(value: object, dates: str = "") -> Decimal | None:
    """The seconds of a time: since its day's begin, or that of the first day where it has a date; a
    number is what it is, a large one a part of a second. None where it is no time. `dates` is one
    of STROKES, where it is known which.
    """
    text = shown(value)
    number, found = _number(text), _found(text)
    if number is not None:
        return number[0] / number[1]
    if not found:
        return None
    parts = [int(found[name] or 0) for name in ("hour", "minute", "second")]
    if found["half"]:
        parts[0] = parts[0] % 12 + 12 * (found["half"] == "PM") if 0 < parts[0] < 13 else 24
    if parts[0] > 23 or parts[1] > 59 or parts[2] > 60:
        return None
    clock = parts[0] * 3600 + parts[1] * 60 + parts[2]
    date = days(found["date"], dates)
    if date is None:
        return None
    part = Decimal(f"0.{found['part'] or 0}")
    return date * DAY_SECONDS + clock - offset(found["zone"]) + part


def form_of_time(text: str) -> tuple[bool, bool, bool] | None:
    """Whether a time is a number, has a date or is of an epoch, and has a zone; None for none."""
    number, found = _number(text), _found(text)
    if number is not None:
        return True, number[0] >= _EPOCH, False
    return (False, bool(found["date"]), bool(found["zone"])) if found else None


def step_of(text: str) -> int:
    """How many nanoseconds a time is of, by its last digit; 0 for none."""
    number, found = _number(text), _found(text)
    if number is not None:
        return max(1, int(Decimal(10 ** 9).scaleb(int(number[0].as_tuple().exponent)) / number[1]))
    if not found:
        return 0
    step = 60_000_000_000 if found["second"] is None else 1_000_000_000
    return step // int("1".ljust(1 + len(found["part"] or ""), "0"))


def date_text(text: str) -> str:
    """The date of a time as it is there; empty for none."""
    found = _found(text)
    return found["date"] or "" if found else ""


def is_stroked(date: str) -> bool:
    """Whether a date's first number may be the day or the month."""
    return "/" in date[:3]


def strokes_of(dates: Iterable[str]) -> str:
    """Which of STROKES all dates with strokes are; either where all dates are one; empty where none
    is, or both are.
    """
    known = {*dates}
    stroked = [*filter(is_stroked, known)]
    fit = [it for it in STROKES if stroked and all(days(date, it) for date in stroked)]
    return fit[0] if len(fit) == 1 or fit and len(known) == 1 else ""


def date_of(text: str, dates: str = "") -> datetime.date | None:
    """The date of a time; None where it has none."""
    number = days(date_text(text) or None, dates)
    return datetime.date.fromordinal(number + _FIRST_DAY) if number else None


def days(date: str | None, dates: str = "") -> int | None:
    """The number of a date, 0 for none given; None for no date, or where its first number may be
    the day or the month.
    """
    if date is None:
        return 0
    sign = next((it for it in "-./" if it in date), "")
    form = STROKES.get(dates, "") if is_stroked(date) else _DATES[sign]
    try:
        return datetime.datetime.strptime(date, form).toordinal() - _FIRST_DAY
    except ValueError:
        return None


def offset(zone: str | None) -> int:
    """The seconds that a zone's clocks are ahead."""
    if not zone or zone == "Z":
        return 0
    digits = zone[1:].replace(":", "")
    ahead = int(digits[:2]) * 3600 + int(digits[2:]) * 60
    return ahead if zone[0] == "+" else -ahead

"""The likely cause of a record's fault or of a day's, by the rules of docs/FORMATS.md.

It shares no code with the program. It takes plain fields alone, as checks.model.files does.
"""
import re

from checks.model.day import MOST_TICKS, Options
from checks.model.files import FIELDS, is_journal, number, records

START_BYTES = 16_384
FAULT = re.compile(
    r"record (?P<place>\d+): (?P<what>bad member|bad command|bad field (?P<field>\d+)"
    r"|not a day record)"
)
BYTE_ORDER_MARKS = ("\xff\xfe", "\xfe\xff")
FIRST_NAMES = 5  # fields of a header that begin with letters
DAY_FIELDS = {"low": 1, "high": 2, "members": 4}
BOUNDS_FIELDS = {"low": 1, "high": 2, "reference": 3}


def form_cause(place: int, fields: list[str]) -> str | None:
    """What the input is likely to be, by its record with this number, if it is none of ours."""
    first = fields[0]
    if place == 1 and (first.startswith(BYTE_ORDER_MARKS) or "\0" in first[:2]):
        return "the input looks like UTF-16: save it as UTF-8"
    for sign, name in (";", "semicolons"), ("\t", "tabs"):
        if len(fields) == 1 and sign in first:
            return f"the input has {name}: fields are parted by commas"
    names = [field for field in fields[:FIRST_NAMES] if re.match("[A-Za-z]", field)]
    if place == 1 and len(names) == FIRST_NAMES and fields[1].lower() not in FIELDS:
        return "the first record looks like a header: leave it out"
    return None


def words_at(place: int, word: str) -> list[str]:
    """The words that a field may have, counted from 1, of a record with this command word."""
    if place == 2:
        return list(FIELDS)
    if place == 3 and word == "enter":
        return ["bid", "ask"]
    return {5: ["market"], 7: ["opening", "closing"]}.get(place, [])


def takes_a_number(place: int, word: str) -> bool:
    """Whether a number may be in a field, counted from 1, of a record with this word."""
    return place not in (2, 7) and not (place == 3 and word == "enter")


def field_cause(place: int, fields: list[str], options: Options) -> str | None:
    """Why a field, counted from 1, is bad in a record of a day of these options."""
    field = fields[place - 1] if place <= len(fields) else ""
    word = fields[1] if len(fields) > 1 else ""
    if field[:1] in (" ", "\t") and field or field[-1:] in (" ", "\t") and field:
        return "a field has no spaces around it"
    is_day = fields[0] == "day"
    if not is_day and field.lower() in words_at(place, word):
        return "words are in lower case"
    if not is_day and place == 3 and word == "enter" and field.lower() in ("buy", "sell"):
        return "a side is bid or ask"
    if (is_day or takes_a_number(place, word)) and re.fullmatch(r"\d*\.\d*", field, re.ASCII):
        return "numbers are whole, prices in ticks" if field != "." else None
    is_whole = re.fullmatch(r"-?\d+", field, re.ASCII) and not is_day
    if is_whole and place == 1:
        return f"members are numbered from 0, and there are {options['members']}"
    if is_whole and place == 5:
        return f"limits are ticks from {options['low']} to {options['high']}"
    return None


def record_cause(what: str, place: int, fields: list[str], options: Options) -> str | None:
    """The likely cause of what is said of the record with this number, as `bad field 3`."""
    if what == "bad member":
        return form_cause(place, fields) or field_cause(1, fields, options)
    if what == "bad command":
        return field_cause(2, fields, options)
    if what == "not a day record":
        return form_cause(place, fields)
    if what.startswith("bad field "):
        return field_cause(int(what.removeprefix("bad field ")), fields, options)
    return None


def day_options(text: str, options: Options, places: dict[str, int]) -> Options:
    """These options, with what the first record of a journal says in these places instead."""
    if not is_journal(text):
        return options
    day = next(records(text))
    numbers = {name: number(day[k]) for name, k in places.items() if k < len(day)}
    if len(numbers) < len(places) or None in numbers.values():
        return options
    return {**options, **numbers}


def bounds_cause(start: str, options: Options) -> str:
    """What is wrong with the bounds or the reference of the day of an input that begins so."""
    if len(start) == START_BYTES and len(list(records(start))) < 2:
        return ""
    day = day_options(start, options, BOUNDS_FIELDS)
    low, high, reference = day["low"], day["high"], day["reference"]
    if low > high:
        return f"low {low} is above high {high}\n"
    if high - low + 1 > MOST_TICKS:
        return f"low {low} to high {high} are more than {MOST_TICKS} ticks\n"
    return f"the reference {reference} is outside {low} to {high}\n"


def likely_cause(fault: str, text: str, options: Options) -> str:
    """The line that follows this fault of this input, for a day of these options, on standard
    error, or nothing.
    """
    if fault in ("bad bounds", "bad reference"):
        return bounds_cause(text[:START_BYTES], options)
    found = FAULT.fullmatch(fault)
    if found is None:
        return ""
    place = int(found["place"])
    rows = list(records(text[:START_BYTES]))
    if len(rows) < (place if len(text) < START_BYTES else place + 1):
        return ""
    fields = rows[place - 1]
    is_reply = place > 1 and is_journal(text) and found["field"] == str(len(fields))
    if is_reply:
        return ""
    day = day_options(text[:START_BYTES], options, DAY_FIELDS)
    cause = record_cause(found["what"], place, fields, day)
    return f"{cause}\n" if cause else ""

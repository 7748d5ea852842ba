"""The day with which a folder was begun, as its log has it, beside that with which it goes on. An
instrument must be as it was, as its journal and its money are in ticks of it; what else changed is
said.
"""
import dataclasses
import hashlib
import pathlib
import time
from collections.abc import Iterable, Sequence

from callauction.venue import config
from callauction.venue.fix_terms import SENT
from callauction.venue.log import Line, taking

TERMS = ("low", "high", "reference", "range", "open", "calls", "currency")
"""What an instrument has to have as it was, beside its name and its tick size."""
DAY_FILE_KEYS = {"is_synced": "sync", "plan": "phases", "bounds": "limits"}
DAY_FILE_KEYS |= {"rounds": "round", "instruments": "instrument"}
"""The keys of a day's file whose fields have other names."""
BEGIN_ANEW = "--folder NEW begins anew"
"""What may be done instead."""


class OtherDayError(ValueError):
    """A folder was begun with another instrument; the text says what is another."""


class OtherTermsError(OtherDayError):
    """An instrument of the day isn't as it was. `fault` says in which folder, and what."""

    def __init__(self, folder: pathlib.Path, why: str) -> None:
        self.fault = f"{folder} was begun with another day: {why}"
        super().__init__(f"{self.fault}; {BEGIN_ANEW}")


def date_of(moment: float) -> str:
    """The date of a time in seconds of the epoch, where this machine is."""
    return time.strftime("%Y-%m-%d", time.localtime(moment))


def kept(day: config.DayTerms) -> Line:
    """What is written down of a day: the terms of its instruments, and a digest of each part."""
    parts = {
        DAY_FILE_KEYS.get(field.name, field.name): digest_of(getattr(day, field.name))
        for field in dataclasses.fields(day)
    }
    found: Line = {"instruments": {it.name: terms_kept(it) for it in day.instruments}}
    return found | {"parts": parts, "sessions": sessions_kept(day)}


def sessions_kept(day: config.DayTerms) -> dict[str, str]:
    """The member of each CompID of a day; that of the operator's copy has none."""
    if day.fix is None:
        return {}
    return {**day.fix.sessions} | ({day.fix.copy: ""} if day.fix.copy else {})


def digest_of(part: object) -> str:
    """What tells a part of a day from another one."""
    return hashlib.sha256(repr(part).encode("utf-8")).hexdigest()


def terms_kept(terms: config.InstrumentTerms) -> dict[str, str]:
    """The terms of an instrument by their keys, as texts; prices as the file of a day has them."""
    found = {"tick_size": format(terms.grid.tick_size.normalize(), "f")}
    for name in TERMS:
        value = getattr(terms, name)
        is_price = name in ("low", "high", "reference", "range") and value is not None
        found[name] = terms.price(value) if is_price else str(value or "none")
    return found


def changes(day: config.DayTerms, lines: Iterable[Line], folder: pathlib.Path) -> list[str] | None:
    """The keys of a day's file that are others than when its folder was last opened; None where the
    log doesn't know a day yet. Raises OtherDayError, LogError and OSError.
    """
    those = [*lines]
    known = [line for line in those if line["kind"] == "day"]
    if not known:
        return None
    now = kept(day)
    with taking(known[-1]):
        why = changed_term(known[-1]["instruments"], now["instruments"])
        parts = known[-1]["parts"]
        found = [name for name, sum_now in now["parts"].items() if parts.get(name) != sum_now]
    if why:
        raise OtherTermsError(folder, why)
    check_sessions(now["sessions"], known, those, folder)
    return found


def check_sessions(
    now: dict[str, str], known: Sequence[Line], lines: Iterable[Line], folder: pathlib.Path
) -> None:
    """Raises OtherDayError where a CompID is another's than before by which somebody has logged on,
    as the other would be sent what is not its own, or where the last one of a member is missing who
    has entered orders by FIX: it could cancel them by none, and the numbers of its messages go by
    that one. Raises OSError.
    """
    before = {comp_id: name for line in known for comp_id, name in sessions_in(line).items()}
    others = [it for it, name in before.items() if now.get(it, name) != name]
    if (given := next((it for it in others if has_logged_on(it, folder)), None)) is not None:
        text = f"is {owner_of(now[given])}, and was {owner_of(before[given])} in {folder}"
        remedy = "a CompID stays its own for the day: give the other one a new CompID"
        raise OtherDayError(f"fix: sessions: {given!r} {text}; {remedy}; {BEGIN_ANEW}")
    owners = owners_in(lines)
    last = sessions_in(known[-1])
    gone = next((it for it, name in last.items() if it not in now and name in owners), None)
    if gone is not None:
        text = f"is missing, by which the member {last[gone]!r} has sent orders in {folder}"
        remedy = "put it back, or remove that member first by the operator's page"
        raise OtherDayError(f"fix: sessions: {gone!r} {text}; {remedy}; {BEGIN_ANEW}")


def has_sessions(lines: Iterable[Line]) -> bool:
    """Whether the last of these lines that is about a day says whose its CompIDs are."""
    return "sessions" in [line for line in lines if line["kind"] == "day"][-1]


def sessions_in(line: Line) -> dict[str, str]:
    """The member of each CompID by a line about a day. Raises LogError."""
    with taking(line):
        return {**line.get("sessions", {})}


def has_logged_on(comp_id: str, folder: pathlib.Path) -> bool:
    """Whether somebody has logged on by a CompID, as what was sent by FIX says. Raises OSError."""
    path, own = folder / SENT, f'->{comp_id}"'.encode("ascii")
    if not path.exists():
        return False
    with path.open("rb") as file:
        return any(own in line for line in file)


def owner_of(member: str) -> str:
    """Whose a CompID is."""
    return f"the member's {member!r}" if member else "the operator's copy"


def owners_in(lines: Iterable[Line]) -> set[str]:
    """The members who have entered orders by FIX by these lines, but for those who were removed
    since, whose orders are deleted.
    """
    found: set[str] = set()
    for line in lines:
        with taking(line):
            if line["kind"] == "sent" and is_entered_by_fix(line):
                found.add(line["member"])
            elif line["kind"] == "removed":
                found.discard(line["name"])
    return found


def is_entered_by_fix(line: Line) -> bool:
    """Whether a message that was sent is a new order by FIX, whose number is below 0."""
    return bool(line["number"] < 0 and line["record"].split(",")[1] == "enter")


def changed_term(before: dict[str, dict[str, str]], now: dict[str, dict[str, str]]) -> str:
    """The first difference between the instruments of two days, empty where there is none."""
    if [*before] != [*now]:
        return f"its instruments were {', '.join(before)}, and are {', '.join(now)}"
    for name, terms in now.items():
        for key, value in terms.items():
            if before[name].get(key) != value:
                return f"{key} of {name} was {before[name].get(key)}, and is {value}"
    return ""

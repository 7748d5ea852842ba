"""What `--check` says of a day before it begins, or goes on: nothing of it is begun or changed. It
fails by the status by which a start would.
"""
import asyncio
import errno
import fcntl
import os
import pathlib
import subprocess
import tempfile
import time
from collections.abc import Collection, Iterable, Iterator, Mapping, Sequence

from callauction.statuses import FAILED
from callauction.venue import config, copies, day_changes, listening, owned, room, tokens
from callauction.venue.day_changes import OtherDayError, date_of
from callauction.venue.fields import ConfigError
from callauction.venue.fix_terms import SENT
from callauction.venue.halts import PUT_BACK
from callauction.venue.journal import JOURNAL
from callauction.venue.listening_address import DAY_SECONDS, Address, AddressError, ends_of
from callauction.venue.log import Line, check_version, read_lines, taking
from callauction.venue.phases import Phase, TimedPhase
from callauction.venue.process import OPENED, START_SECONDS, ProcessError
from callauction.venue.recovery import (
    Entry, RecoveryError, RolledBackError, entries_in, known_entries, mark_of, runs_of, settled,
)
from callauction.venue.rounds import Round
from callauction.venue.serving import DAY_IS_OVER
from callauction.venue.starts import starting
from callauction.venue.timekeeping import (
    CLOCK_BEHIND, LEAST_BEHIND, behind_of, set_since, warnings_of_clock,
)
from callauction.venue.venue import LOG, Venue

TOKEN_ROLES = ("operator", "beamer")
FIRST_LINE_BYTES = 4096
"""The bytes that the first line of a journal may have."""
CROWDED = (
    "members: most {} is more than the {} who may trade one of several instruments: `group = {}` "
    "deals them into groups, each with boards of its own"
)
START_BYTES = 1 << 16
"""The bytes that a start may take at least of the disk, for each instrument and for the log."""


def checked(
    day: config.DayTerms, folder: pathlib.Path, address: Address, program: str
) -> Iterator[str]:
    """What is found of a day, a line each. Raises what opening a venue raises for each fault."""
    for words in dict.fromkeys(tuple(it.words()) for it in day.instruments):
        check_words(program, words)
    yield from checked_terms(day)
    yield from checked_address(address)
    check_program(program, day)
    yield f"program: {version_of(program)}"
    is_there = folder.exists()
    if is_there:
        owned.make_folder(folder)
    check_disk_room(folder if is_there else folder.parent, START_BYTES * (len(day.instruments) + 1))
    if text := room.too_small(day, folder):
        yield f"warning: {text}"
    if not is_there:
        check_ports(day, address, False)
        yield f"{folder}: not there yet"
        return
    for name in (*TOKEN_ROLES, *(f"fix.{it}" for it in (day.fix.sessions if day.fix else ()))):
        if owned.check_file(folder / f"{name}.token"):
            tokens.secret_of(folder, name)
    for name in (LOG, SENT):
        if owned.check_file(folder / name):
            os.close(owned.opened(folder / name, os.O_RDONLY))
    runs = (folder / LOG).exists() and is_in_use(folder / LOG)
    yield from (checked_running if runs else checked_log)(day, folder, program)
    check_ports(day, address, runs)


def checked_terms(day: config.DayTerms) -> Iterator[str]:
    """What is found of a day's file: its instruments, whether all who may join can trade each of
    them, its sessions by FIX.
    """
    for it in day.instruments:
        low, high = it.price(it.low), it.price(it.high)
        size = it.grid.tick_size
        first = f"reference {it.price(it.reference)}"
        yield f"{it.name}: {low} to {high} {it.currency} by {size}, {first}, {it.calls} commands"
    most = config.MOST_TRADERS
    if day.group > most and (day.members.is_open or len(day.own_codes) > most):
        yield f"warning: {CROWDED.format(day.group, most, most)}"
    if day.fix is not None:
        sessions = len(day.fix.sessions) + bool(day.fix.copy)
        yield f"fix: {day.fix.host}:{day.fix.port}, {sessions} sessions"


def check_disk_room(folder: pathlib.Path, least: int) -> None:
    """Raises OSError where a folder can't have as many bytes more: its disk is full, or is there to
    be read. What is tried leaves no name.
    """
    try:
        with tempfile.TemporaryFile(dir=folder) as tried:
            os.posix_fallocate(tried.fileno(), 0, least)
    except OSError as fault:
        raise OSError(fault.errno, fault.strerror, str(folder)) from None


def ran(program: str, *words: str) -> "subprocess.CompletedProcess[str]":
    """A run of the program without an input. Raises ProcessError where it doesn't end by itself,
    and OSError.
    """
    pipe, nothing = subprocess.PIPE, subprocess.DEVNULL
    command = [program, *words]
    try:
        found = subprocess.run(
            command, stdin=nothing, stdout=pipe, stderr=pipe, text=True, timeout=START_SECONDS
        )
    except subprocess.TimeoutExpired:
        text = f"the program hasn't ended for {START_SECONDS:g} s"
        raise ProcessError(text, FAILED) from None
    if found.returncode < 0:
        text = f"the program was ended by signal {-found.returncode}"
        raise ProcessError(text, found.returncode)
    return found


def check_words(program: str, words: tuple[str, ...]) -> None:
    """Raises ConfigError where the program can't open a day of these words, and what `ran` raises.
    """
    found = ran(program, *words)
    if found.returncode != 0:
        text = found.stderr.strip().partition("\n")[0]
        raise ConfigError(f"the program says of {' '.join(words)}: {text}")


def checked_address(address: Address) -> Iterator[str]:
    """What is found of where it listens. Raises AddressError."""
    address.check()
    if address.context() is None:
        yield f"address: {address.host}, without TLS"
        return
    left = (ends_of(address.cert or "") - time.time()) / DAY_SECONDS
    yield f"address: {address.host}, by a certificate that ends in {left:.0f} days"
    yield from (f"warning: {text}" for text in address.warnings())


def check_ports(day: config.DayTerms, address: Address, runs: bool) -> None:
    """Raises AddressError, which has all of them, where nothing can listen now at some places; of a
    day that runs, what others have may be its own.
    """
    places = [(address.host, address.port)]
    places += [address.metrics] if address.metrics else []
    places += [(day.fix.host, day.fix.port)] if day.fix else []
    faults = []
    for host, port in places:
        try:
            for each in listening.sockets_at(host, port):
                each.close()
        except OSError as fault:
            if not (runs and fault.errno == errno.EADDRINUSE):
                faults.append(listening.why_not(host, port, fault))
    if faults:
        raise AddressError("; ".join(faults))


def check_program(program: str, day: config.DayTerms) -> None:
    """Raises ProcessError where a program doesn't open a journal as callboard does, what `ran`
    raises, and OSError.
    """
    words = day.instruments[0].words()
    with tempfile.TemporaryDirectory() as place:
        found = ran(program, "--live", "--journal", f"{place}/journal", *words)
    said = found.stderr.strip().partition("\n")[0]
    if not OPENED.match(said):
        raise ProcessError(said, found.returncode)


def version_of(program: str) -> str:
    """What the program says of itself. Raises what `ran` raises."""
    return ran(program, "--version").stdout.strip() or program


def checked_log(day: config.DayTerms, folder: pathlib.Path, program: str) -> Iterator[str]:
    """What is found of a day that doesn't run. Raises LogError, OtherDayError, OwnerError,
    RecoveryError, ProcessError, OSError.
    """
    path = folder / LOG
    text = path.read_bytes() if path.exists() else b""
    lines = read_lines(text[: text.rfind(b"\n") + 1], str(path))
    yield from checked_day(day, folder, lines)
    yield from checked_journals(day, folder, lines, program)


def checked_day(day: config.DayTerms, folder: pathlib.Path, lines: list[Line]) -> Iterator[str]:
    """What is found of a day beside the lines of its log. Raises LogError, OtherDayError, OSError.
    """
    check_version(lines, folder / LOG)
    for date in dates_in(lines):
        yield f"{folder}: begun on {date}"
    if changed := day_changes.changes(day, lines, folder):
        yield f"changed since it was last opened: {', '.join(changed)}"
    if behind := behind_of(lines):
        yield f"warning: {CLOCK_BEHIND % behind}"
        return
    yield from (f"warning: {text}" for text in warnings_of_clock(0.0, set_since(lines)))
    for path in sorted(folder.glob(f"*{JOURNAL}")):
        behind = round(os.lstat(path).st_mtime - time.time(), 3)
        if behind >= LEAST_BEHIND:
            yield f"warning: the clock is {behind} s behind the last change of {path.name}"


def dates_in(lines: Iterable[Line]) -> list[str]:
    """The date of the first of these lines that has a time, where there is one. Raises LogError."""
    for line in lines:
        if "time" in line:
            with taking(line):
                return [date_of(float(line["time"]))]
    return []


def checked_journals(
    day: config.DayTerms, folder: pathlib.Path, lines: list[Line], program: str
) -> Iterator[str]:
    """What is found of the journals beside the lines of the log. Raises LogError, OwnerError,
    RecoveryError, ProcessError, OSError.
    """
    found: dict[str, list[Entry]] = {}
    boards = [*(it.name for it in day.instruments), *(line.get("instrument") for line in lines)]
    for key in dict.fromkeys(filter(None, boards)):
        own = [line for line in lines if line.get("instrument") == key]
        try:
            found[key] = entries_known(folder / f"{key}{JOURNAL}", key, own)
            yield f"{key}: {len(found[key])} entries"
        except RolledBackError as fault:  # it halts, and the others are served
            yield f"warning: {fault}: {PUT_BACK}"
    last = asyncio.run(rehearse(day, folder, lines, found, program))
    yield from checked_end(day, folder, lines, last, found)


def checked_end(
    day: config.DayTerms,
    folder: pathlib.Path,
    lines: list[Line],
    last: Round,
    found: Mapping[str, list[Entry]],
) -> Iterator[str]:
    """What is said of a day by its last round and the entries of its journals, where it is over.
    Raises OtherDayError.
    """
    if are_over(last, found):
        yield f"warning: {DAY_IS_OVER}"
        check_later(day, folder, lines, last.number)


def are_over(last: Round, found: Mapping[str, list[Entry]]) -> bool:
    """Whether the auctions of all boards of the last round are over, by these entries."""
    return all(is_over(found.get(it.identity.key, [])) for it in last.boards.values())


def is_over(entries: Iterable[Entry]) -> bool:
    """Whether a day's last auction is among the entries of its journal."""
    state = TimedPhase()
    for it in entries:
        state = state.replied(it.reply)
    return state.phase is Phase.OVER


def check_later(
    day: config.DayTerms, folder: pathlib.Path, lines: list[Line], number: int
) -> None:
    """Raises OtherDayError where a day whose rounds are all over, as this is the last of them, is
    an earlier day's: a venue that ended shows its results again on the same day alone.
    """
    dates = dates_in(reversed(lines))
    if number >= len(day.rounds) and dates and dates[0] < date_of(time.time()):
        text = f"{folder}: its day is over, lastly used on {dates[0]}"
        raise OtherDayError(f"{text}: --folder NEW begins anew")


async def rehearse(
    day: config.DayTerms,
    folder: pathlib.Path,
    lines: list[Line],
    found: Collection[str],
    program: str,
) -> Round:
    """Takes the lines of a log as a start does, but for those messages that are `found` in the
    journals, in a folder without a name: the last round. Raises LogError, and ProcessError where
    the program takes a journal for another day's.
    """
    known = [line for line in lines if line["kind"] != "sent"]
    with tempfile.TemporaryDirectory() as place:
        venue = Venue(day, pathlib.Path(place), program)
        venue.rounds.learn(known)
        boards = venue.rounds.boards
        venue.past.replay(known, {key: [] for key in boards})
        for key in [it for it in found if it in boards]:
            with starting(key):
                engine = boards[key].engine
                copy = engine.journal.path
                check_first(engine.runs.words, folder / copy.name, copy)
        venue.log.close()
    return venue.rounds.now


def check_first(words: Sequence[str], journal: pathlib.Path, copy: pathlib.Path) -> None:
    """Has the program read the first line of a journal, from a copy that its words name. Raises
    ProcessError where it refuses that, and OSError.
    """
    if not owned.check_file(journal):
        return
    with journal.open("rb") as file:
        first = file.readline(FIRST_LINE_BYTES)
    if first.endswith(b"\n"):
        owned.write(copy, first)
        said = ran(*words)
        if said.returncode != 0:
            text = said.stderr.strip().partition("\n")[0]
            raise ProcessError(text, said.returncode)


def is_in_use(log: pathlib.Path) -> bool:
    """Whether a venue has this log. Raises OSError."""
    file = os.open(log, os.O_RDONLY | os.O_CLOEXEC | os.O_NOFOLLOW)
    try:
        fcntl.flock(file, fcntl.LOCK_SH | fcntl.LOCK_NB)
    except BlockingIOError:
        return True
    finally:
        os.close(file)
    return False


def checked_running(
    day: config.DayTerms, folder: pathlib.Path, program: str
) -> Iterator[str]:
    """What is found of a day that runs, as it is at one moment; of one that is over as of one that
    doesn't run. Raises LogError, OtherDayError, OwnerError, RecoveryError, OSError.
    """
    try:
        files = copies.consistent(*copies.read_day(folder))
    except copies.CopyError as fault:
        raise RecoveryError(str(fault)) from None
    lines = read_lines(files[LOG], str(folder / LOG))
    yield from checked_day(day, folder, lines)
    found = {
        name: entries_in(files[file].decode("latin-1"))
        for name, file in copies.journals_of(files).items()
    }
    last = asyncio.run(rehearse(day, folder, lines, [], program))
    what = "venue" if are_over(last, found) else "day"
    for name, entries in found.items():
        owned.check_file(folder / f"{name}{JOURNAL}")
        yield f"{name}: {len(entries)} entries, and the {what} runs"
    yield from checked_end(day, folder, lines, last, found)


def entries_known(journal: pathlib.Path, name: str, lines: list[Line]) -> list[Entry]:
    """The entries of a journal, which the log knows. Raises RecoveryError, OwnerError, OSError."""
    is_there, mark = owned.check_file(journal), mark_of(lines)
    entries: list[Entry] = []
    try:
        if is_there:
            entries = known_entries(journal, mark)
        else:
            mark.check(entries, is_there)
        settled(runs_of(lines).get(name, []), entries)
    except RecoveryError as fault:
        raise type(fault)(f"{name}: {fault}") from None
    return entries

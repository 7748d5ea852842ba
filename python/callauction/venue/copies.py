"""Copies of a day, also of one that runs: `backup FOLDER COPY` and `restore COPY FOLDER`.

A copy is a day as a crash at one moment could have left it: each journal has no entry whose message
the log hasn't, and the log has no mark of an entry that its journal hasn't. The log is cut where it
would, and the ends of the journals that the rest of it doesn't know.
"""
import hashlib
import os
import pathlib
import re
import secrets
import shutil
import subprocess
import sys
import time

from callauction.statuses import BAD_DAY, BAD_FILE, FAILED
from callauction.venue import owned, tokens
from callauction.venue.downloads import NAMES_FILE, RESULTS_FILE
from callauction.venue.fix_terms import SENT
from callauction.venue.journal import JOURNAL
from callauction.venue.log import Line, LogError, line_text, read_lines
from callauction.venue.owned import OwnerError
from callauction.venue.recovery import (
    Entry, RecoveryError, RolledBackError, entries_in, mark_of, runs_of, settled,
)
from callauction.venue.venue import LOG

TOKEN_SUFFIX = ".token"
SUMS_FILE = "SHA256SUMS"
SUM = re.compile(r"([0-9a-f]{64})  ([^\x00-\x1f\x7f]{1,255})")
"""A line of SUMS_FILE: the sum, and the name of its file."""
LEFT_OUT = re.compile(
    rf".*\.new|.*\.cut-\d+|lost\+found|{SUMS_FILE}|.*{NAMES_FILE}|{RESULTS_FILE}"
)
"""What no copy has: what was begun, or put aside; what a disk has of its own; sums of a copy; what
the end of a day leaves, which may be of an earlier moment, and is made anew by the next one.
"""
NAME = re.compile(r"[^\x00-\x1f\x7f]{1,255}")
MARK_BYTES = 3
"""Random bytes by which two days that were restored from one copy differ: v1f3a2b is a mark."""
MOST_COPIED_BYTES = 1 << 30
"""The bytes that a file of a day may have."""
Files = dict[str, bytes]


class CopyError(Exception):
    """A copy that can't be made or isn't whole; the text says why."""


COPY_FAULTS = (CopyError, LogError, OwnerError, OSError)
"""Why a copy can't be made or put back."""


def say_copy_fault(command: str, fault: Exception) -> int:
    """Says on standard error by which of the COPY_FAULTS a command has failed: its status."""
    text, status = str(fault), BAD_DAY if isinstance(fault, OwnerError) else BAD_FILE
    if isinstance(fault, OSError):
        named = f"{fault.filename}: {fault.strerror}" if fault.filename else fault.strerror
        text, status = named or text, FAILED
    print(f"{command}: {text}", file=sys.stderr)
    return status


def journals_of(files: Files) -> dict[str, str]:
    """The journals among files, by the names of their instruments."""
    return {name.removesuffix(JOURNAL): name for name in files if name.endswith(JOURNAL)}


def whole_lines(content: bytes) -> bytes:
    """The lines that have ended, before the room of a journal that runs."""
    text = content.partition(b"\0")[0]
    return text[: text.rfind(b"\n") + 1]


def check_day(folder: pathlib.Path) -> None:
    """Raises CopyError where a folder is no venue's, and OSError."""
    if LOG not in os.listdir(folder):
        raise CopyError(f"{folder} is no folder of a venue: it has no {LOG}")


def read_day(folder: pathlib.Path) -> tuple[Files, int]:
    """All files of a day, the log behind the journals, and how many lines it had before them.
    Raises OSError, and CopyError where there is no log.
    """
    check_day(folder)
    names = sorted(it.name for it in folder.iterdir() if not LEFT_OUT.fullmatch(it.name))
    begun = whole_lines(read_file(folder / LOG)).count(b"\n")
    names.sort(key=turn_of)
    found = {}
    for name in names:
        content = read_file(folder / name)
        found[name] = whole_lines(content) if name.endswith((JOURNAL, LOG, SENT)) else content
    return found, begun


def turn_of(name: str) -> tuple[bool, bool, str]:
    """When a file of a day is read: what was sent first, the log last."""
    return name == LOG, name != SENT, name


def read_file(path: pathlib.Path) -> bytes:
    """A file of a day, which is no link. Raises OSError, and CopyError where it is another's."""
    if not NAME.fullmatch(path.name):
        raise CopyError(f"{str(path)!r} is no name that a file of a day has")
    return owned.read_whole(path, MOST_COPIED_BYTES, os.O_NOFOLLOW)


def consistent(files: Files, begun: int | None = None) -> Files:
    """The files of a day as they were at one moment, at which the log had at least `begun` lines,
    else all that it has. Raises CopyError, and LogError.
    """
    lines = read_lines(files[LOG], LOG)
    names = journals_of(files)
    entries = {name: entries_in(files[file].decode("latin-1")) for name, file in names.items()}
    end = first_ahead(lines, entries)
    if end < (len(lines) if begun is None else begun):
        name = lines[end]["instrument"]
        raise CopyError(f"{name}{JOURNAL} is missing, or older than what {LOG} knows of it")
    kept = lines[:end]
    texts = files[LOG].splitlines(keepends=True)[: len(kept)]
    found = files | {LOG: b"".join(texts)}
    for name, file in names.items():
        count = most_known([it for it in kept if it.get("instrument") == name], entries[name])
        if count is None:
            raise CopyError(f"{file} isn't the journal of which {LOG} knows")
        found[file] = b"".join(files[file].splitlines(keepends=True)[: count + 1])
    return found


def first_ahead(lines: list[Line], entries: dict[str, list[Entry]]) -> int:
    """The place of the first line of the log that knows of an entry that isn't among these."""
    for place, line in enumerate(lines):
        if line["kind"] in ("start", "mark"):
            if line["entries"] > len(entries.get(line["instrument"], [])):
                return place
    return len(lines)


def most_known(lines: list[Line], entries: list[Entry]) -> int | None:
    """How many of the first entries follow from the messages of the log; None where none do, or
    where the log knows of others.
    """
    mark = mark_of(lines)
    runs = runs_of(lines)
    for count in range(len(entries), mark.entries - 1, -1):
        try:
            mark.check(entries[:count])
            settled(next(iter(runs.values()), []), entries[:count])
        except RolledBackError:
            return None
        except RecoveryError:
            continue
        return count
    return None


def sums_text(files: Files) -> bytes:
    """What `sha256sum --check` reads of these files."""
    rows = (f"{hashlib.sha256(files[name]).hexdigest()}  {name}\n" for name in sorted(files))
    return "".join(rows).encode()


def changed_file(files: Files, sums: bytes) -> str:
    """The first of these files that isn't as the sums of a copy say, and how many others aren't;
    empty where all are.
    """
    *texts, end = sums.decode("utf-8", "replace").split("\n")
    rows = [SUM.fullmatch(it) for it in texts]
    known = {it[2]: it[1] for it in rows if it}
    found = [f"{name} is missing" for name in sorted(known.keys() - files.keys())]
    found += [f"{name} is none of its files" for name in sorted(files.keys() - known.keys())]
    for name in sorted(known.keys() & files.keys()):
        if hashlib.sha256(files[name]).hexdigest() != known[name]:
            found.append(f"{name} differs")
    if not sums or end or None in rows or not found:
        others = f"its {SUMS_FILE} {'was changed' if sums else 'is missing'}"
        return "" if sums == sums_text(files) else others
    return found[0] + (f", and {len(found) - 1} more" if found[1:] else "")


def begun_of(folder: pathlib.Path) -> pathlib.Path:
    """Where a folder is until it is whole."""
    return folder.with_name(f"{folder.name}.new")


def check_new(folder: pathlib.Path) -> None:
    """Raises CopyError where something is in the place of a new folder, which stays as it is."""
    if os.path.lexists(folder):
        text = "is there already, and stays as it is: move it away, or name another folder"
        raise CopyError(f"{folder} {text}")
    if os.path.lexists(begun_of(folder)):
        text = "is there, of a copy that was ended or goes on: if none does, move it away"
        raise CopyError(f"{begun_of(folder)} {text}")


def write_day(files: Files, folder: pathlib.Path) -> None:
    """Writes a day to a new folder, whole and on the disk, or nothing. Raises OSError, CopyError.
    """
    check_new(folder)
    begun = begun_of(folder)
    begun.mkdir(mode=owned.FOLDER_MODE)
    try:
        for name, content in files.items():
            owned.write(begun / name, content)
        begun.rename(folder)
    except OSError:
        shutil.rmtree(begun, ignore_errors=True)
        raise
    owned.sync_folder(folder.parent)


def backup(folder: pathlib.Path, copy: pathlib.Path) -> Files:
    """Copies a day, which may run meanwhile: its files. Raises CopyError, LogError, OSError."""
    if copy.resolve().is_relative_to(folder.resolve()):
        check_day(folder)
        raise CopyError(f"{copy} is in the folder of the day itself")
    check_new(copy)
    files = consistent(*read_day(folder))
    write_day(files | {SUMS_FILE: sums_text(files)}, copy)
    return files


def restore(copy: pathlib.Path, folder: pathlib.Path, program: str) -> Files:
    """Puts a copy to a new folder once all of it is checked: its sums, its journals beside its log,
    and by the program each reply of them. Raises CopyError, LogError, OSError, and OwnerError where
    others could have changed all of that, and its tokens.
    """
    check_new(folder)
    owned.check_copy(copy, is_folder=True)
    for it in copy.iterdir():
        owned.check_copy(it)
    files = {it.name: read_file(it) for it in sorted(copy.iterdir())}
    sums = files.pop(SUMS_FILE, b"")
    if why := changed_file(files, sums):
        raise CopyError(f"{copy} isn't the copy that was made: {why}")
    if LOG not in files:
        raise CopyError(f"{copy} is no copy of a venue: it has no {LOG}")
    if consistent(files) != files:
        raise CopyError(f"{copy}: its journals and its {LOG} aren't of one moment")
    for name in files:
        if name.endswith(TOKEN_SUFFIX) and not tokens.is_token(files[name]):
            raise CopyError(f"{copy / name} holds no token")
    for file in journals_of(files).values():
        audit(program, file, files[file])
    write_day(files | {LOG: files[LOG] + restored_line(files)}, folder)
    return files


def restored_line(files: Files) -> bytes:
    """The line of the log that says how many entries each journal had as a day was restored, and
    which round it was: what comes after them has a mark in its ids, as those without it may be of
    what is lost.
    """
    lines = read_lines(files[LOG], LOG)
    last = max((it["time"] for it in lines if "time" in it), default=0.0)
    rounds = [it["round"] for it in lines if it["kind"] == "round"]
    counts = {key: files[file].count(b"\n") - 1 for key, file in journals_of(files).items()}
    line: Line = {"time": max(last, round(time.time(), 3)), "kind": "restored"}
    line |= {"mark": f"v{secrets.token_hex(MARK_BYTES)}", "entries": counts}
    line["round"] = max(rounds, default=1)
    return line_text(line).encode("ascii") + b"\n"


def audit(program: str, name: str, journal: bytes) -> None:
    """Raises CopyError where the program finds a fault in a journal, and OSError."""
    ran = subprocess.run([program, "--audit"], input=journal, capture_output=True)
    if ran.returncode != 0:
        last = (ran.stderr or ran.stdout).decode("utf-8", "replace").strip().rpartition("\n")[2]
        raise CopyError(f"{name}: {last}")


def summary(files: Files) -> str:
    """What a copy has, in a line."""
    counts = [files[file].count(b"\n") - 1 for file in journals_of(files).values()]
    lines = files[LOG].count(b"\n")
    return f"{len(counts)} journals with {sum(counts)} entries, {lines} lines of the log"

"""What became of the messages that a venue had sent to a program when one of the two was killed.

The log has each message before the program has it, in the order in which they are sent, and the
journal each command that was executed, in the same order. So the journal's entries are some of the
messages, in their order: a message whose record isn't the next entry was not executed. That is
exact, as the program refuses a record without an entry only where calls are kept for the operator
or none are left, and from then on it refuses the same record always.

That a journal wasn't put back is seen by a mark in the log: how many entries it had, and their
SHA-256. A journal with fewer entries, or with others, is another one, and earlier marks say which:
an older one of the day, or one of another day. One to which others have added entries is longer.
"""
import dataclasses
import hashlib
import pathlib
import re
from collections.abc import Iterable, Mapping, Sequence

from callauction.venue.leftovers import Program
from callauction.venue.log import Line, taking

JOURNAL_BLOCK = 1 << 18
COMMIT_BYTES = 4096
"""The bytes that the program writes at a time: it gives up no more than that behind whole lines."""
OTHER_FIRST = "the journal is another one: its first line isn't the day's"
OTHER_ENTRIES = "the journal is another one: its entries differ from the day's from the first on"
LONGER = "the journal is a longer one: it has {} entries, and the log knows of {}"
ENTRY = re.compile(r"\d+,[ -~]+,[ -~]+")
"""A line that may be an entry."""


class RecoveryError(Exception):
    """The journal has an entry that no message asked for."""


class RolledBackError(RecoveryError):
    """The journal is an older or another one than that of which the log knows."""


@dataclasses.dataclass(frozen=True, slots=True)
class Entry:
    """An entry of a journal: its place in the day, from 1; its record; its reply."""

    place: int
    record: str
    reply: str

    @property
    def member(self) -> int:
        """The number of its member."""
        return int(self.record.partition(",")[0])

    @property
    def order(self) -> int | None:
        """The order that it entered."""
        word, _, number = self.reply.partition(" ")
        return int(number) if word == "entered" else None


@dataclasses.dataclass(frozen=True, slots=True)
class MemberMessage:
    """A message of a member, by its name and its own number, and the record that it became. The
    operator's name is empty. `source` is the address from which it came, and `note` what the log
    keeps beside it.
    """

    member: str
    number: int
    record: str
    source: str = dataclasses.field(default="", compare=False)
    note: Mapping[str, str] = dataclasses.field(default_factory=dict, compare=False)


@dataclasses.dataclass(frozen=True, slots=True)
class JournalMark:
    """How many entries a journal had, and their SHA-256, and that of its first line; no digest
    where none was written down. `earlier` are such counts with their digests of some beginnings of
    it, the shortest first.
    """

    entries: int = 0
    sha256: str = ""
    first: str = dataclasses.field(default="", compare=False)
    earlier: Sequence[tuple[int, str]] = dataclasses.field(default=(), compare=False, repr=False)

    def check(self, entries: Sequence[Entry], is_there: bool = True, first: str = "") -> None:
        """Raises RolledBackError where the entries of a journal don't begin with those, or where
        they aren't there, or behind another `first` line, whose SHA-256 it is; one without entries
        is the program's to refuse.
        """
        if self.entries and self.first and first and first != self.first:
            raise RolledBackError(OTHER_FIRST)
        if self.entries and not is_there:
            text = f"the journal is missing, and the log knows of {self.entries} entries"
            raise RolledBackError(text)
        is_whole = len(entries) >= self.entries
        if not is_whole or (self.sha256 and JournalDigest(entries[: self.entries]).mark != self):
            raise RolledBackError(self._why(entries))

    def _why(self, entries: Sequence[Entry]) -> str:
        """What the journal is whose entries these are, where they don't begin with those."""
        count = self._differing(entries)
        if count == 1:
            return OTHER_ENTRIES
        if count:
            text = f"the journal is another one: its first {count} entries aren't those of which"
            return f"{text} the log knows"
        text = f"the journal is an older one: it has {len(entries)} entries, and the log knows of"
        return f"{text} {self.entries}"

    def _differing(self, entries: Sequence[Entry]) -> int:
        """How many first entries of a journal aren't those, the fewest of which that is known; 0
        where it's known of none.
        """
        known = dict([*self.earlier, (self.entries, self.sha256)])
        found = JournalDigest()
        for entry in entries[: self.entries]:
            found.add(entry)
            if (digest := known.get(found.count)) and digest != found.mark.sha256:
                return found.count
        return 0


class JournalDigest:
    """A running SHA-256 of the entries of a journal, which have `size` bytes. Its mark has earlier
    ones, of the first 50 entries each, and then as far apart as a 50th of what was before.
    """

    def __init__(self, entries: Iterable[Entry] = ()) -> None:
        self.count, self.size, self._digest = 0, 0, hashlib.sha256()
        self._earlier: list[tuple[int, str]] = []
        self._next = 1
        for entry in entries:
            self.add(entry)

    def add(self, entry: Entry) -> None:
        """One entry more."""
        self.count += 1
        line = f"{entry.record},{entry.reply}\n".encode("latin-1")
        self.size += len(line)
        self._digest.update(line)
        if self.count == self._next:
            self._earlier.append((self.count, self._digest.hexdigest()))
            self._next += 1 + self.count // 50

    @property
    def mark(self) -> JournalMark:
        """What is written down of these entries."""
        return JournalMark(self.count, self._digest.hexdigest(), earlier=self._earlier)


def journal_digests(path: pathlib.Path, size: int) -> tuple[str, str]:
    """The SHA-256 of a journal's first line, and of as many bytes behind it. Raises OSError."""
    with open(path, "rb") as file:
        first, rest = hashlib.sha256(file.readline(JOURNAL_BLOCK)), hashlib.sha256()
        while block := file.read(min(size, JOURNAL_BLOCK)):
            rest.update(block)
            size -= len(block)
    return first.hexdigest(), rest.hexdigest()


def known_entries(path: pathlib.Path, mark: JournalMark) -> list[Entry]:
    """The entries of a journal, which begin with those of a mark. Raises RolledBackError where they
    don't, RecoveryError where others have added some, and OSError.
    """
    text = path.read_text(encoding="latin-1")
    found = entries_in(text)
    mark.check(found, first=first_of(path))
    if added := added_in(text):
        raise RecoveryError(LONGER.format(len(found) + added, len(found)))
    return found


def added_in(text: str) -> int:
    """How many entries others have added behind the room of a journal's text, where the program
    doesn't take them for what a crash has left; 0 where not all of it are entries.
    """
    lines, _, rest = text.partition("\0")
    rest = rest.rstrip("\0")
    cut = len(lines) - (lines.rfind("\n") + 1)
    if not rest or cut + 1 + len(rest) <= COMMIT_BYTES:
        return 0
    added = rest.lstrip("\0").removesuffix("\n").split("\n")
    return len(added) if all(map(ENTRY.fullmatch, added)) else 0


def first_of(path: pathlib.Path) -> str:
    """The SHA-256 of a journal's first line, empty where there is none that is whole. Raises
    OSError.
    """
    if not path.exists():
        return ""
    with open(path, "rb") as file:
        first = file.readline(JOURNAL_BLOCK)
    return hashlib.sha256(first).hexdigest() if first.endswith(b"\n") else ""


def entries_in(text: str) -> list[Entry]:
    """The entries of a journal's text, as far as their lines are whole, and before its room."""
    found = []
    for place, line in enumerate(text.partition("\0")[0].split("\n")[1:-1], 1):
        record, _, reply = line.rpartition(",")
        found.append(Entry(place, record, reply))
    return found


Settled = list[tuple[MemberMessage, Entry | None]]
"""Messages with their entries, None for one that was not executed."""


def matched(
    messages: Iterable[MemberMessage], entries: Sequence[Entry], is_last: bool = True
) -> Settled:
    """Each message with its entry, where `is_last` of all up to the journal's end. Raises
    RecoveryError where an entry is left.
    """
    found: Settled = []
    place = 0
    for message in messages:
        is_next = place < len(entries) and entries[place].record == message.record
        found.append((message, entries[place] if is_next else None))
        place += is_next
    if place < len(entries):
        first, last = entries[place].place, entries[-1].place
        no_message = f"entry {first} of the journal is no message of the log"
        raise RecoveryError(LONGER.format(last, first - 1) if is_last else no_message)
    return found


@dataclasses.dataclass
class Run:
    """What was sent to a program while it ran, after its journal had as many entries."""

    begin: int
    messages: list[MemberMessage] = dataclasses.field(default_factory=list)


def settled(runs: Sequence[Run], entries: Sequence[Entry]) -> Settled:
    """What became of all messages of some runs, each of which ended where the next one begins, and
    the last one at the journal's end. Raises RecoveryError.
    """
    ends = [*(run.begin for run in runs[1:]), len(entries)]
    found: Settled = []
    if not runs and entries:
        raise RecoveryError("the journal has entries, and the log none of its messages")
    for run, end in zip(runs, ends):
        found += matched(run.messages, entries[run.begin : end], run is runs[-1])
    return found


def runs_of(lines: Iterable[Line]) -> dict[str, list[Run]]:
    """The runs of each instrument's program, as the log has them."""
    found: dict[str, list[Run]] = {}
    for line in lines:
        if line["kind"] == "start":
            found.setdefault(line["instrument"], []).append(Run(line["entries"]))
        elif line["kind"] == "sent":
            with taking(line):
                note = dict(line.get("note", {}))
                message = MemberMessage(line["member"], line["number"], line["record"], note=note)
                found[line["instrument"]][-1].messages.append(message)
    return found


def mark_of(lines: Iterable[Line]) -> JournalMark:
    """The last mark of a journal that its lines of the log have, with those before it."""
    found, earlier = JournalMark(), list[tuple[int, str]]()
    for line in lines:
        if line["kind"] in ("start", "mark"):
            first = line.get("first", found.first)
            found = JournalMark(line["entries"], line.get("sha256", ""), first, earlier)
            earlier.append((found.entries, found.sha256))
    return found


def program_of(lines: Iterable[Line]) -> Program | None:
    """The program of the last run that its lines of the log have. Raises LogError."""
    found = None
    for line in lines:
        if line["kind"] == "start":
            with taking(line):
                found = Program.kept_in(line)
    return found

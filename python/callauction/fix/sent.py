"""What the sessions were sent, in one file of the venue's folder for all of them, so that one sync
is enough for what they are sent at a time. What QuickFIX has in memory begins with it.

It is on the disk before a byte is sent, but for what follows from the venue's log and the journals:
the report of an entry that was sent under the number that the log says. Those aren't written: a
start makes them again. Of what passes the numbers alone are written: a gap comes in its place.
"""
import asyncio
import collections
import itertools
import json
import pathlib
from collections.abc import Callable, Iterator, Mapping
from typing import TYPE_CHECKING, NamedTuple

from callauction.fix._quickfix import Engine
from callauction.fix.tags import FixFields, RepeatingGroups, event_in, number_of, pairs_of
from callauction.venue.fix_terms import SENT
from callauction.venue.log import Line, Log, line_text, taking
from callauction.venue.logger import NOTICES

if TYPE_CHECKING:
    from callauction.fix.seats import Seat
    from callauction.fix.wires import Wire

CLOSE_PAUSE = 0.01
MOST_AT_ONCE = 16
"""How many sessions have their turn, and how many reports wait, before the log, the program and the
clients are given what there is.
"""
NOT_GIVEN = "what it was to be sent couldn't be given to it"
Outgoing = tuple[int, bytes, int, bool]
"""What is to be sent: on which connection, the bytes, up to which number, whether it ends then."""
New = tuple[int, bytes, bool]
"""A message that was stored: its number, its text, and whether it passes."""


class PassedMessages(NamedTuple):
    """Messages that a session isn't sent again: the numbers of the first one and the last, which
    messages of it they answered, and the first message of it that wasn't settled then.
    """

    first: int
    last: int
    events: list[str]
    since: int


class Sending(NamedTuple):
    """How a message is sent: it isn't written under the number that is `promised`, 0 for none; it
    says that it was sent at this time, empty for now; of one that `passes` the number alone is
    kept.
    """

    promised: int = 0
    time: str = ""
    passes: bool = False


PLAINLY = Sending()


class SentMessages:
    """The messages that sessions were sent since they were last reset, and in `former` those from
    before; by CompID, in whichever version of FIX, the epoch that its last reset began, and the
    mark of the last restore before that, if any. `on_fault` of the log is called where it can't be
    written. Raises LogError, LogInUseError, OwnerError and OSError.
    """

    def __init__(self, folder: pathlib.Path, is_synced: bool) -> None:
        self.log = Log(folder / SENT, is_synced)
        self.epochs: collections.Counter[str] = collections.Counter()
        self.marks: collections.defaultdict[str, str] = collections.defaultdict(str)
        self.former: dict[str, list[bytes]] = {}
        self._texts: dict[str, list[tuple[bytes, int]]] = {}
        self._passed: dict[str, list[PassedMessages]] = {}
        self._new: dict[str, list[New]] = {}
        self._safe: collections.Counter[str] = collections.Counter()
        self._firm: dict[str, int] = {}
        staged: dict[str, list[tuple[bytes, int]]] = {}
        self._following: dict[str, set[int]] = {}
        for line in self.log.lines():
            with taking(line):
                self._learn(line["session"], line, staged)

    def _learn(self, session: str, line: Line, staged: dict[str, list[tuple[bytes, int]]]) -> None:
        """Takes a line of the log; `staged` is what sessions are sent by a reset that isn't there.
        """
        if line["kind"] == "reset":
            comp_id = comp_id_of(session)
            self.epochs[comp_id] = line.get("epoch", self.epochs[comp_id] + 1)
            self.marks[comp_id] = line.get("mark", "")
            texts = [text for text, _ in self._texts.pop(session, [])]
            self.former.setdefault(session, []).extend(texts)
            self._passed.pop(session, None)
            anew, count = staged.pop(session, []), int(line.get("anew", 0))
            self._texts[session] = anew[len(anew) - count :]
        elif line["kind"] == "passed":
            it = PassedMessages(line["first"], line["last"], line["events"], line["since"])
            self._passed.setdefault(session, []).append(it)
        else:
            those = staged if line["kind"] == "anew" else self._texts
            text = line["text"].encode("latin-1"), int(line.get("since", 0))
            those.setdefault(session, []).append(text)

    def earlier(self, session: str) -> dict[int, tuple[bytes, int]]:
        """What was written that a session was sent in earlier runs, by its numbers, each with the
        number of the first message of it that wasn't settled then, 0 where that isn't known.
        """
        return {number_of(text): (text, it) for text, it in self._texts.pop(session, [])}

    def passed(self, session: str) -> list[PassedMessages]:
        """What a session was sent in earlier runs and isn't sent again."""
        return self._passed.pop(session, [])

    def firm(self, session: str) -> int:
        """Up to which of its messages a session's answers are on the disk, and none of them."""
        return self._firm.get(session, 1)

    # ---- what may be sent

    def is_safe(self, session: str, number: int) -> bool:
        """Whether a crash can't take what a session was sent up to this number."""
        return number <= self._safe[session]

    def reach(self, session: str, number: int) -> None:
        """What a session was sent up to this number is safe, and so what follows it."""
        number = max(number, self._safe[session])
        if following := self._following.get(session):
            while number + 1 in following:
                number += 1
            self._following[session] = {it for it in following if it > number}
        self._safe[session] = number

    def follows(self, session: str, number: int) -> None:
        """What a session was sent under this number follows from the log and the journals."""
        if number == self._safe[session] + 1:
            self.reach(session, number)
        else:
            self._following.setdefault(session, set()).add(number)

    # ---- what is written

    def waits(self, engine: Engine) -> bool:
        """Whether something was stored that isn't written yet."""
        self._take(engine)
        return any(self._new.values())

    def _take(self, engine: Engine) -> None:
        """Takes what was stored since the last time, to be written."""
        for session, number, text, passes in engine.stored():
            self._new.setdefault(session, []).append((number, text, passes))

    def write(
        self, engine: Engine, sessions: Mapping[str, Callable[[], int]], then: Callable[[], None]
    ) -> None:
        """Writes what sessions were sent so far, in the order of its numbers: it is safe then. Each
        has what gives the number of the first message that isn't settled yet, 0 for none.
        """
        self._take(engine)
        last = {it: engine.next(it) - 1 for it in sessions}
        new = {it: self._new.pop(it) for it in sessions if it in self._new}
        firm = {it: sessions[it]() or engine.expected(it) for it in new}
        lines: list[str] = []
        for session, texts in new.items():
            lines += lines_of("out", session, firm[session], texts)

        def written() -> None:
            for session, number in last.items():
                self.reach(session, number)
            self._firm.update(firm)
            then()

        self.log.append("\n".join(lines), written)

    async def begin_anew(self, engine: Engine, session: str, anew: Callable[[], Line]) -> None:
        """Begins a session anew, and writes that with all that it is sent anew: the line that says
        so, with what `anew` returns, comes last, and what is before it is nothing without it.
        """
        self._take(engine)
        self._new.pop(session, None)
        self._following.pop(session, None)
        said = anew()
        self._take(engine)
        texts, last = self._new.pop(session, []), engine.next(session) - 1

        def begun() -> None:
            self._firm.pop(session, None)
            self._safe[session] = 0
            self.reach(session, last)

        self.log.append("\n".join(lines_of("anew", session, 1, texts)))
        self.log.note(begun, kind="reset", session=session, anew=len(texts), **said)
        await self.log.written()


class Outbound:
    """What sessions are to be sent on these connections, with their `engine` from the front's begin
    on. `seats` are theirs, of which nothing is written of those that are `beginning` anew; `wake`
    is called where there is something new.
    """

    engine: Engine

    def __init__(
        self, sent: SentMessages, wires: "Mapping[int, Wire]", wake: Callable[[], None]
    ) -> None:
        self.sent, self._wires, self._wake = sent, wires, wake
        self.seats: "Mapping[str, Seat]" = {}
        self.beginning: "set[Seat]" = set()
        self._held: dict[int, list[Outgoing]] = {}
        self._unsent = 0
        self.is_writing = self._has_failed = False
        sent.log.on_fault = self._failed

    def since(self, seat: "Seat", following: int) -> int:
        """The number of the first message of a session whose answer a crash may take, among those
        before this number to the session; 0 where it can take none.
        """
        is_safe = self.sent.is_safe(seat.session, following - 1)
        return 0 if is_safe else self.sent.firm(seat.session)

    def send(
        self, seat: "Seat", kind: str, pairs: FixFields, groups: RepeatingGroups,
        how: Sending = PLAINLY,
    ) -> int:
        """Stores a message, and sends it soon where its session is on: its number."""
        self._wake()
        return self.engine.send(seat.session, kind, pairs, groups, *how)

    def send_many(self) -> None:
        """Sends what there is where many reports wait, of which there is one more."""
        self._unsent += 1
        if self._unsent >= MOST_AT_ONCE:
            self.send_out()

    def send_out(self) -> None:
        """Sends what sessions have to send, as far as a crash can't take it."""
        self._unsent = 0
        for each in self.engine.outgoing():
            self._offer(each)
        if self._held and not self.is_writing:
            self.write()

    def _offer(self, those: Outgoing) -> None:
        """Sends bytes, or holds them."""
        number, data, last, is_last = those
        if (wire := self._wires.get(number)) is None:
            return
        if number in self._held or (wire.seat and not self.sent.is_safe(wire.seat.session, last)):
            self._held.setdefault(number, []).append(those)
        else:
            give(wire, data, is_last)

    # ---- what is written

    def write(self) -> None:
        """Writes what sessions were sent, and sends then what waits for that."""
        seats = (it for it in self.seats.values() if not it.epoch.owed and it not in self.beginning)
        self.sent.write(self.engine, {it.session: it.since for it in seats}, self._written)
        self.is_writing = True

    def _written(self) -> None:
        """What was to be written is."""
        self.is_writing = False
        if self._has_failed:
            self._has_failed = False
            NOTICES.warning("fix goes on")
        held, self._held = self._held, {}
        for those in held.values():
            for each in those:
                self._offer(each)
        if self._held:
            self.write()

    async def written(self) -> None:
        """Writes all, and waits until it is."""
        self.write()
        await self.sent.log.written()
        while self.is_writing:
            await asyncio.sleep(CLOSE_PAUSE)

    def _failed(self, fault: OSError) -> None:
        """What sessions are sent can't be written: they are sent nothing until it can."""
        if not self._has_failed:
            path = self.sent.log.path
            NOTICES.error("fix halted: %s can't be written: %s", path, fault.strerror)
        self._has_failed = True


def give(wire: "Wire", data: bytes, is_last: bool) -> None:
    """Sends bytes on a connection; a fault of it ends it, and is nobody else's matter."""
    try:
        wire.send(data, is_last)
    except Exception:
        NOTICES.critical("fix: a connection of %s has failed", wire.address, exc_info=True)
        asyncio.get_running_loop().call_soon(wire.cut, NOT_GIVEN)


def comp_id_of(session: str) -> str:
    """The client's CompID in a session, as QuickFIX names that."""
    return session.rpartition("->")[2]


def lines_of(kind: str, session: str, since: int, texts: list[New]) -> Iterator[str]:
    """The lines of what a session was sent, with the number of the first message of it that isn't
    settled: an answer may be before those to messages that wait. What passes one after the other
    has one line.
    """
    head = line_text({"kind": kind, "session": session, "since": since})[:-1]
    placed = enumerate(sorted(texts))
    for (passes, _), those in itertools.groupby(placed, lambda it: (it[1][2], it[1][0] - it[0])):
        if passes:
            yield passed_line(session, since, [it for _, it in those])
        else:
            yield from (f'{head},"text":{json.dumps(it[1].decode("latin-1"))}}}' for _, it in those)


def passed_line(session: str, since: int, those: list[New]) -> str:
    """The line of messages that pass, under numbers without a gap; it names what they answered,
    each by its last answer.
    """
    events = (event_in(dict(pairs_of(text)), "", "") for _, text, _ in those)
    answered = [it for it in events if it.rpartition(".")[2].isdecimal()]
    said = {"first": those[0][0], "last": those[-1][0], "events": answered}
    return line_text({"kind": "passed", "session": session, "since": since} | said)

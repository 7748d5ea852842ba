"""Under which numbers a session is told of what became of its messages, over kills at any moment:
nothing that it was sent has another number then, nothing is lost or doubled, and what is of a board
comes in the order of its entries.
"""
import asyncio
import collections
import dataclasses
import os
import pathlib
import random
import types
from typing import Any

import pytest
import served
from callauction.fix._quickfix import Engine
from callauction.fix.board_orders import NUMBER, Report
from callauction.fix.front import FixFront
from callauction.fix.settings import settings_of
from callauction.fix.tags import Tag, Type, event_in, now, number_of, pairs_of
from callauction.venue.config import DayTerms, Plan
from callauction.venue.fix_terms import FixTerms
from callauction.venue.recovery import Entry, MemberMessage
from callauction.venue.venue import Venue

pytestmark = pytest.mark.asyncio
BOARDS = ("ONE", "TWO")
STEPS, RUNS = 40, 4
Told = dict[str, int]
"""The events of a session, with their numbers."""


@dataclasses.dataclass
class Said:
    """A command in the venue's log: its board, its number, and the number that its answer is to
    have; `place` is that of its entry, 0 where it has none yet.
    """

    board: str
    number: int
    promised: int
    place: int = 0


def board_of(key: str) -> Any:
    """A board as far as a seat looks at it."""
    identity = types.SimpleNamespace(key=key)
    return types.SimpleNamespace(identity=identity, key_at=lambda place: key)


def report_of(event: str) -> Report:
    """A report of a member."""
    return Report("Alice", Type.REPORT, event, [(Tag.EXEC_ID, event)], time=now())


class FrontRun:
    """A venue's front between its begin and its end, of a session on no connection; what was sent
    on one is what a crash can't take.
    """

    def __init__(
        self, folder: pathlib.Path, log: list[Said], uncrosses: set[tuple[str, int]]
    ) -> None:
        self.log, self.uncrosses = log, uncrosses
        venue = Venue(DayTerms(is_synced=False, plan=Plan(call=0)), folder, served.program())
        self.venue = venue
        self.front = FixFront(venue, FixTerms({"ALICE": "Alice"}), served.program())
        self.seat, self.outbound = self.front._seats[0], self.front._outbound
        text = settings_of(folder, {"ALICE": self.seat.begin})
        self.outbound.engine = Engine(text, lambda session, password: False)
        self.waiting = {it: collections.deque[Said]() for it in BOARDS}

    async def begin(self, chance: random.Random) -> None:
        """Goes on from the log, the journals and what was sent."""
        for said in self.log:
            entry = Entry(said.place, "", "") if said.place else None
            self.seat.entered(board_of(said.board), message_of(said), entry)
        setattr(self.front, "_admit", lambda seat: asyncio.sleep(0))
        await self.front._begin()
        left = {board: self.events(board) for board in BOARDS}
        while those := [board for board in BOARDS if left[board]]:
            board = chance.choice(those)
            self.front._reports.tell(report_of(left[board].pop(0)), board)
        assert not self.seat.epoch.owed

    def events(self, board: str) -> list[str]:
        """The events of a board so far, in their order."""
        places = {it.place for it in self.log if it.board == board and it.place}
        places |= {place for key, place in self.uncrosses if key == board}
        return [f"{board}.{place}" for place in sorted(places)]

    def last(self, board: str) -> int:
        """The last place of a board."""
        return max((int(it.partition(".")[2]) for it in self.events(board)), default=0)

    # ---- steps

    def submit(self, board: str) -> None:
        """The session says a command, which is in the log."""
        number = len(self.log) + 1
        promised = self.seat.epoch.promise(self.outbound.engine.next(self.seat.session))
        self.seat.epoch.submitted(number, promised)
        said = Said(board, number, promised)
        self.log.append(said)
        self.waiting[board].append(said)

    def answer(self, board: str) -> None:
        """A board answers its next command."""
        if self.waiting[board]:
            said = self.waiting[board].popleft()
            said.place = self.last(board) + 1
            self.seat.entered(board_of(board), message_of(said), Entry(said.place, "", ""))
            self.front._reports.tell(report_of(f"{board}.{said.place}"), board)

    def uncross(self, board: str) -> None:
        """An uncross of a board has a report for the session."""
        place = self.last(board) + 1
        self.uncrosses.add((board, place))
        self.front._reports.tell(report_of(f"{board}.{place}"), board)

    def refuse(self, board: str) -> None:
        """Something is answered at once."""
        self.front._reports.tell(report_of(f"R.ALICE.{1000 + len(self.seat.epoch.told)}"))

    def write(self, board: str) -> None:
        """What was sent so far is written."""
        self.outbound.write()
        log = self.outbound.sent.log
        taken, log._waiting = log._waiting, []
        log._write("".join(f"{text}\n" for text, _ in taken if text).encode())
        for _, then in taken:
            if then is not None:
                then()

    def done_untold(self, chance: random.Random) -> None:
        """Boards have done some more commands as the venue is killed, of which it hears later."""
        for board, waiting in self.waiting.items():
            for said in [*waiting][: chance.randrange(3)]:
                said.place = self.last(board) + 1

    def end(self) -> None:
        """Ends as by a kill."""
        self.front._end()
        del self.outbound.engine  # of whose sessions there is one in a process
        for log in (self.outbound.sent.log, self.venue.log):
            log._thread.shutdown()
            os.close(log._file)

    # ---- what was sent

    def sent(self) -> Told:
        """What the session was sent, or may have been."""
        safe = self.outbound.sent._safe[self.seat.session]
        return {event: number for event, number in self.stored().items() if number <= safe}

    def stored(self) -> Told:
        """What its store has."""
        texts = self.outbound.engine.sent(self.seat.session)
        found = [(event_in(dict(pairs_of(it)), "ALICE", ""), number_of(it)) for it in texts]
        found = [it for it in found if it[0]]
        assert len(found) == len(dict(found)), "an event is told twice"
        return dict(found)


def message_of(said: Said) -> MemberMessage:
    """A command as the log has it."""
    note = {NUMBER: str(said.promised)} if said.promised else {}
    return MemberMessage("Alice", -said.number, "", "", note)


def check(run: FrontRun, before: Told) -> None:
    """Raises AssertionError where a session is told otherwise than it was, or not all in order."""
    now_told = run.stored()
    assert before.items() <= now_told.items()
    for board in BOARDS:
        events = run.events(board)
        assert {it for it in now_told if it.startswith(f"{board}.")} == {*events}
        numbers = [now_told[it] for it in events]
        assert numbers == sorted(numbers), (events, now_told)


async def played(folder: pathlib.Path, chance: random.Random) -> None:
    """Some runs of a folder, each of which is killed."""
    log: list[Said] = []
    uncrosses: set[tuple[str, int]] = set()
    before: Told = {}
    for _ in range(RUNS):
        run = FrontRun(folder, log, uncrosses)
        try:
            await run.begin(chance)
            check(run, before)
            steps = [run.submit] * 4 + [run.answer] * 4 + [run.refuse, run.uncross, run.write]
            for _ in range(chance.randrange(STEPS)):
                chance.choice(steps)(chance.choice(BOARDS))
            before = run.sent()
            run.done_untold(chance)
        finally:
            run.end()


@pytest.mark.parametrize("seed", range(40))
async def test_numbers_over_kills(tmp_path: pathlib.Path, seed: int) -> None:
    await played(tmp_path, random.Random(seed))

"""The auctions of an instrument's day: their phases by the operator and by the clock, the course of
the indicative price, and the uncross.
"""
import asyncio
import contextlib
import dataclasses
import re
from collections.abc import Callable
from typing import Any, Self

from callauction.venue import clock, config, views
from callauction.venue.background import going_on
from callauction.venue.book import OPERATOR, MemberBook
from callauction.venue.chance import CHANCE
from callauction.venue.engine import Engine
from callauction.venue.log import SOURCE
from callauction.venue.messages import MessageError
from callauction.venue.phases import Phase, PhaseError, TimedPhase
from callauction.venue.recovery import Entry, MemberMessage

UNCROSS = "0,uncross"
MOST_POINTS = 600
"""The points of the course of the indicative price; where there are more, every second one goes."""
TICK = 0.1
"""Seconds between two looks at the clock."""
GRACE_SECONDS = 30
"""How long a call phase goes on at least, after which it is uncrossed by itself, once nobody could
change an order; a shorter one as long as it is.
"""


TRADED = re.compile(r" trades (\d+)$")
"""What a reply to an uncross has of its trades."""


def trades_in(reply: str) -> int:
    """How many trades an uncross had, by its reply."""
    found = TRADED.search(reply)
    return int(found[1]) if found else 0


@dataclasses.dataclass(frozen=True, slots=True)
class Point:
    """The indicative price at a time of the epoch."""

    time: float
    indication: views.Indication

    def kept(self) -> dict[str, Any]:
        """What is written down of it."""
        return {"time": self.time} | dataclasses.asdict(self.indication)

    @classmethod
    def of(cls, kept: dict[str, Any]) -> Self:
        """What was written down. Raises KeyError for anything else."""
        names = [field.name for field in dataclasses.fields(views.Indication)]
        return cls(kept["time"], views.Indication(**{name: kept[name] for name in names}))


class Auctions:
    """The phase of the auction that goes on, the course of its call phase, and what came of those
    before. `on_change` is called with each change, and `on_late` where a call phase had ended
    before its members could do anything.
    """

    def __init__(self, plan: config.Plan, engine: Engine, book: MemberBook) -> None:
        self.plan, self._engine, self._book = plan, engine, book
        self.state, self.has_begun, self.is_late = TimedPhase(), False, False
        self.began: float | None = None
        self.course: list[Point] = []
        self.results: list[str] = []
        self.on_change: Callable[[], None] = lambda: None
        self.on_late: Callable[[], None] = lambda: None
        self.has_venue_halted: Callable[[], bool] = lambda: False
        self._uncrosses, self._is_uncrossing = 0, False
        self._has_stood = False  # its clock, since it was looked at last

    @property
    def trades(self) -> int:
        """How many trades the uncrosses of the day had."""
        return sum(map(trades_in, self.results))

    def check_open(self) -> None:
        """Raises MessageError where no member's order is taken now."""
        if self._engine.halted is not None:
            raise self._engine.refusal
        if self.state.frozen is not None:
            raise MessageError("frozen")
        if self.state.phase is Phase.OVER:
            raise MessageError("not_now", "the day is over")
        if not self.state.takes_orders():
            raise MessageError("not_now")

    # ---- what was recorded

    def replay_phase(self, state: TimedPhase, began: float | None) -> None:
        """A phase of an earlier run, whose call began then."""
        self.began = began
        if self.state.phase is Phase.WAITING and state.phase is Phase.CALL:
            self.course, self.has_begun = [], True
        self.state = state

    def replay_uncross(self, message: MemberMessage, entry: Entry) -> None:
        """An uncross of an earlier run."""
        self._uncrosses = max(self._uncrosses, message.number)
        self.uncrossed(entry)

    def set_back(self, seconds: float) -> None:
        """The clock was set back before an earlier run, or this one: a call phase goes on as it
        was.
        """
        self.state = self.state.set_back(seconds)
        self.began = None if self.began is None else self.began - seconds
        self.course = [dataclasses.replace(it, time=it.time - seconds) for it in self.course]

    def keep_point(self, point: Point) -> None:
        """The course has one point more."""
        self.course.append(point)
        if len(self.course) > MOST_POINTS:
            del self.course[1::2]

    def indicated(self, found: views.Indication) -> None:
        """What is indicated now: a point of the course, where that ends with something else."""
        last = self.course[-1].indication if self.course else views.Indication()
        if found != last and self.state.phase in (Phase.CALL, Phase.EXTENDED):
            point = Point(clock.now(), found)
            self.keep_point(point)
            self._engine.note("point", **point.kept())

    # ---- the operator

    def start_call(self) -> None:
        """Begins a call phase. Raises PhaseError."""
        if not self._book.is_known:
            raise PhaseError("the last uncross isn't seen yet")
        now = clock.now()
        started = self.state.started(now, self.plan, CHANCE.random())
        self.began, self.course, self.has_begun = now, [], True
        self._enter(started)

    def join_call(self, other: TimedPhase) -> None:
        """Begins a call phase that ends as this one of another group. Raises MessageError."""
        self._engine.check_known()
        self.began, self.course, self.has_begun = clock.now(), [], True
        self._enter(dataclasses.replace(other, phase=Phase.CALL, auction=self.state.auction))

    def end_call(self) -> None:
        """Ends the call phase. Raises PhaseError."""
        self._check_free()
        self._enter(self.state.ended())

    def extend(self, seconds: int) -> None:
        """The call phase ends later. Raises PhaseError."""
        self._check_free()
        self._enter(self.state.extended_by(clock.now(), seconds))

    def freeze(self) -> None:
        """Takes no order for a while. Raises PhaseError."""
        self._check_free()
        self._enter(self.state.held(clock.now()))

    def thaw(self) -> None:
        """Takes orders again. Raises PhaseError."""
        self._enter(self.state.thawed(clock.now()))

    async def uncross(self) -> str:
        """Ends the call phase and uncrosses: the program's reply. Raises PhaseError and
        MessageError.
        """
        if self._engine.halted is not None:
            raise self._engine.refusal
        self._check_free()
        if not self.state.may_uncross():
            raise PhaseError(f"nothing can be uncrossed in the phase {self.state.phase}")
        if self.state.phase is not Phase.ENDED:
            self._enter(self.state.ended())
        self._is_uncrossing = True
        self._uncrosses += 1
        message = MemberMessage(OPERATOR, self._uncrosses, UNCROSS, SOURCE.get())
        answer = self._engine.submit(message)
        answer.add_done_callback(self._uncross_done)
        return (await asyncio.shield(answer)).reply

    def _uncross_done(self, answer: "asyncio.Future[Entry]") -> None:
        """The uncross was answered, perhaps by a fault."""
        self._is_uncrossing = False
        answer.exception()

    def uncrossed(self, entry: Entry) -> None:
        """The phase after an uncross."""
        self.state = self.state.replied(entry.reply)
        if not entry.reply.startswith("refused"):
            self.is_late = False
            self.results.append(entry.reply)
            self._book.is_known &= entry.reply.startswith("interrupted")

    def _check_free(self) -> None:
        """Raises PhaseError while an uncross waits for its reply."""
        if self._is_uncrossing:
            raise PhaseError("an uncross is going on")

    def _enter(self, state: TimedPhase) -> None:
        """Another phase, or another end of it. Raises MessageError."""
        self._engine.check_known()
        self.state, self.is_late = state, False
        self._engine.note("phase", began=self.began, **state.kept())
        self.on_change()

    # ---- the clock

    def begin(self) -> None:
        """Does what the clock says has to be done since an earlier run, before `run`."""
        now = clock.now()
        is_late = self.state.is_due(now)
        self._give_time(now)
        self.keep_time(now)
        if is_late:
            self.is_late = True
            self.on_late()

    async def run(self) -> None:
        """Ends call phases when they are due, and uncrosses them where the plan says so."""
        while True:
            await asyncio.sleep(TICK)
            with going_on(f"{self._engine.name}: the clock of its calls"):
                await self._go_by_clock()

    async def _go_by_clock(self) -> None:
        """What is due now, unless the clock does nothing."""
        self._has_stood |= self._stands_still
        if self._stands_still or self._is_uncrossing:
            return
        now = clock.now()
        if self._has_stood:
            self._give_time(now)
        self._has_stood = False
        self.keep_time(now)
        if self.plan.is_automatic and self.state.phase is Phase.ENDED:
            with contextlib.suppress(MessageError, PhaseError):
                await self.uncross()

    def keep_time(self, now: float) -> None:
        """What the clock says has to be done."""
        timed = self.state.timed(now, self.plan.extension)
        if timed != self.state:
            self._enter(timed)
        if self.state.is_due(now):
            self._enter(self.state.ended())

    def _give_time(self, now: float) -> None:
        """A call that would be uncrossed by itself before those who were away could change an order
        goes on for a while.
        """
        least = self.grace
        if self.plan.is_automatic and self.state.is_due(now + least):
            self._enter(self.state.goes_on(now, least))

    @property
    def grace(self) -> int:
        """How many seconds a call phase goes on at least, once nobody could change an order."""
        is_extended = self.state.phase is Phase.EXTENDED
        length = self.plan.extension if is_extended else self.plan.call
        return min(GRACE_SECONDS, length or GRACE_SECONDS)

    @property
    def _stands_still(self) -> bool:
        """Whether its clock does nothing now: it has halted, or the venue has, where a call phase
        would be uncrossed by itself.
        """
        has_halted = self._engine.halted is not None
        return has_halted or (self.plan.is_automatic and self.has_venue_halted())

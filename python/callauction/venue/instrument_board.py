"""The board of an instrument in a round, for a group of members: its program, its auctions, what
members send to it, and what its program last showed.
"""
import asyncio
import contextlib
import contextvars
import dataclasses
import functools
import pathlib
from collections.abc import Callable, Iterable, Mapping

from callauction.venue import clock, config, ending
from callauction.venue.accounts import Accounts
from callauction.venue.auctions import Auctions, Point
from callauction.venue.book import OPERATOR, MemberBook
from callauction.venue.commands import Commands
from callauction.venue.engine import Engine
from callauction.venue.gains import ShareValue
from callauction.venue.handing import Rule
from callauction.venue.journal import JOURNAL
from callauction.venue.log import Line, Log
from callauction.venue.looks import Looks
from callauction.venue.members import VenueMember
from callauction.venue.messages import OrderMessage
from callauction.venue.phases import TimedPhase
from callauction.venue.process import ProcessError
from callauction.venue.recovery import Entry, MemberMessage
from callauction.venue.treatments import Treatment

LAST_SECONDS = 0.5
"""How long the program has for the last look at it before its input ends; it may answer later."""


@dataclasses.dataclass(frozen=True)
class BoardIdentity:
    """Which board it is: its instrument, by the name in the day's file; its group, from 1; its
    round, from 1.
    """

    instrument: str
    group: int = 1
    round: int = 1

    @functools.cached_property
    def name(self) -> str:
        """Its name among the boards of a round."""
        return self.instrument if self.group == 1 else f"{self.instrument}.{self.group}"

    @functools.cached_property
    def key(self) -> str:
        """Its name among all boards of the venue, by which its journal and the log's lines go."""
        return self.name if self.round == 1 else f"{self.name}.round{self.round}"


@dataclasses.dataclass(frozen=True)
class VenueResources:
    """What the boards of a venue have in common: its day, its folder, their program, its log, and
    that log's lines of the restores of the day.
    """

    day: config.DayTerms
    folder: pathlib.Path
    program: str
    log: Log
    restores: list[Line] = dataclasses.field(default_factory=list)


class InstrumentBoard:
    """A board of an instrument, which follows from the log and from its journal in the folder; its
    program isn't started yet.
    """

    def __init__(
        self,
        identity: BoardIdentity,
        terms: config.InstrumentTerms,
        treatment: Treatment,
        resources: VenueResources,
    ) -> None:
        terms = dataclasses.replace(terms.in_round(treatment), name=identity.name)
        journal, day = resources.folder / f"{identity.key}{JOURNAL}", resources.day
        words = [resources.program, "--live", "--journal", str(journal)]
        words += ["--reserve", str(day.reserve), *([] if day.is_synced else ["--sync", "none"])]
        engine = Engine(identity.key, [*words, *terms.words()], journal, resources.log)
        self.identity, self.terms, self.engine = identity, terms, engine
        self._restores, self.has_run = resources.restores, False
        self.book, self.accounts = MemberBook(), Accounts(terms.uncovered, treatment.shares)
        self.commands = Commands(terms, treatment, day, engine, self.book, self.accounts)
        self.auctions = Auctions(plan_of(day.plan, treatment), engine, self.book)
        self.looks = Looks(terms, engine, self.book, self.accounts, self.auctions)
        self._tasks: list[asyncio.Task[None]] = []
        self.on_entry: Callable[[MemberMessage, Entry | None], None] = lambda message, entry: None
        engine.outbox.on_entry = self._entered
        self.auctions.on_change = self.looks.touch

    def key_at(self, place: int) -> str:
        """Its key in the ids of an entry: with the mark of the last restore that had none of this
        place, as an entry that was lost then had the same.
        """
        key = self.identity.key
        marks = [it["mark"] for it in self._restores if it["entries"].get(key, 0) < place]
        return ".".join([key, *marks[-1:]])

    def key_at_end(self) -> str:
        """Its key in the ids of what its round's end does: with the mark of the last restore before
        that, as an end that was lost then had the same.
        """
        marks = [it["mark"] for it in self._restores if it["round"] <= self.identity.round]
        return ".".join([self.identity.key, *marks[-1:]])

    # ---- begin and end

    async def begin(self) -> None:
        """Looks at the program, before `run`. Raises ProcessError."""
        self.auctions.begin()
        try:
            await self.looks.look()
        except ProcessError as fault:
            if fault.is_final and not self.engine.halted:
                raise
            self.looks.touch()

    def run(self) -> None:
        """Goes by the clock from now on, and looks at the program again and again."""
        self.has_run = True
        nobody = contextvars.Context()  # what follows isn't asked for by who began it
        for work in (self.auctions.run(), self.looks.run()):
            self._tasks.append(asyncio.create_task(work, context=nobody.copy()))

    async def end(self) -> None:
        """Ends the program, which answers before what it has read, and is looked at a last time."""
        for task in self._tasks:
            task.cancel()
        looking = asyncio.create_task(self.looks.look())
        with ending.until_done(lambda: f"the program of {self.identity.key}"):
            await asyncio.wait({looking}, timeout=LAST_SECONDS)
            await self.engine.close()
        looking.cancel()
        with contextlib.suppress(ProcessError, asyncio.CancelledError):
            await looking

    # ---- messages and their entries

    def submit(self, member: str, order: OrderMessage) -> "asyncio.Future[Entry]":
        """Sends a member's order. Raises MessageError."""
        self.auctions.check_open()
        return self.commands.submit(member, order)

    def _entered(self, message: MemberMessage, entry: Entry) -> None:
        """A message has its entry."""
        self.commands.answered(message)
        if message.member == OPERATOR:
            self.auctions.uncrossed(entry)
            self.auctions.keep_time(clock.now())
            self.looks.touch(self.book.numbers)
        else:
            self.book.take(entry)
            self.looks.touch([message.member])
        self.commands.say_full()
        self.on_entry(message, entry)

    def replay(self, message: MemberMessage, entry: Entry) -> None:
        """A message of an earlier run, and its entry."""
        self.book.take(entry)
        if message.member == OPERATOR:
            self.auctions.replay_uncross(message, entry)

    def replay_line(self, line: Line) -> None:
        """Takes a line of the log about it that is no message."""
        kind = line["kind"]
        if kind == "number":
            self.book.give(line["member"], line["number"])
        elif kind == "phase":
            self.auctions.replay_phase(TimedPhase.of(line), line.get("began"))
        elif kind == "clock":
            self.auctions.set_back(line["behind"])
        elif kind == "point":
            self.auctions.keep_point(Point.of(line))
        elif kind == "values":
            values = {name: ShareValue(*rest) for name, *rest in line["values"]}
            self.accounts.give(values, line["all"], line["since"])
        elif kind == "left":
            self.commands.gone.add(line["member"])
            self.accounts.leave(line["member"])
        elif kind == "back":
            self.commands.gone.discard(line["member"])
            self.accounts.come_back(line["member"])

    # ---- what the operator gives

    def treat(self, treatment: Treatment, plan: config.Plan) -> None:
        """It has the limits and the phases of this round, where the day has such phases."""
        self.commands.limits = self.terms.limits(treatment)
        self.accounts.shares = treatment.shares
        self.auctions.plan = plan_of(plan, treatment)

    def dealt(
        self, rule: Rule, members: Iterable[VenueMember], before: Mapping[str, ShareValue]
    ) -> dict[str, ShareValue]:
        """The values by a rule of those of these members who are on the board. Raises HandError."""
        names = [it.name for it in members if it.group == self.identity.group]
        return rule.dealt(names, before, self.terms.value_tick, self.identity.round)

    async def give(self, values: Mapping[str, ShareValue], is_to_all: bool) -> None:
        """Hands out values, after all trades so far. Raises MessageError."""
        await self.looks.refresh()
        self.hand(values, is_to_all)

    def hand(self, values: Mapping[str, ShareValue], is_to_all: bool) -> None:
        """Hands out values, after all trades that were seen."""
        since = len(self.looks.trades)
        self.accounts.give(values, is_to_all, since)
        rows = [[name, it.side, it.tick, it.quantity] for name, it in values.items()]
        self.engine.note("values", since=since, all=is_to_all, values=rows)

    def leave(self, member: str) -> None:
        """A member was removed: what is left of its value no longer counts."""
        self.replay_line({"kind": "left", "member": member})
        self.engine.note("left", member=member)

    def come_back(self, member: str) -> None:
        """A member that was removed is there again."""
        self.replay_line({"kind": "back", "member": member})
        self.engine.note("back", member=member)


def plan_of(plan: config.Plan, treatment: Treatment) -> config.Plan:
    """The lengths of a round's phases."""
    return plan if treatment.call is None else dataclasses.replace(plan, call=treatment.call)

"""The groups that members are in, with boards of their own, and the rounds in which these go on."""
import asyncio
import contextlib

from callauction.venue.gains import ShareValue
from callauction.venue.instrument_board import InstrumentBoard
from callauction.venue.logger import NOTICES
from callauction.venue.members import VenueMember
from callauction.venue.messages import MessageError
from callauction.venue.phases import Phase, PhaseError
from callauction.venue.rounds import Round, by_side, dealt, is_even, small
from callauction.venue.starts import Starts
from callauction.venue.treatments import Treatment
from callauction.venue.venue_parts import VenueParts

JOINED_LATE = "%s joined late: group %s has %s of %s members, until the next round deals all anew"


class Groups:
    """The groups of a venue's members, of which one changes at a time."""

    def __init__(self, parts: VenueParts, starts: Starts) -> None:
        self._day, self._log, self._halts = parts.day, parts.log, parts.halts
        self._members, self._rounds = parts.members, parts.rounds
        self._audience, self._values, self._starts = parts.audience, parts.values, starts
        self._changing = asyncio.Lock()

    async def place(self, newcomers: list[VenueMember]) -> None:
        """Puts new members into the smallest groups that have room; opens one more where none has,
        and before the first call phase of a round deals all members again then. Says who has
        few others.
        """
        async with self._changing:
            before = self._rounds.now.groups
            for member in newcomers:
                sizes = self._sizes(member)
                smallest = min(sizes, key=lambda it: sizes[it])
                if sizes[smallest] < self._day.group:
                    self._deal({member.name: smallest})
                    continue
                await self._open_group()
                if self._rounds.now.has_begun:
                    self._deal({member.name: self._rounds.now.groups})
                else:
                    self._deal_all(self._rounds.now.values(self._day.instruments[0].name))
            if self._rounds.now.groups > before:
                self._audience.show_all()
        self._say_late(newcomers)
        self._values.give_listed(newcomers)

    async def place_again(self, member: VenueMember) -> None:
        """Puts a member that was removed, and comes again, into the group in which it was, or where
        there is room, if that has none or isn't there any more.
        """
        if self._has_room(member):
            self._deal({member.name: member.group})
        else:
            await self.place([member])

    def begin(self) -> None:
        """Deals the members of the round, once it is known what all journals have; puts those whose
        group has no room into others, as where the venue was killed while it opened one.
        """
        if self._starts.waiting:
            return
        self._deal_round()
        for member in self._members.all:
            if not self._has_room(member):
                sizes = self._sizes(member)
                self._deal({member.name: min(sizes, key=lambda it: sizes[it])})

    async def next_round(
        self, number: int, treatment: Treatment, is_anyway: bool = False
    ) -> None:
        """Ends this round and begins the one of this number, for the same members, where it isn't
        known what a board of this one has only if `is_anyway`. Raises PhaseError and MessageError,
        also where the log can't be written now.
        """
        with contextlib.suppress(OSError):  # which halts the venue
            await self._log.check_written()
        self._halts.check_running()
        async with self._changing, self._starts.reopening:
            now = self._rounds.now
            if number != now.number + 1:
                raise PhaseError(f"the round is {now.number}")
            await self._check_over(now, is_anyway)
            for board in [*now.boards.values()]:
                await board.end()
            count = -(-len(self._members.all) // self._day.group)
            found = self._rounds.new(number, treatment, max(1, count))
            self._rounds.note(found)
            for board in found.boards.values():
                await self._starts.open_new(board)
            self._rounds.all.append(found)
            self._deal_round()
        self._log.append("", self._audience.show_all)
        await self._halts.noted()

    async def _check_over(self, now: Round, is_anyway: bool) -> None:
        """Raises PhaseError while an auction of a round is going on, and unless `is_anyway`
        MessageError where it isn't known what a board has.
        """
        for board in [*now.boards.values()]:
            if board.engine.halted is None:
                await board.looks.settle()
        if now.going:
            names = ", ".join(now.going)
            raise PhaseError(f"an auction is going on of {names}: end its call, and uncross")
        if not is_anyway:
            self._rounds.check_known()

    # ---- who is where

    def _sizes(self, newcomer: VenueMember) -> dict[int, int]:
        """How many members each group has, without this one."""
        others = [it for it in self._members.everybody if it is not newcomer]
        there = [it.group for it in others if not it.is_removed or self._has_number(it)]
        return {group: there.count(group) for group in range(1, self._rounds.now.groups + 1)}

    def _has_room(self, member: VenueMember) -> bool:
        """Whether a member may stay in its group: it has a number there, or there is room."""
        size = self._sizes(member).get(member.group, self._day.group)
        return size < self._day.group or self._has_number(member)

    def _has_number(self, member: VenueMember) -> bool:
        """Whether a member has a number in a journal of this round that nobody else may have."""
        boards = self._rounds.now.boards.values()
        return any(it.commands.keeps_number(member.name) for it in boards)

    async def _open_group(self) -> None:
        """Opens the boards of one group more."""
        group = self._rounds.now.groups + 1
        self._log.note(kind="group", round=self._rounds.now.number, group=group)
        for board in self._rounds.add_group(self._rounds.now, group):
            await self._starts.open_new(board)
            self._join_call(board)

    def _join_call(self, board: InstrumentBoard) -> None:
        """A new board has the call phase that goes on in the other groups of its market, until its
        end.
        """
        others = self._rounds.now.of_instrument(board.identity.instrument)
        states = [it.auctions.state for it in others if it is not board]
        for state in states:
            if state.phase in (Phase.CALL, Phase.EXTENDED):
                with contextlib.suppress(MessageError):  # it has halted
                    board.auctions.join_call(state)
                return

    def _say_late(self, newcomers: list[VenueMember]) -> None:
        """Says which new members came into a group that is small, once the round had begun."""
        if not self._rounds.now.has_begun:
            return
        sizes = self._members.sizes
        for member in newcomers:
            if member.group in small(sizes):
                size = sizes[member.group]
                NOTICES.warning(JOINED_LATE, member.title, member.group, size, max(sizes.values()))

    def _deal_all(self, values: dict[str, ShareValue]) -> None:
        """Deals all members to the groups, with as many in each who have values of one side."""
        names = by_side((it.name for it in self._members.all), values)
        self._deal(dealt(names, self._rounds.now.groups))

    def _deal(self, groups: dict[str, int]) -> None:
        """Puts members into groups."""
        before = {it: it.member.group for it in self._audience.watchers if it.member}
        if groups and self._rounds.now.groups > 1:
            self._log.note(kind="deal", round=self._rounds.now.number, groups=groups)
        self._move(groups)
        for watcher, group in before.items():
            if watcher.member and watcher.member.group != group:
                watcher.offer("welcome", self._audience.welcome_of(watcher))
                self._audience.greet(watcher)

    def _move(self, groups: dict[str, int]) -> None:
        """Members are in these groups from now on, with their values."""
        self._members.move(groups)
        self._rounds.now.move(groups)

    def _deal_round(self) -> None:
        """Deals all members to the groups of a new round, unless those of the last one are as many
        and even, and hands out its values; does that again where the venue was killed meanwhile.
        """
        now = self._rounds.now
        if now.number == 1 or self._values.are_dealt or now.has_begun:
            return
        before = self._rounds.all[-2]
        values = {it.name: before.values(it.name) for it in self._day.instruments}
        if now.groups == 1:
            self._move({it.name: 1 for it in self._members.everybody})
        elif now.groups != before.groups or not is_even(self._members.sizes, now.groups):
            self._deal_all(values[self._day.instruments[0].name])
        self._values.give_round(values)

"""The rounds of a venue: each is a day of all its instruments, for the same members, in as many
groups as they need.
"""
import dataclasses
import pathlib
from collections.abc import Callable, Iterable, Mapping, Sequence

from callauction.venue import config
from callauction.venue.gains import ShareValue
from callauction.venue.instrument_board import BoardIdentity, InstrumentBoard, VenueResources
from callauction.venue.log import Line, Log, taking
from callauction.venue.members import VenueMember
from callauction.venue.messages import MessageError
from callauction.venue.phases import Phase, PhaseError
from callauction.venue.treatments import Treatment

FEW_MEMBERS = 3
"""How many members of a group find hardly anybody to trade with."""
RESUME_FIRST = "it isn't known what {} has: resume first, or begin anyway"


@dataclasses.dataclass
class Round:
    """A round: its number, from 1; what it is; its boards by their names; the message to all, which
    may be another one than its treatment's; the groups of the members who aren't in the first.
    """

    number: int
    treatment: Treatment
    boards: dict[str, InstrumentBoard]
    message: str = ""
    places: dict[str, int] = dataclasses.field(default_factory=dict)

    @property
    def groups(self) -> int:
        """How many groups there are."""
        return max(it.identity.group for it in self.boards.values())

    @property
    def has_begun(self) -> bool:
        """Whether a call phase was started."""
        return any(it.auctions.has_begun for it in self.boards.values())

    @property
    def going(self) -> list[str]:
        """The boards on which an auction is going on."""
        between = (Phase.WAITING, Phase.OVER)
        return [
            name for name, it in self.boards.items() if it.auctions.state.phase not in between
        ]

    @property
    def is_open_book(self) -> bool:
        """Whether members see the book."""
        return self.treatment.book == "open"

    @property
    def is_over(self) -> bool:
        """Whether the last auctions of all boards were uncrossed."""
        return all(it.auctions.state.phase is Phase.OVER for it in self.boards.values())

    def of_group(self, group: int) -> dict[str, InstrumentBoard]:
        """The boards of a group."""
        return {name: it for name, it in self.boards.items() if it.identity.group == group}

    def of_instrument(self, instrument: str) -> list[InstrumentBoard]:
        """The boards of an instrument."""
        return [it for it in self.boards.values() if it.identity.instrument == instrument]

    def values(self, instrument: str) -> dict[str, ShareValue]:
        """The values that members have in an instrument."""
        found: dict[str, ShareValue] = {}
        for it in self.of_instrument(instrument):
            found |= it.accounts.values
        return found

    def group_of(self, member: str) -> int:
        """The group in which a member is, or was in the end."""
        return self.places.get(member, 1)

    def move(self, groups: Mapping[str, int]) -> None:
        """Members who are in other groups from now on take their values with them."""
        self.places |= groups
        for board in self.boards.values():
            others = {it.identity.group: it for it in self.of_instrument(board.identity.instrument)}
            for name in [*board.accounts.values]:
                if (group := groups.get(name, board.identity.group)) != board.identity.group:
                    value = board.accounts.values.pop(name)
                    others[group].accounts.values[name] = value

    def treat(self, treatment: Treatment, plan: config.Plan) -> None:
        """It is this one, of a day with such phases."""
        self.treatment, self.message = treatment, treatment.message
        for board in self.boards.values():
            board.treat(treatment, plan)


class Rounds:
    """The rounds of a venue so far, in its folder; `on_board` is called with each new board, whose
    program isn't started yet, and `restores` are the log's lines of those of its day.
    """

    def __init__(self, day: config.DayTerms, folder: pathlib.Path, program: str, log: Log) -> None:
        self._day, self._log, self.all = day, log, list[Round]()
        self._resources = VenueResources(day, folder, program, log)
        self.restores = self._resources.restores
        self.on_board: Callable[[InstrumentBoard], None] = lambda board: None

    @property
    def now(self) -> Round:
        """The round that is played."""
        return self.all[-1]

    @property
    def mark(self) -> str:
        """The mark of the last restore of its day, empty for none."""
        return str(self.restores[-1]["mark"]) if self.restores else ""

    # ---- rounds

    def new(self, number: int, treatment: Treatment, groups: int = 1) -> Round:
        """A round, whose programs aren't started yet."""
        found = Round(number, treatment, {}, treatment.message)
        for group in range(1, groups + 1):
            self.add_group(found, group)
        return found

    def add_group(self, round_: Round, group: int) -> list[InstrumentBoard]:
        """The boards of one group more."""
        added = []
        for terms in self._day.instruments:
            identity = BoardIdentity(terms.name, group, round_.number)
            board = InstrumentBoard(identity, terms, round_.treatment, self._resources)
            self.on_board(board)
            round_.boards[identity.name] = board
            added.append(board)
        return added

    def note(self, round_: Round) -> None:
        """Writes a round to the log."""
        kept = round_.treatment.kept()
        self._log.note(kind="round", round=round_.number, groups=round_.groups, treatment=kept)

    def treat(self, treatment: Treatment) -> None:
        """Makes this round another one, with the same reference. Raises PhaseError once a call
        phase was started.
        """
        if self.now.has_begun:
            raise PhaseError("the round has begun")
        self.now.treat(treatment, self._day.plan)
        self._log.note(kind="treat", round=self.now.number, treatment=treatment.kept())

    def announce(self, text: str) -> None:
        """Says something to all in this round."""
        self.now.message = text
        self._log.note(kind="message", round=self.now.number, text=text)

    def learn(self, lines: Iterable[Line]) -> None:
        """Makes the rounds and the groups that the log has. Raises LogError."""
        rounds = []
        for line in lines:
            with taking(line):
                if line["kind"] == "round":
                    if line["groups"] > self._day.members.most:
                        raise ValueError
                    treatment = Treatment.of(line["treatment"])
                    rounds.append(self.new(line["round"], treatment, line["groups"]))
                elif line["kind"] == "group":
                    self.add_group(rounds[line["round"] - 1], line["group"])
        self.all = rounds or self.all

    # ---- boards

    @property
    def boards(self) -> dict[str, InstrumentBoard]:
        """The boards of all rounds, by their keys."""
        return {it.identity.key: it for round_ in self.all for it in round_.boards.values()}

    def boards_of(self, member: VenueMember | None) -> dict[str, InstrumentBoard]:
        """The boards that somebody sees: a member those of its group."""
        return self.now.boards if member is None else self.now.of_group(member.group)

    def named_board(self, name: object, member: VenueMember | None = None) -> InstrumentBoard:
        """The board of this name, or the only one; for a member, that of its own group. Raises
        MessageError.
        """
        boards = self.boards_of(member)
        if isinstance(name, str) and name in boards:
            return boards[name]
        own = [*boards.values()]
        if name is None and len(own) == 1:
            return own[0]
        for it in own:
            if member and name == it.identity.instrument:
                return it
        if name is None and own:
            first = own[0].identity.instrument
            text = f'name one of {len(own)} instruments, as "instrument": "{first}"'
            raise MessageError("unknown_instrument", text)
        raise MessageError("unknown_instrument")

    def named_boards(self, name: object) -> list[InstrumentBoard]:
        """The boards of all groups with the instrument of this name, or with the only one. Raises
        MessageError.
        """
        instruments = {it.identity.instrument for it in self.now.boards.values()}
        if name is None and len(instruments) == 1:
            return self.now.of_instrument(instruments.pop())
        return self.now.of_instrument(self.named_board(name).identity.instrument)

    @property
    def are_seen(self) -> bool:
        """Whether it was seen what all boards have."""
        return all(it.looks.is_seen for it in self.boards.values())

    def check_seen(self) -> None:
        """Raises MessageError until it was seen what all boards have."""
        for board in self.boards.values():
            board.looks.check_seen()

    def check_known(self) -> None:
        """Raises MessageError, which names them, where boards of this round have halted, or it
        wasn't seen yet what they have.
        """
        those = [
            name for name, it in self.now.boards.items() if it.engine.halted or not it.looks.is_seen
        ]
        if those:
            raise MessageError("not_known", RESUME_FIRST.format(", ".join(those)), boards=those)

    @property
    def early_halts(self) -> list[tuple[InstrumentBoard, str]]:
        """The boards of earlier rounds that have halted before it was seen what they have, and why.
        """
        boards = [it for round_ in self.all[:-1] for it in round_.boards.values()]
        halts = [(it, it.engine.halted) for it in boards if not it.looks.is_seen]
        return [(it, why) for it, why in halts if why is not None]


def dealt(names: Sequence[str], groups: int) -> dict[str, int]:
    """A group, from 1, for each name: all groups have as many, or one more."""
    return {name: 1 + place % groups for place, name in enumerate(names)}


def is_even(sizes: Mapping[int, int], groups: int) -> bool:
    """Whether groups of these sizes, those without members left out, differ by one at most."""
    found = [sizes.get(group, 0) for group in range(1, groups + 1)]
    return max(found) - min(found) <= 1


def small(sizes: Mapping[int, int]) -> list[int]:
    """Which groups of these sizes have so few members that they hardly trade, beside others that
    have twice as many or more.
    """
    most = max(sizes.values(), default=0)
    return [group for group, size in sizes.items() if size <= FEW_MEMBERS and 2 * size <= most]


def by_side(names: Iterable[str], values: Mapping[str, ShareValue]) -> list[str]:
    """Names with those of one side together, so that groups that are dealt have as many of each."""
    return sorted(names, key=lambda it: values[it].side if it in values else "")

"""The accounts of an instrument's members: who was handed out which value, and what each gained.

A hand-out to all begins a period, at whose end all shares are counted; a value that one member gets
later counts for its whole period, and that of a member who left for what it traded alone. Of a
value to sell as many shares count as may be sold. So all members of a period gain together no more
than most_gain.
"""
import dataclasses
from collections.abc import Iterable, Iterator, Mapping

from callauction.venue.gains import (
    Predicted, ShareValue, Uncovered, gain_in_ticks, most_gain, predicted, used_of,
)


@dataclasses.dataclass(frozen=True, slots=True)
class MemberFill:
    """What an order of a member had of a trade."""

    trade: int
    order: int
    side: str
    quantity: int
    tick: int


@dataclasses.dataclass
class Period:
    """What was handed out, how many trades of the day came before, and who left meanwhile."""

    since: int
    values: dict[str, ShareValue] = dataclasses.field(default_factory=dict)
    gone: set[str] = dataclasses.field(default_factory=set)


def position(fills: Iterable[MemberFill]) -> int:
    """The shares that were bought, less those that were sold."""
    return sum(it.quantity if it.side == "bid" else -it.quantity for it in fills)


class Accounts:
    """The periods of an instrument's day, of which the first begins with it, and all fills by the
    names of members, each of whom may sell as many `shares` as these more than it bought, None for
    any number.
    """

    def __init__(self, uncovered: Uncovered, shares: int | None = None) -> None:
        self.uncovered, self.shares = uncovered, shares
        self.periods = [Period(0)]
        self.fills: dict[str, list[MemberFill]] = {}

    @property
    def values(self) -> dict[str, ShareValue]:
        """The values that members have now, by their names."""
        return self.periods[-1].values

    @property
    def since(self) -> int:
        """The trades before the values that members have now."""
        return self.periods[-1].since

    @property
    def has_values(self) -> bool:
        """Whether anybody was handed out a value."""
        return any(it.values for it in self.periods)

    def give(self, values: Mapping[str, ShareValue], is_to_all: bool, trades: int) -> None:
        """Hands out values after `trades` trades: where they are to all, nobody else has one."""
        if is_to_all and trades > self.periods[-1].since:
            self.periods.append(Period(trades))
        if is_to_all:
            self.values.clear()
        self.values.update(values)

    def leave(self, member: str) -> None:
        """A member is no longer there to trade."""
        self.periods[-1].gone.add(member)

    def come_back(self, member: str) -> None:
        """A member that had left is there again."""
        self.periods[-1].gone.discard(member)

    def fills_of(self, member: str) -> list[MemberFill]:
        """The fills of a member."""
        return self.fills.get(member, [])

    def gain_of(self, member: str) -> int:
        """What a member's fills gain, in ticks times shares. Those of a period in which nobody had
        a value count nothing.
        """
        return sum(
            gain_in_ticks(
                period.values.get(member),
                (
                    (it.side, it.quantity, it.tick)
                    for it in self.fills_of(member)
                    if begin < it.trade <= end
                ),
                self.uncovered,
            )
            for period, begin, end in self._spans()
            if period.values
        )

    @property
    def gain(self) -> int:
        """What all members have gained, in ticks times shares."""
        return sum(map(self.gain_of, self.fills))

    def left_of(self, member: str) -> int | None:
        """How many shares more a member's value covers after its fills, None where it has none."""
        value = self.values.get(member)
        if value is None:
            return None
        held = sum(
            it.quantity if it.side == value.side else -it.quantity
            for it in self.fills_of(member)
            if it.trade > self.since
        )
        return max(0, value.quantity - held)

    @property
    def most(self) -> int:
        """The most that all could gain together, in ticks times shares."""
        return sum(most_gain([*self._usable(*it)]) for it in self._spans())

    @property
    def predicted(self) -> Predicted | None:
        """What the values that members have now predict."""
        *_, last = self._spans()
        return predicted([*self._usable(*last)])

    def _usable(self, period: Period, begin: int, end: float) -> Iterator[ShareValue]:
        """The values of a period, those of members who left as far as they used them, and those of
        members who sell as far as they may.
        """
        for member, value in period.values.items():
            count = value.quantity
            if member in period.gone:
                fills = [it for it in self.fills_of(member) if begin < it.trade <= end]
                count = used_of(value, ((it.side, it.quantity, it.tick) for it in fills))
            elif value.side == "ask" and self.shares is not None:
                before = [it for it in self.fills_of(member) if it.trade <= begin]
                count = min(count, self.shares + position(before))
            if count > 0:
                yield dataclasses.replace(value, quantity=count)

    def _spans(self) -> Iterable[tuple[Period, int, float]]:
        """Each period, the last trade before it and its own last."""
        ends = [*(it.since for it in self.periods[1:]), float("inf")]
        begins = (it.since for it in self.periods)
        return zip(self.periods, begins, ends)

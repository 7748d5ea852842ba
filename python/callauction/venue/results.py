"""What members came to in the rounds of a venue: what they traded, gained and are paid."""
import dataclasses
from collections.abc import Iterable, Sequence
from decimal import ROUND_HALF_UP, Decimal

from callauction.venue import config
from callauction.venue.instrument_board import InstrumentBoard
from callauction.venue.members import VenueMember
from callauction.venue.rounds import Round

CENT = Decimal("0.01")


@dataclasses.dataclass(frozen=True)
class Gain:
    """What a member gained in a round, in money; None where nobody was handed out a value."""

    round: int
    title: str
    is_practice: bool
    gain: Decimal | None


@dataclasses.dataclass(frozen=True)
class Payoff:
    """What a member is paid: its gains, their sum without practice, the money in its currency; its
    rank among all, from 1; and whether it was removed.
    """

    member: str
    title: str
    gains: tuple[Gain, ...]
    gain: Decimal
    paid: Decimal
    currency: str
    rank: int = 1
    is_removed: bool = False


def amount_of(board: InstrumentBoard, ticks: int) -> Decimal:
    """Ticks times shares as money."""
    return ticks * board.terms.grid.tick_size


def gain_in(round_: Round, member: str) -> Decimal | None:
    """What a member gained on all boards of a round, None where no values were handed out."""
    boards = [it for it in round_.boards.values() if it.accounts.has_values]
    if not boards:
        return None
    return sum((amount_of(it, it.accounts.gain_of(member)) for it in boards), Decimal(0))


def payoff_to(day: config.DayTerms, rounds: Iterable[Round], member: VenueMember) -> Payoff:
    """What a member is paid; its rank isn't known yet."""
    gains = tuple(
        Gain(it.number, it.treatment.title, it.treatment.is_practice, gain_in(it, member.name))
        for it in rounds
        if it.has_begun
    )
    counted = (it.gain for it in gains if it.gain is not None and not it.is_practice)
    total = sum(counted, Decimal(0))
    terms = day.payoff
    paid = max(Decimal(0), terms.base + terms.rate * total).quantize(CENT, ROUND_HALF_UP)
    removed = member.is_removed
    return Payoff(member.name, member.title, gains, total, paid, day.paid_in, is_removed=removed)


def payoffs(
    day: config.DayTerms, rounds: Sequence[Round], members: Iterable[VenueMember]
) -> list[Payoff]:
    """What members are paid, who has most first, robots aside."""
    paid = [payoff_to(day, rounds, it) for it in members if not it.robot]
    paid.sort(key=lambda it: -it.gain)
    ranks: dict[Decimal, int] = {}
    for place, it in enumerate(paid, 1):
        ranks.setdefault(it.gain, place)
    return [dataclasses.replace(it, rank=ranks[it.gain]) for it in paid]

"""The phases of an instrument and their clock. What an uncross does is the program's reply; here is
only what the venue takes in between, and when.
"""
import dataclasses
import enum
import re
from typing import Any, Self

from callauction.venue.config import Plan
from callauction.words import AUCTIONS

OVER = "over"
UNCROSSED = re.compile(r"(opening|intraday|closing) (?:price|no price)")


class Phase(enum.StrEnum):
    """What goes on: no call phase yet, a call phase, an extended one after an interruption, one
    that has ended and isn't uncrossed, the end of the day.
    """

    WAITING = "waiting"
    CALL = "call"
    EXTENDED = "extended"
    ENDED = "ended"
    OVER = "over"


class PhaseError(ValueError):
    """This can't be done in the phase that it is."""


@dataclasses.dataclass(frozen=True)
class TimedPhase:
    """The phase of the current auction. Times are seconds of the epoch: `ends` is the end that is
    shown, None for none; `latest` the last at which a random end may come; `real` the end that was
    drawn, which nobody is shown. While it is frozen since `frozen`, the clock is held.
    """

    phase: Phase = Phase.WAITING
    auction: str = AUCTIONS[0]
    ends: float | None = None
    latest: float | None = None
    real: float | None = None
    frozen: float | None = None

    def takes_orders(self) -> bool:
        """Whether members may enter, change and delete orders."""
        return self.phase in (Phase.CALL, Phase.EXTENDED) and self.frozen is None

    def is_due(self, now: float) -> bool:
        """Whether the call phase has come to its end by the clock."""
        return self.takes_orders() and self.real is not None and now >= self.real

    def started(self, now: float, plan: Plan, drawn: float) -> Self:
        """A call phase, with an end that is drawn by a number from 0 to 1. Raises PhaseError."""
        if self.phase is not Phase.WAITING:
            raise PhaseError(f"no call can start in the phase {self.phase}")
        return self._with_end(Phase.CALL, now, plan.call, plan.random_end, drawn)

    def ended(self) -> Self:
        """The end of the call phase. Raises PhaseError."""
        if self.phase not in (Phase.CALL, Phase.EXTENDED):
            raise PhaseError(f"no call can end in the phase {self.phase}")
        return dataclasses.replace(
            self, phase=Phase.ENDED, ends=None, latest=None, real=None, frozen=None
        )

    def extended_by(self, now: float, seconds: int) -> Self:
        """A call phase that ends later, or goes on. Raises PhaseError."""
        if self.phase is Phase.ENDED:
            return self._with_end(Phase.EXTENDED, now, seconds, 0, 0.0)
        if self.phase not in (Phase.CALL, Phase.EXTENDED):
            raise PhaseError(f"no call can be extended in the phase {self.phase}")
        return self._later(seconds)

    def held(self, now: float) -> Self:
        """A call phase in which no order is taken for a while. Raises PhaseError."""
        if not self.takes_orders():
            raise PhaseError(f"nothing can be frozen in the phase {self.phase}")
        return dataclasses.replace(self, frozen=now)

    def thawed(self, now: float) -> Self:
        """A call phase that goes on after a freeze, as much later as that lasted. Raises
        PhaseError.
        """
        if self.frozen is None:
            raise PhaseError("nothing is frozen")
        later = max(0.0, now - self.frozen)
        return dataclasses.replace(self, frozen=None)._later(later)

    def goes_on(self, now: float, seconds: int) -> Self:
        """A call phase whose end has passed, and that goes on for as many seconds, at least one."""
        return self._with_end(self.phase, now, seconds, 0, 0.0)

    def set_back(self, seconds: float) -> Self:
        """The same by a clock that was set back by as much."""
        frozen = None if self.frozen is None else self.frozen - seconds
        return dataclasses.replace(self, frozen=frozen)._later(-seconds)

    def _later(self, seconds: float) -> Self:
        """The same with its end, where it has one, as much later."""
        if self.ends is None or self.latest is None or self.real is None:
            return self
        return dataclasses.replace(
            self, ends=self.ends + seconds, latest=self.latest + seconds, real=self.real + seconds
        )

    def may_uncross(self) -> bool:
        """Whether the operator may uncross."""
        in_auction = self.phase in (Phase.CALL, Phase.EXTENDED, Phase.ENDED)
        return in_auction and self.frozen is None

    def timed(self, now: float, seconds: int) -> Self:
        """An extended call phase without an end yet, which is given one."""
        if self.phase is not Phase.EXTENDED or self.ends is not None:
            return self
        return self._with_end(Phase.EXTENDED, now, seconds, 0, 0.0)

    def replied(self, reply: str) -> Self:
        """The state after the program's reply to an uncross: an interruption goes on as an
        extended call phase without an end yet, a refusal changes nothing.
        """
        if reply.startswith("interrupted"):
            return type(self)(Phase.EXTENDED, self.auction)
        found = UNCROSSED.match(reply)
        if not found:
            return self
        later = AUCTIONS[AUCTIONS.index(found[1]) + 1 :]
        return type(self)(Phase.WAITING, later[0]) if later else type(self)(Phase.OVER, OVER)

    def _with_end(
        self, phase: Phase, now: float, seconds: int, random_end: int, drawn: float
    ) -> Self:
        """A call phase of `seconds` seconds, and at most `random_end` more."""
        if not seconds:
            return type(self)(phase, self.auction)
        ends = now + seconds
        real = ends + drawn * random_end
        return type(self)(phase, self.auction, ends, ends + random_end, real)

    def kept(self) -> dict[str, Any]:
        """What is written down of it."""
        return {"phase": str(self.phase)} | {
            name: getattr(self, name) for name in ("auction", "ends", "latest", "real", "frozen")
        }

    @classmethod
    def of(cls, kept: dict[str, Any]) -> Self:
        """What was written down. Raises ValueError and KeyError for anything else."""
        return cls(
            Phase(kept["phase"]),
            str(kept["auction"]),
            kept["ends"],
            kept["latest"],
            kept["real"],
            kept["frozen"],
        )

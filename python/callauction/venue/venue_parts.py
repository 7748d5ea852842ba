"""The parts of a venue, with which its past, its starts and its groups begin."""
import dataclasses

from callauction.venue import config
from callauction.venue.audience import Audience
from callauction.venue.halts import Halts
from callauction.venue.log import Log
from callauction.venue.members import Members
from callauction.venue.rounds import Rounds
from callauction.venue.values import Values


@dataclasses.dataclass(frozen=True)
class VenueParts:
    """What a venue is made of."""

    day: config.DayTerms
    log: Log
    members: Members
    rounds: Rounds
    audience: Audience
    values: Values
    halts: Halts

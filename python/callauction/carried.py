"""What is left of a day for the next one: see CarriedOver."""
import dataclasses

import numpy
from numpy.typing import NDArray

from callauction.arrays import COMMAND, Structs, replies_in
from callauction.errors import NotEnteredError
from callauction.words import CommandTag, Refusal, ReplyTag, Restriction


@dataclasses.dataclass(frozen=True, slots=True, eq=False)
class CarriedOver:
    """The open orders that are for every auction, as what enters them into the next day's auction.

    `commands` is an array of COMMAND, in time order within each limit of a side and among its
    market orders, which is all that price-time priority asks: entered in it, each order keeps its
    place behind those with its limit that were before it. `ids` is an array of uint32 of the same
    length with the orders' ids of this day: those of the next one are 1, 2 and so on. `reference`
    is the next day's reference price, a tick.

    An order whose peak is above what is left of it has that for a peak, as a greater one is
    refused: a change to more shares shows no more of it on the next day.
    """

    commands: Structs
    ids: NDArray[numpy.uint32]
    reference: int

    def __eq__(self, other: object) -> bool:
        """Whether both have the same commands, ids and reference."""
        if not isinstance(other, CarriedOver):
            return NotImplemented
        pairs = (self.commands, other.commands), (self.ids, other.ids)
        is_same = all(numpy.array_equal(own, others) for own, others in pairs)
        return is_same and self.reference == other.reference


def commands_in(left: object) -> Structs:
    """The commands of what was carried over. Raises TypeError for what is none."""
    if not isinstance(left, CarriedOver):
        raise TypeError(f"left must be a CarriedOver, not {type(left).__name__}")
    return left.commands


def all_entered(left: CarriedOver, answers: Structs) -> Structs:
    """The answers to the commands of what was carried over, of REPLY or RECEIPT. Raises
    NotEnteredError where one is a refusal.
    """
    replies = replies_in(answers)
    places = numpy.flatnonzero(replies["tag"] == ReplyTag.REFUSED)
    if len(places):
        refused = {int(left.ids[it]): Refusal(replies["refusal"][it]) for it in places}
        raise NotEnteredError(refused, answers)
    return answers


def carried_over(orders: Structs, reference: int) -> CarriedOver:
    """What is left of a day, by its open orders in priority, an array of ORDER.

    Those with one limit are in time order. The ids, which were given in time order, tell how these
    lists lie in one another, where no order lost its place in time. A peak above what is left of
    its order is cut to that, as it would be refused.
    """
    left = orders[numpy.argsort(_times_of(orders), kind="stable")]
    left = left[left["restriction"] == Restriction.NONE]
    commands = numpy.zeros(len(left), COMMAND)
    commands["tag"] = CommandTag.ENTER
    for name in ("member", "side", "quantity", "limit", "has_limit", "has_peak", "client"):
        commands[name] = left[name]
    commands["peak"] = numpy.where(left["has_peak"], left["visible"], 0)
    return CarriedOver(commands, left["id"].copy(), reference)


def _times_of(orders: Structs) -> NDArray[numpy.uint32]:
    """For each order the greatest id of those of its side and limit that don't come after it."""
    limits = orders[["side", "has_limit", "limit"]]
    begins = numpy.flatnonzero(limits[1:] != limits[:-1]) + 1
    parts = numpy.split(orders["id"], begins)
    return numpy.concatenate([numpy.maximum.accumulate(part) for part in parts])

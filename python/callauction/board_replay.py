"""What an uncross of a board did, and what is left of its day, by the board's history."""
import dataclasses

import numpy

from callauction.arguments import check_enumeration
from callauction.arrays import OUTCOME, Structs
from callauction.auction import Auction
from callauction.carried import CarriedOver
from callauction.words import AuctionKind, Config, ReplyTag


def uncrossed_orders(config: Config, history: Structs, kind: AuctionKind) -> Structs:
    """What the uncross of this auction did to the orders, as Auction.uncross_orders says: an array
    of OUTCOME, empty where the history, an array of ENTRY, hasn't come to it. The calls before it
    are applied to an auction once more. Raises TypeError for a kind that is no AuctionKind, and
    MemoryError.
    """
    check_enumeration("kind", kind, AuctionKind)
    replies = history["reply"]
    ended = (replies["tag"] == ReplyTag.UNCROSSED) & (replies["auction"] == kind)
    if not ended.any():
        return numpy.zeros(0, OUTCOME)
    with _replayed(config, history[: int(numpy.argmax(ended))]) as again:
        _, outcomes = again.uncross_orders()
    return outcomes


def carried_over_after(config: Config, history: Structs) -> CarriedOver:
    """What is left for the next day after a history, an array of ENTRY, whose calls are applied to
    an auction once more. Raises MemoryError.
    """
    with _replayed(config, history) as again:
        return again.carried_over()


def _replayed(config: Config, history: Structs) -> Auction:
    """An auction to which the calls of a history were applied one by one. Raises MemoryError."""
    again = Auction(**dataclasses.asdict(config))
    again.apply_many(history["command"].copy())
    return again

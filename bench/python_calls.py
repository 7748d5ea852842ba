"""Prints what the calls of an auction and of a board take from Python, in nanoseconds: those of
bench/python.c, a line being the mean of a thousand calls, or commands. `bench/bench python` runs
it.
"""
import time

import numpy
from callauction import COMMAND, REPLY, Auction, Board, CommandTag, Entered, Price, ReplyTag, Side
from callauction.arrays import Structs

CALLS, STANDING, AT_ONCE = 50_000, 1_000, 1_000
SIDES = (Side.ASK, Side.BID)
LIMITS = [1 + k * 7919 % 1000 for k in range(CALLS)]
THOUSANDS = [LIMITS[k : k + AT_ONCE] for k in range(0, CALLS, AT_ONCE)]


def begin(standing: int) -> Auction:
    """An auction with `standing` open orders."""
    auction = Auction(reference=500, max_open=65_536, max_calls=1_048_576)
    for k in range(standing):
        auction.enter(1, SIDES[k % 2], 100, 1 + k % 1000, check=True)
    return auction


def show(name: str, took: list[int]) -> None:
    """Prints the nanoseconds that each thousand took."""
    print("".join(f"{name} {it / AT_ONCE:.1f}\n" for it in took), end="")


def measure_enter() -> None:
    took = []
    with begin(0) as auction:
        enter, side = auction.enter, Side.BID
        for limits in THOUSANDS:
            start = time.perf_counter_ns()
            for limit in limits:
                reply = enter(1, side, 100, limit)
            took.append(time.perf_counter_ns() - start)
        assert reply == Entered(CALLS)
    show("enter", took)


def measure_indicate() -> None:
    took = []
    with begin(STANDING) as auction:
        indicate = auction.indicate
        for limits in THOUSANDS:
            start = time.perf_counter_ns()
            for _ in limits:
                reply = indicate(1)
            took.append(time.perf_counter_ns() - start)
        assert isinstance(reply, Price)
    show("indicate", took)


def commands() -> Structs:
    """In turn an order, a question, a change of that order, and its deletion."""
    found = numpy.zeros(CALLS, COMMAND)
    places = numpy.arange(CALLS)
    kinds = [CommandTag.ENTER, CommandTag.INDICATE, CommandTag.CHANGE, CommandTag.DELETE]
    found["member"], found["has_limit"], found["limit"] = 1, 1, LIMITS
    found["tag"] = numpy.array(kinds)[places % 4]
    found["side"] = numpy.where(places % 8 < 4, Side.BID, Side.ASK)
    found["quantity"] = numpy.where(places % 4 == 2, 50, 100)
    found["id"] = STANDING + 1 + places // 4
    return found


def measure_apply_many() -> None:
    given, replies, took = commands(), numpy.zeros(AT_ONCE, REPLY), []
    with begin(STANDING) as auction:
        for k in range(0, CALLS, AT_ONCE):
            start = time.perf_counter_ns()
            auction.apply_many(given[k : k + AT_ONCE], replies)
            took.append(time.perf_counter_ns() - start)
    assert ReplyTag.REFUSED not in replies["tag"]
    show("apply-many", took)


def measure_board() -> None:
    took = []
    board = Board(2, reference=500, max_open=65_536, max_calls=1_048_576)
    enter, side = board[1].enter, Side.BID
    for limits in THOUSANDS:
        start = time.perf_counter_ns()
        for limit in limits:
            receipt = enter(side, 100, limit)
        took.append(time.perf_counter_ns() - start)
    assert receipt.reply == Entered(CALLS)
    show("board-enter", took)


if __name__ == "__main__":
    measure_enter()
    measure_indicate()
    measure_apply_many()
    measure_board()

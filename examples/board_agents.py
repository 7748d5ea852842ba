"""A thousand agents on one board: eight threads with a member each, which the agents of a thread
share. The client of an order is the number of its agent.

    PYTHONPATH=/tmp/python /usr/bin/python3 examples/board_agents.py

Each agent wants to buy or to sell SHARES shares in the opening. Any member is told what each got.
"""
from concurrent.futures import ThreadPoolExecutor

import numpy
from callauction import AuctionKind, Board, Member, Side, Uncrossed, commands

AGENTS, THREADS, SHARES = 1_000, 8, 100
SIDES = numpy.where(numpy.arange(AGENTS) % 3 == 0, Side.ASK, Side.BID)


def trade(member: Member) -> None:
    """The orders of this member's agents, at once."""
    agents = numpy.arange(member.number - 1, AGENTS, THREADS)
    limits = numpy.random.default_rng(member.number).integers(190, 211, len(agents))
    member.apply_many(commands(side=SIDES[agents], quantity=SHARES, limit=limits, client=agents))


def main() -> None:
    shares_of = numpy.zeros(AGENTS, numpy.uint64)
    with Board(THREADS + 1) as board:
        with ThreadPoolExecutor(THREADS) as threads:
            for task in [threads.submit(trade, it) for it in board.members[1:]]:
                task.result()
        count = len(numpy.unique(board[0].orders()["client"]))
        reply = board[0].uncross().reply
        done = board[1].uncrossed_orders(AuctionKind.OPENING)
    assert isinstance(reply, Uncrossed) and reply.price is not None
    numpy.add.at(shares_of, done["client"], done["filled"])
    bought, sold = shares_of[SIDES == Side.BID].sum(), shares_of[SIDES == Side.ASK].sum()
    print(f"{count} agents entered an order each")
    print(f"price {reply.price.tick}: bought {bought}, sold {sold}, volume {reply.price.volume}")
    print(f"{(shares_of == SHARES).sum()} agents got all their shares")


if __name__ == "__main__":
    main()

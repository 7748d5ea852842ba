"""Eight members of a board, each on a thread of its own, and a thread that looks at what is shown.

    library/build /tmp/callauction && python/build /tmp/callauction /tmp/python
    PYTHONPATH=/tmp/python /usr/bin/python3 examples/board.py

prints examples/board.txt, in whatever order the threads ran.
"""
import random
import threading
from concurrent.futures import ThreadPoolExecutor

from callauction import Auction, Board, Change, Command, Delete, Deleted, Enter, Entered
from callauction import Member, Side

MEMBERS, CALLS = 8, 5_000
CONFIG = {"low": 1, "high": 1000, "reference": 500, "max_open": 65_536, "max_calls": 65_536}


def trade(member: Member) -> None:
    """Enters orders near 500, and changes or deletes the last one."""
    dice = random.Random(member.number)
    last = 0
    for _ in range(CALLS):
        roll, quantity, limit = dice.random(), dice.randint(1, 50), dice.randint(490, 510)
        command: Command = Enter(dice.choice([Side.BID, Side.ASK]), quantity, limit)
        if last and roll < 0.4:
            command = Delete(last) if roll < 0.2 else Change(last, quantity, limit)
        reply = member.call(command).reply
        if isinstance(reply, Entered):
            last = reply.id
        elif isinstance(reply, Deleted):
            last = 0


def watch(member: Member, is_over: threading.Event) -> bool:
    """Looks until the trading is over: whether the calls never became fewer, and are all there."""
    seen = 0
    while not is_over.is_set():
        calls = member.look().calls
        if calls < seen:
            return False
        seen = calls
    return member.look().calls == MEMBERS * CALLS


def main() -> None:
    board = Board(MEMBERS + 1, **CONFIG)
    is_over = threading.Event()
    with ThreadPoolExecutor(MEMBERS + 1) as pool:
        watching = pool.submit(watch, board[MEMBERS], is_over)
        for task in [pool.submit(trade, member) for member in board.members[:MEMBERS]]:
            task.result()
        is_over.set()
    day = board.close()
    print(f"{MEMBERS} members made {len(day.history)} calls")
    for number, count in enumerate(day.counts[:MEMBERS]):
        if count != CALLS:
            print(f"member {number}: {count}")
    with Auction(**CONFIG) as auction:
        replies = auction.apply_many(day.history["command"].copy())
    print(f"{(replies == day.history['reply']).sum()} replies are those of one auction")
    ended = "never went back, and has all calls at the end" if watching.result() else "went back"
    print(f"what was shown {ended}")


if __name__ == "__main__":
    main()

"""The day of a board that was closed: see BoardDay."""
from callauction.arrays import Structs
from callauction.board_replay import carried_over_after, uncrossed_orders
from callauction.carried import CarriedOver
from callauction.day_frames import DayTables, written_day
from callauction.program import Day
from callauction.replies import reply_of
from callauction.words import AuctionKind, Config
from callauction.written import command_of


class BoardDay(DayTables):
    """The history of a board's day, and what the program says of it.

    `history` is an array of ENTRY: the calls in their order, each with the reply of one auction to
    which they were applied one by one. `counts` says how many of them are each member's.
    """

    def __init__(self, config: Config, history: Structs, counts: tuple[int, ...]) -> None:
        self.config, self.history, self.counts = config, history, counts

    def __repr__(self) -> str:
        return f"<day of a board: {len(self.history)} calls of {len(self.counts)} members>"

    def uncrossed_orders(self, kind: AuctionKind) -> Structs:
        """What the uncross of this auction did to the orders, as Member.uncrossed_orders."""
        return uncrossed_orders(self.config, self.history, kind)

    def carried_over(self) -> CarriedOver:
        """What is left of the day for the next one, with the clients of its orders, as
        Auction.carried_over: the board's calls are applied to an auction once more. Raises
        MemoryError.
        """
        return carried_over_after(self.config, self.history)

    def day(self) -> Day:
        """The history as a journal."""
        entries = (
            (entry["command"]["member"], command_of(entry["command"]), reply_of(entry["reply"]))
            for entry in self.history
        )
        return written_day(self.config, len(self.counts), entries)

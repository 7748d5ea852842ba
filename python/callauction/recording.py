"""An auction that keeps its record, with its tables and its reasons: see RecordedAuction."""
import copy
import operator
import os
import threading
import weakref
from types import TracebackType
from typing import Any, Self, cast

import pandas

from callauction import words
from callauction.arguments import number
from callauction.arrays import Shares, Structs, check_recordable, refuse_first
from callauction.auction import Auction
from callauction.day_frames import DayTables, written_day
from callauction.errors import BusyError, NotAppliedError, RefusedError, close_after
from callauction.limits import MOST_MEMBERS, MOST_NUMBER, MOST_RANGE
from callauction.program import Day
from callauction.replies import reply_of
from callauction.tables import audit_of, commands_of, journal_of, orders_frame, whole_lines_of
from callauction.words import Command, Config, MarketOrders, Reply, Restriction, Side
from callauction.written import command_of

_OWN = {"_auction", "_record", "_lock", "_members"}
"""What a RecordedAuction keeps; a subclass may keep more."""
_NUMBERS = ("low", "high", "reference", "open", "calls", "range")
"""What a RecordedAuction is opened with, as a day record calls it, in its order."""


class RecordedAuction(DayTables):
    """An Auction with the record of its day, and what the program says of that record.

    Commands are applied by an Auction in this process, which is opened with the same numbers and
    raises the same errors. Each one that was applied is kept with its reply. The tables are what
    the program prints of this record.

    Members are numbered from 0 to 63, and no number is above 4,294,967,295, as a journal has no
    others: ValueError else, and nothing is applied. Threads that use one object wait for one
    another; in a forked child one that another thread was using raises BusyError.
    """

    def __init__(
        self,
        low: int = 1,
        high: int = 1000,
        reference: int = 200,
        max_open: int = 4096,
        max_calls: int = 65536,
        range: int | None = None,
        reserve: int = 0,
    ) -> None:
        if range is not None:
            number("range", range, MOST_RANGE)
        self._auction = Auction(low, high, reference, max_open, max_calls, range, reserve)
        self._record: list[tuple[int, Command, Reply]] = []
        self._lock: Any = threading.RLock()
        self._members = MOST_MEMBERS
        _auctions.add(self)

    @classmethod
    def resumed(cls, path: str | os.PathLike[str]) -> Self:
        """The auction of the day of a journal, after its calls and with their record, to go on with
        by members of that day. Its whole lines are read: what follows, as a line that a crash has
        cut, isn't. A reserve and clients aren't in a journal.

        Raises OSError, ProgramError where the file is no journal, and ValueError where one of its
        replies isn't the lawful one.
        """
        day = whole_lines_of(Day.read(path))
        for fault in audit_of(day).itertuples():
            text = f'recorded "{fault.recorded}", lawful "{fault.lawful}"'
            raise ValueError(f"entry {fault.entry}: {text}")
        given = journal_of(day)
        made = cls(*(given.attrs[name] for name in _NUMBERS))
        made._members = given.attrs["members"]
        made.apply_many(commands_of(given))
        return made

    def __repr__(self) -> str:
        return f"<{type(self).__name__} of {self._auction!r}>"

    def __enter__(self) -> Self:
        self._auction.__enter__()
        return self

    def __exit__(
        self,
        kind: type[BaseException] | None,
        raised: BaseException | None,
        traceback: TracebackType | None,
    ) -> None:
        close_after(raised, "auction", self.close)

    # ---- commands

    def enter(
        self,
        member: int,
        side: Side,
        quantity: int,
        limit: int | None = None,
        peak: int | None = None,
        restriction: Restriction = Restriction.NONE,
        client: int = 0,
        *,
        check: bool = False,
    ) -> words.Entered | words.Refused:
        """As Auction.enter."""
        order = words.Enter(side, quantity, limit, peak, restriction, client)
        reply = self._applied(member, order, check)
        return cast("words.Entered | words.Refused", reply)

    def change(
        self, member: int, id: int, quantity: int, limit: int | None = None, *, check: bool = False
    ) -> words.Changed | words.Refused:
        """As Auction.change."""
        reply = self._applied(member, words.Change(id, quantity, limit), check)
        return cast("words.Changed | words.Refused", reply)

    def delete(self, member: int, id: int, *, check: bool = False) -> words.Deleted | words.Refused:
        """As Auction.delete."""
        return cast("words.Deleted | words.Refused", self._applied(member, words.Delete(id), check))

    def order_status(
        self, member: int, id: int, *, check: bool = False
    ) -> words.OpenOrder | words.Refused:
        """As Auction.order_status."""
        reply = self._applied(member, words.OrderStatus(id), check)
        return cast("words.OpenOrder | words.Refused", reply)

    def indicate(
        self, member: int, *, check: bool = False
    ) -> words.Price | words.NoPrice | words.Refused:
        """As Auction.indicate."""
        reply = self._applied(member, words.Indicate(), check)
        return cast("words.Price | words.NoPrice | words.Refused", reply)

    def read_trade(
        self, member: int, number: int, *, check: bool = False
    ) -> words.Traded | words.Refused:
        """As Auction.read_trade."""
        reply = self._applied(member, words.ReadTrade(number), check)
        return cast("words.Traded | words.Refused", reply)

    def uncross(
        self, member: int = 0, *, check: bool = False
    ) -> words.Uncrossed | words.Interrupted | words.Refused:
        """As Auction.uncross."""
        reply = self._applied(member, words.Uncross(), check)
        return cast("words.Uncrossed | words.Interrupted | words.Refused", reply)

    def apply(self, member: int, command: Command, *, check: bool = False) -> Reply:
        """As Auction.apply."""
        return self._applied(member, command, check)

    def apply_many(self, commands: Structs) -> Structs:
        """As Auction.apply_many: an array of REPLY. Raises ValueError where the array has a member
        or a number that no journal has, and then nothing was applied.
        """
        check_recordable(commands)
        wrong = commands["member"] >= self._members
        refuse_first(commands, "member", wrong, f"from 0 to {self._members - 1}")
        with self._lock:
            try:
                replies = self._auction.apply_many(commands)
            except NotAppliedError as error:
                self._keep(commands, error.replies)
                raise
            self._keep(commands, replies)
        return replies

    def _applied(self, member: int, command: Command, check: bool) -> Reply:
        """The reply to a command, which is kept with it."""
        self._check_recordable(member, command)
        with self._lock:
            reply = self._auction.apply(member, command)
            self._record.append((member, command, reply))
        if check and isinstance(reply, words.Refused):
            raise RefusedError(reply.refusal)
        return reply

    def _check_recordable(self, member: object, command: Command) -> None:
        """Raises TypeError or ValueError for a member or a number that the journal can't have."""
        number("member", member, self._members - 1)
        if isinstance(command, words.Enter | words.Change):
            number("quantity", command.quantity, MOST_NUMBER)
        if isinstance(command, words.Enter) and command.peak is not None:
            number("peak", command.peak, MOST_NUMBER)

    def _keep(self, commands: Structs, replies: Structs | None) -> None:
        """Keeps the commands that have replies with these."""
        assert replies is not None
        self._record += [
            (int(command["member"]), command_of(command), reply_of(reply))
            for command, reply in zip(commands, replies)
        ]

    # ---- what is shown

    def display(self) -> words.Price | words.NoPrice:
        """As Auction.display."""
        with self._lock:
            return self._auction.display()

    def ladder(self) -> tuple[Shares, Shares]:
        """As Auction.ladder."""
        with self._lock:
            return self._auction.ladder()

    def market_orders(self) -> MarketOrders:
        """As Auction.market_orders."""
        with self._lock:
            return self._auction.market_orders()

    def orders(self, member: int | None = None) -> pandas.DataFrame:
        """The open orders of a member, or of all, in price-time priority (tables.ORDERS): the bids
        before the asks, also those that wait for another auction. Raises as Auction.orders.
        """
        with self._lock:
            return orders_frame(self._auction.orders(member))

    def expiring(self) -> pandas.DataFrame:
        """The orders that an uncross now would take out because they are for its auction alone,
        with what would be left of them then (tables.ORDERS).
        """
        with self._lock:
            return orders_frame(self._auction.expiring())

    def state(self) -> words.State:
        """As Auction.state."""
        with self._lock:
            return self._auction.state()

    @property
    def calls(self) -> int:
        """How many commands were applied, the refused ones among them."""
        with self._lock:
            return self._auction.calls

    @property
    def config(self) -> Config:
        """What the auction was opened with."""
        with self._lock:
            return self._auction.config

    @property
    def is_closed(self) -> bool:
        """Whether it was closed. The record of a closed auction can't be asked for."""
        with self._lock:
            return self._auction.is_closed

    # ---- the whole auction

    def copy(self) -> Self:
        """A copy of this auction as it is now, with a copy of its record; what a subclass keeps
        beside these is shared by both, but for copy.deepcopy. Raises MemoryError.
        """
        other = object.__new__(type(self))
        vars(other).update(vars(self))
        with self._lock:
            other._auction = self._auction.copy()
            other._record = [*self._record]
        other._lock = threading.RLock()
        _auctions.add(other)
        return other

    def __copy__(self) -> Self:
        return self.copy()

    def __deepcopy__(self, memo: dict[int, object]) -> Self:
        other = memo[id(self)] = self.copy()
        for name in vars(self).keys() - _OWN:
            setattr(other, name, copy.deepcopy(vars(self)[name], memo))
        return other

    def reset(self) -> None:
        """Goes back to the opening, with an empty record."""
        with self._lock:
            self._auction.reset()
            self._record.clear()

    def close(self) -> None:
        """Gives the auction up; does nothing where it was closed before."""
        with self._lock:
            self._auction.close()

    # ---- the record, and what the program says of it; each raises ProgramError

    def day(self) -> Day:
        """The record as a journal, with the replies that were given."""
        with self._lock:
            config, record = self._auction.config, [*self._record]
        entries = ((operator.index(member), command, reply) for member, command, reply in record)
        return written_day(config, self._members, entries)


_auctions: "weakref.WeakSet[RecordedAuction]" = weakref.WeakSet()
"""The auctions of this process."""


class _Kept:
    """In a forked child the lock that a thread of the parent had, and never gives back."""

    def __enter__(self) -> None:
        raise BusyError("another thread was using the auction at the fork")

    def __exit__(self, *_: object) -> None:
        pass

    def acquire(self, blocking: bool) -> bool:
        """Whether the lock is free: never."""
        return False


def _keep_locks() -> None:
    """In a forked child: auctions that a thread of the parent was using raise BusyError."""
    for auction in [*_auctions]:
        if auction._lock.acquire(blocking=False):
            auction._lock.release()
        else:
            auction._lock = _Kept()


os.register_at_fork(after_in_child=_keep_locks)

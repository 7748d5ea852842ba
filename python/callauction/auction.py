"""An auction in this process: see Auction."""
import contextlib
import copy
import inspect
from collections.abc import Callable, Mapping
from types import TracebackType
from typing import Any, Self, cast

import numpy

from callauction import array_copies, words
from callauction.arguments import check_enumeration, fault_of, number, numbers
from callauction.arrays import (
    COMMAND,
    ORDER,
    OUTCOME,
    REPLY,
    TRADE,
    Shares,
    Structs,
    checked_array,
)
from callauction.carried import CarriedOver, all_entered, carried_over, commands_in
from callauction.errors import (
    AuctionError,
    BusyError,
    ClosedError,
    NotAppliedError,
    close_after,
)
from callauction.library import ffi, lib
from callauction.limits import MOST_NUMBER
from callauction.replies import (
    entered,
    error_of,
    not_applied,
    not_entered,
    price,
    read,
    state_of,
)
from callauction.words import Command, Config, MarketOrders, Reply, ReplyTag, Restriction, Side

_TERMS = ("member", "quantity", "limit", "peak", "client")
_CHANGE = ("member", "id", "quantity", "limit", "has")
_ID, _NUMBER, _MEMBER = ("member", "id"), ("member", "number"), ("member",)
"""The numbers of each command, in the order in which the library takes them."""
_BID, _ASK = Side.BID, Side.ASK
_PRICED = int(ReplyTag.PRICED)
_HAS_LIMIT, _HAS_PEAK = int(lib.PYTHON_HAS_LIMIT), int(lib.PYTHON_HAS_PEAK)
_enter, _indicate = lib.python_enter, lib.python_indicate
ALL_MEMBERS = int(lib.CALLAUCTION_ALL_MEMBERS)
"""The number that means the orders of all."""


class _Signature:
    """The signature of a class whose `__new__` takes whatever its `__init__` does."""

    def __get__(self, _: object, owner: type) -> inspect.Signature:
        made = inspect.signature(owner.__init__)  # type: ignore[misc]
        return made.replace(parameters=[*made.parameters.values()][1:])


def config_struct(config: Config) -> Any:
    """A config as a struct of the library. Raises TypeError or ValueError with the name of a number
    that is no integer or doesn't fit.
    """
    found = ffi.new("callauction_config *")
    found.low = number("low", config.low, MOST_NUMBER)
    found.high = number("high", config.high, MOST_NUMBER)
    found.reference = number("reference", config.reference, MOST_NUMBER)
    found.max_open = number("max_open", config.max_open, MOST_NUMBER)
    found.max_calls = number("max_calls", config.max_calls, MOST_NUMBER)
    found.has_range = config.range is not None
    found.range = 0 if config.range is None else number("range", config.range, MOST_NUMBER)
    found.has_reserve = True
    found.reserve = number("reserve", config.reserve, MOST_NUMBER)
    return found


def config_of(found: Any) -> Config:
    """What a struct of the library says."""
    most = found.range if found.has_range else None
    numbers = found.low, found.high, found.reference, found.max_open, found.max_calls
    return Config(*numbers, most, found.reserve)


def copy_over(
    other: object, clone: Callable[[Any], int], fault: Callable[[int], Exception] = error_of
) -> None:
    """Has a call of the library make what this auction holds a copy. Raises ValueError where it
    has other limits, TypeError where it is no Auction, ClosedError where it was closed, and the
    fault of another error.
    """
    if not isinstance(other, Auction):
        raise TypeError(f"other must be an Auction, not {type(other).__name__}")
    if other.is_closed:
        raise ClosedError("other was closed")
    answer = clone(other._own)
    if answer == lib.CALLAUCTION_ERROR_IN_USE:
        raise ValueError("other must have the same bounds, max_open and max_calls")
    if answer:
        raise fault(answer)


class Auction:
    """A call auction of one instrument over one day, at its opening.

    `low` and `high` are the lowest and the highest tick, `reference` the first reference price,
    `max_open` how many orders may be open at a time, `max_calls` how many commands may be applied.
    With a `range`, an uncross whose price is more than `range` ticks from the reference is
    interrupted once. The last `reserve` calls are the operator's.

    As a context manager it is closed at the end; else when it is dropped. Members are numbered from
    0 to 255; member 0 is the operator, who alone uncrosses.

    Raises TypeError or ValueError with the name of a bad argument, and MemoryError. Each method but
    `close` raises ClosedError after it, and each raises BusyError while another call of this object
    is running. One that raises leaves the auction as it was, but for RefusedError and for
    `apply_many`, which keeps what it had applied.

    A method that applies a command raises FullError where no call is left to the member, and
    TypeError or ValueError for an argument that isn't an integer or doesn't fit the library's
    number. A command that the auction refuses, as for a limit that is no tick of it, is answered
    Refused; with `check` RefusedError is raised instead.
    """

    __slots__ = ("_own", "__weakref__")
    __signature__ = _Signature()

    _own: Any
    """The library's handle, and whether a call has it. It never moves, and closes what it holds
    when it is dropped.
    """

    def __new__(cls, *_: object, **__: object) -> Self:
        self = super().__new__(cls)
        self._own = ffi.gc(ffi.new("python_auction *"), lib.python_close)
        return self

    def __init__(
        self,
        low: int = 1,
        high: int = 1000,
        reference: int = 200,
        max_open: int = 4096,
        max_calls: int = 65536,
        range: int | None = None,
        reserve: int = 0,
    ) -> None:
        given = Config(low, high, reference, max_open, max_calls, range, reserve)
        config = config_struct(given)
        self._call(lib.python_open, config)

    def __repr__(self) -> str:
        try:
            config, calls = self.config, self.calls
        except AuctionError as error:
            return f"<{type(self).__name__}: {error}>"
        span = "" if config.range is None else f" range {config.range}"
        span += f" reserve {config.reserve}" if config.reserve else ""
        return (
            f"<{type(self).__name__} low {config.low} high {config.high} reference "
            f"{config.reference}{span}: calls {calls} of {config.max_calls}>"
        )

    def __enter__(self) -> Self:
        with contextlib.suppress(BusyError):  # then it isn't closed
            if self.is_closed:
                raise ClosedError("the auction was closed")
        return self

    def __exit__(
        self,
        kind: type[BaseException] | None,
        raised: BaseException | None,
        traceback: TracebackType | None,
    ) -> None:
        close_after(raised, "auction", self.close)

    # ---- commands

    def enter(
        self,
        member: int,
        side: Side,
        quantity: int,
        limit: int | None = None,
        peak: int | None = None,
        restriction: Restriction = Restriction.NONE,
        client: int = 0,
        *,
        check: bool = False,
    ) -> words.Entered | words.Refused:
        """Enters an order of `quantity` shares: a market order without a limit (a tick), an iceberg
        order with a peak, the most shares that it shows. `client` is any number of your own, as of
        an agent, which is given back where the order is listed. Raises TypeError or ValueError for
        a side that isn't Side.BID or Side.ASK.
        """
        if side is not _BID and side is not _ASK:
            check_enumeration("side", side, Side)
            raise ValueError("side must be BID or ASK")
        if type(restriction) is not Restriction:
            check_enumeration("restriction", restriction, Restriction)
        tick, has = (0, 0) if limit is None else (limit, _HAS_LIMIT)
        shown = 0
        if peak is not None:
            shown, has = peak, has | _HAS_PEAK
        if not type(member) is type(quantity) is type(tick) is type(shown) is type(client) is int:
            terms = numbers(_TERMS, (member, quantity, tick, shown, client))
            member, quantity, tick, shown, client = terms
        try:
            answer = _enter(
                self._own, member, quantity, tick, shown, client, side, restriction, has
            )
        except OverflowError:
            raise fault_of(_TERMS, (member, quantity, tick, shown, client)) from None
        return entered(answer) if answer > 0 else not_entered(answer, check)

    def change(
        self,
        member: int,
        id: int,
        quantity: int,
        limit: int | None = None,
        *,
        check: bool = False,
    ) -> words.Changed | words.Refused:
        """Gives the member's order with this id another open quantity and limit. It keeps its place
        in time where the limit stays and the quantity doesn't grow.
        """
        tick, has = (0, 0) if limit is None else (limit, _HAS_LIMIT)
        given = (member, id, quantity, tick, has)
        reply = self._applied(lib.python_change, _CHANGE, given, check)
        return cast("words.Changed | words.Refused", reply)

    def delete(self, member: int, id: int, *, check: bool = False) -> words.Deleted | words.Refused:
        """Takes the member's order with this id out."""
        reply = self._applied(lib.python_delete, _ID, (member, id), check)
        return cast("words.Deleted | words.Refused", reply)

    def order_status(
        self, member: int, id: int, *, check: bool = False
    ) -> words.OpenOrder | words.Refused:
        """What is open of the member's order with this id."""
        reply = self._applied(lib.python_order_status, _ID, (member, id), check)
        return cast("words.OpenOrder | words.Refused", reply)

    def indicate(
        self, member: int, *, check: bool = False
    ) -> words.Price | words.NoPrice | words.Refused:
        """The indicative price, or the best bid and ask where there is none."""
        if type(member) is not int:
            (member,) = numbers(_MEMBER, (member,))
        try:
            found = _indicate(self._own, member)
        except OverflowError:
            raise fault_of(_MEMBER, (member,)) from None
        if found.tag == _PRICED:
            return price(found)
        return cast("words.NoPrice | words.Refused", read(found, check))

    def uncross(
        self, member: int = 0, *, check: bool = False
    ) -> words.Uncrossed | words.Interrupted | words.Refused:
        """Determines the price and executes. The next call phase follows at once; after the closing
        auction the day is over.
        """
        reply = self._applied(lib.python_uncross, _MEMBER, (member,), check)
        return cast("words.Uncrossed | words.Interrupted | words.Refused", reply)

    def uncross_orders(
        self,
    ) -> tuple[words.Uncrossed | words.Interrupted | words.Refused, Structs]:
        """Uncrosses, and says what that did to the orders: the reply to member 0, and a new array
        of OUTCOME, in the priority that the orders had, the bids before the asks. It has those of
        which shares were executed and those that were taken out, as they were for this auction
        alone: none of an uncross that was interrupted or refused. Raises FullError, or MemoryError
        and then did nothing.
        """
        function, reply = lib.python_uncross_orders, ffi.new("callauction_reply *")
        most = self.config.max_open
        kind = "callauction_outcome"
        found = array_copies.all_of(self._call, function, kind, OUTCOME, most, reply)
        return cast("words.Uncrossed | words.Interrupted | words.Refused", read(reply)), found

    def read_trade(
        self, member: int, number: int, *, check: bool = False
    ) -> words.Traded | words.Refused:
        """The trade of the day with this number, from 1 on."""
        reply = self._applied(lib.python_read_trade, _NUMBER, (member, number), check)
        return cast("words.Traded | words.Refused", reply)

    def apply(self, member: int, command: Command, *, check: bool = False) -> Reply:
        """Applies a command. Raises TypeError where it is none of Command."""
        match command:
            case words.Enter(side, quantity, limit, peak, restriction, client):
                terms = side, quantity, limit, peak, restriction, client
                return self.enter(member, *terms, check=check)
            case words.Change(id, quantity, limit):
                return self.change(member, id, quantity, limit, check=check)
            case words.Delete(id):
                return self.delete(member, id, check=check)
            case words.OrderStatus(id):
                return self.order_status(member, id, check=check)
            case words.Indicate():
                return self.indicate(member, check=check)
            case words.ReadTrade(number):
                return self.read_trade(member, number, check=check)
            case words.Uncross():
                return self.uncross(member, check=check)
        raise TypeError(f"command must be one of Command, not {type(command).__name__}")

    def apply_many(
        self, commands: Structs, replies: Structs | None = None
    ) -> Structs:
        """Applies an array of COMMAND one after another, and answers their replies.

        `commands` has any length N; `replies`, an array of REPLY of length N that shares no memory
        with it, is written and answered; without it a new one is. Neither is copied. The lock of
        the interpreter is given up meanwhile: no thread may write either array then, or change its
        size.

        Stops at the first struct that is no command (NoCommandError) and where no call is left to
        its member (FullError). Their `applied` says how many were applied, and `replies`
        are the replies to those. Raises TypeError or ValueError for a bad array.
        """
        checked_array("commands", commands, COMMAND, is_written=False)
        if replies is None:
            replies = numpy.zeros(len(commands), REPLY)
        checked_array("replies", replies, REPLY, is_written=True)
        # The lengths are those of what is handed over, whatever the arrays say.
        given = ffi.from_buffer("callauction_command[]", commands)
        written = ffi.from_buffer("callauction_reply[]", replies, require_writable=True)
        if len(written) != len(given):
            raise ValueError(f"replies must have the length {len(given)}, not {len(written)}")
        applied = ffi.new("size_t *")
        try:
            self._call(lib.python_apply_many, given, written, len(given), applied)
        except NotAppliedError as error:
            raise not_applied(error, commands, replies, applied[0]) from None
        return replies

    def enter_carried(self, left: CarriedOver, *, check: bool = True) -> Structs:
        """Enters what is left of another day, in its order: the replies, a new array of REPLY.

        Raises NotEnteredError, when all were tried, where the day refuses an order, as one whose
        limit is no tick of it, or that finds the book full; without `check` its reply alone says
        so. Stops as apply_many. Raises TypeError for what is no CarriedOver.
        """
        replies = self.apply_many(commands_in(left))
        return all_entered(left, replies) if check else replies

    # ---- what is shown

    def display(self) -> words.Price | words.NoPrice:
        """As `indicate`, but without a member and not counted as a call; after the day too."""
        shown = ffi.new("callauction_reply *")
        self._call(lib.python_display, shown)
        return cast("words.Price | words.NoPrice", read(shown))

    def ladder(self) -> tuple[Shares, Shares]:
        """The shares bid and the shares offered by the orders that count, with a limit at each tick
        from low to high: two new arrays of uint64 of the length high - low + 1.
        """
        bids, asks, _ = array_copies.ladder(self._call, lib.python_ladder, self.config)
        return bids, asks

    def market_orders(self) -> MarketOrders:
        """The shares of the market orders that count."""
        _, _, market = array_copies.ladder(self._call, lib.python_ladder, self.config)
        return market

    def trades(self, seen: int = 0) -> Structs:
        """The trades of the day after the first `seen`: a new array of TRADE. Raises TypeError or
        ValueError for a bad number.
        """
        return array_copies.after(self._call, lib.python_trades, "callauction_trade", TRADE, seen)

    def orders(self, member: int | None = None) -> Structs:
        """The open orders of a member, or of all, in price-time priority: a new array of ORDER, the
        bids before the asks. Orders that wait for another auction are among them. Raises TypeError
        or ValueError for a bad number, and MemoryError.
        """
        of = ALL_MEMBERS if member is None else number("member", member, ALL_MEMBERS - 1)
        function, most = lib.python_orders, self.config.max_open
        return array_copies.all_of(self._call, function, "callauction_order", ORDER, most, of)

    def expiring(self) -> Structs:
        """The orders that an uncross now would take out because they are for its auction alone,
        with what would be left of them then: a new array of ORDER. Raises MemoryError.
        """
        function, most = lib.python_expiring, self.config.max_open
        return array_copies.all_of(self._call, function, "callauction_order", ORDER, most)

    def carried_over(self) -> CarriedOver:
        """What is left of the day for the next one. Raises MemoryError."""
        return carried_over(self.orders(), self.state().reference)

    def state(self) -> words.State:
        """Where the day is; no call of a member, and after the day too."""
        found = ffi.new("callauction_day_state *")
        self._call(lib.python_state, found)
        return state_of(found)

    @property
    def calls(self) -> int:
        """How many commands were applied, the refused ones among them."""
        found = ffi.new("uint32_t *")
        self._call(lib.python_calls, found)
        return int(found[0])

    @property
    def is_full(self) -> bool:
        """Whether as many commands were applied as may be."""
        return self.calls == self.config.max_calls

    @property
    def config(self) -> Config:
        """What the auction was opened with."""
        found = ffi.new("callauction_config *")
        self._call(lib.python_config_of, found)
        return config_of(found)

    @property
    def is_closed(self) -> bool:
        """Whether the object holds no auction."""
        try:
            self._call(lib.python_calls, ffi.new("uint32_t *"))
        except ClosedError:
            return True
        return False

    # ---- the whole auction

    def copy(self) -> Self:
        """An auction of its own, a copy of this one as it is now; what a subclass keeps beside it
        is shared by both, but for copy.deepcopy. Raises MemoryError.
        """
        other = self._cloned()
        other._keep(self._kept())
        return other

    def _cloned(self) -> Self:
        """A copy of the auction alone."""
        other = Auction.__new__(type(self))
        self._call(lib.python_clone, other._own)
        return other

    def _kept(self) -> dict[str, object]:
        """What a subclass keeps: its attributes, those of its slots among them."""
        states = object.__getstate__(self)  # type: ignore[attr-defined]
        kept = {name: it for state in states for name, it in (state or {}).items()}
        del kept["_own"]
        return kept

    def _keep(self, kept: Mapping[str, object]) -> None:
        """Keeps these attributes."""
        for name, value in kept.items():
            object.__setattr__(self, name, value)

    def copy_into(self, other: "Auction") -> None:
        """Makes another auction of the same bounds, `max_open` and `max_calls` a copy of this one,
        whatever it was, and takes no memory. Of itself it is one. Raises ValueError where it has
        others, TypeError where it is no Auction, and ClosedError where it was closed.
        """
        if other is self and not self.is_closed:
            return
        copy_over(other, lambda to: int(lib.python_clone(self._own, to)))

    def __copy__(self) -> Self:
        return self.copy()

    def __deepcopy__(self, memo: dict[int, object]) -> Self:
        other = memo[id(self)] = self._cloned()
        other._keep(copy.deepcopy(self._kept(), memo))
        return other

    def __reduce__(self) -> str:
        raise TypeError(
            "an Auction can't be pickled: pickle its commands, and apply them to another one"
        )

    def reset(self) -> None:
        """Goes back to the opening, as if it had just been opened."""
        self._call(lib.python_reset)

    def close(self) -> None:
        """Gives the auction and its memory up; does nothing where it was closed before."""
        try:
            self._call(lib.python_close)
        except ClosedError:
            pass

    # ---- calls of the library

    def _call(self, function: Any, *arguments: Any) -> None:
        """Calls the library on this handle. Raises the exception of its error."""
        answer = function(self._own, *arguments)
        if answer:
            raise error_of(answer)

    def _applied(
        self, function: Any, names: tuple[str, ...], given: tuple[object, ...], check: bool
    ) -> Reply:
        """The reply to the command that this call of the library applies, with the numbers given,
        which have these names.
        """
        for value in given:
            if type(value) is not int:
                given = numbers(names, given)
                break
        try:
            reply = function(self._own, *given)
        except OverflowError:
            raise fault_of(names, given) from None
        return read(reply, check)

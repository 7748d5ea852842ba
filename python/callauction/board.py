"""A board in this process: one auction that members call from threads of their own. See Board."""
import builtins
import dataclasses
import operator
import os
import weakref
from types import TracebackType
from typing import TYPE_CHECKING, Any, Self, cast

import numpy

from callauction import array_copies, words
from callauction.arguments import MOST_OF_FIELDS, check_enumeration, fault_of, number, numbers
from callauction.arrays import (
    ENTRY,
    ORDER,
    RECEIPT,
    TRADE,
    Shares,
    Structs,
    check_recordable,
    joined,
    refuse_first,
)
from callauction.auction import ALL_MEMBERS, Auction, config_of, config_struct, copy_over
from callauction.board_replay import uncrossed_orders
from callauction.carried import CarriedOver, all_entered, commands_in
from callauction.errors import AuctionError, NotAppliedError, close_after
from callauction.library import ffi, lib
from callauction.limits import MOST_CLIENT, MOST_MEMBERS, MOST_NUMBER, MOST_RANGE
from callauction.replies import (
    board_error_of,
    entered,
    not_applied,
    not_entered,
    read,
    state_of,
)
from callauction.words import (
    AuctionKind,
    Command,
    CommandTag,
    Config,
    MarketOrders,
    Reply,
    Restriction,
    Side,
)

if TYPE_CHECKING:
    from callauction.board_day import BoardDay

_TERMS, _CHANGE = ("quantity", "limit", "peak", "client"), ("id", "quantity", "limit")
"""The numbers of commands, in the order in which the library takes them."""
_MOST = dict.fromkeys(MOST_OF_FIELDS, MOST_NUMBER) | {"client": MOST_CLIENT}
"""The greatest that each may be: that of a journal, and of a client that of an order."""
_BID, _ASK = Side.BID, Side.ASK
_HAS_LIMIT, _HAS_PEAK = int(lib.PYTHON_HAS_LIMIT), int(lib.PYTHON_HAS_PEAK)
_REFUSED, _LOW = int(lib.PYTHON_REFUSED), (1 << 32) - 1
_enter, _change, _call = lib.python_board_enter, lib.python_board_change, lib.python_board_call
_OF_ONE_PROCESS = "its board is one auction, which the threads of one process call"


@dataclasses.dataclass(frozen=True, slots=True)
class Receipt:
    """The number of a call in the board's history, from 1 on, and its reply."""

    number: int
    reply: Reply


@dataclasses.dataclass(frozen=True, slots=True)
class Shown:
    """How many calls a board has had, and what is shown after them."""

    calls: int
    display: words.Price | words.NoPrice


class Member:
    """A member of a board, for one thread at a time: BusyError while another call of it is running.

    No number is above 4,294,967,295, as a journal has no others. A call waits while another
    member's has the board; the lock of the interpreter is given up meanwhile. After the board was
    closed each method but `look`, `calls` and `number` raises ClosedError. One that raises records
    nothing, but for RefusedError.
    """

    __slots__ = ("_board", "_number", "_own")

    def __init__(self, board: "Board", own: Any, number: int) -> None:
        """`Board` makes its members."""
        self._board, self._own, self._number = board, own, number

    def __repr__(self) -> str:
        return f"<Member {self._number} of {self._board!r}>"

    def __copy__(self) -> Self:
        """The member itself."""
        return self

    def __deepcopy__(self, _: dict[int, object]) -> Self:
        raise TypeError(f"a Member can't be copied: {_OF_ONE_PROCESS}")

    def __reduce__(self) -> str:
        raise TypeError(f"a Member can't be pickled: {_OF_ONE_PROCESS}")

    @property
    def number(self) -> int:
        """From 0; member 0 is the operator, who alone uncrosses."""
        return self._number

    # ---- commands

    def call(self, command: Command, *, check: bool = False) -> Receipt:
        """Records a command in the board's history: its number there and its reply.

        Raises FullError where no call is left to the member, TypeError or ValueError for a bad
        command, and with `check` RefusedError where the auction refuses it.
        """
        match command:
            case words.Enter(side, quantity, limit, peak, restriction, client):
                return self.enter(side, quantity, limit, peak, restriction, client, check=check)
            case words.Change(id, quantity, limit):
                return self.change(id, quantity, limit, check=check)
            case words.Delete(id):
                return self.delete(id, check=check)
            case words.OrderStatus(id):
                return self.order_status(id, check=check)
            case words.Indicate():
                return self.indicate(check=check)
            case words.ReadTrade(number):
                return self.read_trade(number, check=check)
            case words.Uncross():
                return self.uncross(check=check)
        raise TypeError(f"command must be one of Command, not {type(command).__name__}")

    def enter(
        self,
        side: Side,
        quantity: int,
        limit: int | None = None,
        peak: int | None = None,
        restriction: Restriction = Restriction.NONE,
        client: int = 0,
        *,
        check: bool = False,
    ) -> Receipt:
        """Enters an order, as Auction.enter."""
        if side is not _BID and side is not _ASK:
            check_enumeration("side", side, Side)
            raise ValueError("side must be BID or ASK")
        if type(restriction) is not Restriction:
            check_enumeration("restriction", restriction, Restriction)
        tick, has = (0, 0) if limit is None else (limit, _HAS_LIMIT)
        shown = 0
        if peak is not None:
            shown, has = peak, has | _HAS_PEAK
        if not type(quantity) is type(tick) is type(shown) is type(client) is int:
            quantity, tick, shown, client = numbers(
                _TERMS, (quantity, tick, shown, client), _MOST
            )
        try:
            answer = _enter(
                self._own, self._number, quantity, tick, shown, client, side, restriction, has
            )
        except OverflowError:
            raise fault_of(_TERMS, (quantity, tick, shown, client), _MOST) from None
        if answer < 0:
            raise board_error_of(-answer)
        said = answer & _LOW
        if said < _REFUSED:
            return _receipt(answer >> 32, entered(said))
        return _receipt(answer >> 32, not_entered(_REFUSED - said, check))

    def change(
        self, id: int, quantity: int, limit: int | None = None, *, check: bool = False
    ) -> Receipt:
        """Changes an own order, as Auction.change."""
        tick, has = (0, 0) if limit is None else (limit, _HAS_LIMIT)
        if not type(id) is type(quantity) is type(tick) is int:
            id, quantity, tick = numbers(_CHANGE, (id, quantity, tick), _MOST)
        try:
            receipt = _change(self._own, self._number, id, quantity, tick, has)
        except OverflowError:
            raise fault_of(_CHANGE, (id, quantity, tick), _MOST) from None
        return self._read(receipt, check)

    def delete(self, id: int, *, check: bool = False) -> Receipt:
        """Takes an own order out."""
        return self._of_id(CommandTag.DELETE, id, check)

    def order_status(self, id: int, *, check: bool = False) -> Receipt:
        """What is open of an own order."""
        return self._of_id(CommandTag.ORDER_STATUS, id, check)

    def indicate(self, *, check: bool = False) -> Receipt:
        """The indicative price, as a call; `look` shows it without one."""
        return self._of_id(CommandTag.INDICATE, 0, check)

    def read_trade(self, number: int, *, check: bool = False) -> Receipt:
        """The trade of the day with this number, from 1 on."""
        return self._of_id(CommandTag.READ_TRADE, number, check, "number")

    def uncross(self, *, check: bool = False) -> Receipt:
        """Determines the price and executes; for member 0 alone."""
        return self._of_id(CommandTag.UNCROSS, 0, check)

    def apply_many(self, commands: Structs) -> Structs:
        """Records an array of COMMAND one after another, with no other member's call between them:
        their receipts, a new array of RECEIPT. No thread may write the array meanwhile, or change
        its size.

        Stops as Auction.apply_many; the `replies` of the error are the receipts before it. Raises
        TypeError or ValueError for a bad array, or one with a number that no journal has, and
        ValueError for another's command: the `member` of a struct is 0 or this member, or is 1 in
        all of them, as `commands` makes them. Then none is recorded.
        """
        check_recordable(commands)
        self._refuse_others(commands)
        given = ffi.from_buffer("callauction_command[]", commands)
        receipts = numpy.zeros(len(given), RECEIPT)
        written = ffi.from_buffer("callauction_receipt[]", receipts, require_writable=True)
        applied = ffi.new("size_t *")
        try:
            self._call(lib.python_board_apply_many, given, written, len(given), applied)
        except NotAppliedError as error:
            raise not_applied(error, commands, receipts, applied[0]) from None
        return receipts

    # ---- what is shown

    def look(self) -> Shown:
        """What is shown. It takes no lock, isn't counted as a call, and never goes back: all that
        this member has seen, its own calls among it, comes before.
        """
        shown = ffi.new("callauction_shown *")
        self._call(lib.python_board_look, shown)
        return Shown(int(shown.calls), cast("words.Price | words.NoPrice", read(shown.display)))

    def ladder(self) -> tuple[Shares, Shares, MarketOrders, int]:
        """The shares bid and offered by the orders that count, with a limit at each tick from low
        to high (two new arrays of uint64), those of the market orders, and after how many calls.
        """
        config, calls = self._board.config, ffi.new("uint32_t *")
        found = array_copies.ladder(self._call, lib.python_board_ladder, config, calls)
        return *found, int(calls[0])

    def trades(self, seen: int = 0) -> Structs:
        """The trades of the day after the first `seen`: a new array of TRADE. Raises TypeError or
        ValueError for a bad number.
        """
        function, calls = lib.python_board_trades, ffi.new("uint32_t *")
        return array_copies.after(self._call, function, "callauction_trade", TRADE, seen, calls)

    def orders(self, member: int | None = None) -> Structs:
        """The open orders of a member of the board, or of all, as Auction.orders. Raises TypeError
        or ValueError for a bad number, and MemoryError.
        """
        of = ALL_MEMBERS if member is None else number("member", member, ALL_MEMBERS - 1)
        function, most = lib.python_board_orders, self._board.config.max_open
        return array_copies.all_of(self._call, function, "callauction_order", ORDER, most, of)

    def expiring(self) -> Structs:
        """What an uncross now would take out, as Auction.expiring. Raises MemoryError."""
        function, most = lib.python_board_expiring, self._board.config.max_open
        return array_copies.all_of(self._call, function, "callauction_order", ORDER, most)

    def state(self) -> words.State:
        """Where the day is, after as many calls as it says."""
        found = ffi.new("callauction_day_state *")
        self._call(lib.python_board_state, found)
        return state_of(found)

    def history(self, seen: int = 0) -> Structs:
        """The entries of the board's history after the first `seen`: a new array of ENTRY, for a
        thread that writes them down while the day runs. Raises as trades.
        """
        function = lib.python_board_history
        return array_copies.after(self._call, function, "callauction_entry", ENTRY, seen)

    def uncrossed_orders(self, kind: AuctionKind) -> Structs:
        """What the uncross of this auction did to the orders, as Auction.uncross_orders says: a new
        array of OUTCOME, empty before it. It applies the board's history once more, so it takes as
        long as all calls of the board. Raises TypeError for a kind that is no AuctionKind.
        """
        return uncrossed_orders(self._board.config, self.history(), kind)

    def auction(self) -> Auction:
        """An auction of its own, a copy of the board's as it is now. Raises MemoryError."""
        other = Auction.__new__(Auction)
        self._call(lib.python_board_clone, other._own)
        return other

    def copy_into(self, other: Auction) -> None:
        """Makes an auction of the board's bounds, `max_open` and `max_calls` a copy of the board's,
        whatever it was, and takes no memory. Raises as Auction.copy_into.
        """
        own, place = self._own, self._number
        copy_over(other, lambda to: int(lib.python_board_clone(own, place, to)), board_error_of)

    @property
    def calls(self) -> int:
        """How many calls of this member were recorded."""
        found = ffi.new("uint32_t *")
        self._call(lib.python_board_calls, found)
        return int(found[0])

    # ---- calls of the library

    def _refuse_others(self, commands: Structs) -> None:
        """Raises ValueError for the first command of another member. The function `commands` gives
        each the member 1 where none is said.
        """
        members, own = commands["member"], self._number
        wrong = (members != 0) & (members != own)
        if wrong.any() and not (members == 1).all():
            wanted = f"0 or {own}, the number of this member"
            refuse_first(commands, "member", wrong, wanted)

    def _of_id(self, tag: CommandTag, id: int, check: bool, name: str = "id") -> Receipt:
        """The receipt of the command that has no number but this one."""
        if type(id) is not int:
            (id,) = numbers((name,), (id,), _MOST)
        try:
            receipt = _call(self._own, self._number, tag, id)
        except OverflowError:
            raise fault_of((name,), (id,), _MOST) from None
        return self._read(receipt, check)

    def _read(self, receipt: Any, check: bool) -> Receipt:
        """The receipt that the library gave. Raises the exception of an error, and with `check`
        RefusedError.
        """
        if not receipt.number:
            raise board_error_of(receipt.reply.id)
        return _receipt(receipt.number, read(receipt.reply, check))

    def _call(self, function: Any, *arguments: Any) -> None:
        """Calls the library for this member. Raises the exception of its error."""
        answer = function(self._own, self._number, *arguments)
        if answer:
            raise board_error_of(answer)


class Board:
    """One auction of one instrument over one day, for 1 to 64 members who call at once.

    `members` says how many; the other numbers are those of Auction, but that the last 16 calls are
    the operator's where `reserve` isn't given. `board[3]` is the member with the number 3, and
    `board.members` has all: each goes to a thread of its own. Member 0 is the operator. The end of
    a `with` block closes the board, after an exception too; `day` then has its day. While a thread
    calls then, the board stays open: that raises BusyError, or is a note of the block's exception.
    copy.copy gives the board itself.

    After a fork each process has its own board. One that another thread was calling just then
    raises BusyError for good in the child.

    Raises TypeError or ValueError with the name of a bad argument, and MemoryError.
    """

    __slots__ = ("_config", "_day", "_members", "_own", "__weakref__")

    def __init__(
        self,
        members: int,
        low: int = 1,
        high: int = 1000,
        reference: int = 200,
        max_open: int = 4096,
        max_calls: int = 65536,
        range: int | None = None,
        reserve: int = 16,
    ) -> None:
        count = number("members", members, MOST_NUMBER)
        if not 1 <= count <= MOST_MEMBERS:
            raise ValueError(f"members must be from 1 to {MOST_MEMBERS}, not {count}")
        if range is not None:
            number("range", range, MOST_RANGE)
        given = Config(low, high, reference, max_open, max_calls, range, reserve)
        config = config_struct(given)
        self._own = ffi.gc(ffi.new("python_board *"), lib.python_board_leave)
        answer = lib.python_board_open(self._own, count, config)
        if answer:
            raise board_error_of(answer)
        self._config = config_of(config)
        if count > 1 and reserve >= max_calls:
            raise ValueError(
                f"reserve must be below max_calls, which is {max_calls}, not {reserve}: members "
                "would have no call"
            )
        self._members = tuple(Member(self, self._own, it) for it in builtins.range(count))
        self._day: "BoardDay | None" = None
        _boards.add(self)

    def __repr__(self) -> str:
        state = "closed board" if self.is_closed else "board"
        return f"<{state} of {len(self._members)} members>"

    def __copy__(self) -> Self:
        """The board itself."""
        return self

    def __deepcopy__(self, _: dict[int, object]) -> Self:
        raise TypeError(f"a Board can't be copied: {_OF_ONE_PROCESS}")

    def __reduce__(self) -> str:
        raise TypeError(f"a Board can't be pickled: {_OF_ONE_PROCESS}; pickle its day")

    def __enter__(self) -> Self:
        return self

    def __exit__(
        self,
        kind: type[BaseException] | None,
        raised: BaseException | None,
        traceback: TracebackType | None,
    ) -> None:
        close_after(raised, "board", self.close)

    def __len__(self) -> int:
        return len(self._members)

    def __getitem__(self, number: int) -> Member:
        """The member with this number. Raises TypeError where it is no integer, and IndexError
        where the board has no such member.
        """
        place, most = operator.index(number), len(self) - 1
        if not 0 <= place <= most:
            raise IndexError(f"a board of {most + 1} members has numbers 0 to {most}, not {place}")
        return self._members[place]

    def enter_carried(self, left: CarriedOver, *, check: bool = True) -> Structs:
        """Enters what is left of another day, each order by its own member and all in their order:
        their receipts, a new array of RECEIPT.

        Raises NotEnteredError as Auction.enter_carried, and stops as Member.apply_many. Raises
        ValueError, and records nothing, where the board hasn't the member of an order, and
        TypeError for what is no CarriedOver.
        """
        receipts = self._entered(commands_in(left))
        return all_entered(left, receipts) if check else receipts

    def _entered(self, commands: Structs) -> Structs:
        """The receipts of commands, each of which its own member gives."""
        count = len(self)
        check_recordable(commands)
        wrong = commands["member"] >= count
        refuse_first(commands, "member", wrong, f"from 0 to {count - 1}")
        made = [numpy.zeros(0, RECEIPT)]
        begins = numpy.flatnonzero(commands["member"][1:] != commands["member"][:-1]) + 1
        for part in filter(len, numpy.split(commands, begins)):
            try:
                made.append(self._members[part["member"][0]].apply_many(part))
            except NotAppliedError as error:
                assert error.replies is not None
                made.append(error.replies)
                done, why = sum(map(len, made)), str(error).partition(": ")[2]
                raise type(error)(f"command {done}: {why}", done, joined(*made)) from None
        return joined(*made)

    @property
    def members(self) -> tuple[Member, ...]:
        """All members, by number."""
        return self._members

    @property
    def config(self) -> Config:
        """What the board was opened with."""
        return self._config

    @property
    def is_closed(self) -> bool:
        """Whether it was closed."""
        return self._day is not None

    @property
    def day(self) -> "BoardDay":
        """The day of a board that was closed. Raises AuctionError before."""
        if self._day is None:
            raise AuctionError("the board isn't closed, so its day isn't over")
        return self._day

    def close(self) -> "BoardDay":
        """Closes the board, and answers its day with the history; of a board that was closed the
        same day again. From then on calls of its members raise ClosedError.

        Raises BusyError, and closes nothing, while a call of a member is running.
        """
        if self._day is None:
            self._day = self._closed()
        return self._day

    def _closed(self) -> "BoardDay":
        """The day of the board, which is closed."""
        from callauction.board_day import BoardDay

        room = numpy.zeros(self._config.max_calls, ENTRY)
        counts = numpy.zeros(len(self._members), numpy.uint32)
        entries = ffi.from_buffer("callauction_entry[]", room, require_writable=True)
        counted = ffi.from_buffer("uint32_t[]", counts, require_writable=True)
        written = ffi.new("size_t *")
        answer = lib.python_board_close(self._own, entries, len(room), counted, written)
        if answer:
            raise board_error_of(answer)
        return BoardDay(self._config, joined(room[: written[0]]), tuple(counts.tolist()))


_boards: "weakref.WeakSet[Board]" = weakref.WeakSet()
"""The boards of this process."""


def _keep_busy() -> None:
    """In a forked child: boards that a thread of the parent was calling stay as they are, each
    member busy, since what that thread had of them is never given back.
    """
    for board in [*_boards]:
        is_busy = board._own.is_busy_
        if any(is_busy[number] for number in range(len(board))):
            for number in range(len(board)):
                is_busy[number] = True
            ffi.gc(board._own, None)


os.register_at_fork(after_in_child=_keep_busy)


# ---- receipts


_new = object.__new__
_set_number, _set_reply = (vars(Receipt)[name].__set__ for name in ("number", "reply"))


def _receipt(number: int, reply: Reply) -> Receipt:
    """A receipt, made as fast as can be."""
    made = _new(Receipt)
    _set_number(made, number)
    _set_reply(made, reply)
    return made

"""What members send to an instrument: how much of it each may send, and what isn't answered yet."""
import asyncio
import time
from collections.abc import Callable, Collection, Iterable

from callauction.limits import MOST_MEMBERS
from callauction.venue import allowance, config, last_quarter
from callauction.venue.accounts import Accounts
from callauction.venue.book import MemberBook
from callauction.venue.engine import Engine
from callauction.venue.holdings import Holding
from callauction.venue.log import SOURCE
from callauction.venue.logger import NOTICES
from callauction.venue.messages import MessageError, OrderMessage
from callauction.venue.recovery import Entry, MemberMessage
from callauction.venue.treatments import Treatment

CODES_SECONDS = 1.0
"""How long the codes of a board are taken as they were: thousands of members may have some."""
FULL_SHARE = 0.9
"""The part of the open orders, and of the commands, of a day from which on it is nearly full."""
DAY_NEARLY_FULL = (
    "%s: %s of at most %s %s, then members' are refused: `%s` of the next day may be greater"
)


class Commands:
    """The commands of an instrument's members in a round, by whose limits they are taken. `codes`
    gives the codes by which members may be on the board, and `gone` are those who were removed.
    """

    def __init__(
        self,
        terms: config.InstrumentTerms,
        treatment: Treatment,
        day: config.DayTerms,
        engine: Engine,
        book: MemberBook,
        accounts: Accounts,
    ) -> None:
        self._terms, self._reserve, self.limits = terms, day.reserve, terms.limits(treatment)
        self._bound = day.bounds.of(terms.open, terms.calls, terms.grid.tick_size)
        self._engine, self._book, self._accounts = engine, book, accounts
        self.codes: Callable[[], Collection[str]] = lambda: (last_quarter.CLASS_CODE,)
        self._codes: Collection[str] = ()
        self._codes_end = 0.0
        self._full: set[str] = set()
        self._waiting: dict[str, dict[MemberMessage, str]] = {}
        self._entering = 0
        self.gone: set[str] = set()
        self._leaving: set[str] = set()

    # ---- members

    def _number_of(self, member: str) -> int:
        """The member's number in the journal, which it gets with its first order. Raises
        MessageError where all are given.
        """
        if member not in self._book.numbers:
            number = self._free_number()
            self._book.give(member, number)
            self._engine.note("number", member=member, number=number)
        return self._book.numbers[member]

    def _free_number(self) -> int:
        """A number that nobody has had yet, else that of a member who was removed and left nothing.
        Raises MessageError where there is none.
        """
        if len(self._book.names) < MOST_MEMBERS:
            return len(self._book.names)
        for member, number in self._book.numbers.items():
            if not self.keeps_number(member):
                return number
        raise MessageError("instrument_full")

    def keeps_number(self, member: str) -> bool:
        """Whether a member has a number that nobody else may have: any but one who was removed,
        has never traded, and whose orders are all deleted.
        """
        if member not in self._book.numbers:
            return False
        has_left = member in self.gone and self._book.is_known and not self._waiting.get(member)
        return not has_left or member in self._accounts.fills or bool(self.open_orders(member))

    def open_orders(self, member: str) -> list[int]:
        """The open orders of a member, by the replies so far."""
        return [*self._book.of_member(member)]

    def _holding_of(self, member: str) -> Holding:
        """What a member has, and what it asks for."""
        fills, since = self._accounts.fills_of(member), self._accounts.since
        return Holding(
            self._accounts.values.get(member),
            fills,
            [it for it in fills if it.trade > since],
            self._book.of_member(member),
            [*self._waiting.get(member, {}).values()],
            self._terms.high,
            self._terms.grid.tick_size,
        )

    # ---- what is sent

    def submit(self, member: str, order: OrderMessage) -> "asyncio.Future[Entry]":
        """Sends a member's order. Raises MessageError."""
        self._check_bound(member, order)
        if not self.limits.are_none:
            self._holding_of(member).check(self.limits, order.record)
        return self._send(member, order)

    def withdraw(self, member: str, order: OrderMessage) -> "asyncio.Future[Entry]":
        """Sends the deletion of an order of a member who is gone, in any phase, also while others'
        messages are held.
        """
        return self._send(member, order, is_first=True)

    def _send(
        self, member: str, order: OrderMessage, is_first: bool = False
    ) -> "asyncio.Future[Entry]":
        """Sends a member's order. Raises MessageError."""
        record = f"{self._number_of(member)},{order.record}"
        self._book.asked(record)
        message = MemberMessage(member, order.number, record, SOURCE.get(), order.note)
        answer = self._engine.submit(message, is_first)
        self._waiting.setdefault(member, {})[message] = order.record
        self._entering += order.record.startswith("enter")
        answer.add_done_callback(lambda _: self.answered(message))
        return answer

    def answered(self, message: MemberMessage) -> None:
        """A member's message was answered, perhaps by a fault."""
        record = self._waiting.get(message.member, {}).pop(message, "")
        self._entering -= record.startswith("enter")

    def awaits(self, member: str) -> bool:
        """Whether a message of a member isn't answered yet, or its orders aren't deleted that was
        removed.
        """
        return member in self._leaving or bool(self._waiting.get(member))

    def hold_for(self, members: Iterable[str]) -> None:
        """Takes no command of anybody but deletions of these members' orders, who were removed."""
        self._leaving.update(members)
        self._engine.outbox.hold()

    def release_after(self, members: Iterable[str]) -> None:
        """Takes what came meanwhile, once these members' orders are to be deleted."""
        self._leaving.difference_update(members)
        self._engine.outbox.release()

    # ---- what is left

    def _check_bound(self, member: str, order: OrderMessage) -> None:
        """Raises MessageError where a member would have more of the day than it may, or than there
        is.
        """
        own = self._book.of_member(member)
        records, calls = [*self._waiting.get(member, {}).values()], self._used(member)
        allowance.check_bound(self._bound, order.record, own, records, calls, self._terms.high)
        if not allowance.takes_out(order.record, own, records):
            self._check_left(member, order.record)

    def _check_left(self, member: str, record: str) -> None:
        """Raises MessageError where no commands are left for a record but those that are kept: for
        the operator, and for each open order one that deletes it, also where its member is removed;
        and those that are for other codes, or for members who have fewer.
        """
        left = self.left
        is_entered = record.startswith("enter")
        if left < 1 + is_entered:
            raise MessageError("no_calls")
        last, bound = self._terms.calls // last_quarter.LAST_PART, self._bound
        if bound.last_calls is None or bound.calls >= self._terms.calls or left > last:
            return
        left, used = left - is_entered, self._used_by_code()
        most = last_quarter.most_commands(member, used, left, last, bound.last_calls)
        allowance.check_last(self._used(member), most)

    @property
    def left(self) -> int:
        """How many commands members have left, below 0 where some are kept that the day hasn't."""
        left = self._terms.calls - self._engine.journal.count - self._engine.outbox.waiting
        return left - self._reserve - self._book.count - self._entering

    def _used(self, member: str) -> int:
        """How many commands a member has used, those that aren't answered yet too."""
        return self._book.used_by(member) + len(self._waiting.get(member, {}))

    def _used_by_code(self) -> dict[str, int]:
        """How many commands were used under each code by which members may be on the board."""
        if (now := time.monotonic()) >= self._codes_end:
            self._codes, self._codes_end = self.codes(), now + CODES_SECONDS
        found = {code: self._used(code) for code in self._codes}
        if last_quarter.CLASS_CODE in found:
            rest = (it for it in self._book.numbers if it not in found)
            found[last_quarter.CLASS_CODE] = sum(map(self._used, rest))
        return found

    def say_full(self) -> None:
        """Says once of open orders, and of commands, that there are nearly as many as the day's
        file allows.
        """
        count, terms = self._book.count, self._terms
        used = self._engine.journal.count + self._reserve + count
        for key, what, found, most in (
            ("open", "orders are open", count, terms.open),
            ("calls", "commands are used or kept", used, terms.calls),
        ):
            if found >= FULL_SHARE * most and key not in self._full:
                self._full.add(key)
                NOTICES.warning(DAY_NEARLY_FULL, self._engine.name, found, most, what, key)

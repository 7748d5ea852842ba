"""What the program of an instrument showed at the last look. What it says of prices, trades and
orders is the program's alone.
"""
import asyncio
import time
from collections.abc import Callable, Iterable, Sequence

from callauction.venue import config, views
from callauction.venue.accounts import Accounts, MemberFill
from callauction.venue.auctions import TICK, Auctions
from callauction.venue.background import going_on
from callauction.venue.book import MemberBook
from callauction.venue.engine import Engine
from callauction.venue.messages import MessageError
from callauction.venue.process import ProcessError

LEAST_PAUSE = 0.1
"""Seconds between two looks at the program."""
BUSY_SHARE = 4
"""How often the time that a look took passes before the next one."""
DOES_NOT_ANSWER = "the program doesn't answer now"
NOT_KNOWN_YET = "{} {}: what it has isn't known until it goes on"


class Looks:
    """The looks at a program, one after the other. `on_shown` is called after each with the members
    whose orders were seen, and whether there are trades more.
    """

    def __init__(
        self,
        terms: config.InstrumentTerms,
        engine: Engine,
        book: MemberBook,
        accounts: Accounts,
        auctions: Auctions,
    ) -> None:
        self._engine, self._book = engine, book
        self._accounts, self._auctions = accounts, auctions
        self.indication = views.Indication()
        self.day = views.DayView("opening", terms.reference, 0, terms.calls)
        self.levels: list[views.Level] = []
        self.visible_levels: list[views.Level] = []
        self.trades: list[views.DayTrade] = []
        self.orders: dict[str, list[views.MemberOrder]] = {}
        self.is_seen = self.is_ladder_seen = False
        self._listed = -1  # how many entries the journal had when the book was listed last
        self.wanted: Callable[[], Iterable[str]] = lambda: ()
        self.wants_ladder: Callable[[], bool] = lambda: False
        self.on_shown: Callable[[frozenset[str], bool], None] = lambda members, traded: None
        self._stale: set[str] = set()
        self._wakes, self._looking = asyncio.Event(), asyncio.Lock()

    def check_seen(self) -> None:
        """Raises MessageError until its program has shown what the day has: none of that is known,
        and no list of it is empty.
        """
        if not self.is_seen:
            why = "begins" if self._engine.halted is None else "has halted"
            raise MessageError("halted", NOT_KNOWN_YET.format(self._engine.name, why))

    def knows_orders_of(self, member: str) -> bool:
        """Whether the open orders of a member were seen as they are now, or it has never had one.
        """
        is_current = member in self.orders and member not in self._stale
        return self.is_seen and (is_current or member not in self._book.numbers)

    def touch(self, members: Iterable[str] = ()) -> None:
        """What is shown is no longer all of it, nor are the orders of these members."""
        self._stale.update(members)
        self._wakes.set()

    async def run(self) -> None:
        """Looks at the program where something has changed, no more often than it can bear."""
        while True:
            await self._wakes.wait()
            self._wakes.clear()
            begin = time.monotonic()
            with going_on(f"{self._engine.name}: a look at the program"):
                try:
                    await self.look()
                except ProcessError:
                    self._wakes.set()
            took = time.monotonic() - begin
            await asyncio.sleep(max(LEAST_PAUSE, BUSY_SHARE * took))

    async def settle(self) -> None:
        """Waits until all that was sent is answered, and sees it. Raises MessageError."""
        while self._engine.outbox.waiting:
            if self._engine.halted is not None:
                raise self._engine.refusal
            await asyncio.sleep(TICK)
        await self.refresh()

    async def refresh(self, has_ladder: bool = False) -> None:
        """Sees all that the program has done, also the book where that is asked for. Raises
        MessageError where it doesn't run.
        """
        try:
            await self.look(has_ladder)
        except ProcessError:
            raise MessageError("halted", DOES_NOT_ANSWER) from None

    async def see_trades(self) -> None:
        """Sees the trades of each uncross whose result is known. Raises MessageError."""
        try:
            async with self._looking:  # after who has looked meanwhile
                if self.is_seen and len(self.trades) < self._auctions.trades:
                    await self._look(self.wants_ladder())
        except ProcessError:
            raise MessageError("halted", DOES_NOT_ANSWER) from None

    async def see_orders_of(self, member: str) -> None:
        """Sees a member's open orders as the program has them now. Raises MessageError."""
        if number := self._book.numbers.get(member):
            try:
                [lines] = await self._engine.show([f"show,orders,{number}"])
            except ProcessError:
                raise MessageError("halted", DOES_NOT_ANSWER) from None
            self.orders[member] = views.orders_in_view(lines)

    async def look(self, has_ladder: bool = False) -> None:
        """Looks at the program once, and at the book where somebody wants it. Raises ProcessError.
        """
        async with self._looking:  # a second look would see the same trades as new
            await self._look(has_ladder or self.wants_ladder())

    def _records(self, asked: Sequence[str], has_ladder: bool) -> list[str]:
        """What is asked of the program: its day, its new trades, and the orders of members."""
        records = ["show", "show,day", f"show,trades,{len(self.trades) + 1}"]
        records += [f"show,orders,{self._book.numbers[it]}" for it in asked]
        return [*records, "show,ladder"] if has_ladder else records

    async def _look(self, has_ladder: bool) -> None:
        """Looks at the program, while nobody else does. Raises ProcessError."""
        book = self._book
        wanted = [it for it in self.wanted() if it in self._stale]
        asked = [it for it in wanted if it in book.numbers]
        self._stale.difference_update(wanted)
        for member in asked:
            self.orders.pop(member, None)  # which nobody is shown meanwhile
        records = self._records(asked, has_ladder)
        sees_book, is_hidden = not book.is_known, has_ladder and book.has_icebergs
        entries, count = book.entries, self._engine.journal.count
        sees_hidden = is_hidden and self._listed != count
        if sees_book or sees_hidden:
            records.append("show,orders")
        try:
            found = await self._engine.show(records)
        except ProcessError:
            self._stale.update(wanted)
            raise
        has_traded = self._take_day(found)
        self.orders.update(zip(asked, map(views.orders_in_view, found[3:])))
        self.is_ladder_seen = has_ladder
        if has_ladder:
            self.levels = views.levels_in_view(found[3 + len(asked)])
        if sees_hidden:
            orders, self._listed = views.orders_in_view(found[-1]), count
            self.visible_levels = views.visible_levels(orders, self.day.auction)
        elif has_ladder and not is_hidden:
            self.visible_levels = self.levels
        if sees_book and entries == book.entries:
            book.seen(views.orders_in_view(found[-1]))
        is_first, self.is_seen = not self.is_seen, True
        told = [it for it in self.wanted() if self.knows_orders_of(it)] if is_first else asked
        self.on_shown(frozenset(told), is_first or has_traded)

    def _take_day(self, found: Sequence[list[str]]) -> bool:
        """Takes what the program shows of its day: whether there are new trades."""
        self.indication = views.Indication.of(found[0][0])
        self._auctions.indicated(self.indication)
        self.day = views.DayView.of(found[1][0])
        self._add_trades(trades := views.trades_in_view(found[2]))
        return bool(trades)

    def _add_trades(self, trades: Iterable[views.DayTrade]) -> None:
        """Trades that weren't known, and whose they are."""
        for it in trades:
            self.trades.append(it)
            for side, order in (("bid", it.bid), ("ask", it.ask)):
                fill = MemberFill(it.number, order, side, it.quantity, it.tick)
                self._accounts.fills.setdefault(self._book.of_order(order), []).append(fill)

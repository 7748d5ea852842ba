"""Who is connected to a venue, and what each of them sees."""
from collections.abc import Iterator

from callauction.venue import clock, config, shown
from callauction.venue.halts import Halts
from callauction.venue.instrument_board import InstrumentBoard
from callauction.venue.json_types import Json
from callauction.venue.log import Log
from callauction.venue.members import Members, VenueMember
from callauction.venue.payoff_view import PayoffView
from callauction.venue.round_view import RoundView
from callauction.venue.rounds import Rounds
from callauction.venue.screen import Screen
from callauction.venue.watchers import Watcher, Watchers

MOST_OF_MEMBER = 8
"""Connections of one member."""


class Audience:
    """The watchers of a venue, and what each sees: boards and members, where the venue stands, what
    is paid, and what the screen shows.
    """

    def __init__(
        self, day: config.DayTerms, log: Log, members: Members, rounds: Rounds, halts: Halts
    ) -> None:
        self._day, self._log = day, log
        self._members, self._rounds, self._halts = members, rounds, halts
        self.watchers: Watchers = {}
        self.screen = Screen(members, rounds)
        self.round_view = RoundView(day, rounds, self.watchers)
        self.payoff_view = PayoffView(day, members, rounds, self.watchers)

    def watching(self, board: InstrumentBoard) -> Iterator[Watcher]:
        """Who sees a board."""
        for watcher in [*self.watchers]:
            if watcher.member is None or watcher.member.group == board.identity.group:
                yield watcher

    # ---- what the program is asked for

    def wanted(self) -> set[str]:
        """The members who look at their orders."""
        return {it.member.name for it in self.watchers if it.member and "orders" in it.topics}

    def has_viewers(self) -> bool:
        """Whether somebody may see the book."""
        roles = {it.role for it in self.watchers}
        is_shown = "beamer" in roles and self.screen.has_book
        is_open = "member" in roles and self._rounds.now.is_open_book
        return "operator" in roles or is_shown or is_open

    # ---- a board

    def state_of(self, board: InstrumentBoard) -> Json:
        """What everybody may see of an instrument."""
        state = shown.state_of(board, clock.now())
        return state | ({"halted": why} if (why := self._halts.halted) else {})

    def show_state(self, board: InstrumentBoard) -> None:
        """Shows all what everybody may see."""
        if board.identity.name in self.round_view.late and not board.auctions.is_late:
            del self.round_view.late[board.identity.name]
            self.round_view.show_to_operator()
        state = self.state_of(board)
        for watcher in self.watching(board):
            if "states" in watcher.topics:
                watcher.offer(f"state {board.terms.name}", state)

    def show_changed(self, board: InstrumentBoard) -> None:
        """Shows whether an instrument of this round goes on; of an earlier one the operator alone.
        """
        if board in self._rounds.now.boards.values():
            self.show_state(board)
            board.looks.touch()
        elif board.identity.round < self._rounds.now.number:
            self.round_view.show_to_operator()

    def show_news(self, board: InstrumentBoard, members: frozenset[str], traded: bool) -> None:
        """The program has shown something new; of an earlier round it is what that came to, and of
        one that isn't begun yet nothing.
        """
        if board not in self._rounds.now.boards.values():
            if board.identity.round < self._rounds.now.number:
                self.payoff_view.show()
            return
        self.show_state(board)
        name = board.terms.name
        for watcher in self.watching(board):
            self._show_book(board, watcher, traded)
            if watcher.member is not None and watcher.member.name in members:
                orders = shown.orders_of(board, watcher.member.name)
                watcher.offer(f"orders {name}", orders)
        if not traded:
            return
        self.show_gains(board)
        trades = shown.trades_of(board, board.looks.trades[-shown.MOST_TRADES :])
        for watcher in self.watching(board):
            if watcher.member is not None and "trades" in watcher.topics:
                watcher.offer(f"trades {name}", trades)

    def show_gains(self, board: InstrumentBoard) -> None:
        """Shows members their fills, others what came of all, and who may see it what is paid."""
        name = board.terms.name
        if board.looks.is_seen:
            efficiency = shown.efficiency_of(board, self._members.title_of)
            for watcher in self.watching(board):
                if watcher.member is None:
                    watcher.offer(f"efficiency {name}", efficiency)
                elif "fills" in watcher.topics:
                    watcher.offer(f"fills {name}", shown.fills_of(board, watcher.member.name))
        self.show_members()
        self.payoff_view.show()

    def _show_book(self, board: InstrumentBoard, watcher: Watcher, is_all: bool) -> None:
        """Shows the operator, or others as far as the operator lets them, the course and the book;
        and where there is more of it, who traded with whom.
        """
        name = board.terms.name
        if watcher.member is not None:
            is_open = self._rounds.now.is_open_book and board.looks.is_ladder_seen
            if is_open and "ladder" in watcher.topics:
                watcher.offer(f"ladder {name}", shown.ladder_of(board))
            return
        watcher.offer(f"course {name}", shown.course_of(board))
        is_operator = watcher.role == "operator"
        if board.looks.is_ladder_seen and (is_operator or self.screen.has_book):
            watcher.offer(f"ladder {name}", shown.ladder_of(board, is_operator))
        if is_all:
            last = board.looks.trades[-shown.MOST_TRADES :]
            trades = shown.trades_of(board, last, self._members.title_of)
            watcher.offer(f"trades {name}", trades)
            efficiency = shown.efficiency_of(board, self._members.title_of)
            watcher.offer(f"efficiency {name}", efficiency)

    # ---- the venue

    def enter(self, watcher: Watcher) -> None:
        """Somebody has connected, who may do so a few times at once."""
        there = [it for it in self.watchers if it.member and not it.is_leaving]
        own = [it for it in there if it.member is watcher.member]
        if len(own) >= MOST_OF_MEMBER:
            own[0].leave("too_fast")
        self.watchers[watcher] = None

    def leave(self, watcher: Watcher) -> None:
        """Somebody is no longer connected."""
        self.watchers.pop(watcher, None)
        self.show_members()

    def send_away(self, member: VenueMember) -> None:
        """Ends the connections of a member whose token is another now, or none."""
        for watcher in [*self.watchers]:
            if watcher.member is member:
                watcher.leave("bad_token")

    def dismiss(self) -> None:
        """Ends all connections."""
        for watcher in [*self.watchers]:
            watcher.leave("halted")

    def show_members(self) -> None:
        """Shows the operator who is there, and the screen how many."""
        there = {it.member for it in self.watchers}
        found = shown.members_of(self._members, there, self._rounds)
        screen = self.screen.shown(there, self.payoff_view.shows)
        for watcher in self.watchers:
            if watcher.role == "operator":
                watcher.offer("members", found)
            if watcher.member is None:
                watcher.offer("beamer", screen)

    def welcome_of(self, watcher: Watcher) -> Json:
        """What is answered to a hello: who this is, the greatest number of its messages so far, and
        the boards that it sees.
        """
        member, boards = watcher.member, self._rounds.boards_of(watcher.member)
        has_groups = self._rounds.now.groups > 1
        return {
            "type": "welcome",
            "role": watcher.role,
            "name": member.title if member else "",
            "last": member.last if member else 0,
            "title": self._day.title,
            "instruments": [shown.terms_of(it, has_groups) for it in boards.values()],
        }

    def greet(self, watcher: Watcher) -> None:
        """Shows somebody who has come what it may see."""
        self.round_view.offer(watcher)
        member = watcher.member
        for board in self._rounds.boards_of(member).values():
            if "states" in watcher.topics:
                watcher.offer(f"state {board.terms.name}", self.state_of(board))
            self._greet_with_lists(watcher, board)
            board.looks.touch([member.name] if member else [])
        self.payoff_view.show_to([watcher])
        self.show_members()

    def show_all(self) -> None:
        """Shows everybody everything."""
        for watcher in [*self.watchers]:
            watcher.offer("welcome", self.welcome_of(watcher))
            self.greet(watcher)

    def _greet_with_lists(self, watcher: Watcher, board: InstrumentBoard) -> None:
        """Shows somebody who has come those lists of a board that are known now; the others once
        they are.
        """
        name, member = board.terms.name, watcher.member
        if not board.looks.is_seen:
            return
        self._show_book(board, watcher, True)
        if member is None:
            return
        if "orders" in watcher.topics and board.looks.knows_orders_of(member.name):
            watcher.offer(f"orders {name}", shown.orders_of(board, member.name))
        if "fills" in watcher.topics:
            watcher.offer(f"fills {name}", shown.fills_of(board, member.name))
        if "trades" in watcher.topics:
            last = board.looks.trades[-shown.MOST_TRADES :]
            watcher.offer(f"trades {name}", shown.trades_of(board, last))

    # ---- what the operator lets them see

    def show_on_beamer(self, what: str) -> None:
        """What the screen shows. Raises MessageError."""
        self.screen.choose(what)
        self._log.note(kind="beamer", shows=what)
        for watcher in self.watchers:
            if watcher.member is None:
                self.greet(watcher)

    def show_paid(self, what: str) -> None:
        """What members see of payoffs. Raises MessageError."""
        self.payoff_view.choose(what)
        self._log.note(kind="payoffs", shows=what)
        self.payoff_view.show()
        self.show_members()

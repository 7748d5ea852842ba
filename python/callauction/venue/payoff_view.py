"""What is shown of what members are paid, as far as the operator lets them see it."""
from collections.abc import Collection

from callauction.venue import config, results, shown
from callauction.venue.members import Members
from callauction.venue.messages import MessageError
from callauction.venue.rounds import Rounds
from callauction.venue.watchers import Watcher, Watchers

PAYOFFS = ("none", "own", "ranking")
"""What members see of payoffs: nothing, their own, or their place among all, which the screen shows
too.
"""


class PayoffView:
    """What the members of a venue are paid, and what of it they see, by what it `shows`."""

    def __init__(
        self, day: config.DayTerms, members: Members, rounds: Rounds, watchers: Watchers
    ) -> None:
        self._day, self._members, self._rounds = day, members, rounds
        self._watchers = watchers
        self.shows = PAYOFFS[0]

    def choose(self, what: str) -> None:
        """Lets members see this from now on. Raises MessageError."""
        if what not in PAYOFFS:
            raise MessageError("bad_message", f"shows is one of {', '.join(PAYOFFS)}")
        self.shows = what

    def show(self) -> None:
        """Shows all what they may see of it."""
        self.show_to(self._watchers)

    def show_to(self, watchers: Collection[Watcher]) -> None:
        """Shows members what they are paid, as far as the operator lets them, and the operator all
        of it, once that is known. Who was removed has no place among them.
        """
        is_shown = self.shows != "none" or any(it.role == "operator" for it in watchers)
        if is_shown and self._rounds.are_seen:
            paid = results.payoffs(self._day, self._rounds.all, self._members.all)
            for watcher in watchers:
                self._offer(watcher, paid)

    def _offer(self, watcher: Watcher, paid: "list[results.Payoff]") -> None:
        """Shows somebody what it may see of what members are paid."""
        has_ranks = self.shows == "ranking"
        if watcher.member is not None:
            if self.shows != "none" and "payoffs" in watcher.topics:
                for it in paid:
                    if it.member == watcher.member.name:
                        watcher.offer("payoff", shown.payoff_of(it, len(paid), has_ranks))
        elif watcher.role == "operator" or has_ranks:
            watcher.offer("ranking", shown.ranking_of(paid))

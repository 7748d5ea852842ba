"""What is shown of the round of a venue, and to the operator of others and of late call phases."""
from callauction.venue import config, shown
from callauction.venue.json_types import Json
from callauction.venue.rounds import Rounds
from callauction.venue.watchers import Watcher, Watchers


class RoundView:
    """Where a venue stands; `late` has why calls are late and what comes of them, by the names of
    their boards.
    """

    def __init__(self, day: config.DayTerms, rounds: Rounds, watchers: Watchers) -> None:
        self._day, self._rounds, self._watchers = day, rounds, watchers
        self.late: dict[str, tuple[str, str]] = {}

    def show(self) -> None:
        """Shows all which round it is."""
        for watcher in self._watchers:
            self.offer(watcher)

    def show_to_operator(self) -> None:
        """Shows the operator which round it is, and what is said of others and of late call
        phases.
        """
        for watcher in self._watchers:
            if watcher.role == "operator":
                self.offer(watcher)

    def offer(self, watcher: Watcher) -> None:
        """Shows somebody which round it is; the operator all of it, and the next one too."""
        if "rounds" not in watcher.topics:
            return
        found = shown.round_of(self._rounds.now)
        if watcher.role == "operator":
            following = self._day.treatment(self._rounds.now.number + 1)
            found |= {"next": shown.treatment_of(following), "planned": len(self._day.rounds)}
            found["now"] = shown.treatment_of(self._rounds.now.treatment)
            found["late"] = self._late_shown()
            found["halts"] = [shown.halt_of(it, why) for it, why in self._rounds.early_halts]
        watcher.offer("round", found)

    def _late_shown(self) -> list[Json]:
        """What is said of calls whose end had passed as the venue, or their board, began, and what
        comes of them, until something does.
        """
        return [
            {"instrument": name, "why": why, "does": does}
            for name, (why, does) in self.late.items()
            if (board := self._rounds.now.boards.get(name)) is not None and board.auctions.is_late
        ]

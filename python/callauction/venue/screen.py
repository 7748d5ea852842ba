"""What the screen shows of a venue: who may join where, who is there, and whether the book."""
from collections.abc import Callable

from callauction.venue import addresses
from callauction.venue.json_types import Json
from callauction.venue.members import Members, VenueMember
from callauction.venue.messages import MessageError
from callauction.venue.rounds import Rounds

SHOWN = ("indication", "all")
"""What the screen shows of a call phase: the indication alone, or also the book."""


class Screen:
    """The screen of a venue, by what it `shows` of a call phase; `urls` are where members
    join.
    """

    def __init__(self, members: Members, rounds: Rounds) -> None:
        self._members, self._rounds = members, rounds
        self.shows = SHOWN[0]
        self.urls: Callable[[], list[str]] = lambda: ["http://localhost/"]

    @property
    def has_book(self) -> bool:
        """Whether it shows the book: where the operator wants it, or where all see it."""
        return self.shows == "all" or self._rounds.now.is_open_book

    def choose(self, what: str) -> None:
        """Shows this from now on. Raises MessageError."""
        if what not in SHOWN:
            raise MessageError("bad_message", f"shows is one of {', '.join(SHOWN)}")
        self.shows = what

    def shown(self, there: set[VenueMember | None], payoffs: str) -> Json:
        """What it shows of the venue: the address at which to join, a QR code of it that has the
        code too, all other addresses, how many have joined, how many robots there are, how many
        members are there, and what is shown of payoffs.
        """
        code, (url, *others) = self._members.codes.of_day, self.urls()
        robots = [it for it in self._members.all if it.robot]
        picture = addresses.qr_code_of(f"{url}#{code}" if code else url)
        return {
            "type": "beamer",
            "shows": self.shows,
            "code": code,
            "url": url,
            "others": others,
            "qr": picture and {"size": picture[0], "path": picture[1]},
            "members": len(self._members.all) - len(robots),
            "robots": len(robots),
            "here": len(there - {None}),
            "payoffs": payoffs,
        }

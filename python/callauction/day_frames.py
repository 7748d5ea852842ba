"""What the program says of a day that can be had as a journal: see DayTables."""
import abc
import os
import pathlib
from collections.abc import Iterable

import pandas

from callauction.arguments import number
from callauction.course import Course, course_of, reference_of
from callauction.limits import MOST_RANGE
from callauction.outcomes import outcomes_of
from callauction.program import Day
from callauction.reasons import Explanation, explain
from callauction.tables import audit_of, book_at, books_of, journal_of, trades_of
from callauction.words import Command, Config, Reply
from callauction.written import fields_of, text_of


def written_day(
    config: Config, members: int, entries: Iterable[tuple[int, Command, Reply]]
) -> Day:
    """The journal of a day of `members` members, opened with this config: each entry is a member,
    a command and its reply, in their order. Raises ValueError for a range above 1,000,000, which an
    Auction takes and no journal can say.
    """
    most = "" if config.range is None else number("range", config.range, MOST_RANGE)
    numbers = (config.low, config.high, config.reference, members)
    head = ("day", *numbers, config.max_open, config.max_calls, most)
    lines = (
        f"{member},{fields_of(command)},{text_of(reply)}\n" for member, command, reply in entries
    )
    return Day(f"{','.join(map(str, head))}\n{''.join(lines)}".encode("ascii"))


class DayTables(abc.ABC):
    """A day with its tables, which are what the program prints of its journal, as it is when they
    are asked for. Each raises ProgramError.
    """

    @abc.abstractmethod
    def day(self) -> Day:
        """The day as a journal, with the replies that were given."""

    def save(self, path: str | os.PathLike[str]) -> None:
        """Writes the journal. Raises OSError."""
        pathlib.Path(path).write_bytes(self.day().content)

    def journal(self) -> pandas.DataFrame:
        """The commands and their replies, given and lawful (tables.JOURNAL)."""
        return journal_of(self.day())

    def audit(self) -> pandas.DataFrame:
        """Which of the given replies aren't lawful (tables.AUDIT)."""
        return audit_of(self.day())

    def trades(self) -> pandas.DataFrame:
        """The trades of the day so far, with the members of the orders (tables.TRADES)."""
        return trades_of(self.day())

    def outcomes(self) -> pandas.DataFrame:
        """The accepted orders of the day, and what became of each (outcomes.OUTCOMES)."""
        return outcomes_of(self.day())

    def books(self) -> pandas.DataFrame:
        """The book before each uncross, and the book now unless the day is over (tables.BOOK)."""
        return books_of(self.day())

    def book(self, command: int | None = None) -> pandas.DataFrame:
        """The book now (after the day the last one), or the one before the uncross that was this
        command (tables.BOOK). Raises ValueError where there is none.
        """
        return book_at(self.books(), command)

    def reference(self, command: int | None = None) -> int | None:
        """The reference price of this book, in ticks; None where it can't be asked for (see
        course.references_of). Raises ValueError.
        """
        day = self.day()
        return reference_of(day, books_of(day), command)

    def explain(self, command: int | None = None) -> Explanation:
        """Why this book has its price, or none, in sentences. Raises ValueError."""
        day = self.day()
        books = books_of(day)
        return explain(books, command, reference_of(day, books, command))

    def course(self) -> Course:
        """The indicative price over the calls of the day, and its uncrosses."""
        return course_of(self.day())

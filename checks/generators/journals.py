"""Writes a random journal: `python3 -m checks.generators.journals KIND SEED` prints the options
that the program is given with it on the first line, then the journal of the random order file of
this KIND and SEED.

Three in four are well formed: each reply is recorded as it is lawful, or some are left out, or
some are changed (another number, another word, a cut text, a longer one). Their commands may be
spelled otherwise than they are printed: leading zeros, empty fields at the end of an entry; lines
may end with CR or CR LF, empty ones may come between, the last line end may be missing. The
others are spoiled: a field of any record is another, one too many or missing, the day can't be
opened, there are too many entries, a reply is too long or has a byte that isn't printable, or
there is no day record. The options given with a journal are mostly such that no order file could
be run with them.

A text has one character for each byte.
"""
import random
import re
import sys

from checks.generators import orders
from checks.model.day import Options
from checks.model.files import MOST_REPLY_BYTES, RANGES, order_file
from checks.model.tables import journal_text

Rows = list[list[str]]
"""The records of a journal, the day record first, as lists of fields."""

OTHER_OPTIONS: list[Options] = [{}, {"low": 5, "high": 4}, {"reference": 1_000_000}, {"calls": 1}]
WORDS = ["bid", "ask", "none", "kept", "moved", "deleted", "opening", "closing", "price", "-"]
JUNK = ["", "0", "x", "-1", "+1", " 5", "5 ", "05", "4294967295", "4294967296", "00000000005"]
JUNK += ["Bid", "ask ", "Market", "closed", "1000001", "1048577", "65537", "65", "\t", "\x80"]
UNOPENED = [(5, 4, 5), (1, 65_537, 200), (1_000_000, 1, 2), (5, 9, 4), (5, 9, 10), (1, 5, 200)]
"""Low, high and reference of days that can't be opened, in ticks."""
BYTES = ["\x00", "\t", "\x1f", "\x7f", "\x80", "\xff"]
"""Bytes that are not printable."""


class Clerk:
    """Who writes down a day and makes mistakes: the dice and the records."""

    def __init__(self, name: str, options: Options, text: str) -> None:
        self.dice = random.Random(name)
        whole = order_file(text, options | {"calls": RANGES["calls"][1]})
        written = journal_text(whole)
        self.rows: Rows = [line.split(",") for line in written.splitlines()]

    def is_so(self, chance: float) -> bool:
        """Whether it is so, with this chance."""
        return self.dice.random() < chance

    # ---- replies

    def forget(self) -> None:
        """Some replies aren't recorded."""
        chance = self.dice.choice([0.1, 0.5, 1.0])
        for row in self.rows[1:]:
            if self.is_so(chance):
                row[-1] = ""

    def confuse(self) -> None:
        """Some replies are recorded otherwise; one at least, if there are entries."""
        entries = self.rows[1:]
        for row in entries:
            if self.is_so(0.1):
                row[-1] = self.other_reply(row[-1])
        if entries:
            row = self.dice.choice(entries)
            row[-1] = self.other_reply(row[-1])

    def other_reply(self, reply: str) -> str:
        """A text in place of this reply, which differs in a number, a word or a letter."""
        dice = self.dice
        place = dice.randint(0, len(reply))
        how = dice.choice(["number", "word", "cut", "longer", "longest", "letter", "other"])
        if how == "number":
            return self.other_number(reply)
        if how == "word":
            words = reply.split(" ")
            words[dice.randrange(len(words))] = dice.choice(WORDS)
            return " ".join(words)
        if how == "cut":
            return reply[:place]
        if how == "longer":
            return dice.choice([f"{reply} ", f" {reply}", f"{reply}0", f"{reply} {reply}"])
        if how == "longest":
            return reply.ljust(MOST_REPLY_BYTES, dice.choice(" ~"))
        if how == "letter":
            return f"{reply[:place]}{dice.choice('X0 ~')}{reply[place + 1:]}"
        return self.dice.choice(self.rows[1:])[-1]

    def other_number(self, reply: str) -> str:
        """This reply with another number, or with one more."""
        found = list(re.finditer(r"\d+", reply))
        if not found:
            return f"{reply} 1"
        said = self.dice.choice(found)
        value = int(said[0])
        other = self.dice.choice([f"{value + 1}", f"0{value}", f"{value}0", f"{abs(value - 1)}"])
        return reply[: said.start()] + other + reply[said.end() :]

    # ---- the same in other words

    def spell(self) -> None:
        """Numbers get leading zeros, and orders the fields that may be left out."""
        for row in self.rows[1:]:
            if row[1] == "enter" and self.is_so(0.3):
                row[-1:-1] = [""] * self.dice.randint(0, 8 - len(row))
            for k in range(len(row) - 1):
                if row[k].isdigit() and self.is_so(0.1):
                    row[k] = row[k].zfill(10)

    # ---- faults

    def spoil(self) -> None:
        """Something in the records is bad."""
        how = self.dice.choice(["day", "together", "calls", "record", "record", "reply", "first"])
        day = self.rows[0]
        if how == "day":
            self.spoil_day(day)
        elif how == "together":
            self.spoil_opening(day)
        elif how == "calls":
            day[6:7] = [str(max(1, len(self.rows) - 2))]
        elif how == "first":
            self.spoil_first()
        elif how == "record":
            self.spoil_field(self.dice.choice(self.rows))
        elif len(self.rows) > 1:
            self.spoil_reply(self.dice.choice(self.rows[1:]))

    def spoil_field(self, row: list[str]) -> None:
        """A field is another, or missing, or there is one more, or none but the first."""
        place = self.dice.randrange(len(row))
        how = self.dice.random()
        if how < 0.7:
            row[place] = self.dice.choice(JUNK)
        elif how < 0.8:
            row.insert(place, self.dice.choice(JUNK))
        elif how < 0.95:
            del row[place]
        else:
            del row[1:]

    def spoil_day(self, day: list[str]) -> None:
        """A number of the day record is at the edge of what it may be, or something is spoiled."""
        place = self.dice.randrange(8)
        if place == 0:
            self.spoil_field(day)
        else:
            least, most = [*RANGES.values()][place - 1]
            day[place : place + 1] = [str(self.dice.choice([least - 1, least, most, most + 1]))]

    def spoil_opening(self, day: list[str]) -> None:
        """Two numbers of the day don't go together."""
        day[1:4] = map(str, self.dice.choice(UNOPENED))

    def spoil_first(self) -> None:
        """The first record is no day record."""
        if self.is_so(0.5):
            self.rows[0][0] = self.dice.choice(["Day", "day ", " day", "", "days", "0"])
        else:
            del self.rows[0]

    def spoil_reply(self, row: list[str]) -> None:
        """A reply is a byte too long, or has a byte that isn't printable."""
        place = self.dice.randint(0, len(row[-1]))
        if self.is_so(0.4):
            row[-1] = row[-1].ljust(MOST_REPLY_BYTES + self.dice.choice([1, 1, 1_000]), "~")
        else:
            row[-1] = row[-1][:place] + self.dice.choice(BYTES) + row[-1][place:]

    # ---- the text

    def text(self) -> str:
        """The records as they are now."""
        end = self.dice.choice(["\n", "\n", "\r\n", "\r"])
        found = ""
        blank = self.dice.choice([0.0, 0.0, 0.05])
        for row in self.rows:
            found += ",".join(row) + end + (end if self.is_so(blank) else "")
        return found.removesuffix(end) if self.is_so(0.2) else found


def journal_of(kind: str, seed: int, options: Options, text: str) -> tuple[Options, str]:
    """The options that the program is given, and the text of the journal, for a random order file
    of these options, kind and seed.
    """
    clerk = Clerk(f"journal {kind} {seed}", options, text)
    if clerk.is_so(0.4):
        clerk.forget()
    if clerk.is_so(0.5):
        clerk.confuse()
    if clerk.is_so(0.3):
        clerk.spell()
    if clerk.is_so(0.25):
        clerk.spoil()
        if clerk.rows and clerk.is_so(0.3):
            clerk.spoil()
    return clerk.dice.choice(OTHER_OPTIONS), clerk.text()


def main() -> None:
    """Prints the options and the journal of a kind and a seed."""
    kind, seed = sys.argv[1], int(sys.argv[2])
    options, text = journal_of(kind, seed, *orders.order_file(kind, seed))
    print(" ".join(orders.option_words(options)), flush=True)
    sys.stdout.buffer.write(text.encode("latin-1"))


if __name__ == "__main__":
    main()

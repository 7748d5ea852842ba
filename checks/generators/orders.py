"""Writes a random order file: `python3 -m checks.generators.orders KIND SEED` prints the program's
options on the first line, then records.

KIND is short (at most 60 commands) or long (at most 3,000). A kind and a seed always give the same
file.

Books of few and of many ticks (1 to 65,536, at either end of what is allowed), with room for one
order or for many, with and without a price range; all commands, all three auctions, bids and asks
with limits and without, many market orders or few, quantities that are often the same, icebergs,
orders for one auction, a single order, and now and then a number at the edge of what is allowed.
Changes, deletes and questions mostly name an order that is open, as the model knows, which plays
the file while it is written.
"""
import random
import sys

from checks.model.answers import DEFAULTS
from checks.model.day import MOST_QUANTITY, MOST_TICKS, Options, opened
from checks.model.files import MOST_NUMBER, RANGES, command

MOST_COMMANDS = {"short": 60, "long": 3_000}
MOST_TICK = RANGES["high"][1]
MOST_CALLS = RANGES["calls"][1]
SIZES = {"short": [1, 2, 5, 20, 40, 60, 60], "long": [200, 1_000, 3_000]}
WEIGHTS = {"enter": 45, "change": 14, "delete": 8, "status": 6, "ask": 12, "trade": 4}


class Author:
    """What a random order file is written with: its dice, its options, and the day so far."""

    def __init__(self, kind: str, seed: int) -> None:
        self.dice = random.Random(f"{kind} {seed}")
        self.count = self.dice.choice(SIZES[kind])
        self.options = DEFAULTS | self.random_options(kind)
        self.day = opened(self.options)
        self.most_entries = 1 if self.dice.random() < 0.05 else self.count
        self.levels = self.random_levels()
        self.large = self.dice.random() < 0.1
        self.market = self.dice.choice([0.13, 0.13, 0.13, 0.13, 0.13, 0.5, 0.95])
        self.quantities = self.dice.choice([[10, 20, 30, 50, 100], [10, 20], [10]])
        self.common = self.dice.choice([0.7, 0.7, 1.0])

    def random_options(self, kind: str) -> Options:
        """The options of the program: ticks, a reference among them, members, room, a range."""
        dice = self.dice
        ticks = dice.choice(
            [1, 2, 3, 5, 11, 21, 201, 1_000, MOST_TICKS, dice.randint(1, MOST_TICKS)]
        )
        low = dice.choice(
            [1, 1, 1, 90, MOST_TICK - ticks + 1, dice.randint(1, MOST_TICK - ticks + 1)]
        )
        high = low + ticks - 1
        reference = dice.choice([low, high, dice.randint(low, high), dice.randint(low, high)])
        found = {
            "low": low,
            "high": high,
            "reference": reference,
            "members": dice.choice([1, 2, 3, 4, 64]),
        }
        found["open"] = dice.choice(
            [1, 2, 3, 8, 40, 4_096, 65_536] if kind == "short" else [3, 40, 400, 4_096, 65_536]
        )
        found["calls"] = dice.choice([self.count, 65_536, MOST_CALLS])
        if self.count > 1 and dice.random() < 0.01:
            found["calls"] = self.count - 1
        if dice.random() < 0.4:
            found["range"] = dice.choice([0, 1, 3, 10, ticks // 8])
        return found

    def random_levels(self) -> list[int]:
        """The ticks that most limits are drawn from, few enough that orders meet: also those where
        blocks of 64 end.
        """
        low, high = self.options["low"], self.options["high"]
        middle = self.dice.choice([self.options["reference"], self.dice.randint(low, high)])
        spread = self.dice.choice([2, 6, 30, 300])
        found = [
            middle + self.dice.randint(-spread, spread)
            for _ in range(self.dice.choice([2, 5, 12, 60]))
        ]
        for size in (64, 4_096):
            place = low + self.dice.randint(0, (high - low) // size) * size
            found += [place - 1, place]
        return [
            tick for tick in [*found, low, high, self.options["reference"]] if low <= tick <= high
        ]

    def limit(self) -> str:
        """A limit: a tick, mostly of a few, the market, or none that may be."""
        if self.dice.random() < self.market:
            return "market"
        roll = self.dice.random()
        low, high = self.options["low"], self.options["high"]
        if roll < 0.02:
            return str(self.dice.choice([low - 1, high + 1, 0, MOST_NUMBER]))
        return str(self.dice.choice(self.levels) if roll < 0.9 else self.dice.randint(low, high))

    def quantity(self) -> str:
        """A quantity: mostly of a few, at times as large as may be or larger."""
        roll = self.dice.random()
        most = MOST_QUANTITY
        if roll < 0.02 or self.large and roll < 0.4:
            return str(
                self.dice.choice(
                    [0, most, most, most + 1, MOST_NUMBER] if roll < 0.02 else [most, most - 1]
                )
            )
        is_common = self.dice.random() < self.common
        return str(self.dice.choice(self.quantities) if is_common else self.dice.randint(1, 120))

    def order(self) -> tuple[int, int]:
        """A member and an order's id: mostly of one of the open orders and its own member."""
        roll = self.dice.random()
        if self.day.book and roll < 0.85:
            ids = list(self.day.book)
            found = self.day.book[self.dice.choice(ids[-12:] if roll < 0.5 else ids)]
            return found.member, found.id
        member = self.dice.randrange(self.options["members"])
        if roll < 0.97:
            return member, self.dice.randint(max(1, self.day.next_id - 12), self.day.next_id)
        return member, self.dice.choice([0, MOST_NUMBER])

    def entry(self) -> list[str]:
        """The fields of a new order, without the member."""
        fields = ["enter", self.dice.choice(["bid", "ask"]), self.quantity(), self.limit()]
        if self.dice.random() < 0.3:
            fields.append("" if self.dice.random() < 0.4 else str(self.dice.randint(0, 60)))
            if self.dice.random() < 0.6:
                fields.append(self.dice.choice(["", "opening", "closing"]))
        return fields

    def record(self) -> tuple[int, list[str]]:
        """The member and the other fields of the next record."""
        dice = self.dice
        weights = WEIGHTS | {"uncross": 250 / self.count}
        if self.day.next_id > self.most_entries:
            weights["enter"] = 0
        word = dice.choices(list(weights), list(weights.values()))[0]
        member = dice.randrange(self.options["members"])
        if word == "enter":
            return member, self.entry()
        if word == "trade":
            number = dice.choice(
                [0, 1, len(self.day.tape), len(self.day.tape) + 1, dice.randint(0, 12)]
            )
            return member, [word, str(number)]
        if word in ("change", "delete", "status"):
            member, order = self.order()
            terms = [self.quantity(), self.limit()] if word == "change" else []
            return member, [word, str(order), *terms]
        if word == "uncross" and dice.random() < 0.9:
            member = 0
        return member, [word]

    def text(self) -> str:
        """All records, each played on the day."""
        found = []
        for place in range(1, self.count + 1):
            member, fields = self.record()
            found.append(",".join([str(member), *fields]) + "\n")
            call = command(place, [str(member), *fields], self.options["members"])
            self.day.apply(*call)
        return "".join(found)


def order_file(kind: str, seed: int) -> tuple[Options, str]:
    """The options and the text of the random order file of this kind with this seed."""
    author = Author(kind, seed)
    return author.options, author.text()


def option_words(options: Options) -> list[str]:
    """Options as words of the program's command line."""
    said = [(name, value) for name, value in options.items() if value is not None]
    return [word for name, value in said for word in (f"--{name}", str(value))]


def main() -> None:
    """Prints the options and the order file of a kind and a seed."""
    options, text = order_file(sys.argv[1], int(sys.argv[2]))
    print(" ".join(option_words(options)))
    print(text, end="")


if __name__ == "__main__":
    main()

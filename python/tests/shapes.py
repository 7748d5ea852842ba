"""The shapes in which extracts come: each changes how a recorded day is written, and says how it is
read. What is recorded stays the same.
"""
import collections
import csv
import dataclasses
import gzip
import io
import random
from collections.abc import Callable
from pathlib import Path
from typing import Any

from callauction.verdict import Reading
from extracts import Extract

THEIRS = {
    "order": "OrderID",
    "member": "Trader",
    "side": "B/S",
    "price": "LimitPx",
    "quantity": "Qty",
    "time": "TransactTime",
    "event": "Action",
}


@dataclasses.dataclass
class Written:
    """An extract on its way to a file: its rows, how it is read, and how it is written."""

    extract: Extract
    settings: dict[str, Any]
    is_compressed: bool = False

    @property
    def rows(self) -> list[dict[str, Any]]:
        return self.extract.rows

    def columns(self) -> list[str]:
        """The columns of the file: those that a row has, and those that each extract has."""
        found = dict.fromkeys(name for row in self.rows for name in row)
        return [*dict.fromkeys(["event", "order", "side", "price", "quantity", *found])]

    def write(self, path: Path) -> tuple[Path, Reading]:
        """Writes the file; its path and how it is read."""
        settings = self.settings
        names = settings.get("columns", {})
        columns = self.columns()
        out = io.StringIO(newline="")
        writer = csv.writer(out, delimiter=settings.get("separator", ","), lineterminator="\n")
        writer.writerow([names.get(name, name) for name in columns])
        writer.writerows([[row.get(name, "") for name in columns] for row in self.rows])
        content = out.getvalue().encode(settings.get("encoding", "utf-8"))
        path.write_bytes(gzip.compress(content) if self.is_compressed else content)
        return path, Reading(**settings)


Shape = Callable[[random.Random, Written], None]


def semicolons(chance: random.Random, it: Written) -> None:
    it.settings["separator"] = chance.choice([";", "\t", "|"])


def decimal_comma(chance: random.Random, it: Written) -> None:
    it.settings["decimal"] = ","
    for row in it.rows:
        if "price" in row:
            row["price"] = row["price"].replace(".", ",")


def thousands(chance: random.Random, it: Written) -> None:
    sign = chance.choice(["'", " "] + ["."] * (it.settings.get("decimal") == ","))
    it.settings["thousands"] = sign
    for row in it.rows:
        if "quantity" in row:
            row["quantity"] = f"{int(row['quantity']):,}".replace(",", sign)


def encoding(chance: random.Random, it: Written) -> None:
    it.settings["encoding"] = chance.choice(["latin-1", "utf-16", "cp1252", "utf-8"])
    for row in it.rows:
        for name in ("member", "bid_member", "ask_member"):
            if name in row:
                row[name] = row[name].replace("M", "Mäkler ")


def compressed(chance: random.Random, it: Written) -> None:
    it.is_compressed = True


def other_columns(chance: random.Random, it: Written) -> None:
    there = [name for name in it.columns() if name in THEIRS]
    it.settings["columns"] = {name: THEIRS[name] for name in there if chance.random() < 0.8}


def other_words(chance: random.Random, it: Written) -> None:
    bid, ask = chance.choice([("B", "S"), ("1", "2"), ("Kauf", "Verkauf")])
    words = {"bid": bid, "ask": ask}
    events = {"new": "NEU", "uncross": "AUKTION", "trade": "Handel"}
    it.settings["values"] = {
        "side": {theirs: ours for ours, theirs in words.items()},
        "event": {theirs: ours for ours, theirs in events.items()},
    }
    for row in it.rows:
        row["event"] = events.get(row["event"], row["event"])
        if "side" in row:
            row["side"] = words.get(row["side"], row["side"])


def market_word(chance: random.Random, it: Written) -> None:
    zero = "0,00" if it.settings.get("decimal") == "," else "0.00"
    word = chance.choice(["MKT", "0", "-1", zero])
    it.settings["market"] = (word.replace(",", "."), "Market")
    for row in it.rows:
        if row["event"] in ("new", "NEU", "replace") and "price" not in row:
            row["price"] = word


def dates(chance: random.Random, it: Written) -> None:
    form = chance.choice(["2026-11-25T{}.250Z", "25.11.2026 {},125", "20261125-{}.001", "{}+01:00"])
    for row in it.rows:
        row["time"] = form.format(row["time"])


def total_quantities(chance: random.Random, it: Written) -> None:
    it.settings["quantity"] = "total"
    executed: collections.Counter[str] = collections.Counter()
    for row in it.rows:
        if row["event"] == "trade":
            executed[row["bid"]] += int(row["quantity"])
            executed[row["ask"]] += int(row["quantity"])
        elif row["event"] == "replace":
            row["quantity"] = str(int(row["quantity"]) + executed[row["order"]])


def new_ids(chance: random.Random, it: Written) -> None:
    present: dict[str, str] = {}
    for row in it.rows:
        order = row.get("order", "")
        for name in ("order", "bid", "ask"):
            if row.get(name) in present:
                row[name] = present[row[name]]
        if row["event"] == "replace" and chance.random() < 0.7:
            row["new_order"] = row["order"] + "'"
            present[order] = row["new_order"]


def shuffled(chance: random.Random, it: Written) -> None:
    it.settings["sort"] = True
    for place, row in enumerate(it.rows):
        row["sequence"] = str(place)
    chance.shuffle(it.rows)


def trades_anywhere(chance: random.Random, it: Written) -> None:
    trades = [row for row in it.rows if row["event"] == "trade"]
    it.rows[:] = [row for row in it.rows if row["event"] != "trade"]
    for row in trades:
        it.rows.insert(chance.randint(0, len(it.rows)), row)


def trades_without_auction(chance: random.Random, it: Written) -> None:
    for row in it.rows:
        if row["event"] == "trade":
            del row["auction"]
            if chance.random() < 0.5:
                row.pop("bid_member")


def rejected_orders(chance: random.Random, it: Written) -> None:
    it.settings["where"] = ("state != REJECTED", "isin == 'DE 1'")
    for row in it.rows:
        row.update(state="DONE", isin="DE 1")
    for state, isin in (("REJECTED", "DE 1"), ("DONE", "DE 2")):
        row = dict(event="new", order="N1", side="bid", quantity="77", state=state, isin=isin)
        it.rows.insert(chance.randint(0, len(it.rows)), row)


def more_columns(chance: random.Random, it: Written) -> None:
    it.settings["ignore"] = chance.choice([("venue", "Comment"), ("*",)])
    for row in it.rows:
        row.update(venue="XETR", Comment="none")


def late_cancels(chance: random.Random, it: Written) -> None:
    it.extract.rows += [
        dict(event="cancel", order=row["order"], time="20:00:00")
        for row in it.rows
        if row["event"] == "new"
    ]


SHAPES: list[Shape] = [
    total_quantities,
    new_ids,
    trades_without_auction,
    late_cancels,
    decimal_comma,
    thousands,
    market_word,
    other_words,
    encoding,
    dates,
    trades_anywhere,
    rejected_orders,
    more_columns,
    shuffled,
    other_columns,
    semicolons,
    compressed,
]
"""All shapes, in an order in which they can be put one over the other."""


def written(chance: random.Random, extract: Extract, shapes: list[Shape]) -> Written:
    """The extract in these shapes."""
    found = Written(extract.copy(), {})
    for shape in SHAPES:
        if shape in shapes:
            shape(chance, found)
    return found

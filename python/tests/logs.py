"""Recorded days as other systems write them: logs of FIX messages, and the fields of orders that
venues keep for supervision.
"""
import random
from typing import Any

from desk import base_day
from extracts import Extract

SOH = "\x01"
SIDES = {"bid": "1", "ask": "2"}
SESSIONS = {"opening": "2", "intraday": "6", "closing": "4"}
ONLY = {"opening": "2", "closing": "7"}
Fields = list[tuple[int, str]]
PHASES = {name: f"{name.title()} auction" for name in ("opening", "intraday", "closing")}


def instant(time: str) -> str:
    return f"20261127-{time}.000000"


class FixLog:
    """The messages of a day, whose rows have trades of both sides and prices in market data."""

    def __init__(self, extract: Extract, seed: int = 0, has_results: bool = True) -> None:
        self.chance, self.has_results = random.Random(seed), has_results
        self.messages: list[Fields] = []
        self.left: dict[str, int] = {}
        self.orders: dict[str, dict[str, Any]] = {}
        self.count = self.trades = 0
        for row in extract.rows:
            self.add(row)

    def add(self, row: dict[str, Any]) -> None:
        """The messages of a row."""
        match row["event"]:
            case "trade":
                self.trades += 1
                for side in self.chance.sample(["bid", "ask"], 2):
                    self.trade(row, side)
            case "uncross":
                if self.has_results and row.get("price") and row["auction"] in SESSIONS:
                    self.result(row)
            case _:
                self.order(row)

    def report(self, kind: str, order: str, side: str, time: str, *more: tuple[int, str]) -> None:
        self.count += 1
        member = self.orders[order]["member"]
        self.messages.append([
            (35, "8"), (34, str(self.count)), (48, "DE1"), (37, order), (17, f"X{self.count}"),
            (150, kind), (54, SIDES[side]), (60, instant(time)), *more, (453, "1"), (448, member),
            (452, "1"),
        ])  # fmt: skip

    def order(self, row: dict[str, Any]) -> None:
        order = row["order"]
        if row["event"] == "new":
            self.orders[order] = dict(row)
            self.left[order] = int(row["quantity"])
        own, kind = self.orders[order], {"new": "0", "replace": "5", "cancel": "4"}[row["event"]]
        if row["event"] == "replace":
            own["price"] = row.get("price", "")
            self.left[order] = int(row["quantity"])
        if row["event"] == "cancel":
            self.left[order] -= int(row.get("quantity", self.left[order]))
            kind = "5" if self.left[order] else "4"
        limit = [(40, "2"), (44, own["price"])] if own.get("price") else [(40, "1")]
        whole = self.left[order] + 7 if row["event"] == "replace" else own["quantity"]
        only = ONLY.get(own.get("restriction", ""), self.chance.choice("01"))
        more = [*limit, (38, str(whole)), (151, str(self.left[order])), (59, only)]
        self.report(kind, order, own["side"], row["time"], *more)

    def trade(self, row: dict[str, Any], side: str) -> None:
        order, shares = row[side], int(row["quantity"])
        self.left[order] -= shares
        more = [(31, row["price"]), (32, row["quantity"]), (151, str(self.left[order])),
                (880, f"T{self.trades}"), (625, SESSIONS[row["auction"]])]
        self.report("F", order, side, row["time"], *more)

    def result(self, row: dict[str, Any]) -> None:
        """Market data of an auction's result, with an indication before it."""
        self.count += 1
        entries = [(269, "Q"), (270, row["price"]), (269, "B"), (271, row["quantity"]),
                   (269, "A"), (271, row["surplus"])]
        if row["side"] != "none":
            entries.append((277, {"bid": "P", "ask": "Q"}[row["side"]]))
        session = [(625, SESSIONS[row["auction"]])]
        head = [(35, "W"), (34, str(self.count)), (48, "DE1"), (52, instant(row["time"]))]
        self.messages.append([*head, (268, "1"), (269, "Q"), (270, "9.99")])
        self.messages.append([*head, *session, (268, "3"), *entries])

    def tagged(self, sign: str = SOH, version: str = "FIX.4.4") -> str:
        """Lines of tag=value."""
        return "".join(f"{line(fields, sign, version)}\n" for fields in self.messages)

    def columns(self, names: dict[int, str], separator: str = ",") -> str:
        """A CSV file of the execution reports, headed by these names."""
        kept = [dict(fields) for fields in self.messages if (35, "8") in fields]
        rows = [separator.join(each.get(tag, "") for tag in names) for each in kept]
        return "\n".join([separator.join(names.values()), *rows, ""])


def line(fields: Fields, sign: str = SOH, version: str = "FIX.4.4") -> str:
    texts = [f"8={version}", "9=100", *(f"{tag}={text}" for tag, text in fields), "10=123"]
    return "".join(f"{text}{sign}" for text in texts)


# ---- what venues keep for supervision

EVENT = (
    "New order, order modification, order cancellation, order rejections, partial or full execution"
)
KEPT = {
    "order": "Order identification code",
    "member": "Identification of the entity which submitted the order",
    "side": "Buy-sell indicator",
    "price": "Limit price",
    "first": "Initial quantity",
    "left": "Remaining quantity including hidden quantity",
    "time": "Date and time",
    "sequence": "Sequence number",
    "only": "Order restriction",
    "phase": "Trading phases",
    "traded": "Traded quantity",
    "at": "Transaction price",
    "match": "Trading venue transaction identification code",
    "displayed": "Displayed quantity",
}


def kept_for_supervision(extract: Extract) -> str:
    """A CSV file of a day without restrictions to auctions and without partial cancels."""
    words = {"bid": "BUYI", "ask": "SELL"}
    lines = [";".join([EVENT, *KEPT.values()])]
    orders: dict[str, dict[str, str]] = {}
    left: dict[str, int] = {}

    def put(event: str, order: str, **more: str) -> None:
        own = orders[order]
        cells = {"order": order, "member": own["member"], "side": words[own["side"]]}
        cells |= {"price": own.get("price", ""), "first": own["quantity"], "only": "VFAR"}
        cells |= {"left": str(left[order]), "sequence": str(len(lines)), "phase": ""} | more
        lines.append(";".join([event, *(cells.get(name, "") for name in KEPT)]))

    for place, row in enumerate(extract.rows):
        stamp = f"2026-11-27T{row['time']}.000000Z"
        match row["event"]:
            case "new" | "replace" | "cancel":
                order = row["order"]
                if row["event"] == "new":
                    orders[order] = dict(row)
                if row["event"] == "replace":
                    orders[order]["price"] = row.get("price", "")
                left[order] = int(row.get("quantity", 0))
                word = {"new": "NEWO", "replace": "REME", "cancel": "CAME"}[row["event"]]
                put(word, order, time=stamp)
            case "trade":
                for side in ("bid", "ask"):
                    left[row[side]] -= int(row["quantity"])
                    word = "PARF" if left[row[side]] else "FILL"
                    put(word, row[side], time=stamp, traded=row["quantity"], at=row["price"],
                        match=f"T{place}", phase=PHASES[row["auction"]])
    return "\n".join([*lines, ""])


def lawful_log(has_results: bool = True) -> FixLog:
    """The base day as a log of FIX messages."""
    return FixLog(base_day(), 1, has_results)

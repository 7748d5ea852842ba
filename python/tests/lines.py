"""Days of a few rows that a test writes as lines of words."""
from typing import Any

from callauction.verdict import Verdict, audit_events
from desk import TRADE, UNCROSS
from extracts import Rows
from judging import frame_of


def untimed_rows(text: str) -> Rows:
    """Rows of lines such as `new A bid 10 10.00`, `uncross 10.00 10 0` and `trade A B 10 10.00`."""
    found: Rows = []
    for line in text.split("\n"):
        event, *words = line.split()
        names = {
            "new": ("order", "side", "quantity", "price"),
            "replace": ("order", "side", "quantity", "price"), "cancel": ("order",),
            UNCROSS: ("price", "quantity", "surplus"), TRADE: ("bid", "ask", "quantity", "price"),
        }[event]  # fmt: skip
        found.append({"event": event, **dict(zip(names, words))})
    return found


COLUMNS = {
    "new": ("order", "side", "quantity", "price"),
    "replace": ("order", "side", "quantity", "price", "kept"),
    "cancel": ("order", "quantity"),
    "uncross": ("price", "quantity", "surplus", "side", "trades", "auction"),
    "trade": ("bid", "ask", "quantity", "price", "auction"),
    "bust": ("bid", "ask", "quantity", "price", "auction"),
}
"""What the words of a line are, behind its event and its time."""


def timed_rows(text: str) -> Rows:
    """The rows that lines say: an event, a time, and its cells, `-` for none."""
    found = []
    for event, time, *cells in filter(None, map(str.split, text.splitlines())):
        named = {name: it for name, it in zip(COLUMNS[event], cells) if it != "-"}
        found.append({"event": event, "time": time, **named})
    return found


def judged_lines(text: str, **options: Any) -> Verdict:
    """The verdict on the day that lines say."""
    return audit_events(frame_of(timed_rows(text)), reference="10", tick_size="0.01", **options)

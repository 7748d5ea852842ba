"""Days of a few orders, and their verdicts."""
from typing import Any

import pandas
from callauction.verdict import Verdict, audit_events
from extracts import Rows
from judging import frame_of


def order(id: str, side: str, price: str | None, quantity: int, time: str, **cells: Any) -> Any:
    return dict(event="new", order=id, member=f"member of {id}", side=side, price=price,
                quantity=quantity, time=time, **cells)


def traded(bid: str, ask: str, quantity: int, price: str, time: str, **cells: Any) -> Any:
    return dict(event="trade", bid=bid, ask=ask, quantity=quantity, price=price, time=time, **cells)


def small_day() -> Rows:
    """An opening at 10.00 with 300 shares in two trades, and a closing at 10.00 with 86 trades."""
    rows = [
        order("B1", "bid", "10.00", 300, "08:50:00"),
        order("S1", "ask", "10.00", 100, "08:50:01"),
        order("S2", "ask", "10.00", 200, "08:50:02"),
        dict(event="uncross", auction="opening", price="10.00", quantity=300, surplus=0,
             side="none", trades=2, time="09:00:00"),
        traded("B1", "S1", 100, "10.00", "09:00:00"),
        traded("B1", "S2", 200, "10.00", "09:00:00"),
        dict(event="uncross", auction="intraday", quantity=0, time="13:00:00"),
        order("B2", "bid", "10.00", 860, "17:30:00"),
    ]
    rows += [order(f"S{k}", "ask", "10.00", 10, "17:31:00") for k in range(3, 89)]
    rows.append(dict(event="uncross", auction="closing", price="10.00", quantity=860, surplus=0,
                     side="none", trades=86, time="17:35:00"))
    rows += [traded("B2", f"S{k}", 10, "10.00", "17:35:00") for k in range(3, 89)]
    return rows


def verdict_of(rows: Rows, **options: Any) -> Verdict:
    """The verdict on a small day."""
    given: dict[str, Any] = dict(reference="10.00", tick_size="0.01")
    return audit_events(frame_of(rows), **given | options)


ADLER_AND_BIRK = pandas.DataFrame(
    [
        dict(time="8:50:01", event="new", order="A17", member="Adler", side="buy", price="20.02",
             quantity=200),
        dict(time="8:50:09", event="new", order="B4", member="Birk", side="sell", quantity=300),
        dict(time="8:51:30", event="replace", order="A17", member="Adler", price="20.02",
             quantity=150, kept=True),
        dict(time="8:52:00", event="new", order="B5", member="Birk", side="buy", price="20.01",
             quantity=50),
        dict(time="8:53:10", event="cancel", order="B5", member="Birk"),
        dict(time="9:00:00", event="uncross", price="20.02", quantity=150, surplus=150, side="ask"),
        dict(time="9:00:00", event="trade", bid="A17", ask="B4", quantity=150, price="20.02"),
    ]
)
"""The record of another system in docs/AUDIT.md."""

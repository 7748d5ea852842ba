"""Damage to recorded days, as a desk's extracts have it: each changes what is recorded of a lawful
day, so that what was published may seem unlawful.
"""
import random
from collections.abc import Callable
from typing import Any

from extracts import AUCTIONS, Extract, Recorder, Rows, price_of

ORDERS = ("new", "replace", "cancel")
UNREADABLE = "###"
"""A cell as a spreadsheet writes it where its column is too narrow."""
Damage = Callable[[random.Random, Rows], int | None]
"""Damages rows; answers the place of the first that is touched, None where there is none to touch.
"""


class Clock(Recorder):
    """A day of the model in which no two rows of orders have one time."""

    def add(self, event: str, **cells: object) -> None:
        self.seconds += 1
        super().add(event, **cells)


def timed_day(seed: int, most: int = 12) -> Extract:
    """A whole day with a time of its own for each row of an order."""
    chance = random.Random(seed)
    recorder = Clock(chance)
    steps: list[Callable[[], None]] = [recorder.enter] * 6 + [recorder.replace, recorder.cancel]
    while recorder.day.kind():
        for _ in range(chance.randint(2, most)):
            chance.choice(steps)()
        recorder.uncross()
    span = None if recorder.range is None else price_of(recorder.range)
    return Extract(recorder.rows, price_of(recorder.reference), span, recorder.lawful)


def places(rows: Rows, *events: str) -> list[int]:
    """The places of the rows of these events."""
    return [place for place, row in enumerate(rows) if row["event"] in events]


def some(chance: random.Random, those: list[int]) -> int | None:
    return chance.choice(those) if those else None


# ---- rows that can't be read, or aren't there


def unread_order(chance: random.Random, rows: Rows) -> int | None:
    """A row of an order has a cell that can't be read."""
    place = some(chance, places(rows, *ORDERS))
    if place is not None:
        column = {"new": chance.choice(["side", "quantity", "price"]), "cancel": "order"}
        rows[place][column.get(rows[place]["event"], "quantity")] = chance.choice(["1e3", "?"])
        if rows[place]["event"] == "cancel":
            rows[place]["order"] = ""
    return place


def unread_below(chance: random.Random, rows: Rows) -> int | None:
    """A row of an order that can't be read is below a result, and by its time above it."""
    ends = places(rows, "uncross")
    those = [at for at in places(rows, *ORDERS) if any(at < end for end in ends)]
    place = some(chance, those)
    if place is None:
        return None
    row = rows.pop(place)
    if row["event"] == "cancel":
        row["event"] = "cancl"
    else:
        row[chance.choice(["side", "price"] if row["event"] == "new" else ["quantity"])] = "#N/A%"
    above = next(end for end in ends if end > place) - 1
    rows.insert(chance.randint(above + 1, len(rows)), row)
    return place


def missing_entry(chance: random.Random, rows: Rows) -> int | None:
    """The entry of an order is missing; what came of it is there."""
    place = some(chance, places(rows, "new"))
    named = place is not None and any(
        rows[place]["order"] in (row.get("bid"), row.get("ask"), row.get("order"))
        for row in rows[place + 1 :]
    )
    if place is None or not named:
        return None
    del rows[place]
    return place


def missing_head(chance: random.Random, rows: Rows) -> int | None:
    """The first rows are missing, up to an order of which other rows are there."""
    for count in range(1, 6):
        gone = {row["order"] for row in rows[:count] if row["event"] == "new"}
        left = {row.get(name) for row in rows[count:] for name in ("order", "bid", "ask")}
        if gone and gone <= left and all(row["event"] in ORDERS for row in rows[:count]):
            del rows[:count]
            return 0
    return None


def stray_cancel(chance: random.Random, rows: Rows) -> int | None:
    """A cancel names an order that nobody knows."""
    place = chance.randrange(len(rows))
    rows.insert(place, dict(event="cancel", order="ZZZ", time=rows[place]["time"]))
    return place


def unread_trade(chance: random.Random, rows: Rows) -> int | None:
    """A row of a trade can't be read."""
    place = some(chance, places(rows, "trade"))
    if place is not None:
        rows[place][chance.choice(["quantity", "price", "auction"])] = UNREADABLE
    return place


def unread_result(chance: random.Random, rows: Rows) -> int | None:
    """A cell of a row uncross can't be read."""
    place = some(chance, places(rows, "uncross"))
    if place is not None:
        rows[place][chance.choice(["price", "quantity", "surplus", "side", "trades"])] = UNREADABLE
    return place


def missing_uncross(chance: random.Random, rows: Rows) -> int | None:
    """A row uncross is missing, with its trades or without."""
    ended = [at for at in places(rows, "uncross") if rows[at].get("auction") in AUCTIONS]
    place = some(chance, ended)
    if place is None:
        return None
    time = rows[place]["time"]
    has_trades = chance.random() < 0.5
    rows[:] = [
        row for at, row in enumerate(rows)
        if at != place and not (has_trades and row["event"] == "trade" and row["time"] == time)
    ]  # fmt: skip
    return place


def missing_rows(chance: random.Random, rows: Rows) -> int | None:
    """Rows have sequences, and some of one place, or of several, are missing, so that their numbers
    are.
    """
    for place, row in enumerate(rows):
        row["sequence"] = str(1000 + place)
    many = min(chance.choice([1, 1, 2, 5]), len(rows) - 3)
    begin = chance.randint(1, len(rows) - many - 1)
    those: list[int] = [*range(begin, begin + many)]
    if chance.random() < 0.5:
        those = sorted(chance.sample(range(1, len(rows) - 1), many))
    rows[:] = [row for at, row in enumerate(rows) if at not in those]
    return those[0]


def unread_time(chance: random.Random, rows: Rows) -> int | None:
    """The time of a row of an order, or of all rows, can't be read."""
    place = some(chance, places(rows, *ORDERS))
    if chance.random() < 0.2:
        for row in rows:
            row["time"] = f"Nov 25 {row['time']}"
        return 0
    if place is not None:
        rows[place]["time"] = chance.choice(["?", "25:61"])
    return place


# ---- the order of rows


def ties(chance: random.Random, rows: Rows) -> int | None:
    """Times have ten seconds, and rows of one time come in any order."""
    for row in rows:
        row["time"] = row["time"][:-1] + "0"
    first = None
    for place in range(len(rows) - 1):
        one, other = rows[place : place + 2]
        is_free = {one["event"], other["event"]} <= {*ORDERS} and one["time"] == other["time"]
        if is_free and one["order"] != other["order"] and chance.random() < 0.5:
            rows[place : place + 2] = [other, one]
            first = place if first is None else first
    return first


def ties_of_an_order(chance: random.Random, rows: Rows) -> int | None:
    """Two replaces of an order have one time, and came in the other order; no other row of the
    order is between them.
    """
    for place in places(rows, "replace"):
        order = rows[place]["order"]
        later = [
            at for at in places(rows, "replace")
            if at > place and rows[at]["order"] == order
            and all(row["event"] in ORDERS for row in rows[place:at])
            and all(row["order"] != order for row in rows[place + 1 : at])
        ]  # fmt: skip
        if later:
            row = rows.pop(later[0])
            row["time"] = rows[place]["time"]
            rows.insert(place, row)
            return place
    return None


def at_the_uncross(chance: random.Random, rows: Rows) -> int | None:
    """Rows of the uncross's time are behind it, though they came before it."""
    place = some(chance, places(rows, "uncross"))
    if not place or rows[place - 1]["event"] not in ORDERS:
        return None
    row = rows.pop(place - 1)
    row["time"] = rows[place - 1]["time"]
    rows.insert(place, row)
    return place - 1


def times_fall(chance: random.Random, rows: Rows) -> int | None:
    """Two rows of a call phase are in another order than their times, which are right."""
    those = [
        place for place in places(rows, *ORDERS)[:-1]
        if rows[place + 1]["event"] in ORDERS and rows[place]["order"] != rows[place + 1]["order"]
    ]  # fmt: skip
    place = some(chance, those)
    if place is not None:
        rows[place : place + 2] = rows[place : place + 2][::-1]
    return place


# ---- rows that are there twice


def sent_again(chance: random.Random, rows: Rows) -> int | None:
    """Rows were sent again."""
    those = chance.sample(range(len(rows)), min(4, len(rows)))
    found = [place for place in those if rows[place]["event"] in ("new", "replace", "uncross")]
    for place in sorted(found, reverse=True):
        rows.insert(place + 1, dict(rows[place]))
    return min(found, default=None)


def sent_again_with_sequences(chance: random.Random, rows: Rows) -> int | None:
    """Rows of any event were sent again, with their sequences."""
    for place, row in enumerate(rows):
        row["sequence"] = str(place)
    place = chance.randrange(len(rows))
    rows.insert(place + 1, dict(rows[place]))
    return place


def trades_of_both_sides(chance: random.Random, rows: Rows) -> int | None:
    """Each trade has a row for each side."""
    those = places(rows, "trade")
    if sum(rows[at]["quantity"].isdigit() for at in those) < 2:
        return None
    made = ("trade", "bust")
    rows[:] = [row for it in rows for row in ([it, dict(it)] if it["event"] in made else [it])]
    return those[0]


def copied_trade(chance: random.Random, rows: Rows) -> int | None:
    """A trade, or a cancel of some shares, is once more somewhere below it."""
    those = [at for at, row in enumerate(rows[:-2]) if row["event"] == "trade"
             or row["event"] == "cancel" and "quantity" in row]  # fmt: skip
    place = some(chance, those)
    if place is not None:
        rows.insert(chance.randint(place + 2, len(rows)), dict(rows[place]))
    return place


def copied_at_once(chance: random.Random, rows: Rows) -> int | None:
    """A trade is once more right below it."""
    place = some(chance, places(rows, "trade"))
    if place is not None:
        rows.insert(place + 1, dict(rows[place]))
    return place


def corrected_result(chance: random.Random, rows: Rows) -> int | None:
    """A result has another price, and the right one is below it, at once or later; its name is that
    of its auction, or no result has one.
    """
    ends = [at for at in places(rows, "uncross") if rows[at].get("trades", "0") != "0"]
    ends = [at for at in ends if rows[at].get("price", "n/a") not in ("n/a", UNREADABLE)]
    place = some(chance, ends)
    if place is None or any(row.get("auction") == "interrupted" for row in rows):
        return None
    right = dict(rows[place])
    rows[place]["price"] = f"{float(right['price']) + 0.02:.2f}"
    later = [at for at in places(rows, "uncross") if at > place]
    rows.insert(later[0] if later and chance.random() < 0.5 else place + 1, right)
    if chance.random() < 0.5:
        for row in rows:
            row.pop("auction", None)
    return 0 if "auction" not in right else place


def busted(chance: random.Random, rows: Rows) -> int | None:
    """A trade was made by mistake, and a bust took it out."""
    place = some(chance, places(rows, "trade"))
    if place is not None:
        wrong = {**rows[place], "bid": rows[place]["ask"], "ask": rows[place]["bid"]}
        at = chance.randint(place + 1, len(rows))
        rows.insert(at, {**wrong, "event": "bust"})
        rows.insert(place + 1, wrong)
    return place


def unread_bust(chance: random.Random, rows: Rows) -> int | None:
    """A trade was made by mistake, and the bust of it can't be read, or has other shares."""
    place = some(chance, places(rows, "trade"))
    if place is not None:
        wrong = {**rows[place], "bid": rows[place]["ask"], "ask": rows[place]["bid"]}
        bust = {**wrong, "event": "bust", "quantity": chance.choice([UNREADABLE, "987654"])}
        rows.insert(chance.randint(place + 1, len(rows)), bust)
        rows.insert(place + 1, wrong)
    return place


# ---- what is written in two ways


def spelled_otherwise(chance: random.Random, rows: Rows) -> int | None:
    """Trades have the ids of orders in small letters, or with a zero in front."""
    those = places(rows, "trade", "bust")
    change: Callable[[str], str] = chance.choice([str.lower, lambda text: f"0{text}"])
    for place in those:
        rows[place] |= {name: change(rows[place][name]) for name in ("bid", "ask")}
    return min(those, default=None)


def order_spelled_otherwise(chance: random.Random, rows: Rows) -> int | None:
    """A replace or a cancel has its order's id in small letters, or with zeros."""
    place = some(chance, places(rows, "replace", "cancel"))
    if place is not None:
        order = str(rows[place]["order"])
        others = [order.lower(), f"0{order}", f"{order[:1]}0{order[1:]}"]
        rows[place]["order"] = chance.choice([it for it in others if it != order])
    return place


def words_for_none(chance: random.Random, rows: Rows) -> int | None:
    """Cells of orders that may be empty have a word for that, and members of trades too."""
    word, known = chance.choice(["NULL", "N/A", "NaN", "-", "--"]), dict[str, bool]()
    for row in rows:
        if row["event"] in ORDERS:
            names = ("price", "peak", "restriction", "member")
            row |= {name: word for name in names if not row.get(name)}
        elif row["event"] == "trade" and known.setdefault(row["bid"], chance.random() < 0.9):
            row |= {"bid_member": word, "ask_member": word}
    return min(places(rows, "trade"), default=None)


def noisy_prices(chance: random.Random, rows: Rows) -> int | None:
    """Prices have the noise of binary numbers."""
    noisy = dict[str, str]()
    for row in rows:
        if row.get("price", "n/a").replace(".", "").isdigit():
            factor = 1 + chance.choice([-1, 0, 1, 2]) * 2**-52
            row["price"] = noisy.setdefault(row["price"], repr(float(row["price"]) * factor))
    return 0


def in_cents(chance: random.Random, rows: Rows) -> int | None:
    """The prices of some rows are in cents, those of others in euros."""
    events = chance.choice([("new", "replace"), ("uncross",), ("trade",)])
    priced = [at for at in places(rows, *events) if rows[at].get("price", "n/a") != "n/a"]
    priced = [at for at in priced if rows[at]["price"] not in ("?", "1e3", UNREADABLE)]
    for place in priced:
        rows[place]["price"] = f"{float(rows[place]['price']) * 100:g}"
    return min(priced, default=None)


def wrong_member(chance: random.Random, rows: Rows) -> int | None:
    """The entry of an order has another member, or a name that nobody has; all else is right."""
    place = some(chance, places(rows, "new"))
    if place is not None:
        names = {row["member"] for row in rows if row.get("member")}
        others = [*sorted(names - {rows[place].get("member")}), "M77", "Q", UNREADABLE]
        rows[place]["member"] = chance.choice(others)
    return place


# ---- what is no law


def paired_otherwise(chance: random.Random, rows: Rows) -> int | None:
    """The same shares of each order, but bids trade with asks from the other end."""
    first = None
    for auction in AUCTIONS:
        those = [at for at in places(rows, "trade") if rows[at].get("auction") == auction]
        made = [rows[at] for at in those]
        is_whole = len(those) > 1 and those[-1] - those[0] == len(those) - 1
        if not is_whole or not all(row["quantity"].isdigit() for row in made):
            continue
        first = those[0] if first is None else first
        asks = [[row["ask"], int(row["quantity"]), row["ask_member"]] for row in made][::-1]
        rows[those[0] : those[-1] + 1] = _laid(made, asks)
        for row in rows:
            if row["event"] == "uncross" and row.get("auction") == auction:
                count = sum(it["event"] == "trade" and it.get("auction") == auction for it in rows)
                row["trades"] = str(count)
    return first


def _laid(made: Rows, asks: list[list[Any]]) -> Rows:
    """The trades of the same bids with these asks."""
    found: Rows = []
    for row in made:
        left = int(row["quantity"])
        while left:
            shares = min(left, asks[0][1])
            pair = dict(ask=asks[0][0], ask_member=asks[0][2], quantity=str(shares))
            found.append({**row, **pair})
            left -= shares
            asks[0][1] -= shares
            if not asks[0][1]:
                asks.pop(0)
    return found


def peaks_of_all(chance: random.Random, rows: Rows) -> int | None:
    """Each order has a peak: 0, its whole quantity, or more."""
    for place in places(rows, "new"):
        rows[place]["peak"] = chance.choice(["0", rows[place]["quantity"], "99999"])
    return 0


def unchanged_prices(chance: random.Random, rows: Rows) -> int | None:
    """Replaces have no price where it is the one of before."""
    prices: dict[str, str | None] = {}
    first = None
    for place, row in enumerate(rows):
        if row["event"] in ("new", "replace"):
            if row["event"] == "replace" and row.get("price") == prices.get(row["order"], ""):
                first = place if first is None and "price" in row else first
                row.pop("price", None)
            else:
                prices[row["order"]] = row.get("price")
    return first


def trades_between(chance: random.Random, rows: Rows) -> int | None:
    """Two orders of a call phase trade at once, as in continuous trading."""
    ends = places(rows, "uncross")
    those = [at for at in places(rows, *ORDERS)[:-1]
             if ends[0] < at < ends[-1] and rows[at + 1]["event"] in ORDERS]  # fmt: skip
    place = some(chance, those)
    if place is not None:
        time = rows[place]["time"]
        pair = (("X", "bid", "10.30"), ("Y", "ask", "9.80"))
        made: Rows = [
            dict(event="new", order=order, side=side, quantity="5000", price=price, time=time)
            for order, side, price in pair
        ]
        word = chance.choice(["", "continuous"])
        made.append(dict(event="trade", bid="X", ask="Y", quantity="5000", price="10.30",
                         time=time, auction=word))  # fmt: skip
        rows[place + 1 : place + 1] = made
    return place


def beyond_the_program(chance: random.Random, rows: Rows) -> int | None:
    """An order has more shares than the program takes, at a limit at which it isn't executed."""
    place = some(chance, places(rows, *ORDERS))
    if place is not None:
        side, price = chance.choice([("bid", "9.00"), ("ask", "11.00")])
        rows.insert(place, dict(event="new", order="HUGE", side=side, quantity="2500000000",
                                price=price, time=rows[place]["time"]))  # fmt: skip
    return place


def interruptions_without_names(chance: random.Random, rows: Rows) -> int | None:
    """No row says of which auction it is, or that it was interrupted."""
    for row in rows:
        row.pop("auction", None)
    return 0


DAMAGES: dict[str, Damage] = {
    "missing rows": missing_rows,
    "missing uncross": missing_uncross,
    "unread order": unread_order,
    "missing entry": missing_entry,
    "missing head": missing_head,
    "stray cancel": stray_cancel,
    "unread trade": unread_trade,
    "unread result": unread_result,
    "ties": ties,
    "ties of an order": ties_of_an_order,
    "at the uncross": at_the_uncross,
    "times fall": times_fall,
    "sent again": sent_again,
    "sent again with sequences": sent_again_with_sequences,
    "paired otherwise": paired_otherwise,
    "copied trade": copied_trade,
    "copied at once": copied_at_once,
    "corrected result": corrected_result,
    "busted": busted,
    "unread bust": unread_bust,
    "trades between": trades_between,
    "trades of both sides": trades_of_both_sides,
    "beyond the program": beyond_the_program,
    "no names": interruptions_without_names,
    "peaks of all": peaks_of_all,
    "unchanged prices": unchanged_prices,
    "spelled otherwise": spelled_otherwise,
    "order spelled otherwise": order_spelled_otherwise,
    "wrong member": wrong_member,
    "unread time": unread_time,
    "in cents": in_cents,
    "noisy prices": noisy_prices,
    "words for none": words_for_none,
}
"""By their names, in the order in which several are done to one day: what takes rows out is first,
so that a missing order stays named.
"""

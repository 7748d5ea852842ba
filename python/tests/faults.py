"""Faults that are planted into a lawful extract: each is one finding, of an item and in a row."""
import random
from collections.abc import Callable
from typing import Any

from extracts import AUCTIONS, Extract, Outcome, price_of

Planted = tuple[str, int]
"""The item of the finding and the place of its row."""
Fault = Callable[[random.Random, Extract], Planted | None]
"""Plants a fault; None where the extract has no place for it."""


def _uncross(
    chance: random.Random, extract: Extract, fits: Callable[[Outcome], bool]
) -> tuple[int, dict[str, Any], Outcome] | None:
    """The place, the row and the outcome of some uncross that fits."""
    places = extract.places("uncross")
    those = [
        (place, extract.rows[place], outcome)
        for place, outcome in zip(places, extract.lawful)
        if fits(outcome)
    ]
    return chance.choice(those) if those else None


def _has_price(outcome: Outcome) -> bool:
    return outcome.tick is not None


def _trade(chance: random.Random, extract: Extract) -> tuple[int, dict[str, Any]] | None:
    places = extract.places("trade")
    place = chance.choice(places) if places else None
    return None if place is None else (place, extract.rows[place])


def wrong_price(chance: random.Random, extract: Extract) -> Planted | None:
    found = _uncross(chance, extract, _has_price)
    if found is None or found[2].tick is None:
        return None
    other = found[2].tick + chance.choice([-7, -1, 1, 234])
    found[1]["price"] = price_of(other)
    return "price", found[0]


def no_price_published(chance: random.Random, extract: Extract) -> Planted | None:
    found = _uncross(chance, extract, _has_price)
    if found is None:
        return None
    for name in ("price", "surplus", "side", "trades"):
        found[1].pop(name, None)
    found[1]["quantity"] = "0"
    return "price", found[0]


def price_of_nothing(chance: random.Random, extract: Extract) -> Planted | None:
    found = _uncross(chance, extract, lambda outcome: outcome.tick is None)
    if found is None or not extract.places("new"):
        return None  # without any order all books may be in doubt
    found[1].update(price="10.01", quantity="300", surplus="20", side="bid", trades="2")
    return "price", found[0]


def _number(item: str, column: str) -> Fault:
    def plant(chance: random.Random, extract: Extract) -> Planted | None:
        found = _uncross(chance, extract, _has_price)
        if found is None or column not in found[1]:
            return None
        found[1][column] = str(int(found[1][column]) + chance.choice([1, 10, 5000]))
        return item, found[0]

    return plant


def wrong_side(chance: random.Random, extract: Extract) -> Planted | None:
    found = _uncross(chance, extract, _has_price)
    if found is None:
        return None
    others = [side for side in ("bid", "ask", "none") if side != found[1]["side"]]
    found[1]["side"] = chance.choice(others)
    return "side", found[0]


def wrong_auction(chance: random.Random, extract: Extract) -> Planted | None:
    found = _uncross(chance, extract, lambda outcome: not outcome.is_interrupted)
    if found is None:
        return None
    others = [auction for auction in AUCTIONS if auction != found[1]["auction"]]
    found[1]["auction"] = chance.choice(others)
    return "auction", found[0]


def wrong_interruption(chance: random.Random, extract: Extract) -> Planted | None:
    found = _uncross(chance, extract, lambda outcome: True)
    if found is None:
        return None
    place, row, outcome = found
    if outcome.is_interrupted:
        following = extract.places("uncross")[extract.places("uncross").index(place) + 1]
        row["auction"] = extract.rows[following]["auction"]
    else:
        row["auction"] = "interrupted"
    return "auction", place


def late_uncross(chance: random.Random, extract: Extract) -> Planted | None:
    extract.rows.append(dict(event="uncross", time="23:00:00", auction="closing"))
    return "auction", len(extract.rows) - 1


def trade_missing(chance: random.Random, extract: Extract) -> Planted | None:
    found = _trade(chance, extract)
    if found is None or len(extract.places("trade")) == 1:
        return None
    del extract.rows[found[0]]
    above = [place for place in extract.places("uncross") if place < found[0]]
    return "trade", above[-1]


def trade_again(chance: random.Random, extract: Extract) -> Planted | None:
    """A second one of other shares; one of the same may be a copy."""
    found = _trade(chance, extract)
    if found is None:
        return None
    quantity = str(int(found[1]["quantity"]) + 1)
    extract.rows.insert(found[0], dict(found[1], quantity=quantity))
    return "trade", found[0]


def trade_of_nobody(chance: random.Random, extract: Extract) -> Planted | None:
    found = _trade(chance, extract)
    if found is None:
        return None
    row = dict(found[1], bid="X1", ask="X2")
    extract.rows.insert(found[0] + 1, row)
    return "trade", found[0] + 1


def _cell(column: str, change: Callable[[str], str]) -> Fault:
    def plant(chance: random.Random, extract: Extract) -> Planted | None:
        found = _trade(chance, extract)
        if found is None:
            return None
        found[1][column] = change(found[1][column])
        return "trade", found[0]

    return plant


def trade_of_another_auction(chance: random.Random, extract: Extract) -> Planted | None:
    found = _trade(chance, extract)
    if found is None:
        return None
    row, places = found[1], extract.places("uncross")
    done = [place for place in places if extract.rows[place]["auction"] != "interrupted"]
    others = [place for place in done if extract.rows[place]["auction"] != row["auction"]]
    place = chance.choice(others)
    row["auction"], row["time"] = extract.rows[place]["auction"], extract.rows[place]["time"]
    return "trade", found[0]


def wrong_place_kept(chance: random.Random, extract: Extract) -> Planted | None:
    found = [extract.rows[place] for place in extract.places("replace")]
    marks = [(row["order"], row["time"]) for row in found]
    alone = [row for row, mark in zip(found, marks) if marks.count(mark) == 1]
    if not alone:
        return None  # of two replaces of an order at one time either may be the first
    row = chance.choice(alone)
    row["kept"] = "false" if row["kept"] == "true" else "true"
    return "priority", extract.rows.index(row)


def uncross_before_its_orders(chance: random.Random, extract: Extract) -> Planted | None:
    places = extract.places("uncross")
    for number in chance.sample(range(len(places)), len(places)):
        place, outcome = places[number], extract.lawful[number]
        begin = places[number - 1] + 1 if number else 0
        own = [
            at
            for at in range(begin, place)
            if extract.rows[at]["event"] == "new" and _trades_of(extract, extract.rows[at], place)
        ]
        if outcome.trades and own and not outcome.is_interrupted:
            first = own[0]
            above = extract.rows[first - 1].get("time", "") if first else "00:00:00"
            is_timed = extract.rows[place].get("time", "") > extract.rows[first].get("time", "")
            if not _are_entries(extract.rows[first:place]):
                continue
            if is_timed and above == extract.rows[first]["time"]:
                continue
            row = extract.rows.pop(place)
            if is_timed:
                row["time"] = f"{above}.5"  # the engine's, so that rows are in their order of time
            extract.rows.insert(first, row)
            return "auction", first
    return None


def _are_entries(rows: list[dict[str, Any]]) -> bool:
    """Whether these enter orders, and no more: what changes or deletes one, or is for one auction
    alone, says another thing after an uncross that came too early, which is a finding of its own.
    """
    return all(row["event"] == "new" and not row.get("restriction") for row in rows)


def _trades_of(extract: Extract, row: dict[str, Any], uncross: int) -> bool:
    """Whether an order trades right after an uncross."""
    auction = extract.rows[uncross]["auction"]
    return any(
        row["order"] in (each["bid"], each["ask"])
        for each in extract.rows
        if each["event"] == "trade" and each["auction"] == auction
    )


FAULTS: dict[str, Fault] = {
    "wrong price": wrong_price,
    "no price published": no_price_published,
    "price of nothing": price_of_nothing,
    "wrong volume": _number("volume", "quantity"),
    "wrong surplus": _number("surplus", "surplus"),
    "wrong side": wrong_side,
    "wrong auction": wrong_auction,
    "wrong interruption": wrong_interruption,
    "wrong count": _number("count", "trades"),
    "uncross behind the end": late_uncross,
    "uncross before its orders": uncross_before_its_orders,
    "trade missing": trade_missing,
    "trade again": trade_again,
    "trade of nobody": trade_of_nobody,
    "trade of too much": _cell("quantity", lambda text: str(int(text) + 3)),
    "trade at another price": _cell("price", lambda text: price_of(int(text.replace(".", "")) + 1)),
    "trade of an unknown bid": _cell("bid", lambda text: f"{text}x"),
    "trade of an unknown ask": _cell("ask", lambda text: f"{text}x"),
    "trade of another bidder": _cell("bid_member", lambda text: f"{text}x"),
    "trade of another asker": _cell("ask_member", lambda text: f"{text}x"),
    "trade of another auction": trade_of_another_auction,
    "wrong place kept": wrong_place_kept,
}

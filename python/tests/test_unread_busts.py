"""Trades that are wrong beside rows that may take them out or correct them and can't be read: each
such row explains one trade, and no more.
"""
import collections
import random

import pytest
from callauction.verdict import Verdict
from damage import DAMAGES, UNREADABLE, places, timed_day
from extracts import Extract, Rows
from judging import judged
from planted import DAYS, SEEDS

CELLS = ("price", "quantity", "bid", "bid_member")
"""What a trade may have wrong."""


def wrong(chance: random.Random, row: dict[str, str], orders: list[str]) -> dict[str, str]:
    """A trade with another cell."""
    cell = chance.choice(CELLS)
    if cell == "price":
        return {**row, cell: f"{float(row['price']) + chance.choice([-0.02, 0.01, 0.03]):.2f}"}
    if cell == "quantity":
        return {**row, cell: str(int(row["quantity"]) + chance.choice([1, 50, 900]))}
    if cell == "bid":
        return {**row, cell: chance.choice([it for it in orders if it != row["bid"]] or ["Z"])}
    return {**row, cell: f"{row['bid_member']}9"}


def some_wrong(seed: int, many: int) -> tuple[Extract, Rows] | None:
    """A day of which so many trades of one auction are wrong, and the right ones."""
    extract, chance = timed_day(seed), random.Random(seed)
    orders = [extract.rows[at]["order"] for at in places(extract.rows, "new")]
    for auction in ("opening", "intraday", "closing"):
        those = [at for at in places(extract.rows, "trade")
                 if extract.rows[at]["auction"] == auction]  # fmt: skip
        if len(those) >= many + 1:
            picked = chance.sample(those, many)
            right = [dict(extract.rows[at]) for at in picked]
            for at in picked:
                extract.rows[at] = wrong(chance, extract.rows[at], orders)
            return extract, right
    return None


def corrected(extract: Extract, chance: random.Random, right: dict[str, str]) -> None:
    """Puts a correction of a trade below it, whose event no audit knows."""
    own = [at for at, row in enumerate(extract.rows)
           if row["event"] == "trade" and row["auction"] == right["auction"]]  # fmt: skip
    row = {**right, "event": chance.choice(["CORRECT", "Trade correction", "TC"])}
    row["time"] = f"{right['time'][:-2]}59"
    if chance.random() < 0.3:
        row["bid"] = row["ask"] = "?"
    extract.rows.insert(chance.randint(own[-1] + 1, len(extract.rows)), row)


@pytest.mark.parametrize("many", [1, 2])
def test_trades_that_unread_rows_may_correct_condemn_no_day(many: int) -> None:
    count = 0
    for seed in range(DAYS // 2):
        found = some_wrong(seed, many)
        if found is None or count == DAYS // 12:
            continue
        count += 1
        for right in found[1]:
            corrected(found[0], random.Random(seed), right)
        verdict = judged(found[0])
        assert verdict.word == "incomplete", f"{seed}\n{verdict}"
    assert count > DAYS // 24


def opening(*rows: dict[str, str]) -> Verdict:
    """The verdict on an opening of three trades at 10.00, with these rows in place of or below its
    trades.
    """
    cells = dict(price="10.00", quantity="10", time="08:00:00")
    day: Rows = [
        dict(event="new", order=f"{side[0].upper()}{number}", side=side, **cells)
        for number in range(3) for side in ("bid", "ask")
    ]  # fmt: skip
    made = dict(cells, time="09:00:00", auction="opening")
    trades = [dict(made, event="trade", bid=f"B{it}", ask=f"A{it}") for it in range(3)]
    for row in rows:
        place = next((at for at, it in enumerate(trades) if it["bid"] == row["bid"]), None)
        is_trade = row.get("event", "trade") == "trade" and place is not None
        trades[place if is_trade else len(trades) :][:1] = []
        if is_trade and place is not None:
            trades[place] |= row
        else:
            trades.append({**made, "time": "09:00:01", **row})
    day.append(dict(made, event="uncross", quantity="30", surplus="0", side="none", trades="3"))
    return judged(Extract([*day, *trades], "10.00", None, []), auctions=["opening"])


OTHER = {"price": "10.01"}


@pytest.mark.parametrize("event, why", [
    ("CORRECT", "event 'CORRECT' is none of"), ("bust", "quantity '###' is no whole number"),
])  # fmt: skip
def test_a_trade_at_another_price_may_be_taken_out(event: str, why: str) -> None:
    row = {"event": event, "bid": "B1", "ask": "A1", "quantity": UNREADABLE}
    verdict = opening({"bid": "B1", **OTHER}, row)
    assert verdict.word == "incomplete", str(verdict)
    assert f"a row that isn't read may take it out: row 10: {why}" in str(verdict)


@pytest.mark.parametrize("event", ["CORRECT", "bust"])
def test_one_row_takes_no_two_trades_out(event: str) -> None:
    row = {"event": event, "bid": "B1", "ask": "A2", "quantity": UNREADABLE}
    both = {"bid": "B1", **OTHER}, {"bid": "B2", "price": "10.02"}
    assert opening(*both, row).word == "unlawful", str(opening(*both, row))
    assert opening(*both, row, row).word == "incomplete", str(opening(*both, row, row))
    assert opening(both[0], row).word == "incomplete"


def test_a_row_of_another_trade_takes_none_out() -> None:
    row = {"event": "CORRECT", "bid": "B2", "ask": "A2"}
    assert opening({"bid": "B1", **OTHER}, row).word == "unlawful"


def test_a_bust_makes_no_other_trade() -> None:
    """B1 trades with A2 where it should with A1, of which a correction may say the right one."""
    for event, word in (("CORRECT", "incomplete"), ("bust", "unlawful")):
        row = {"event": event, "bid": "B1", "ask": "A2", "quantity": UNREADABLE}
        verdict = opening({"bid": "B1", "ask": "A2", "quantity": "9"}, row)
        assert verdict.word == word, f"{event}\n{verdict}"


def test_a_fault_before_such_a_row_is_certain() -> None:
    count = 0
    for seed in SEEDS:
        found = some_wrong(seed, 2)
        if found is not None and count < 6:
            count += 1
            corrected(found[0], random.Random(seed), found[1][0])
            result = next(row for row in found[0].rows if row.get("trades", "0") not in ("0", ""))
            result["surplus"] = str(int(result["surplus"]) + 1)
            assert judged(found[0]).word == "unlawful", f"{seed}\n{judged(found[0])}"
    assert count > 3


# ---- an auction's trades at two prices


def at_two_prices(seed: int) -> tuple[Extract, dict[str, str]] | None:
    """A day with a trade at another price than two others of its auction, and that trade."""
    extract, chance = timed_day(seed, 20), random.Random(seed)
    made = [extract.rows[at] for at in places(extract.rows, "trade")]
    counts = collections.Counter(row["auction"] for row in made)
    those = [row for row in made if counts[row["auction"]] > 2]
    if not those:
        return None
    row = chance.choice(those)
    row["price"] = f"{float(row['price']) + chance.choice([-0.02, 0.01, 0.03]):.2f}"
    return extract, row


def are_two(extract: Extract, odd: dict[str, str]) -> bool:
    """Whether a trade is still there beside another one of its auction that is read."""
    own = [row for row in extract.rows if row["event"] == "trade" and row is not odd
           and row.get("auction") == odd["auction"] and row["price"] != odd["price"]
           and UNREADABLE not in row.values()]  # fmt: skip
    return bool(own) and any(row is odd for row in extract.rows) and UNREADABLE not in odd.values()


@pytest.mark.parametrize("name", [
    "unread order", "unread trade", "unread result", "missing entry", "missing head",
    "missing rows", "missing uncross", "stray cancel", "unread time", "wrong member",
])  # fmt: skip
def test_trades_at_two_prices_are_certain_whatever_is_not_read(name: str) -> None:
    count = 0
    for seed in SEEDS[:15]:
        found = at_two_prices(seed)
        if found is None or DAMAGES[name](random.Random(seed), found[0].rows) is None:
            continue
        if are_two(*found):
            count += 1
            verdict = judged(found[0])
            assert verdict.word == "unlawful", f"{seed}\n{verdict}"
            places_of = [at for at, row in enumerate(found[0].rows) if row is found[1]]
            assert any({*places_of} & {*it.rows} for it in verdict.findings), f"{seed}\n{verdict}"
    assert count > 3


@pytest.mark.parametrize("named", [("bid", "ask"), ("bid",), ("ask",), ()])
@pytest.mark.parametrize("is_own", [True, False])
def test_an_unread_bust_excuses_a_trade_at_another_price_that_it_may_be_of(
    named: tuple[str, ...], is_own: bool
) -> None:
    """One that names its orders, or one of them, or none; of other orders it excuses nothing."""
    count = 0
    for seed in SEEDS[:15]:
        found = at_two_prices(seed)
        if found is None:
            continue
        extract, odd = found
        others = [extract.rows[at] for at in places(extract.rows, "trade")
                  if {odd["bid"], odd["ask"]}.isdisjoint(
                      {extract.rows[at]["bid"], extract.rows[at]["ask"]})]  # fmt: skip
        if not others:
            continue
        count += 1
        one = odd if is_own else others[0]
        bust = {**one, "event": "bust", "quantity": UNREADABLE, "time": odd["time"]}
        bust |= {side: "?" for side in ("bid", "ask") if side not in named}
        extract.rows.insert(extract.rows.index(odd) + 1, bust)
        word = "incomplete" if is_own or not named else "unlawful"
        assert judged(extract).word == word, f"{seed}\n{judged(extract)}"
    assert count > 3

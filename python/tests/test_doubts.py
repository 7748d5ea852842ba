"""What is certain and what is in doubt, on random days that are damaged: a lawful one is never
unlawful, and a fault before the damage is always found (docs/AUDIT.md, "What leaves a doubt").
"""
import collections
import itertools
import random

import pytest
from callauction.verdict import ExtractError, Verdict, day_end, moments
from callauction.verdict.phases import BeyondError
from damage import DAMAGES, ORDERS, places, stray_cancel, ties, timed_day, trades_of_both_sides
from extracts import Extract, random_day
from faults import FAULTS
from judging import judged
from planted import DAYS, SEEDS, planted

NEVER_LAWFUL = ("unread order", "missing entry", "missing head", "stray cancel", "unread trade",
                "unread result", "missing uncross")  # fmt: skip
NEVER_IN_DOUBT = ("sent again", "sent again with sequences", "busted", "peaks of all")
OF_THE_DAY = ("missing head", "missing entry", "stray cancel", "order spelled otherwise", "ties",
              "missing rows", "unread time")  # fmt: skip
"""Damages that may leave a doubt from the day's begin on."""
OF_THE_FIRST_ROW = ("no names", "noisy prices")
"""Damages that touch the first row already, so that no fault is before them."""
OF_NO_RESULT = ("peaks of all",)
"""Damages that touch the first row and leave no doubt: a fault anywhere is found."""


@pytest.mark.parametrize("name", DAMAGES)
def test_a_lawful_day_that_is_damaged_is_never_unlawful(name: str) -> None:
    touched = 0
    for seed in SEEDS:
        extract = timed_day(seed)
        if DAMAGES[name](random.Random(seed), extract.rows) is None:
            continue
        touched += 1
        verdict = judged(extract)
        assert verdict.word != "unlawful", f"{seed}\n{verdict}"
        assert verdict.word == "incomplete" or name not in NEVER_LAWFUL, f"{seed}\n{verdict}"
        assert verdict.word == "lawful" or name not in NEVER_IN_DOUBT, f"{seed}\n{verdict}"
    assert touched > 5


@pytest.mark.parametrize("name", [
    name for name in DAMAGES if name not in OF_THE_DAY + OF_THE_FIRST_ROW
])  # fmt: skip
def test_a_fault_before_the_damage_is_found(name: str) -> None:
    found = 0
    for seed in range(150):
        extract = timed_day(seed)
        touched = extract.copy()
        first = DAMAGES[name](random.Random(seed), touched.rows)
        if first is None:
            continue
        fault = planted(touched, len(touched.rows) if name in OF_NO_RESULT else first)
        if fault is None:
            continue
        found += 1
        verdict = judged(touched)
        assert verdict.word == "unlawful", f"{seed}\n{verdict}"
        assert fault in [finding.row for finding in verdict.findings], str(verdict)
        if found == 12:
            break
    assert found >= 10


def test_damage_of_several_kinds_is_read_together() -> None:
    """Ties in each call phase, and a row of each trade for each side."""
    doubtful = 0
    for seed in SEEDS:
        extract, chance = timed_day(seed), random.Random(seed)
        both = [damage(chance, extract.rows) for damage in (ties, trades_of_both_sides)]
        if None not in both:
            verdict = judged(extract)
            assert verdict.word == "incomplete", f"{seed}\n{verdict}"
            doubtful += len(verdict.doubtful)
    assert doubtful


@pytest.mark.parametrize("names", itertools.combinations(
    ("unread order", "unread trade", "times fall", "sent again", "paired otherwise"), 2
))  # fmt: skip
def test_two_damages_leave_a_lawful_day(names: tuple[str, str]) -> None:
    for seed in range(15):
        extract, chance = timed_day(seed), random.Random(seed)
        for name in names:
            DAMAGES[name](chance, extract.rows)
        assert judged(extract).word != "unlawful", f"{seed}\n{judged(extract)}"


def damaged(seed: int, extract: Extract, most: int) -> list[int]:
    """Damages a day in up to so many ways; answers the first places that are touched, of a whole
    day where it isn't known which result or order is which.
    """
    chance = random.Random(seed * 7919 + 1)
    names = sorted(chance.sample([*DAMAGES], chance.randint(1, most)), key=[*DAMAGES].index)
    if "sent again with sequences" in names:  # they would say that all else is right
        names = ["sent again with sequences"]
    found = [DAMAGES[name](chance, extract.rows) for name in names]
    whole = (*OF_THE_DAY, "missing uncross", "corrected result", "spelled otherwise")
    return [0 if name in whole else it for it, name in zip(found, names) if it is not None]


def test_a_lawful_day_with_several_damages_is_never_unlawful() -> None:
    """With rows of one time too, and where the range or the tick size isn't said."""
    words = collections.Counter[str]()
    for seed in range(DAYS):
        chance = random.Random(seed)
        extract = (random_day if seed % 3 == 0 else timed_day)(seed, chance.choice([4, 8, 14]))
        damaged(seed, extract, 3)
        unsaid = {name: None for name in ("range", "tick_size") if chance.random() < 0.1}
        try:
            verdict = judged(extract, **unsaid)
        except ExtractError as fault:
            assert "say --sort" in str(fault) or "keep one by" in str(fault)
            continue
        assert verdict.word != "unlawful", f"{seed}\n{verdict}"
        words[verdict.word] += 1
    assert words["lawful"] > DAYS / 20 and words["incomplete"] > DAYS / 3


@pytest.mark.parametrize("names", [
    ("missing uncross", "corrected result"),
    ("missing uncross", "corrected result", "no names"),
    ("missing uncross", "paired otherwise", "no names"),
    ("missing entry", "at the uncross", "copied trade"),
    ("busted", "trades of both sides"),
    ("copied trade", "beyond the program"),
    ("unread order", "at the uncross"),
    ("unread trade", "paired otherwise"),
    ("corrected result", "unchanged prices"),
    ("paired otherwise", "copied trade", "copied at once"),
    ("wrong member", "spelled otherwise"),
    ("ties", "wrong member"),
])  # fmt: skip
@pytest.mark.parametrize("unsaid", [{}, {"range": None}])
def test_damages_that_meet_leave_a_lawful_day(
    names: tuple[str, ...], unsaid: dict[str, None]
) -> None:
    for seed in range(DAYS // 10):
        extract, chance = timed_day(seed), random.Random(seed)
        for name in names:
            DAMAGES[name](chance, extract.rows)
        try:
            verdict = judged(extract, **unsaid)
        except ExtractError:
            continue
        assert verdict.word != "unlawful", f"{seed}\n{verdict}"


def test_any_fault_before_the_damage_is_found() -> None:
    """Its auction is over before the first row that is damaged."""
    count = 0
    for seed in range(3 * DAYS):
        extract = timed_day(seed, 8)
        fault = random.Random(seed).choice([*FAULTS])
        found = FAULTS[fault](random.Random(seed), extract)
        if found is None or fault in ("uncross behind the end", "trade missing"):
            continue  # a trade may be missing by an unread one
        marked, end = extract.rows[found[1]], _end_of_auction(extract, fault, found[1])
        if min(damaged(seed, extract, 3), default=0) > end:
            try:
                verdict = judged(extract)
            except ExtractError as refused:
                assert "say --sort" in str(refused), f"{seed} {fault}"
                continue
            count += 1
            assert verdict.word == "unlawful", f"{seed} {fault}\n{verdict}"
            own = [at for at, row in enumerate(extract.rows) if row is marked]
            rows = {row for finding in verdict.findings for row in finding.rows}
            assert rows & {*own}, f"{seed} {fault}\n{verdict}"
    assert count > DAYS / 10


def _end_of_auction(extract: Extract, fault: str, place: int) -> int:
    """The place of the last row of a fault's auctions."""
    rows = extract.rows
    if fault in ("wrong place kept", "trade of another auction"):
        place = min([at for at in places(rows, "uncross") if at > place] or [len(rows) - 1])
    while place + 1 < len(rows) and rows[place + 1]["event"] not in ORDERS:
        place += 1
    return place


# ---- certain whatever wasn't read


def with_unread_head(seed: int) -> Extract:
    """A day whose first row, of an order, can't be read."""
    extract = timed_day(seed)
    assert extract.rows[0]["event"] == "new"
    extract.rows[0]["quantity"] = "?"
    return extract


def of_trades(extract: Extract, least: int) -> list[int]:
    """The places of the first auction's trades, where it has at least this many; else none."""
    for auction in ("opening", "intraday", "closing"):
        trades = places(extract.rows, "trade")
        those = [at for at in trades if extract.rows[at]["auction"] == auction]
        if len(those) >= least:
            return those
    return []


def certain_of(extract: Extract) -> Verdict:
    verdict = judged(extract)
    assert verdict.word == "unlawful", str(verdict)
    assert all(verdict.explain(finding) for finding in verdict.findings)
    return verdict


def test_trades_of_one_auction_at_two_prices_are_certain() -> None:
    count = 0
    for seed in SEEDS:
        extract = with_unread_head(seed)
        those = of_trades(extract, 2)
        if those:
            count += 1
            extract.rows[those[0]]["price"] = "9.99"
            extract.rows[those[1]]["price"] = "10.31"
            verdict = certain_of(extract)
            assert "trade" in {finding.item for finding in verdict.findings}
    assert count > 5


def test_shares_that_do_not_add_up_to_the_volume_are_certain() -> None:
    count = 0
    for seed in SEEDS:
        extract = with_unread_head(seed)
        those = of_trades(extract, 1)
        if those:
            count += 1
            row = extract.rows[those[0]]
            row["quantity"] = str(int(row["quantity"]) + 1)
            items = {finding.item for finding in certain_of(extract).findings}
            assert items <= {"trade", "fill", "volume"}
    assert count > 5


def test_an_execution_beyond_the_limit_is_certain() -> None:
    count = 0
    for seed in SEEDS:
        extract = with_unread_head(seed)
        known = {row["order"]: row for row in extract.rows[1:] if row["event"] == "new"}
        replaced = {row["order"] for row in extract.rows if row["event"] == "replace"}
        for place in of_trades(extract, 1):
            row = extract.rows[place]
            bid = known.get(row["bid"])
            if bid is not None and "price" in bid and row["bid"] not in replaced:
                count += 1
                bid["price"] = "9.50"
                assert "trade" in {finding.item for finding in certain_of(extract).findings}
                break
    assert count > 5


def test_a_stray_cancel_does_not_silence_a_day_whose_sums_fix_the_books() -> None:
    """Price, volume, surplus and side are those of the rows, so nothing that was executed is
    missing: another order in a trade is a fault.
    """
    count = 0
    for seed in SEEDS:
        extract = timed_day(seed)
        for place in of_trades(extract, 2):
            row = extract.rows[place]
            extract.rows[place] = {**row, "bid": row["ask"], "ask": row["bid"]}
            count += 1
            stray_cancel(random.Random(seed), extract.rows)
            assert certain_of(extract).findings
            break
    assert count > 5


# ---- what isn't law is in doubt


def test_a_day_that_was_interrupted_is_in_doubt_without_its_range() -> None:
    seen = 0
    for seed in range(120):
        extract = timed_day(seed)
        if any(outcome.is_interrupted for outcome in extract.lawful):
            seen += 1
            assert judged(extract).word == "lawful"
            verdict = judged(extract, range=None)
            assert verdict.word == "incomplete" and verdict.doubtful, str(verdict)
    assert seen > 3


def test_another_moment_that_does_not_fit_is_left_out_and_said(
    monkeypatch: pytest.MonkeyPatch,
) -> None:
    """The findings are those of the uncross at its row."""
    extract = timed_day(3, 12)
    fault = planted(extract, len(extract.rows))
    assert fault is not None
    extract.rows[fault]["surplus"] = str(int(extract.rows[fault]["surplus"]) + 1)
    found = [str(finding) for finding in judged(extract).findings]
    assert len(found) == 2 and day_end.NO_SEARCH not in judged(extract).notes

    def beyond(*_: object) -> None:
        raise BeyondError("more than it holds")

    monkeypatch.setattr(moments, "indicated", beyond)
    verdict = judged(extract)
    assert [str(finding) for finding in verdict.findings] == found
    assert verdict.notes[day_end.NO_SEARCH] == 1


def test_a_doubtful_finding_has_its_reason_in_its_line() -> None:
    for seed in SEEDS:
        extract = timed_day(seed)
        first = places(extract.rows, "new")[0]
        extract.rows[first]["quantity"] = "1e3"
        verdict = judged(extract)
        for finding in verdict.doubtful:
            assert str(finding).startswith(f"doubtful: row {finding.row}, ")
            assert str(finding).endswith(f": {finding.doubt}") and f"row {first}: " in finding.doubt
            assert f"In doubt: {finding.doubt}." in verdict.explain(finding)
        assert f"doubtful {len(verdict.doubtful)}" in verdict.lines() or not verdict.doubtful


def test_rows_of_orders_have_times_of_their_own() -> None:
    rows = timed_day(1).rows
    times = [row["time"] for row in rows if row["event"] in ORDERS]
    assert len({*times}) == len(times)


@pytest.mark.parametrize("word", ["", "continuous"])
def test_trades_between_the_auctions_leave_a_doubt(word: str) -> None:
    """Two orders of a call phase trade at once, so what the rules give from then on is of other
    books; a fault before them stays certain.
    """
    count = 0
    for seed in SEEDS:
        extract = timed_day(seed)
        first, second = places(extract.rows, "uncross")[:2]
        orders = [at for at in places(extract.rows, *ORDERS) if first < at < second]
        if len(orders) < 3 or not extract.rows[first].get("trades"):
            continue
        count += 1
        at, clock = orders[1], extract.rows[orders[1]]["time"]
        pair = (("X", "bid", "10.30"), ("Y", "ask", "9.80"))
        made = [
            dict(event="new", order=order, member="M9", side=side, quantity="5000", price=price,
                 time=clock)
            for order, side, price in pair
        ]  # fmt: skip
        made.append(dict(event="trade", bid="X", ask="Y", quantity="5000", price="10.30",
                         time=clock, auction=word))  # fmt: skip
        extract.rows[at + 1 : at + 1] = made
        verdict = judged(extract)
        assert verdict.word == "incomplete", f"{seed}\n{verdict}"
        assert "audit-auction" in "\n".join([*verdict.remarks(), *map(str, verdict.doubtful)])
        row = extract.rows[first]
        row["quantity"] = str(int(row["quantity"]) + 1)
        assert judged(extract).word == "unlawful"
    assert count > 5

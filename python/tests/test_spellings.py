"""Days whose rows write ids in two ways, as 0017 and 17 or A-17 and A17: a lawful one is never
unlawful, and beside one fault no right trade is a certain finding.
"""
import io
import random

import pytest
from callauction.verdict import Reading, Verdict, audit_events
from damage import places, timed_day
from extracts import Rows
from faults import FAULTS
from judging import frame_of, judged
from lines import untimed_rows
from planted import DAYS

FORMS = (("{:04}", "{}"), ("A-{}", "A{}"), ("A{:03}", "a{}"), ("7{:04}-X", "7{:04}X"))
"""How an id is written by its number, in one way and in the other."""
EVENTS = (("trade",), ("replace", "cancel"), ("trade", "replace", "cancel"))
OF_IDS = ("trade of nobody", "trade of an unknown bid", "trade of an unknown ask")
"""Faults of ids, which may be another spelling of what is right."""


def spell_in_two_ways(chance: random.Random, rows: Rows) -> None:
    """Writes ids in some rows of some events in another way than in all others."""
    own, other = chance.sample(chance.choice(FORMS), 2)
    events, share = chance.choice(EVENTS), chance.choice([0.2, 0.5, 1])
    for row in rows:
        is_other = row["event"] in events and chance.random() < share
        names = (name for name in ("order", "bid", "ask") if row.get(name))
        row |= {it: (other if is_other else own).format(int(row[it][1:])) for it in names}


def test_a_lawful_day_of_ids_in_two_spellings_is_never_unlawful() -> None:
    doubtful = 0
    for seed in range(DAYS // 3):
        day, chance = timed_day(seed), random.Random(seed)
        spell_in_two_ways(chance, day.rows)
        verdict = judged(day)
        assert verdict.word != "unlawful", f"{seed}\n{verdict}"
        doubtful += any("are written in two ways" in it.doubt for it in verdict.doubtful)
    assert doubtful > DAYS / 40


def test_beside_a_fault_no_right_trade_is_a_certain_finding() -> None:
    """All that is certain is the fault itself, or nothing, where it needs one spelling of ids."""
    certain = count = 0
    for seed in range(DAYS // 3):
        day, chance = timed_day(seed), random.Random(seed)
        name = chance.choice([it for it in FAULTS if it not in OF_IDS])
        fault = FAULTS[name](chance, day)
        if fault is None:
            continue
        count += 1
        spell_in_two_ways(chance, day.rows)
        verdict = judged(day)
        found = [it.rows for it in verdict.findings]
        assert len(found) < 2 and all(fault[1] in it for it in found), f"{seed} {name}\n{verdict}"
        certain += len(found)
    assert certain > count / 2


DAY = """new {own}17 bid 100 10.02
new {own}18 bid 100 10.01
new {own}21 ask 120 10.00
uncross 10.01 120 80
trade {other}17 {other}21 100 10.01
trade {other}18 {other}21 20 10.01
new {own}31 bid 50 10.03
new {own}41 ask 50 10.03
uncross 10.03 50 0
trade {other}31 {other}41 50 10.03"""
"""120 shares meet at 10.00 and 10.01, with 80 bids more at both, so that the highest is the price;
at 10.03 are 50 on both sides, and the 80 shares that are left of 18 have a limit below.
"""
VOLUME = ("uncross 10.03 50", "uncross 10.03 51")
BEYOND = ("trade {other}31 {other}41", "trade {own}18 {own}41")


def verdict_on(text: str) -> Verdict:
    """The verdict on lines of an opening and a closing."""
    rows = untimed_rows(text)
    rows[3] |= {"auction": "opening", "side": "bid"}
    rows[8] |= {"auction": "closing", "side": "none"}
    for place in places(rows, "trade"):
        rows[place]["auction"] = "opening" if place < 8 else "closing"
    terms = dict(reference="10", tick_size="0.01", auctions=["opening", "closing"])
    return audit_events(frame_of(rows), **terms)  # type: ignore[arg-type]


@pytest.mark.parametrize("own, other", [
    ("00", ""), ("A-", "A"), ("a-00", "A"), ("7/", "7"), ("", "00"),
])  # fmt: skip
@pytest.mark.parametrize("right, wrong, finding", [
    (*VOLUME, (8, "volume")), (*BEYOND, (9, "trade")),
])  # fmt: skip
def test_the_wrong_item_is_the_one_certain_finding(
    own: str, other: str, right: str, wrong: str, finding: tuple[int, str]
) -> None:
    verdict = verdict_on(DAY.format(own=own, other=other))
    assert verdict.word == "incomplete", str(verdict)
    assert all("are written in two ways" in it.doubt for it in verdict.doubtful)
    verdict = verdict_on(DAY.replace(right, wrong).format(own=own, other=other))
    assert [(it.row, it.item) for it in verdict.findings] == [finding], str(verdict)
    assert verdict.doubtful and all(it.doubt for it in verdict.doubtful)
    verdict = verdict_on(DAY.replace(right, wrong).format(own=own, other=own))
    assert [(it.row, it.item) for it in verdict.findings] == [finding], str(verdict)
    assert not verdict.doubtful


SPELLED = """event,time,order,member,side,price,quantity,surplus,trades,auction,bid,ask,bid_member
new,08:50:00,A,Dorn,bid,10.00,100,,,,,,
replace,08:50:01,A,Dorn,bid,10.00,200,,,,,,
new,08:50:02,B,{},bid,10.00,100,,,,,,
new,08:50:03,S,ADLER,ask,10.00,300,,,,,,
uncross,09:00:00,,,,10.00,300,0,2,opening,,,
trade,09:00:00,,,,10.00,200,,,opening,A,S,{}
trade,09:00:00,,,,10.00,100,,,opening,B,S,{}
"""
"""A and B buy what S sells: 200 and 100."""


@pytest.mark.parametrize("entered, traded, word", [
    ("DORN", ("DORN", "DORN"), "incomplete"),  # are Dorn, who entered A, and DORN one?
    ("DORN", ("Dorn", "DORN"), "lawful"),
    ("BIRK", ("BIRK", "BIRK"), "unlawful"),
])
def test_a_member_of_one_order_in_the_spelling_of_another_order_may_be_right(
    entered: str, traded: tuple[str, str], word: str
) -> None:
    text = SPELLED.format(entered, *traded)
    verdict = audit_events(io.BytesIO(text.encode()), reference="10.00", tick_size="0.01",
                           auctions=["opening"], reading=Reading(unrestricted=True))  # fmt: skip
    assert verdict.word == word
    if word == "incomplete":
        assert verdict.doubtful[0].doubt == (
            "ids or members are written in two ways: DORN and Dorn"
        )

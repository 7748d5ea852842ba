"""Days of which an order that replaces give other ids isn't entered in any row, as where a log
begins within the day: it is said once which rows name it, a lawful day is never unlawful, and a
fault above the first of them is certain.
"""
import dataclasses
import random
from pathlib import Path

from callauction.verdict import Verdict, audit_events, shapes
from damage import ORDERS, places, timed_day
from extracts import Extract, Rows
from judging import frame_of, judged
from lines import untimed_rows
from logs import FixLog
from planted import DAYS, planted

NAMES = ("order", "bid", "ask")
OF_OWNERS = {
    "new.order": "ClOrdID", "replace.order": "OrigClOrdID", "replace.new_order": "ClOrdID",
    "cancel.order": "OrigClOrdID", "trade.order": "ClOrdID",
}  # fmt: skip
"""The columns of a log without OrderID, as the shape says it."""


def give_new_ids(rows: Rows) -> None:
    """Each replace gives its order another id, which the rows below have."""
    present = dict[str, str]()
    for number, row in enumerate(rows):
        first = str(row.get("order"))
        row |= {name: present[row[name]] for name in NAMES if row.get(name) in present}
        if row["event"] == "replace":
            row["new_order"] = present[first] = f"R{number}"


def cut(chance: random.Random, rows: Rows) -> int | None:
    """Takes the entry of a replaced order out, or all rows to it; the first place that names it."""
    replaced = {row["order"] for row in rows if row["event"] == "replace"}
    those = [at for at in places(rows, "new") if rows[at]["order"] in replaced]
    if not those:
        return None
    place = chance.choice(those)
    order = rows[place]["order"]
    is_head = chance.random() < 0.3 and all(it["event"] in ORDERS for it in rows[:place])
    del rows[0 if is_head else place : place + 1]
    named = (at for at, row in enumerate(rows) if order in [row.get(name) for name in NAMES])
    return 0 if is_head else next(named)


def cut_day(seed: int) -> tuple[Extract, int | None]:
    day = timed_day(seed, 8)
    give_new_ids(day.rows)
    return day, cut(random.Random(seed), day.rows)


def test_a_lawful_day_is_never_unlawful() -> None:
    count = 0
    for seed in range(DAYS):
        day, first = cut_day(seed)
        if first is not None:
            count += 1
            verdict = judged(day)
            assert verdict.word == "incomplete", f"{seed}\n{verdict}"
            lost = [it for it in verdict.remarks() if "is entered in no row above" in it]
            assert len({it.partition(": ")[2].partition(" is")[0] for it in lost}) == len(lost) > 0
    assert count > DAYS / 3


def test_a_fault_above_the_first_row_of_an_unknown_order_is_certain() -> None:
    count = 0
    for seed in range(DAYS):
        day, first = cut_day(seed)
        fault = None if first is None else planted(day, first)
        if fault is not None:
            count += 1
            verdict = judged(day)
            assert fault in [it.row for it in verdict.findings], f"{seed}\n{verdict}"
    assert count > DAYS / 20


# ---- logs of FIX


def log_of_owners(day: Extract, seed: int, gone: str) -> str:
    """The log of a day without OrderID and numbers of a session, in which an order isn't entered;
    each report of a replace or a cancel gives an order another ClOrdID.
    """
    log, present = FixLog(day, seed, seed % 2 == 0), dict[str, str]()
    for number, fields in enumerate(log.messages):
        told = dict(fields)
        order, kind = told.get(37, ""), told.get(150, "")
        own = [(11, present.get(order, order))]
        if kind in ("4", "5"):
            own = [(11, f"R{number}"), (41, own[0][1])]
            present[order] = f"R{number}"
        rest = [it for it in fields if it[0] not in (34, 37)]
        is_gone = kind == "0" and order == gone
        log.messages[number] = [] if is_gone else [*rest[:1], *own * bool(kind), *rest[1:]]
    log.messages = [fields for fields in log.messages if fields]
    return log.tagged("|")


def read_log(text: str, day: Extract, folder: Path) -> Verdict:
    reading = shapes.reading_of("fix")
    columns = {name: it for name, it in reading.columns.items() if name != "order"} | OF_OWNERS
    path = folder / "day.log"
    path.write_text(text)
    return audit_events(path, reference=day.reference, tick_size="0.01", range=day.range,
                        reading=dataclasses.replace(reading, columns=columns))  # fmt: skip


def test_a_lawful_log_that_begins_within_the_day_is_never_unlawful(tmp_path: Path) -> None:
    count = 0
    for seed in range(DAYS // 2):
        day, chance = timed_day(seed, 8), random.Random(seed)
        replaced = {row["order"] for row in day.rows if row["event"] == "replace"}
        those = [row["order"] for row in day.rows if row["event"] == "new"
                 and row["order"] in replaced]  # fmt: skip
        if those:
            count += 1
            verdict = read_log(log_of_owners(day, seed, chance.choice(those)), day, tmp_path)
            assert verdict.word == "incomplete", f"{seed}\n{verdict}"
            whole = read_log(log_of_owners(day, seed, ""), day, tmp_path)
            assert [any(it.is_lost for it in each.bad_rows) for each in (verdict, whole)] == [1, 0]
    assert count > DAYS / 6


# ---- what is said


def test_the_rows_of_an_unknown_order_are_said_once() -> None:
    rows = untimed_rows("""new B bid 10 10.00
replace A bid 20 10.00
new S ask 30 10.00
replace R1 bid 15 10.00
cancel R2
uncross 10.00 10 20
trade B S 10 10.00""")
    rows[1]["new_order"], rows[3]["new_order"], rows[5]["side"] = "R1", "R2", "ask"
    terms = dict(reference="10", tick_size="0.01", auctions=["opening"])

    def verdict() -> Verdict:
        return audit_events(frame_of(rows), **terms)  # type: ignore[arg-type]

    said = "row 1: order 'A' is entered in no row above (2 more, in rows 3, 4)"
    assert verdict().remarks()[:2] == [said, "bad rows 3"]
    assert verdict().word == "incomplete" and not verdict().doubtful
    rows.insert(5, dict(event="cancel", order="ZZZ"))
    assert verdict().remarks()[:3] == [
        said, "row 5: order 'ZZZ' is entered in no row above", "bad rows 4",
    ]  # fmt: skip

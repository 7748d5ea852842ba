"""What other systems mean by quantities: lots; trades of which one side has no row; and what is
read of a market.
"""
import random
from pathlib import Path

import pytest
from callauction.__main__ import main
from callauction.verdict import Reading
from damage import places, timed_day
from desk import TRADE, UNCROSS
from extracts import Extract, Rows
from judging import judged
from planted import DAYS, planted

Printed = pytest.CaptureFixture[str]
SEEDS = range(40)
OF_ORDERS = ("new", "replace", "cancel")


# ---- lots


def in_lots(seed: int, *events: str) -> Extract:
    """A lawful day whose orders have a hundred times the shares, and so have the results of these
    events; those of others are in lots.
    """
    extract = timed_day(seed)
    for row in extract.rows:
        if row["event"] in (*OF_ORDERS, *events):
            for name in ("quantity", "peak", "surplus"):
                if row.get(name):
                    row[name] = str(100 * int(row[name]))
    return extract


@pytest.mark.parametrize("events", [(), (UNCROSS,), (TRADE,)])
def test_a_lawful_day_in_lots_is_never_unlawful(events: tuple[str, ...]) -> None:
    in_doubt = 0
    for seed in SEEDS:
        extract = in_lots(seed, *events)
        if len(places(extract.rows, TRADE)) < 2:
            continue  # one number may be wrong
        verdict = judged(extract)
        assert verdict.word != "unlawful", f"{seed}\n{verdict}"
        in_doubt += any("in lots of 100" in it.doubt for it in verdict.doubtful)
    assert in_doubt > 20
    assert all(judged(in_lots(seed, UNCROSS, TRADE)).word == "lawful" for seed in SEEDS)


def test_a_fault_beside_lots_is_found() -> None:
    found = 0
    for seed in SEEDS:
        extract = in_lots(seed)
        if planted(extract, len(extract.rows)) is not None:
            found += judged(extract).word == "unlawful"
    assert found > 20


# ---- one side of a trade


def of_both_sides(rows: Rows) -> Rows:
    """The rows with one for each side of a trade, which a column joins."""
    found = Rows()
    for number, row in enumerate(rows):
        if row["event"] != TRADE:
            found.append(row)
            continue
        for side in ("bid", "ask"):
            own = {name: it for name, it in row.items() if name not in ("bid", "ask")}
            found.append({**own, "order": row[side], "side": side, "match": f"m{number}"})
    return found


@pytest.mark.parametrize("is_shared", [False, True])
def test_a_side_of_a_trade_that_was_sent_again_is_read_once(is_shared: bool) -> None:
    """Sides have numbers of their own in the sequence, or both of a trade have one."""
    count = 0
    for seed in SEEDS[:6]:
        extract = timed_day(seed)
        extract.rows[:] = of_both_sides(extract.rows)
        rows = extract.rows
        for number, row in enumerate(rows):
            row["sequence"] = str(number)
        those = places(rows, TRADE)
        for bid, ask in zip(those[::2], those[1::2]) if is_shared else ():
            rows[ask]["sequence"] = rows[bid]["sequence"]
        if len(those) < 4:
            continue
        once = judged(extract, reading=Reading(pair="match"))
        at = random.Random(seed).choice(those)
        rows.insert(at + 1, dict(rows[at]))
        verdict = judged(extract, reading=Reading(pair="match"))
        assert verdict.coverage == once.coverage and verdict.word == once.word, f"{seed}\n{verdict}"
        count += once.word == "lawful"
    assert count > 1


def test_a_lawful_day_that_lacks_one_side_of_a_trade_is_never_unlawful() -> None:
    in_doubt = 0
    for seed in SEEDS:
        extract = timed_day(seed)
        extract.rows[:] = of_both_sides(extract.rows)
        those = places(extract.rows, TRADE)
        if len(those) < 4:
            continue
        del extract.rows[random.Random(seed).choice(those)]
        verdict = judged(extract, reading=Reading(pair="match"))
        assert verdict.word == "incomplete", f"{seed}\n{verdict}"
        in_doubt += any("no row of its other side" in it.doubt for it in verdict.doubtful)
    assert in_doubt > 10


def half_day(seed: int, is_only: bool) -> Extract | None:
    """A day whose only trade, or each, lacks one row; None where it has none."""
    extract, chance = timed_day(seed, 5 if is_only else 12), random.Random(seed)
    extract.rows[:] = of_both_sides(extract.rows)
    matches = [*dict.fromkeys(row["match"] for row in extract.rows if row["event"] == TRADE)]
    if not matches or is_only != (len(matches) == 1):
        return None
    gone = {(match, chance.choice(["bid", "ask"])) for match in matches}
    extract.rows[:] = [it for it in extract.rows if (it.get("match"), it.get("side")) not in gone]
    late = dict(event="new", order="Z", side="bid", price="9.50", quantity="1", time="23:00:00")
    extract.rows.append(late)
    return extract


def test_trades_that_all_lack_one_side_condemn_no_day() -> None:
    for is_only in (False, True):
        count = 0
        for seed in range(2 * DAYS):
            extract = half_day(seed, is_only)
            if extract is None or count == DAYS // 8:
                continue
            count += 1
            verdict = judged(extract, reading=Reading(pair="match"))
            assert verdict.word == "incomplete", f"{seed}\n{verdict}"
            assert "has no row of its other side" in str(verdict)
        assert count > DAYS // 40


def test_a_wrong_volume_beside_such_trades_is_certain() -> None:
    count = 0
    for seed in range(DAYS // 2):
        extract = half_day(seed, False)
        fault = None if extract is None else planted(extract, len(extract.rows))
        if extract is not None and fault is not None:
            count += 1
            verdict = judged(extract, reading=Reading(pair="match"))
            assert fault in [it.row for it in verdict.findings], f"{seed}\n{verdict}"
    assert count > DAYS // 24


def test_a_bust_that_is_not_read_may_take_out_both_fills_of_a_trade() -> None:
    count = 0
    for seed in range(DAYS // 2):
        extract, chance = timed_day(seed), random.Random(seed)
        made = places(extract.rows, TRADE)
        if len(made) < 3:
            continue
        at = chance.choice(made)
        row = extract.rows[at]
        wrong = {**row, "quantity": str(int(row["quantity"]) + chance.choice([1, 70]))}
        bust = {"event": "bust", "quantity": wrong["quantity"], "time": row["time"]}
        extract.rows[at + 1 : at + 1] = [wrong, bust]
        extract.rows[:] = of_both_sides(extract.rows)
        own = f"m{at + 1}"
        right = [it for it in places(extract.rows, TRADE) if extract.rows[it]["match"] != own]
        del extract.rows[chance.choice(right)]
        count += 1
        verdict = judged(extract, reading=Reading(pair="match"))
        assert verdict.word == "incomplete", f"{seed}\n{verdict}"
    assert count > DAYS // 24


# ---- what is read of a market


ROWS = [
    "new,A1,Adler,bid,20.02,1000,,,,", "new,B1,Birk,ask,20.01,800,,,,",
    "uncross,,,bid,20.02,800,200,opening,,", "trade,,,,20.02,800,,opening,A1,B1",
]  # fmt: skip


def test_check_reads_each_instrument_by_itself(tmp_path: Path, capsys: Printed) -> None:
    header = "event,order,member,side,price,quantity,surplus,auction,bid,ask,isin"
    rows = [f"{row},{name}" for row in ROWS for name in ("DE1", "DE2")]
    text = "".join(f"{row}\n" for row in (header, *rows, "new,A9,Adler,bid,20.02,1,,,,,"))
    (tmp_path / "day.csv").write_text(text)
    words = ["audit", str(tmp_path / "day.csv"), "--by", "isin", "--check"]
    assert main([*words, "--reference", "20.05", "--tick-size", "0.01"]) == 0
    printed = capsys.readouterr().out.splitlines()
    assert {"by: isin, 2 instruments", "rows without isin 1", "bad rows 0"} <= {*printed}

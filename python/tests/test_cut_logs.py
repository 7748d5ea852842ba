"""Logs of FIX messages that a rotation cut within their last line: that line counts as one that
isn't read, and condemns no day.
"""
import random
import re
from collections.abc import Iterator
from pathlib import Path

import pytest
from callauction.verdict import Verdict, audit_events, shapes
from damage import timed_day
from extracts import Extract
from logs import FixLog
from planted import DAYS, SEEDS

HEADS = {
    35: "MsgType", 34: "MsgSeqNum", 37: "OrderID", 150: "ExecType", 54: "Side", 48: "SecurityID",
    60: "TransactTime", 40: "OrdType", 44: "Price", 38: "OrderQty", 151: "LeavesQty", 31: "LastPx",
    59: "TimeInForce", 32: "LastQty", 880: "TrdMatchID", 625: "TradingSessionSubID",
    17: "ExecID", 448: "PartyID",
}  # fmt: skip


def read_log(content: bytes, day: Extract, folder: Path) -> Verdict:
    path = folder / "day.log"
    path.write_bytes(content)
    return audit_events(path, reference=day.reference, tick_size="0.01", range=day.range,
                        reading=shapes.reading_of("fix"))  # fmt: skip


def text_of(form: str, day: Extract, seed: int) -> str:
    """The log of a day: with the last field of messages, without it, or as CSV."""
    log = FixLog(day, seed, seed % 2 == 0)
    tagged = log.tagged("|")
    return {
        "tagged": tagged, "timed": re.sub("^8=", "09:00:00.1 8=", tagged, flags=re.MULTILINE),
        "bare": tagged.replace("|10=123|", "|"), "csv": log.columns(HEADS),
    }[form]  # fmt: skip


def cuts(seed: int, text: str) -> Iterator[tuple[str, str]]:
    """The whole lines of a log that was cut, and what is left of the line that was cut."""
    chance, lines = random.Random(seed), text.splitlines(keepends=True)
    for place in chance.sample(range(3, len(lines)), min(2, len(lines) - 3)):
        most = len(lines[place]) - 2
        for end in {chance.choice([1, 3]), most - chance.randint(0, 8), chance.randint(1, most)}:
            yield "".join(lines[:place]), lines[place][: max(1, end)]


@pytest.mark.parametrize("form", ["tagged", "timed", "bare", "csv"])
def test_a_last_line_that_is_cut_is_a_row_that_is_not_read(form: str, tmp_path: Path) -> None:
    for seed in SEEDS[:DAYS // 40]:
        day = timed_day(seed, 6)
        for whole, cut in cuts(seed, text_of(form, day, seed)):
            if form in ("tagged", "timed") and re.search(r"\|10=\d{3}$", cut):
                continue
            verdict = read_log((whole + cut).encode(), day, tmp_path)
            assert verdict.word == "incomplete", f"{cut}\n{verdict}"
            line = whole.count("\n") + 1
            lost = [row for row in verdict.bad_rows if row.label == line]
            assert len(lost) == 1 and "cut" in lost[0].why, f"{cut}\n{verdict.remarks()}"


def test_a_fault_above_the_cut_line_is_found(tmp_path: Path) -> None:
    """Another volume of an auction, whose trades are all there."""
    count = 0
    for seed in SEEDS:
        day = timed_day(seed, 6)
        log = FixLog(day, seed)
        results = [it for it in log.messages if (268, "3") in it]
        if any(outcome.is_interrupted for outcome in day.lawful) or not results:
            continue
        place = log.messages.index(results[0])
        log.messages[place] = [(tag, "9.31" if tag == 270 else text) for tag, text in results[0]]
        whole = log.tagged("|").splitlines(keepends=True)
        if count < 6 and len(whole) > place + 9:
            count += 1
            verdict = read_log("".join(whole)[:-30].encode(), day, tmp_path)
            assert verdict.word == "unlawful" and "9.31" in str(verdict), f"{seed}\n{verdict}"
    assert count > 4


def test_a_file_that_is_cut_within_a_letter_is_read(tmp_path: Path) -> None:
    day = timed_day(3, 6)
    text = FixLog(day, 3).tagged("|")
    end = text.index("|10=", text.index("150=F"))
    content = f"{text[:end]}|58=für".encode()
    verdict = read_log(content[:-2], day, tmp_path)
    assert verdict.word == "incomplete" and "cut" in verdict.bad_rows[-1].why
    path = tmp_path / "day.csv"
    extract = "event,order,side,price,quantity,member\nnew,A,bid,10,5,Müller"
    path.write_bytes(extract.encode()[:-5])
    assert audit_events(path, reference="10").word == "incomplete"
    path.write_bytes(extract.encode("latin1"))
    with pytest.raises(ValueError, match="line 2 is no utf-8: say encoding latin-1"):
        audit_events(path, reference="10")


# ---- messages that a session's numbers lack


def lost_report(lines: list[str], chance: random.Random, *kinds: str) -> int:
    """Takes a line of these kinds out, of orders above one of the same; its place."""
    those = [at for at, it in enumerate(lines[:-1]) if any(f"|150={kind}|" in it for kind in kinds)]
    place = chance.choice(those)
    del lines[place]
    return place


@pytest.mark.parametrize("kinds", ["04", "5", "F"])
def test_a_number_that_no_message_has_is_a_row_that_may_be_missing(
    kinds: str, tmp_path: Path
) -> None:
    touched = 0
    for seed in SEEDS:
        day, chance = timed_day(seed, 8), random.Random(seed)
        lines = FixLog(day, seed).tagged("|").splitlines(keepends=True)
        if not any(f"|150={kind}|" in line for kind in kinds for line in lines[:-1]):
            continue
        touched += 1
        lost_report(lines, chance, *kinds)
        verdict = read_log("".join(lines).encode(), day, tmp_path)
        assert verdict.word == "incomplete", f"{seed}\n{verdict}"
    assert touched > 5


@pytest.mark.parametrize("other", [
    "8=FIX.4.4|9=9|35=0|34={}|10=000|\n", "8=FIX.4.4|9=9|35=4|34={}|123=Y|36={next}|10=000|\n",
])  # fmt: skip
def test_a_number_of_a_message_of_another_kind_is_not_missing(other: str, tmp_path: Path) -> None:
    """A heartbeat, or a message that fills a gap, has the number; then a lost order is none that a
    row can say, and the finding certain, as is a fault with each number's message there.
    """
    for seed in SEEDS[:5]:
        log = FixLog(timed_day(seed, 8), seed)
        lines = log.tagged("|").splitlines(keepends=True)
        text = "".join(re.sub(r"\|34=(\d+)\|", lambda it: f"|34={int(it[1]) * 2}|", line)
                       + other.format(2 * at + 1, next=2 * at + 2) for at, line in
                       enumerate(lines, 1))  # fmt: skip
        whole = read_log("".join(lines).encode(), timed_day(seed, 8), tmp_path)
        found = read_log(text.encode(), timed_day(seed, 8), tmp_path)
        assert (found.word, found.coverage) == (whole.word, whole.coverage), f"{seed}\n{found}"
        assert "sequence" not in str(found)

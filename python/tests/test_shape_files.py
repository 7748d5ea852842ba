"""Shapes of other systems: logs of FIX messages, what venues keep for supervision, columns for each
kind of row, and trades that busts take out.
"""
import random
from pathlib import Path

import pytest
from callauction.__main__ import main
from callauction.verdict import Reading, audit_events, audit_instruments, shapes
from damage import places, timed_day
from desk import base_day, text_of
from extracts import TOP, Extract, random_day
from judging import frame_of, judged, read_as
from logs import FixLog, instant, kept_for_supervision, lawful_log, line

EXTRACTS = TOP / "examples/extracts"
SEEDS = range(25)


# ---- the stored examples


@pytest.mark.parametrize("name", sorted(path.stem for path in EXTRACTS.glob("*.args")))
def test_the_stored_extracts_have_their_verdicts(
    name: str, capsys: pytest.CaptureFixture[str]
) -> None:
    path = EXTRACTS / f"{name}.args"
    [file] = (it for it in EXTRACTS.glob(f"{path.stem}.*") if it.suffix in (".csv", ".log"))
    status = main(["audit", str(file), *path.read_text(encoding="utf-8").split()])
    printed = capsys.readouterr().out
    assert printed == path.with_suffix(".txt").read_text(encoding="utf-8")
    assert status == {"lawful": 0, "unlawful": 4, "incomplete": 5}[printed.split()[-1]]


# ---- FIX


@pytest.mark.parametrize("seed", SEEDS)
def test_a_log_of_fix_has_the_verdict_of_its_day(seed: int, tmp_path: Path) -> None:
    """A lawful day's log isn't unlawful, and where each auction has a price nothing but counts,
    which market data hasn't, is left out; interruptions, which it hasn't either, are in doubt.
    """
    extract = timed_day(seed, 20)
    sign = ("\x01", "|", "^A", "<SOH>")[seed % 4]
    text = FixLog(extract, seed).tagged(sign, ("FIX.4.2", "FIX.4.4", "FIXT.1.1")[seed % 3])
    verdict = read_as("fix", text, extract, tmp_path / "day.log")
    assert verdict.word == "incomplete" and not verdict.findings, f"{seed}\n{verdict}"
    assert not verdict.bad_rows, verdict.bad_rows
    if all(outcome.tick and not outcome.is_interrupted for outcome in extract.lawful):
        counts = {name: it for name, it in verdict.coverage.counts.items() if name != "counts"}
        open_ = [name for name, (compared, due) in counts.items() if compared != due]
        assert not open_ and not verdict.doubtful, f"{seed}\n{verdict}"


PRICED = [
    seed for seed in SEEDS
    if not any(it.is_interrupted for it in timed_day(seed, 20).lawful)
    and any(it.tick for it in timed_day(seed, 20).lawful)
]  # fmt: skip
TRADED = [seed for seed in SEEDS if places(timed_day(seed).rows, "trade")]
"""The days without an interruption that have a price; those that have a trade."""


def test_many_days_have_a_place_for_a_fault() -> None:
    assert len(PRICED) > 9 and len(TRADED) > 19


@pytest.mark.parametrize("seed", PRICED)
def test_a_fault_in_a_log_of_fix_is_found(seed: int, tmp_path: Path) -> None:
    extract = timed_day(seed, 20)
    log = FixLog(extract, seed)
    results = [it for it in log.messages if (35, "W") in it and (268, "3") in it]
    place = log.messages.index(results[0])
    changed = [(tag, "9.31" if tag == 270 else text) for tag, text in results[0]]
    log.messages[place] = changed
    verdict = read_as("fix", log.tagged(), extract, tmp_path / "day.log")
    said = [f"{it.recorded} {it.lawful}" for it in verdict.findings]
    assert verdict.word == "unlawful" and any("9.31" in it for it in said)


def test_a_result_with_the_name_of_another_auction_is_one_finding(tmp_path: Path) -> None:
    """No other row says the auction that the result is of but its trades."""
    count = 0
    for seed in SEEDS:
        extract = timed_day(seed, 20)
        if not all(outcome.tick and not outcome.is_interrupted for outcome in extract.lawful):
            continue
        log = FixLog(extract, seed)
        results = [at for at, it in enumerate(log.messages) if (268, "3") in it]
        for place, at in enumerate(results):
            own, other = (log.messages[it] for it in (at, results[place - 1]))
            log.messages[at] = [(tag, dict(other)[625]) if tag == 625 else (tag, it)
                                for tag, it in own]  # fmt: skip
            verdict = read_as("fix", log.tagged(), extract, tmp_path / "day.log")
            log.messages[at] = own
            both = [*verdict.findings, *verdict.doubtful]
            found = [(it.item, it.recorded, it.lawful) for it in both]
            names = ("opening", "intraday", "closing")
            assert found == [("auction", names[place - 1], names[place])], f"{seed}\n{verdict}"
            count += len(verdict.findings)
    assert count > 5


def test_a_csv_file_of_execution_reports_may_have_tags_or_names(tmp_path: Path) -> None:
    heads = {37: "OrderID", 150: "ExecType", 54: "Side", 60: "TransactTime", 40: "OrdType",
             44: "Price", 38: "OrderQty", 151: "LeavesQty", 59: "TimeInForce", 31: "LastPx",
             32: "LastQty", 880: "TrdMatchID", 625: "TradingSessionSubID", 448: "PartyID",
             17: "ExecID"}  # fmt: skip
    log = lawful_log()
    words = []
    for names in (heads, {tag: str(tag) for tag in heads},
                  {tag: f"{name} ({tag})" for tag, name in heads.items()}):
        verdict = read_as("fix", log.columns(names), base_day(), tmp_path / "day.csv")
        assert not verdict.findings and not verdict.bad_rows, verdict
        words.append(str(verdict))
    assert len({*words}) == 1 and "prices 3 of 3\nvolumes 0 of 3" in words[0]
    cut = log.columns(heads)[:-40] + "\n"
    verdict = read_as("fix", cut, base_day(), tmp_path / "day.csv")
    assert " fields, the header 15" in str(verdict.bad_rows[0]) and verdict.word == "incomplete"


def test_what_was_sent_again_is_read_once(tmp_path: Path) -> None:
    log = lawful_log()
    once = read_as("fix", log.tagged(), base_day(), tmp_path / "day.log")
    reports = [place for place, it in enumerate(log.messages) if (35, "8") in it]
    for place in reports[::-3]:
        log.messages.insert(place + 1, [(43, "Y"), *log.messages[place]])
    again = read_as("fix", log.tagged(), base_day(), tmp_path / "day.log")
    assert str(again) == str(once) and again.word == "incomplete" and not again.findings


def test_a_dirty_log_is_read_as_far_as_it_goes(tmp_path: Path) -> None:
    """Heartbeats, empty lines, times of a logger before messages, and a message that is cut."""
    lines = [f"2026-11-27 08:50:00,1 INFO in {it}" for it in lawful_log().tagged().splitlines()]
    clean = "\n".join(["session begins", line([(35, "0"), (34, "1")]), "", *lines, ""])
    verdict = read_as("fix", clean, base_day(), tmp_path / "day.log")
    assert not verdict.findings and not verdict.bad_rows
    assert verdict.notes["lines without a FIX message"] == 1
    cut = [at for at, it in enumerate(lines) if "150=0" in it][1]
    lines[cut] = lines[cut][:90]
    verdict = read_as("fix", "\n".join([*lines, ""]), base_day(), tmp_path / "day.log")
    assert verdict.word == "incomplete"
    assert f"row {cut + 1}: the message is cut: it has no CheckSum (10)" in map(
        str, verdict.bad_rows
    )


def test_instruments_have_matches_of_their_own(tmp_path: Path) -> None:
    """Two instruments have the same orders, ExecIDs and TrdMatchIDs, and one lacks a report."""
    lines = []
    for name in ("DE1", "DE2"):
        log = lawful_log()
        trades = [it for it in log.messages if (150, "F") in it]
        if name == "DE2":
            trades[-1][:] = [(35, "0")]
        lines += [
            line([(tag, name if tag == 48 else text) for tag, text in it]) for it in log.messages
        ]
    path = tmp_path / "day.log"
    path.write_text("\n".join([*lines, ""]))
    found = audit_instruments(
        path, "SecurityID", reading=shapes.reading_of("fix"), reference=base_day().reference,
        tick_size="0.01",
    )  # fmt: skip
    [one, other] = found.to_dict("records")
    assert one["verdict"] == "incomplete" and one["findings"] == one["doubtful"] == 0
    assert one["trades"] == one["trades_due"] and other["trades"] == 0
    assert (other["findings"], other["doubtful"]) == (0, 1)


def test_trades_of_which_one_side_is_there_are_fills(tmp_path: Path) -> None:
    log = lawful_log()
    for fields in log.messages:
        fields[:] = [it for it in fields if it[0] != 880]
    verdict = read_as("fix", log.tagged(), base_day(), tmp_path / "day.log")
    assert not verdict.findings and verdict.coverage["trades"][0] == 0
    compared, due = verdict.coverage["fills"]
    assert compared == due > 0


def test_trades_whose_log_names_no_auction_are_said_with_the_tag(tmp_path: Path) -> None:
    log = lawful_log(False)
    log.messages = [[it for it in message if it[0] != 625] for message in log.messages]
    verdict = read_as("fix", log.tagged(), base_day(), tmp_path / "day.log")
    said = "which aren't compared: TradingSessionSubID (625) names no auction in their rows"
    assert verdict.word == "incomplete" and any(note.endswith(said) for note in verdict.notes)


def test_a_trade_cancel_takes_out_the_trade_that_it_names(tmp_path: Path) -> None:
    """A trade with too many shares, and its cancel by ExecRefID, beside the right one."""
    log = lawful_log()
    places_ = [at for at, it in enumerate(log.messages) if (150, "F") in it][:2]
    for number, place in enumerate(places_[::-1]):
        fields = dict(log.messages[place])
        wrong = fields | {17: f"W{number}", 32: str(int(fields[32]) + 5), 880: "TW"}
        gone = {it: text for it, text in wrong.items() if it != 880}
        bust = gone | {150: "H", 19: f"W{number}", 17: f"B{number}"}
        log.messages.insert(places_[1] + 1, [*bust.items()])
        log.messages.insert(places_[1] + 1, [*wrong.items()])
    verdict = read_as("fix", log.tagged(), base_day(), tmp_path / "day.log")
    assert not verdict.findings and not verdict.bad_rows, verdict
    assert verdict.notes["trades that busts take out"] == 1


def test_a_result_that_is_lost_is_not_the_indication_before_it(tmp_path: Path) -> None:
    """Whatever of it can't be read, or all; the indication has another price."""
    log = lawful_log()
    results = [at for at, it in enumerate(log.messages) if (268, "3") in it]
    for place in results:
        whole = log.messages[place]
        for number in range(len(whole) + 1):
            log.messages[place] = [(tag, "?" if at == number else text)
                                   for at, (tag, text) in enumerate(whole)]  # fmt: skip
            if number == len(whole):
                log.messages[place] = [(35, "0")]
            verdict = read_as("fix", log.tagged(), base_day(), tmp_path / "day.log")
            assert verdict.word == "incomplete", f"{log.messages[place]}\n{verdict}"
        log.messages[place] = whole


@pytest.mark.parametrize("price", ["0", "", None])
def test_an_auction_without_a_price_in_market_data(
    price: str | None, tmp_path: Path, capsys: pytest.CaptureFixture[str]
) -> None:
    """The opening has one bid, and a volume of 0 as its indication and its result; what is cleared
    behind the closing is no result of it. A price of None has no entry.
    """
    shared = dict(member="M1", quantity="9", price="10.00")
    none = dict(price=price, quantity="0", surplus="0", side="none", time="09:00:00")
    day = timed_day(1, 2)
    day.rows[:] = [
        dict(shared, event="new", order="A", side="bid", time="08:51:01"),
        dict(shared, event="new", order="S", side="ask", time="13:00:00"),
        dict(shared, event="trade", bid="A", ask="S", auction="closing", time="17:30:00"),
    ]
    log = FixLog(day)
    for auction in ("opening", "closing"):
        log.result(dict(none, auction=auction))
    for place in (-3, -1) if price is None else ():
        own = log.messages[place]
        log.messages[place] = [it for it in own if it not in [(269, "Q"), (270, None)]]
    (bid, *others), cleared = log.messages[:-4], log.messages[-1]
    held = ["--reference", "10", "--tick-size", "0.01", "--auctions", "opening,closing"]
    path = tmp_path / "day.log"
    for before, after, count in ((0, 1, "2 of 2"), (1, 1, "2 of 2"), (0, 0, "1 of 2")):
        empty = [log.messages[-3]]
        whole = [*empty * before, bid, *empty * after, *others, cleared]
        path.write_text("".join(f"{line(it)}\n" for it in whole))
        assert main(["audit", str(path), "--shape", "fix", *held]) == 5
        assert f"\nauctions {count}\n" in capsys.readouterr().out


def test_a_report_of_no_known_message_type_is_a_bad_row(tmp_path: Path) -> None:
    log = lawful_log()
    place = next(at for at, it in enumerate(log.messages) if (150, "F") in it)
    log.messages[place][0] = (35, "?")
    verdict = read_as("fix", log.tagged(), base_day(), tmp_path / "day.log")
    assert verdict.word == "incomplete" and "MsgType (35) '?' is none" in str(verdict.bad_rows[0])


def test_continuous_trading_in_a_log_leaves_a_doubt(tmp_path: Path) -> None:
    """A pair of orders that trades at once after the opening, in the session 3."""
    log = lawful_log()
    made = [at for at, it in enumerate(log.messages) if (150, "F") in it and (625, "2") in it]
    time = dict(log.messages[made[-1] + 1])[60]
    for number, (side, price) in enumerate((("1", "10.30"), ("2", "9.70"))):
        head = [(35, "8"), (48, "DE1"), (37, f"X{side}"), (54, side), (60, time)]
        entry = [(150, "0"), (40, "2"), (44, price), (38, "900"), (151, "900"), (59, "0")]
        trade = [(150, "F"), (31, "10.00"), (32, "900"), (151, "0"), (880, "C"), (625, "3")]
        at = made[-1] + 2 + number
        log.messages.insert(at, [*head, (17, f"C{side}"), *entry])
        log.messages.insert(at + 1 + number, [*head, (17, f"D{side}"), *trade])
    verdict = read_as("fix", log.tagged(), base_day(), tmp_path / "day.log")
    assert verdict.word == "incomplete" and verdict.doubtful, str(verdict)
    assert any("audit-auction" in str(row) for row in verdict.bad_rows)
    closed = [finding for finding in verdict.doubtful if finding.auction == "opening"]
    assert not closed


def test_a_condition_that_drops_a_report_of_a_trade_leaves_a_doubt(tmp_path: Path) -> None:
    log = lawful_log()
    reports = [dict(it)[17] for it in log.messages if (150, "F") in it]
    path = tmp_path / "day.log"
    path.write_text(log.tagged())
    for where in (f"ExecID != {reports[0]}", f"ExecID != {reports[-1]}", "LastQty != 20"):
        reading = shapes.joined_shapes(shapes.reading_of("fix"), {"where": (where,)})
        verdict = audit_events(path, reference=base_day().reference, tick_size="0.01",
                               reading=reading)  # fmt: skip
        assert verdict.word == "incomplete", f"{where}\n{verdict}"


def log_of_one_time(executed: str = "B") -> FixLog:
    """A and B have one limit and one time, and A's report is the first one; D has the time of the
    uncross, and its report is behind those of the trade.
    """
    day = timed_day(1, 2)
    shared = dict(member="M1", quantity="9", price="10.00")
    day.rows[:] = [
        dict(shared, event="new", order="A", side="bid", time="08:51:01"),
        dict(shared, event="new", order="B", side="bid", time="08:51:01"),
        dict(shared, event="new", order="S", side="ask", time="08:52:00"),
        dict(shared, event="uncross", surplus="9", side="bid", auction="opening", time="09:00:00"),
        dict(shared, event="trade", bid=executed, ask="S", auction="opening", time="09:00:00"),
        dict(shared, event="new", order="D", side="ask", time="09:00:00"),
    ]
    return FixLog(day)


def word_of(log: FixLog, path: Path, *more: str) -> str:
    path.write_text(log.tagged(), encoding="utf-8")
    reading = shapes.joined_shapes(shapes.reading_of("fix"), {"sort": "--sort" in more})
    terms = dict(reference="10", tick_size="0.01", auctions=["opening"], reading=reading)
    return audit_events(path, **terms).word  # type: ignore[arg-type]


@pytest.mark.parametrize("words", [[], ["--sort"]])
def test_numbers_of_messages_are_the_order_of_reports_of_one_time(
    words: list[str], tmp_path: Path
) -> None:
    assert word_of(log_of_one_time(), tmp_path / "day.log", *words) == "unlawful"
    log = log_of_one_time("A")
    assert word_of(log, tmp_path / "day.log", *words) == "incomplete"
    late = next(it for it in log.messages if (37, "D") in it)
    late[:] = [(tag, "0" if tag == 34 else it) for tag, it in late]
    assert word_of(log, tmp_path / "day.log", *words) == "incomplete"


@pytest.mark.parametrize("numbers", [
    [(34, None)], [(34, "7")], [(34, "4"), (37, "S")], [(34, "x")],
    [(56, "X"), (37, "A")], [(49, "X"), (37, "S")],
])  # fmt: skip
def test_numbers_of_several_sessions_are_no_order(
    numbers: list[tuple[int, str | None]], tmp_path: Path
) -> None:
    """None, one for all, one by which times fall, no number, and another sender or target."""
    log, (tag, text) = log_of_one_time(), numbers[0]
    for fields in log.messages:
        if len(numbers) < 2 or numbers[1] in fields:
            fields[:] = [it for it in fields if it[0] != tag]
            fields += [(tag, text)] if text is not None else []
    assert word_of(log, tmp_path / "day.log") == "incomplete"


def test_a_result_without_a_sequence_has_the_time_of_orders() -> None:
    """S may have been before it."""
    rows = [
        dict(event="new", order="A", side="bid", price="10", quantity="9", time="09:00"),
        dict(event="uncross", price="10", quantity="9", auction="opening", time="09:01"),
        dict(event="new", order="S", side="ask", price="10", quantity="9", time="09:01"),
    ]
    for number, word in (("", "incomplete"), ("2", "unlawful")):
        for place, row in enumerate(rows):
            row["sequence"] = str(1 + place) if row["event"] == "new" else number
        verdict = audit_events(frame_of(rows), reference="10", tick_size="0.01",
                               auctions=["opening"])  # fmt: skip
        assert verdict.word == word, str(verdict)


def test_orders_of_other_types_are_bad_rows(tmp_path: Path) -> None:
    log = lawful_log()
    [first, *_] = [it for it in log.messages if (150, "0") in it]
    first[:] = [(40, "3") if tag == 40 else (tag, text) for tag, text in first]
    verdict = read_as("fix", log.tagged(), base_day(), tmp_path / "day.log")
    assert verdict.word == "incomplete"
    assert "event 'OrdType 3' is none of " in str(verdict.bad_rows[0])


@pytest.mark.parametrize("text", ["a,b\n1,2\n", line([(35, "0")]) + "\n"])
def test_a_file_without_execution_reports_is_refused(
    text: str, tmp_path: Path, capsys: pytest.CaptureFixture[str]
) -> None:
    path = tmp_path / "day.log"
    path.write_text(text)
    words = ["--shape", "fix", "--reference", "10", "--tick-size", "0.01"]
    assert main(["audit", str(path), *words]) == 1
    assert capsys.readouterr().err.count("\n") == 1


# ---- orders that venues keep


@pytest.mark.parametrize("seed", SEEDS)
def test_orders_that_venues_keep_have_the_verdict_of_their_day(seed: int, tmp_path: Path) -> None:
    extract = timed_day(seed, 15)
    if any(row.get("restriction") or (row["event"] == "cancel" and row.get("quantity"))
           for row in extract.rows) or extract.range is not None:  # fmt: skip
        extract = base_without_restrictions(seed)
    path = tmp_path / "day.csv"
    path.write_text(kept_for_supervision(extract), encoding="utf-8")
    reading = shapes.joined_shapes(shapes.reading_of("rts24"), {"separator": ";"})
    verdict = audit_events(
        path, reference=extract.reference, tick_size="0.01", reading=reading
    )
    assert verdict.word == "incomplete" and not verdict.findings, f"{seed}\n{verdict}"
    priced = sum(outcome.tick is not None for outcome in extract.lawful)
    assert not verdict.bad_rows and (priced < 3 or not verdict.doubtful)
    assert verdict.coverage["prices"][0] == priced


def base_without_restrictions(seed: int) -> Extract:
    """A day without restrictions, cancels of some shares and ranges."""
    for other in range(1000 * seed + 1000, 1000 * seed + 3000):
        found = timed_day(other, 6)
        is_plain = not any(
            row.get("restriction") or (row["event"] == "cancel" and row.get("quantity"))
            for row in found.rows
        )
        if is_plain and found.range is None and any(it.trades > 1 for it in found.lawful):
            return found
    raise LookupError


# ---- shapes and columns


def test_a_column_for_each_kind_of_row(
    tmp_path: Path, capsys: pytest.CaptureFixture[str]
) -> None:
    day = base_day()
    rows = [dict(row) for row in day.rows]
    for row in rows:
        for name in ("price", "quantity"):
            if row["event"] in ("trade", "uncross") and name in row:
                row[f"Last{name}"] = row.pop(name)
    path = tmp_path / "day.csv"
    path.write_text(text_of(rows))
    words = ["audit", str(path), "--tick-size", "0.01", "--reference", day.reference]
    of_trades = "trade.price=Lastprice,trade.quantity=Lastquantity"
    of_results = "uncross.price=Lastprice,uncross.quantity=Lastquantity"
    assert main([*words, "--columns", f"{of_trades},{of_results}"]) == 0
    assert main([*words, "--columns", of_trades, "--ignore", "*"]) == 5
    capsys.readouterr()
    for wrong, status in (("order.price=Lastprice", 2), ("trade.event=Lastprice", 2),
                          ("trade.pryce=Lastprice", 2), ("trade.price=Last", 1)):
        assert main([*words, "--columns", wrong]) == status
        assert capsys.readouterr().err.count("\n") == 1


def test_a_shape_is_a_file_that_can_be_copied_and_edited(
    tmp_path: Path, capsys: pytest.CaptureFixture[str]
) -> None:
    text = shapes.path_of("fix").read_text(encoding="utf-8")
    mine = tmp_path / "mine.toml"
    mine.write_text(text.replace('member = "PartyID"', 'member = "Account"'), encoding="utf-8")
    assert shapes.reading_of(str(mine)).columns["member"] == "Account"
    assert shapes.names() == ["fix", "rts24"]
    day = ["audit", str(EXTRACTS / "german.csv"), "--reference", "1", "--tick-size", "1", "--shape"]
    for content in ("colums = 1", "[columns]\norder = 1", "sort = 'yes'", "= 1", "format = 'xml'",
                    "where = 'a == b'", "values = {side = 'bid'}"):
        mine.write_text(content)
        assert main([*day, str(mine)]) == 2, content
        assert capsys.readouterr().err.count("\n") == 1
    assert main([*day, "nothing"]) == 2
    assert "is neither a file nor one of fix, rts24" in capsys.readouterr().err


def test_a_journal_is_made_of_the_orders_of_a_log(
    tmp_path: Path, capsys: pytest.CaptureFixture[str]
) -> None:
    words = ["convert", str(EXTRACTS / "fix.log"), "--shape", "fix", "--reference", "19.90",
             "--tick-size", "0.01", "-o", str(tmp_path / "journal.csv")]  # fmt: skip
    assert main(words) == 2
    assert "--pair: a journal has a trade in one row" in capsys.readouterr().err
    assert main([*words, "--where", "ExecType != F", "--pair", ""]) == 0
    assert len((tmp_path / "journal.csv").read_text().splitlines()) > 8


def test_options_add_to_a_shape() -> None:
    shape = Reading(columns={"order": "Id", "time": "T"}, values={"side": {"B": "bid"}},
                    market=("0",), separator=";")
    own = {"columns": {"time": "", "member": "M"}, "values": {"side": {"S": "ask"}},
           "market": ("MKT",), "separator": None, "sort": True}  # fmt: skip
    found = shapes.joined_shapes(shape, own)
    assert found.columns == {"order": "Id", "member": "M"} and found.sort
    assert found.values == {"side": {"B": "bid", "S": "ask"}}
    assert found.market == ("0", "MKT") and found.separator == ";"


# ---- busts


@pytest.mark.parametrize("seed", TRADED)
def test_a_bust_takes_a_trade_out(seed: int) -> None:
    """Of a trade and its rebooking one is left; the bust of a lawful one is in doubt; one of no
    trade is a bad row.
    """
    extract = timed_day(seed)
    trades = places(extract.rows, "trade")
    place = random.Random(seed).choice(trades)
    row = extract.rows[place]
    bust = {name: row[name] for name in ("time", "bid", "ask", "quantity", "price")}
    bust["event"] = "bust"
    rebooked = extract.copy()
    rebooked.rows[place + 1 : place + 1] = [bust, dict(row)]
    assert judged(rebooked).word == "lawful", str(judged(rebooked))
    busted = extract.copy()
    busted.rows.insert(place + 1, bust)
    verdict = judged(busted)
    assert verdict.word == "incomplete", str(verdict)
    if len(trades) > 1:
        assert f"a bust takes the trade of row {place} out" in str(verdict)
    stray = extract.copy()
    stray.rows.insert(place + 1, {**bust, "quantity": "999999"})
    verdict = judged(stray)
    assert verdict.word == "incomplete" and "no trade has its orders" in str(verdict.bad_rows[0])


def test_a_bust_of_a_wrong_trade_leaves_the_fault() -> None:
    """A trade of two other orders, which is busted and not made again, is missing for certain."""
    for seed in SEEDS:
        extract = timed_day(seed)
        trades = places(extract.rows, "trade")
        if len(trades) > 1:
            row = extract.rows[trades[0]]
            wrong = {**row, "bid": row["ask"], "ask": row["bid"]}
            extract.rows[trades[0] : trades[0] + 1] = [wrong, {**wrong, "event": "bust"}]
            verdict = judged(extract)
            assert verdict.word == "unlawful", str(verdict)
            assert verdict.findings[0].recorded == "no such trade"


def test_random_days_have_times_that_logs_can_have() -> None:
    assert instant(random_day(1).rows[0]["time"]).startswith("20261127-0")


@pytest.mark.parametrize("cells, said", [
    ({"quantity": "999"}, "{bid} ask {ask}: 999 at {price}"),
    ({"bid": "XX", "ask": "YY"}, "XX ask YY: {quantity} at {price}"),
    ({"price": "9.5"}, "{bid} ask {ask}: {quantity} at 9.5"),
    ({"price": ""}, ""),
])  # fmt: skip
def test_a_bust_of_no_trade_is_said_with_its_row_and_trade(
    cells: dict[str, str], said: str, tmp_path: Path, capsys: pytest.CaptureFixture[str]
) -> None:
    """It is the only fault; the last one here names a trade, which is in doubt."""
    day = base_day().copy()
    trade = day.rows[places(day.rows, "trade")[0]]
    day.rows.append(trade | {"event": "bust"} | cells)
    path, table = tmp_path / "day.csv", tmp_path / "findings.csv"
    path.write_text(text_of(day.rows))
    words = ["audit", str(path), "--tick-size", "0.01", "--reference", day.reference]
    assert main([*words, "--findings", str(table)]) == 5
    line = f"row {len(day.rows) + 1}: no trade has its orders, its shares and its price: bid "
    line += said.format(**trade)
    assert (f"callauction: {line}\n" in capsys.readouterr().err) == (said != "")
    assert (line in table.read_text()) == (said != "")


def test_a_trade_cancel_of_an_unknown_report_takes_no_other_out(tmp_path: Path) -> None:
    """It has the order, the shares and the price of a lawful trade, whose sides stay joined."""
    log = lawful_log()
    [first, *_] = [it for it in log.messages if (150, "F") in it]
    bust = {tag: text for tag, text in first if tag != 880}
    log.messages.append([*(bust | {150: "H", 19: "W9", 17: "B9"}).items()])
    verdict = read_as("fix", log.tagged(), base_day(), tmp_path / "day.log")
    whole, due = verdict.coverage["trades"]
    assert whole == due > 0 and not verdict.doubtful, str(verdict)
    label, order = len(log.messages), bust[37]
    said = f"row {label}: no trade has its orders, its shares and its price: {order}: {bust[32]}"
    assert [str(row) for row in verdict.bad_rows] == [f"{said} at {bust[31]}"]
    assert f"(17), such as 'W9' in row {label}: 1" in "\n".join(verdict.remarks())

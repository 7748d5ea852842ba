"""Times of an extract in many forms: what can't be read says nothing of which row came first."""
import json
import re
from collections.abc import Callable
from pathlib import Path

import pytest
from damage import ORDERS, places
from days import seconds
from desk import TRADE, UNCROSS, audited, base_rows, by_order, text_of
from extracts import Rows

Printed = pytest.CaptureFixture[str]
Form = Callable[[str], str]


def timed(form: Form, *events: str) -> Rows:
    """The base day's rows with times in another form, of all events or of these."""
    rows = base_rows()
    for place in places(rows, *(events or (*ORDERS, UNCROSS, TRADE))):
        rows[place]["time"] = form(rows[place]["time"])
    return rows


def halved(time: str) -> str:
    return f"{int(time[:2]) % 12 or 12}{time[2:]} {'AM' if time < '12' else 'PM'}"


# ---- dates with strokes


@pytest.mark.parametrize("form, words", [
    ("11/25/2026 {}", []),
    ("25/11/2026 {}", []),
    ("4/4/2026 {}", []),
    ("5/6/2026 {}", []),
    ("2026/11/25 {}", []),
    ("2026/1/5 {}", []),
    ("25.11.2026 {}", []),
    ("5.6.2026 {}", []),
    ("5/6/2026 {}", ["--dates", "dmy"]),
    ("5/6/2026 {}", ["--dates", "mdy"]),
])  # fmt: skip
@pytest.mark.parametrize("clock", [str, halved])
def test_dates_that_all_rows_leave_one_reading_of_are_read(
    form: str, words: list[str], clock: Form, tmp_path: Path
) -> None:
    rows = timed(lambda text: form.format(clock(text)))[::-1]
    assert audited(text_of(by_order(rows)), ["--sort", *words], tmp_path) == 0
    rows[places(rows, UNCROSS)[0]]["quantity"] = "7"
    assert audited(text_of(by_order(rows)), ["--sort", *words], tmp_path) == 4


def test_one_row_may_say_what_all_dates_are(tmp_path: Path) -> None:
    """An order of 13 November and the others of 12 December, or of two days in the other reading.
    """
    rows = timed(lambda text: f"12/12/2026 {text}")
    first = places(rows, "new")[0]
    rows[first]["time"] = rows[first]["time"].replace("12/12", "11/13")
    assert audited(text_of(rows[::-1]), ["--sort"], tmp_path) in (0, 5)
    rows[first]["time"] = rows[first]["time"].replace("11/13", "13/11")
    assert audited(text_of(rows[::-1]), ["--sort"], tmp_path) in (0, 5)


def test_dates_of_two_readings_are_refused_with_the_option_that_says_it(
    tmp_path: Path, capsys: Printed
) -> None:
    """The orders are of 3 April and of 4 March, the results of 4 April: all before them in one
    reading alone would be of another day.
    """
    rows = timed(lambda text: f"4/4/2026 {text}")
    first = places(rows, "new")[0]
    rows[first]["time"] = rows[first]["time"].replace("4/4", "4/3")
    assert audited(text_of(rows), ["--sort"], tmp_path) == 1
    assert "row 2 (say --dates dmy or mdy)\n" in capsys.readouterr().err
    for dates in ("dmy", "mdy"):
        assert audited(text_of(rows), ["--sort", "--dates", dates], tmp_path) == 0
    audited(text_of(rows), [], tmp_path)
    assert "(--dates dmy or mdy says it): 1\n" in capsys.readouterr().err


def test_dates_of_no_reading_are_refused(tmp_path: Path, capsys: Printed) -> None:
    rows = timed(lambda text: f"25/11/2026 {text}")
    rows[0]["time"] = rows[0]["time"].replace("25/11", "11/25")
    assert audited(text_of(rows), ["--sort"], tmp_path) == 1
    assert "times can't be read to sort rows" in capsys.readouterr().err


def test_conditions_have_dates_with_strokes(tmp_path: Path) -> None:
    rows = timed(lambda text: f"11/25/2026 {text}")
    late = [dict(rows[0], order="LATE", time="11/26/2026 09:00:00")]
    words = ["--where", "time < 11/26/2026 00:00:00"]
    assert audited(text_of(rows + late), words, tmp_path) == 0


# ---- times that say nothing of an order


@pytest.mark.parametrize("change", [
    by_order,
    lambda rows: rows[::-1],
    lambda rows: sorted(rows, key=lambda row: row["event"] not in ORDERS),
])
def test_times_that_cannot_be_read_are_no_proof_of_an_order(
    change: Callable[[Rows], Rows], tmp_path: Path
) -> None:
    """The day is lawful by its times, and its rows are in another order."""
    rows = change(timed(lambda text: f"Nov 25 {text}"))
    assert audited(text_of(rows), [], tmp_path) in (1, 5)
    assert audited(text_of(rows), ["--sort"], tmp_path) == 1


def test_one_time_that_cannot_be_read_leaves_what_is_above_certain(tmp_path: Path) -> None:
    rows = base_rows()
    ends = places(rows, UNCROSS)
    later = next(at for at in places(rows, *ORDERS) if at > ends[1])
    rows[later]["time"] = "?"
    assert audited(text_of(rows), [], tmp_path) == 0
    for number, status in enumerate((4, 4, 5)):
        wrong = [dict(row) for row in rows]
        wrong[ends[number]]["surplus"] = "987654"
        assert audited(text_of(wrong), [], tmp_path) == status


@pytest.mark.parametrize("event", ["new", "cancel", UNCROSS])
@pytest.mark.parametrize("time, said", [
    ("", "rows without a time, which nothing says where to sort, such as row {}: 1\n"),
    ("9h", "times that can't be read, such as '9h': 1\n"),
])  # fmt: skip
def test_one_row_without_a_time_among_sorted_ones_leaves_the_day_in_doubt(
    event: str, time: str, said: str, tmp_path: Path, capsys: Printed
) -> None:
    """It stays where it is where all others do; else nothing says where it belongs."""
    rows = base_rows()
    rows[places(rows, event)[-1]]["time"] = time
    assert audited(text_of(rows), ["--sort"], tmp_path) in (0, 5)
    capsys.readouterr()
    rows = by_order(rows)
    assert audited(text_of(rows), ["--sort"], tmp_path) == 5
    row = 2 + next(at for at, it in enumerate(rows) if it["time"] == time)
    assert said.format(row) in capsys.readouterr().err


def test_what_no_book_gives_is_certain_beside_a_row_without_a_time(tmp_path: Path) -> None:
    rows = base_rows()
    rows[places(rows, TRADE)[0]]["price"] = "987.65"
    rows[places(rows, "new")[-1]]["time"] = ""
    assert audited(text_of(by_order(rows)), ["--sort"], tmp_path) == 4


def test_a_row_without_a_time_is_of_its_instrument_alone(tmp_path: Path, capsys: Printed) -> None:
    rows = by_order(base_rows())
    both = [dict(row, isin=name) for name in ("DE1", "DE2") for row in rows]
    both[places(both, "new")[-1]]["time"] = ""
    words = ["--sort", "--by", "isin"]
    assert audited(text_of(both), words, tmp_path) == 5
    printed = capsys.readouterr().out
    assert "DE2, doubtful: row " in printed and "DE1" not in printed
    assert audited(text_of(both), [*words, "--json"], tmp_path) == 5
    words_of = [json.loads(line)["verdict"] for line in capsys.readouterr().out.splitlines()]
    assert words_of[:2] == ["lawful", "incomplete"]


@pytest.mark.parametrize("time", ["", "9h"])
def test_many_rows_without_a_time_are_not_sorted(
    time: str, tmp_path: Path, capsys: Printed
) -> None:
    rows = by_order(base_rows())
    news = places(rows, "new")
    for place in news[: 1 + len(rows) // 10]:
        rows[place]["time"] = time
    assert audited(text_of(rows), ["--sort"], tmp_path) == 1
    said = "times can't be read to sort rows" if time else "rows have no time, such as row "
    assert said in capsys.readouterr().err


@pytest.mark.parametrize("form", [
    lambda text: str(1795737600 + seconds(text)),
    lambda text: f"20261127{text.replace(':', '')}",
    lambda text: f"11/27/2026 {text}",
])
def test_times_of_two_forms_are_not_sorted(form: Form, tmp_path: Path, capsys: Printed) -> None:
    """Numbers of an epoch beside times of a day, as well as dates beside none."""
    rows = timed(form, *ORDERS)
    assert audited(text_of(rows), ["--sort"], tmp_path) == 1
    assert "have times of two forms" in capsys.readouterr().err


@pytest.mark.parametrize("own, late", [
    ("1795737678310", "1795737678"), ("9018.31", "9018"), ("20261127090018310", "20261127090018"),
])
def test_numbers_of_results_may_be_coarser_than_those_of_orders(
    own: str, late: str, tmp_path: Path
) -> None:
    """Sorted the result is above an order that was before it in its second."""
    text = f"""event,time,order,side,price,quantity,surplus,auction,trades,bid,ask
new,{own[:-2]}00,A,bid,10.02,1000,,,,,
new,{own},S,ask,10.02,1000,,,,,
uncross,{late},,,10.02,1000,0,opening,1,,
trade,{late},,,10.02,1000,,opening,,A,S
"""
    assert audited(text, ["--auctions", "opening", "--sort"], tmp_path) == 5


# ---- rows of orders without a time, in a file that isn't sorted

BLANK = """event,time,order,side,price,quantity,surplus,auction,trades,bid,ask
new,08:50:00,A,bid,10.00,1000,,,,,
new,08:51:00,B,bid,10.00,500,,,,,
new,08:52:00,S,ask,10.00,1200,,,,,
uncross,09:00:00,,bid,10.00,1200,300,opening,2,,
trade,09:00:00,,,10.00,1000,,opening,,A,S
trade,09:00:00,,,10.00,200,,opening,,B,S
new,09:10:00,T,ask,10.00,100,,,,,
uncross,17:30:00,,bid,10.00,100,200,closing,1,,
trade,17:30:00,,,10.00,100,,closing,,B,T
"""
"""A bids 1,000 before B bids 500, S asks 1,200: B is left with 300, of which T gets 100."""


def moved(order: str, place: int) -> str:
    """The file with the row of an order at another place among the others, its time left out."""
    lines = BLANK.splitlines()
    [own] = [line for line in lines if line.startswith("new") and line.split(",")[2] == order]
    lines.remove(own)
    event, _, rest = own.split(",", 2)
    lines.insert(place, f"{event},,{rest}")
    return "\n".join([*lines, ""])


@pytest.mark.parametrize("order", ["A", "B", "S", "T"])
@pytest.mark.parametrize("place", [1, 9])
def test_an_order_without_a_time_may_only_have_been_put_first_or_last(
    order: str, place: int, tmp_path: Path, capsys: Printed
) -> None:
    """A database puts rows without a time first or last; where it belongs nothing says."""
    words = ["--auctions", "opening,closing"]
    assert audited(BLANK, words, tmp_path) == 0
    capsys.readouterr()
    assert audited(moved(order, place), words, tmp_path) in (0, 5)
    said = capsys.readouterr()
    assert f"which count by their place, such as row {place + 1}: 1\n" in said.err
    wrong = moved(order, place).replace("10.00,1000,,opening", "10.01,1000,,opening")
    assert audited(wrong, words, tmp_path) == 4


def test_where_no_order_has_a_time_their_places_count(tmp_path: Path) -> None:
    rows = [re.sub(r"^(new),[^,]*", r"\1,", line) for line in BLANK.splitlines()]
    text, words = "\n".join([*rows, ""]), ["--auctions", "opening,closing"]
    assert audited(text, words, tmp_path) == 0
    assert audited(text.replace("1200,300", "1200,301"), words, tmp_path) == 4


def test_an_order_without_a_time_leaves_the_auctions_above_it_certain(tmp_path: Path) -> None:
    text, words = BLANK.replace("new,09:10:00,T", "new,,T"), ["--auctions", "opening,closing"]
    assert audited(text, words, tmp_path) == 0
    assert audited(text.replace("1200,300", "1200,301"), words, tmp_path) == 4
    assert audited(text.replace("100,200", "100,201"), words, tmp_path) == 5

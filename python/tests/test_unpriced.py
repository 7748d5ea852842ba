"""Replaces without a price: each may have left it as it was, or have another one, which the file
doesn't say, so that what differs by them is in doubt.
"""
from pathlib import Path

import pytest
from callauction.__main__ import main

HEAD = "event,time,order,member,side,price,quantity,surplus,auction,trades,bid,ask\n"
TERMS = ["--tick-size", "0.01", "--reference", "10.00", "--auctions", "opening"]
LINES = {
    "one": """new,09:00:01,A,P,bid,10.00,600,,,,,
new,09:00:02,E,Q,ask,9.98,500,,,,,
new,09:00:05,F,Q,ask,10.02,200,,,,,
replace,09:00:06,F,Q,ask,{},200,,,,,
uncross,09:01:00,,,ask,9.99,600,100,opening,2,,
trade,09:01:00,,,,9.99,500,,opening,,A,E
trade,09:01:00,,,,9.99,100,,opening,,A,F
""",
    "two": """new,09:00:01,A,P,bid,10.00,500,,,,,
new,09:00:02,E,Q,ask,9.99,500,,,,,
replace,09:00:03,E,Q,ask,{},500,,,,,
new,09:00:04,B,Q,ask,9.98,100,,,,,
new,09:00:05,F,Q,ask,10.02,300,,,,,
replace,09:00:06,F,Q,ask,{},200,,,,,
uncross,09:01:00,,,ask,9.99,500,300,opening,3,,
trade,09:01:00,,,,9.99,100,,opening,,A,B
trade,09:01:00,,,,9.99,200,,opening,,A,F
trade,09:01:00,,,,9.99,200,,opening,,A,E
""",
}
PRICES = {"one": ("9.99",), "two": ("9.99", "9.98")}


def audited(lines: str, folder: Path) -> int:
    """The status of an audit of these lines."""
    path = folder / "day.csv"
    path.write_text(HEAD + lines)
    return main(["audit", str(path), *TERMS])


@pytest.mark.parametrize("name", LINES)
def test_what_a_price_that_is_not_said_decides_is_in_doubt(
    name: str, tmp_path: Path, capsys: pytest.CaptureFixture[str]
) -> None:
    assert audited(LINES[name].format(*PRICES[name]), tmp_path) == 0, capsys.readouterr()
    capsys.readouterr()
    assert audited(LINES[name].format("", ""), tmp_path) == 5
    found = capsys.readouterr().out
    assert "findings 0" in found and "replaces have no price: is it unchanged?" in found


def test_trades_at_two_prices_stay_certain(tmp_path: Path) -> None:
    lines = LINES["one"].format("").replace("9.99,100,,opening", "10.00,100,,opening")
    assert audited(lines, tmp_path) == 4

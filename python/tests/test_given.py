"""Lawful days in which replaces give orders ids that a column has which isn't read: the line says
which column it is, and none of it is unlawful.
"""
from typing import Any

import pytest
from callauction.verdict import Reading, Verdict, audit_events
from callauction.verdict.audited import Audited
from callauction.verdict.extract import read_table
from callauction.verdict.instrument_terms import days_of
from callauction.verdict.instruments import instrument_table_of
from judging import frame_of
from lines import timed_rows


def opening(text: str, cells: dict[int, dict[str, str]], **columns: str) -> Verdict:
    """The verdict on an opening of these lines, with other cells in some rows."""
    rows = timed_rows(text)
    for place, other in cells.items():
        rows[place] |= other
    names = {name.replace("__", "."): it for name, it in columns.items()}
    reading = Reading(ignore=("*",), unrestricted=True, columns=names)
    terms: dict[str, Any] = dict(reference="10", tick_size="0.01", auctions=["opening"])
    return audit_events(frame_of(rows), reading=reading, **terms)


DAY = """
    new 08:50:01 A bid 100 10.01
    new 08:50:02 B bid 100 10.00
    new 08:50:03 C bid 100 10.00
    new 08:50:04 S ask 250 10.00
    replace 08:51 A2 bid 100 10.00
    replace 08:52 B bid 90 10.00
    uncross 09:00 10.00 250 40 bid 3 opening
    trade 09:00 B S 90 10.00 opening
    trade 09:00 C S 100 10.00 opening
    trade 09:00 A2 S 60 10.00 opening
"""
BEFORE = {4: {"OrigClOrdID": "A"}}
AFTER = {4: {"order": "A", "Ersatz": "A2"}}
SAID = "OrigClOrdID has 'A': is it that order? " \
    "(--columns replace.order=OrigClOrdID,replace.new_order=order)"


@pytest.mark.parametrize("text, cells, said", [
    (DAY, BEFORE, SAID),
    (DAY.replace("09:00 A2", "09:00 A"), BEFORE, SAID),
    (DAY, AFTER,
     "Ersatz of row 4 has that id: did the replace give it? (--columns new_order=Ersatz)"),
])
def test_the_column_of_ids_that_replaces_give_is_named(
    text: str, cells: dict[int, dict[str, str]], said: str
) -> None:
    """By its replace A stands behind B and C at 10.00."""
    verdict = opening(text, cells)
    assert verdict.word == "incomplete", str(verdict)
    assert verdict.doubtful and all(said in it.doubt for it in verdict.doubtful)
    other = text.replace("S 100 10.00", "S 100 10.01")
    found = opening(other, cells)
    rules = {it.rule.split(",")[0] for it in found.findings}
    assert rules <= {"All trades of an auction are at its one price.",
                     "No order is executed beyond its limit."} and rules, str(found)  # fmt: skip


@pytest.mark.parametrize("cells, columns", [
    (BEFORE, {"replace__order": "OrigClOrdID", "replace__new_order": "order"}),
    (AFTER, {"new_order": "Ersatz"}),
])
def test_with_the_column_the_day_is_lawful(
    cells: dict[int, dict[str, str]], columns: dict[str, str]
) -> None:
    rest = {5: {"OrigClOrdID": "B"}} if cells is BEFORE else {}
    verdict = opening(DAY, cells | rest, **columns)
    assert not verdict.findings and not verdict.doubtful, str(verdict)


def test_a_limit_that_such_a_replace_may_have_changed_is_in_doubt() -> None:
    text = """
        new 08:50:01 A bid 100 10.00
        new 08:50:04 S ask 100 10.02
        replace 08:51 A2 bid 100 10.02
        uncross 09:00 10.02 100 0 none 1 opening
        trade 09:00 A S 100 10.02 opening
    """
    verdict = opening(text, {2: {"OrigClOrdID": "A"}})
    assert verdict.word == "incomplete", str(verdict)
    verdict = opening(text, {2: {"OrigClOrdID": "S"}})
    assert [it.item for it in verdict.findings] == ["trade"], str(verdict)


def test_a_number_in_a_column_of_no_ids_names_no_order() -> None:
    text = DAY.replace(" A ", " 7 ").replace(" A2 ", " 9 ")
    assert "--columns" not in str(opening(text, {4: {"Depth": "7"}}))
    assert "replace.order=OrderRef" in str(opening(text, {4: {"OrderRef": "7"}}))


# ---- of several instruments


OTHER = """
    new 08:50:01 A bid 100 10.00
    new 08:50:02 A2 bid 100 10.00
    new 08:50:04 S ask 200 10.00
    uncross 09:00 10.00 200 0 none 2 opening
    trade 09:00 A S 100 10.00 opening
    trade 09:00 A2 S 100 10.00 opening
"""


Lines = tuple[str, dict[int, dict[str, str]]]
"""Lines of a day, and other cells in some rows."""


def each_of(days: dict[str, Lines]) -> dict[str, Audited]:
    """The verdicts on openings of instruments in one file, which are read at once."""
    whole = [{"ISIN": name, **row, **cells.get(place, {})} for name, (text, cells) in days.items()
             for place, row in enumerate(timed_rows(text))]  # fmt: skip
    reading = Reading(ignore=("*",), unrestricted=True)
    terms: dict[str, Any] = dict(reference="10", tick_size="0.01", auctions=["opening"])
    table = read_table(frame_of(whole), reading, "ISIN")
    instruments = instrument_table_of(table, reading, "ISIN", days_of(None, "ISIN"), terms)
    return {it.name: it for it in instruments.part([*range(len(instruments.names))])}


@pytest.mark.parametrize("names", ["XY", "YX"])
def test_each_instrument_has_its_own_column_of_ids(names: str) -> None:
    """The other one enters the ids that the first one's replace has, and is lawful."""
    days: dict[str, Lines] = {"X": (DAY, BEFORE), "Y": (OTHER, {})}
    found = each_of({name: days[name] for name in names})
    assert found["Y"].word == "lawful" and not found["Y"].remarks, str(found["Y"])
    assert found["X"].word == "incomplete", str(found["X"])
    assert all(SAID in line for line in (*found["X"].lines, found["X"].remarks[0]))


@pytest.mark.parametrize("names", ["XY", "YX"])
def test_an_order_of_another_instrument_is_not_the_replaced_one(names: str) -> None:
    """The first one has no row that enters it."""
    text = DAY.replace("    new 08:50:01 A bid 100 10.01\n", "")
    days: dict[str, Lines] = {"X": (text, {3: BEFORE[4]}), "Y": (OTHER, {})}
    found = each_of({name: days[name] for name in names})
    assert found["Y"].word == "lawful" and found["X"].word == "incomplete", str(found)
    assert "is it that order" not in str(found)


def test_each_instrument_names_its_own_replace() -> None:
    found = each_of({"X": (DAY, AFTER), "Y": (DAY, AFTER), "Z": (OTHER, {})})
    for name, row in (("X", 4), ("Y", 4 + len(timed_rows(DAY)))):
        said = f"Ersatz of row {row} has that id: did the replace give it?"
        assert found[name].word == "incomplete", str(found[name])
        assert all(said in line for line in found[name].lines), str(found[name])
    assert found["Z"].word == "lawful", str(found["Z"])
    late = OTHER + "    replace 10:00 A bid 1 9"
    found = each_of({"X": (DAY, {4: {"order": "A"}}), "Y": (late, {6: AFTER[4]})})
    assert "Ersatz" not in str(found["X"])

"""What is said of a finding."""
from callauction.verdict import audit_events
from desk import base_day, base_rows
from extracts import Extract, Rows
from judging import frame_of, judged, judged_rows


def test_a_finding_of_a_fill_has_the_recorded_price() -> None:
    """A is filled with 9 at 10.05, where 10 at 10.00 are lawful."""
    rows: Rows = [
        dict(event="new", order="A", side="bid", price="10.00", quantity="10"),
        dict(event="new", order="B", side="ask", price="10.00", quantity="10"),
        dict(event="uncross", price="10.00", quantity="10", surplus="0", side="none",
             auction="opening"),
        dict(event="fill", order="A", quantity="9", price="10.05"),
        dict(event="fill", order="B", quantity="10", price="10.00"),
    ]  # fmt: skip
    verdict = audit_events(frame_of(rows), reference="10", tick_size="0.01", auctions=["opening"])
    [finding] = verdict.findings
    assert (finding.recorded, finding.lawful) == ("A 9 at 10.05", "A 10 at 10.00")


def test_a_tie_excuses_no_order_that_does_not_count() -> None:
    """A and B have one time, and C, which is for the closing alone, is executed in the opening."""
    rows: Rows = [
        dict(event="new", order="A", side="bid", price="10.00", quantity="10", time="09:00"),
        dict(event="new", order="B", side="bid", price="10.00", quantity="10", time="09:00"),
        dict(event="new", order="C", side="bid", price="10.00", quantity="10", time="09:01",
             restriction="closing"),
        dict(event="new", order="S", side="ask", price="10.00", quantity="10", time="09:02"),
        dict(event="uncross", price="10.00", quantity="10", auction="opening", time="09:03"),
        dict(event="trade", bid="B", ask="S", quantity="10", price="10.00", time="09:03"),
    ]  # fmt: skip
    terms = dict(reference="10", tick_size="0.01", auctions=["opening"])
    assert judged_rows(rows, terms).word == "incomplete"
    rows[-1]["bid"] = "C"
    assert judged_rows(rows, terms).word == "unlawful"


def test_names_of_auctions_are_certain_whatever_the_books_are() -> None:
    """Without any order, or with rows of one time."""
    results: Rows = [dict(event="uncross", time=f"1{number}:00:00", auction=name, quantity="0")
                     for number, name in enumerate(("opening", "intraday", "closing"))]  # fmt: skip
    tied: Rows = [row | {"time": "08:00:00"} for row in base_rows()]
    swapped = judged(Extract([results[0] | {"auction": "closing"}, *results[1:]], "10", None, []))
    assert [it.item for it in swapped.findings] == ["auction"], str(swapped)
    for rows in (results, tied):
        rows.append(dict(event="uncross", time="23:00:00", auction="closing"))
        verdict = judged(Extract(rows, base_day().reference, None, []))
        assert verdict.word == "unlawful", str(verdict)
        assert [it.lawful for it in verdict.findings] == ["day over"]

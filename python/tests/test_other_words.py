"""Words for empty cells, names of members, and ids that rows write in another way than entries."""
from collections.abc import Callable
from pathlib import Path

import pytest
from callauction.verdict import Verdict, audit_events
from damage import ORDERS, places, timed_day
from desk import TRADE, UNCROSS, as_fills, audited, base_rows, text_of
from extracts import Rows
from judging import frame_of, judged
from lines import untimed_rows

Printed = pytest.CaptureFixture[str]
WORDS = ("NULL", "N/A", "NaN", "-", "--", "null", "#N/A")


# ---- empty cells


@pytest.mark.parametrize("word", WORDS)
@pytest.mark.parametrize("column", [
    "price", "peak", "member", "restriction", "new_order", "kept", "quantity",
])
def test_words_for_empty_cells_are_none(
    word: str, column: str, tmp_path: Path, capsys: Printed
) -> None:
    """In rows of orders, where a cell may be empty; the quantity is that of cancels."""
    rows = base_rows()
    changed = 0
    for place in places(rows, *(["cancel"] if column == "quantity" else ORDERS)):
        if column == "member" and rows[place]["event"] != "new":
            del rows[place][column]
        if not rows[place].get(column) and (rows[place]["event"], column) != ("cancel", "price"):
            rows[place][column] = word
            changed += 1
    assert changed > 1 and audited(text_of(rows), [], tmp_path) == 0
    assert not capsys.readouterr().err
    rows[places(rows, UNCROSS)[0]]["quantity"] = "7"
    assert audited(text_of(rows), [], tmp_path) == 4


def test_a_market_order_with_its_own_word_has_no_other(tmp_path: Path) -> None:
    rows = base_rows()
    market = [at for at in places(rows, "new", "replace") if not rows[at].get("price")]
    for place in market:
        rows[place]["price"] = "MKT"
    assert audited(text_of(rows), ["--market", "MKT"], tmp_path) == 0
    rows[market[0]]["price"] = "NULL"
    assert audited(text_of(rows), ["--market", "MKT"], tmp_path) == 5
    assert audited(text_of(rows), ["--market", "MKT", "--market", "NULL"], tmp_path) == 0


@pytest.mark.parametrize("event, column", [
    (UNCROSS, "price"), (TRADE, "quantity"), ("new", "side"),
])
def test_what_is_needed_stays_unread(event: str, column: str, tmp_path: Path) -> None:
    rows = base_rows()
    rows[places(rows, event)[0]][column] = "NULL"
    assert audited(text_of(rows), [], tmp_path) == 5


# ---- members


def with_members(rows: Rows) -> Rows:
    """The trades as fills with the members of their orders."""
    members = {row["order"]: row["member"] for row in rows if row["event"] == "new"}
    found = as_fills(rows)
    for row in found:
        if row["event"] == "fill":
            row["member"] = members[row["order"]]
    return found


def test_the_member_of_a_fill_is_that_of_its_order(tmp_path: Path, capsys: Printed) -> None:
    rows = with_members(base_rows())
    assert audited(text_of(rows), [], tmp_path) == 5 and "fills 25 of 25" in capsys.readouterr().out
    row = rows[places(rows, "fill")[0]]
    owner = row["member"]
    row["member"] = "M1" if owner != "M1" else "M2"
    assert audited(text_of(rows), [], tmp_path) == 4
    out = capsys.readouterr().out
    assert f"recorded {row['order']} ({row['member']}) " in out.splitlines()[0]
    said = f"{row['order']} is an order of {owner}, not of {row['member']}.\n"
    assert out.count("findings 1\n") == 1 and f"lawful {row['order']} ({owner}) " in out
    assert said in out


@pytest.mark.parametrize("change", [
    lambda text: text.lower(),
    lambda text: f"0{text}",
    lambda text: f"{text[:1]} {text[1:]}",
    lambda text: "CLEARING",
    lambda text: "NULL",
])
def test_other_names_of_members_in_fills_condemn_no_day(
    change: Callable[[str], str], tmp_path: Path
) -> None:
    rows = with_members(base_rows())
    for place in places(rows, "fill"):
        rows[place]["member"] = change(rows[place]["member"])
    assert audited(text_of(rows), [], tmp_path) == 5


@pytest.mark.parametrize("word", ["NULL", "-", "n/a", "XXXX", "ANONYMOUS"])
@pytest.mark.parametrize("real", [0, 1, 5])
def test_real_names_among_placeholders_condemn_no_day(
    word: str, real: int, tmp_path: Path, capsys: Printed
) -> None:
    """A word for none stands for any member; a member's own name doesn't."""
    rows = base_rows()
    for number, place in enumerate(places(rows, TRADE)):
        if number >= real:
            rows[place] |= {"bid_member": word, "ask_member": word}
    assert audited(text_of(rows), [], tmp_path) == 5
    out = capsys.readouterr().out
    assert f"{word!r} is no member of orders, and may stand for any" in out
    row = rows[places(rows, TRADE)[-1]]
    owners = {it["order"]: it["member"] for it in rows if it["event"] == "new"}
    row["bid_member"] = next(it for it in ("M1", "M2") if it != owners[row["bid"]])
    assert audited(text_of(rows), [], tmp_path) == 4


def test_another_pairing_beside_placeholders_condemns_no_day() -> None:
    """Each order has its shares: A 60 and B 40, S 50 and T 50."""
    rows = untimed_rows("""new A bid 60 10.00
new B bid 40 10.00
new S ask 50 10.00
new T ask 50 10.00
uncross 10.00 100 0
trade A S 30 10.00
trade A T 30 10.00
trade B S 20 10.00
trade B T 20 10.00""")
    for row in rows:
        if row["event"] == "new":
            row["member"] = f"M{row['order']}"
        elif row["event"] == TRADE:
            row["bid_member"] = "--"
    rows[-1]["ask_member"] = rows[-3]["ask_member"] = "MT"
    terms = dict(reference="10", tick_size="0.01", auctions=["opening"])
    verdict = audit_events(frame_of(rows), **terms)  # type: ignore[arg-type]
    assert verdict.word == "incomplete" and verdict.doubtful, str(verdict)
    rows[-1]["ask_member"] = "MS"
    assert audit_events(frame_of(rows), **terms).word == "unlawful"  # type: ignore[arg-type]


# ---- ids


@pytest.mark.parametrize("change", [
    lambda text: text.lower(),
    lambda text: f"000{text}",
    lambda text: f"{text[:1]}0{text[1:]}",
    lambda text: f"{text[:1]} {text[1:]}",
    lambda text: f"{text}.0",
])
@pytest.mark.parametrize("is_new", [True, False])
def test_new_ids_in_another_spelling_condemn_no_day(
    change: Callable[[str], str], is_new: bool, tmp_path: Path, capsys: Printed
) -> None:
    """Each replace gives its order another id, which it, or all other rows, write otherwise."""
    rows, present = base_rows(), dict[str, str]()
    plain: Callable[[str], str] = str
    own, others = (change, plain) if is_new else (plain, change)
    for number, row in enumerate(rows):
        order = row.get("order", "")
        for name in ("order", "bid", "ask"):
            if row.get(name) in present:
                row[name] = others(present[row[name]])
        if row["event"] == "replace":
            present[order] = f"R{number}"
            row["new_order"] = own(f"R{number}")
    assert len(present) > 1
    assert audited(text_of(rows), [], tmp_path) == 5
    assert "are written in two ways" in capsys.readouterr().out
    row = rows[places(rows, UNCROSS)[0]]
    row["trades"], row["price"] = "0", "9.00"
    assert audited(text_of(rows), [], tmp_path) in (4, 5)


def test_ids_in_another_spelling_beside_an_unread_surplus_condemn_no_day() -> None:
    """The interruption whose surplus can't be read is one in any spelling of the ids."""
    rows = untimed_rows("""new A bid 100 10.10
new S ask 100 10.10
uncross 10.10 100 n/a
new B bid 10 9.00
uncross 10.10 100 0
trade a s 100 10.10""")
    for place, word in ((2, "interrupted"), (4, "opening"), (5, "opening")):
        rows[place]["auction"] = word
    terms = dict(reference="10", tick_size="0.01", auctions=["opening"], range="0.05")
    verdict = audit_events(frame_of(rows), **terms)  # type: ignore[arg-type]
    assert verdict.word == "incomplete", str(verdict)


WITH_PREFIX = """new 1001 bid 100 10.02
new 1002 bid 100 10.02
new 2001 ask 120 10.00
new 2002 ask 60 10.02
uncross 10.02 180 20
trade T-1001 T-2001 100 10.02
trade T-1002 T-2001 20 10.02
trade T-1002 T-2002 60 10.02"""


def opening_of(rows: Rows) -> Verdict:
    rows[4]["side"] = "bid"
    terms = dict(reference="10", tick_size="0.01", auctions=["opening"])
    return audit_events(frame_of(rows), **terms)  # type: ignore[arg-type]


@pytest.mark.parametrize("change", [lambda it: it, lambda it: f"X{it[-1:]}7", lambda it: f"'{it}"])
def test_ids_of_trades_that_are_all_of_no_order_condemn_no_day(
    change: Callable[[str], str]
) -> None:
    """Where all else fits they are written otherwise, or are of another column."""
    rows = untimed_rows(WITH_PREFIX)
    for row in rows[5:]:
        row |= {name: change(row[name]) for name in ("bid", "ask")}
    verdict = opening_of(rows)
    assert verdict.word == "incomplete", str(verdict)
    assert "no trade has an order's id" in str(verdict.doubtful[0])


def test_one_known_id_or_shares_that_do_not_fit_leave_unknown_ids_certain() -> None:
    rows = untimed_rows(WITH_PREFIX)
    rows[5]["bid"] = "1001"
    assert opening_of(rows).word == "unlawful"
    for column, text in (("quantity", "59"), ("price", "10.01")):
        rows = untimed_rows(WITH_PREFIX)
        rows[7][column] = text
        assert opening_of(rows).word == "unlawful"


def test_an_apostrophe_before_the_ids_of_trades_is_another_spelling() -> None:
    rows = untimed_rows(WITH_PREFIX.replace("T-", "'000"))
    verdict = opening_of(rows)
    assert verdict.word == "incomplete", str(verdict)
    assert "are written in two ways" in str(verdict.doubtful[0])


# ---- ids that replaces gave, and no column has


def with_new_ids(rows: Rows, form: str) -> list[str]:
    """Gives each replaced order another id in the rows below, which the replace hasn't; answers
    these ids.
    """
    present, given = dict[str, str](), list[str]()
    for row in rows:
        for name in ("order", "bid", "ask"):
            row.update({name: present[row[name]]} if row.get(name) in present else {})
        if row["event"] == "replace":
            given.append(form.format(900 + len(given), row["order"]))
            present = {old: given[-1] if it == row["order"] else it for old, it in present.items()}
            present[row["order"]] = given[-1]
    return given


@pytest.mark.parametrize("form", ["N{}", "R-{}", "{1}/{0}"])
def test_ids_that_replaces_gave_without_a_column_condemn_no_day(form: str) -> None:
    """Unless one alone is named in one row, and is no id as others are."""
    said = 0
    for seed in range(25):
        day = timed_day(seed, 10)
        given = with_new_ids(day.rows, form)
        named = [row.get(name) for row in day.rows for name in ("order", "bid", "ask")]
        if sum(named.count(it) for it in given) > (form != "N{}"):
            verdict = judged(day)
            assert verdict.word == "incomplete", f"{seed}\n{verdict}"
            said += "(a column new_order says it)" in str(verdict)
    assert said > 5


def test_an_id_that_a_replace_may_have_given_is_named() -> None:
    rows = untimed_rows("""new A1 bid 10 10.00
new S1 ask 20 10.00
replace A1 bid 15 10.00
uncross 10.00 15 5
trade A7 S1 15 10.00""")
    rows[3]["side"] = "ask"
    terms = dict(reference="10", tick_size="0.01", auctions=["opening"])

    def verdict() -> Verdict:
        return audit_events(frame_of(rows), **terms)  # type: ignore[arg-type]

    assert str(verdict().doubtful[0]).endswith(
        "no row enters 'A7': may the replace of row 2 have given that id to A1? (a column "
        "new_order says it)"
    ), str(verdict())
    for place, cells in ((4, {"bid": "A1x"}), (4, {"quantity": "14"}), (2, {"new_order": "A8"})):
        before = dict(rows[place])
        rows[place] |= cells
        assert verdict().word == "unlawful", f"{cells}\n{verdict()}"
        rows[place] = before


def test_a_replace_gives_no_id_where_an_order_trades_by_its_own() -> None:
    rows = untimed_rows("""new A1 bid 10 10.00
new B1 bid 10 10.00
new S1 ask 25 10.00
replace A1 bid 15 10.00
replace B1 bid 10 10.00
uncross 10.00 25 0
trade A7 S1 15 10.00
trade B1 S1 10 10.00""")
    rows[5]["side"] = "none"
    terms = dict(reference="10", tick_size="0.01", auctions=["opening"])
    verdict = audit_events(frame_of(rows), **terms)  # type: ignore[arg-type]
    assert verdict.word == "unlawful", str(verdict)

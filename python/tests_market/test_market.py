"""A market beside the rules: each row, by audit and by run."""
import pathlib
from typing import Any

import pytest
import rules
from callauction import market
from callauction.market import workers
from conftest import columns, write
from distributed import Client

TEXTS = rules.random_texts(60) | rules.random_texts(4, "long")


@pytest.fixture(scope="module")
def paths(tmp_path_factory: pytest.TempPathFactory) -> list[str]:
    return write(tmp_path_factory.mktemp("journals"), TEXTS)


@pytest.fixture(scope="module")
def found(paths: list[str], crew: Client | None) -> Any:
    return market.audit(paths, crew)


def test_each_row_is_that_of_the_rules(found: Any) -> None:
    expected = rules.rows_of(TEXTS)
    assert columns(found) == expected
    kinds = ("fault", "first_unlawful", "opening_price", "closing_price")
    counts = {kind: sum(kind in row for row in expected) for kind in kinds}
    counts |= {day: sum(row.get("day") == day for row in expected) for day in ("opening", "over")}
    assert min(counts.values()) >= 3, f"journals of too few kinds: {counts}"


def test_columns_have_the_types_that_are_said(found: Any) -> None:
    assert list(found.columns) == list(market.COLUMNS)
    types = {name: str(dtype) for name, dtype in found.dtypes.items()}
    assert types["instrument"] == types["fault"] == types["opening_side"] == "string"
    assert types["seconds"] == "float64"
    assert types["entries"] == types["closing_surplus"] == types["first_unlawful"] == "Int64"
    good = found[found.fault.isna()]
    assert (good.seconds > 0).all() and found[found.fault.notna()].seconds.isna().all()


ENDED = {
    f"{auction}_{name}"
    for auction in rules.AUCTIONS
    for name in ("price", "volume", "surplus", "side")
}
ASKED: dict[str, set[str]] = {
    "audit": {"entries", "compared", "unlawful", "first_unlawful"},
    "lines": {"entries", "day", "auctions", "trades", *ENDED},
    "trades": {"trades"},
    "book": set(),
    "journal": set(),
}


@pytest.mark.parametrize("what", ASKED)
def test_each_form_tells_its_columns(
    what: str, crew: Client | None, tmp_path: pathlib.Path
) -> None:
    expected = [row for row in rules.rows_of(TEXTS) if "fault" not in row][:12]
    paths = write(tmp_path, {row["instrument"]: TEXTS[row["instrument"]] for row in expected})
    names = ASKED[what] | {"instrument"}
    wanted = [{name: row[name] for name in row if name in names} for row in expected]
    assert columns(market.run(paths, what, crew)) == wanted


def test_what_is_printed_is_kept(crew: Client | None, tmp_path: pathlib.Path) -> None:
    day = "day,1,9,5,4,9,9,\n1,enter,bid,7,5,\n2,enter,ask,4,5,\n0,uncross,\n"
    texts = {"A": day, "B": "day\n"}
    paths = write(tmp_path / "journals", texts)
    into = tmp_path / "kept"
    into.mkdir()
    market.run(paths, ["trades", "book", "audit", "journal", "lines"], crew, into=into)
    forms = {"trades": "csv", "book": "csv", "audit": "txt", "journal": "csv", "lines": "txt"}
    names = {f"A.{form}.{end}" for form, end in forms.items()}
    assert {path.name for path in into.iterdir()} == names
    for form, end in forms.items():
        expected = rules.answer(texts["A"], form)[1]
        assert (into / f"A.{form}.{end}").read_text() == expected


def test_wrong_arguments_are_refused_before_a_run(client: Client) -> None:
    with pytest.raises(market.MarketError, match="two files of one instrument"):
        market.audit(["/a/X.csv", "/b/X.csv"], client)
    with pytest.raises(ValueError, match="'prices' is none of"):
        market.run(["/a/X.csv"], ["audit", "prices"], client)
    with pytest.raises(ValueError, match="'' is none of"):
        market.run(["/a/X.csv"], [], client)


def test_without_files_there_are_no_rows(crew: Client | None) -> None:
    assert market.audit([], crew).empty


def test_tasks_take_all_files_once_and_the_largest_first(tmp_path: pathlib.Path) -> None:
    files = [str(tmp_path / f"{place}.csv") for place in range(200)]
    for place, file in enumerate(files):
        with open(file, "wb") as out:
            out.truncate(place**3)
    for threads in (1, 4, 400):
        batches = workers.batches_of(files, threads)
        assert sum(batches, []) == files[::-1]
        assert len(batches) <= 2 * workers.SHARES * threads
    assert len(workers.batches_of(files, 400)) == len(files)
    assert len(workers.batches_of([*files, "/none.csv"], 1)) < len(files)


def test_what_is_missing_or_unexpected_is_a_fault(program: str, tmp_path: pathlib.Path) -> None:
    paths = write(tmp_path, {"A": TEXTS["short 1"], "B": TEXTS["short 2"], "C": "day\n"})
    found = market.audit(paths, expect=["B", "D", "Ä"], workers=1)
    assert columns(found) == [
        {"instrument": "A", "fault": "not expected"},
        rules.row_of("B", TEXTS["short 2"]),
        {"instrument": "C", "fault": "not expected"},
        {"instrument": "D", "fault": "expected, and there is no file"},
        {"instrument": "Ä", "fault": "expected, and there is no file"},
    ]

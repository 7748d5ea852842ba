"""A table of a market becomes a journal for each instrument."""
import os
import pathlib
import subprocess
import sys
from typing import Any

import dask.dataframe
import numpy
import pandas
import pytest
import rules
from callauction import market
from callauction.market import files, instrument_names, splitting
from callauction.overwriting import OverwriteError
from conftest import TOP, columns, command, environment
from distributed import Client

from checks.model.files import journal

DAYS = pandas.DataFrame(
    {
        "instrument": ["X", "Y/Z"],
        "low": [10, 1],
        "high": [20, 9],
        "reference": [15, 5],
        "range": [3, None],
    }
)
TABLE = pandas.DataFrame(
    [
        ("X", 1, "enter", "bid", 5, 12.0, None, None, None, None, "entered 1"),
        ("Y/Z", 0, "ask", None, None, None, None, None, None, None, None),
        ("X", 2, "enter", "ask", 7, None, 3.0, None, None, None, None),
        ("X", 2, "enter", "ask", 7, 11, None, "closing", None, None, 'a "b", c'),
        ("X", 1, "enter", "bid", 7, 13, 2, "opening", None, None, None),
        ("Y/Z", 3, "change", None, 4, 8, None, None, 1, None, "refused 5 UnknownOrder"),
        ("X", 1, "delete", None, None, None, None, None, 1, None, "deleted"),
        ("X", 1, "status", None, None, None, None, None, 2, None, None),
        ("Y/Z", 1, "change", None, 4, None, None, None, 2, None, None),
        ("X", 1, "trade", None, None, None, None, None, None, 1, None),
        ("X", 0, "uncross", None, None, None, None, None, None, None, None),
        ("X", 0, "cross", "bid", None, None, None, None, None, None, None),
    ],
    columns=["instrument", *splitting.CELLS],
)
JOURNALS = {
    "X": "day,10,20,15,4,4096,65536,3\n"
    "1,enter,bid,5,12,entered 1\n2,enter,ask,7,market,3,\n"
    '2,enter,ask,7,11,,closing,"a ""b"", c"\n1,enter,bid,7,13,2,opening,\n1,delete,1,deleted\n'
    "1,status,2,\n1,trade,1,\n0,uncross,\n0,cross,\n",
    "Y/Z": "day,1,9,5,4,4096,65536,\n"
    "0,ask,\n3,change,1,4,8,refused 5 UnknownOrder\n1,change,2,4,market,\n",
}


def read(paths: list[str]) -> rules.Texts:
    """The journals with these paths."""
    return {instrument_names.instrument_of(path): pathlib.Path(path).read_text() for path in paths}


def tables(folder: pathlib.Path) -> dict[str, Any]:
    """The same table in each way in which it may come."""
    whole, parts = folder / "whole.csv", [folder / f"{place}.csv" for place in range(2)]
    numbers = TABLE.convert_dtypes()
    numbers.to_csv(whole, index=False)
    numbers[:5].to_csv(parts[0], index=False)
    numbers[5:].to_csv(parts[1], index=False)
    return {
        "pandas": TABLE,
        "objects": TABLE.astype(object).where(TABLE.notna(), None),
        "nullable": numbers,
        "dask": dask.dataframe.from_pandas(TABLE, npartitions=3),
        "csv": whole,
        "csv, as text": str(whole),
        "two csv": parts,
        "frames": (TABLE[place : place + 1] for place in range(len(TABLE))),
    }


KINDS = ["pandas", "objects", "nullable", "dask", "csv", "csv, as text", "two csv", "frames"]


@pytest.mark.parametrize("kind", KINDS)
def test_each_way_gives_the_same(kind: str, tmp_path: pathlib.Path) -> None:
    paths = market.split(tables(tmp_path)[kind], days=DAYS, folder=tmp_path / "journals")
    assert paths == [str(tmp_path / "journals" / name) for name in ("X.csv", "Y%2FZ.csv")]
    assert read(paths) == JOURNALS
    assert len(list((tmp_path / "journals").iterdir())) == 2


def test_defaults_are_the_programs(program: str, tmp_path: pathlib.Path) -> None:
    (path, _) = market.split(TABLE, folder=tmp_path)
    (day, *_) = read([path])["X"].splitlines()
    words = [program, "--print", "journal"]
    ran = subprocess.run(words, stdin=subprocess.DEVNULL, capture_output=True, text=True)
    assert ran.stdout == f"{day}\n"


def test_journals_split_as_they_were(crew: Client | None, tmp_path: pathlib.Path) -> None:
    texts = {
        instrument: text
        for instrument, text in rules.random_texts(40).items()
        if "fault" not in rules.row_of(instrument, text)
    }
    rows_of_table, days = [], []
    for instrument, text in texts.items():
        given = journal(text)
        days.append({"instrument": instrument, **given.options})
        for call, reply in zip(given.calls, given.replies):
            rows_of_table.append({"instrument": instrument, **cells_of(call), "reply": reply})
    paths = market.split(
        pandas.DataFrame(rows_of_table).sample(frac=1, random_state=1).sort_index(),
        days=pandas.DataFrame(days),
        folder=tmp_path,
    )
    assert columns(market.audit(paths, crew)) == rules.rows_of(texts)


def cells_of(call: Any) -> dict[str, Any]:
    """The cells of a member's command, as the model has it."""
    member, (word, *rest) = call
    names = {
        "enter": ("side", "limit", "quantity", "peak", "only"),
        "change": ("id", "limit", "quantity"),
        "trade": ("number",),
    }
    return {"member": member, "command": word, **dict(zip(names.get(word, ("id",)), rest))}


BAD = [
    (TABLE.drop(columns="member"), DAYS, "the table: there is no column 'member'"),
    (TABLE.rename(columns={"instrument": "name"}), DAYS, "there is no column 'instrument'"),
    (
        TABLE.rename(columns={"limit": "price"}),
        DAYS,
        r"the table: unknown column 'price' \(is it limit\?",
    ),
    (TABLE, DAYS.assign(tick=1), "the days: unknown column 'tick'"),
    (pandas.concat([TABLE, TABLE[["limit"]]], axis=1), DAYS, "'limit' is there twice"),
    (TABLE.rename(columns={"limit": ""}), DAYS, "the table: column 6 has no name"),
    (TABLE.assign(member="member"), DAYS, "the table: row 1 has 'member' as member, as a header"),
    (TABLE, DAYS[:1], "the days have no row for 'Y/Z'"),
    (TABLE, pandas.concat([DAYS, DAYS[:1]]), "the days have 'X' twice"),
    (TABLE, DAYS.drop(columns="instrument"), "the days: there is no column 'instrument'"),
    (TABLE.assign(instrument=["X"] * 11 + [None]), None, "no file can be named"),
]


@pytest.mark.parametrize("table, days, text", BAD)
def test_a_bad_table_leaves_nothing(
    table: Any, days: Any, text: str, tmp_path: pathlib.Path
) -> None:
    with pytest.raises(market.TableError, match=text):
        market.split((table[place : place + 4] for place in (0, 4, 8)), days=days, folder=tmp_path)
    assert list(tmp_path.iterdir()) == []


def test_an_older_journal_is_replaced_whole(tmp_path: pathlib.Path) -> None:
    (tmp_path / "X.csv").write_text("old\n")
    with pytest.raises(market.TableError):
        market.split(TABLE, days=DAYS[:1], folder=tmp_path)
    assert (tmp_path / "X.csv").read_text() == "old\n"
    market.split(TABLE[:1], days=DAYS, folder=tmp_path)
    assert (tmp_path / "X.csv").read_text() == "".join(JOURNALS["X"].splitlines(True)[:2])


def test_no_journal_takes_the_place_of_a_table(tmp_path: pathlib.Path) -> None:
    TABLE.to_csv(tmp_path / "X.csv", index=False)
    DAYS.to_csv(tmp_path / "Y%2FZ.csv", index=False)
    before = {path: path.read_bytes() for path in tmp_path.iterdir()}
    parts: Any = [[str(tmp_path / "X.csv")]]
    for table, name, days in (
        (tmp_path / "X.csv", "X.csv", DAYS), (parts, "X.csv", None), (TABLE, "Y%2FZ.csv", None),
    ):  # fmt: skip
        given = tmp_path / "Y%2FZ.csv" if days is None else days
        with pytest.raises(OverwriteError, match=f"the journal .*{name} would overwrite"):
            market.split(table, days=given, folder=tmp_path)
        assert {path: path.read_bytes() for path in tmp_path.iterdir()} == before


def test_another_column_names_the_instruments(tmp_path: pathlib.Path) -> None:
    other = TABLE.rename(columns={"instrument": "isin"})
    days = DAYS.rename(columns={"instrument": "isin"})
    paths = market.split(other, "isin", days=days, folder=tmp_path)
    assert read(paths) == JOURNALS


HEADER = "instrument,member,command,side,quantity,limit,reply\n"
ROW = "A,1,enter,bid,5,7,entered 1\n"
OTHER = "B,0,uncross,,,,\n"


def test_a_byte_order_mark_and_commas_at_the_end_change_nothing(tmp_path: pathlib.Path) -> None:
    texts = [HEADER + ROW + OTHER, f"\ufeff{HEADER}{ROW}{OTHER}"]
    texts += [HEADER + ROW.replace("\n", ",,\n") + OTHER.replace("\n", ",\n")]
    texts += [f"{HEADER}\n{ROW}\n{OTHER}\n".replace("\n", "\r\n"), f"{HEADER}{ROW}B,0,uncross\n"]
    found = []
    for text in texts:
        (tmp_path / "table.csv").write_text(text, encoding="utf-8", newline="")
        found.append(read(market.split(tmp_path / "table.csv", folder=tmp_path / "journals")))
    day = "day,1,1000,200,4,4096,65536,\n"
    journals = {"A": f"{day}1,enter,bid,5,7,entered 1\n", "B": f"{day}0,uncross,\n"}
    assert found == [journals] * len(texts)


TABLES = [
    (HEADER.replace("\n", ",\n") + ROW, "{}: column 8 has no name"),
    (HEADER.replace("side", "limit") + ROW, "{}: the column 'limit' is there twice"),
    (HEADER + ROW + HEADER + OTHER, "the table: row 2 has 'member' as member, as a header"),
    (HEADER.replace("limit", "price") + ROW, "the table: unknown column 'price' (is it limit?): "),
    (HEADER + ROW.replace("\n", ",x\n") + OTHER, "{}: row 1 is longer than the header"),
    (HEADER + OTHER + ROW.replace("\n", ",x\n"), "{}: row 2 is longer than the header"),
    (f"\n{ROW}{OTHER}", "the table: there is no column 'instrument'"),
    ("", "{}: "),
    ("\xff\n", "{}: "),
]


@pytest.mark.parametrize("text, fault", TABLES)
def test_a_bad_table_is_one_line(
    text: str, fault: str, program: str, tmp_path: pathlib.Path
) -> None:
    table = tmp_path / "table.csv"
    table.write_text(text, encoding="latin-1")
    ran = command("split", table, "--into", tmp_path / "journals", program=program)
    assert (ran.returncode, ran.stdout) == (1, "")
    assert ran.stderr.startswith(f"market: {fault.format(table)}")
    assert ran.stderr.count("\n") == 1 and "Warning" not in ran.stderr
    assert not {"'A'", "'B'"} & set(ran.stderr.split())
    assert list((tmp_path / "journals").iterdir()) == []


def test_columns_are_passed_over(program: str, tmp_path: pathlib.Path) -> None:
    table = tmp_path / "table.csv"
    table.write_text(HEADER.replace("reply", "time") + ROW)
    words = ["split", table, "--ignore", "time", "--into", tmp_path / "journals"]
    assert command(*words, program=program).returncode == 0
    assert (tmp_path / "journals/A.csv").read_text().endswith("\n1,enter,bid,5,7,\n")


def test_a_folder_in_use_is_refused(program: str, tmp_path: pathlib.Path) -> None:
    table = tmp_path / "table.csv"
    table.write_text(HEADER + ROW)
    (tmp_path / "journals").mkdir()
    with files.locked(tmp_path / "journals"):
        ran = command("split", table, "--into", tmp_path / "journals", program=program)
        assert (ran.returncode, ran.stdout) == (2, "")
        assert f"market: {tmp_path}/journals is in use by process {os.getpid()} of" in ran.stderr
    assert list((tmp_path / "journals").iterdir()) == []


def test_bad_files_of_tables_are_refused(tmp_path: pathlib.Path) -> None:
    (tmp_path / "bad.csv").write_text('instrument,member,command\nX,1,"ask\n')
    (tmp_path / "bad.parquet").write_text("")
    for path, error in (("bad.csv", market.TableError), ("none.csv", FileNotFoundError)):
        with pytest.raises(error):
            market.split(tmp_path / path, folder=tmp_path / "journals")
    with pytest.raises(market.TableError):  # bad, or no package of Debian reads it
        market.split(tmp_path / "bad.parquet", folder=tmp_path / "journals")
    assert list((tmp_path / "journals").iterdir()) == []


def peak_of_split(rows_of_table: int, program: str, folder: pathlib.Path) -> int:
    """The peak memory, in KiB, of splitting a table of this many rows."""
    table, figures = folder / "table.csv", folder / "figures"
    places = numpy.arange(rows_of_table)
    frame = pandas.DataFrame({"instrument": places % 50, "member": places % 4, "command": "enter"})
    frame.assign(side="bid", quantity=places % 900 + 1, limit=200).to_csv(table, index=False)
    words = [sys.executable, TOP / "checks/measured.py", figures, sys.executable, "-m"]
    words += ["callauction.market", "split", table, "--into", folder / "journals"]
    subprocess.run(list(map(str, words)), env=environment(program), check=True)
    return int(figures.read_text().split()[2])


def test_memory_does_not_grow_with_the_table(program: str, tmp_path: pathlib.Path) -> None:
    small, large = (peak_of_split(count, program, tmp_path) for count in (200_000, 600_000))
    assert large < 1.2 * small

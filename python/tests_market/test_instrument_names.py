"""Names of instruments, as files, lines and cells have them."""
import csv
import os
import pathlib

import pytest
from callauction.market import Row, instrument_names, rows
from hypothesis import given, strategies

NAMES = ["SAP", "a b", "Ärzte", "x/y", "..", ".", "-", "A%41", "SAP.DE"]
NAMES += ["~", "c:\\d", "\n", "I" * 251, "\udcff", "\x1b[31m", "=1+2", "\u202e", "'"]


@pytest.mark.parametrize("name", NAMES)
def test_an_instrument_has_a_file_of_its_own(name: str, tmp_path: pathlib.Path) -> None:
    path = tmp_path / instrument_names.file_of(name)
    path.write_text("")
    assert list(tmp_path.iterdir()) == [path]
    instrument = instrument_names.instrument_of(str(path))
    assert instrument.isprintable()
    assert instrument_names.name_of(instrument) == os.fsencode(name)


@pytest.mark.parametrize("name", ["", "I" * 252, "Ä" * 42])
def test_a_name_without_a_file_is_refused(name: str) -> None:
    with pytest.raises(ValueError, match="no file can be named"):
        instrument_names.file_of(name)


def test_names_of_files_are_told_apart() -> None:
    assert len({instrument_names.file_of(name).lower() for name in NAMES}) == len(NAMES)


SHOWN = {
    b"SAP": "SAP",
    b"a\nb": "a\\x0ab",
    b"\x1b[31m": "\\x1b[31m",
    b"\xff": "\\xff",
    b"\\xff": "\\\\xff",
    "Ä\u202e\x85\U000e0001".encode(): "Ä\\u202e\\u0085\\U000e0001",
    b"\xed\xb2\x80": "\\xed\\xb2\\x80",
}


@pytest.mark.parametrize("name", SHOWN)
def test_a_name_of_any_bytes_is_one_line(name: bytes) -> None:
    assert instrument_names.printable(name) == SHOWN[name]
    assert instrument_names.name_of(SHOWN[name]) == name


@given(strategies.binary(), strategies.binary())
def test_two_names_are_two_lines(one: bytes, other: bytes) -> None:
    shown = instrument_names.printable(one), instrument_names.printable(other)
    assert (shown[0] == shown[1]) == (one == other)
    assert instrument_names.name_of(shown[0]) == one
    assert shown[0].isprintable()


RUN = ["=1+2", "+1", "-1", "@SUM(A1)", "'", "'=1", "\uff1d1"]


@pytest.mark.parametrize("text", [*RUN, "a=1", "1", ""])
def test_no_spreadsheet_runs_a_cell(text: str, tmp_path: pathlib.Path) -> None:
    row = Row(text or "I", opening_side=text or None, fault=text or None)
    rows.write_rows([row], tmp_path / "result.csv")
    with open(tmp_path / "result.csv", encoding="utf-8", newline="") as found:
        (record,) = csv.DictReader(found)
    assert not record["instrument"].startswith(("=", "+", "-", "@", "\uff1d"))
    assert record["fault"] == (f"'{text}" if text in RUN else text)
    assert rows.read_rows(tmp_path / "result.csv") == [row]

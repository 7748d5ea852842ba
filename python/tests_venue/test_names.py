"""Names: those that can be read and that differ on a screen, and what spreadsheets make of them."""
import csv
import io
import pathlib

import pytest
import served
from callauction.venue import member_names, members
from conftest import FAST
from served import Served


@pytest.mark.parametrize(
    "name",
    ["Anna", "Ünal", "李雷", "Анна", "constructor", "__proto__", "R2", "O'Neil", "=1"]
    + ["นี้", "שָׁלוֹם"],
)
def test_a_name_that_can_be_read(name: str) -> None:
    assert member_names.is_seen(name) and not member_names.is_role(name)


@pytest.mark.parametrize(
    "name",
    ["\u3164", "\u2800", "Alice\u3164", "A\u200bnna", "\u034f", "-", "...", "\u115fa", "\u0301a"]
    + ["a" + "\u0315" * 4],
)
def test_a_name_that_cant_be_read(name: str) -> None:
    assert not member_names.is_seen(name)


@pytest.mark.parametrize("name", ["teacher", "TEACHER", "Beamer", "оperator", "Te acher", "ADMIN"])
def test_the_name_of_a_role(name: str) -> None:
    assert member_names.is_role(name)


@pytest.mark.parametrize(
    "name, other",
    [("Alice", "alice\u3164"), ("Anna", "\uff21nna"), ("Anna", "Аnnа"), ("Max", "МАХ")],
)
def test_names_that_look_alike(name: str, other: str) -> None:
    assert member_names.folded(name) == member_names.folded(other)


FORMULAS = ["=1+1", "+1", "-1", "@a", "\uff1d1+1", "x;=1+1", "x,=1", "x\t@a", "x; +1", "'x", "a|=1"]


@pytest.mark.parametrize("separator", [",", ";", "\t", "|"])
@pytest.mark.parametrize("name", FORMULAS)
def test_no_spreadsheet_runs_a_name(name: str, separator: str) -> None:
    text = io.StringIO()
    csv.writer(text).writerow([1, member_names.plain(name)])
    for cell in next(csv.reader(io.StringIO(text.getvalue()), delimiter=separator)):
        assert cell.strip()[:1] not in [*"=+-@\uff1d\uff0b\uff0d\uff20"], cell


def test_a_plain_name_stays() -> None:
    for name in ("Anna", "a-b", "1+1", "O'Neil", "x; y"):
        assert member_names.plain(name) == name


def test_who_may_join(venue: Served) -> None:
    venue.join("Anna")
    for name, error in [
        ("\u3164", "bad_name"),
        ("Anna\u3164", "bad_name"),
        ("Аnna", "name_taken"),
        ("Teacher", "bad_name"),
        ("..", "bad_name"),
    ]:
        status, found = venue.call("api/join", {"code": venue.code, "name": name})
        assert (status != 200, found["error"]) == (True, error), name
    for name in ("..", "Anna\u200b", "a" + 4 * "\u0316"):
        status, found = venue.call("api/join", {"code": venue.code, "name": name})
        assert found["text"] == members.UNSEEN, name
    venue.join("constructor")


def test_another_code_in_the_days_file_is_taken(tmp_path: pathlib.Path) -> None:
    day = FAST + 'code = "{}"\n'
    with served.served(tmp_path, day.format("FIRST1")) as venue:
        assert venue.code == "FIRST1"
        own = venue.do("code")["code"]
    with served.served(tmp_path, day.format("FIRST1")) as venue:
        assert venue.code == own
    with served.served(tmp_path, day.format("SECOND")) as venue:
        assert venue.code == "SECOND"
        assert venue.call("api/join", {"code": own, "name": "Eve"})[1]["error"] == "bad_code"
        venue.join("Anna")

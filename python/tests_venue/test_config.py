"""The file of a day, and each fault of it."""
import os
import pathlib
import stat
from decimal import Decimal

import pytest
from callauction.prices import Grid
from callauction.venue.config import DayTerms, InstrumentTerms, MemberTerms, Plan
from callauction.venue.fields import ConfigError
from callauction.venue.owned import OwnerError
from served import ended

ALL = """
title = "Monday"
language = "de"
sync = false
reserve = 8
[phases]
call = 300
random_end = 30
extension = 120
automatic = true
[members]
open = false
names = ["Anna", "Bert"]
most = 30
joins = 12
rate = 5.5
burst = 10
[[instrument]]
name = "ABC"
title = "Apples"
tick_size = "0.05"
currency = "USD"
low = "0.05"
high = "100"
reference = "20.00"
range = "0.50"
open = 100
calls = 1000
most_quantity = 5000
[[instrument]]
name = "DEF"
"""


def read(folder: pathlib.Path, text: str) -> DayTerms:
    path = folder / "day.toml"
    path.write_text(text, encoding="utf-8")
    return DayTerms.read(path)


def test_all_that_a_day_may_say(tmp_path: pathlib.Path) -> None:
    first = InstrumentTerms(
        "ABC", "Apples", Grid(Decimal("0.05")), "USD", 1, 2000, 400, 10, 100, 1000, 5000
    )
    assert read(tmp_path, ALL) == DayTerms(
        title="Monday",
        language="de",
        is_synced=False,
        reserve=8,
        plan=Plan(300, 30, 120, True),
        members=MemberTerms(False, "", ("Anna", "Bert"), 30, 12, 5.5, 10),
        instruments=(first, InstrumentTerms("DEF")),
    )
    words = "--low 1 --high 2000 --reference 400 --members 64 --open 100 --calls 1000 --range 10"
    assert first.words() == words.split()
    assert first.price(401) == "20.05"


def test_an_empty_day_has_all_defaults(tmp_path: pathlib.Path) -> None:
    assert read(tmp_path, "") == DayTerms()


@pytest.mark.parametrize(
    "text, fault",
    [
        ("ttle = 'x'", "ttle is nothing that may be here, but title"),
        ("[phases]\nlength = 60", "phases: length is nothing that may be here, but call, random_end"
         ", extension, automatic"),
        ("[phases]\nextention = 60", "extention is nothing that may be here, but extension"),
        ("[[round]]\nshare = 5", "round 1: share is nothing that may be here, but shares"),
        ("[[instrument]]\ntick = '1'", "XYZ: tick is nothing that may be here, but tick_size"),
        ("fx = 1", "fx is nothing that may be here, but fix"),
        ("language = 'fr'", "language 'fr' is none of en, de"),
        ("sync = 1", "sync 1 is neither true nor false"),
        ("reserve = 0", "reserve 0 is no whole number from 1 to 1000"),
        ("[phases]\ncall = -1", "phases: call -1 is no whole number from 0 to 86400"),
        ("[phases]\ncall = true", "phases: call True is no whole number from 0 to 86400"),
        ("phases = 3", "phases 3 is no table: [phases]"),
        ("[members]\nnames = ['A', 'A']", "members: names 'A' is there twice"),
        ("[members]\nnames = ['Ann', ' Ann']", "members: names ' Ann' is there twice"),
        ("[members]\nnames = ['Ann', 'Ann ']", "members: names 'Ann ' is there twice"),
        ("[members]\nnames = ['A B', 'A  B']", "members: names 'A  B' is there twice"),
        ("[members]\nnames = ['<b>']", "members: names '<b>' has <, > or a control"),
        ("[members]\nnames = ['']", "members: names '' is empty"),
        ("[members]\nnames = [3]", "members: names 3 isn't a text that may be here"),
        ('title = "a\\u001b"', r"title 'a\x1b' has <, > or a control character"),
        ("[members]\nopen = false", "members: open is false, and there are no names"),
        ("[members]\nrate = 0", "members: rate 0 is no number above 0, at most 100000"),
        ("[members]\nrate = '20'", "members: rate '20' is no number above 0, at most 100000"),
        ("[members]\nrate = inf", "members: rate inf is no number above 0, at most 100000"),
        ("[members]\ncode = 'a'", "members: code 'A' has fewer than 4 letters and could be guess"),
        ("[members]\ncode = 'ABC '", "members: code 'ABC' has fewer than 4 letters"),
        ("[members]\ncode = 123456", "members: code 123456 isn't a text that may be here"),
        ("[members]\nmost = 1\nnames = ['A', 'B']", "members: names has 2 names, more than 1"),
        ("[instrument]\nname = 'A'", "instrument {'name': 'A'} is no list of tables"),
        ("[[instrument]]\nname = '../A'", "instrument: name '../A' isn't a text that may be here"),
        ("[[instrument]]\n[[instrument]]", "instrument 'XYZ' is there twice"),
        ("[[instrument]]\ntick_size = '0'", "instrument XYZ: tick_size 0 isn't above 0"),
        ("[[instrument]]\nlow = '0.015'", "XYZ: low 0.015 is no multiple of the tick size 0.01"),
        ("[[instrument]]\nlow = 'x'", "instrument XYZ: low 'x' is no decimal number"),
        ("[[instrument]]\nlow = '3'", "instrument XYZ: low 3.00 is above reference 2.00"),
        ("[[instrument]]\nhigh = 1.5", "instrument XYZ: reference 2.00 is above high 1.50"),
        ("[[instrument]]\nlow = 0", "instrument XYZ: low 0.00 is below the tick size"),
        ("[[instrument]]\nhigh = '655.37'", "XYZ: high 655.37 is 65537 ticks from low 0.01"),
        ("[[instrument]]\nhigh = 10000.01", "XYZ: high 10000.01 is tick 1000001, and the greatest"),
        ("[[instrument]]\nrange = 10000.01", "XYZ: range 10000.01 is tick 1000001, and the greate"),
        ("[[instrument]]\nopen = 65537", "XYZ: open 65537 is no whole number from 1 to 65536"),
        ("[[instrument]]\ncalls = 16", "XYZ: calls 16 is no more than reserve 16: members"),
        ("[[instrument]]\nuncovered_bought = 11", "uncovered_sold 10.00 is below uncovered_bough"),
        ("title = '" + "x" * 61 + "'", "x.. has more than 60 letters"),
        ("title = 3", "title 3 isn't a text that may be here"),
        ("[payoff]\nrate = '-1'", "payoff: rate -1 is below 0"),
        ("[[instrument]]\nrange = '-1'", "instrument XYZ: range -1 is below 0"),
        ("title = ", "Invalid value"),
        ("a = " + "[" * 5000 + "]" * 5000, "has too many lists within lists"),
        ("reserve = " + "9" * 5000, "4300 digits"),
        ("[members]\nnames = [' ']", "members: names ' ' can't be read, or is a role's name"),
        ("[members]\nnames = ['Teacher']", "members: names 'Teacher' can't be read"),
        ("[members]\nnames = ['Anna', 'ANNA']", "names has two that look alike: 'Anna', 'ANNA'"),
        ("[[round]]\nvalues = 'list'\nfile = '/dev/zero'", "/dev/zero: is no regular file"),
        ("[[round]]\nvalues = 'list'\nfile = 'pipe'", "pipe: is no regular file"),
        ("[[round]]\nvalues = 'list'\nfile = 'long'", "long: has more than 1048576 bytes"),
        ("[[round]]\nvalues = 'chance'\nlow = '1'", "values by chance have a low and a high price"),
    ],
)
def test_each_fault(tmp_path: pathlib.Path, text: str, fault: str) -> None:
    os.mkfifo(tmp_path / "pipe")
    with open(tmp_path / "long", "wb") as long:
        long.truncate(1 << 21)
    with pytest.raises(ConfigError) as found:
        read(tmp_path, text)
    assert fault in str(found.value)


def test_names_are_taken_as_by_a_join(tmp_path: pathlib.Path) -> None:
    """Without spaces around them, and with one between their words."""
    found = read(tmp_path, "[members]\nnames = [' Ann', 'Bert  Lee ']")
    assert found.members.names == ("Ann", "Bert Lee")


WIDE = "name,side,price,quantity\nAnn,bid,2.00,5\nBob,ask,1,50,100\n"
"""A list whose last row has a decimal comma between commas."""


@pytest.mark.parametrize("head, cell", [("", "100"), (",", "100"), (",round", "")])
def test_a_list_has_no_cell_beyond_its_columns(
    tmp_path: pathlib.Path, head: str, cell: str
) -> None:
    """Nor in one that has no name; where a column has one, it is a cell as others are."""
    (tmp_path / "values.csv").write_text(WIDE.replace("quantity", f"quantity{head}", 1))
    day = "[[round]]\nvalues = 'list'\nfile = 'values.csv'"
    if not cell:
        assert read(tmp_path, day).rounds[0].rule.rows[1].round == 100
        return
    where = "day.toml: round 1: file values.csv: line 3: '100' is in no column: decimal commas need"
    with pytest.raises(ConfigError, match=where):
        read(tmp_path, day)


@pytest.mark.parametrize(
    "price, fault",
    [("11.00", "the value 11.00 isn't from 0.00 to 10.00"),
     ("1.005", "the price 1.005 is no multiple of the tick size 0.01")],
)  # fmt: skip
def test_a_value_of_a_list_that_cant_be(tmp_path: pathlib.Path, price: str, fault: str) -> None:
    """The file and the member are named: a day may have several lists."""
    for name, value in (("first.csv", "1.00"), ("second.csv", price)):
        (tmp_path / name).write_text(f"name,side,price,quantity\nBob,ask,1,5\nAnn,bid,{value},5\n")
    row = "[[round]]\nvalues = 'list'\nfile = '{}'\n"
    with pytest.raises(ConfigError) as found:
        read(tmp_path, row.format("first.csv") + row.format("second.csv"))
    where = f"{tmp_path}/day.toml: round 2: file second.csv: line 3: Ann: "
    assert str(found.value) == where + fault


def fault_of_list(folder: pathlib.Path, text: str, day: str = "") -> str:
    """Why a day is refused whose second round has this list, from behind the list's name on."""
    (folder / "values.csv").write_text(text)
    rows = "[[round]]\n[[round]]\nvalues = 'list'\nfile = 'values.csv'\n"
    with pytest.raises(ConfigError) as found:
        read(folder, rows + day)
    return str(found.value).removeprefix(f"{folder}/day.toml: round 2: file values.csv: ")


def test_a_price_of_a_list_that_one_of_several_instruments_cant_have(
    tmp_path: pathlib.Path,
) -> None:
    """One list goes to all of them."""
    day = "[[instrument]]\nname = 'TEA'\n[[instrument]]\nname = 'RICE'\ntick_size = '0.05'\n"
    fault = fault_of_list(tmp_path, "name,side,price,quantity\n\nAnn,bid,1.05,5\nBob,ask,1.02,5\n",
                          day)  # fmt: skip
    assert fault == "line 4: Bob: RICE: the price 1.02 is no multiple of the tick size 0.05"


@pytest.mark.parametrize("text, fault", [
    ("name,side,price,quantity,instrument\nAnn,bid,1.00,5,TEA\n",
     "there is no column 'instrument', but name, side, price, quantity, round"),
    ("name,side,price,wert,quantity\nAnn,bid,1.00,1.00,5\n", "two columns are 'price'"),
    ("name,side,price,quantity\n ,bid,1.00,5\n", "line 2: the name is empty"),
    ("name,side,price,quantity,round\nAnn,bid,1.00,5,2\nBob,bid,1.00,5,1\n",
     "line 3: Bob: round 1 has another list, or none"),
])
def test_a_list_that_would_be_read_otherwise_than_it_is_meant(
    tmp_path: pathlib.Path, text: str, fault: str
) -> None:
    assert fault_of_list(tmp_path, text) == fault


def test_a_list_of_the_last_round_may_be_for_those_that_follow(tmp_path: pathlib.Path) -> None:
    """As that round comes again; and one file may be the list of several rounds."""
    text = "name,side,price,quantity,round\nAnn,Bid,1.00,5,1\nAnn,ASK,1.00,5,7\n"
    (tmp_path / "values.csv").write_text(text)
    found = read(tmp_path, 2 * "[[round]]\nvalues = 'list'\nfile = 'values.csv'\n")
    assert [it.side for it in found.rounds[1].rule.rows] == ["bid", "ask"]


def test_cells_beyond_the_columns_may_be_empty(tmp_path: pathlib.Path) -> None:
    """As a spreadsheet leaves them."""
    (tmp_path / "values.csv").write_text("name,side,price,quantity,\nAnn,bid,2.00,5,, ,\n")
    found = read(tmp_path, "[[round]]\nvalues = 'list'\nfile = 'values.csv'")
    assert [it.price for it in found.rounds[0].rule.rows] == ["2.00"]


def test_a_day_that_windows_wrote(tmp_path: pathlib.Path) -> None:
    assert read(tmp_path, '\ufefftitle = "Monday"\r\n').title == "Monday"


def test_a_day_that_never_ends() -> None:
    with pytest.raises(OSError, match="is no regular file"):
        DayTerms.read(pathlib.Path("/dev/zero"))


def test_the_letters_of_a_day(tmp_path: pathlib.Path) -> None:
    """They are UTF-8, with or without the mark by which some editors begin."""
    assert read(tmp_path, "\ufefftitle = 'Börse'") == DayTerms(title="Börse")
    path = tmp_path / "day.toml"
    path.write_bytes("title = 'Börse'".encode("cp1252"))
    with pytest.raises(ConfigError, match="day.toml: isn't UTF-8"):
        DayTerms.read(path)


OTHER = 65_534
"""The number of a user who isn't this one."""


def listed(folder: pathlib.Path) -> pathlib.Path:
    """The file of a day, which names a list of values."""
    (folder / "values.csv").write_text("name,side,price,quantity\nAnna,bid,1.20,4\n")
    day = folder / "day.toml"
    day.write_text('[[round]]\nvalues = "list"\nfile = "values.csv"\n')
    return day


def refused(path: pathlib.Path) -> str:
    """Why the day of a file is refused, empty where it isn't."""
    try:
        DayTerms.read(path)
    except OwnerError as fault:
        return str(fault)
    return ""


@pytest.mark.parametrize("name", ["day.toml", "values.csv"])
def test_a_file_that_others_may_write_is_refused(tmp_path: pathlib.Path, name: str) -> None:
    """Also the list of values that a day names."""
    day = listed(tmp_path)
    path = tmp_path / name
    for mode in (0o644, 0o600, 0o440):
        path.chmod(mode)
        assert refused(day) == ""
    for mode in (0o664, 0o646, 0o620):
        path.chmod(mode)
        assert refused(day) == f"{path} may be written by other users: chmod go-w"


@pytest.mark.parametrize("name", ["day.toml", "values.csv"])
def test_a_file_of_another_user_is_refused(
    tmp_path: pathlib.Path, name: str, monkeypatch: pytest.MonkeyPatch
) -> None:
    """Root's are taken: a service reads those that root has put there."""
    day = listed(tmp_path)
    found = os.fstat
    owners = {os.stat(tmp_path / it).st_ino: 0 for it in ("day.toml", "values.csv")}

    def fstat(file: int) -> os.stat_result:
        """The file as if it were that of one of the owners."""
        about = found(file)
        row = [*about]
        row[stat.ST_UID] = owners[about.st_ino]
        return os.stat_result(row)

    monkeypatch.setattr("callauction.venue.owned.os.fstat", fstat)
    monkeypatch.setattr("callauction.venue.owned.os.geteuid", lambda: 1000)
    assert refused(day) == ""
    owners[os.stat(tmp_path / name).st_ino] = 1000
    assert refused(day) == ""
    owners[os.stat(tmp_path / name).st_ino] = OTHER
    text = f"{tmp_path / name} belongs to another user: find out who, then chown"
    assert refused(day) == text


@pytest.mark.skipif("os.geteuid() != 0", reason="only root gives links away")
def test_a_link_of_another_user_to_a_day(tmp_path: pathlib.Path) -> None:
    (tmp_path / "mine.toml").touch(mode=0o600)
    path = tmp_path / "day.toml"
    path.symlink_to(tmp_path / "mine.toml")
    assert refused(path) == ""
    os.chown(path, OTHER, OTHER, follow_symlinks=False)
    assert refused(path) == f"{path} belongs to another user: find out who, then chown"


def test_a_venue_of_a_day_that_others_may_write(tmp_path: pathlib.Path) -> None:
    path = tmp_path / "day.toml"
    path.touch()
    path.chmod(0o666)
    text = f"venue: {path} may be written by other users: chmod go-w\n"
    for words in ((), ("--check",)):
        assert ended("--day", path, "--port", 0, *words) == (2, text)
    assert not (tmp_path / "day.venue").exists()


def test_a_folder_whose_name_isnt_utf_8(tmp_path: pathlib.Path) -> None:
    folder = os.fsdecode(os.fsencode(tmp_path) + b"/\xff")
    status, error = ended("--folder", folder, "--port", 0)
    assert status == 2 and error.startswith("venue: the name of the folder '")
    assert r"\udcff' isn't UTF-8" in error
    assert [*tmp_path.iterdir()] == []

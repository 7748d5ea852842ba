"""A folder that was begun with another day: what would mean something else is refused, and what is
another is said.
"""
import pathlib
import re
import subprocess
import sys
import time

import fixing
import pytest
import served
from callauction.venue import Client

DAY = """
title = "Monday"
sync = false
[phases]
call = 0
[payoff]
rate = "1"
[[instrument]]
name = "XYZ"
tick_size = "0.01"
low = "0.05"
high = "5.00"
reference = "2.00"
"""
SAYS = "the day has changed since it was last opened: "


def printed(folder: pathlib.Path, day: str, *words: str) -> str:
    """What a venue of this day prints in a folder that has begun, to its end."""
    file = folder / "day.toml"
    file.write_text(day, encoding="utf-8")
    named = ["--day", file, "--folder", folder / "venue", "--port", served.free_port(), *words]
    child = subprocess.Popen(
        served.words_of(*named),
        env=served.environment(),
        stdout=subprocess.PIPE,
        stderr=subprocess.STDOUT,
        text=True,
    )
    assert child.stdout is not None
    said = []
    for line in child.stdout:
        said.append(line)
        if line.startswith("beamer "):
            child.terminate()
    child.wait()
    return "".join(said)


@pytest.fixture
def begun(tmp_path: pathlib.Path) -> pathlib.Path:
    """A folder in which Monday has begun, with an order of 3.00."""
    with served.served(tmp_path, DAY) as venue:
        token = venue.join("Anna")
        venue.do("start")
        with Client(venue.url, token) as me:
            me.enter("bid", 10, "3.00")
    return tmp_path


OTHERS = [
    ('tick_size = "0.01"', 'tick_size = "0.05"', "tick_size of XYZ was 0.01, and is 0.05"),
    ('high = "5.00"', 'high = "6.00"', "high of XYZ was 5.00, and is 6.00"),
    ('name = "XYZ"', 'name = "ABC"', "its instruments were XYZ, and are ABC"),
    ('name = "XYZ"', 'name = "XYZ"\ncurrency = "CHF"', "currency of XYZ was EUR, and is CHF"),
    ('name = "XYZ"', 'name = "XYZ"\nrange = "0.50"', "range of XYZ was none, and is 0.50"),
]
"""What is changed in the file of a day, and what is said of it."""


def test_another_instrument_is_refused(begun: pathlib.Path) -> None:
    log = (begun / "venue/venue.log").read_bytes()
    wanted = f"venue: {begun / 'venue'} was begun with another day: "
    for old, new, why in OTHERS:
        said = printed(begun, DAY.replace(old, new), *(["--check"] if "high" in why else []))
        assert said.splitlines()[-1] == f"{wanted}{why}; --folder NEW begins anew"
    assert (begun / "venue/venue.log").read_bytes() == log
    with served.served(begun, DAY) as venue:
        status, found = venue.call("api/day")
    assert status == 200 and found["instruments"][0]["tick_size"] == "0.01"


@pytest.mark.parametrize("words", [[], ["--check"]])
def test_a_folder_without_the_file_of_its_day(begun: pathlib.Path, words: list[str]) -> None:
    """It says that the file is to be given again."""
    named = ["--folder", begun / "venue", "--port", served.free_port(), *words]
    ran = subprocess.run(
        served.words_of(*named), env=served.environment(), capture_output=True, text=True
    )
    why = "was begun with another day: low of XYZ was 0.05, and is 0.01"
    told = f"{why}; --day FILE goes on with the day's file, --folder NEW begins anew"
    assert (ran.returncode, ran.stderr) == (2, f"venue: {begun / 'venue'} {told}\n")


def test_what_else_changed_is_said_once(begun: pathlib.Path) -> None:
    """Another round or payoff may be wanted, another day's file hardly: both are named."""
    said = printed(begun, DAY)
    assert SAYS not in said
    assert f"begun on {time.strftime('%Y-%m-%d')}: round 1, members: 1; --folder NEW" in said
    other = DAY.replace("Monday", "Tuesday").replace('rate = "1"', 'rate = "2"')
    other += 'title = "Apples"\n[[round]]\ntitle = "First"\n'
    names = "title, instrument, payoff, round"
    assert f"changed since it was last opened: {names}\n" in printed(begun, other, "--check")
    assert f"{SAYS}{names}\n" in printed(begun, other)
    assert SAYS not in printed(begun, other)


def test_a_folder_of_which_no_day_is_known(begun: pathlib.Path) -> None:
    """As one that was begun before days were written down: it goes on as it did."""
    log = begun / "venue/venue.log"
    lines = log.read_text().splitlines(keepends=True)
    assert sum('"kind":"day"' in line for line in lines) == 1
    log.write_text("".join(line for line in lines if '"kind":"day"' not in line))
    assert SAYS not in printed(begun, DAY.replace("Monday", "Tuesday"))
    assert f"{SAYS}title\n" in printed(begun, DAY)


def test_members_by_fix_are_no_beginning(tmp_path: pathlib.Path) -> None:
    """A new folder isn't one with which a venue goes on; later it is, with them."""
    day = fixing.day_of(served.free_port(), "ALICE", "BOB")
    assert "goes on with" not in printed(tmp_path, day)
    assert "members: 2; --folder NEW begins anew\n" in printed(tmp_path, day)


SUM = """
import pathlib, sys, tomllib
from callauction.venue import config, day_changes
day = config.DayTerms.of(tomllib.loads(pathlib.Path(sys.argv[1]).read_text()))
print(day_changes.kept(day)["parts"])
"""


def test_a_day_is_the_same_in_each_process(tmp_path: pathlib.Path) -> None:
    """A set's order isn't, from one start to the next."""
    names = ["ALICE", "BOB", "CAROL", "DORA"]
    sessions = "".join(f'{name} = "Member {name}"\n' for name in names)
    file = tmp_path / "day.toml"
    file.write_text(f"{DAY}[fix]\nfix50 = {names}\n[fix.sessions]\n{sessions}", encoding="utf-8")
    said = {
        subprocess.run(
            [sys.executable, "-c", SUM, file],
            env={**served.environment(), "PYTHONHASHSEED": str(seed)},
            capture_output=True,
            text=True,
            check=True,
        ).stdout
        for seed in range(1, 5)
    }
    assert len(said) == 1


SESSIONS = '[fix.sessions]\nALICE = "Alice"\nBOB = "Bob"\n'
WITHOUT_ALICE = '[fix.sessions]\nBOB = "Bob"\n'
STAYS = "a CompID stays its own for the day: give the other one a new CompID"
NEW = "--folder NEW begins anew"
WAYS: list[list[str]] = [["--check"], []]


def fix_of(port: int, copy: str = "COPY") -> str:
    """What a day says of its front, before its sessions."""
    return f'{DAY}[fix]\naddress = "127.0.0.1:{port}"\ncopy = "{copy}"\n'


def missing(where: pathlib.Path) -> str:
    """What is printed where ALICE is missing, by which an order was sent."""
    said = f"is missing, by which the member 'Alice' has sent orders in {where}"
    do = "put it back, or remove that member first by the operator's page"
    return f"venue: fix: sessions: 'ALICE' {said}; {do}; {NEW}\n"


@pytest.fixture
def by_fix(tmp_path: pathlib.Path) -> tuple[pathlib.Path, int]:
    """A folder in which Alice has sent an order by FIX, the copy has logged on, and Bob hasn't; the
    port of its sessions.
    """
    port = served.free_port()
    with served.served(tmp_path, fix_of(port) + SESSIONS) as venue:
        venue.do("start")
        peer = fixing.Peer(port, "ALICE")
        peer.logon(fixing.token_of(tmp_path / "venue", "ALICE"))
        peer.enter("a1", "1", 10, "2.00")
        peer.take(lambda it: it.get(11) == "a1")
        fixing.Peer(port, "COPY").logon(venue.operator)
    return tmp_path, port


OTHER_MEMBERS = [
    (
        SESSIONS.replace('"Alice"', '"Carl"'),
        "'ALICE' is the member's 'Carl', and was the member's 'Alice'",
    ),
    (SESSIONS + 'COPY = "Carl"\n', "'COPY' is the member's 'Carl', and was the operator's copy"),
]
"""Sessions by which a CompID is another's, and what is said of it."""


@pytest.mark.parametrize("words", WAYS)
@pytest.mark.parametrize("sessions, why", OTHER_MEMBERS)
def test_a_comp_id_stays_its_member_s(
    by_fix: tuple[pathlib.Path, int], sessions: str, why: str, words: list[str]
) -> None:
    """Another would be sent what is not its own."""
    folder, port = by_fix
    said = printed(folder, fix_of(port, "COPY2") + sessions, *words)
    assert f"venue: fix: sessions: {why} in {folder / 'venue'}; {STAYS}; {NEW}\n" in said


@pytest.mark.parametrize("words", WAYS)
def test_a_member_keeps_the_comp_id_of_its_orders(
    by_fix: tuple[pathlib.Path, int], words: list[str]
) -> None:
    """By none it could cancel nothing, and by another one its messages would have numbers that it
    has used: they would be taken for those, and not be done.
    """
    folder, port = by_fix
    moved = SESSIONS.replace("ALICE", "ALICE2")
    days = [fix_of(port) + WITHOUT_ALICE, fix_of(port) + moved, DAY]
    for day in days:
        assert missing(folder / "venue") in printed(folder, day, *words)
    other = DAY.replace('high = "5.00"', 'high = "6.00"')
    said = printed(folder, other, *words)  # which is said first
    assert f"high of XYZ was 5.00, and is 6.00; {NEW}\n" in said and "missing" not in said


def test_who_has_sent_nothing_may_go_or_move(by_fix: tuple[pathlib.Path, int]) -> None:
    folder, port = by_fix
    moved = SESSIONS.replace("BOB", "BOB2")
    for sessions in (moved, moved, '[fix.sessions]\nALICE = "Alice"\n', SESSIONS):
        said = printed(folder, fix_of(port) + sessions)
        assert "beamer " in said and "missing" not in said


def test_a_slip_in_a_name_may_be_mended(by_fix: tuple[pathlib.Path, int]) -> None:
    """Of a CompID by which nobody has logged on, whose new member has a password of its own."""
    folder, port = by_fix
    before = fixing.token_of(folder / "venue", "BOB")
    mended = fix_of(port) + SESSIONS.replace('"Bob"', '"Rob"')
    for _ in range(2):
        with served.served(folder, mended) as venue:
            after = fixing.token_of(folder / "venue", "BOB")
            with pytest.raises(fixing.Closed):
                fixing.Peer(port, "BOB").logon(before)
            assert venue.call("api/look/state", token=before)[0] == 200  # Bob by the pages
            assert venue.call("api/look/state", token=after)[0] == 200
    with served.served(folder, mended):
        assert fixing.Peer(port, "BOB").logon(after)[35] == "A"
    why = "'BOB' is the member's 'Bob', and was the member's 'Rob'"
    assert f"venue: fix: sessions: {why} in " in printed(folder, fix_of(port) + SESSIONS)


def test_a_removed_member_s_comp_id_may_go(by_fix: tuple[pathlib.Path, int]) -> None:
    """Its orders are deleted in its name, which is no order that it has entered."""
    folder, port = by_fix
    with served.served(folder, fix_of(port) + SESSIONS) as venue:
        venue.do("remove", member="Alice")
    log = (folder / "venue/venue.log").read_text("utf-8")
    assert '"member":"Alice","number":1,"record":"1,delete,1"' in log
    said = printed(folder, fix_of(port) + WITHOUT_ALICE)
    assert "beamer " in said and "missing" not in said


def test_who_comes_again_by_another_comp_id(by_fix: tuple[pathlib.Path, int]) -> None:
    """Messages of a member who was removed and moved then have numbers of their own, once its new
    session is reset as often as its former one was.
    """
    folder, port = by_fix
    with served.served(folder, fix_of(port) + SESSIONS) as venue:
        venue.do("reset", session="ALICE")
        peer = fixing.Peer(port, "ALICE")
        peer.logon(fixing.token_of(folder / "venue", "ALICE"))
        assert peer.enter("a2", "1", 10, "2.00") == 3
        peer.take(lambda it: it.get(11) == "a2")
        venue.do("remove", member="Alice")
    with served.served(folder, fix_of(port) + SESSIONS.replace("ALICE", "ALICE2")) as venue:
        token = venue.join("", venue.do("readmit", member="Alice")["code"])
        venue.do("reset", session="ALICE2")
        peer = fixing.Peer(port, "ALICE2")
        peer.logon(token)
        assert peer.enter("a3", "1", 10, "2.00") == 3
        found = peer.take(lambda it: it.get(11) == "a3")
        assert (found[150], found[37]) == ("0", "XYZ.3")


def test_who_has_sent_orders_by_the_pages_may_lose_its_comp_id(tmp_path: pathlib.Path) -> None:
    """Its orders are there, and it cancels them there."""
    port = served.free_port()
    with served.served(tmp_path, fix_of(port) + SESSIONS) as venue:
        venue.do("start")
        with Client(venue.url, fixing.token_of(tmp_path / "venue", "ALICE")) as me:
            me.enter("bid", 10, "3.00")
    said = printed(tmp_path, fix_of(port) + WITHOUT_ALICE)
    assert "beamer " in said and "missing" not in said


def test_the_copy_may_go_after_an_uncross(by_fix: tuple[pathlib.Path, int]) -> None:
    """The operator's commands are no orders of its."""
    folder, port = by_fix
    with served.served(folder, fix_of(port) + SESSIONS) as venue:
        venue.do("uncross")
    for day in (fix_of(port, "COPY2"), fix_of(port).replace('copy = "COPY"\n', "")):
        said = printed(folder, day + SESSIONS)
        assert "beamer " in said and "missing" not in said


def test_a_folder_of_which_no_sessions_are_known(by_fix: tuple[pathlib.Path, int]) -> None:
    """As one that was begun before they were written down: they are at the next start."""
    folder, port = by_fix
    log = folder / "venue/venue.log"
    sessions = re.compile(r',"sessions":\{[^}]*\}')
    assert len(sessions.findall(log.read_text("utf-8"))) == 1
    log.write_text(sessions.sub("", log.read_text("utf-8")), "utf-8")
    assert "beamer " in printed(folder, fix_of(port) + SESSIONS)
    assert missing(folder / "venue") in printed(folder, fix_of(port) + WITHOUT_ALICE)

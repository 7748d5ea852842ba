"""What `--check` says of a day, its folder and its machine before a venue starts."""
import asyncio
import json
import os
import pathlib
import re
import subprocess
import time

import pytest
import served
from callauction.venue import AsyncClient, checking, listening_address
from callauction.venue.config import DayTerms
from callauction.venue.day_changes import OtherDayError
from checked_days import checked, contents, day_before
from conftest import FAST
from served import Served, ended

DAY_IS_OVER = "the day is over: no call can start; the next round can, or --folder NEW begins anew"


@pytest.mark.parametrize("words", [("--port", "70000"), ("--metrics", "127.0.0.1:-1")])
def test_a_port_that_is_none(words: tuple[str, str]) -> None:
    status, _, error = checked(*words)
    assert status == 2 and f"argument {words[0]}: invalid" in error


def test_a_day_that_has_no_fault(tmp_path: pathlib.Path) -> None:
    words = day_before(tmp_path)
    before = contents(tmp_path / "venue")
    status, printed, error = checked(*words)
    assert (status, error) == (0, "")
    lines = printed.splitlines()
    assert lines[0] == "XYZ: 0.01 to 10.00 EUR by 0.01, reference 2.00, 65536 commands"
    assert lines[1] == "address: 127.0.0.1, without TLS"
    assert lines[-1] == "XYZ: 10 entries"
    assert contents(tmp_path / "venue") == before
    status, printed, _ = checked("--folder", tmp_path / "new")
    assert (status, printed.splitlines()[-1]) == (0, f"{tmp_path}/new: not there yet")
    assert not (tmp_path / "new").exists()


def test_each_fault_of_a_day(tmp_path: pathlib.Path) -> None:
    words = day_before(tmp_path)
    journal, token = tmp_path / "venue/XYZ.journal.csv", tmp_path / "venue/beamer.token"
    right = journal.read_text()
    journal.write_text("".join(right.splitlines(keepends=True)[:6]))
    status, printed, error = checked(*words)
    assert (status, error) == (0, "")  # the venue's other instruments are to be served
    older = "XYZ: the journal is an older one: it has 5 entries, and the log knows of 10"
    assert printed.splitlines()[-1] == f"warning: {older}: put the right file back, then `resume`"
    journal.write_text(right + "1,delete,7,deleted 7\n")
    told = "venue: XYZ: the journal is a longer one: it has 11 entries, and the log knows of 10: "
    assert checked(*words)[::2] == (1, f"{told}put the right file, or the last copy, back\n")
    journal.write_text(right + "\0" * 8192 + "1,delete,7,deleted\n1,delete,8,deleted\n")
    told = told.replace("11 entries", "12 entries")
    for status, error in (checked(*words)[::2], ended(*words, "--port", 0)):
        assert (status, error) == (1, f"{told}put the right file, or the last copy, back\n")
    journal.write_text(right)
    token.write_text("")
    assert checked(*words)[::2] == (
        1, f"venue: {token} holds no token: remove it, and the next start makes one\n"
    )
    token.unlink()
    (tmp_path / "venue").chmod(0o770)
    assert checked(*words)[0] == 2
    (tmp_path / "day.toml").write_text("call = 3")
    assert checked(*words)[0] == 1
    (tmp_path / "day.toml").write_text("[[instrument]]\nhigh = 1000.00")
    status, _, error = checked("--day", tmp_path / "day.toml", "--folder", tmp_path / "other")
    assert status == 1 and "instrument XYZ: high 1000.00 is 100000 ticks" in error, error
    assert checked("--listen", "0.0.0.0")[0] == 2
    assert not token.exists()


@pytest.mark.parametrize("program", ["/bin/true", "/bin/echo"])
def test_a_program_that_is_another_one(tmp_path: pathlib.Path, program: str) -> None:
    words = ["--folder", str(tmp_path / "venue"), "--port", "0"]
    for more in ((), ("--check",)):
        ran = subprocess.run(
            served.words_of(*words, *more),
            env=served.environment(CALLBOARD=program),
            capture_output=True,
            text=True,
            timeout=served.SECONDS,
        )
        told = "venue: XYZ: " if not more else "venue: "
        told += "the program isn't callboard: name callboard by CALLBOARD\n"
        assert (ran.returncode, ran.stderr) == (3, told)


def test_files_of_a_day_that_are_gone(tmp_path: pathlib.Path) -> None:
    """A check says what a start does."""
    words = day_before(tmp_path)
    folder = tmp_path / "venue"
    (folder / "XYZ.journal.csv").rename(tmp_path / "journal")
    gone = "warning: XYZ: the journal is missing, and the log knows of 10 entries: put the right"
    assert checked(*words)[1].splitlines()[-1].startswith(gone)
    (tmp_path / "journal").rename(folder / "XYZ.journal.csv")
    (folder / "venue.log").rename(tmp_path / "log")
    told = "venue: XYZ: the journal has entries, and the log none of its messages: put the right "
    for status, error in (checked(*words)[::2], ended(*words, "--port", 0)):
        assert status == 1 and error.startswith(told), error


def over(folder: pathlib.Path, rounds: int = 1) -> list[object]:
    """A day whose auctions are all over: the words that go on with it."""
    with served.served(folder, FAST + "[[round]]\n" * rounds) as venue:
        for _ in range(3):
            venue.do("start")
            reply = venue.do("uncross")["reply"]
    assert reply.startswith("closing ")
    return ["--day", folder / "day.toml", "--folder", folder / "venue"]


def date(moment: float) -> str:
    return time.strftime("%Y-%m-%d", time.localtime(moment))


def aged(log: pathlib.Path) -> None:
    """The day was two days before."""
    lines = [json.loads(it) for it in log.read_text().splitlines()]
    earlier = [it | {"time": it["time"] - 2 * listening_address.DAY_SECONDS} for it in lines]
    log.write_text("".join(f"{json.dumps(it)}\n" for it in earlier))


def test_a_day_that_is_over(tmp_path: pathlib.Path) -> None:
    """It is shown again on its own day; on a later one a check fails."""
    words = over(tmp_path)
    status, printed, error = checked(*words)
    assert (status, error) == (0, "")
    assert f"warning: {DAY_IS_OVER}" in printed.splitlines()
    assert f"{tmp_path}/venue: begun on {date(time.time())}" in printed.splitlines()
    aged(tmp_path / "venue/venue.log")
    text = f"{tmp_path}/venue: its day is over, lastly used on {date(time.time() - 2 * 86400)}"
    assert checked(*words)[::2] == (2, f"venue: {text}: --folder NEW begins anew\n")
    venue = served.started(*words, "--port", 0)
    venue.child.terminate()
    assert venue.child.communicate(timeout=served.SECONDS)[1] == f"venue: {DAY_IS_OVER}\n"


def test_a_day_that_is_over_while_its_venue_runs(
    tmp_path: pathlib.Path, monkeypatch: pytest.MonkeyPatch
) -> None:
    """A check says what a start says once that is ended; on a later day it fails as that does."""
    folder = tmp_path / "venue"
    with served.served(tmp_path, FAST + "[[round]]\n") as venue:
        for _ in range(3):
            venue.do("start")
            venue.do("uncross")
        status, printed, error = checked("--day", tmp_path / "day.toml", "--folder", folder)
        assert (status, error) == (0, "")
        ends = ["XYZ: 3 entries, and the venue runs", f"warning: {DAY_IS_OVER}"]
        assert printed.splitlines()[-2:] == ends
        today, later = date(time.time()), time.time() + 2 * listening_address.DAY_SECONDS
        monkeypatch.setattr(time, "time", lambda: later)
        day = DayTerms.read(tmp_path / "day.toml")
        with pytest.raises(OtherDayError, match=f"its day is over, lastly used on {today}: "):
            [*checking.checked_running(day, folder, served.program())]


def test_a_round_that_is_over(tmp_path: pathlib.Path) -> None:
    """The next one may be on another day."""
    words = over(tmp_path, 2)
    aged(tmp_path / "venue/venue.log")
    status, printed, error = checked(*words)
    assert (status, error) == (0, "") and f"warning: {DAY_IS_OVER}" in printed.splitlines()


def test_metrics_on_the_members_port(tmp_path: pathlib.Path) -> None:
    port = served.free_port()
    words = ["--folder", tmp_path / "venue", "--port", port, "--metrics", f"127.0.0.1:{port}"]
    told = f"venue: --metrics: port {port} is the members': take another\n"
    assert checked(*words)[::2] == ended(*words) == (2, told)


@pytest.mark.parametrize("host", ["127.0.0.1", "localhost", "0.0.0.0"])
@pytest.mark.parametrize("whose", ["members' (--port)", "operator's (--metrics)"])
def test_fix_on_another_port_of_the_venue(tmp_path: pathlib.Path, whose: str, host: str) -> None:
    """Neither a check nor a start takes it."""
    port, other = served.free_port(), served.free_port()
    file = tmp_path / "day.toml"
    file.write_text(f'[fix]\naddress = "{host}:{port}"\n[fix.sessions]\nALICE = "Alice"\n')
    ports = (port, other) if "members" in whose else (other, port)
    words = ["--day", file, "--folder", tmp_path / "venue", "--port", ports[0]]
    words += ["--metrics", f"127.0.0.1:{ports[1]}"]
    told = f"venue: fix: address: port {port} is the {whose}: take another\n"
    assert checked(*words)[::2] == ended(*words) == (2, told)
    assert not (tmp_path / "venue").exists()


def later(line: str, seconds: float) -> str:
    """A line of a log with a time that is later."""
    found = json.loads(line)
    return json.dumps(found | {"time": found["time"] + seconds})


@pytest.mark.parametrize(
    "members, instruments, is_warned",
    [("", 2, True), ("most = 64", 3, True), ("most = 63", 2, False), ("", 1, False),
     ("group = 63", 2, False), ("most = 300\ngroup = 20", 2, False),
     ("open = false\nnames = ['Ann', 'Bob']", 2, False)],
)  # fmt: skip
def test_more_members_than_an_instrument_takes(
    tmp_path: pathlib.Path, members: str, instruments: int, is_warned: bool
) -> None:
    """Of several instruments there are no groups unless the day's file says how large they are."""
    rows = "".join(f'[[instrument]]\nname = "X{place}"\n' for place in range(instruments))
    (tmp_path / "day.toml").write_text(f"[members]\n{members}\n{rows}")
    status, printed, error = checked("--day", tmp_path / "day.toml", "--folder", tmp_path / "new")
    told = [it for it in printed.splitlines() if it.startswith("warning: members: ")]
    assert (status, error, len(told)) == (0, "", is_warned)
    for line in told:
        most = members.rpartition(" ")[2] or "200"
        assert line == (
            f"warning: members: most {most} is more than the 63 who may trade one of several "
            "instruments: `group = 63` deals them into groups, each with boards of its own"
        )


def test_a_clock_that_is_behind(tmp_path: pathlib.Path) -> None:
    """The log's last line, or the last change of a journal."""
    words = day_before(tmp_path)
    log, journal = tmp_path / "venue/venue.log", tmp_path / "venue/XYZ.journal.csv"
    *lines, last = log.read_text().splitlines()
    right = log.read_bytes()
    log.write_text("\n".join([*lines, later(last, 5000.0), ""]))
    status, printed, error = checked(*words)
    assert (status, error) == (0, "")
    [told] = [it for it in printed.splitlines() if it.startswith("warning: ")]
    found = re.fullmatch(
        r"warning: the clock is (\S+) s behind the log's last line: calls go on with what was left "
        "of them then",
        told,
    )
    assert found and 4000 < float(found[1]) <= 5000
    log.write_bytes(right)
    assert "warning" not in checked(*words)[1]
    os.utime(journal, (time.time(), time.time() + 3000))
    [told] = [it for it in checked(*words)[1].splitlines() if it.startswith("warning: ")]
    found = re.fullmatch(
        r"warning: the clock is (\S+) s behind the last change of XYZ\.journal\.csv", told
    )
    assert found and 2000 < float(found[1]) <= 3000


CANT_GO_ON: dict[str, tuple[str, int, str]] = {
    "version": ('"version":2', 1, "venue.log is the log of another version: go on by that, or"),
    "line": ("", 1, 'this line of the log can\'t be: {"time'),
}
"""What is wrong with a log whose lines are all lines of a log: what is another in it, the status,
and what is said.
"""


@pytest.mark.parametrize("what", CANT_GO_ON)
def test_a_log_that_cant_be_gone_on_with(tmp_path: pathlib.Path, what: str) -> None:
    """A check says what a start says, and changes nothing."""
    words = day_before(tmp_path)
    log = tmp_path / "venue/venue.log"
    right, status, text = CANT_GO_ON[what]
    if right:
        log.write_text(log.read_text().replace(right, '"version":1'))
    else:
        with log.open("a") as file:
            file.write('{"time":1.0,"kind":"rename","name":"nobody","title":"x"}\n')
    before = contents(tmp_path / "venue")
    found = checked(*words)
    assert found[0] == status and text in found[2] and found[2].count("\n") == 1, found
    assert contents(tmp_path / "venue") == before
    assert ended(*words, "--port", 0)[0] == status


def test_a_journal_of_another_day(tmp_path: pathlib.Path) -> None:
    """It has no entries, so that the log knows of none, and the program refuses it."""
    with served.served(tmp_path, FAST):
        pass
    words: list[object] = ["--day", tmp_path / "day.toml", "--folder", tmp_path / "venue"]
    journal = tmp_path / "venue/XYZ.journal.csv"
    first = journal.read_text()
    assert first.startswith("day,1,1000,200,")
    journal.write_text(first.replace("day,1,1000,", "day,1,2000,", 1))
    told = "venue: XYZ: journal of another day: high"
    for found in (checked(*words)[::2], ended(*words, "--port", 0)):
        assert found[0] == 2 and found[1].startswith(told), found


def test_a_running_day_that_cant_be_gone_on_with(tmp_path: pathlib.Path) -> None:
    """Its file was changed since it was begun: what changes at the next start, and what can't."""
    with served.served(tmp_path, FAST):
        file = tmp_path / "day.toml"
        words: list[object] = ["--day", file, "--folder", tmp_path / "venue"]
        file.write_text(FAST.replace("call = 0", "call = 9"))
        status, printed, _ = checked(*words)
        assert status == 0 and "changed since it was last opened: phases" in printed.splitlines()
        file.write_text(FAST + '[[instrument]]\nhigh = "20.00"\n')
        told = "was begun with another day: high of XYZ was 10.00, and is 20.00; --folder NEW"
        status, _, error = checked(*words)
        assert status == 2 and told in error, error


def test_a_tick_size_alone(tmp_path: pathlib.Path) -> None:
    """The prices that a file leaves out are as many ticks; a check says what they are then."""
    file = tmp_path / "day.toml"
    file.write_text('[[instrument]]\ntick_size = "0.05"\n')
    status, printed, error = checked("--day", file, "--folder", tmp_path / "new")
    first = "XYZ: 0.05 to 50.00 EUR by 0.05, reference 10.00, 65536 commands"
    assert (status, error, printed.splitlines()[0]) == (0, "", first)


def test_a_folder_in_one_that_isnt_there(tmp_path: pathlib.Path) -> None:
    told = f"venue: {tmp_path}/none: No such file or directory: make it, or name another\n"
    assert checked("--folder", tmp_path / "none/venue")[::2] == (3, told)


@pytest.mark.parametrize("name", ["venue.log", "fix.sent", "fix.ALICE.token"])
def test_a_file_of_a_day_that_others_may_read(tmp_path: pathlib.Path, name: str) -> None:
    words = day_before(tmp_path)
    with (tmp_path / "day.toml").open("a") as day:
        day.write('[fix.sessions]\nALICE = "Alice"\n')
    path = tmp_path / "venue" / name
    path.touch(mode=0o644)
    path.chmod(0o644)
    text = f"venue: {path} may be read by other users: chmod go-rwx\n"
    assert checked(*words)[::2] == (2, text)


ON_A_DISK = """
mount -t tmpfs -o size=1m,mode=0700 tmpfs "$1" && mkdir -m 0700 "$1/venue" || exit 9
[ "$2" = ro ] && mount -o remount,ro "$1" || head -c 1m /dev/zero > "$1/all"
shift 2
exec "$@"
"""
"""Runs a command where the folder has a disk that is full, or there to be read alone."""


@pytest.mark.parametrize("name", ["venue", "new"])
@pytest.mark.parametrize("how, why", [("ro", "Read-only file"), ("full", "No space left")])
def test_a_disk_that_has_no_room(tmp_path: pathlib.Path, how: str, why: str, name: str) -> None:
    disk = tmp_path / "disk"
    disk.mkdir()
    before = ["unshare", "-rm", "sh", "-c", ON_A_DISK, "sh", str(disk), how]
    words = served.words_of("--check", "--port", 0, "--folder", disk / name)
    environment = served.environment()
    ran = subprocess.run([*before, *words], env=environment, capture_output=True, text=True)
    where = disk / name if name == "venue" else disk
    assert ran.returncode == 3 and ran.stderr.startswith(f"venue: {where}: {why}"), ran.stderr


async def checked_beside(venue: Served, token: str, words: list[object]) -> list[str]:
    """The last lines of `--check` beside a member who sends many orders at once."""
    found = []
    async with AsyncClient(venue.url, token) as me:
        for _ in range(4):
            checking = asyncio.create_task(asyncio.to_thread(checked, *words))
            while not checking.done():
                await asyncio.gather(*(me.enter("bid", 1, "2.00") for _ in range(20)))
                await asyncio.gather(*(me.delete(1) for _ in range(20)))
            status, printed, error = checking.result()
            assert (status, error) == (0, ""), error
            found.append(printed.splitlines()[-1])
    return found


def test_a_day_that_runs_is_checked_as_it_is_at_one_moment(tmp_path: pathlib.Path) -> None:
    with served.served(tmp_path, FAST) as venue:
        token = venue.join("Anna")
        venue.do("start")
        words: list[object] = ["--day", tmp_path / "day.toml", "--folder", tmp_path / "venue"]
        found = asyncio.run(checked_beside(venue, token, words))
        counts = [int(it.split()[1]) for it in found]
        assert counts == sorted(counts) and counts[-1] > 100
        assert {it.split(" ", 2)[2] for it in found} == {"entries, and the day runs"}

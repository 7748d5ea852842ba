"""A clock that was set ahead while the venue was away: no call is cut short where that is known;
where it can't be, the operator is told before anything is uncrossed.
"""
import json
import pathlib
import re
import subprocess
import time
from typing import Any

import pytest
import served
from browsing import SCREEN, opened
from callauction.venue import Client, clock
from callauction.venue.log import Line
from callauction.venue.timekeeping import CLOCK_BEHIND, CLOCK_SET, direction_of, set_since
from machines import on_a_clock

CALL = 900
DAY = f"sync = false\n[phases]\ncall = {CALL}\nautomatic = {{}}\n"
GRACE = 30
LATE = r"the machine's clock is 7\d\d\d\.\d s ahead of the log's last line, and the call of XYZ "
LATE += "has ended by it: "
AWAY = r"the log's last line is \d+\.\d s old, and the call of XYZ has ended since: "
DOES = {True: f"it goes on for {GRACE} s, then it is uncrossed", False: "`extend` lets it go on"}


def killed_in_a_call(folder: pathlib.Path, day: str) -> str:
    """A member's token of a venue that is killed in a call; the clock is set ahead by two hours
    then.
    """
    with on_a_clock(folder, day) as venue:
        token = venue.join("Anna")
        venue.do("start")
        with Client(venue.url, token) as me:
            me.enter("bid", 1, "2.00")
        venue.child.kill()
        venue.child.wait(served.SECONDS)
    (folder / "jump").write_text("7200")
    return token


def started_again(log: pathlib.Path) -> None:
    """Has the log be of another run of the machine, as after a power cut."""
    text, own = log.read_text(), clock.boot()
    assert own and text.count(f'"id":"{own}"') == 1
    log.write_text(text.replace(own, "another run"))


def goes_on(folder: pathlib.Path, day: str, token: str) -> tuple[Any, list[str]]:
    """The state of a venue that goes on and is killed, and what it has said of it."""
    with on_a_clock(folder, day) as venue:
        state = venue.call("api/look/state", token=token)[1]
        venue.child.kill()
        return state, venue.child.communicate(timeout=served.SECONDS)[1].splitlines()


@pytest.mark.parametrize("is_automatic", [False, True])
def test_a_clock_that_was_set_ahead_before_a_start(
    tmp_path: pathlib.Path, is_automatic: bool
) -> None:
    """A call has left what it had, also at the next start: the machine has run on meanwhile."""
    day = DAY.format(str(is_automatic).lower())
    token = killed_in_a_call(tmp_path, day)
    state, said = goes_on(tmp_path, day, token)
    assert state["phase"] == "call" and 600 < state["ends"] - state["now"] < CALL, state
    assert len(said) == 1 and re.fullmatch(
        r"venue: the machine's clock was set 7[12]\d\d\.\d+ s ahead since the last start: calls go "
        "on with what is left",
        said[0],
    ), said
    state, said = goes_on(tmp_path, day, token)
    assert state["phase"] == "call" and 600 < state["ends"] - state["now"] < CALL, state
    assert said == []


@pytest.mark.parametrize("is_written", [False, True])
def test_a_crash_as_a_start_writes_how_the_clock_was_set(
    tmp_path: pathlib.Path, is_written: bool
) -> None:
    """Its call has left what it had: the clock is set by as much once, whatever was written."""
    day, log = DAY.format("false"), tmp_path / "venue/venue.log"
    token = killed_in_a_call(tmp_path, day)
    before = log.read_bytes()
    goes_on(tmp_path, day, token)
    first, *_ = log.read_bytes()[len(before) :].splitlines(keepends=True)
    assert json.loads(first)["kind"] == "boot"
    log.write_bytes(before + first * is_written)
    state, _ = goes_on(tmp_path, day, token)
    assert state["phase"] == "call" and 600 < state["ends"] - state["now"] < CALL, state


def started_at(boot: str, began: float) -> Line:
    """The log's line of a start in a run of the machine that began then."""
    return {"kind": "boot", "id": boot, "began": began}


def test_since_when_a_clock_was_set() -> None:
    """Since the last start, and where the machine has run on since that alone."""
    own, began = clock.boot(), clock.BEGAN
    assert own
    before, now = started_at(own, began - 500), started_at(own, began)
    other = started_at("another run", began - 500)
    assert set_since([other, before]) == pytest.approx(500)
    assert set_since([started_at(own, began + 500)]) == pytest.approx(-500)
    for first, last in ((now, now), (before, now), (other, now), (before, other), (now, other)):
        assert set_since([first, last]) == 0
    assert set_since([]) == 0


@pytest.mark.parametrize("is_automatic", [False, True])
def test_a_machine_that_was_started_again_with_a_clock_ahead(
    tmp_path: pathlib.Path, is_automatic: bool
) -> None:
    """That might be the time that it was away: the operator is told, and members can still act."""
    day, does = DAY.format(str(is_automatic).lower()), re.escape(DOES[is_automatic])
    token = killed_in_a_call(tmp_path, day)
    started_again(tmp_path / "venue/venue.log")
    with on_a_clock(tmp_path, day) as venue:
        state = venue.call("api/look/state", token=token)[1]
        assert state["phase"] == ("call" if is_automatic else "ended")
        if is_automatic:
            assert 0 < state["ends"] - state["now"] <= GRACE
        with opened(tmp_path / "browser", f"{venue.url}teacher#{venue.operator}", SCREEN) as page:
            page.waits(lambda it: it.shows("late"))
            assert re.fullmatch(LATE + does, page.text("late"))
            venue.do("uncross")
            page.waits(lambda it: not it.shows("late"))
            assert not page.errors()
        venue.child.terminate()
        said = venue.child.communicate(timeout=served.SECONDS)[1].splitlines()
    assert len(said) == 1 and re.fullmatch(f"venue: {LATE}{does}", said[0]), said
    lines = [json.loads(it) for it in (tmp_path / "venue/venue.log").read_text().splitlines()]
    [late] = [it for it in lines if it["kind"] == "late"]
    assert late["instrument"] == "XYZ" and 7000 < late["ahead"] < 7300


@pytest.mark.parametrize("is_automatic, call", [(False, 3), (True, 20)])
def test_a_venue_that_was_away_over_the_end_of_a_call(
    tmp_path: pathlib.Path, is_automatic: bool, call: int
) -> None:
    """Its clock is right; what is said of the call goes once its end was moved."""
    day = f"sync = false\n[phases]\ncall = {call}\nautomatic = {str(is_automatic).lower()}\n"
    does = DOES[is_automatic].replace(str(GRACE), str(call))
    with served.served(tmp_path, day) as venue:
        venue.do("start")
        venue.child.kill()
        venue.child.wait(served.SECONDS)
    time.sleep(call + 1)
    with served.served(tmp_path, day) as venue:
        with opened(tmp_path / "browser", f"{venue.url}teacher#{venue.operator}", SCREEN) as page:
            page.waits(lambda it: it.shows("late"))
            assert re.fullmatch(AWAY + does, page.text("late"))
            venue.do("extend", seconds=600)
            page.waits(lambda it: not it.shows("late"))
            assert not page.errors()
        venue.child.terminate()
        said = venue.child.communicate(timeout=served.SECONDS)[1].splitlines()
    assert len(said) == 1 and re.fullmatch(f"venue: {AWAY}{does}", said[0]), said


def test_a_check_of_a_clock_that_was_set_ahead(tmp_path: pathlib.Path) -> None:
    day = DAY.format("false")
    killed_in_a_call(tmp_path, day)
    log = tmp_path / "venue/venue.log"
    text = log.read_text()
    log.write_text(re.sub(r'"began":(\d+)', lambda it: f'"began":{int(it[1]) - 500}', text))
    words = ["--check", "--day", tmp_path / "day.toml", "--folder", tmp_path / "venue"]
    ran = subprocess.run(
        served.words_of(*words, "--port", served.free_port()),
        env=served.environment(), capture_output=True, text=True,
    )
    assert ran.returncode == 0, ran
    assert re.search(r"^warning: the machine's clock was set 50\d\.\d+ s ahead ", ran.stdout, re.M)


def test_which_way_a_clock_is() -> None:
    assert direction_of(-86400.0, " of") == "86400.0 s behind"
    rest = " the venue's and its log's, which is that of the start"
    found = CLOCK_SET % direction_of(-86400.0, " of")
    assert found == f"the machine's clock is 86400.0 s behind{rest}"
    assert CLOCK_SET % direction_of(5.0, " of") == f"the machine's clock is 5.0 s ahead of{rest}"
    assert (CLOCK_BEHIND % 3.5).startswith("the clock is 3.5 s behind ")

"""Who has the code takes no more places than a class needs: new members of one address are slowed,
and the operator reads of it.
"""
import contextlib
import http.client
import json
import pathlib
import time
from typing import Any

import pytest
import served
from browsing import SCREEN, joined, opened
from callauction.venue import arrivals
from callauction.venue.arrivals import Arrivals
from callauction.venue.messages import MessageError
from rounds import sees
from served import Served

DO = (
    "if that isn't the class, Close joining on the teacher's page, New code for all, and Remove "
    "who is wrong there"
)


class SetClock:
    """A clock that a test sets."""

    def __init__(self) -> None:
        self.now = 1000.0

    def __call__(self) -> float:
        return self.now


def came(found: Arrivals, address: str, name: str = "Anna") -> bool:
    """Whether a new member may come from an address."""
    try:
        found.check(address)
    except MessageError as fault:
        assert fault.code == "join_later"
        return False
    found.came(address, name)
    return True


def test_a_class_behind_one_address(caplog: pytest.LogCaptureFixture) -> None:
    """Forty come at once, then one each few seconds; others come meanwhile."""
    clock = SetClock()
    found = Arrivals(40, clock)
    assert [came(found, "10.0.0.1", f"member {it}") for it in range(40)] == [True] * 40
    assert not found.take_change() and not came(found, "10.0.0.1")
    assert found.take_change() and not found.take_change()
    assert found.slowed() == {"10.0.0.1": [f"member {it}" for it in range(40)]}
    assert came(found, "10.0.0.2") and came(found, "")
    clock.now += arrivals.JOIN_SECONDS + 0.01
    assert came(found, "10.0.0.1", "late") and not came(found, "10.0.0.1")
    [record] = caplog.records
    assert record.getMessage() == (
        "joins from 10.0.0.1 are slowed: 40 members came from there, lastly member 35, "
        f"member 36, member 37, member 38, member 39; {DO}")
    clock.now += arrivals.SLOW_SECONDS
    assert found.slowed() == {} and found.take_change()
    clock.now += 41 * arrivals.JOIN_SECONDS
    assert [came(found, "10.0.0.1") for _ in range(41)] == [True] * 40 + [False]
    assert len(found.slowed()["10.0.0.1"]) == 40


def test_addresses_of_one_network_are_one() -> None:
    found = Arrivals(2, SetClock())
    assert [came(found, f"2001:db8::{it}") for it in range(3)] == [True, True, False]
    assert [*found.slowed()] == ["2001:db8::/64"] and came(found, "2001:db8:0:1::1")


def test_any_number_where_the_day_says_so() -> None:
    found = Arrivals(0, SetClock())
    assert all(came(found, "10.0.0.1") for _ in range(100)) and not found.slowed()


def test_what_is_kept_of_addresses_has_bounds() -> None:
    found = Arrivals(1, SetClock())
    for place in range(2 * arrivals.MOST_ADDRESSES):
        assert came(found, f"10.0.{place // 256}.{place % 256}")
    assert len(found._origins) == arrivals.MOST_ADDRESSES


def asked(venue: Served, address: str, name: str, code: str = "") -> tuple[int, str | None, Any]:
    """What is answered to a join from an address of this machine: the status, when to try again."""
    port = int(venue.url.rpartition(":")[2].strip("/"))
    with_address = http.client.HTTPConnection("127.0.0.1", port, source_address=(address, 0))
    body = json.dumps({"code": code or venue.code, "name": name})
    with_address.request("POST", "/api/join", body, {"Content-Type": "application/json"})
    answer = with_address.getresponse()
    found = json.loads(answer.read())
    with_address.close()
    return answer.status, answer.headers["Retry-After"], found


def said_at_end(venue: Served) -> str:
    """What a venue that ends has said on standard error."""
    venue.child.terminate()
    return venue.child.communicate(timeout=served.SECONDS)[1]


def test_a_script_that_takes_places(tmp_path: pathlib.Path) -> None:
    """After forty it is slowed, and others come; who has a code of its own isn't counted."""
    with served.served(tmp_path, "sync = false\n") as venue:
        count = 0
        while (answer := asked(venue, "127.0.0.9", f"Bot{count}"))[0] == 200:
            count += 1
        status, later, refused = answer
        assert (status, later, refused["error"]) == (429, "3", "join_later") and count >= 40
        assert asked(venue, "127.0.0.1", "Anna")[0] == 200
        code = venue.do("code", member="Bot0")["code"]
        assert asked(venue, "127.0.0.9", "", code)[0] == 200
        shown = sees(venue, "members")
        [slowed] = shown["slowed"]
        assert (slowed["address"], shown["most"]) == ("127.0.0.9", 200)
        last = ", ".join(f"Bot{place}" for place in range(count - 5, count))
        assert (slowed["count"], slowed["last"]) == (count, last)
        [line] = said_at_end(venue).splitlines()
        said = f"joins from 127.0.0.9 are slowed: {count} members came from there, lastly {last}"
        assert line == f"venue: {said}; {DO}"


def test_all_places_are_taken(tmp_path: pathlib.Path) -> None:
    """The operator and who comes too late read what to do."""
    day = "sync = false\n[members]\nmost = 2\n"
    with served.served(tmp_path, day) as venue:
        venue.join("Anna"), venue.join("Bert")
        with opened(tmp_path / "late", venue.url) as late:
            late.waits(lambda it: it.shows("join"))
            late.types(code=venue.code, name="Carl")
            late.clicks("#join button")
            late.waits(lambda it: it.text("join-said") == (
                "As many members as may be have joined: ask the teacher to make room for you."))
        url = f"{venue.url}teacher#{venue.operator}"
        with opened(tmp_path / "teacher", url, SCREEN) as teacher:
            teacher.waits(lambda it: it.text("arrivals").startswith(
                "All 2 places are taken: nobody more can join.\nIf these aren't your class, "))
            venue.do("remove", member="Bert")
            teacher.waits(lambda it: not it.shows("arrivals"))
        venue.join("Carl")
        taken = f"venue: all 2 places are taken, lastly by {{}}; {DO}"
        lines = said_at_end(venue).splitlines()
        assert lines == [taken.format("Bert"), taken.format("Carl")]


def test_the_page_joins_by_itself(tmp_path: pathlib.Path) -> None:
    day = "sync = false\n[members]\njoins = 1\n"
    with contextlib.ExitStack() as opening:
        venue = opening.enter_context(served.served(tmp_path, day))
        page = opening.enter_context(opened(tmp_path / "page", venue.url))
        teacher = opening.enter_context(
            opened(tmp_path / "t", f"{venue.url}teacher#{venue.operator}", SCREEN)
        )
        page.waits(lambda it: it.shows("join"))
        page.types(code=venue.code, name="Bert")
        venue.join("Anna")
        page.clicks("#join button")
        page.waits(lambda it: it.text("join-said").startswith("Many have just joined from this"))
        teacher.waits(lambda it: it.text("arrivals").startswith(
            "Joining from 127.0.0.1 is slowed: "))
        page.waits(lambda it: it.text("who") == "Bert")
        assert page.errors() == []


def test_who_changes_the_form_joins_by_hand(tmp_path: pathlib.Path) -> None:
    """Nobody joins by a name that is half written."""
    day = "sync = false\n[members]\njoins = 1\n"
    with served.served(tmp_path, day) as venue, joined(tmp_path / "anna", venue, "Anna"):
        with opened(tmp_path / "page", venue.url) as page:
            page.waits(lambda it: it.shows("join"))
            venue.call("api/join", {"code": venue.code, "name": "Carl"})
            page.types(code=venue.code, name="Bert")
            page.clicks("#join button")
            page.waits(lambda it: bool(it.text("join-said")) or it.text("who") == "Bert")
            if not page.text("who"):
                page.find("#name").send_keys("a")
                time.sleep(6)
                assert (page.text("join-said"), page.text("who")) == ("", "")

"""A member who goes on at another device, by a new code of the teacher's: each device is told."""
import pathlib
from typing import Any

import served
from browsing import Page, joins, opened
from conftest import FAST
from served import Served

KEPT = "venue.token"


def look(venue: Served, token: str) -> tuple[int, Any]:
    """What a device with this token is answered."""
    return venue.call("api/look/orders", token=token)


def test_the_first_device_is_told_of_the_second(tmp_path: pathlib.Path) -> None:
    """Also one that was off meanwhile, and after a restart; who was removed isn't told so."""
    with served.served(tmp_path, FAST) as venue:
        status, found = venue.call("api/join", {"code": venue.code, "name": "Anna"})
        assert (status, found["again"]) == (200, False)
        first, bert = found["token"], venue.join("Bert")
        own = venue.do("code", member="Anna")["code"]
        _, found = venue.call("api/join", {"code": own, "name": ""})
        assert (found["name"], found["again"]) == ("Anna", True)
        venue.do("remove", member="Bert")
        for token, text in ((first, "this member goes on at another device"),
                            (bert, "this token is nobody's here")):
            assert look(venue, token) == (401, {"error": "bad_token", "text": text})
        venue.child.kill()
        venue.child.wait()
        with served.served(tmp_path, FAST) as again:
            assert look(again, first)[1]["text"] == "this member goes on at another device"
            assert look(again, found["token"])[0] == 200


def goes_on(page: Page, venue: Served, token: str = "") -> None:
    """Becomes the device that has this token, or none."""
    page.runs("localStorage.setItem(arguments[0], arguments[1])", KEPT, token)
    page.driver.get(venue.url)


def test_both_devices_say_so(tmp_path: pathlib.Path) -> None:
    with served.served(tmp_path, FAST) as venue, opened(tmp_path / "page", venue.url) as page:
        joins(page, venue.code, "Anna")
        first = page.runs("return localStorage.getItem(arguments[0])", KEPT)
        own = venue.do("code", member="Anna")["code"]
        goes_on(page, venue)
        joins(page, own, "Anna")
        page.waits(lambda it: it.text("said").startswith("You go on here as Anna"))
        goes_on(page, venue, first)
        page.waits(lambda it: it.text("join-said").startswith("You go on at another device"))
        assert page.shows("join")
        page.speaks("de")
        goes_on(page, venue, first)
        german = "Für Sie geht es an einem anderen Gerät weiter"
        page.waits(lambda it: it.text("join-said").startswith(german))

"""The operator's hand: who may join, by which code; who is removed, comes again, is renamed."""
import concurrent.futures
import pathlib

import pytest
import served
from callauction.venue import Client, VenueError
from conftest import FAST
from patience import until
from rounds import members, sees
from served import Served


def joins(venue: Served, name: str, code: str = "") -> str:
    """What is said to somebody who joins, empty where it's let in."""
    _, found = venue.call("api/join", {"code": code or venue.code, "name": name})
    return str(found.get("error", ""))


def test_a_class_joins_at_once_from_one_address(tmp_path: pathlib.Path) -> None:
    """Also while somebody beside it guesses codes."""
    with served.served(tmp_path, FAST) as venue:
        names = [f"member {place}" for place in range(90)]
        with concurrent.futures.ThreadPoolExecutor(40) as pool:
            guesses = [pool.submit(joins, venue, "Eve", "WRONG1") for _ in range(60)]
            found = [*pool.map(lambda name: joins(venue, name), names)]
            guessed = [it.result() for it in guesses]
        assert found == [""] * 90
        assert set(guessed) <= {"bad_code", "too_fast"}
        assert joins(venue, "late") == ""


def test_a_closed_door_takes_own_codes_alone(venue: Served, tmp_path: pathlib.Path) -> None:
    """Also after a restart."""
    anna = venue.join("Anna")
    venue.do("door", open=False)
    assert joins(venue, "Bert") == "joining_closed"
    assert sees(venue, "beamer")["code"] == ""
    own = venue.do("code", member="Anna")["code"]
    assert joins(venue, "", own) == ""
    assert venue.call("api/look/orders", token=anna)[0] == 401
    venue.child.kill()
    venue.child.wait()
    with served.served(tmp_path, FAST) as again:
        assert joins(again, "Bert", venue.code) == "joining_closed"
        again.do("door", open=True)
        assert joins(again, "Bert", venue.code) == ""
        code = again.do("code")["code"]
        assert joins(again, "Carl", venue.code) == "bad_code"
        assert joins(again, "Carl", code) == ""
        assert sees(again, "beamer")["code"] == code


def test_a_door_that_the_file_has_closed(tmp_path: pathlib.Path) -> None:
    """The operator's door counts, also after a restart; until then there is no code."""
    day = FAST.replace("[members]", "[members]\nopen = false\nnames = ['Anna']")
    with served.served(tmp_path, day) as venue:
        assert venue.code == "" and not sees(venue, "members")["open"]
        assert joins(venue, "Bert", "GUESS1") == "bad_code"
        venue.do("door", open=True)
        code = sees(venue, "members")["codes"][""]
        assert sees(venue, "beamer")["code"] == code
        assert joins(venue, "Bert", code) == ""
        venue.child.kill()
        venue.child.wait()
    with served.served(tmp_path, day) as again:
        assert again.code == code and joins(again, "Carl", code) == ""
        again.do("door", open=False)
        assert joins(again, "Dora", code) == "joining_closed"


def test_a_member_is_removed_and_comes_again(venue: Served, tmp_path: pathlib.Path) -> None:
    anna, bert = venue.join("Anna"), venue.join("Bert")
    venue.do("start")
    with Client(venue.url, bert) as other:
        other.enter("ask", 5, "2.00")
        with Client(venue.url, anna) as me:
            for _ in range(3):
                me.enter("bid", 5, "1.00")
            until(lambda: bool(other.look("state")["indication"]["bid"] == "1.00"))
            venue.do("remove", member="Anna")
            with pytest.raises(VenueError):
                me.enter("bid", 5, "1.00")
    assert venue.call("api/look/orders", token=anna)[0] == 401
    assert joins(venue, "Anna") == "name_taken"
    assert venue.do("uncross")["reply"] == "opening no price"
    left = [{"price": "2.00", "bid": 0, "ask": 5}]
    until(lambda: bool(sees(venue, "ladder")["levels"] == left))
    assert members(venue)["Anna"]["is_removed"]
    assert venue.call("api/operator", {"do": "remove", "member": "Anna"}, venue.operator)[0] == 400
    venue.child.kill()
    venue.child.wait()
    with served.served(tmp_path, FAST) as again:
        assert members(again)["Anna"]["is_removed"]
        bert_too = {"do": "readmit", "member": "Bert"}
        assert again.call("api/operator", bert_too, again.operator)[0] == 400
        code = again.do("readmit", member="Anna")["code"]
        status, found = again.call("api/join", {"code": code, "name": ""})
        assert (status, found["name"]) == (200, "Anna")
        assert not members(again)["Anna"]["is_removed"]
        again.do("start")
        with Client(again.url, found["token"]) as me:
            assert not me.enter("bid", 5, "1.00").is_refused


def test_a_member_gets_another_name(venue: Served, tmp_path: pathlib.Path) -> None:
    anna, bert = venue.join("Anna"), venue.join("Bert")
    value = {"member": "Anna", "side": "bid", "price": "2.50", "quantity": 10}
    venue.do("give", values=[value])
    assert venue.do("rename", member="Anna", name=" Anne  Marie ")["name"] == "Anne Marie"
    for name, error in (("Bert", "name_taken"), ("", "bad_name"), ("x" * 41, "bad_name")):
        body = {"do": "rename", "member": "Anne Marie", "name": name}
        assert venue.call("api/operator", body, venue.operator)[1]["error"] == error
    venue.do("start")
    with Client(venue.url, anna) as me, Client(venue.url, bert) as other:
        me.enter("bid", 10, "2.00")
        other.enter("ask", 10, "2.00")
        venue.do("uncross")
    until(lambda: bool(sees(venue, "trades")["trades"]))
    assert sees(venue, "welcome", anna)["name"] == "Anne Marie"
    [trade] = sees(venue, "trades")["trades"]
    assert (trade["buyer"], trade["seller"]) == ("Anne Marie", "Bert")
    names = venue.call("api/download/members/XYZ", token=venue.operator)[1]
    assert names == "number,name\n1,Anne Marie\n2,Bert\n"
    assert joins(venue, "Anna") == "name_taken"
    venue.child.kill()
    venue.child.wait()
    with served.served(tmp_path, FAST) as again:
        assert members(again)["Anne Marie"]["values"]["XYZ"]["value"]["price"] == "2.50"
        assert again.do("rename", member="Anne Marie", name="Anna")["name"] == "Anna"
        assert joins(again, "Anne Marie", venue.code) == ""

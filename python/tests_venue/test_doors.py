"""Who may what, and from where."""
import asyncio
import json
import os
import pathlib
import ssl
import subprocess
import sys
import urllib.request
from typing import Any

import aiohttp
import psutil
import pytest
import served
from callauction.venue import AsyncClient, Client, VenueError
from callauction.venue.listening_address import Address
from schemas import RECEIVED
from served import Served, ended
from speaking import SaidMessages, hello, said

ENTER = {"type": "enter", "number": 1, "side": "bid", "quantity": 5, "price": "2.00"}


# ---- tokens


def test_nobody_speaks_without_a_token(venue: Served) -> None:
    for text in (hello("guessed"), hello(""), json.dumps(ENTER), "no JSON"):
        [heard] = asyncio.run(said(venue, text))
        assert heard["type"] == "error"
    for path in ("look/state", "look/orders", "download/journal/XYZ"):
        assert venue.call(f"api/{path}")[0] == 401
        assert venue.call(f"api/{path}", token="guessed")[0] == 401
    assert venue.call("api/operator", {"do": "start"})[0] == 401


def test_a_member_is_no_operator(venue: Served) -> None:
    token = venue.join("Anna")
    for mine in (token, venue.beamer):
        assert venue.call("api/operator", {"do": "start"}, mine)[0] == 403
        for kind in ("journal", "report", "trades", "members"):
            assert venue.call(f"api/download/{kind}/XYZ", token=mine)[0] == 403
    for other in (venue.operator, venue.beamer):
        heard = asyncio.run(said(venue, hello(other), json.dumps(ENTER), count=2))
        assert [it.get("error") for it in heard] == [None, "not_allowed"]
        assert venue.call("api/look/orders", token=other)[0] == 403


def test_a_member_speaks_for_itself_alone(venue: Served) -> None:
    anna, bert = venue.join("Anna"), venue.join("Bert")
    venue.do("start")
    with Client(venue.url, anna) as me, Client(venue.url, bert) as other:
        order = me.enter("bid", 5, "2.00").order
        assert order == 1
        assert other.change(order, 6, "2.00").reply == "refused 5 UnknownOrder"
        assert other.delete(order).reply == "refused 5 UnknownOrder"
        assert other.look("orders")["orders"] == []
        assert [it["order"] for it in me.look("orders")["orders"]] == [1]
    for name in ("member", "token", "name"):
        text = json.dumps(ENTER | {name: 1})
        heard = asyncio.run(said(venue, hello(anna), text, count=2))
        assert heard[1]["error"] == "bad_message"


def test_an_error_echoes_numbers_alone(venue: Served) -> None:
    token = venue.join("Anna")
    for number in (True, 1.5, "1"):
        text = json.dumps(ENTER | {"number": number})
        heard = asyncio.run(said(venue, hello(token), text, count=2))[1]
        RECEIVED.validate(heard)
        assert heard["error"] == "bad_message" and "number" not in heard


def test_a_member_sees_no_others_orders_in_a_call(venue: Served) -> None:
    anna, bert = venue.join("Anna"), venue.join("Bert")
    venue.do("start")

    async def heard() -> SaidMessages:
        found: SaidMessages = []
        topics = ("states", "orders", "fills", "trades")
        first, second = AsyncClient(venue.url, anna, topics), AsyncClient(venue.url, bert)
        async with first as me, second as other:
            await other.enter("ask", 77, "1.23", peak=11)
            await me.enter("bid", 5, "1.00")
            async for event in me.events():
                found.append(event)
                own = event["type"] == "orders" and event["orders"]
                if own and found[-2]["indication"]["bid"]:
                    return found
        raise AssertionError

    found = asyncio.run(asyncio.wait_for(heard(), 20))
    for event in found:
        RECEIVED.validate(event)
        assert event["type"] in ("state", "orders", "fills", "trades")
        if event["type"] == "orders":
            assert {it["open"] for it in event["orders"]} <= {5}
    states = [it["indication"] for it in found if it["type"] == "state"]
    assert states[-1] == {
        "price": None, "bid": "1.00", "ask": "1.23", "volume": 0, "surplus": 0, "side": "none"
    }
    assert "77" not in json.dumps(states)


def test_joining(venue: Served) -> None:
    venue.join("Anna", venue.code.lower())
    for code, name, error in [
        ("WRONG1", "Bert", "bad_code"),
        ("", "Bert", "bad_code"),
        (venue.code, "", "bad_name"),
        (venue.code, "<i>", "bad_name"),
        (venue.code, "a" * 41, "bad_name"),
        (venue.code, "A\u200bnna", "bad_name"),
        (venue.code, " anna ", "name_taken"),
        (venue.code, "\uff21nna", "name_taken"),
    ]:
        status, found = venue.call("api/join", {"code": code, "name": name})
        assert (status != 200, found["error"]) == (True, error)
    status, found = venue.call("api/join", {"code": venue.code, "name": "Bert", "group": 2})
    assert (status, found["text"]) == (400, "there is no 'group' in a join")


def test_a_lost_telephone(venue: Served) -> None:
    first = venue.join("Anna")
    code = venue.do("code", member="Anna")["code"]
    status, found = venue.call("api/join", {"code": code, "name": "ignored"})
    assert (status, found["name"]) == (200, "Anna")
    assert venue.call("api/look/orders", token=first)[0] == 401
    assert venue.call("api/look/orders", token=found["token"])[0] == 200


def test_names_with_codes_of_their_own(tmp_path: pathlib.Path) -> None:
    day = "[members]\nopen = false\nnames = ['Anna', 'Bert']"
    with served.served(tmp_path, day) as venue:
        assert venue.code == ""
        heard = asyncio.run(operator_sees(venue))
        assert set(heard["codes"]) == {"Anna", "Bert"}
        status, found = venue.call("api/join", {"code": heard["codes"]["Bert"], "name": ""})
        assert (status, found["name"]) == (200, "Bert")
        assert venue.call("api/join", {"code": "", "name": "Eve"})[1]["error"] == "bad_code"


async def operator_sees(venue: Served) -> dict[str, Any]:
    """The members that the operator is shown."""
    async with aiohttp.ClientSession() as web:
        async with web.ws_connect(f"{venue.url}api/socket") as socket:
            await socket.send_str(hello(venue.operator))
            while True:
                found: dict[str, Any] = await socket.receive_json(timeout=served.SECONDS)
                if found["type"] == "members":
                    return found


def test_no_secret_is_written_where_others_read(venue: Served, tmp_path: pathlib.Path) -> None:
    token = venue.join("Anna")
    folder = tmp_path / "venue"
    assert folder.stat().st_mode & 0o077 == 0
    for file in folder.iterdir():
        if not file.name.startswith("XYZ."):
            assert file.stat().st_mode & 0o077 == 0, file
    log = (folder / "venue.log").read_text()
    assert token not in log and venue.operator not in log


# ---- origins


def test_pages_of_elsewhere_are_refused(venue: Served) -> None:
    token = venue.join("Anna")
    for headers in ({"Origin": "https://evil.example"}, {"Origin": "null"},
                    {"Host": "evil.example", "Origin": "http://evil.example"},
                    {"Host": "evil.example"}):
        join = {"code": venue.code, "name": "x"}
        for path, body in (("api/join", join), ("api/day", None), ("", None)):
            assert venue.call(path, body, headers=headers)[0] == 403, headers
        with pytest.raises(aiohttp.WSServerHandshakeError) as found:
            asyncio.run(said(venue, hello(token), headers=headers))
        assert found.value.status == 403
    own = {"Origin": venue.url.rstrip("/")}
    assert venue.call("api/day", headers=own)[0] == 200
    assert asyncio.run(said(venue, hello(token), headers=own))[0]["type"] == "welcome"


def test_a_form_of_elsewhere_can_do_nothing(venue: Served) -> None:
    for kind in ("text/plain", "application/x-www-form-urlencoded"):
        headers = {"Content-Type": kind, "Authorization": f"Bearer {venue.operator}"}
        assert venue.call("api/operator", {"do": "start"}, headers=headers)[0] == 400


def test_pages_have_a_policy(venue: Served) -> None:
    for path in ("", "teacher", "beamer", "pages/common.js"):
        with urllib.request.urlopen(venue.url + path) as answer:
            assert "default-src 'none'" in answer.headers["Content-Security-Policy"]
    assert venue.call("pages/..%2fconfig.py")[0] == 404
    assert venue.call("pages/nothing")[0] == 404


# ---- rates


def test_a_fast_member_is_slowed_down_and_others_are_not(tmp_path: pathlib.Path) -> None:
    with served.served(tmp_path, "sync = false\n[members]\nrate = 1\nburst = 5") as venue:
        anna, bert = venue.join("Anna"), venue.join("Bert")
        venue.do("start")
        with Client(venue.url, anna) as me, Client(venue.url, bert) as other:
            codes = []
            for _ in range(8):
                try:
                    me.enter("bid", 5, "2.00")
                    codes.append("")
                except VenueError as fault:
                    codes.append(fault.code)
            assert codes[:5] == [""] * 5 and "too_fast" in codes[5:]
            assert not other.enter("bid", 5, "2.00").is_refused


# ---- where it listens


@pytest.mark.parametrize(
    "words, text",
    [
        (["--listen", "0.0.0.0"], "0.0.0.0 is reached from other machines"),
        (["--listen", "::"], ":: is reached from other machines"),
        (["--listen", "example.org"], "example.org is reached from other machines"),
        (["--tls-cert", "c.pem"], "--tls-cert and --tls-key go together"),
        (["--tls-cert", "c", "--tls-key", "k", "--insecure"], "--insecure is for no TLS at all"),
        (["--tls-cert", "c", "--tls-key", "k"], "c can't be read: No such file"),
        (["--name", "a b"], "--name: 'a b' is no name of a host, and no address"),
        (["--name", "[::1]", "--check"], "--name: '[::1]' is no name of a host, and no address"),
        (["--day", "nothing.toml"], "nothing.toml: No such file or directory"),
    ],
)
def test_where_it_doesnt_listen(tmp_path: pathlib.Path, words: list[str], text: str) -> None:
    status, error = ended(*words, "--folder", tmp_path / "venue", "--port", 0)
    assert status in (2, 3) and text in error and len(error.splitlines()) == 1


@pytest.mark.parametrize("name", ["class.example", "Class-2.example.", "10.0.0.1", "::1", "a_b"])
def test_names_of_this_machine(name: str) -> None:
    Address(names=(name,)).check()


def test_a_page_may_have_a_last_slash(venue: Served) -> None:
    """As an address bar may have it, behind which the token stays."""
    for page in ("teacher", "beamer"):
        assert venue.call(f"{page}/") == venue.call(page) and venue.call(page)[0] == 200


def test_it_listens_on_loopback_alone(venue: Served) -> None:
    found = psutil.Process(venue.child.pid).connections(kind="all")
    listening = [it.laddr.ip for it in found if it.status == psutil.CONN_LISTEN]
    assert listening == ["127.0.0.1"]


def test_insecure_says_what_it_means(tmp_path: pathlib.Path) -> None:
    with served.served(tmp_path, "", "--listen", "0.0.0.0", "--insecure") as venue:
        assert venue.child.stdout is not None
        assert "can read tokens and speak for others" in venue.child.stdout.readline()


def test_a_client_joins_over_tls_if_it_trusts_the_certificate(tmp_path: pathlib.Path) -> None:
    cert, key = tmp_path / "cert.pem", tmp_path / "key.pem"
    words = "openssl req -x509 -newkey ec -pkeyopt ec_paramgen_curve:prime256v1 -nodes -days 30"
    files = ["-subj", "/CN=venue", "-keyout", str(key), "-out", str(cert)]
    named = ["-addext", "subjectAltName=IP:127.0.0.1"]
    subprocess.run([*words.split(), *files, *named], check=True, capture_output=True)
    given = ["--tls-cert", cert, "--tls-key", key]
    with served.served(tmp_path, "", *given) as venue:
        assert venue.url.startswith("https://")
        trusting = ssl.create_default_context(cafile=str(cert))
        token = Client.join(venue.url, venue.code, "Anna", trusting)
        with Client(venue.url, token, tls=trusting) as me:
            assert me.look("state")["phase"] == "waiting"
        with pytest.raises(aiohttp.ClientError):
            Client.join(venue.url, venue.code, "Bert")


def test_one_venue_a_folder(venue: Served, tmp_path: pathlib.Path) -> None:
    status, error = ended("--folder", tmp_path / "venue", "--port", 0)
    who = f"is in use by another venue, process {venue.child.pid}: end that one, or --folder"
    assert status == 2 and who in error


def test_there_is_no_program(tmp_path: pathlib.Path) -> None:
    environment = served.environment(CALLBOARD="/nothing")
    ran = subprocess.run(
        [sys.executable, "-m", "callauction.venue", "--folder", tmp_path / "venue"],
        env=environment | {"PATH": os.environ["PATH"]},
        capture_output=True,
        text=True,
        timeout=served.SECONDS,
    )
    assert (ran.returncode, ran.stderr) == (3, "venue: CALLBOARD names no program: /nothing\n")

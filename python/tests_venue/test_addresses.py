"""The address that members are given: in networks of the test's own, and what the screen says."""
import asyncio
import json
import pathlib
import re
import subprocess
import sys
from typing import Any

import aiohttp
import pytest
import served
from callauction.venue import addresses
from callauction.venue.listening_address import Address
from served import Served
from speaking import hello

WORDS = ["unshare", "-rmun", sys.executable, str(served.HERE / "namespaces.py")]


def link(name: str, *own: str) -> list[str]:
    """The commands that make an interface with these addresses."""
    made = [f"link add {name} type veth peer name {name}-far"]
    made += [f"addr add {address} dev {name}" for address in own]
    return [*made, f"link set {name} up", f"link set {name}-far up"]


def done(folder: pathlib.Path, *commands: str) -> Any:
    """What came of these commands in a network of its own."""
    ran = subprocess.run(
        [*WORDS, str(folder), *commands],
        env=served.environment(),
        capture_output=True,
        text=True,
        timeout=served.SECONDS,
    )
    assert ran.returncode == 0, ran.stderr
    return json.loads(ran.stdout)


def test_a_hotspot_without_a_route(tmp_path: pathlib.Path) -> None:
    """The machine's name is 127.0.1.1, as Debian has it; another name isn't the venue's. Another
    address comes later.
    """
    later = ["addr add 192.168.7.5/24 dev wlan0", "ask 192.168.7.5"]
    asked = ["ask 10.42.0.1", "ask 127.0.1.1", "ask laptop", "ask elsewhere"]
    found = done(tmp_path, *link("wlan0", "10.42.0.1/24"), "venue 0.0.0.0", *asked, *later)
    assert found[0] == {"members": "10.42.0.1", "others": []}
    assert found[1:] == [200, 200, 200, 403, 200]


def test_the_address_of_the_default_route_comes_first(tmp_path: pathlib.Path) -> None:
    links = [
        *link("docker0", "172.17.0.1/16"), *link("eth1", "10.1.2.3/8"),
        *link("wlan0", "141.20.1.5/24"), "route add default via 141.20.1.1",
    ]
    found = done(tmp_path, *links, "venue 0.0.0.0", "ask 10.1.2.3")
    assert found[0]["members"] == "141.20.1.5"
    assert [re.findall(r"//(.*):", it) for it in found[0]["others"]] == [
        ["10.1.2.3"], ["172.17.0.1"]
    ]
    assert found[1] == 200


def test_a_vpn_is_no_way_to_telephones(tmp_path: pathlib.Path) -> None:
    links = [*link("wlan0", "192.168.1.9/24"), *link("tun0", "10.8.0.2/24")]
    found = done(tmp_path, *links, "route add default via 10.8.0.1", "venue 0.0.0.0")
    assert found[0]["members"] == "192.168.1.9"


def test_a_name_that_is_given_comes_before_all_addresses(tmp_path: pathlib.Path) -> None:
    found = done(tmp_path, *link("wlan0", "10.42.0.1/24"), "venue 0.0.0.0 --name class.example")
    assert found[0] == {"members": "class.example", "others": ["http://10.42.0.1:8080/"]}


def test_addresses_that_the_certificate_is_for(monkeypatch: pytest.MonkeyPatch) -> None:
    """Others would be refused by each browser; all, where it is for none."""
    monkeypatch.setattr(addresses, "own_addresses", lambda host: ["192.0.2.2", "2001:db8::2"])
    address = Address("0.0.0.0", 8120, "cert.pem", "key.pem", names=("venue.example",))
    first, second, third = (
        f"https://{it}:8120/" for it in ("venue.example", "192.0.2.2", "[2001:db8::2]")
    )
    assert address.urls(8120, lambda: ["*.example"]) == [first]
    assert address.urls(8120, lambda: ["venue.example", "2001:db8::2"]) == [first, third]
    assert address.urls(8120, lambda: ["192.0.2.2"]) == [second]
    assert address.urls(8120, lambda: ["other.example"]) == [first, second, third]
    assert address.urls(8120) == [first, second, third]


def test_no_network(tmp_path: pathlib.Path) -> None:
    assert done(tmp_path, "venue 0.0.0.0")[0] == {"members": "localhost", "others": []}


@pytest.mark.parametrize(
    "first, second, are_same",
    [
        ("10.0.0.5", "10.0.0.5", True),
        ("10.0.0.5", "::ffff:10.0.0.5", True),
        ("fe80::1", "FE80:0::1", True),
        ("10.0.0.5", "10.0.0.6", False),
        ("laptop", "laptop", False),
        ("", "10.0.0.5", False),
    ],
)
def test_the_same_address(first: str, second: str, are_same: bool) -> None:
    assert addresses.is_same_address(first, second) == are_same


async def screen(venue: Served, token: str) -> dict[str, Any]:
    """What the screen is first shown of the venue."""
    async with aiohttp.ClientSession() as web, asyncio.timeout(served.SECONDS):
        async with web.ws_connect(f"{venue.url}api/socket") as socket:
            await socket.send_str(hello(token))
            while True:
                found: dict[str, Any] = await socket.receive_json()
                if found["type"] == "beamer":
                    return found


def test_the_screen_says_where_to_join(venue: Served) -> None:
    for count in range(3):
        found = asyncio.run(screen(venue, venue.beamer))
        assert (found["url"], found["code"]) == (venue.url, venue.code)
        assert (found["members"], found["here"]) == (count, 0)
        venue.join(f"member {count}")


def test_the_qr_code_leads_there() -> None:
    """The squares in its corners are there, and another text is another code."""
    found = addresses.qr_code_of("http://10.42.0.1:8080/#H5RJD6")
    assert found is not None
    size, path = found
    dark = {(int(down), int(across)) for across, down in re.findall(r"M(\d+) (\d+)", path)}
    assert all(4 <= place < size - 4 for pair in dark for place in pair)
    for down, across in ((4, 4), (4, size - 11), (size - 11, 4)):
        square = ["".join(".#"[(down + row, across + place) in dark] for place in range(7))
                  for row in range(7)]
        inner = ["#.###.#"] * 3
        assert square == ["#######", "#.....#", *inner, "#.....#", "#######"]
    assert found != addresses.qr_code_of("http://10.42.0.1:8080/#H5RJD7")

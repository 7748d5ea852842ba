"""What the operator and members do and see in the rounds of a lesson."""
import asyncio
import pathlib
from typing import Any

import aiohttp
import served
from callauction.venue import Client
from patience import until
from served import Served
from speaking import hello


def sees(venue: Served, kind: str, token: str = "") -> dict[str, Any]:
    """The message of this kind that somebody is first shown: the operator, if nobody else."""

    async def heard() -> dict[str, Any]:
        async with aiohttp.ClientSession() as web, asyncio.timeout(served.SECONDS):
            async with web.ws_connect(f"{venue.url}api/socket") as socket:
                await socket.send_str(hello(token or venue.operator))
                while True:
                    found: dict[str, Any] = await socket.receive_json()
                    if found["type"] == kind:
                        return found

    return asyncio.run(heard())


def value_of(venue: Served, token: str) -> Any:
    """The value that a member has."""
    return venue.call("api/look/fills", token=token)[1]["value"]


def trade(
    venue: Served, buyer: str, seller: str, price: str = "2.00", instrument: str | None = None
) -> None:
    """An auction in which one member buys 10 shares of another."""
    named = {"instrument": instrument} if instrument else {}
    venue.do("start", **named)
    with Client(venue.url, buyer) as me, Client(venue.url, seller) as other:
        me.enter("bid", 10, price, instrument=instrument)
        other.enter("ask", 10, price, instrument=instrument)
        venue.do("uncross", **named)
        until(lambda: bool(me.look("fills", instrument)["fills"]))


VALUES = [{"member": "Anna", "side": "bid", "price": "2.50", "quantity": 10},
          {"member": "Bert", "side": "ask", "price": "1.50", "quantity": 10}]


def limited(venue: Served, **treatment: Any) -> None:
    """Begins a second round with these limits, and its first call."""
    venue.do("next", round=2, treatment=treatment)
    venue.do("start")


def cut(log: pathlib.Path, text: str) -> None:
    """The log as it is where the venue was killed after the last line that has this text."""
    lines = log.read_text().splitlines(keepends=True)
    last = max(place for place, line in enumerate(lines) if text in line)
    log.write_text("".join(lines[: last + 1]))


def members(venue: Served) -> dict[str, dict[str, Any]]:
    """What the operator sees of the members, by their names."""
    return {it["name"]: it for it in sees(venue, "members")["members"]}


def download(venue: Served, kind: str) -> str:
    """A download, which is there."""
    status, text = venue.call(f"api/download/{kind}/XYZ", token=venue.operator)
    assert status == 200, text
    return str(text)

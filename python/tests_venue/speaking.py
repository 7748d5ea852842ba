"""What is said to a venue by WebSocket, and what is heard."""
import json
from typing import Any

import aiohttp
import served
from served import Served

SaidMessages = list[dict[str, Any]]


async def said(
    venue: Served, *texts: str, headers: dict[str, str] = {}, count: int = 1
) -> SaidMessages:
    """What a connection hears first after it says these texts."""
    heard: SaidMessages = []
    async with aiohttp.ClientSession() as web:
        async with web.ws_connect(f"{venue.url}api/socket", headers=headers) as socket:
            for text in texts:
                await socket.send_str(text)
            while len(heard) < count:
                message = await socket.receive(timeout=served.SECONDS)
                if message.type is not aiohttp.WSMsgType.TEXT:
                    break
                found = json.loads(message.data)
                if found["type"] in ("welcome", "answer", "error"):
                    heard.append(found)
    return heard


def hello(token: str) -> str:
    """The first message of a connection."""
    return json.dumps({"type": "hello", "token": token})

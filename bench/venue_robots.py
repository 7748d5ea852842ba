"""Robots of a measure: connections that each send a message, wait for its answer, send the next.

On standard input it gets a line of JSON, with `url`, `hellos` (a text for each connection, empty
for none) and `texts` (a list for each); it prints `ready` once all are connected, waits for another
line, and prints a line of JSON with the seconds of the clock at which it began and ended, and the
seconds that each answer took.
"""
import asyncio
import json
import sys
import time

import aiohttp


async def connected(
    web: aiohttp.ClientSession, url: str, hello: str
) -> aiohttp.ClientWebSocketResponse:
    """A connection that has said who it is."""
    socket = await web.ws_connect(url)
    if hello:
        await socket.send_str(hello)
        await socket.receive()
    return socket


async def play(socket: aiohttp.ClientWebSocketResponse, texts: list[str]) -> list[float]:
    """The seconds that each text's answer took."""
    found = []
    for text in texts:
        begin = time.perf_counter()
        await socket.send_str(text)
        answer = await socket.receive()
        found.append(time.perf_counter() - begin)
        if '"error"' in answer.data:
            sys.exit(f"venue_robots: {answer.data}")
    return found


async def main() -> None:
    asked = json.loads(sys.stdin.readline())
    async with aiohttp.ClientSession() as web:
        sockets = [await connected(web, asked["url"], hello) for hello in asked["hellos"]]
        print("ready", flush=True)
        await asyncio.to_thread(sys.stdin.readline)
        begin = time.monotonic()
        waits = await asyncio.gather(*map(play, sockets, asked["texts"]))
        end = time.monotonic()
        print(json.dumps([begin, end, [it for those in waits for it in those]]), flush=True)
        for socket in sockets:
            await socket.close()


if __name__ == "__main__":
    asyncio.run(main())

"""Robots of a measure by FIX 4.4: sessions that each send an order, wait for its answer, send the
next; it is told once on standard input and answers as venue_robots.py does. As there, all that is
sent is made before.

The line of JSON has `port`, `sessions` (CompID and password of each) and `orders` (how many each
sends).
"""
import asyncio
import datetime
import json
import sys
import time

SOH = b"\x01"
END = SOH + b"10="
REPORT = SOH + b"35=8" + SOH
REFUSED = SOH + b"150=8" + SOH
Streams = tuple[asyncio.StreamReader, asyncio.StreamWriter]


def stamp() -> str:
    """The time as FIX has it."""
    return datetime.datetime.now(datetime.timezone.utc).strftime("%Y%m%d-%H:%M:%S.%f")[:-3]


def written(kind: str, number: int, comp_id: str, rest: str) -> bytes:
    """The bytes of a message; `rest` has | in place of the byte 1."""
    body = f"35={kind}|34={number}|49={comp_id}|52={stamp()}|56=VENUE|{rest}|"
    data = body.replace("|", "\x01").encode("ascii")
    text = b"8=FIX.4.4" + SOH + b"9=%d" % len(data) + SOH + data
    return text + b"10=%03d" % (sum(text) % 256) + SOH


async def heard(reader: asyncio.StreamReader) -> bytes:
    """The next message."""
    found = await reader.readuntil(END)
    return found + await reader.readuntil(SOH)


async def connected(port: int, comp_id: str, password: str) -> Streams:
    """A session that is logged on."""
    reader, writer = await asyncio.open_connection("127.0.0.1", port)
    writer.write(written("A", 1, comp_id, f"98=0|108=300|554={password}"))
    if SOH + b"35=A" + SOH not in await heard(reader):
        sys.exit(f"fix_robots: {comp_id} can't log on")
    return reader, writer


def texts(comp_id: str, orders: int) -> list[bytes]:
    """The orders of a session, whose Logon had the number 1."""
    found = []
    for number in range(2, orders + 2):
        side, tick = "12"[number % 2], 150 + number * 37 % 100
        rest = f"11={number}|55=XYZ|54={side}|60={stamp()}|38={1 + number % 900}|40=2"
        found.append(written("D", number, comp_id, f"{rest}|44={tick / 100:.2f}"))
    return found


async def play(streams: Streams, those: list[bytes]) -> list[float]:
    """The seconds that each order's answer took."""
    reader, writer = streams
    found = []
    for text in those:
        begin = time.perf_counter()
        writer.write(text)
        answer = await heard(reader)
        while REPORT not in answer:
            answer = await heard(reader)
        found.append(time.perf_counter() - begin)
        if REFUSED in answer:
            sys.exit(f"fix_robots: {answer!r}")
    return found


async def main() -> None:
    asked = json.loads(sys.stdin.readline())
    those = asked["sessions"]
    streams = [await connected(asked["port"], *it) for it in those]
    orders = [texts(name, asked["orders"]) for name, _ in those]
    print("ready", flush=True)
    await asyncio.to_thread(sys.stdin.readline)
    begin = time.monotonic()
    waits = await asyncio.gather(*map(play, streams, orders))
    end = time.monotonic()
    print(json.dumps([begin, end, [it for each in waits for it in each]]), flush=True)
    for _, writer in streams:
        writer.close()


if __name__ == "__main__":
    asyncio.run(main())

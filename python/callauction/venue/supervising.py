"""What a venue says to systemd (sd_notify): that it serves, that it lives, that it ends."""
import asyncio
import contextlib
import os
import socket

from callauction.venue.background import going_on

NOTIFY_SOCKET, WATCHDOG = "NOTIFY_SOCKET", "WATCHDOG_USEC"


def notify(text: str) -> bool:
    """Says this to the service manager: whether there is one that heard it."""
    path = os.environ.get(NOTIFY_SOCKET, "")
    if not path.startswith(("/", "@")):
        return False
    place = "\0" + path[1:] if path.startswith("@") else path
    with contextlib.suppress(OSError), socket.socket(
        socket.AF_UNIX, socket.SOCK_DGRAM | socket.SOCK_CLOEXEC
    ) as out:
        out.sendto(text.encode(), place)
        return True
    return False


def watchdog_seconds() -> float | None:
    """How often the service manager wants a sign of life, None where it wants none."""
    text = os.environ.get(WATCHDOG, "")
    return int(text) / 2_000_000 if text.isdecimal() and int(text) else None


async def live(seconds: float) -> None:
    """Gives signs of life, as long as the loop of this venue turns."""
    while True:
        with going_on("a sign of life"):
            notify("WATCHDOG=1")
        await asyncio.sleep(seconds)

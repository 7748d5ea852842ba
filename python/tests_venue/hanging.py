"""What hangs of a venue, and whether that ends in time."""
import contextlib
import signal
import socket
import subprocess
import sys
import threading
import time
from collections.abc import Iterator

import psutil
import served
from callauction.venue import serving
from served import Served

ANSWER_SECONDS, END_SECONDS = 10.0, 5.0
"""What a program may take to answer, and a venue to end."""
YARDSTICK = f"""
import os, signal, threading, time
end = threading.Timer({serving.END_SECONDS}, os._exit, [0])
signal.signal(signal.SIGTERM, lambda *_: end.start())
print("begun", flush=True)
while True:
    time.sleep(1)
"""
"""A process that ends by its timer as long after a signal as a venue has to, and does no more: on a
machine that does much else it is as late.
"""


def program_of(venue: Served, name: str) -> psutil.Process:
    """The process of an instrument's program."""
    [found] = [
        child
        for child in psutil.Process(venue.child.pid).children()
        if f"{name}.journal.csv" in " ".join(child.cmdline())
    ]
    return found


def ends_in_time(child: "subprocess.Popen[str]") -> tuple[int, str]:
    """The status of a venue that ends by a signal, and what it says. Raises AssertionError where it
    takes more than END_SECONDS, and as much as this machine is late.
    """
    words = [sys.executable, "-c", YARDSTICK]
    with subprocess.Popen(words, stdout=subprocess.PIPE) as yardstick:
        assert yardstick.stdout is not None and yardstick.stdout.readline()
        ends: list[float] = []
        waits = threading.Thread(target=lambda: ends.append(yardstick.wait() + time.monotonic()))
        waits.start()
        begin = time.monotonic()
        yardstick.send_signal(signal.SIGTERM)
        child.send_signal(signal.SIGTERM)
        _, error = child.communicate(timeout=served.SECONDS)
        took = time.monotonic() - begin
        waits.join()
        late = ends[0] - begin - serving.END_SECONDS
    assert took < END_SECONDS + late, (took, late, error)
    return child.returncode, error


@contextlib.contextmanager
def asking(venue: Served) -> Iterator[None]:
    """Somebody waits for a page that hangs."""
    host, port = venue.url.split("/")[2].split(":")
    with socket.create_connection((host, int(port)), served.SECONDS) as asked:
        asked.sendall(b"GET /api/schema HTTP/1.1\r\nHost: " + host.encode() + b"\r\n\r\n")
        time.sleep(0.2)
        yield

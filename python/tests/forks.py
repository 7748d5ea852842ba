"""Forked children, and how they end."""
import os
import signal
import time
from collections.abc import Callable

from callauction import BusyError


def in_a_child(work: Callable[[], object]) -> int:
    """What a forked child ends with: 3 at BusyError, 4 at another error, else 0; 5 where it doesn't
    end within 10 s.
    """
    child = os.fork()
    if child == 0:
        try:
            work()
            os._exit(0)
        except BusyError:
            os._exit(3)
        finally:
            os._exit(4)
    begin = time.monotonic()
    while time.monotonic() - begin < 10:
        found, status = os.waitpid(child, os.WNOHANG)
        if found:
            return os.waitstatus_to_exitcode(status)
        time.sleep(0.001)
    os.kill(child, signal.SIGKILL)
    os.waitpid(child, 0)
    return 5

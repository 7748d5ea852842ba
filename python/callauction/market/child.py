"""The program as a child of this process, within limits. A market starts it thousands of times, so
it is started and limited by calls of the system, and not by Popen and the command prlimit, which
take longer than the program takes on a small file.
"""
import functools
import os
import resource
import select
import signal
import time
from typing import IO

ENDED_LATE = 0.001
"""How often, in seconds, it is seen whether a child has ended, where the kernel doesn't tell."""


@functools.cache
def environment() -> dict[bytes, bytes]:
    """This process's environment when this was first asked for, as the system takes it."""
    return dict(os.environb)


class StillRunsError(Exception):
    """The time is over, and the child hasn't ended."""


class Child:
    """A run of the program on an open file. Raises OSError where it can't be started."""

    def __init__(self, words: list[str], file: IO[bytes], errors: IO[bytes]) -> None:
        self.out, end = os.pipe()
        ends = (file.fileno(), end, errors.fileno())
        actions = [(os.POSIX_SPAWN_DUP2, each, number) for number, each in enumerate(ends)]
        ignored_here = (signal.SIGPIPE, signal.SIGXFSZ)  # by Python, and not by the program
        self.status: int | None = None
        try:
            self.process = os.posix_spawnp(
                words[0], words, environment(), file_actions=actions, setsigdef=ignored_here
            )
        except OSError:
            os.close(self.out)
            raise
        finally:
            os.close(end)

    def limit(self, memory: int) -> None:
        """Lets it have that many bytes of address space, or fewer where this process may give no
        more, and no dump of its memory. What it took before counts with them, and stays its own:
        some microseconds after its start where the machine has a core to spare.
        """
        for what, most in ((resource.RLIMIT_AS, memory), (resource.RLIMIT_CORE, 0)):
            _, hard = resource.getrlimit(what)
            if hard != resource.RLIM_INFINITY:
                most = min(most, hard)
            resource.prlimit(self.process, what, (most, most))

    def wait(self, deadline: float) -> int:
        """The status with which it ends, below 0 for a signal. Raises StillRunsError where it
        hasn't ended at this moment of time.monotonic.
        """
        while self.status is None:
            ended, status = os.waitpid(self.process, os.WNOHANG)
            if ended:
                self.status = os.waitstatus_to_exitcode(status)
            elif time.monotonic() >= deadline:
                raise StillRunsError
            else:
                self.watch(deadline)
        return self.status

    def watch(self, deadline: float) -> None:
        """Returns when it has ended, or at the deadline. Where the kernel doesn't tell, before
        Linux 5.3 and where a sandbox forbids the call, it returns after a while.
        """
        try:
            end = os.pidfd_open(self.process)
        except OSError:
            time.sleep(ENDED_LATE)
            return
        try:
            poll = select.poll()
            poll.register(end, select.POLLIN)
            poll.poll(max(0, 1_000 * (deadline - time.monotonic())))
        finally:
            os.close(end)

    def close(self) -> None:
        """Kills it where it hasn't ended, and reads no more of what it printed."""
        os.close(self.out)
        if self.status is None:
            os.kill(self.process, signal.SIGKILL)
            os.waitpid(self.process, 0)

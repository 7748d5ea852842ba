"""A venue that is killed again and again, as its program is."""
import contextlib
import pathlib
import subprocess

import psutil
import served
from conftest import FAST

MOST_AT_ONCE = 5
"""Kills without an answer in between, fewer than the venue's own MOST_ENDS."""


class Keeper:
    """Keeps a venue running on one port, and kills it or its program."""

    def __init__(self, folder: pathlib.Path, port: int) -> None:
        (folder / "day.toml").write_text(FAST)
        self.words = served.words_of(
            *("--day", folder / "day.toml", "--folder", folder / "venue", "--port", port)
        )
        self.killed = {"venue": 0, "program": 0}
        self.answered = self.since = 0
        self.child: "subprocess.Popen[str] | None" = None

    def start(self) -> None:
        """Starts the venue."""
        pipe = subprocess.PIPE
        self.child = subprocess.Popen(
            self.words, env=served.environment(), stdout=pipe, stderr=pipe, text=True
        )

    def kills(self) -> int:
        """How often the venue or its program was killed."""
        return sum(self.killed.values())

    def is_waited_for(self, answered: int) -> bool:
        """Whether an answer is due after these kills: on a slow machine the program might else
        never come to one, which ends the day. `answered` were answered up to now.
        """
        if answered > self.answered:
            self.answered, self.since = answered, self.kills()
        return self.kills() - self.since >= MOST_AT_ONCE

    def kill(self, target: str, waits: bool) -> None:
        """Kills the venue, and starts it again, perhaps until it listens; or its program, if that
        runs.
        """
        assert self.child is not None
        if self.child.poll() is not None:
            assert self.child.stderr is not None
            raise AssertionError(f"the venue ended: {self.child.stderr.read()}")
        if target == "program":
            with contextlib.suppress(psutil.NoSuchProcess):
                for child in psutil.Process(self.child.pid).children():
                    child.kill()
                    self.killed[target] += 1
                return
        self.child.kill()
        self.child.communicate()
        self.killed["venue"] += 1
        self.start()
        if waits:
            served.begun(self.child)

    def stop(self) -> None:
        """Ends the venue."""
        if self.child is not None:
            self.child.terminate()
            self.child.communicate(timeout=served.SECONDS)

"""Sessions with the program as it answers each record (`--live`), over pipes or at a terminal: the
next record is sent once the one before it is answered.
"""
import dataclasses
import os
import pty
import selectors
import subprocess
import termios
import time
from typing import IO

MOST_SECONDS = 20.0  # until an answer
STILL_SECONDS = 0.02  # in which an unfinished record must not be answered
END_OF_INPUT = b"\x04"  # as it is typed at a terminal


class Unlike(Exception):
    """How a session was answered otherwise than it should be."""


@dataclasses.dataclass(frozen=True)
class Turn:
    """What is sent, and what has to be answered to it on standard output and on standard error."""

    sent: bytes
    out: str = ""
    err: str = ""


class Session:
    """The program, and what it has said so far and wasn't looked at.

    Raises OSError where it can't be started.
    """

    def __init__(self, command: list[str], at_terminal: bool) -> None:
        self.terminal: int | None = None
        if at_terminal:
            self.terminal, theirs = pty.openpty()
            lacking = termios.tcgetattr(theirs)
            lacking[3] &= ~termios.ECHO
            termios.tcsetattr(theirs, termios.TCSANOW, lacking)
            stdin: int = theirs
        else:
            stdin = subprocess.PIPE
        self.child = subprocess.Popen(
            command, stdin=stdin, stdout=subprocess.PIPE, stderr=subprocess.PIPE, bufsize=0
        )
        if at_terminal:
            os.close(stdin)
        self.said = {"out": b"", "err": b""}
        self.selector = selectors.DefaultSelector()
        for name, pipe in (("out", self.child.stdout), ("err", self.child.stderr)):
            assert pipe is not None
            os.set_blocking(pipe.fileno(), False)
            self.selector.register(pipe, selectors.EVENT_READ, name)

    def send(self, data: bytes) -> None:
        """Sends bytes, all of them, and takes in meanwhile what is said."""
        if self.terminal is not None:
            os.write(self.terminal, data)
            return
        assert self.child.stdin is not None
        os.set_blocking(self.child.stdin.fileno(), False)
        while data:
            try:
                data = data[os.write(self.child.stdin.fileno(), data) :]
            except BlockingIOError:
                self.take_in(0.01)
            except BrokenPipeError:
                return

    def end_input(self) -> None:
        """Ends the input."""
        if self.terminal is not None:
            os.write(self.terminal, END_OF_INPUT)
        elif self.child.stdin is not None:
            self.child.stdin.close()

    def take_in(self, seconds: float) -> bool:
        """Waits so long at most until something is said. Whether something was, or an end came."""
        found = self.selector.select(seconds)
        for key, _ in found:
            pipe = key.fileobj
            assert not isinstance(pipe, int) and hasattr(pipe, "fileno")
            data = os.read(pipe.fileno(), 1 << 20)
            self.said[key.data] += data
            if not data:
                self.selector.unregister(pipe)
        return bool(found)

    def hears(self, out: str, err: str) -> None:
        """Waits until as much is said as this. Raises Unlike where something else is."""
        wanted = {"out": out.encode("latin-1"), "err": err.encode("latin-1")}
        last = time.monotonic() + MOST_SECONDS
        while any(len(self.said[name]) < len(wanted[name]) for name in wanted):
            if not self.selector.get_map() or not self.take_in(last - time.monotonic()):
                break
        if self.said != wanted:
            raise Unlike(f"said {self.said}, where {wanted} was to be said"[:2_000])
        self.said = {"out": b"", "err": b""}

    def is_still(self) -> None:
        """Raises Unlike where something is said that nothing was asked for."""
        self.take_in(STILL_SECONDS)
        self.hears("", "")

    def ends(self, status: int) -> None:
        """Waits until the program ends. Raises Unlike where it says more, or ends otherwise."""
        last = time.monotonic() + MOST_SECONDS
        while self.selector.get_map() and time.monotonic() < last:
            self.take_in(last - time.monotonic())
        self.hears("", "")
        got = self.child.wait(timeout=MOST_SECONDS)
        if got != status:
            raise Unlike(f"status {got}, where {status} was wanted")

    def close(self) -> None:
        """Ends the program, wherever it is."""
        self.child.kill()
        self.child.wait()
        pipes: list[IO[bytes] | None] = [self.child.stdin, self.child.stdout, self.child.stderr]
        for pipe in pipes:
            if pipe is not None and not pipe.closed:
                pipe.close()
        if self.terminal is not None:
            os.close(self.terminal)
        self.selector.close()


@dataclasses.dataclass(frozen=True)
class Talk:
    """A session: its name, the words after --live, its turns, what is still said once its input
    has ended, and the status. Where `ends_itself` it ends before its input.
    """

    name: str
    words: list[str]
    turns: list[Turn]
    last: Turn = Turn(b"")
    status: int = 0
    ends_itself: bool = False


def hold(program: str, talk: Talk, at_terminal: bool = False) -> None:
    """Holds a session. Raises Unlike where it goes otherwise than it should, and TimeoutExpired."""
    session = Session([program, "--live", *talk.words], at_terminal)
    try:
        for turn in talk.turns:
            session.send(turn.sent)
            if not turn.out and not turn.err:
                session.is_still()
            session.hears(turn.out, turn.err)
        if not talk.ends_itself:
            session.end_input()
        session.hears(talk.last.out, talk.last.err)
        session.ends(talk.status)
    finally:
        session.close()

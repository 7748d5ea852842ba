"""A first trade by FIX: `python3 -m callauction.fix.first` runs a venue of two members in a folder
of its own, whose orders trade with each other, and prints each message: `>` to the venue, `<` from
it, | in place of the byte 1, without what is around each and times.

The clients are plain sockets, as an example of what a client has to send.
"""
import contextlib
import json
import pathlib
import socket
import subprocess
import sys
import tempfile
import time
import urllib.request
from collections.abc import Iterator

DAY_FILE = """sync = false
[phases]
call = 0
[fix]
address = "127.0.0.1:{port}"
[fix.sessions]
ALICE = "Alice"
BOB = "Bob"
"""
FIELD_END = b"\x01"
NOT_PRINTED = (8, 9, 10, 34, 49, 52, 56, 60)
SECONDS = 60.0


class FirstError(Exception):
    """The venue doesn't run, or says something else than was to come."""


class FixClient:
    """A session of a member."""

    def __init__(self, port: int, comp_id: str) -> None:
        self._socket = socket.create_connection(("127.0.0.1", port), SECONDS)
        self._comp_id, self._number, self._rest = comp_id, 0, b""

    def say(self, kind: str, fields: str) -> None:
        """Sends a message."""
        self._number += 1
        now = time.strftime("%Y%m%d-%H:%M:%S", time.gmtime())
        head = f"35={kind}|34={self._number}|49={self._comp_id}|52={now}|56=VENUE|"
        timed = f"|60={now}|" if kind == "D" else "|"
        body = (head + fields + timed).replace("|", "\x01").encode("ascii")
        text = b"8=FIX.4.4" + FIELD_END + b"9=%d" % len(body) + FIELD_END + body
        self._socket.sendall(text + b"10=%03d" % (sum(text) % 256) + FIELD_END)
        head, password, _ = fields.partition("554=")
        print(f"{self._comp_id} > 35={kind}|{head}{password and password + 'TOKEN'}")

    def hear(self) -> None:
        """Takes the next message. Raises FirstError and OSError."""
        while FIELD_END + b"10=" not in self._rest[:-4]:
            if not (block := self._socket.recv(1 << 16)):
                raise FirstError(f"{self._comp_id}'s connection was ended")
            self._rest += block
        text, _, rest = self._rest.partition(FIELD_END + b"10=")
        self._rest = rest[4:]
        fields = (it.decode("latin-1") for it in text.split(FIELD_END))
        shown = [it for it in fields if int(it.partition("=")[0]) not in NOT_PRINTED]
        print(f"{self._comp_id} < {'|'.join(shown)}")


def free_port() -> int:
    """A port that nobody has now."""
    with socket.socket() as tried:
        tried.bind(("127.0.0.1", 0))
        return int(tried.getsockname()[1])


@contextlib.contextmanager
def venue(folder: pathlib.Path, port: int) -> Iterator[str]:
    """A venue of this folder: where the operator's requests go. Raises FirstError."""
    (folder / "day.toml").write_text(DAY_FILE.format(port=port), "ascii")
    words = [sys.executable, "-P", "-m", "callauction.venue", "--port", "0", "--hide-tokens"]
    words += ["--day", str(folder / "day.toml"), "--folder", str(folder / "venue")]
    with subprocess.Popen(words, stdout=subprocess.PIPE, text=True) as child:
        try:
            assert child.stdout is not None
            for line in child.stdout:
                if line.startswith("beamer "):
                    yield line.split()[1].partition("beamer#")[0] + "api/operator"
                    return
            raise FirstError("the venue doesn't begin")
        finally:
            child.terminate()


def do(url: str, token: str, word: str) -> None:
    """The operator does something. Raises OSError."""
    headers = {"Authorization": f"Bearer {token}", "Content-Type": "application/json"}
    asked = urllib.request.Request(url, json.dumps({"do": word}).encode(), headers)
    with urllib.request.urlopen(asked, timeout=SECONDS):
        print(f"operator {word}")


def play(folder: pathlib.Path) -> None:
    """The orders of two members trade. Raises FirstError and OSError."""
    port = free_port()
    with venue(folder, port) as url:
        names = ("operator", "fix.ALICE", "fix.BOB")
        tokens = {it: (folder / f"venue/{it}.token").read_text().strip() for it in names}
        alice, bob = FixClient(port, "ALICE"), FixClient(port, "BOB")
        for it, name in ((alice, "fix.ALICE"), (bob, "fix.BOB")):
            it.say("A", f"98=0|108=30|554={tokens[name]}")
            it.hear()
        do(url, tokens["operator"], "start")
        alice.say("D", "11=a1|55=XYZ|54=1|38=500|40=2|44=2.00")
        alice.hear()
        bob.say("D", "11=b1|55=XYZ|54=2|38=300|40=1")
        bob.hear()
        do(url, tokens["operator"], "uncross")
        alice.hear()
        bob.hear()


def main() -> int:
    """Plays; answers the status."""
    try:
        with tempfile.TemporaryDirectory() as folder:
            play(pathlib.Path(folder))
        return 0
    except (FirstError, OSError) as fault:
        print(f"callauction.fix.first: {fault}", file=sys.stderr)
        return 1


if __name__ == "__main__":
    sys.exit(main())

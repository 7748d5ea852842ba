"""Venues as processes of their own, for tests that kill them, and what is asked of them."""
import contextlib
import dataclasses
import json
import os
import pathlib
import random
import re
import socket
import subprocess
import sys
import urllib.error
import urllib.request
from collections.abc import Callable, Iterator
from typing import Any

HERE = pathlib.Path(__file__).resolve().parent
PACKAGE = HERE.parent
STAND_IN = HERE / "stand_in.py"
NOTICED = re.compile(
    r"^venue: (.* halted: |.* goes on|.* is started again(?: \(and \d+ times more\))?$"
    r"|\S+: \d+ of at most |codes are guessed|too many connections"
    r"|all \d+ places are taken|joins from \S+ are slowed"
    r"|a token that isn't the operator's|the operator: resume( of \S+)?, from |the day is over"
    r"|\S+: process \d+, the program of the last run, "
    r"|the disk of \S+ has \d+ MiB left: |the machine's clock is "
    r"|.* joined late: group "
    r"|the log's last line is \d|the call of \S+ has ended while |\S+: the end of its journal was )"
)
"""What is said on standard error of what goes on outside."""
SECONDS = 300.0
"""How long a test waits for what is to come: much longer than a slow machine takes."""


def program() -> str:
    """The program that venues run: that which CALLBOARD names, or its double."""
    return os.environ.get("CALLBOARD") or str(STAND_IN)


PORTS = range(20_000, 32_000)
"""Ports below those that the system gives to whoever asks for any, as other tests do meanwhile."""


def free_port() -> int:
    """A port that nobody listens on, and that nobody is given before it is used."""
    while True:
        port = random.choice(PORTS)
        with socket.socket() as tried, contextlib.suppress(OSError):
            tried.bind(("127.0.0.1", port))
            return port


@dataclasses.dataclass
class Served:
    """A venue that runs: its process, its address, and what it has printed of itself."""

    child: "subprocess.Popen[str]"
    url: str
    code: str
    operator: str
    beamer: str
    others: list[str]
    metrics: str = ""

    def call(
        self, path: str, body: Any = None, token: str = "", headers: dict[str, str] = {}
    ) -> tuple[int, Any]:
        """The status and the answer of a request."""
        sent = dict(headers)
        if token:
            sent["Authorization"] = f"Bearer {token}"
        data = None
        if body is not None:
            data = json.dumps(body).encode()
            sent.setdefault("Content-Type", "application/json")
        asked = urllib.request.Request(self.url + path, data, sent)
        try:
            with urllib.request.urlopen(asked, timeout=SECONDS) as answer:
                return answer.status, read(answer.read())
        except urllib.error.HTTPError as fault:
            with fault:
                return fault.code, read(fault.read())

    def do(self, word: str, **fields: Any) -> Any:
        """What is answered to the operator's word. Raises AssertionError where it isn't done."""
        status, found = self.call("api/operator", {"do": word} | fields, self.operator)
        assert status == 200, found
        return found

    def end(self) -> None:
        """Ends it as an operator does. Raises AssertionError where it ends otherwise."""
        if self.child.poll() is None:
            self.child.terminate()
            _, error = self.child.communicate(timeout=SECONDS)
            assert (self.child.returncode, unexpected(error)) == (0, []), error

    def join(self, name: str, code: str = "") -> str:
        """The token of a new member."""
        status, found = self.call("api/join", {"code": code or self.code, "name": name})
        assert status == 200, found
        return str(found["token"])


def unexpected(error: str) -> list[str]:
    """The lines on standard error but for those of NOTICED."""
    return [line for line in error.splitlines() if not NOTICED.match(line)]


def read(body: bytes) -> Any:
    """A body as JSON, or as a text."""
    try:
        return json.loads(body)
    except ValueError:
        return body.decode("utf-8", "replace")


def environment(**more: str) -> dict[str, str]:
    """The environment of a venue."""
    package = os.environ.get("CALLAUCTION_PACKAGE", str(PACKAGE))
    return os.environ | {"CALLBOARD": program(), "PYTHONPATH": package} | more


def words_of(*words: object) -> list[str]:
    """The command line of a venue."""
    return [sys.executable, "-m", "callauction.venue", *map(str, words)]


def started(*words: object, before: Callable[[], None] | None = None, **more: str) -> Served:
    """A venue with these words, once it listens; `before` is called in its process."""
    pipe = subprocess.PIPE
    child = subprocess.Popen(
        words_of(*words),
        env=environment(**more),
        stdout=pipe,
        stderr=pipe,
        text=True,
        preexec_fn=before,
    )
    try:
        return begun(child)
    except BaseException:
        child.kill()
        child.communicate()
        raise


@contextlib.contextmanager
def served(
    folder: pathlib.Path,
    day: str = "",
    *words: object,
    before: Callable[[], None] | None = None,
    **more: str,
) -> Iterator[Served]:
    """A venue in this folder, of a day in TOML, which is ended at the end."""
    file = folder / "day.toml"
    file.write_text(day, encoding="utf-8")
    named = ["--day", file, "--folder", folder / "venue", "--port", free_port()]
    found = started(*named, *words, before=before, **more)
    try:
        yield found
        found.end()
    finally:
        found.child.kill()
        found.child.communicate()


def begun(child: "subprocess.Popen[str]") -> Served:
    """A venue that has printed where it is. Raises AssertionError where it hasn't."""
    said = []
    assert child.stdout is not None and child.stderr is not None
    for line in child.stdout:
        said.append(line)
        if line.startswith("beamer "):
            break
    else:
        raise AssertionError(child.stderr.read())
    text = "".join(said)
    found = {name: value for name, value in re.findall(r"^(\w+) +(\S+)$", text, re.M)}
    teacher, beamer = (found[name].partition("#")[2] for name in ("teacher", "beamer"))
    others = re.findall(r"^or +(\S+)$", text, re.M)
    code, metrics = found.get("code", ""), found.get("metrics", "")
    return Served(child, found["members"], code, teacher, beamer, others, metrics)


def ended(*words: object) -> tuple[int, str]:
    """How a command line that can't serve ends."""
    ran = subprocess.run(
        words_of(*words), env=environment(), capture_output=True, text=True, timeout=SECONDS
    )
    return ran.returncode, ran.stderr

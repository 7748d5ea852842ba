"""The day of examples/fix, tag for tag: what each message to the venue is answered by, and what an
uncross, a kill and the end of the day come to.
"""
import dataclasses
import pathlib
import re
import shutil
import subprocess
import sys

import fixing
import judged
import served
from fixing import FixFields, Peer
from served import Served

EXAMPLE = served.PACKAGE.parent / "examples/fix"
LINE = re.compile(r"(?P<member>[A-Z]+) (?P<way>[<>]) (?P<text>.*)")
AROUND = (8, 9, 10, 43, 49, 52, 56, 60, 122)
"""What the transcript leaves out: what is around each message, and times."""
TIMED = "DFGq"
"""The types of messages to the venue that have the time of what they ask."""


@dataclasses.dataclass
class Walk:
    """A venue in a folder, and the members who are connected to it."""

    folder: pathlib.Path
    words: list[object]
    port: int
    venue: Served
    peers: dict[str, Peer] = dataclasses.field(default_factory=dict)

    def goes_on(self, line: str) -> None:
        """Takes one line of the transcript. Raises AssertionError."""
        if found := LINE.fullmatch(line):
            pairs = [field.partition("=") for field in found["text"].split("|")]
            those = [(int(tag), value) for tag, _, value in pairs]
            take = self.say if found["way"] == ">" else self.hear
            take(found["member"], those)
        elif line == "kill":
            self.kill()
        else:
            self.venue.do(line.removeprefix("operator "))

    def say(self, member: str, pairs: FixFields) -> None:
        """A member says this, in a connection that begins with its Logon."""
        (_, kind), (_, number), *rest = pairs
        if kind == "A":
            self.peers[member] = Peer(self.port, member)
            self.peers[member].connect()
        rest = [(tag, self.password(member) if tag == 554 else value) for tag, value in rest]
        rest += [(60, fixing.stamp())] if kind in TIMED else []
        head = [(43, "Y"), (122, fixing.stamp())] if (43, "Y") in rest else []
        rest = [it for it in rest if it[0] != 43]
        data = fixing.written(kind, int(number), member, rest, head)
        self.peers[member].socket.sendall(data)

    def hear(self, member: str, pairs: FixFields) -> None:
        """A member is sent this, and nothing else before. Raises AssertionError."""
        found = fixing.parsed(self.peers[member].whole())
        assert sorted(it for it in found if it[0] not in AROUND) == sorted(pairs)

    def password(self, member: str) -> str:
        """The token of a member."""
        return fixing.token_of(self.folder, member)

    def kill(self) -> None:
        """Kills the venue, and starts it again."""
        self.venue.child.kill()
        self.venue.child.communicate()
        self.venue = served.started(*self.words)


def test_the_day(tmp_path: pathlib.Path) -> None:
    port = served.free_port()
    day = (EXAMPLE / "day.toml").read_text("utf-8").replace(":9878", f":{port}")
    (tmp_path / "day.toml").write_text(day, "utf-8")
    folder = tmp_path / "venue"
    words = ["--day", tmp_path / "day.toml", "--folder", folder, "--port", served.free_port()]
    walk = Walk(folder, words, port, served.started(*words))
    try:
        for line in (EXAMPLE / "day.txt").read_text("utf-8").splitlines():
            if not line.startswith("#"):
                walk.goes_on(line)
        status, journal = walk.venue.call("api/download/journal/XYZ", token=walk.venue.operator)
        assert status == 200 and judged.is_lawful(journal)
        walk.venue.end()
    finally:
        walk.venue.child.kill()
        walk.venue.child.communicate()


def test_a_first_trade() -> None:
    """What a broker sees who has just installed it. The values were worked out from the rules."""
    words = [sys.executable, "-P", "-m", "callauction.fix.first"]
    ran = subprocess.run(words, env=served.environment(), capture_output=True, text=True)
    assert (ran.stdout, ran.stderr) == ((EXAMPLE / "first.txt").read_text("utf-8"), "")
    assert ran.returncode == 0


def test_a_copy_goes_on(tmp_path: pathlib.Path) -> None:
    """A day that runs is copied, and goes on from the copy: nothing is sent twice."""
    port, folder = served.free_port(), tmp_path / "venue"
    with served.served(tmp_path, fixing.day_of(port, "ALICE")) as venue:
        venue.do("start")
        first = Peer(port, "ALICE")
        first.logon(fixing.token_of(folder, "ALICE"))
        for number in range(20):
            first.enter(f"a{number}", "1", 10 + number, "2.00")
        first.take(lambda it: it.get(11) == "a19")
        done("backup", folder, tmp_path / "copy")
    shutil.rmtree(folder)
    done("restore", tmp_path / "copy", folder)
    with served.served(tmp_path, fixing.day_of(port, "ALICE")):
        again = Peer(port, "ALICE")
        again.number, again.sent, again.expected = first.number, first.sent, first.expected
        assert again.logon(fixing.token_of(folder, "ALICE"))[34] == str(first.expected)
        assert again.all() == []
        again.say("H", [(11, "a7"), (55, "XYZ"), (54, "1")])
        assert again.take(lambda it: it[35] == "8")[151] == "17"


def done(module: str, *words: object) -> None:
    """Runs a module of the venue's package. Raises CalledProcessError."""
    command = [sys.executable, "-P", "-m", f"callauction.venue.{module}", *map(str, words)]
    subprocess.run(command, env=served.environment(), check=True, capture_output=True)


def test_the_address_that_is_checked(tmp_path: pathlib.Path) -> None:
    (tmp_path / "day.toml").write_text(fixing.day_of(9999, "ALICE", "BOB"), "utf-8")
    words = served.words_of("--check", "--port", 0, "--day", tmp_path / "day.toml")
    ran = subprocess.run(words, env=served.environment(), capture_output=True, text=True)
    assert "fix: 127.0.0.1:9999, 2 sessions\n" in ran.stdout

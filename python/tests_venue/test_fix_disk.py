"""What the sessions were sent, on a disk that is full, or that a power cut leaves short."""
import contextlib
import json
import os
import pathlib
import subprocess
from collections.abc import Iterator

import fixing
import served
from fixing import FixMessage, Peer
from machines import ON_SMALL_DISK

REQUESTS = 100


@contextlib.contextmanager
def on_small_disk(folder: pathlib.Path, port: int) -> Iterator[served.Served]:
    """A venue whose folder is on a small disk of its own."""
    (folder / "day.toml").write_text(fixing.day_of(port, "ALICE"), "utf-8")
    words = served.words_of(
        *("--day", folder / "day.toml", "--folder", folder / "venue", "--port", served.free_port())
    )
    before = ["unshare", "-rm", "sh", "-c", ON_SMALL_DISK, "sh", str(folder), "all", "400k"]
    pipe = subprocess.PIPE
    with subprocess.Popen(
        [*before, *words], env=served.environment(), stdout=pipe, stderr=pipe, text=True
    ) as child:
        try:
            yield served.begun(child)
            child.terminate()
            assert child.stderr is not None
            error = child.stderr.read()
            halted = "venue: fix halted: " + str(folder)
            assert halted in error and "venue: fix goes on\n" in error, error
        finally:
            child.kill()


def test_a_full_disk(tmp_path: pathlib.Path) -> None:
    """Nothing is sent that isn't on the disk; once there is room all comes, in its order."""
    port = served.free_port()
    with on_small_disk(tmp_path, port) as venue:
        inside = ["nsenter", "-t", str(venue.child.pid), "-U", "-m", "--preserve-credentials"]

        def run(*words: str) -> str:
            return subprocess.run([*inside, *words], capture_output=True, text=True).stdout

        token = run("cat", f"{tmp_path}/venue/fix.ALICE.token").strip()
        venue.do("start")
        peer = Peer(port, "ALICE")
        peer.logon(token)
        peer.enter("a1", "1", 10, "2.00")
        peer.take(lambda it: it.get(11) == "a1")
        run("dd", "if=/dev/zero", f"of={tmp_path}/venue/filler", "bs=1k")
        numbers = [peer.say("H", [(11, "a1"), (55, "XYZ"), (54, "1")]) for _ in range(REQUESTS)]
        early = peer.all(3.0)
        assert len(early) < REQUESTS
        run("rm", f"{tmp_path}/venue/filler")
        peer.take(lambda it: it.get(17) == f"R.ALICE.{numbers[-1]}")
        shown = [it[17] for it in peer.got if it[150] == "I"]
        assert shown == [f"R.ALICE.{it}" for it in numbers]
        peer.enter("a2", "1", 10, "2.00")
        assert peer.take(lambda it: it.get(11) == "a2")[17] == "XYZ.2"


def test_a_power_cut(tmp_path: pathlib.Path) -> None:
    """Of the file of what was sent only that is left which had come to the client, and half a line:
    all else comes under the numbers that the client expects, each event once.
    """
    port, folder = served.free_port(), tmp_path / "venue"
    day = fixing.day_of(port, "ALICE", "BOB", sync="true")
    alice, bob = Peer(port, "ALICE"), Peer(port, "BOB")
    with served.served(tmp_path, day) as venue:
        venue.do("start")
        alice.logon(fixing.token_of(folder, "ALICE"))
        bob.logon(fixing.token_of(folder, "BOB"))
        for number in range(5):
            alice.enter(f"a{number}", "1", 10, "2.00")
        alice.take(lambda it: it.get(11) == "a4")
        bob.enter("b1", "2", 35, "2.00")
        bob.take(lambda it: it.get(11) == "b1")
        alice.enter("a4", "1", 10, "2.00")  # refused: its id was used
        alice.all(0.0)
        before = alice.expected
        venue.do("uncross")
        bob.take(lambda it: it.get(17) == "XYZ.7.4a")
        venue.child.kill()
        venue.child.communicate()
    cut(folder / "fix.sent", {"ALICE": before, "BOB": bob.expected})
    with served.served(tmp_path, day):
        alice.close()
        bob.close()
        alice.logon(fixing.token_of(folder, "ALICE"))
        bob.logon(fixing.token_of(folder, "BOB"))
        assert events(bob.all()) == []
        found = events(alice.all())
        assert sorted(found) == sorted({*found})
        told = events(alice.got)
        assert sorted(told) == sorted({*told})
        trades = {f"XYZ.7.{it}b" for it in range(1, 5)}
        assert trades | {f"XYZ.{it}" for it in range(1, 6)} <= {*told}
        assert len([it for it in told if it.startswith("R.ALICE.")]) == 1


def test_reports_that_follow_from_the_log(tmp_path: pathlib.Path) -> None:
    """The reports of entries aren't written: each has the number that it had after each start, also
    one that was killed before, between others that are written, and is sent again as it was.
    """
    port, folder = served.free_port(), tmp_path / "venue"
    day = fixing.day_of(port, "ALICE", sync="true") + BOARDS
    alice = Peer(port, "ALICE")
    with served.served(tmp_path, day) as venue:
        venue.do("start", instrument="XYZ")
        venue.do("start", instrument="ABC")
        alice.logon(fixing.token_of(folder, "ALICE"))
        for number, market in enumerate(("XYZ", "ABC", "XYZ", "ABC", "ABC", "ABC")):
            enter_at(market, alice, f"a{number}")
            if number < 3:  # the last ones at once
                alice.take(lambda it: it.get(11) == f"a{number}")
            if number == 1:
                alice.say("H", [(11, "a1"), (55, "ABC"), (54, "1")])
                alice.take(lambda it: it.get(150) == "I")
        alice.take(lambda it: it.get(11) == "a5")
        venue.child.kill()
        venue.child.communicate()
    told = {int(it[34]): it for it in alice.got}
    assert [told[it][17] for it in (2, 3, 4, 5)] == ["XYZ.1", "ABC.1", "R.ALICE.4", "XYZ.2"]
    sent = (folder / "fix.sent").read_text("ascii")
    assert "17=R.ALICE.4" in sent and "17=XYZ.1" not in sent and "17=ABC.1" not in sent
    for number in range(6, 9):
        with served.served(tmp_path, day) as venue:
            alice.close()
            alice.logon(fixing.token_of(folder, "ALICE"))
            assert alice.all() == [] and alice.expected > max(told)
            check_again(alice, told)
            enter_at("ABC", alice, f"a{number}")
            found = alice.take(lambda it: it.get(11) == f"a{number}")
            assert found[17] == f"ABC.{number - 1}"
            told[int(found[34])] = found
            if number == 6:
                venue.child.kill()
                venue.child.communicate()


def check_again(peer: Peer, told: dict[int, FixMessage]) -> None:
    """Raises AssertionError where what a member was told isn't sent again as it was."""
    peer.say("2", [(7, str(min(told))), (16, str(max(told)))])
    for number in sorted(told):
        again = dict(fixing.parsed(peer.whole()))
        while again[35] == "4":  # in place of what isn't sent again
            again = dict(fixing.parsed(peer.whole()))
        assert (again[34], again[43]) == (str(number), "Y")
        assert again[122][:15] >= told[number][60][:15]
        assert {tag: again.get(tag) for tag in told[number] if tag not in AROUND} == {
            tag: value for tag, value in told[number].items() if tag not in AROUND
        }


BOARDS = """
[[instrument]]
name = "XYZ"
[[instrument]]
name = "ABC"
"""


def enter_at(market: str, peer: Peer, client: str) -> None:
    """Sends an order for an instrument."""
    pairs = [(11, client), (55, market), (54, "1"), (60, fixing.stamp()), (38, "10"), (40, "1")]
    peer.say("D", pairs)


AROUND = (9, 10, 52)
"""What another sending of a message has otherwise, beside what is added."""


def events(given: list[FixMessage]) -> list[str]:
    """The ids of reports."""
    return [it[17] for it in given if it[35] == "8"]


def cut(path: pathlib.Path, expected: dict[str, int]) -> None:
    """Leaves of what sessions were sent what is before these numbers, and half a line more."""
    kept, rest = [], b""
    for line in path.read_bytes().splitlines(keepends=True):
        given = dict(fixing.parsed(json.loads(line)["text"].encode("latin-1")))
        if int(given[34]) < expected[given[56]]:
            kept.append(line)
        else:
            rest = rest or line[: len(line) // 2]
    path.write_bytes(b"".join(kept) + rest)
    os.sync()


def test_the_file_of_another(tmp_path: pathlib.Path) -> None:
    folder = tmp_path / "venue"
    folder.mkdir(mode=0o700)
    (folder / "fix.sent").write_text("no line\n")
    (folder / "fix.sent").chmod(0o600)
    (tmp_path / "day.toml").write_text(fixing.day_of(served.free_port(), "ALICE"), "utf-8")
    words = served.words_of("--day", tmp_path / "day.toml", "--folder", folder, "--port", 0)
    ran = subprocess.run(words, env=served.environment(), capture_output=True, text=True)
    assert (ran.returncode, ran.stderr) == (
        1,
        f"venue: {folder}/fix.sent: line 1 is no line of a log"
        ": put the right file, or the last copy, back\n",
    )

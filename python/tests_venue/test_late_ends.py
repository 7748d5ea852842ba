"""What the last line of a venue names that took too long to end: files, programs, connections, or
where it stands itself.
"""
import contextlib
import pathlib
import re
import subprocess
import sys
import time
from collections.abc import Iterator

import fixing
import served
from hanging import asking, ends_in_time, program_of
from patience import TIMED, tmp_path  # noqa: F401
from served import Served

pytestmark = TIMED
HANGING = """
import asyncio, pathlib, sys, threading
from callauction.fix import front
from callauction.venue import __main__ as main
from callauction.venue import downloads, http, journal, log, process, room, serving, venue

def hanging(name, work):
    def hangs(*args):
        if pathlib.Path(FOLDER, name).exists():
            pathlib.Path(FOLDER, f"{name} now").touch()
            threading.Event().wait()
        return work(*args)
    return hangs

async def asked(self, request):
    await asyncio.Event().wait()

write = log.Log._write
def written(self, data):
    hanging(f"{self.path.name} hangs", write)(self, data)

log.Log._write = written
downloads.results_table = hanging("tables hang", downloads.results_table)
journal.known_entries = hanging("journal hangs", journal.known_entries)
room.free = hanging("disk hangs", room.free)
venue.LOOK_SECONDS = 0.2
http.Site._schema = asked
if IS_PATIENT:
    serving.LINGER_SECONDS = front.LAST_BYTES_SECONDS = process.STOP_SECONDS = 100
sys.argv[0] = "venue"
sys.exit(main.main())
"""
"""A venue in which hangs for good what a file of FOLDER says, and a page; where it is patient
it waits longer than it has for connections and programs.
"""


@contextlib.contextmanager
def hanging(folder: pathlib.Path, port: int, is_patient: bool = False) -> Iterator[Served]:
    """Such a venue, with sessions of ALICE and BOB."""
    pipe = subprocess.PIPE
    words = words_of(folder, port, is_patient)
    with subprocess.Popen(
        words, env=served.environment(), stdout=pipe, stderr=pipe, text=True
    ) as child:
        try:
            yield served.begun(child)
        finally:
            child.kill()


def words_of(folder: pathlib.Path, port: int, is_patient: bool = False) -> list[str]:
    """Its command line."""
    (folder / "day.toml").write_text(fixing.day_of(port, "ALICE", "BOB"))
    script = f"FOLDER = {str(folder)!r}\nIS_PATIENT = {is_patient}\n{HANGING}"
    words = [sys.executable, "-c", script, "--day", str(folder / "day.toml")]
    return [*words, "--folder", str(folder / "venue"), "--port", str(served.free_port())]


def left(child: "subprocess.Popen[str]") -> list[str]:
    """What the last line of a venue names, which ends by force, in time."""
    status, error = ends_in_time(child)
    head, _, names = error.splitlines()[-1].partition(" s: ")
    assert (status, head) == (3, "venue: not ended within 4.5"), error
    return names.split("; ")


def until_there(path: pathlib.Path) -> None:
    """Waits for a file. Raises AssertionError where none comes."""
    last = time.monotonic() + served.SECONDS
    while not path.exists():
        assert time.monotonic() < last, path
        time.sleep(0.05)


def on(folder: pathlib.Path, port: int) -> fixing.Peer:
    """ALICE's session."""
    alice = fixing.Peer(port, "ALICE")
    alice.logon(fixing.token_of(folder / "venue", "ALICE"))
    return alice


def test_the_store_of_sessions_hangs(tmp_path: pathlib.Path) -> None:
    """It is named, and nothing that has ended."""
    port = served.free_port()
    with hanging(tmp_path, port) as venue:
        on(tmp_path, port)
        (tmp_path / "fix.sent hangs").touch()
        assert left(venue.child) == ["fix.sent"]


def test_all_hangs(tmp_path: pathlib.Path) -> None:
    """Each is named: the log, the store, the program of an instrument, who is connected."""
    port = served.free_port()
    with hanging(tmp_path, port, is_patient=True) as venue:
        venue.do("start")
        alice, bob = on(tmp_path, port), fixing.Peer(port, "BOB")
        bob.connect()
        alice.enter("a1", "1", 10, "2.00")
        alice.take(lambda it: it.get(11) == "a1")
        with asking(venue):
            program_of(venue, "XYZ").suspend()
            for name in ("venue.log", "fix.sent"):
                (tmp_path / f"{name} hangs").touch()
            alice.enter("a2", "1", 10, "2.00")
            until_there(tmp_path / "venue.log hangs now")
            names = ["connections by FIX of ALICE, 127.0.0.1", "connections of 127.0.0.1"]
            names += ["fix.sent", "the program of XYZ", "venue.log"]
            assert sorted(left(venue.child)) == names


def test_the_tables_hang(tmp_path: pathlib.Path) -> None:
    with hanging(tmp_path, served.free_port()) as venue:
        venue.do("start")
        (tmp_path / "tables hang").touch()
        assert left(venue.child) == ["the tables of results"]


def test_a_journal_hangs_at_a_start(tmp_path: pathlib.Path) -> None:
    port, pipe = served.free_port(), subprocess.PIPE
    with hanging(tmp_path, port) as venue:
        venue.do("start")
        venue.child.terminate()
        assert venue.child.wait(served.SECONDS) == 0
    (tmp_path / "journal hangs").touch()
    words = words_of(tmp_path, port)
    with subprocess.Popen(
        words, env=served.environment(), stdout=pipe, stderr=pipe, text=True
    ) as child:
        until_there(tmp_path / "journal hangs now")
        assert left(child) == ["the journal of XYZ"]


def test_a_venue_that_stands_still(tmp_path: pathlib.Path) -> None:
    """A signal ends it nevertheless, and where it stands is named."""
    with hanging(tmp_path, served.free_port()) as venue:
        (tmp_path / "disk hangs").touch()
        until_there(tmp_path / "disk hangs now")
        [found] = left(venue.child)
        assert re.fullmatch(r"what the venue does at venue\.py:\d+", found), found

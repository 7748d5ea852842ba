"""Copies of a day, and days that are put back from them."""
import asyncio
import contextlib
import json
import os
import pathlib
import random
import shutil
import subprocess
import sys
from collections.abc import Iterator
from typing import Any

import judged
import pytest
import served
from callauction.venue import AsyncClient, Client, copies
from checked_days import contents, day_before
from conftest import FAST
from served import Served, ended


def copied(folder: pathlib.Path, to: pathlib.Path) -> str:
    """What `backup` prints."""
    return ran("backup", folder, to)


def ran(name: str, *words: object, status: int = 0) -> str:
    """What a command for copies prints."""
    done = subprocess.run(
        [sys.executable, "-P", "-m", f"callauction.venue.{name}", *map(str, words)],
        env=served.environment(),
        capture_output=True,
        text=True,
        timeout=served.SECONDS,
    )
    assert done.returncode == status, done.stderr
    return done.stdout + done.stderr


async def trade(url: str, token: str, answered: list[int], stop: asyncio.Event) -> None:
    """Sends orders until it is to stop; the entries that were answered."""
    async with AsyncClient(url, token) as me:
        while not stop.is_set():
            answered.append((await me.enter("bid", 1, "2.00")).entry)


TWO = FAST + '[[instrument]]\nname = "XYZ"\n[[instrument]]\nname = "ABC"\n'
COPIES = 6


def test_copies_of_a_day_that_runs(tmp_path: pathlib.Path) -> None:
    """Each copy has what was answered before it began, is lawful, and is gone on with."""
    known: list[int] = []
    with served.served(tmp_path, FAST) as venue:
        (tmp_path / "venue/lost+found").mkdir()  # as a disk of its own has
        token = venue.join("Anna")
        venue.do("start")

        async def copy_often() -> None:
            answered: list[int] = []
            stop = asyncio.Event()
            robot = asyncio.create_task(trade(venue.url, token, answered, stop))
            for place in range(COPIES):
                await asyncio.sleep(random.random())
                known.append(len(answered))
                await asyncio.to_thread(copied, tmp_path / "venue", tmp_path / f"copy{place}")
            stop.set()
            await robot

        asyncio.run(copy_often())
    assert known[-1] > 10
    for place, least in enumerate(known):
        copy, again = tmp_path / f"copy{place}", tmp_path / f"again{place}"
        printed = ran("restore", copy, again)
        journal = (again / "XYZ.journal.csv").read_text()
        entries = judged.entries(journal)
        assert f"1 journals with {len(entries)} entries" in printed
        assert len(entries) >= least and judged.is_lawful(journal)
        assert {it.stat().st_mode & 0o777 for it in again.iterdir()} == {0o600}
    with goes_on(tmp_path, again) as restored:
        with Client(restored.url, token) as me:
            assert me.enter("bid", 1, "2.00").entry == len(entries) + 1


@contextlib.contextmanager
def goes_on(folder: pathlib.Path, place: pathlib.Path) -> Iterator[Served]:
    """A venue that goes on in this folder."""
    words = ["--day", folder / "day.toml", "--folder", place, "--port", served.free_port()]
    found = served.started(*words)
    try:
        yield found
        found.end()
    finally:
        found.child.kill()
        found.child.communicate()


def test_a_copy_that_was_changed_is_refused(tmp_path: pathlib.Path) -> None:
    day_before(tmp_path)
    copy, place = tmp_path / "copy", tmp_path / "place"
    assert copied(tmp_path / "venue", copy).startswith("1 journals with 10 entries, ")
    journal = copy / "XYZ.journal.csv"
    right = journal.read_text()
    journal.write_text(right.replace("entered 3", "entered 4"))
    text = ran("restore", copy, place, status=1)
    assert text == f"restore: {copy} isn't the copy that was made: XYZ.journal.csv differs\n"
    files = {it.name: it.read_bytes() for it in copy.iterdir() if it.name != copies.SUMS_FILE}
    (copy / copies.SUMS_FILE).write_bytes(copies.sums_text(files))
    assert "XYZ.journal.csv" in ran("restore", copy, place, status=1)
    journal.write_text(right)
    assert not place.exists()
    files["XYZ.journal.csv"] = right.encode()
    (copy / copies.SUMS_FILE).write_bytes(copies.sums_text(files))
    ran("restore", copy, place)
    text = ran("restore", copy, place, status=1)
    told = "is there already, and stays as it is: move it away, or name another folder"
    assert text == f"restore: {place} {told}\n"
    (copy / copies.SUMS_FILE).unlink()
    text = ran("restore", copy, tmp_path / "other", status=1)
    assert text == f"restore: {copy} isn't the copy that was made: its SHA256SUMS is missing\n"


@pytest.mark.parametrize(
    "change, text",
    [
        ("rm venue.log", "venue.log is missing"),
        ("rm XYZ.journal.csv; rm beamer.token", "XYZ.journal.csv is missing, and 1 more"),
        ("echo >> operator.token", "operator.token differs"),
        ("touch more", "more is none of its files"),
        ("echo >> SHA256SUMS", "its SHA256SUMS was changed"),
        ("printf x > SHA256SUMS", "its SHA256SUMS was changed"),
        ("sed -i s/beamer.token/more.token/ SHA256SUMS", "more.token is missing, and 1 more"),
    ],
)
def test_which_file_of_a_copy_was_changed(
    tmp_path: pathlib.Path, change: str, text: str
) -> None:
    copy = tmp_path / "copy"
    copy.mkdir()
    files = {it: it.encode() for it in ("venue.log", "XYZ.journal.csv")}
    files |= {f"{it}.token": it.encode() for it in ("beamer", "operator")}
    for name, content in (files | {copies.SUMS_FILE: copies.sums_text(files)}).items():
        (copy / name).write_bytes(content)
    copy.chmod(0o700)
    subprocess.run(["sh", "-c", change], cwd=copy, check=True)
    found = ran("restore", copy, tmp_path / "place", status=1)
    assert found == f"restore: {copy} isn't the copy that was made: {text}\n"


def test_a_copy_isnt_put_into_its_day(tmp_path: pathlib.Path) -> None:
    """The next copy would have it among the files of the day."""
    day_before(tmp_path)
    for name in ("copy", "a/../copy", ".", "../venue"):
        place = tmp_path / "venue" / name
        text = ran("backup", tmp_path / "venue", place, status=1)
        assert text == f"backup: {place} is in the folder of the day itself\n"
    copied(tmp_path / "venue", tmp_path / "venue2")
    text = ran("backup", tmp_path, tmp_path / "copy", status=1)
    assert text == f"backup: {tmp_path} is no folder of a venue: it has no venue.log\n"


def test_a_place_that_is_taken(tmp_path: pathlib.Path) -> None:
    """It is said before anything is read: who restores a day has little time."""
    for name in ("place", "other.new"):
        (tmp_path / name).mkdir()
        (tmp_path / name / "file").write_text("kept")
    told = "is there already, and stays as it is: move it away, or name another folder"
    left = f"{tmp_path}/other.new is there, of a copy that was ended or goes on: "
    left += "if none does, move it away"
    for command in ("backup", "restore"):
        text = ran(command, tmp_path / "none", tmp_path / "place", status=1)
        assert text == f"{command}: {tmp_path}/place {told}\n"
        text = ran(command, tmp_path / "none", tmp_path / "other", status=1)
        assert text == f"{command}: {left}\n"
    assert (tmp_path / "place/file").read_text() == (tmp_path / "other.new/file").read_text()


def test_a_copy_on_a_full_disk(tmp_path: pathlib.Path) -> None:
    day_before(tmp_path)
    small = tmp_path / "small"
    small.mkdir()
    words = served.words_of()[:2] + ["callauction.venue.backup", str(tmp_path / "venue")]
    mount = f"mount -t tmpfs -o size=8k tmpfs {small} && \"$@\"; ls -A {small}"
    done = subprocess.run(
        ["unshare", "-rm", "sh", "-c", mount, "sh", *words, str(small / "copy")],
        env=served.environment(),
        capture_output=True,
        text=True,
    )
    assert (done.stdout, done.stderr) == ("", "backup: No space left on device\n")


WHO = ("owned", "written", "file written") if os.geteuid() == 0 else ("written", "file written")


@pytest.mark.parametrize("what", WHO)
def test_a_copy_that_others_could_have_made(tmp_path: pathlib.Path, what: str) -> None:
    """Its sums and its tokens are what those others say."""
    day_before(tmp_path)
    copy, place = tmp_path / "copy", tmp_path / "place"
    copied(tmp_path / "venue", copy)
    path = copy / "operator.token" if what == "file written" else copy
    if what == "owned":
        os.chown(path, 65_534, 65_534)
        text = f"restore: {path} belongs to another user: find out who, then chown\n"
    else:
        path.chmod(path.stat().st_mode | 0o020)
        text = f"restore: {path} may be written by other users: chmod go-w\n"
    assert ran("restore", copy, place, status=2) == text
    assert not place.exists()


def hostile(copy: pathlib.Path, what: str) -> None:
    """Changes a copy, and its sums, as somebody may who wants harm."""
    log = copy / "venue.log"
    if what == "link":
        (copy / "x").symlink_to("/etc/passwd")
    elif what == "linked log":
        log.rename(copy.with_name("log"))
        log.symlink_to(copy.with_name("log"))
    elif what == "endless":
        (copy / "x").symlink_to("/dev/zero")
    elif what == "pipe":
        os.mkfifo(copy / "x")
    elif what == "folder":
        (copy / "x").mkdir()
    elif what == "name":
        (copy / "a\nb").touch()
    elif what == "large":
        with open(copy / "x", "wb") as large:
            large.truncate(copies.MOST_COPIED_BYTES + 1)
    elif what == "token":
        (copy / "operator.token").write_text("known\n")
    elif what == "no log":
        log.unlink()
    else:
        log.write_text(f"{log.read_text()}{what}\n")
    plain = [it for it in copy.iterdir() if it.is_file() and not it.is_symlink()]
    rows = {it.name: it.read_bytes() for it in plain if it.name not in (copies.SUMS_FILE, "x")}
    (copy / copies.SUMS_FILE).write_bytes(copies.sums_text(rows))


HOSTILE = {
    "link": "is a link",
    "linked log": "is a link",
    "endless": "is a link",
    "pipe": "is no regular file",
    "folder": "is no regular file",
    "name": "is no name that a file of a day has",
    "large": "has more than 1073741824 bytes",
    "token": "holds no token",
    "no log": "has no venue.log",
    '{"kind":' + "[" * 100_000: "is no line of a log",
    '{"kind":"start"}': "is no line of a log",
    '{"kind":"mark","instrument":"XYZ","entries":"x"}': "is no line of a log",
    '{"kind":"mark","instrument":[1],"entries":9}': "is no line of a log",
    '{"kind":"mark","instrument":"XYZ","entries":' + "9" * 5000 + "}": "is no line of a log",
}


def test_a_hostile_copy_is_refused(tmp_path: pathlib.Path) -> None:
    day_before(tmp_path)
    copied(tmp_path / "venue", tmp_path / "copy")
    for what, text in HOSTILE.items():
        copy, place = tmp_path / "hostile", tmp_path / "place"
        shutil.copytree(tmp_path / "copy", copy)
        hostile(copy, what)
        words = [sys.executable, "-m", "callauction.venue.restore", str(copy), str(place)]
        done = subprocess.run(
            words, env=served.environment(), capture_output=True, text=True, timeout=60
        )
        assert done.returncode in (1, 3) and text in done.stderr, (what[:80], done.stderr)
        assert done.stderr.count("\n") == 1
        assert not place.exists() and not (tmp_path / "place.new").exists()
        shutil.rmtree(copy)
        (tmp_path / "log").unlink(missing_ok=True)
    assert "is there already" in ran("restore", tmp_path / "copy", "/", status=1)


@pytest.mark.parametrize(
    "line",
    [
        {"kind": "removed", "name": "nobody"},
        {"kind": "rename", "name": "nobody", "title": "x"},
        {"kind": "round", "round": 2, "groups": 1, "treatment": {}},
        {"kind": "dealt", "round": 9},
        {"kind": "sent", "instrument": "XYZ", "member": "Anna", "number": "1", "record": ""},
        {"kind": "code", "name": 5, "code": "ABC"},
        {"kind": ["start"]},
    ],
)
def test_a_log_that_says_what_cant_be(tmp_path: pathlib.Path, line: dict[str, Any]) -> None:
    words = day_before(tmp_path)
    with open(tmp_path / "venue/venue.log", "a", encoding="utf-8") as log:
        log.write(json.dumps(line) + "\n")
    before = contents(tmp_path / "venue")
    status, error = ended(*words, "--port", 0)
    assert status == 1 and error.startswith("venue: ") and error.count("\n") == 1, error
    assert "line" in error and ("of a log" in error or "of the log" in error), error
    after = contents(tmp_path / "venue")
    assert after["venue.log"].startswith(before["venue.log"])
    assert after["XYZ.journal.csv"] == before["XYZ.journal.csv"]


def test_a_day_whose_journal_was_put_back_isnt_copied(tmp_path: pathlib.Path) -> None:
    day_before(tmp_path)
    journal = tmp_path / "venue/XYZ.journal.csv"
    right = journal.read_text()
    journal.write_text("".join(right.splitlines(keepends=True)[:5]))
    text = ran("backup", tmp_path / "venue", tmp_path / "copy", status=1)
    assert text == (
        "backup: XYZ.journal.csv is missing, or older than what venue.log knows of it\n"
    )
    journal.write_text(right.replace("enter,bid,1,200,entered 3", "enter,bid,2,200,entered 3"))
    text = ran("backup", tmp_path / "venue", tmp_path / "copy", status=1)
    assert text == "backup: XYZ.journal.csv isn't the journal of which venue.log knows\n"
    (tmp_path / "empty").mkdir()
    text = ran("backup", tmp_path / "empty", tmp_path / "copy", status=1)
    assert "no folder of a venue" in text and not (tmp_path / "copy").exists()


def lines_of(*lines: dict[str, Any]) -> bytes:
    return "".join(json.dumps(line) + "\n" for line in lines).encode()


def sent(name: str, number: int) -> dict[str, Any]:
    return {"kind": "sent", "instrument": name, "member": "Anna", "number": number,
            "record": f"1,delete,{number}"}


def test_a_copy_is_of_one_moment() -> None:
    """Of a log that is ahead of one journal, and another journal that is ahead of that log."""
    first = [{"kind": "start", "instrument": name, "entries": 0} for name in "AB"]
    log = [*first, sent("A", 1), sent("B", 1), sent("A", 2),
           {"kind": "mark", "instrument": "A", "entries": 2}, sent("B", 2)]
    day = b"day,1,2,1,4,9,9,\n"
    files = {
        "venue.log": lines_of(*log),
        "A.journal.csv": day + b"1,delete,1,deleted\n",
        "B.journal.csv": day + b"1,delete,1,deleted\n1,delete,2,deleted\n",
    }
    found = copies.consistent(files, begun=2)
    assert found["venue.log"] == lines_of(*log[:5])
    assert found["A.journal.csv"] == files["A.journal.csv"]
    assert found["B.journal.csv"] == day + b"1,delete,1,deleted\n"
    with pytest.raises(copies.CopyError):
        copies.consistent(files)

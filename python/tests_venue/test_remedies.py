"""What is said of each fault by which a venue doesn't start: also what to do."""
import errno
import os
import pathlib
import socket
import subprocess

import pytest
import served
from callauction.venue import owned, remedies
from callauction.venue.log import LogError, LogInUseError, LogVersionError
from callauction.venue.process import ProcessError
from callauction.venue.recovery import RecoveryError
from served import ended

SAID = [
    (LogInUseError("L is in use by another venue"), "end that one, or --folder NEW begins anew", 2),
    (LogVersionError("L is the log of another version"),
     "go on by that, or --folder NEW begins", 1),
    (LogError("L: line 2 is no line of a log"), "put the right file, or the last copy, back", 1),
    (RecoveryError("entry 2 of the journal"), "put the right file, or the last copy, back", 1),
    (ProcessError("journal in use", 2), "end the program that has it, or --folder NEW", 2),
    (ProcessError("journal of another day: low", 2), "take the day as it was, or --folder", 2),
    (ProcessError("journal record 3: damaged, 9 bytes follow", 1), "put the right file, or", 1),
    (ProcessError("the program hasn't begun for 60 s", 3), "look whether the disk hangs", 3),
    (ProcessError("the program was ended by signal 9", -9), "end others, or give more memory", 3),
    (ProcessError("", -1), "docs/FORMATS.md has it", 3),
    (MemoryError(), "end others, or give more memory", 3),
    (RuntimeError(remedies.NO_THREAD), "end others, or give more memory", 3),
]


@pytest.mark.parametrize("fault, do, status", SAID)
def test_a_fault_has_a_remedy(fault: Exception, do: str, status: int) -> None:
    text, found = remedies.start_fault_said(fault)
    assert f": {do}" in text and found == status


@pytest.mark.parametrize("number", remedies.OF_FILES)
def test_a_fault_of_a_file_has_a_remedy(number: int) -> None:
    text, status = remedies.start_fault_said(OSError(number, os.strerror(number), "/a"))
    assert text.startswith(f"/a: {os.strerror(number)}: ") and status == 3


def test_what_is_no_fault_of_a_start() -> None:
    with pytest.raises(RuntimeError, match="^a mistake$"):
        remedies.start_fault_said(RuntimeError("a mistake"))


def test_what_isnt_in_the_place_of_a_folder(tmp_path: pathlib.Path) -> None:
    (tmp_path / "venue").touch()
    with pytest.raises(owned.OwnerError, match="venue is no folder: move it away$"):
        owned.make_folder(tmp_path / "venue")


def test_an_address_that_another_has(tmp_path: pathlib.Path) -> None:
    with socket.create_server(("127.0.0.1", 0)) as taken:
        port = taken.getsockname()[1]
        status, error = ended("--folder", tmp_path / "venue", "--port", port)
    why = os.strerror(errno.EADDRINUSE)
    told = f"venue: can't listen on 127.0.0.1, port {port}: {why}: end who does, or take another\n"
    assert (status, error) == (2, told)


def ran_once(*words: object) -> "subprocess.CompletedProcess[str]":
    """A venue with these words, to its end."""
    given = served.words_of(*words)
    return subprocess.run(given, env=served.environment(), capture_output=True, text=True)


def test_a_check_tries_the_ports(tmp_path: pathlib.Path) -> None:
    taken_too = socket.create_server(("127.0.0.1", 0))
    with socket.create_server(("127.0.0.1", 0)) as taken, taken_too:
        ports = [it.getsockname()[1] for it in (taken, taken_too)]
        words = ("--port", ports[0], "--metrics", f"127.0.0.1:{ports[1]}", "--check")
        ran = ran_once("--folder", tmp_path / "venue", *words)
    why = os.strerror(errno.EADDRINUSE)
    said = [f"can't listen on 127.0.0.1, port {it}: {why}: end who does, or take another"
            for it in ports]  # fmt: skip
    assert (ran.returncode, ran.stderr) == (2, f"venue: {'; '.join(said)}\n")
    assert ran.stdout.startswith("XYZ: 0.01 to 10.00 EUR by 0.01, ")


@pytest.mark.parametrize("words", [(), ("--check",)])
def test_an_address_that_is_not_here(words: tuple[str, ...], tmp_path: pathlib.Path) -> None:
    why = os.strerror(errno.EADDRNOTAVAIL)
    told = f"can't listen on 192.0.2.7, port 8080: {why}: take another"
    given = ("--folder", tmp_path / "venue", "--listen", "192.0.2.7", "--insecure", *words)
    ran = ran_once(*given)
    assert (ran.returncode, ran.stderr) == (2, f"venue: {told}\n")


def test_a_check_looks_whose_files_are_there_before_it_opens_one(tmp_path: pathlib.Path) -> None:
    folder = tmp_path / "venue"
    folder.mkdir(mode=0o700)
    os.mkfifo(folder / "venue.log", 0o600)
    words = served.words_of("--folder", folder, "--port", 0, "--check")
    ran = subprocess.run(
        words, env=served.environment(), capture_output=True, text=True, timeout=served.SECONDS
    )
    assert ran.returncode == 2 and "venue.log" in ran.stderr, ran.stderr


def test_a_folder_in_which_no_file_can_be_made() -> None:
    ran = ran_once("--folder", "/proc/venue", "--port", 0, "--check")
    text = "venue: /proc: no file can be made there: name another\n"
    assert (ran.returncode, ran.stderr) == (3, text)

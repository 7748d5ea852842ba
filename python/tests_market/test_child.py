"""The program as a child: its status, its time, its memory, and what is left of it."""
import contextlib
import os
import pathlib
import signal
import subprocess
import sys
import time
from collections.abc import Iterator

import pytest
from callauction.market.child import Child, StillRunsError

MIB = 1 << 20
LIMITS = """
for each in $(seq 1000); do [ "$(ulimit -v)" = 65536 ] && break; sleep 0.01; done
sleep 0.3; ulimit -v; ulimit -c
"""
UNDER_A_LOWER_LIMIT = """
import sys, time
from callauction.market.child import Child
with open("/dev/null", "rb") as none, open(sys.argv[1], "r+b") as errors:
    child = Child(["sh", "-c", "sleep 1; ulimit -v"], none, errors)
    child.limit(1 << 40)
    child.wait(time.monotonic() + 30)
    sys.stdout.write(open(child.out).read())
"""


@contextlib.contextmanager
def shell(script: str, errors: pathlib.Path, text: str = "") -> Iterator[Child]:
    """A shell that runs this script with this text to read, and writes its errors to the file."""
    given = errors.with_name("given")
    given.write_text(text)
    with open(given, "rb") as file, open(errors, "w+b") as out:
        with contextlib.closing(Child(["sh", "-c", script], file, out)) as child:
            yield child


def soon() -> float:
    """A moment that a child has surely ended at."""
    return time.monotonic() + 30


def printed(child: Child) -> bytes:
    """All that it prints."""
    with open(child.out, "rb", closefd=False) as out:
        return out.read()


def open_files() -> int:
    """How many files this process has open."""
    return len(os.listdir("/proc/self/fd"))


def test_it_reads_prints_and_says_why_it_ends(tmp_path: pathlib.Path) -> None:
    errors = tmp_path / "errors"
    before = open_files()
    with shell("cat; echo bad >&2; exit 5", errors, "a text\n") as child:
        assert printed(child) == b"a text\n"
        assert child.wait(soon()) == 5
        assert child.wait(soon()) == 5
    assert errors.read_text() == "bad\n"
    assert open_files() == before


def test_one_that_is_not_there_leaves_nothing_open(tmp_path: pathlib.Path) -> None:
    before = open_files()
    with open("/dev/null", "r+b") as none:
        for name in (str(tmp_path / "none"), str(tmp_path)):
            with pytest.raises(OSError):
                Child([name], none, none)
    assert open_files() == before


@pytest.mark.parametrize("number", [signal.SIGPIPE, signal.SIGXFSZ, signal.SIGTERM])
def test_a_signal_ends_it(number: signal.Signals, tmp_path: pathlib.Path) -> None:
    with shell(f"kill -{number.value} $$; exit 0", tmp_path / "errors") as child:
        assert child.wait(soon()) == -number.value


def test_one_that_only_ends_its_output_is_not_waited_for(tmp_path: pathlib.Path) -> None:
    with shell("exec >&-; sleep 60", tmp_path / "errors") as child:
        assert printed(child) == b""
        with pytest.raises(StillRunsError):
            child.wait(time.monotonic() + 0.1)
        process = child.process
    with pytest.raises(ProcessLookupError):
        os.kill(process, 0)


def test_its_end_is_found_where_the_kernel_does_not_tell(
    tmp_path: pathlib.Path, monkeypatch: pytest.MonkeyPatch
) -> None:
    def refused(_process: int) -> int:
        raise PermissionError

    monkeypatch.setattr(os, "pidfd_open", refused)
    with shell("sleep 0.2; exit 3", tmp_path / "errors") as child:
        with pytest.raises(StillRunsError):
            child.wait(time.monotonic() + 0.01)
        assert child.wait(soon()) == 3


def test_its_memory_is_limited(tmp_path: pathlib.Path) -> None:
    with shell(LIMITS, tmp_path / "errors") as child:
        child.limit(64 * MIB)
        assert printed(child).split() == [b"%d" % (64 * 1024), b"0"]


def test_a_lower_limit_of_this_process_stays(tmp_path: pathlib.Path) -> None:
    words = ["prlimit", f"--as={1 << 33}:{1 << 33}", sys.executable, "-c", UNDER_A_LOWER_LIMIT]
    errors = tmp_path / "errors"
    errors.touch()
    ran = subprocess.run([*words, str(errors)], capture_output=True, text=True, check=True)
    assert ran.stdout.split() == [str((1 << 33) // 1024)]

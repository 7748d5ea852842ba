"""Nobody else gets in: on this machine nothing listens, and a scheduler wants a key."""
import os
import pathlib
import re
import shutil
import socket
import subprocess
import sys
import tempfile
import time

import psutil
import pytest
from conftest import DONE, LOOPBACK, SECONDS, Keys, children_of, command, new_keys, started, write
from distributed import Client

SLOW = {f"slow {place}": f"day,1,9,5,4,9,9,\n{DONE}" for place in range(12)}
NOBODY = 65534
KNOCK = """
import sys
from distributed import Client, Security
address, cert, key, seconds = sys.argv[1:]
with_key = Security(
    tls_ca_file=cert, tls_client_cert=cert, tls_client_key=key, require_encryption=True
)
try:
    with Client(address, timeout=int(seconds), security=with_key if key else None) as client:
        print(client.submit(sum, [1, 2]).result())
except PermissionError:
    print("no key")
except OSError:
    print("refused")
"""


def as_nobody() -> list[str]:
    """What runs a command as another user; nothing where only root may."""
    if os.geteuid() != 0:
        return []
    return ["setpriv", f"--reuid={NOBODY}", f"--regid={NOBODY}", "--clear-groups"]


def sockets_of(process: psutil.Process) -> list[str]:
    """The sockets that a process has open."""
    found = []
    for file in pathlib.Path("/proc", str(process.pid), "fd").iterdir():
        try:
            target = os.readlink(file)
        except OSError:
            continue
        if target.startswith("socket:"):
            found.append(target.removeprefix("socket:[").removesuffix("]"))
    return found


def listeners() -> set[str]:
    """The sockets that listen on this machine, as another user sees them."""
    tables = [f"/proc/net/{name}" for name in ("tcp", "tcp6", "unix")]
    ran = subprocess.run([*as_nobody(), "cat", *tables], stdout=subprocess.PIPE, text=True)
    found = set()
    for line in ran.stdout.splitlines():
        words = line.split()
        if len(words) > 9 and words[3] == "0A":
            found.add(words[9])
        elif len(words) > 6 and words[3] == "00010000":
            found.add(words[6])
    return found


def test_a_listener_is_seen() -> None:
    with socket.create_server((LOOPBACK, 0)) as server:
        inode = str(os.fstat(server.fileno()).st_ino)
        assert inode in listeners() and inode in sockets_of(psutil.Process())


def test_a_run_on_this_machine_listens_nowhere(
    harmful: pathlib.Path, tmp_path: pathlib.Path
) -> None:
    write(tmp_path / "journals", SLOW)
    with started("audit", tmp_path / "journals", "--workers", 2, program=harmful) as child:
        seen = 0
        while child.poll() is None:
            those = [psutil.Process(child.pid), *children_of(child.pid)]
            try:
                sockets = {name for process in those for name in sockets_of(process)}
            except (psutil.NoSuchProcess, FileNotFoundError):
                continue
            assert not sockets & listeners()
            seen += len(those) > 2
            time.sleep(0.05)
    assert seen >= 3 and child.returncode == 0


def knock(address: str, keys: Keys | None, before: list[str], seconds: int = 2) -> str:
    """What somebody gets, by these words another user, who asks for some work at this address for
    so long.
    """
    given = [keys.cert, keys.key] if keys else ["", ""]
    words = [*before, sys.executable, "-W", "ignore", "-c", KNOCK, address, *given, str(seconds)]
    ran = subprocess.run(words, capture_output=True, text=True, cwd="/", timeout=SECONDS)
    return ran.stdout.strip() or ran.stderr


def test_a_scheduler_refuses_whoever_has_no_key(
    client: Client, keys: Keys
) -> None:
    address = client.scheduler.address
    folder = pathlib.Path(tempfile.mkdtemp())  # which others may look into, other than tmp_path
    try:
        other = new_keys(folder)
        for path in (str(folder), other.cert, other.key):
            os.chmod(path, 0o755)
        assert knock(address.replace("tls:", "tcp:"), None, as_nobody()) == "refused"
        assert knock(address, other, as_nobody()) == "refused"
    finally:
        shutil.rmtree(folder)
    if os.geteuid() == 0:
        assert knock(address, keys, as_nobody()) == "no key"
    assert knock(address, keys, [], SECONDS) == "3"


def test_a_command_line_has_to_have_the_key(
    client: Client, keys: Keys, program: str, tmp_path: pathlib.Path
) -> None:
    write(tmp_path / "journals", {"A": f"day,1,9,5,4,9,9,\n{DONE}"})
    words = ["audit", tmp_path / "journals", "--scheduler", client.scheduler.address]
    good = command(*words, *keys.words(), program=program)
    assert (good.returncode, good.stderr) == (0, "")
    ran = command(*words, *new_keys(tmp_path).words(), program=program)
    assert (ran.returncode, ran.stdout) == (3, "")
    assert re.fullmatch(r"market: .*\n", ran.stderr)


KEYS = ["--tls-ca", "{}/cert.pem", "--tls-cert", "{}/cert.pem", "--tls-key", "{}/key.pem"]
INSECURE = "whoever reaches a tcp:// port can run code there: tls://, or --insecure"
FORM = "a scheduler is named by --scheduler tls://HOST:PORT"
NO_KEY = "tls:// needs --tls-ca, --tls-cert and --tls-key: no --tls-"
WRONG = [
    (["--scheduler", "tcp://h:1"], INSECURE),
    (["--scheduler", f"tcp://{LOOPBACK}:1"], INSECURE),
    (["--scheduler", "tcp://h:1", "--insecure", *KEYS], INSECURE),
    (["--scheduler", "tls://h:1"], f"{NO_KEY}ca"),
    (["--scheduler", "tls://h:1", *KEYS[:4]], f"{NO_KEY}key"),
    (["--scheduler", "tls://h:1", *KEYS[:5], "{}/none"], "--tls-key {}/none: No such file or"),
    (["--scheduler", "foo"], FORM),
    (["--scheduler", "tls://", *KEYS], FORM),
    (["--scheduler", "", *KEYS], FORM),
    (["--insecure"], FORM),
    (KEYS, FORM),
]


@pytest.mark.parametrize("words, text", WRONG)
def test_words_that_would_open_a_door_are_refused(
    words: list[str], text: str, program: str, tmp_path: pathlib.Path
) -> None:
    new_keys(tmp_path)
    write(tmp_path / "journals", {"A": "day\n"})
    ran = command(
        "audit", tmp_path / "journals", *(word.format(tmp_path) for word in words), program=program
    )
    assert (ran.returncode, ran.stdout) == (2, "")
    assert ran.stderr.startswith(f"market: {text.format(tmp_path)}")
    assert ran.stderr.count("\n") == 1


def test_a_plain_scheduler_is_asked_for(program: str, tmp_path: pathlib.Path) -> None:
    write(tmp_path / "journals", {"A": "day\n"})
    with socket.create_server((LOOPBACK, 0)) as server:
        port = server.getsockname()[1]
    words = ["audit", tmp_path / "journals", "--scheduler", f"tcp://{LOOPBACK}:{port}"]
    ran = command(*words, "--insecure", program=program)
    assert (ran.returncode, ran.stdout) == (3, "")  # nothing is there, which was tried
    assert re.fullmatch(r"market: .*\n", ran.stderr)

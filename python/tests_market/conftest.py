"""The program, workers and small markets for the tests.

CALLBOARD names the built program; where it names none, nothing is tested and that is an error.
"""
import contextlib
import dataclasses
import os
import pathlib
import subprocess
import sys
import time
from collections.abc import Callable, Iterator
from typing import Any

import dask
import psutil
import pytest
import rules
from callauction.market import instrument_names
from distributed import Client, LocalCluster, Security

Ran = subprocess.CompletedProcess[str]
TOP = pathlib.Path(__file__).resolve().parents[2]
PACKAGE = os.environ.get("CALLAUCTION_PACKAGE", TOP / "python")
LOOPBACK = "127.0.0.1"
SECONDS = 600
"""How long a test waits for what is to come: much longer than a slow machine takes."""
DONE = "".join(f"0,uncross,{auction} no price\n" for auction in rules.AUCTIONS)
"""The end of a day without orders, with its recorded replies."""
HARMFUL = """#!/bin/sh
# Runs the program on what standard input is, but for files with these names, and writes down each.
file=$(readlink /proc/self/fd/0)
name=$(basename "$file" .csv)
echo "$name $PPID" >> "{runs}"
case "$name" in
    "kills its worker once") [ -e "{runs}.once" ] || {{ touch "{runs}.once"; kill -9 $PPID; }} ;;
    "kills its worker") kill -9 $PPID ;;
    "is killed") kill -9 $$ ;;
    "prints something else") echo nothing; exit 0 ;;
    "prints for ever") yes ;;
    "never ends") exec sleep 1000 ;;
    "closes and never ends") exec sleep 1000 > /dev/null ;;
    "ends with 9") exit 9 ;;
    "slow"*) sleep 0.5 ;;
esac
exec "{program}" "$@"
"""


def pytest_configure(config: pytest.Config) -> None:
    """Debian's Dask is older than its Python and its Tornado, who say so. Where a worker was killed
    Dask leaves its connection to the garbage collector, which may run in any later test.
    """
    for text in ("make_current", "clear_current", "There is no current event loop"):
        config.addinivalue_line("filterwarnings", f"ignore:{text}:DeprecationWarning")
    config.addinivalue_line("filterwarnings", "ignore:unclosed <ssl:ResourceWarning")


@pytest.fixture(scope="session")
def program() -> str:
    """The path of the built program."""
    named = os.environ.get("CALLBOARD", "")
    if not os.access(named, os.X_OK):
        pytest.exit("CALLBOARD names no program: checks/market PROGRAM", returncode=1)
    return os.path.abspath(named)


@dataclasses.dataclass(frozen=True)
class Keys:
    """A certificate that vouches for itself, and its key, which its owner alone can read."""

    cert: str
    key: str

    def words(self) -> list[str]:
        """The words of the command line that name them."""
        return ["--tls-ca", self.cert, "--tls-cert", self.cert, "--tls-key", self.key]

    def security(self) -> Security:
        """What Dask knows them by."""
        files = {"tls_ca_file": self.cert, "require_encryption": True}
        for role in ("scheduler", "worker", "client"):
            files |= {f"tls_{role}_cert": self.cert, f"tls_{role}_key": self.key}
        return Security(**files)


def new_keys(folder: pathlib.Path) -> Keys:
    """New keys in a folder, by the command of docs/MARKET.md."""
    keys = Keys(str(folder / "cert.pem"), str(folder / "key.pem"))
    words = "openssl req -x509 -newkey ec -pkeyopt ec_paramgen_curve:prime256v1 -nodes -days 30"
    command = [*words.split(), "-subj", "/CN=market", "-keyout", keys.key, "-out", keys.cert]
    subprocess.run(command, check=True, capture_output=True)
    return keys


@pytest.fixture(scope="session")
def keys(tmp_path_factory: pytest.TempPathFactory) -> Keys:
    """The keys of the cluster."""
    return new_keys(tmp_path_factory.mktemp("keys"))


@contextlib.contextmanager
def cluster(workers: int, keys: Keys) -> Iterator[Client]:
    """A client of a scheduler with `workers` workers, processes of this machine, by TLS."""
    settings = {
        "distributed.worker.multiprocessing-method": "forkserver",
        "distributed.scheduler.http.routes": [],
        "distributed.worker.http.routes": [],
    }
    with dask.config.set(settings), LocalCluster(
        n_workers=workers,
        threads_per_worker=1,
        processes=True,
        host=LOOPBACK,
        protocol="tls://",
        security=keys.security(),
        dashboard_address=f"{LOOPBACK}:0",
        worker_dashboard_address=f"{LOOPBACK}:0",
        silence_logs=50,
    ) as found, Client(found, security=keys.security()) as client:
        yield client


@pytest.fixture(scope="session")
def client(program: str, keys: Keys) -> Iterator[Client]:
    """Two workers of Dask."""
    with cluster(2, keys) as found:
        yield found


@pytest.fixture(scope="session", params=["processes", "Dask"])
def crew(request: pytest.FixtureRequest, program: str) -> Client | None:
    """Who does the work: processes of this machine, or workers of Dask."""
    return request.getfixturevalue("client") if request.param == "Dask" else None


@pytest.fixture
def harmful(program: str, tmp_path: pathlib.Path) -> pathlib.Path:
    """A program that does harm on files with certain names. Beside it, `runs` has a line for each
    run: the instrument and the worker's process.
    """
    path = tmp_path / "bin" / "harmful"
    path.parent.mkdir()
    path.write_text(HARMFUL.format(program=program, runs=path.with_name("runs")))
    path.chmod(0o755)
    return path


def runs_of(harmful: pathlib.Path) -> list[tuple[str, int]]:
    """The runs of a harmful program: instruments and processes of workers."""
    lines = harmful.with_name("runs").read_text().splitlines()
    return [(line.rsplit(" ", 1)[0], int(line.rsplit(" ", 1)[1])) for line in lines]


def until(holds: Callable[[], bool]) -> None:
    """Waits until this holds. Raises AssertionError."""
    deadline = time.monotonic() + SECONDS
    while not holds():
        assert time.monotonic() < deadline
        time.sleep(0.02)


def write(folder: pathlib.Path, texts: rules.Texts) -> list[str]:
    """Writes journals: their paths."""
    folder.mkdir(exist_ok=True)
    paths = [folder / instrument_names.file_of(instrument) for instrument in texts]
    for path, text in zip(paths, texts.values()):
        path.write_bytes(text.encode("latin-1"))
    return [str(path) for path in paths]


def columns(found: Any) -> list[rules.KnownColumns]:
    """The rows of a frame, without what is missing and the seconds."""
    records = found.drop(columns="seconds").astype(object).where(found.notna(), None)
    return [
        {name: value for name, value in record.items() if value is not None}
        for record in records.to_dict("records")
    ]


def environment(program: object) -> dict[str, str]:
    """The environment of a command line with this program."""
    return os.environ | {"CALLBOARD": str(program), "PYTHONPATH": str(PACKAGE)}


def words_of(*words: object) -> list[str]:
    """A command line of the market, with the signals as a terminal has them: a background job of a
    shell, and nohup, hand on that some are ignored.
    """
    command = ["env", "--default-signal=INT,HUP,PIPE", sys.executable, "-m", "callauction.market"]
    return [*command, *map(str, words)]


def command(*words: object, program: object, before: list[str] = []) -> Ran:
    """A run of the command line, after these words."""
    return subprocess.run(
        [*before, *words_of(*words)],
        env=environment(program),
        capture_output=True,
        text=True,
        timeout=SECONDS,
    )


@contextlib.contextmanager
def started(*words: object, program: object) -> Iterator[subprocess.Popen[str]]:
    """A command line that runs meanwhile, and is killed at the end, with all that it started."""
    pipe = subprocess.PIPE
    with subprocess.Popen(
        words_of(*words), env=environment(program), stdout=pipe, stderr=pipe, text=True
    ) as child:
        try:
            yield child
        finally:
            for each in children_of(child.pid):
                with contextlib.suppress(psutil.NoSuchProcess):
                    each.kill()
            child.kill()


def children_of(process: int) -> list[psutil.Process]:
    """What a process has started, and what that has."""
    try:
        return list(psutil.Process(process).children(recursive=True))
    except psutil.NoSuchProcess:
        return []


def closing(text: str) -> dict[str, float]:
    """The numbers of an audit's closing line by the words before them."""
    parts = [part.rsplit(" ", 1) for part in text.splitlines()[-2].split(", ")]
    return {word: float(number) for word, number in parts}

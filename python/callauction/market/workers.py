"""Who runs the program on the files: processes of this machine (callauction.market.processes), or
the workers of a Dask client. Dask is imported where a client is given, or a scheduler named.
"""
import contextlib
import os
import threading
from collections.abc import Iterator
from typing import TYPE_CHECKING, Protocol

from callauction import finder
from callauction.market.instrument_names import instrument_of, line_of
from callauction.market.rows import Found, Row, found_of
from callauction.market.task import Request, examine_each

if TYPE_CHECKING:
    from distributed import Client, Future, Security

SHARES = 32
"""How many tasks, about, a thread of Dask's workers is to get: enough that the last ones end
together.
"""
START = 1 << 18
"""How many bytes of a journal take as long as starting the program once or twice."""
WORKERS_ENDED = "its worker ended each time"
"""The fault of a file whose workers ended before they had found anything."""
CONNECT_SECONDS, WORKER_SECONDS = 20, 60
"""How long a scheduler, and then its first worker, is waited for."""


class MarketError(Exception):
    """The market can't be run as asked: two files of an instrument, workers that have no program
    or different ones, a scheduler that is lost.
    """


class Workers(Protocol):
    """What runs tasks, a request on some files each."""

    def digest(self, path: str | None) -> str:
        """The SHA-256 of the program with this path, or of the one that each worker finds. Raises
        MarketError where there is no worker, one has no program, or two have different ones.
        """

    def results(self, files: list[str], request: Request) -> Iterator[list[Found]]:
        """What is found of files, some rows at a time as they come, in no order. Raises
        MarketError where the workers are lost.
        """


def size_of(path: str) -> int:
    """The bytes of a file, 0 where it can't be looked at."""
    try:
        return os.stat(path).st_size
    except OSError:
        return 0


def largest_first(files: list[str]) -> list[tuple[int, str]]:
    """The files with their bytes, the largest first."""
    return sorted(((size_of(path), path) for path in files), key=lambda it: (-it[0], it[1]))


def batches_of(files: list[str], threads: int) -> list[list[str]]:
    """The files in tasks, for `threads` threads: the largest first, and small ones together."""
    sized = largest_first(files)
    share = sum(size + START for size, _ in sized) / (SHARES * threads)
    batches: list[list[str]] = []
    room = 0.0
    for size, path in sized:
        if size + START > room:
            batches.append([])
            room = share
        batches[-1].append(path)
        room -= size + START
    return batches


def name_of_worker() -> str:
    """The machine, the process and the thread that run this."""
    return f"{os.uname().nodename}:{os.getpid()}:{threading.get_native_id()}"


def examine(paths: list[str], request: Request) -> list[Found]:
    """What the program says of these files, in their order. Raises FileNotFoundError where this
    machine has none.
    """
    request = request._replace(program=request.program or finder.program_path())
    worker = name_of_worker()
    found = {each[0]: found_of(each, worker) for each in examine_each(paths, request)}
    return [found[path] for path in paths]


class Cluster:
    """The workers of a Dask client."""

    def __init__(self, client: "Client") -> None:
        self.client = client

    def digest(self, path: str | None) -> str:
        """The digest of the program, which all workers have. Raises MarketError."""
        digests = self.client.run(finder.program_digest, path, on_error="return")
        for worker, answer in sorted(digests.items()):
            if isinstance(answer, Exception):
                raise MarketError(f"the worker {worker} has no program: {answer}")
        if not digests:
            raise MarketError("there is no worker")
        if len(set(digests.values())) != 1:
            raise MarketError("the workers have different programs")
        return str(next(iter(digests.values())))

    def results(self, files: list[str], request: Request) -> Iterator[list[Found]]:
        """Where workers ended under a task, Dask starts it again elsewhere, and gives it up after
        some times (allowed-failures). It can't know which file of the task it was, or whether
        another task was to blame, so the files of such tasks are run once more, each alone.
        """
        from distributed import as_completed

        batches = batches_of(files, max(1, sum(self.client.nthreads().values())))
        suspects: list[str] = []
        futures = self.client.map(examine, batches, request=request, pure=False, key="callboard")
        tasks = dict(zip(futures, batches))
        for future in as_completed(futures):
            found = result_of(future)
            if isinstance(found, Exception):
                suspects += tasks[future]
            else:
                yield found
            future.release()
        for path in sorted(suspects):
            yield self.alone(path, request)

    def alone(self, path: str, request: Request) -> list[Found]:
        """What is found of a file that no other shares a task with. Raises MarketError."""
        found = result_of(self.client.submit(examine, [path], request, pure=False))
        return [blamed(path, found)] if isinstance(found, Exception) else found


def result_of(future: "Future") -> list[Found] | Exception:
    """What a task has found, or the exception with which it ended. Where its worker has ended
    since, with the result, the task runs again, which is waited for. Raises MarketError where the
    scheduler is lost.
    """
    try:
        return list(future.result())
    except Exception as fault:
        if future.status != "error":
            raise MarketError("the scheduler is lost") from fault
        return fault


def blamed(path: str, fault: BaseException) -> Found:
    """The row of a file whose task ended with an exception each time."""
    from distributed import KilledWorker

    if isinstance(fault, KilledWorker):
        return Found(Row(instrument_of(path), fault=WORKERS_ENDED))
    return Found(Row(instrument_of(path), fault=line_of(f"{type(fault).__name__}: {fault}")))


@contextlib.contextmanager
def connected(scheduler: str, security: "Security | None") -> Iterator[Cluster]:
    """The workers of this scheduler, at least one. Raises OSError where there is none."""
    from distributed import Client

    with Client(scheduler, security=security, timeout=CONNECT_SECONDS) as client:
        client.wait_for_workers(1, timeout=WORKER_SECONDS)
        yield Cluster(client)

"""What the command line does: see examine and split_table."""
import argparse
import contextlib
import glob
import os
import pathlib
import re
import sys
import time
from collections.abc import Iterable, Iterator
from typing import TYPE_CHECKING

from callauction import finder
from callauction.market.expected import compared_with, read_list
from callauction.market.files import InUse, locked, with_end
from callauction.market.instrument_names import SUFFIX, line_of
from callauction.market.log import RunLog
from callauction.market.processes import Processes
from callauction.market.rows import Found, Row, write_rows
from callauction.market.runs import AUDIT_FORM, files_of
from callauction.market.summary import Summary
from callauction.market.task import MIB, Request
from callauction.market.workers import MarketError, Workers, connected
from callauction.overwriting import OverwriteError, refuse_overwriting
from callauction.statuses import BAD_DAY, BAD_FILE, BROKEN_OFF, DONE, FAILED

if TYPE_CHECKING:
    from distributed import Security

SECURE_SCHEME, PLAIN_SCHEME = "tls://", "tcp://"
ADDRESS = re.compile(r"t(?:ls|cp)://[^/\s]+:\d{1,5}")


def warn(fault: object) -> None:
    """A line on standard error."""
    print(f"market: {line_of(str(fault))}", file=sys.stderr)


# ---- what is asked for


def journals(paths: Iterable[str]) -> dict[str, str]:
    """The files that are meant by their instruments: those named, and those in folders that are
    named. Raises MarketError where there is none, or two of an instrument.
    """
    found: list[str] = []
    for path in map(pathlib.Path, paths):
        if path.is_dir():
            found += [os.path.join(path, name) for name in glob.glob(f"*{SUFFIX}", root_dir=path)]
        elif not path.name.startswith("."):
            found.append(str(path))
    if not found:
        raise MarketError(f"there is no {SUFFIX} file in {', '.join(paths)}")
    return files_of(found)


def checked_output(path: pathlib.Path, asked: argparse.Namespace, files: Iterable[str]) -> None:
    """Raises MarketError where a result can't take the place of what is there, or would be a file
    of the next run, and OverwriteError where it or its log would be another file that is read.
    """
    keys = {name: getattr(asked, name) for name in ("expect", "tls_ca", "tls_cert", "tls_key")}
    refuse_overwriting(
        {f"the file of --{name.replace('_', '-')}": it for name, it in keys.items()},
        {"-o": path, "its log": log_path(path)},
    )
    for each in (path, log_path(path)):
        if each.is_symlink() or (each.exists() and not each.is_file()):
            raise MarketError(f"no result can be written to {each}")
    if not path.parent.is_dir():
        raise MarketError(f"no result can be written to {path}")
    place = path.parent.resolve() / path.name
    likely = [each for each in files if os.path.basename(each) == path.name or os.path.islink(each)]
    if any(os.path.realpath(each) == str(place) for each in likely):
        raise MarketError(f"{path} would be the result and is a file of the market")
    folders = [os.path.realpath(each) for each in asked.paths if os.path.isdir(each)]
    if str(place.parent) in folders:
        raise MarketError(f"the result {path} would lie among the files of the market")


def checked_folder(into: str, files: Iterable[str]) -> None:
    """Raises MarketError where what is kept in this folder would be a file of the next run."""
    if os.path.realpath(into) in {os.path.realpath(os.path.dirname(each)) for each in files}:
        raise MarketError(f"what --into keeps in {into} would lie among the files of the market")


def security_of(asked: argparse.Namespace) -> "Security | None":
    """The keys for the scheduler that is asked for; None on this machine, and without any. Raises
    MarketError where the words don't go together, or a file can't be read.
    """
    keys = {name: getattr(asked, f"tls_{name}") for name in ("ca", "cert", "key")}
    scheduler = asked.scheduler or ""
    if not scheduler and not asked.insecure and not any(keys.values()):
        return None
    if not ADDRESS.fullmatch(scheduler):
        raise MarketError("a scheduler is named by --scheduler tls://HOST:PORT")
    if scheduler.startswith(PLAIN_SCHEME):
        if asked.insecure and not any(keys.values()):
            return None
        raise MarketError("whoever reaches a tcp:// port can run code there: tls://, or --insecure")
    for name, path in keys.items():
        if not path:
            needed = "--tls-ca, --tls-cert and --tls-key"
            raise MarketError(f"{SECURE_SCHEME} needs {needed}: no --tls-{name}")
        try:
            open(path, "rb").close()
        except OSError as fault:
            raise MarketError(f"--tls-{name} {path}: {fault.strerror}") from fault
    from distributed import Security

    return Security(
        tls_ca_file=keys["ca"],
        tls_client_cert=keys["cert"],
        tls_client_key=keys["key"],
        require_encryption=True,
    )


@contextlib.contextmanager
def workers_of(asked: argparse.Namespace) -> Iterator[Workers]:
    """The workers that are asked for. Raises MarketError, and OSError where there are none."""
    security = security_of(asked)
    if not asked.scheduler:
        yield Processes(asked.workers)
        return
    import logging

    logging.disable(logging.CRITICAL)  # Dask logs lost workers; here rows name them
    with connected(asked.scheduler, security) as cluster:
        yield cluster


def request_of(asked: argparse.Namespace) -> Request:
    """What is asked of each file. Raises FileNotFoundError where this machine has no program and is
    to run it, and OSError where the folder for the outputs can't be made.
    """
    forms: tuple[str, ...] = AUDIT_FORM
    into = None
    if asked.verb == "run":
        forms, into = tuple(dict.fromkeys(asked.forms)), asked.into and os.path.abspath(asked.into)
    if into:
        os.makedirs(into, exist_ok=True)
    path = None if asked.scheduler else finder.program_path()
    memory = asked.memory and asked.memory * MIB
    return Request(forms, path, memory, asked.seconds, into, bool(asked.output))


# ---- the run


def shown(results: Iterator[list[Found]], all_files: int, taken: int) -> Iterator[list[Found]]:
    """The same results, behind a progress bar on standard error, if that is a terminal."""
    if not sys.stderr.isatty():
        yield from results
        return
    from tqdm import tqdm

    with tqdm(total=all_files, initial=taken, unit=" instruments") as bar:
        for found in results:
            yield found
            bar.update(len(found))


def log_path(output: pathlib.Path) -> pathlib.Path:
    """Where the rows of a result are kept as they come."""
    return with_end(output, ".log")


@contextlib.contextmanager
def log_of(
    asked: argparse.Namespace, files: dict[str, str], request: Request, digest: str
) -> Iterator[tuple[RunLog, list[Found]]]:
    """The open log of a run by the program with this digest, and what it goes on with of an earlier
    run, whose faults are shown. Raises OSError.
    """
    log = RunLog(log_path(asked.output), request, digest)
    taken = log.taken(files) if asked.resume else []
    with log.begun(taken):
        for fault in log.faults:
            warn(f"{log.path}: {fault}")
        yield log, taken


def run_market(asked: argparse.Namespace, files: dict[str, str], rows: list[Row]) -> Summary:
    """Runs the program on all files, or on those that an earlier run left, and writes the result:
    what is said of these rows and theirs. Raises MarketError and InUse, and OSError
    where there is no program or no scheduler, or a result can't be written.
    """
    request = request_of(asked)
    summary = Summary(rows, asked.verb == "audit")
    with contextlib.ExitStack() as stack:
        for result in filter(None, (asked.output, request.into)):
            stack.enter_context(locked(pathlib.Path(result)))
        crew = stack.enter_context(workers_of(asked))
        begin = time.perf_counter()
        digest = crew.digest(request.program)
        log: RunLog | None = None
        taken: list[Found] = []
        if asked.output:
            log, taken = stack.enter_context(log_of(asked, files, request, digest))
        summary.take_over(each.row for each in taken)
        done = {each.row.instrument for each in taken}
        left = [path for instrument, path in files.items() if instrument not in done]
        for found in shown(crew.results(left, request), len(files), len(taken)):
            if log:
                log.add(found)
            summary.add(each.row for each in found)
        summary.seconds = time.perf_counter() - begin
        if asked.output:
            write_rows(summary.rows, asked.output)
    return summary


def checked_files(asked: argparse.Namespace) -> tuple[dict[str, str], list[Row]]:
    """The files by their instruments, and rows for what the list of --expect has otherwise. Raises
    MarketError where what is asked for doesn't go together, OverwriteError, and OSError where a
    list or a key can't be read.
    """
    files = journals(asked.paths)
    if asked.resume and not asked.output:
        raise MarketError("--resume goes on with a result: -o FILE")
    if asked.output:
        checked_output(asked.output, asked, files.values())
    if asked.verb == "run" and asked.into:
        checked_folder(asked.into, files.values())
    expected = read_list(asked.expect) if asked.expect else None
    security_of(asked)
    return compared_with(files, expected)


def examine_files(asked: argparse.Namespace) -> int:
    """Runs the program on files, writes the result, and prints what was found: the status."""
    try:
        files, rows = checked_files(asked)
    except (MarketError, OverwriteError, OSError) as fault:
        warn(fault)
        return BAD_DAY
    try:
        summary = run_market(asked, files, rows)
    except InUse as fault:
        warn(fault)
        return BAD_DAY
    except (MarketError, OSError) as fault:
        warn(fault)
        return FAILED
    except KeyboardInterrupt:
        kept = f": {log_path(asked.output)} has what was found; --resume" if asked.output else ""
        warn(f"broken off{kept}")
        return BROKEN_OFF
    print("\n".join(summary.lines()))
    return summary.status()


def split_table(asked: argparse.Namespace) -> int:
    """Writes a journal for each instrument of a table, and prints how many: the status."""
    from callauction.market.splitting import TableError, split

    try:
        paths = split(
            asked.table, asked.by, days=asked.days, ignore=asked.ignore, folder=asked.into
        )
    except TableError as fault:
        warn(fault)
        return BAD_FILE
    except (InUse, OverwriteError) as fault:
        warn(fault)
        return BAD_DAY
    except OSError as fault:
        warn(fault)
        return FAILED
    print(f"instruments {len(paths)}")
    return DONE

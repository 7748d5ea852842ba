"""The runs of a market, from Python. See run and audit."""
import os
from collections.abc import Iterable, Sequence
from typing import TYPE_CHECKING

from callauction import finder
from callauction.market.expected import compared_with
from callauction.market.forms import FORMS
from callauction.market.instrument_names import instrument_of, line_of
from callauction.market.processes import Processes
from callauction.market.rows import frame
from callauction.market.task import Request
from callauction.market.workers import Cluster, MarketError, Workers

if TYPE_CHECKING:
    import pandas
    from distributed import Client

AUDIT_FORM = ("results",)
"""The form of an audit: the verdict, and the results of the day's auctions."""

FilePath = str | os.PathLike[str]
FilePaths = FilePath | Iterable[FilePath]
"""A file, or files."""


def files_of(paths: FilePaths) -> dict[str, str]:
    """The absolute paths of files by their instruments, in the order of these. Raises MarketError
    where two are of one instrument.
    """
    listed = [paths] if isinstance(paths, str | os.PathLike) else paths
    files: dict[str, str] = {}
    for each in listed:
        path = os.path.abspath(os.fspath(each))
        other = files.setdefault(instrument_of(path), path)
        if other != path:
            raise MarketError(f"two files of one instrument: {line_of(other)}, {line_of(path)}")
    return dict(sorted(files.items()))


def forms_of(what: str | Sequence[str]) -> tuple[str, ...]:
    """The forms with these names, each once. Raises ValueError for another name, or none."""
    names = (what,) if isinstance(what, str) else tuple(dict.fromkeys(what))
    for name in names or ("",):
        if name not in FORMS:
            raise ValueError(f"what: {name!r} is none of {', '.join(FORMS)}")
    return names


def _crew_of(client: "Client | None", workers: int | None) -> Workers:
    """Who does the work: the workers of a client, or this many processes of this machine."""
    if client is None:
        return Processes(workers)
    return Cluster(client)


def run(
    paths: FilePaths,
    what: str | Sequence[str],
    client: "Client | None" = None,
    *,
    workers: int | None = None,
    expect: Iterable[str] | None = None,
    into: FilePath | None = None,
    memory: int | None = None,
    seconds: int | None = None,
    program: FilePath | None = None,
) -> "pandas.DataFrame":
    """What the program says of each file: a pandas frame of Row's columns, a row an instrument, in
    their order.

    `what` is one or more of FORMS: `audit` and `results` have what was compared and what is
    unlawful, `results` and `lines` the auctions and whether the day is over, and with `trades` the
    trades. With `expect`, the instruments that are to be there, those without a file and files of
    others are rows with a fault. With `into`, a folder, the output of each run is kept there. A run
    of the program, whose path is `program`, or what the worker finds, may have `memory` bytes of
    address space and take `seconds`, or what goes by its file's size (task.Request.for_size).

    The work is done by `workers` processes of this machine, one for each core where it isn't said,
    or by the workers of `client`, which have to see the files by the same paths. Raises
    MarketError, ValueError for another `what`, and FileNotFoundError where this machine is to do it
    and has no program. Whatever is wrong with a file, or ends the program or its worker, is the
    fault in that file's row.
    """
    files, rows = compared_with(files_of(paths), expect)
    forms = forms_of(what)
    keep, path = (None if name is None else os.path.abspath(name) for name in (into, program))
    crew = _crew_of(client, workers)
    if client is None:
        path = path or finder.program_path()
    crew.digest(path)
    request = Request(forms, path, memory, seconds, keep)
    for some in crew.results(list(files.values()), request):
        rows += (each.row for each in some)
    return frame(rows)


def audit(
    paths: FilePaths,
    client: "Client | None" = None,
    *,
    workers: int | None = None,
    expect: Iterable[str] | None = None,
    memory: int | None = None,
    seconds: int | None = None,
    program: FilePath | None = None,
) -> "pandas.DataFrame":
    """Which recorded replies of each journal are unlawful, how many were compared, and the prices
    of its auctions: run with the form of AUDIT_FORM.
    """
    return run(
        paths,
        AUDIT_FORM,
        client,
        workers=workers,
        expect=expect,
        memory=memory,
        seconds=seconds,
        program=program,
    )

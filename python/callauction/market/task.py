"""What a worker does: it runs the program on some files, one after the other. See examine_each. A
worker starts for each run of a market, so this imports little.
"""
import collections
import contextlib
import enum
import hashlib
import os
import select
import signal
import stat
import time
from collections.abc import Generator, Iterable, Iterator
from typing import IO, NamedTuple

from callauction.market.child import Child, StillRunsError
from callauction.market.forms import (
    FORMS,
    OUTPUT_BLOCK,
    Blocks,
    Form,
    OutputError,
    RowColumns,
    blocks_of,
    read_nothing,
)
from callauction.statuses import DONE, INCOMPLETE, UNLAWFUL

MIB = 1 << 20
GOOD = {DONE, UNLAWFUL, INCOMPLETE}
"""The statuses of the program that go with a good file: all is lawful, or something isn't, or a
journal is a broken copy.
"""
NO_MEMORY = "out of memory"
"""What the program says where it gets no memory."""
LEAST_MEMORY, MEMORY_OF_BYTE = 64 * MIB, 8
"""The address space that a run may have: the first in bytes, and the second for each byte of its
file, times the factor of its form.
"""
LEAST_SECONDS, BYTES_OF_MINUTE = 60, 4 * MIB
"""How long a run may take: the first in seconds, and a minute for each 4 MiB of its file, which are
some 100,000 entries.
"""


class Request(NamedTuple):
    """What is asked of each file. It is small, since it goes along with each task."""

    forms: tuple[str, ...]
    """Names of FORMS, in the order in which the program is run."""
    program: str | None = None
    """The path of the program; None for the one that the worker finds."""
    memory: int | None = None
    """The most bytes of address space for a run of the program; None goes by the file's size."""
    seconds: int | None = None
    """The most seconds for a run of the program; None goes by the file's size."""
    into: str | None = None
    """A folder that keeps the output of each run; None for none."""
    is_logged: bool = False
    """Whether the file's SHA-256 is asked for."""

    def for_size(self, size: int, form: Form) -> "Request":
        """The request with the limits for a run in this form on a file of `size` bytes."""
        memory = self.memory or form.memory_factor * (LEAST_MEMORY + MEMORY_OF_BYTE * size)
        seconds = self.seconds or LEAST_SECONDS + 60 * (size // BYTES_OF_MINUTE)
        return self._replace(memory=memory, seconds=seconds)


class Step(enum.Enum):
    """What an examination does next."""

    START = enum.auto()
    """It starts the program."""
    READ = enum.auto()
    """It reads what the program prints, until that has ended."""
    FINISH = enum.auto()
    """It says what it found, or gets ready to start the program again."""


class ProgramFaultError(Exception):
    """The program refused a file, or couldn't be run to its end: the text of a row's fault."""


@contextlib.contextmanager
def started(
    form: Form, request: Request, file: IO[bytes], errors: IO[bytes]
) -> Iterator[Child]:
    """The program in this form on an open file, within the request's memory. It is killed where the
    block is left before it ends. Raises ProgramFaultError where it can't be started.
    """
    assert request.program is not None
    try:
        child = Child([request.program, *form.words], file, errors)
    except OSError as fault:
        raise ProgramFaultError(f"the program can't be started: {fault.strerror}") from fault
    with contextlib.closing(child):
        if request.memory is not None:
            child.limit(request.memory)
        yield child


class Output:
    """What a run of the program prints, read until some moment."""

    def __init__(self, child: Child, seconds: int) -> None:
        self.child, self.seconds = child, seconds
        self.deadline = time.monotonic() + seconds
        self.poll = select.poll()
        self.poll.register(child.out, select.POLLIN)

    def fault(self) -> ProgramFaultError:
        """That the time is over."""
        return ProgramFaultError(f"not done in {self.seconds} seconds")

    def read(self, size: int, /) -> bytes:
        """Some bytes of what is printed, none at its end. Raises ProgramFaultError."""
        left = self.deadline - time.monotonic()
        if left <= 0 or not self.poll.poll(1_000 * left):
            raise self.fault()
        return os.read(self.child.out, size)

    def wait(self) -> int:
        """The status with which the program ends. Raises ProgramFaultError."""
        try:
            return self.child.wait(self.deadline)
        except StillRunsError:
            raise self.fault() from None


def fault_of(status: int, errors: bytes, request: Request) -> str:
    """What is said of a run that ended badly: by the first line of its standard error."""
    if status < 0:
        return f"the program was ended by {signal.Signals(-status).name}"
    lines = errors.decode("utf-8", "replace").splitlines()
    if not lines:
        return f"the program ended with status {status}"
    if lines[0] == NO_MEMORY and request.memory:
        return f"{NO_MEMORY}: it may have {request.memory // MIB} MiB"
    return lines[0]


def read_run(
    output: Output, form: Form, keep: IO[bytes] | None
) -> tuple[RowColumns | OutputError, int]:
    """What a run's output says, or how it is wrong, and the run's status. Raises OSError where it
    can't be kept, ProgramFaultError where it takes too long.
    """
    blocks = blocks_of(output)
    try:
        found: RowColumns | OutputError = form.read(written(blocks, keep) if keep else blocks)
    except OutputError as fault:
        found = fault
        read_nothing(blocks)  # so that it ends with its own status
    return found, output.wait()


def written(blocks: Blocks, out: IO[bytes]) -> Blocks:
    """The same blocks, each written first."""
    for block in blocks:
        out.write(block)
        yield block


def run_form(
    form: Form, file: IO[bytes], keep: IO[bytes] | None, request: Request
) -> Generator[Step, None, tuple[RowColumns, float]]:
    """Runs the program on an open file, step by step: what its output says, and the seconds that it
    ran. Raises ProgramFaultError, OutputError, and OSError where its output can't be kept.
    """
    file.seek(0)
    with open(os.memfd_create("errors"), "w+b", 0) as errors:
        yield Step.START
        begin = time.perf_counter()
        with started(form, request, file, errors) as child:
            output = Output(child, request.seconds or LEAST_SECONDS)
            yield Step.READ
            found, status = read_run(output, form, keep)
        seconds = time.perf_counter() - begin
        yield Step.FINISH
        if status not in GOOD:
            errors.seek(0)
            raise ProgramFaultError(fault_of(status, errors.read(OUTPUT_BLOCK), request))
    if isinstance(found, OutputError):
        raise found
    return found, seconds


@contextlib.contextmanager
def keeper(path: str, form: Form, request: Request) -> Iterator[IO[bytes] | None]:
    """Where the output of a run on this path's file is kept, if it is: a file that gets its name
    when the run has ended well. Raises OSError.
    """
    if request.into is None:
        yield None
        return
    import pathlib

    from callauction.market.files import replacing

    name = f"{pathlib.PurePath(path).stem}.{form.suffix}"
    with replacing(pathlib.Path(request.into, name)) as out:
        yield out


def opened(path: str) -> IO[bytes]:
    """A regular file for reading; a pipe or a device isn't waited for. Raises OSError, and
    ProgramFaultError for what is no regular file.
    """
    file = os.fdopen(os.open(path, os.O_RDONLY | os.O_NONBLOCK | os.O_CLOEXEC), "rb", 0)
    if stat.S_ISREG(os.fstat(file.fileno()).st_mode):
        return file
    file.close()
    raise ProgramFaultError("not a regular file")


def stamp(file: IO[bytes]) -> tuple[int, int, int]:
    """The size in bytes of an open file, and when its content and its node were last changed, in
    nanoseconds.
    """
    found = os.fstat(file.fileno())
    return found.st_size, found.st_mtime_ns, found.st_ctime_ns


def digest_of(file: IO[bytes]) -> str:
    """The SHA-256 of an open file, from its beginning on, in hexadecimal digits. Raises OSError."""
    file.seek(0)
    with open(file.fileno(), "rb", closefd=False) as reader:
        return hashlib.file_digest(reader, "sha256").hexdigest()


FileResult = tuple[str, RowColumns, int | None, str]
"""A file's path, columns of its row, its bytes, and its SHA-256 where that is asked for. After a
fault there are no bytes and no SHA-256.
"""
Examination = Generator[Step, None, FileResult]
"""The steps of the examination of one file, each of which says what the next one does."""


def examine_file(path: str, request: Request) -> Examination:
    """What the program says of a file. Raises OSError, OutputError, ProgramFaultError."""
    with opened(path) as file:
        before = stamp(file)
        size = before[0]
        digest = digest_of(file) if request.is_logged else ""
        columns: RowColumns = {}
        seconds = 0.0
        for name in request.forms:
            form = FORMS[name]
            limited = request.for_size(size, form)
            with keeper(path, form, request) as keep:
                found, ran = yield from run_form(form, file, keep, limited)
            if any(columns.get(column, value) != value for column, value in found.items()):
                raise OutputError("the program's forms don't agree")
            columns |= found
            seconds += ran
        if stamp(file) != before:
            raise ProgramFaultError("the file was changed meanwhile")
    return path, columns | {"seconds": seconds}, size, digest


def examined(path: str, request: Request) -> Examination:
    """What the program says of a file; of a bad one its fault."""
    try:
        return (yield from examine_file(path, request))
    except (ProgramFaultError, OutputError) as fault:
        text = str(fault)
    except OSError as fault:
        text = fault.strerror or str(fault)
    return path, {"fault": text}, None, ""


class Examinations:
    """Examinations of which one at a time runs the program. While it does, the one before is
    finished and the next is made ready, so that none of these costs the files after it time.
    """

    def __init__(self, paths: Iterable[str], request: Request) -> None:
        self.paths = iter(paths)
        self.request = request
        self.ready: collections.deque[Examination] = collections.deque()
        self.found: list[FileResult] = []

    def step(self, examination: Examination) -> Step | None:
        """Goes on with an examination: what it does next, or None, as it is over."""
        try:
            step = next(examination)
        except StopIteration as end:
            self.found.append(end.value)
            return None
        if step == Step.START:
            self.ready.append(examination)
        return step

    def prepare(self) -> bool:
        """Makes one more file ready, or finds why it can't be: whether there was one."""
        path = next(self.paths, None)
        if path is not None:
            self.step(examined(path, self.request))
        return path is not None

    def started(self) -> Examination | None:
        """Starts the program for the next examination that is ready, if there is one, and if it
        can be started.
        """
        if not self.ready:
            return None
        first = self.ready.popleft()
        return first if self.step(first) == Step.READ else None

    def all(self) -> Iterator[FileResult]:
        """What was found of each file, as they are done. Of the paths that it has taken two at most
        aren't answered, so that whoever gives one for each answer, after a few in advance, is never
        waited for in vain.
        """
        ended: Examination | None = None
        is_more = True
        while is_more or self.ready or self.found or ended:
            runs = self.started()
            if ended:
                self.step(ended)
            yield from self.taken()
            if not self.ready:
                is_more = self.prepare()
            ended = runs if runs and self.step(runs) == Step.FINISH else None

    def taken(self) -> list[FileResult]:
        """What was found since this was asked."""
        found, self.found = self.found, []
        return found


def examine_each(paths: Iterable[str], request: Request) -> Iterator[FileResult]:
    """What the program, which the request names, says of each of these files, as they are done: a
    bad one gives its fault.
    """
    return Examinations(paths, request).all()

"""Each request for memory refused in turn.

Runs the program on each file of examples/, on some of them in other forms and audited, on some with
--floor or --live, and on a few words and files that are bad, and each test of src/tests/refused.rt
of the crates that `--tests FILE` names (callboard and acceptance, where none is named), with the
first, the second and each later request for memory refused, one a run, until a run meets no
refusal. A refusal ends the program with status 3, `out of memory` (on a board also `floor not
closed`) and nothing printed but answers of --live, and a test with the fault that its call
documents; or it is made up for, and then the answer is the right one, as it is where no request is
refused. No run keeps a block. Prints a table: how many requests a run makes, and how many of them
can be refused without ending it. Needs cc, and the tests as `rt test callboard` and
`rt test acceptance` build them.
"""
import os
import pathlib
import re
import subprocess
from collections.abc import Callable, Iterator

import pytest

from checks import built
from checks.model import floor
from checks.model.answers import DEFAULTS
from checks.model.files import order_file

HERE = pathlib.Path(__file__).resolve().parent
EXAMPLES = built.TOP / "examples"
MOST_RUNS = 100_000
MOST_SECONDS = 60  # of one run
MOST_FAULTS = 20  # that are shown of one sweep
NO_MEMORY = 3, "", "out of memory\n"
NOT_CLOSED = 3, "", "floor not closed\n"
DOCUMENTED = re.compile(
    r"Error: (AllocError|NoMemory|NotClosed|File\(NoMemory\)|Open\(NoMemory\))\n"
)
HEAD = "| run | requests | made up for |"
BAD_INPUT = b"1,ask\n1,enter\n"

Answer = tuple[int, str, str]
"""A status, what is printed, and what is written on standard error."""
Test = Callable[[Answer], bool]
Row = tuple[str, list[str], bytes, Test, Test]
"""A name, the words after the program's name, its input, what the right answer is like, and what
one is like that was refused memory.
"""
BadRow = tuple[list[str], int, str]
"""The words after the program's name, the status, and a part of what is written."""


def run(heap: str, refused: int, words: list[str], data: bytes) -> tuple[Answer, list[int]]:
    """The answer of a run with this request refused (0: none), and its tally.

    The tally is how many requests there were, how many blocks were taken, and how many were given
    back.
    """
    reading, writing = os.pipe()
    env = os.environ | {"LD_PRELOAD": heap, "REFUSED": str(refused), "TALLY": str(writing)}
    child = subprocess.run(
        words, input=data, capture_output=True, env=env, pass_fds=[writing], timeout=MOST_SECONDS
    )
    os.close(writing)
    with open(reading, encoding="ascii") as tally:
        numbers = [int(number) for number in tally.read().split()]
    answer = (
        child.returncode,
        child.stdout.decode(errors="replace"),
        child.stderr.decode(errors="replace"),
    )
    return answer, numbers or [0, 0, 1]


def is_refusal_of_program(answer: Answer) -> bool:
    """Whether the program ended because memory was refused."""
    return answer == NO_MEMORY


def is_refusal_of_floor(answer: Answer) -> bool:
    """Whether memory was refused to the program, or its board couldn't be closed."""
    return answer in (NO_MEMORY, NOT_CLOSED)


def is_refusal_of_session(answer: Answer) -> bool:
    """Whether memory was refused to a session; what was answered before stays."""
    return answer[::2] == NO_MEMORY[::2]


def is_refusal_of_test(answer: Answer) -> bool:
    """Whether a test ended with a fault that its call documents."""
    return answer[0] == 101 and DOCUMENTED.match(answer[2]) is not None


Sweep = Callable[[str, list[str], bytes, Test, Test], None]
"""Refuses each request in turn. Fails where a run is answered otherwise than documented."""


@pytest.fixture(scope="session")
def heap(tmp_path_factory: pytest.TempPathFactory) -> str:
    """The heap that refuses requests, as a shared library to load before the program."""
    made = str(tmp_path_factory.mktemp("heap") / "refusing_memory.so")
    words = ["cc", "-O1", "-shared", "-fPIC", "-o", made, str(HERE / "refusing_memory.c")]
    subprocess.run(words, check=True)
    return made


@pytest.fixture
def sweep(heap: str, tables: dict[str, list[str]]) -> Sweep:
    """What runs a case with each request of memory refused in turn."""
    def sweep_of(
        name: str, words: list[str], data: bytes, is_right: Test, is_refusal: Test
    ) -> None:
        faults: list[str] = []
        made_up = 0
        for refused in range(MOST_RUNS):
            answer, (requests, taken, given) = run(heap, refused, words, data)
            is_met, right = 1 <= refused <= requests, is_right(answer)
            made_up += is_met and right
            is_answered = right or is_met and is_refusal(answer)
            if taken != given or requests == 0 or not is_answered:
                counts = f"requests {requests}, taken {taken}, given {given}"
                faults.append(f"request {refused} refused: answer {answer}, {counts}"[:400])
            if refused > requests or len(faults) > MOST_FAULTS:
                break
        assert not faults, "\n".join(faults)
        assert refused > requests, "no run without a refusal was reached"
        tables.setdefault(HEAD, []).append(f"| {name} | {refused - 1} | {made_up} |")

    return sweep_of


def words_beside(orders: pathlib.Path) -> list[str]:
    """The options of an example. Raises OSError."""
    args = orders.with_suffix(".args")
    return args.read_text().split() if args.exists() else []


def example_table() -> Iterator[Row]:
    """Each file of examples/."""
    for orders in sorted(EXAMPLES.glob("*.csv")):
        right = 0, orders.with_suffix(".txt").read_text(), ""
        data = orders.read_bytes()
        yield orders.name, words_beside(orders), data, right.__eq__, is_refusal_of_program


def form_table() -> Iterator[Row]:
    """Files and journals in other forms than lines, and audits."""
    for name in ("opening", "interruption"):
        orders = EXAMPLES / f"{name}.csv"
        journal = (EXAMPLES / f"forms/{name}.journal.csv").read_bytes()
        right = 0, (EXAMPLES / f"{name}.txt").read_text(), ""
        yield f"the journal of {name}.csv", [], journal, right.__eq__, is_refusal_of_program
        for form in ("journal", "trades", "book"):
            right = 0, (EXAMPLES / f"forms/{name}.{form}.csv").read_text(), ""
            words = [*words_beside(orders), "--print", form]
            data = orders.read_bytes()
            yield f"{name}.csv --print {form}", words, data, right.__eq__, is_refusal_of_program
    for status, name in ((4, "changed"), (0, "partial")):
        right = status, (EXAMPLES / f"audits/{name}.txt").read_text(), ""
        data = (EXAMPLES / f"audits/{name}.csv").read_bytes()
        yield f"{name}.csv --audit", ["--audit"], data, right.__eq__, is_refusal_of_program


def floor_table() -> Iterator[Row]:
    """A file whose members call at once: the tally, with the history too, and the journal."""
    data = (EXAMPLES / "opening.csv").read_bytes()
    given = order_file(data.decode(), DEFAULTS)
    texts: list[tuple[list[str], Callable[[str], bool]]] = [
        ([], lambda text: floor.may_be_tally(text, given, False)),
        (["--history"], lambda text: floor.may_be_tally(text, given, True)),
        (["--print", "journal"], lambda text: floor.may_be_journal(text, given)),
    ]
    for options, may_be in texts:

        def is_right(answer: Answer, may_be: Callable[[str], bool] = may_be) -> bool:
            return answer[0] == 0 and answer[2] == "" and may_be(answer[1])

        words = ["--floor", *options]
        yield " ".join(["opening.csv", *words]), words, data, is_right, is_refusal_of_floor


def live_table() -> Iterator[Row]:
    """Files whose records are answered as they come."""
    for name in ("opening", "day"):
        data = (EXAMPLES / f"{name}.csv").read_bytes()
        right = 0, (EXAMPLES / f"{name}.txt").read_text(), ""
        yield f"{name}.csv --live", ["--live"], data, right.__eq__, is_refusal_of_session


ROWS = [*example_table(), *form_table(), *floor_table(), *live_table()]
BAD_ROWS: dict[str, BadRow] = {
    "a bad record": ([], 1, "record 2: wrong number of fields\n"),
    "too many records": (["--calls", "1"], 1, "record 2: too many commands\n"),
    "a bad option": (["--nothing", "1"], 2, "'--nothing'"),
    "a misspelt option": (["--hig", "5"], 2, "a similar argument exists: '--high'"),
    "a bad number": (["--open", "0"], 2, "--open"),
    "an unknown form": (["--print", "all"], 2, "--print"),
    "an audit on a floor": (["--audit", "--floor"], 2, "--audit"),
    "an audit in a form": (["--audit", "--print", "lines"], 2, "--audit"),
    "an audit of no journal": (["--audit"], 1, "record 1: not a day record\n"),
    "a bad record before bad bounds": (
        ["--low", "5", "--high", "4"],
        1,
        "record 2: wrong number of fields\n",
    ),
    "the help": (["--help"], 0, "--reference"),
}


@pytest.mark.parametrize("row", ROWS, ids=[row[0] for row in ROWS])
def test_each_refused_memory_of_a_run_is_said(program: str, sweep: Sweep, row: Row) -> None:
    name, words, data, is_right, is_refusal = row
    sweep(name, [program, *words], data, is_right, is_refusal)


@pytest.mark.parametrize("name", BAD_ROWS)
def test_bad_words_and_files_are_said_or_the_refused_memory(
    program: str, sweep: Sweep, name: str
) -> None:
    """The answer is as on the plain heap, word for word."""
    options, status, text = BAD_ROWS[name]
    words = [program, *options]
    child = subprocess.run(words, input=BAD_INPUT, capture_output=True, timeout=MOST_SECONDS)
    plain = child.returncode, child.stdout.decode(), child.stderr.decode()
    assert plain[0] == status
    assert text in (plain[1] if status == 0 else plain[2])
    assert "" == (plain[2] if status == 0 else plain[1])
    sweep(name, words, BAD_INPUT, plain.__eq__, is_refusal_of_program)


def test_bad_bounds_are_said_without_their_hint_or_the_refused_memory(
    program: str, sweep: Sweep
) -> None:
    words = [program, "--low", "5", "--high", "4"]
    line = "bad bounds\n"
    right = (2, "", line + "low 5 is above high 4\n"), (2, "", line)
    sweep("bad bounds", words, b"1,ask\n", right.__contains__, is_refusal_of_program)


def pytest_generate_tests(metafunc: pytest.Metafunc) -> None:
    """Lists the tests of calls in the files of built tests."""
    if "call" not in metafunc.fixturenames:
        return
    crates = built.TOP / "crates"
    usual = [crates / name / f"out/{name}_tests" for name in ("callboard", "acceptance")]
    calls: list[tuple[str, str]] = []
    for file in metafunc.config.option.tests or map(str, usual):
        names = []
        if os.access(file, os.X_OK):
            listed = subprocess.run([file, "--list"], capture_output=True, text=True, check=True)
            names = re.findall(r"^(tests::refused::[\w:]+): test$", listed.stdout, re.MULTILINE)
        calls += [(file, name) for name in names or [""]]
    ids = [name or f"tests of {pathlib.Path(file).name}" for file, name in calls]
    metafunc.parametrize("call", calls, ids=ids)


def test_each_refused_memory_of_a_call_leaves_all_as_it_was(
    sweep: Sweep, call: tuple[str, str]
) -> None:
    file, name = call
    assert name, f"{file} has no test of refused.rt: build it by `rt test`"
    sweep(name, [file, name], b"", lambda answer: answer[0] == 0, is_refusal_of_test)

"""The parts of the test command: what each looks at, its command, and what it needs."""
import dataclasses
import re
import sys
from collections.abc import Iterator

import built

sys.path.insert(0, str(built.TOP / "build"))

import debian  # noqa: E402
import needs  # noqa: E402
from build_tasks import CLOCK, LIBRARIES, LIBRARY, PROGRAM, TESTS  # noqa: E402
from package import PACKAGE, PREFIX, Package  # noqa: E402
from schedule import TaskError  # noqa: E402

PYTEST = "PYTEST"
"""The word of a command that means pytest under a Python that has it."""
PRODUCTS = frozenset({PROGRAM, TESTS, CLOCK, LIBRARY, LIBRARIES, PACKAGE, PREFIX})
"""The words of a command that mean what is built or installed."""
GATE, BODIES = "ci", "bodies"
"""The part that proves all from nothing, and builds the program and its tests; and the one that
tries the wrong bodies over what it proved, which the gate then leaves to it.
"""


@dataclasses.dataclass(frozen=True)
class Part:
    """A part of the test command: its name, what it looks at, its command, the tools beside python3
    that it needs, the modules of Python, whether it runs alone, as it measures times or fills
    memory, whether it proves, and whether it prints a table, which is shown where it runs alone. In
    a short run it has another command, if it isn't `None`, and none where that is empty.
    """

    name: str
    what: str
    command: str
    tools: str = ""
    modules: str = ""
    is_alone: bool = False
    is_proof: bool = False
    is_table: bool = False
    short: str | None = None

    def needs(self) -> frozenset[str]:
        """What has to be built or installed before it can begin."""
        return PRODUCTS.intersection(re.split("[ =]", self.command))


FEW = " -p checks.first_case_of_each_test"
"""What has pytest run one case of each test."""
REFUSED_RUNS = "test_each_refused_memory_of_a_run_is_said"
KINDS = " -p first_test_of_each_kind"
"""What has pytest run one test of each kind."""
TYPED = "env MYPY_CACHE_DIR=../out/mypy/"
"""Has mypy, run in python/, keep for the next short run what it found, in a folder of this name."""
COMPARE = f"checks/compare --fresh --program {PROGRAM}"
FROM_C = f"library/test --library {LIBRARY}"
FROM_PYTHON = f"python/test --library {LIBRARY} --program {PROGRAM}"
MARKET, VENUE = f"checks/market {PROGRAM}", f"checks/venue {PROGRAM}"
MEASURING = ("tests_venue/test_floods.py", "tests_venue/test_hangs.py")
"""The tests of a venue that measure times."""
FLOODS = " ".join([VENUE, *MEASURING])
OF_FIX = "tests_venue/test_fix_*.py"
FIX = f"{VENUE} {OF_FIX}"
REST_OF_VENUE = " ".join([VENUE, *(f"--ignore-glob={it}" for it in (*MEASURING, OF_FIX))])
LAYOUT = f"{PYTEST} checks/parts/test_layout.py"
RUNNER = f"{PYTEST} checks/parts/test_runner.py checks/parts/test_costs.py"
REPORT = f"checks/report {LIBRARY} {PROGRAM}"
BENCH = f"{PYTEST} checks/parts/test_bench.py"
BENCH += f" --program {PROGRAM} --clock {CLOCK} --library {LIBRARY}"
RELEASE = f"{PYTEST} checks/parts/test_release.py --program {PROGRAM} --library {LIBRARY}"


def cases(name: str) -> str:
    """The command of a part whose cases pytest runs."""
    return f"{PYTEST} checks/parts/test_{name}.py --program {PROGRAM}"


def on_cases(name: str, what: str, tools: str = "", is_alone: bool = False) -> Part:
    """A part whose cases pytest runs, in a short run one of each test."""
    command = cases(name)
    return Part(name, what, command, tools, "pytest", is_alone, short=command + FEW)


PARTS = [
    Part("layout", "names, links, sizes and columns of texts", LAYOUT, "git rt", "pytest"),
    Part("edits", "wrong bodies fit their files and are listed", "checks/try-wrong-bodies --fit"),
    Part(
        "promises",
        "where each promise of README is kept",
        "checks/promises",
        is_table=True,
    ),
    Part("runner", "this command, on planted parts", RUNNER, "git setsid", "pytest", short=""),
    Part("header", "the library's header and its crate", "library/test --header", "gcc"),
    Part(
        GATE,
        "proofs from nothing, tests, runs",
        "checks/gate.py",
        "rt setpriv",
        is_proof=True,
        short="",
    ),
    Part(
        BODIES,
        "wrong bodies over what ci proves",
        f"nice checks/try-wrong-bodies --over {LIBRARIES}",
        "rt",
        is_proof=True,
        short="",
    ),
    on_cases("examples", "examples/ and the copies in the tests"),
    Part(
        "compare",
        "random files by the rules",
        f"{COMPARE} --short 480 --long 20",
        short=f"{COMPARE} --short 100 --long 2",
    ),
    on_cases("hostile", "bad files, failing ends, full boards", "bash", is_alone=True),
    on_cases("live", "answers as records come", "bash"),
    on_cases("views", "what a session shows"),
    on_cases("journal_file", "sessions killed, and gone on", "setpriv strace"),
    on_cases("manual", "options, versions, installing", "bash install"),
    Part(
        "refusals",
        "refused memory",
        f"{cases('refusals')} --tests {TESTS}",
        "cc",
        "pytest",
        short=cases("refusals").replace(".py", f".py::{REFUSED_RUNS}") + FEW,
    ),
    Part(
        "library",
        "the built library from C",
        f"{FROM_C} --short 980 --long 20 --opens 100000",
        "gcc g++ clang valgrind pkg-config ar",
        short=f"{FROM_C} --short 50 --long 1 --opens 1000 --one-of-each",
    ),
    Part(
        "python",
        "the package for Python: types, tests",
        FROM_PYTHON,
        "cc",
        needs.MODULES["python"],
        short=f"{TYPED}python DAMAGED_DAYS=12 {FROM_PYTHON} --one-of-each",
    ),
    Part(
        "report",
        "reports of days, as a browser has them",
        REPORT,
        "cc chromium",
        needs.MODULES["report"],
        short=f"{REPORT} opening extracts/german",
    ),
    Part(
        "market",
        "a market by processes and by workers of Dask",
        MARKET,
        needs.TOOLS["market"],
        needs.MODULES["market"],
        short=f"{TYPED}market {MARKET}{KINDS}",
    ),
    Part(
        "venue",
        "members over the network, kills, pages",
        REST_OF_VENUE,
        needs.TOOLS["venue"],
        needs.MODULES["venue"],
        short=f"{TYPED}venue VENUE_KILLS=20 VENUE_ROUND_KILLS=3 {REST_OF_VENUE}{KINDS}",
    ),
    Part(
        "fix",
        "members of a venue by FIX",
        FIX,
        needs.TOOLS["fix"],
        needs.MODULES["fix"],
        short=f"env VENUE_FIX_KILLS=6 {FIX}{KINDS}",
    ),
    Part(
        "floods",
        "a venue under floods, with programs that hang",
        FLOODS,
        needs.TOOLS["floods"],
        needs.MODULES["floods"],
        is_alone=True,
        short=FLOODS + KINDS,
    ),
    Part(
        "bench",
        "each measure once, in its smallest form",
        BENCH,
        "cc g++ parallel time xargs",
        needs.MODULES["bench"],
        short=BENCH + FEW,
    ),
    Part(
        "release",
        "packages, wheel and tarball, installed and removed",
        RELEASE,
        "cc cmake dh dh_python3 dpkg-buildpackage git lintian mmdebstrap pkg-config readelf",
        needs.MODULES["release"],
        short=RELEASE + FEW,
    ),
]
CRATES = Part(
    "crates",
    "the crates that changed, with those above",
    "checks/changed_crates.py",
    "git rt",
    is_proof=True,
)
"""In a short run in place of the gate."""
ON_PACKAGE = f"env PYTHONSAFEPATH=1 CALLAUCTION_PACKAGE={PACKAGE}"
INSTALLED = {
    "refusals": f"{cases('refusals')} -k not(test_each_refused_memory_of_a_call)",
    "python": f"python/test --package {PACKAGE} --program {PROGRAM}",
    "report": f"checks/report --package {PACKAGE} {PROGRAM}",
    "market": f"{ON_PACKAGE} {MARKET}",
    "venue": f"{ON_PACKAGE} {REST_OF_VENUE}",
    "fix": f"{ON_PACKAGE} {FIX}",
    "floods": f"{ON_PACKAGE} {FLOODS}",
}
"""The commands on an installed package that are others."""
NOT_INSTALLED = {"layout", GATE, BODIES, "bench", "release"}
"""The parts that need the toolchain, or that make packages."""
FILES = Part("files", "each file of the package", f"checks/package.py {PREFIX}")
"""On an installed package alone."""


def missing_tools(parts: list[Part]) -> list[str]:
    """What to say of each tool that these parts need and that isn't there."""
    return needs.lacking_tools(sorted({tool for part in parts for tool in part.tools.split()}))


def missing_modules(parts: list[Part]) -> list[str]:
    """What to say of each module of Python that these parts need and that isn't there."""
    wanted = {module for part in parts for module in part.modules.split()}
    return debian.missing(tuple(sorted(wanted))) if wanted else []


def short(parts: list[Part], since: str) -> list[Part]:
    """These parts in a short run, of which one proves the crates that changed since a commit."""
    crates = dataclasses.replace(CRATES, command=f"{CRATES.command} {since}")
    found = [crates if part.name == GATE else part for part in parts]
    return [
        part if part.short is None else dataclasses.replace(part, command=part.short)
        for part in found
        if part.short != ""
    ]


def installed(parts: list[Part], package: Package, are_named: bool) -> Iterator[Part]:
    """These parts on an installed package. Leaves out those that need what no such package has, and
    says so, unless they are named.
    """
    for part in parts:
        found = dataclasses.replace(part, command=INSTALLED.get(part.name, part.command))
        foreign = "" if are_named else package.foreign(found.needs())
        if foreign:
            kind = package.kind().value
            print(f"check: {part.name}: not run: {kind} has no {foreign}", flush=True)
        else:
            yield found


def chosen(names: list[str], is_installed: bool = False) -> list[Part]:
    """The parts with these names, all where there is none, in the order of the table; whether of
    those on an installed package. Raises TaskError for another name.
    """
    on_package = [FILES, *(it for it in PARTS if it.name not in NOT_INSTALLED)]
    parts = on_package if is_installed else PARTS
    for name in names:
        if name not in [part.name for part in parts]:
            where = " on an installed package" if is_installed else ""
            raise TaskError(f"there is no part {name!r}{where}; ./check --list has them")
    return [part for part in parts if not names or part.name in names]


class MissingToolsError(Exception):
    """The tools and the modules of Python that parts need and that aren't there, a line each."""


def look_for_tools(parts: list[Part]) -> None:
    """Raises MissingToolsError where a part needs what isn't there."""
    if lacking := missing_tools(parts) + missing_modules(parts):
        raise MissingToolsError("\n".join(lacking))

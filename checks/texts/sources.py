"""Rules for the texts of crates and of Python: each gives its faults as `FILE:LINE: ..` or
`FILE: ..`.

- A line of crates/*/src, crates/*/specs or crates/*/proofs, of C, C++, JavaScript or a shell has at
  most 120 characters, one of Python at most 100.
- No name of a file is shared by specs or proofs of two crates, but for Lib, Answers, Invariants and
  Proof, and for the folders of proofs that are named as a module or a function.
- No file is named `..Lemmas.antt`: we say Laws.
- The first line of a file in a folder of proofs that is named as a function says what it belongs
  to, and that `rt` looks there.
- No two lemmas have names that differ by hyphens and underscores alone.
- No type, trait, record or definition of specs/ has its name in two crates, nor one of proofs/ that
  begins with a capital letter, but for a type and the record that it is in contracts (MODELS).
- No two modules of a crate have types or public functions of one name, nor public definitions and
  lemmas. A function may be named as the definition that it meets, and methods as those of others.
- No two modules of a package of callauction have constants, types or public functions of one name,
  and no two packages of it types of one name.
- No definition or law of specs or proofs stands in two crates under any names, where it is longer
  than SHORT and isn't of the proof of one function.
- A limit of the market or of memory (LIMITS) isn't written as a number, where it isn't the value of
  a constant: in sources, definitions and proofs, but for tests, examples, comments and texts.
- No name says buy or sell where docs/GLOSSARY.md says bid and ask.
"""
import ast
import collections
import pathlib
import re
from collections.abc import Iterator

from checks.texts.tree import Tree

MOST_COLUMNS, MOST_COLUMNS_OF_PYTHON = 120, 100
LIMITS = {
    1_000_000: "MAX_TICK",
    65_536: "MAX_TICKS or MAX_OPEN_ORDERS",
    1_048_576: "MAX_CALLS",
    1_000_000_000: "MAX_QUANTITY",
    65_536_000_000_000: "MAX_TOTAL",
    67_108_864: "the most bytes of a file",
    67_108_865: "the most bytes of a file, and one",
    268_435_456: "the most bytes of a journal",
}
SHARED = {"Lib", "Answers", "Invariants", "Proof"}
SHORT = 80
"""As many characters of a definition or law may stand in two crates, without its name."""
MODELS = {"Leaders"}
TYPE = re.compile(r"(?:pub(?:\([a-z]+\))? )?(?:struct|enum|trait|union) (?P<name>\w+)")
DEFINED = r"(?:(?:pub|abbrev|unfoldable|opaque|record|data) +)+(?P<name>[{}]\w*)(?= *[:({{])"
NAMES_IN = {
    ".rt": TYPE,
    "specs": re.compile(DEFINED.format("A-Za-z_")),
    "proofs": re.compile(DEFINED.format("A-Z")),
}
NUMBER = re.compile(r"(?<![\w.\"])[0-9][0-9_]*(?!\w)")
CONSTANT = re.compile(r"(pub(\([a-z]+\))? )?(const|static) (?P<name>[A-Z][A-Z0-9_]*) *:")
STATED = re.compile(r"ensures (\w+ )?\{ MAX_\w+ ≡ [0-9_]+ \}")
TEXT = re.compile(r'"(?:[^"\\]|\\.)*"')
OTHER_SIDES = re.compile(r"\bSide(?:::|\.)(?:Buy|Sell|BUY|SELL)\b|\bbest_(?:buy|sell)\b")
MODIFIERS = r"(?:(?:pub|abbrev|unfoldable|opaque) +)*"
LEMMA = re.compile(MODIFIERS + r"(?P<name>[^\s:(){},=]+)(?: *\{[^}]*\})* *: ")
HEAD = re.compile(r"-- .*`.+` \((?P<source>src/[\w/]+\.rt)\).* rt looks here\.")
BLOCK = re.compile(MODIFIERS + r"(?P<word>module|record|data)\b")
OTHER = re.compile(r"--|use |(?:[a-z]+ +)*(?:module|record|data)\b")
"""A line at the margin that ends the definition above it."""
FUNCTION = re.compile(r"pub(?:\([\w: ]+\))? (?:(?:const|extern \"C\") )*fn (?P<name>\w+)")
PUBLIC = re.compile(
    r"(?:  )?(?:(?:abbrev|unfoldable|opaque) +)*pub +"
    r"(?:(?:abbrev|unfoldable|opaque|record|data) +)*"
    r"(?!(?:mod|module|use)\b)(?P<name>[^\s:(){},=]+)"
)


def long_lines(tree: Tree) -> Iterator[str]:
    """Lines with more columns than their file may have."""
    most = dict.fromkeys([*tree.sources, *tree.specs, *tree.proofs, *tree.others], MOST_COLUMNS)
    most |= dict.fromkeys(tree.python, MOST_COLUMNS_OF_PYTHON)
    for file, columns in most.items():
        for place, line in enumerate(tree.lines(file), 1):
            if len(line) > columns:
                yield f"{tree.name(file)}:{place}: {len(line)} columns, {columns} at most"


def shared_names(tree: Tree) -> Iterator[str]:
    """Names of files of specs or proofs that two crates have."""
    files: dict[str, list[pathlib.Path]] = collections.defaultdict(list)
    for file in [*tree.specs, *tree.proofs]:
        if file.stem not in SHARED and not tree.is_of_function(file):
            files[file.stem].append(file)
    for name, those in sorted(files.items()):
        if len({tree.crate(file) for file in those}) > 1:
            yield f"{', '.join(map(tree.name, those))}: one name for files of several crates"


def walks_without_a_head(tree: Tree) -> Iterator[str]:
    """Proofs of functions whose first line does not say what they belong to."""
    for file in filter(tree.is_of_function, tree.proofs):
        head = HEAD.fullmatch(tree.lines(file)[0])
        if head is None:
            yield f"{tree.name(file)}:1: it doesn't say what it is of: '-- .. rt looks here.'"
        elif not (tree.top / "crates" / tree.crate(file) / head["source"]).is_file():
            yield f"{tree.name(file)}:1: there is no {head['source']}"


def lemma_files(tree: Tree) -> Iterator[str]:
    """Files that are named as lemmas."""
    for file in [*tree.specs, *tree.proofs]:
        if file.stem.endswith("Lemmas"):
            yield f"{tree.name(file)}: we say Laws, and not Lemmas"


def outer_lines(lines: list[str]) -> Iterator[tuple[int, str]]:
    """The places and the texts of the lines at the margin of a file, and in its modules."""
    block = ""
    for place, line in enumerate(lines, 1):
        if line[:1].strip():
            begun = BLOCK.match(line)
            block = begun["word"] if begun else ""
        elif block != "module":
            continue
        yield place, line


def lemmas_of(lines: list[str]) -> Iterator[tuple[int, str]]:
    """The places and the names of the lemmas and definitions of a file."""
    for place, line in outer_lines(lines):
        found = LEMMA.match(line.strip())
        if found and not BLOCK.match(line.strip()):
            yield place, found["name"]


def near_names(tree: Tree) -> Iterator[str]:
    """Lemmas whose names differ by hyphens and underscores alone."""
    places: dict[str, dict[str, str]] = collections.defaultdict(dict)
    for file in [*tree.specs, *tree.proofs]:
        if file.stem in SHARED:
            continue
        for place, name in lemmas_of(tree.lines(file)):
            alike = name.replace("-", "_")
            places[alike].setdefault(name, f"{tree.name(file)}:{place}")
    for names in places.values():
        if len(names) > 1:
            listed = ", ".join(f"{name} ({place})" for name, place in sorted(names.items()))
            yield f"these names differ by a hyphen alone: {listed}"


def names_of_two_crates(tree: Tree) -> Iterator[str]:
    """Types and definitions whose name two crates have."""
    places: dict[str, dict[str, str]] = collections.defaultdict(dict)
    for file in [*tree.sources, *tree.specs, *tree.proofs]:
        kind = file.suffix if file.suffix == ".rt" else file.relative_to(tree.top).parts[2]
        if is_test(tree, file):
            continue
        for place, line in enumerate(tree.lines(file), 1):
            found = NAMES_IN[kind].match(line)
            if found:
                where = f"{tree.name(file)}:{place}"
                places[found["name"]].setdefault(tree.crate(file), where)
    for name, crates in sorted(places.items()):
        if len(crates) > 1 and name not in MODELS:
            yield f"{name} has two meanings: {', '.join(crates.values())}"


def public_names(tree: Tree, file: pathlib.Path) -> Iterator[tuple[int, str]]:
    """The places and the names of the types and the public functions of a file of code, and of the
    public definitions and lemmas of another.
    """
    is_code = file.suffix == ".rt"
    lines = tree.lines(file)
    for place, line in enumerate(lines, 1) if is_code else outer_lines(lines):
        found = TYPE.match(line) or FUNCTION.match(line) if is_code else PUBLIC.match(line)
        if found:
            yield place, found["name"]


def names_of_two_modules(tree: Tree) -> Iterator[str]:
    """Names that two modules of one crate have."""
    places: dict[tuple[str, bool, str], dict[pathlib.Path, str]] = collections.defaultdict(dict)
    for file in [*tree.sources, *tree.specs, *tree.proofs]:
        if is_test(tree, file) or file.stem in SHARED or tree.is_of_function(file):
            continue
        for place, name in public_names(tree, file):
            key = (tree.crate(file), file.suffix == ".rt", name)
            places[key].setdefault(file, f"{tree.name(file)}:{place}")
    for (_, _, name), files in sorted(places.items()):
        if len(files) > 1:
            yield f"{name} has two meanings in a crate: {', '.join(files.values())}"


def definitions_of(lines: list[str]) -> Iterator[tuple[int, str, str]]:
    """The place, the name and the text of each definition and law at a file's margin: its type and
    its clauses, without its name.
    """
    begins = [(place, line) for place, line in enumerate(lines, 1) if line[:1].strip()]
    heads = {place: found["name"] for place, line in begins if (found := LEMMA.match(line))}
    ends = sorted({place for place, line in begins if place in heads or OTHER.match(line)})
    for place, name in heads.items():
        after = next((it for it in ends if it > place), len(lines) + 1)
        text = " ".join(line for line in lines[place - 1 : after - 1] if not line.startswith("--"))
        own = re.compile(rf"(?<![\w.]){re.escape(name)}(?![\w-])")
        yield place, name, own.sub("_", " ".join(re.sub(MODIFIERS, "", text, 1).split()))


def definitions_twice(tree: Tree) -> Iterator[str]:
    """Definitions and laws that stand in two crates, whatever their names."""
    places: dict[str, dict[str, str]] = collections.defaultdict(dict)
    for file in [*tree.specs, *tree.proofs]:
        if is_test(tree, file) or tree.is_of_function(file):
            continue
        for place, name, text in definitions_of(tree.lines(file)):
            if len(text) > SHORT:
                places[text].setdefault(tree.crate(file), f"{name} ({tree.name(file)}:{place})")
    for crates in places.values():
        if len(crates) > 1:
            yield f"one text has two names: {', '.join(crates.values())}"


def declared(node: ast.stmt) -> set[str]:
    """The public constants, types and functions that a statement at the margin of a module of
    Python makes, but for a command's `main`.
    """
    if isinstance(node, ast.FunctionDef | ast.AsyncFunctionDef):
        return {node.name} - {"main"} if not node.name.startswith("_") else set()
    if isinstance(node, ast.ClassDef):
        names = {node.name}
    elif isinstance(node, ast.Assign | ast.AnnAssign):
        every = (it for it in ast.walk(node) if isinstance(it, ast.Name))
        names = {it.id for it in every if isinstance(it.ctx, ast.Store)}
    else:
        names = set()
    return {name for name in names if name[:1].isupper()}


def names_of_python(tree: Tree) -> Iterator[tuple[str, str, pathlib.Path, int]]:
    """The public constants, types and functions of callauction: the folder of each in it, its name,
    file and line.
    """
    package = tree.top / "python/callauction"
    for file in (it for it in tree.python if package in it.parents):
        folder = str(file.parent.relative_to(package)).removeprefix(".")
        for node in ast.parse(tree.text(file)).body:
            yield from ((folder, name, file, node.lineno) for name in declared(node))


def names_of_two_python_modules(tree: Tree) -> Iterator[str]:
    """Names of public constants, types and functions that two modules of a package of callauction
    have.
    """
    places: dict[tuple[str, str], dict[pathlib.Path, str]] = collections.defaultdict(dict)
    for folder, name, file, line in names_of_python(tree):
        places[folder, name].setdefault(file, f"{tree.name(file)}:{line}")
    for (_, name), files in sorted(places.items()):
        if len(files) > 1:
            yield f"{name} has two meanings in a package: {', '.join(files.values())}"


def names_of_two_python_packages(tree: Tree) -> Iterator[str]:
    """Names of types, those of aliases among them, that two packages of callauction have."""
    places: dict[str, dict[str, str]] = collections.defaultdict(dict)
    for folder, name, file, line in names_of_python(tree):
        if name[0].isupper() and not name.isupper():
            places[name].setdefault(folder, f"{tree.name(file)}:{line}")
    for name, folders in sorted(places.items()):
        if len(folders) > 1:
            yield f"{name} has two meanings: {', '.join(folders.values())}"


def imported_tests(tree: Tree) -> Iterator[str]:
    """Modules of tests that another module of Python imports, as if they were helpers."""
    for file in tree.python:
        for node in ast.walk(ast.parse(tree.text(file))):
            names = [it.name for it in node.names] if isinstance(node, ast.Import) else []
            names += [node.module or ""] if isinstance(node, ast.ImportFrom) else []
            for name in (it for it in names if it.rpartition(".")[2].startswith("test_")):
                yield f"{tree.name(file)}:{node.lineno}: {name} is a module of tests"


def other_sides(tree: Tree) -> Iterator[str]:
    """Names of sides that the glossary doesn't have."""
    for file in [*tree.sources, *tree.specs, *tree.proofs, *tree.python, *tree.others]:
        text = tree.text(file)
        for found in OTHER_SIDES.finditer(text):
            place = text.count("\n", 0, found.start()) + 1
            yield f"{tree.name(file)}:{place}: {found[0]}: a side is a bid or an ask"


def is_test(tree: Tree, file: pathlib.Path) -> bool:
    """Whether a file is a test, or an example that runs by computing."""
    parts = file.relative_to(tree.top).parts
    return (
        parts[1] == "acceptance"
        or "tests" in parts
        or file.name == "tests.rt"
        or "Examples" in file.stem
    )


def plain(line: str) -> str:
    """A line without its comment and its texts."""
    line = TEXT.sub('""', line)
    return re.split(r"//|(?:^|\s)--\s", line)[0]


def retyped_limits(tree: Tree) -> Iterator[str]:
    """Numbers of LIMITS, but in a clause that states one, and constants of them that are declared
    twice.
    """
    declared: dict[str, str] = {}
    for file in [*tree.sources, *tree.specs, *tree.proofs]:
        if is_test(tree, file):
            continue
        for place, line in enumerate(tree.lines(file), 1):
            line = plain(line.strip())
            numbers = [int(number.replace("_", "")) for number in NUMBER.findall(line)]
            found = [number for number in numbers if number in LIMITS]
            constant = CONSTANT.match(line)
            where = f"{tree.name(file)}:{place}"
            if found and not constant and not STATED.fullmatch(line):
                yield f"{where}: {found[0]} stands here and not by its name, {LIMITS[found[0]]}"
            if found and constant and declared.setdefault(constant["name"], where) != where:
                first = declared[constant["name"]]
                yield f"{where}: {constant['name']} is declared in {first} too"


RULES = [
    long_lines,
    shared_names,
    walks_without_a_head,
    lemma_files,
    near_names,
    names_of_two_crates,
    names_of_two_modules,
    definitions_twice,
    names_of_two_python_modules,
    names_of_two_python_packages,
    imported_tests,
    retyped_limits,
    other_sides,
]

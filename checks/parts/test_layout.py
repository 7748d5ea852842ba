"""The repository's texts as a reader meets them: no rule of checks/texts finds a fault, and each
rule of documents finds one that is planted, as that for the clauses of wrong bodies does. What a
check says of wrong bodies that it tries together is read.
"""
import pathlib
import re
import subprocess
import sys
from collections.abc import Callable, Iterator

import pytest

from checks import built
from checks.texts import documents, sources
from checks.texts.tree import Tree

sys.path[:0] = [str(built.TOP / "checks"), str(built.TOP / "build")]

import body_groups  # noqa: E402
import edits  # noqa: E402
import toolchain  # noqa: E402

Rule = Callable[[Tree], Iterator[str]]
OURS = Tree(built.TOP)
RULES = [*sources.RULES, *documents.RULES]
GLOSSARY = """# Glossary

| Term | Meaning | In code |
|---|---|---|
| side | bids buy, asks sell | `Side` |
| bid, ask | an order to buy, an order to sell | `Side::Bid`, `Side::Ask` |
"""
SOURCE = "pub enum Side {\n    Bid,\n    Ask,\n}\n"


@pytest.mark.parametrize("rule", RULES, ids=[rule.__name__ for rule in RULES])
def test_no_rule_finds_a_fault(rule: Rule) -> None:
    faults = [*rule(OURS)]
    assert not faults, "\n" + "\n".join(faults)


def of_rattle(folder: pathlib.Path) -> list[str]:
    """The paths of the files in Rattle, its definitions and proofs, without what is built."""
    files = [it for it in folder.rglob("*") if it.suffix in (".rt", ".antt")]
    return [str(it) for it in files if "out" not in it.relative_to(folder).parts]


def test_the_toolchain_would_write_each_file_so() -> None:
    words = [f"{toolchain.kit()}/bin/rattle", "fmt", "--check", *of_rattle(built.TOP / "crates")]
    ran = subprocess.run(words, capture_output=True, text=True)
    assert (ran.returncode, ran.stdout + ran.stderr) == (0, "")


def planted(folder: pathlib.Path, **texts: str) -> Tree:
    """A repository of one crate and a glossary, with other texts or more of them."""
    files = {"docs/GLOSSARY.md": GLOSSARY, "crates/terms/src/lib.rt": SOURCE} | texts
    for name, text in files.items():
        (folder / name).parent.mkdir(parents=True, exist_ok=True)
        (folder / name).write_text(text, encoding="utf-8")
    return Tree(folder)


def faults_of(rule: Rule, tree: Tree) -> list[str]:
    """What a rule finds in a repository."""
    return [*rule(tree)]


def test_a_good_repository_has_no_fault(tmp_path: pathlib.Path) -> None:
    tree = planted(tmp_path, **{"README.md": "A `Side` is `Side::Bid` in `docs/GLOSSARY.md`.\n"})
    for rule in RULES:
        assert faults_of(rule, tree) == []


def test_a_term_with_a_second_meaning_is_found(tmp_path: pathlib.Path) -> None:
    row = "| ask | the question for the price | `Side` |\n"
    tree = planted(tmp_path, **{"docs/GLOSSARY.md": GLOSSARY + row})
    assert faults_of(documents.second_meanings, tree) == [
        "docs/GLOSSARY.md:7: 'ask' has a meaning in line 6 too"
    ]


def test_a_variant_with_a_second_meaning_is_found(tmp_path: pathlib.Path) -> None:
    other = "pub enum Command {\n    Enter(Order),\n    Ask,\n}\n"
    tree = planted(tmp_path, **{"crates/terms/src/command.rt": other})
    assert faults_of(documents.second_meanings, tree) == [
        "docs/GLOSSARY.md:6: Ask is a variant of Command (crates/terms/src/command.rt:3) too"
    ]


def test_a_type_with_a_second_meaning_is_found(tmp_path: pathlib.Path) -> None:
    tree = planted(tmp_path, **{"crates/other/src/lib.rt": "pub struct Side;\n"})
    where = "crates/other/src/lib.rt:1, crates/terms/src/lib.rt:1"
    assert faults_of(documents.second_meanings, tree) == [
        f"docs/GLOSSARY.md:5: Side is declared twice: {where}",
        f"docs/GLOSSARY.md:6: Side is declared twice: {where}",
        f"docs/GLOSSARY.md:6: Side is declared twice: {where}",
    ]


@pytest.mark.parametrize("name", ["IsSound", "line_of"])
def test_a_definition_with_a_second_meaning_is_found(tmp_path: pathlib.Path, name: str) -> None:
    first = f"abbrev pub {name} : Line → Type 0\n"
    second = f"unfoldable pub {name} : Day → Type 0\n"
    files = {"crates/other/specs/Day.antt": second, "crates/terms/specs/Line.antt": first}
    assert faults_of(sources.names_of_two_crates, planted(tmp_path, **files)) == [
        f"{name} has two meanings: crates/other/specs/Day.antt:1, crates/terms/specs/Line.antt:1"
    ]


@pytest.mark.parametrize("folder, first, second", [
    ("specs", "Day.antt", "abbrev pub price : Day → ℕ\n"),
    ("specs", "Day.antt", "pub record price : Type 0 where\n"),
    ("proofs", "DayLaws.antt", "pub price : (day : Day) → day ≡ day\n"),
    ("proofs", "DayLaws.antt", "module _ (day : Day) where\n  pub price : day ≡ day\n"),
    ("src", "day.rt", "pub fn price(day: &Day) -> u32 {\n"),
    ("src", "day.rt", "pub(crate) const fn price<D: Day>(day: &D) -> u32 {\n"),
    ("src", "day.rt", "pub(in crate::a_day) fn price() {\n"),
    ("src", "day.rt", "struct price;\n"),
])
def test_a_name_with_a_second_meaning_in_its_crate_is_found(
    tmp_path: pathlib.Path, folder: str, first: str, second: str
) -> None:
    others = {"specs": ("Line.antt", "unfoldable pub price : Line → ℕ\n"),
              "proofs": ("LineLaws.antt", "pub price : (line : Line) → line ≡ line\n"),
              "src": ("line.rt", "pub fn price(line: &Line) -> u32 {\n")}
    name, text = others[folder]
    files = {f"crates/terms/{folder}/{first}": second, f"crates/terms/{folder}/{name}": text}
    (fault,) = faults_of(sources.names_of_two_modules, planted(tmp_path, **files))
    places = re.findall(rf"crates/terms/{folder}/(\w+\.\w+):[12]\b", fault)
    assert fault.startswith("price has two meanings in a crate: ") and places == [first, name]


@pytest.mark.parametrize("first, second", [
    ("LIMIT = 1\n", 'LIMIT = "No order is executed beyond its limit."\n'),
    ("LIMIT: int = 1\n", "MARKET, LIMIT = 0, 1\n"),
    ("LIMIT = 1\n", "TYPES = MARKET, LIMIT = (0, 1)\n"),
    ("class LIMIT:\n    pass\n", "LIMIT = list[int]\n"),
    ("def LIMIT() -> int:\n    return 1\n", "async def LIMIT() -> int:\n    return 1\n"),
])
def test_a_name_with_a_second_meaning_in_a_package_is_found(
    tmp_path: pathlib.Path, first: str, second: str
) -> None:
    folder = "python/callauction/verdict"
    tree = planted(tmp_path, **{f"{folder}/one.py": first, f"{folder}/other.py": "\n" + second})
    assert faults_of(sources.names_of_two_python_modules, tree) == [
        f"LIMIT has two meanings in a package: {folder}/one.py:1, {folder}/other.py:2"
    ]


def test_names_of_python_that_have_one_meaning_are_no_fault(tmp_path: pathlib.Path) -> None:
    """Of two packages, imported, of one module alone, within a function, or of no package."""
    tree = planted(tmp_path, **{
        "python/callauction/verdict/one.py": "LIMIT = 1\nLIMIT = 2\n_MOST = 3\n",
        "python/callauction/verdict/other.py": "from one import LIMIT\n_MOST = 4\n",
        "python/callauction/verdict/third.py": "def made() -> None:\n    LIMIT = 5\n",
        "python/callauction/verdict/__main__.py": "def main() -> int:\n    return _made()\n",
        "python/callauction/verdict/fourth.py": "def main() -> int:\n    return 1\n",
        "python/callauction/verdict/fifth.py": "class Other:\n    def made(self) -> int: ...\n",
        "python/callauction/other/one.py": "LIMIT = 6\n",
        "python/tests/test_one.py": "LIMIT = 7\n",
        "python/tests/test_other.py": "LIMIT = 8\n",
    })  # fmt: skip
    assert faults_of(sources.names_of_two_python_modules, tree) == []


@pytest.mark.parametrize("first, second", [
    ("class Book:\n    pass\n", "class Book:\n    pass\n"),
    ("class Book:\n    pass\n", "Book = dict[str, int]\n"),
    ('Book = TypeVar("Book")\n', "Book: TypeAlias = list[int]\n"),
])
@pytest.mark.parametrize("other", ["venue/", ""])
def test_a_type_with_a_second_meaning_in_python_is_found(
    tmp_path: pathlib.Path, first: str, second: str, other: str
) -> None:
    files = [f"python/callauction/{folder}book.py" for folder in ("verdict/", other)]
    tree = planted(tmp_path, **dict(zip(files, (first, "\n" + second))))
    places = sorted(zip(files, (1, 2)))
    assert faults_of(sources.names_of_two_python_packages, tree) == [
        f"Book has two meanings: {', '.join(f'{file}:{line}' for file, line in places)}"
    ]


def test_types_of_python_that_have_one_meaning_are_no_fault(tmp_path: pathlib.Path) -> None:
    """Imported, of one package alone, private, within a class, or of no package; a constant."""
    tree = planted(tmp_path, **{
        "python/callauction/verdict/one.py": "class Book:\n    class Row: ...\nMOST_ROWS = 1\n",
        "python/callauction/verdict/other.py": "_Row = list[int]\n",
        "python/callauction/venue/one.py": "from verdict.one import Book\nMOST_ROWS = 2\n",
        "python/callauction/venue/other.py": "class Row: ...\nclass _Row: ...\n",
        "python/tests/test_one.py": "class Book: ...\n",
    })  # fmt: skip
    assert faults_of(sources.names_of_two_python_packages, tree) == []


@pytest.mark.parametrize("text, faults", [
    ("from test_day import day_of\n", ["test_day is a module of tests"]),
    ("import tests.test_day as days\n", ["tests.test_day is a module of tests"]),
    ("from days import test_day\nimport testing\n", []),
])
def test_a_module_of_tests_that_another_imports_is_found(
    tmp_path: pathlib.Path, text: str, faults: list[str]
) -> None:
    tree = planted(tmp_path, **{"python/tests/test_other.py": text})
    wanted = [f"python/tests/test_other.py:1: {it}" for it in faults]
    assert faults_of(sources.imported_tests, tree) == wanted


@pytest.mark.parametrize("files", [
    {"specs/Day.antt": "abbrev pub price : Day → ℕ\n", "src/day.rt": "pub fn price() -> u32 {\n"},
    {"src/day.rt": "fn price() -> u32 {\n", "src/line.rt": "pub fn price() -> u32 {\n"},
    {"src/day.rt": "    pub fn price(&self) {\n", "src/line.rt": "    pub fn price(&self) {\n"},
    {"src/day.rt": "pub fn price() {\n", "src/tests/day.rt": "pub fn price() {\n"},
    {"proofs/ALaws.antt": "price : a ≡ a\n", "proofs/BLaws.antt": "pub price : b ≡ b\n"},
    {"specs/Day.antt": "pub record Day : Type 0 where\n  pub price : ℕ\n",
     "specs/Line.antt": "module _ where\n  pub record Line : Type 0 where\n    pub price : ℕ\n"},
    {"proofs/day/a/Answers.antt": "pub price : goal.price\n",
     "proofs/day/b/Answers.antt": "pub price : goal.price\n"},
])
def test_a_name_with_one_meaning_in_its_crate_is_no_fault(
    tmp_path: pathlib.Path, files: dict[str, str]
) -> None:
    texts = {f"crates/terms/{name}": text for name, text in files.items()}
    assert faults_of(sources.names_of_two_modules, planted(tmp_path, **texts)) == []


LONG = "".join(f"{{}} {number} = Some (twice number {number})\n" for number in range(4))


@pytest.mark.parametrize("other, faults", [
    ("-- the same\nabbrev pub double : ℕ → Option ℕ\n" + LONG.format(*["double"] * 4), 1),
    ("double : ℕ → Option ℕ\n" + LONG.format(*["double"] * 4) + "-- more\n", 1),
    ("double : ℕ → Option ℤ\n" + LONG.format(*["double"] * 4), 0),
    ("double : ℕ → Option ℕ\ndouble = double\n", 0),
])
@pytest.mark.parametrize("place", ["book/proofs/BLaws.antt", "terms/proofs/day/a/Answers.antt"])
def test_a_definition_that_stands_in_two_crates_is_found(
    tmp_path: pathlib.Path, place: str, other: str, faults: int
) -> None:
    """That of the proof of one function may be as another's."""
    first = "use a.{b}\nabbrev pub twofold : ℕ → Option ℕ\n" + LONG.format(*["twofold"] * 4)
    texts = {"crates/terms/specs/A.antt": first, f"crates/{place}": other}
    found = faults_of(sources.definitions_twice, planted(tmp_path, **texts))
    assert len(found) == faults * ("book" in place)
    if found:
        line = 2 if other.startswith("--") else 1
        of_first = "twofold (crates/terms/specs/A.antt:2)"
        assert found == [f"one text has two names: {of_first}, double (crates/{place}:{line})"]


@pytest.mark.parametrize("place", ["docs/GLOSSARY.md", "README.md", "docs/MODEL.md"])
def test_a_dead_name_is_found(tmp_path: pathlib.Path, place: str) -> None:
    rows = GLOSSARY if place == "docs/GLOSSARY.md" else ""
    tree = planted(tmp_path, **{place: rows + "| gone | a name of before | `shown_at` |\n"})
    (fault,) = faults_of(documents.dead_names, tree)
    assert fault.startswith(f"{place}:")
    assert fault.endswith("`shown_at` is nowhere in the repository")


def test_a_dead_path_is_found(tmp_path: pathlib.Path) -> None:
    tree = planted(tmp_path, **{"README.md": "As `docs/NOWHERE.md` and `crates/terms` say.\n"})
    assert faults_of(documents.dead_names, tree)[0] == "README.md:1: there is no docs/NOWHERE.md"


@pytest.mark.parametrize("link, faults", [
    ("docs/GLOSSARY.md", 0), ("docs/GLOSSARY.md#glossary", 0), ("#what-it-is", 0), ("crates", 0),
    ("https://example.org/a", 0), ("docs/GONE.md", 1), ("docs/GLOSSARY.md#gone", 1), ("#gone", 1),
])
def test_a_dead_link_is_found(tmp_path: pathlib.Path, link: str, faults: int) -> None:
    tree = planted(tmp_path, **{"README.md": f"# What `it` is\n\nAs [there]({link}) is said.\n"})
    assert len(faults_of(documents.dead_links, tree)) == faults


@pytest.mark.parametrize("text, faults", [
    ("As Roth et " + "al. show.", 1), ("arX" + "iv 1.2", 1), ("By Theo" + "rem 3.", 1),
    ("Run /ro" + "ot/a.", 1), ("../sh" + "ared/a", 1), ("In /wo" + "rk/a.", 1),
    ("In out/wo" + "rk/a, section 3.", 0),
])
def test_a_foreign_text_is_found(tmp_path: pathlib.Path, text: str, faults: int) -> None:
    tree = planted(tmp_path, **{"crates/terms/src/a.rt": f"// {text}\n"})
    assert len(faults_of(documents.foreign_texts, tree)) == faults


def test_documents_that_are_too_long_are_found(tmp_path: pathlib.Path) -> None:
    tree = planted(tmp_path, **{"README.md": "a" * documents.MOST_BYTES})
    assert len(faults_of(documents.sizes, tree)) == 1


def test_a_list_that_is_made_is_not_counted(tmp_path: pathlib.Path) -> None:
    made = "This page is made by `python3 -P -m callauction.fix.messages`, of the code.\n"
    texts = {"docs/made/FIX_MESSAGES.md": made + "a" * documents.MOST_BYTES, "README.md": "a\n"}
    tree = planted(tmp_path, **texts, **{"python/callauction/fix/messages.py": ""})
    assert faults_of(documents.sizes, tree) == faults_of(documents.made_lists, tree) == []
    assert tree.top / "docs/made/FIX_MESSAGES.md" in tree.lists


@pytest.mark.parametrize("text", ["A list.", "This page is made by `python3 -P -m callauction.no`"])
def test_a_list_that_no_command_makes_is_found(tmp_path: pathlib.Path, text: str) -> None:
    tree = planted(tmp_path, **{"docs/made/FIX_MESSAGES.md": f"{text}\n"})
    assert faults_of(documents.made_lists, tree) == [
        "docs/made/FIX_MESSAGES.md: it doesn't say which command makes it"
    ]


def test_another_kit_is_found(tmp_path: pathlib.Path) -> None:
    tree = planted(tmp_path, **{"docs/PROVED.md": "Proved by rattle-kit-1.\n"})
    assert len(faults_of(documents.kits, tree)) == 1


def test_this_kit_among_others_is_no_fault(tmp_path: pathlib.Path) -> None:
    names = f"rattle-kit-1 and {documents.kit().split()[0]}"
    tree = planted(tmp_path, **{"docs/PROVED.md": f"Proved by {names}.\n"})
    assert not faults_of(documents.kits, tree)


@pytest.mark.parametrize("name", ["Side::" + "Buy", "Side." + "SELL", "best_" + "buy"])
def test_a_name_of_another_side_is_found(tmp_path: pathlib.Path, name: str) -> None:
    tree = planted(tmp_path, **{"crates/terms/src/other.rt": f"    {name}\n"})
    assert len(faults_of(sources.other_sides, tree)) == 1


def test_a_long_line_is_found(tmp_path: pathlib.Path) -> None:
    long = "-- " + "x" * sources.MOST_COLUMNS + "\n"
    files = {"crates/terms/specs/Lib.antt": long, "crates/terms/proofs/A.antt": long}
    tree = planted(tmp_path, **files)
    assert len(faults_of(sources.long_lines, tree)) == 2


@pytest.mark.parametrize("name", ["python/callauction/a.py", "build/a"])
def test_a_long_line_of_python_is_found(tmp_path: pathlib.Path, name: str) -> None:
    most = "# " + "ä" * (sources.MOST_COLUMNS_OF_PYTHON - 2)
    text = f"#!/usr/bin/env python3\n{most}\n{most}ä\n"
    other = f"#!/usr/bin/env bash\n{most}ä\n"
    tree = planted(tmp_path, **{name: text, "build/other": other})
    assert faults_of(sources.long_lines, tree) == [f"{name}:3: 101 columns, 100 at most"]


@pytest.mark.parametrize("name, head", [
    ("library/handles.c", "/* A door. */"),
    ("library/callauction.hpp", "// A class."),
    ("python/pages/texts.js", "// Words."),
    ("library/build", "#!/usr/bin/env bash"),
])
def test_a_long_line_of_another_language_is_found(
    tmp_path: pathlib.Path, name: str, head: str
) -> None:
    tree = planted(tmp_path, **{name: f"{head}\n{'a' * 120}\n{'a' * 121}\n"})
    assert faults_of(sources.long_lines, tree) == [f"{name}:3: 121 columns, 120 at most"]


HEADS = [
    "use one.Thing",
    "-- Answers of `f` (src/lib.rt): what the prover left open.",
    "-- Answers of `f` (src/gone.rt): what the prover left open; rt looks here.",
]


@pytest.mark.parametrize("head", HEADS)
def test_a_walk_without_a_head_is_found(tmp_path: pathlib.Path, head: str) -> None:
    good = "-- Invariants of the loops of `f` (src/lib.rt); rt looks here.\n"
    files = {"Answers": head + "\n", "Invariants": good}
    named = {f"crates/terms/proofs/f/{name}.antt": text for name, text in files.items()}
    assert len(faults_of(sources.walks_without_a_head, planted(tmp_path, **named))) == 1


@pytest.mark.parametrize("cited, unknown", [
    ("`run` (`text`, `IsRun`): `kept` of both", []),
    ("`run` (`wrote`); `run` (`gone`, `text`)", ["gone"]),
    ("`Day::run` (`IsGone`: `wrote`)", ["IsGone"]),
    ("`other` (`gone`), `Day`'s `view` (`gone`)", []),
])
def test_a_clause_that_no_contract_has_is_found(
    tmp_path: pathlib.Path, cited: str, unknown: list[str]
) -> None:
    source = "pub fn run()\n    ensures text { IsRun result }\n{}\n"
    specs = "pub record IsRun (run : Run) : Type 0 where\n  pub wrote : Wrote run\n"
    files = {"crates/terms/src/lib.rt": source, "crates/terms/specs/Run.antt": specs}
    tree = planted(tmp_path, **files)
    row = edits.Row("terms", "meanings.txt:1", "wrong", "it is wrong", cited)
    faults = [f"meanings.txt:1: `run` has no clause `{name}`" for name in unknown]
    assert [*edits.unknown_clauses([row], tree.top)] == faults


def test_wrong_bodies_are_listed_with_what_refuses_them(tmp_path: pathlib.Path) -> None:
    row = "wrong, worse | it is wrong | `run` (`text`)\n"
    tree = planted(
        tmp_path,
        **{"crates.txt": "terms:\n", "checks/wrong_bodies/terms/meanings.txt": row},
    )
    text = "terms\n  wrong, worse\n    it is wrong\n    refused by `run` (`text`)\n"
    for names in [], ["terms"], ["terms/worse"]:
        assert edits.listing(names, tree.top) == text
    assert edits.listing(["terms/other"], tree.top) == ""


BODIES = """pub struct Sum(u64);

impl Sum {
    pub fn one(
        &self,
    ) -> u64
        ensures { result ≡ 1 }
    {
        1
    }

    fn two() -> u64 {
        2
    }
}

impl Other {
    fn three() -> u64 {
        3
    }

    fn three() -> u64 {
        4
    }
}
"""


@pytest.mark.parametrize(
    "old, names",
    [
        ("        1", {"one"}),
        ("        2", {"two"}),
        ("        3", None),  # another function has its name
        ("Sum(u64)", None),
        ("result ≡ 1", None),
    ],
)
def test_the_function_that_an_edit_changes_is_known(
    tmp_path: pathlib.Path, old: str, names: set[str] | None
) -> None:
    text = f"file: src/deep/sum.rt\nold: {old}\nnew: {old}0\n"
    tree = planted(tmp_path, **{"crates/terms/src/deep/sum.rt": BODIES, "x.edit": text})
    edit = body_groups.Edit("terms", tree.top / "x.edit", False)
    places = body_groups.places_of(edit, tree.top / "crates/terms")
    assert (places and {place.name for place in places}) == names


@pytest.mark.parametrize(
    "symbol, status, error, refused",
    [
        ("terms::deep::sum::Sum::one", "proved", "", False),
        ("terms::deep::sum::Sum::one", "no proof: it calls `terms::x`, which is not so", "", False),
        ("terms::deep::sum::Sum::one", "no proof: `search` did not prove `returns`", "", True),
        ("terms::other::Sum::one", "no proof: `search` did not prove `returns`", "", False),
        ("terms::deep::sum::Sum::one", "not proved", "", False),
        ("terms::deep::sum::Sum::one", "not proved", "Sum/one: the types differ", True),
        ("terms::deep::sum::Sum::one", "not proved", "Sum/two: the types differ", False),
        ("terms::deep::sum::Sum::one", "not proved", "Sum/one: it has no field `x`", False),
    ],
)
def test_a_body_among_others_is_refused_by_what_is_said_of_its_function(
    symbol: str, status: str, error: str, refused: bool
) -> None:
    folder, _, text = error.partition(": ")
    printed = [f"fn {symbol}: {status}"]
    printed += ["fn terms::deep::sum::Sum::one: proved"] if "other" in symbol else []
    printed += [f"./proofs/deep/sum/{folder}/Answers.antt:7:2: error: {text}"] if error else []
    place = body_groups.Place("src/deep/sum.rt", "one")
    assert body_groups.is_refused(place, range(4, 10), "terms", printed) == refused


@pytest.mark.parametrize("others, refused", [([], True), (["terms::third::one"], False)])
def test_a_method_of_another_files_type_is_refused_where_no_other_is(
    others: list[str], refused: bool
) -> None:
    symbols = ["terms::other::Sum::one", *others, "terms::other::Sum::two"]
    printed = [f"fn {it}: no proof: `search` did not prove `returns`" for it in symbols]
    place = body_groups.Place("src/deep/sum.rt", "one")
    assert body_groups.is_refused(place, range(4, 10), "terms", printed) == refused


@pytest.mark.parametrize(
    "status, file, line, refused",
    [
        ("not proved", "deep/sum", 4, True),
        ("not proved", "deep/sum", 9, True),
        ("not proved", "deep/sum", 11, False),  # of another function there
        ("not proved", "other", 4, False),
        ("proved", "deep/sum", 4, False),
    ],
)
def test_a_body_is_refused_by_a_note_at_its_own_lines(
    status: str, file: str, line: int, refused: bool
) -> None:
    said = f"note: src/{file}.rt:{line}:5: it is not proved that what the function ensures holds"
    printed = [said, f"fn terms::deep::sum::Sum::one: {status}"]
    place = body_groups.Place("src/deep/sum.rt", "one")
    lines = body_groups.lines_of(place, BODIES)
    assert lines == range(4, 10)
    assert body_groups.is_refused(place, lines, "terms", printed) == refused

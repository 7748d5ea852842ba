"""The wrong bodies: their edits, what makes one fit the code that it edits, and what each means."""
import dataclasses
import functools
import pathlib
import re
from collections.abc import Iterator

TOP = pathlib.Path(__file__).resolve().parent.parent


class BadEditError(Exception):
    """An edit can't be made, for the reason in its text."""


@dataclasses.dataclass(frozen=True)
class Edit:
    """A file with a line `file: PATH` and pairs of lines `old: TEXT` and `new: TEXT`."""

    crate: str
    file: pathlib.Path
    is_in_gate: bool

    @property
    def name(self) -> str:
        """Its crate and the name of its file."""
        return f"{self.crate}/{self.file.stem}"

    def pairs(self) -> Iterator[tuple[str, str, str]]:
        """The path, the old and the new text of each pair. Raises BadEditError where a line isn't
        one of an edit.
        """
        path = old = ""
        for line in self.file.read_text(encoding="utf-8").splitlines():
            word, _, text = line.partition(":")
            text = text.removeprefix(" ")
            if word == "file":
                path = text.strip()
            elif word == "old":
                old = text
            elif word == "new" and path and old:
                yield path, old, text
                old = ""
            elif line.strip():
                raise BadEditError(f"the line '{line}' has no place in an edit")
        if old:
            raise BadEditError("an old text without a new one")

    def check_fit(self, top: pathlib.Path) -> None:
        """Raises BadEditError unless there are pairs, and each old text is once in its file."""
        texts: dict[str, str] = {}
        for path, old, new in self.pairs():
            if path not in texts:
                file = top / "crates" / self.crate / path
                if not path.startswith(("src/", "specs/", "proofs/")) or not file.is_file():
                    raise BadEditError(f"there is no file {path}")
                texts[path] = file.read_text(encoding="utf-8")
            if texts[path].count(old) != 1:
                raise BadEditError(f"{texts[path].count(old)} times and not once in {path}: {old}")
            texts[path] = texts[path].replace(old, new)
        if not texts:
            raise BadEditError("it has no pair of an old and a new text")


def all_edits(top: pathlib.Path = TOP) -> list[Edit]:
    """All edits: those of crates/*/must-fail, which the test command tries, and those of
    checks/wrong_bodies.
    """
    in_gate = sorted((top / "crates").glob("*/must-fail/*.edit"))
    beside = sorted((top / "checks/wrong_bodies").glob("*/*.edit"))
    found = [Edit(file.parent.parent.name, file, True) for file in in_gate]
    return found + [Edit(file.parent.name, file, False) for file in beside]


@dataclasses.dataclass(frozen=True)
class Row:
    """A line of checks/wrong_bodies/CRATE/meanings.txt: `EDIT[, EDIT..] | MEANING | REFUSED BY`.

    MEANING says what is wrong with the body, or with each of them; REFUSED BY is the function with
    its clause, or the law. A body that no clause refuses has no edit: in place of its name is the
    test that fails on it, in backticks.
    """

    crate: str
    place: str
    names: str
    meaning: str
    refused_by: str

    @property
    def edits(self) -> list[str]:
        """The edits that it names, as CRATE/EDIT; a name of another crate's has its crate."""
        plain = re.sub(r"`[^`]*`", "", self.names)
        found = re.findall(r"(?:^|, )((?:[a-z_]+/)?[A-Za-z0-9_]+)(?=,|$| \()", plain)
        return [name if "/" in name else f"{self.crate}/{name}" for name in found]


CITED = re.compile(r"`(?:\w+::)?(?P<function>\w+)` \((?P<clauses>[^()]*)\)")
"""A function of the last column with what it names of its contract."""
CLAUSE = re.compile(r"\b(?:ensures|requires) (\w+) \{|\bpub (?:(?:record|data) )?(\w+)(?= [:({])")
"""A clause of a contract; a field or a name of a definition."""

def crates(top: pathlib.Path) -> list[str]:
    """The crates of crates.txt, lowest first."""
    lines = (top / "crates.txt").read_text(encoding="utf-8").splitlines()
    return [line.split(":")[0].split()[0] for line in lines if line and line[0] != "#"]


def rows(top: pathlib.Path = TOP) -> list[Row]:
    """The lines of all files of meanings, crate by crate. Raises BadEditError where one is no row.
    """
    found = []
    for crate in crates(top):
        file = top / "checks/wrong_bodies" / crate / "meanings.txt"
        text = file.read_text(encoding="utf-8") if file.is_file() else ""
        for number, line in enumerate(text.splitlines(), 1):
            place = f"{file.relative_to(top)}:{number}"
            cells = line.split(" | ")
            if len(cells) != 3 or not all(cell.strip() for cell in cells):
                raise BadEditError(f"{place}: this is no `EDIT, .. | MEANING | REFUSED BY`: {line}")
            found.append(Row(crate, place, *cells))
    return found


def listing(names: list[str], top: pathlib.Path = TOP) -> str:
    """What each body of these names means and what refuses it, crate by crate; all where no name
    is given. Raises BadEditError.
    """
    text = crate = ""
    for row in rows(top):
        if names and row.crate not in names and not set(names) & set(row.edits):
            continue
        text += f"{row.crate}\n" if row.crate != crate else ""
        text += f"  {row.names}\n    {row.meaning}\n    refused by {row.refused_by}\n"
        crate = row.crate
    return text


def misfits(top: pathlib.Path = TOP) -> Iterator[str]:
    """What is wrong with an edit, or with its line of meanings."""
    edits = all_edits(top)
    names = [edit.name for edit in edits]
    for edit in edits:
        try:
            edit.check_fit(top)
        except (BadEditError, OSError, UnicodeDecodeError) as fault:
            yield f"{edit.file.relative_to(top)}: {fault}"
        if names.count(edit.name) > 1:
            yield f"{edit.file.relative_to(top)}: another edit is named {edit.name} too"
    try:
        yield from wrong_rows(names, rows(top))
        yield from unknown_clauses(rows(top), top)
    except (BadEditError, OSError) as fault:
        yield str(fault)


def wrong_rows(names: list[str], rows: list[Row]) -> Iterator[str]:
    """Edits without a line or with two, and lines of edits that don't exist."""
    places: dict[str, str] = {}
    for row in rows:
        for name in row.edits:
            if name not in names:
                yield f"{row.place}: there is no edit {name}"
            if name in places:
                yield f"{row.place}: {name} has a line in {places[name]} too"
            places[name] = row.place
    for name in sorted(set(names) - set(places)):
        yield f"checks/wrong_bodies/{name.split('/')[0]}/meanings.txt has no line for {name}"


def unknown_clauses(rows: list[Row], top: pathlib.Path = TOP) -> Iterator[str]:
    """What a line says of the contract of a function, where no clause, field or definition of the
    function's crate is named so. Raises OSError.
    """
    for row in rows:
        functions, clauses = declared(row.crate, top)
        for cited in CITED.finditer(row.refused_by):
            for clause in re.findall(r"`(\w+)`", cited["clauses"]):
                if cited["function"] in functions and clause not in clauses:
                    yield f"{row.place}: `{cited['function']}` has no clause `{clause}`"


@functools.cache
def declared(crate: str, top: pathlib.Path) -> tuple[set[str], set[str]]:
    """The functions of a crate, and the names of its clauses, fields and definitions. Raises
    OSError.
    """
    functions: set[str] = set()
    clauses: set[str] = set()
    folder = top / "crates" / crate
    for file in [*folder.glob("src/**/*.rt"), *folder.glob("specs/**/*.antt")]:
        text = file.read_text(encoding="utf-8")
        functions.update(re.findall(r"\bfn (\w+)", text))
        clauses.update(*CLAUSE.findall(text))
    return functions, clauses

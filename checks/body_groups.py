"""Wrong bodies of different functions, tried in one check of their crate.

What other functions' proofs know of a function is its contract, and never its body. So bodies of
different functions are tried at once: each is refused where its own function isn't proved, for a
goal or an answer of its own, and not for a function that it calls. A body is alone where its edit
is elsewhere than in the bodies of functions, as in a constant or a struct.
"""
import dataclasses
import functools
import pathlib
import re
import subprocess
from collections.abc import Callable, Iterable, Iterator

from edits import Edit

SEVERAL = re.compile(r"several functions are named `(?P<name>\w+)`: help: write one of (?P<all>.*)")
"""What is said of a name in `--only` that isn't one function's."""
HEADER = re.compile(
    r'(?P<indent> *)(?:pub(?:\([^)]*\))? )?(?:unsafe )?(?:extern "C" )?fn (?P<name>\w+)'
)
STATUS = re.compile(r"fn (?P<symbol>[^ ]+): (?P<status>.*)")
ERROR = re.compile(r"(?:note: )?(?:\./)?(?P<file>proofs/\S+?):\d+:\d+: error: (?P<text>.*)")
UNPROVED = re.compile(r"note: (?P<file>src/\S+?):(?P<line>\d+):\d+: it is not proved that ")
"""What is said where something that a function promises isn't proved of a body."""
LOST_NAME = re.compile(r"has no field|is not in scope|has no `|was not admitted")
"""What is said where a proof names what an edit took away, which shows little of the contract."""
LAST_LINES = 20  # of a check that failed, which are printed


@dataclasses.dataclass(frozen=True)
class Function:
    """A function of a file: its name, the line of its head, and those of its body, from 1."""

    name: str
    head: int
    begin: int
    end: int


def opens_body(line: str, indent: str) -> bool:
    """Whether the body of the function with this indent begins after this line."""
    return line == f"{indent}{{" or bool(re.match(rf"{indent}(pub|unsafe|extern|fn|\)).*{{$", line))


def functions_of(text: str) -> Iterator[Function]:
    """The functions of a file in rt fmt's layout that have a body of lines of their own."""
    lines = text.splitlines()
    for number, line in enumerate(lines):
        header = HEADER.match(line)
        if not header:
            continue
        indent = header["indent"]
        rest = range(number, len(lines))
        begin = next((at for at in rest if opens_body(lines[at], indent)), None)
        end = next((at for at in rest if lines[at] == f"{indent}}}"), None)
        if begin is not None and end is not None and begin < end:
            yield Function(header["name"], number + 1, begin + 2, end)


@dataclasses.dataclass(frozen=True)
class Place:
    """A function that an edit changes: its file, and its name, which no other one there has."""

    path: str
    name: str

    @property
    def module(self) -> str:
        """How the names of the file's functions begin in what a check prints, after the crate."""
        parts = self.path.removeprefix("src/").removesuffix(".rt").split("/")
        return "::".join(part for part in parts if part not in ("lib", "main"))


def places_of(edit: Edit, crate: pathlib.Path) -> set[Place] | None:
    """The functions in whose bodies all pairs of the edit are, if that is where they are."""
    found = set()
    for path, old, _ in edit.pairs():
        text = (crate / path).read_text(encoding="utf-8")
        line = text[: text.find(old)].count("\n") + 1
        functions = list(functions_of(text))
        inside = [it for it in functions if it.begin <= line <= it.end]
        names = [it.name for it in functions]
        if old not in text or not inside or names.count(inside[0].name) != 1:
            return None
        found.add(Place(path, inside[0].name))
    return found


def groups(tried: list[Edit], crate: pathlib.Path) -> tuple[list[dict[Edit, Place]], list[Edit]]:
    """The edits in groups, of which none changes a function of another one of its group, and those
    that have to be tried alone.
    """
    found: list[dict[Edit, Place]] = []
    alone = []
    for edit in tried:
        places = places_of(edit, crate)
        if places is None or len(places) != 1:
            alone.append(edit)
            continue
        place = places.pop()
        free = [group for group in found if place not in group.values()]
        if not free:
            found.append({})
            free = found[-1:]
        free[0][edit] = place
    return found, alone


def made(edits: Iterable[Edit], crate: pathlib.Path) -> dict[pathlib.Path, str]:
    """The texts of the files with these edits made."""
    texts: dict[pathlib.Path, str] = {}
    for edit in edits:
        for path, old, new in edit.pairs():
            file = crate / path
            text = texts.get(file) or file.read_text(encoding="utf-8")
            texts[file] = text.replace(old, new)
    return texts


def lines_of(place: Place, text: str) -> range:
    """The lines of a function in the text of its file."""
    every = functions_of(text)
    return next((range(it.head, it.end + 1) for it in every if it.name == place.name), range(0))


def is_refused(place: Place, lines: range, crate: str, printed: list[str]) -> bool:
    """Whether a check says that this function, which is in these lines of its file, isn't proved,
    for a reason of its own.
    """
    parts, status = said_of(place, crate, printed)
    if not parts or status == "proved":
        return False
    notes = [it for it in map(UNPROVED.match, printed) if it and it["file"] == place.path]
    if "`search` did not prove" in status or any(int(it["line"]) in lines for it in notes):
        return True
    folder = "proofs/" + "/".join(parts[1:]) + "/"
    errors = [it for it in map(ERROR.match, printed) if it and it["file"].startswith(folder)]
    return any(not LOST_NAME.search(it["text"]) for it in errors)


def said_of(place: Place, crate: str, printed: list[str]) -> tuple[list[str], str]:
    """What a check says of a place's function: the parts of its whole name, and whether it is
    proved; nothing where it says nothing of it. A method has the module of its type, so one of
    another module is meant where no other function has its name.
    """
    found = []
    for said in filter(None, map(STATUS.match, printed)):
        parts = re.sub(r"::<#\w+>", "", said["symbol"]).split("::")
        if (parts[0], parts[-1]) == (crate, place.name):
            found.append((parts, said["status"]))
    module = [part for part in (crate, *place.module.split("::")) if part]
    near = [it for it in found if it[0][: len(module)] == module and len(it[0]) <= len(module) + 2]
    return (near or (found if len(found) == 1 else [([], "")]))[0]


Check = Callable[[pathlib.Path, Iterable[Place]], list[str]]
"""Checks a crate in a folder, these of its functions at least: the lines that are printed."""


def check(crate: pathlib.Path, places: Iterable[Place]) -> list[str]:
    """Checks all of a crate, over what earlier checks kept: the lines that are printed."""
    return printed_by(["rt", "check"], crate)


def check_only(crate: pathlib.Path, places: Iterable[Place], words: list[str]) -> list[str]:
    """Checks some functions of a crate by a command, all where there is none: the lines that are
    printed. A name that several have means those of the place's module.
    """
    names = {place.name: [place.name] for place in places}
    modules = {place.name: place.module for place in places}
    while True:
        asked = [word for name in names.values() for each in name for word in ("--only", each)]
        printed = printed_by([*words, *asked], crate)
        said = next(filter(None, map(SEVERAL.search, printed)), None)
        if said is None or names[said["name"]] != [said["name"]]:
            return printed
        start = "::".join(filter(None, (crate.name, modules[said["name"]]))) + "::"
        every = re.findall(r"`([^`]+)`", said["all"])
        names[said["name"]] = [it for it in every if it.startswith(start)]


def printed_by(words: list[str], crate: pathlib.Path) -> list[str]:
    """The lines that a command prints in a crate's folder."""
    ran = subprocess.run(
        words,
        cwd=crate,
        stdin=subprocess.DEVNULL,
        stdout=subprocess.PIPE,
        stderr=subprocess.STDOUT,
        text=True,
        errors="replace",
        check=False,
    )
    return ran.stdout.splitlines()


def printed_with(
    edits: Iterable[Edit], crate: pathlib.Path, places: Iterable[Place], check: Check
) -> list[str]:
    """What a check prints of the crate with these edits made, which are taken back after it."""
    texts = made(edits, crate)
    kept = {file: file.read_text(encoding="utf-8") for file in texts}
    try:
        for file, text in texts.items():
            file.write_text(text, encoding="utf-8")
        return check(crate, places)
    finally:
        for file, text in kept.items():
            file.write_text(text, encoding="utf-8")


def refused_of(group: dict[Edit, Place], crate: pathlib.Path, check: Check) -> Iterator[Edit]:
    """Tries the bodies of a group: those that are refused. One that doesn't compile hides what is
    said of the others, so such a group is halved.
    """
    texts = made(group, crate)
    printed = printed_with(group, crate, group.values(), check)
    if any(STATUS.match(line) for line in printed):
        for edit, place in group.items():
            lines = lines_of(place, texts[crate / place.path])
            if is_refused(place, lines, crate.name, printed):
                yield edit
    elif len(group) > 1:
        rows = [*group.items()]
        yield from refused_of(dict(rows[: len(rows) // 2]), crate, check)
        yield from refused_of(dict(rows[len(rows) // 2 :]), crate, check)


def is_refused_alone(edit: Edit, crate: pathlib.Path, check: Check) -> bool:
    """Tries a body whose edit isn't in one function: whether something of the crate isn't proved
    with it, where it compiles.
    """
    printed = printed_with([edit], crate, (), check)
    statuses = [said["status"] for said in map(STATUS.match, printed) if said]
    return any("`search` did not prove" in status for status in statuses) or bool(
        statuses and any(ERROR.match(line) for line in printed)
    )


def is_proved(crate: pathlib.Path) -> bool:
    """Whether a crate is proved as it is; what the check said last is printed where it isn't."""
    printed = check(crate, ())
    found = bool(printed) and printed[-1].startswith("logic=proved")
    if not found:
        print("\n".join(printed[-LAST_LINES:]), flush=True)
    return found


def refused(tried: list[Edit], crate: pathlib.Path) -> Iterator[Edit]:
    """Tries bodies of one crate in groups: those that are refused. None is where the crate isn't
    proved as it is.
    """
    if is_proved(crate):
        for group in groups(tried, crate)[0]:
            yield from refused_of(group, crate, check)


def refused_over(tried: list[Edit], crate: pathlib.Path, words: list[str]) -> Iterator[Edit]:
    """Tries bodies of one crate, which is proved as it is, function by function by a command, and
    those that change more than one function by all of the crate: those that are refused.
    """
    only = functools.partial(check_only, words=words)
    found, alone = groups(tried, crate)
    for group in found:
        yield from refused_of(group, crate, only)
    yield from (edit for edit in alone if is_refused_alone(edit, crate, only))

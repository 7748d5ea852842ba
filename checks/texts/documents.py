"""Rules for the documents: each gives its faults as `FILE:LINE: ..` or `FILE: ..`.

- Each name in backticks exists, as a file, or as a word of the code, the scripts or the examples;
  those in the lists that are made, and of wrong bodies, too.
- docs/GLOSSARY.md gives each term once, with names of the code that exist; a type or a variant that
  it names is declared once.
- Each link leads to a file or a folder, and to a heading of it where it names one.
- Together they have at most MOST_BYTES, without the lists that a command makes: each says which.
- The kit of `rt version` is among those that a document names, where it names any.
- No file of the repository cites a paper, or has a path of a machine or one that leads out of it.
"""
import collections
import functools
import pathlib
import re
import shutil
import subprocess
from collections.abc import Iterator

from checks.texts.tree import Tree

MOST_BYTES = 100_000
FOREIGN = re.compile(
    r"\barXiv\b|\bdoi:|\bdoi\.org\b|\bet al\.|\b(?:Theorem|Lemma|Section) [0-9]"
    r"|\.\./shared\b|(?<![\w.}])/(?:root|work|mnt|Users)/|/home/\w"
)
LINK = re.compile(r"\]\((?P<path>[^)#\s]*)(?:#(?P<heading>[^)\s]+))?\)")
HEADING = re.compile(r"^#+ (.*)$", re.MULTILINE)
MADE_BY = re.compile(r"^This (?:page|list) is made by `([^`]+)`", re.MULTILINE)
SPAN = re.compile(r"(?<!`)`([^`\n]+)`(?!`)")
WORD = re.compile(r"[A-Za-z_][A-Za-z0-9_]*(?:[-'][A-Za-z0-9_]+)*'*")
PATH = re.compile(r"[\w.*-]+(?:/[\w.*-]+)+/?")
OUTSIDE = {
    "apt",
    "apt-get",
    "ERROR",
    "INFO",
    "install",
    "taskset",
    "perf",
    "sbatch",
    "journalctl",
    "systemctl",
    "monday",
    "hosts",
    "include_str",
    "include_bytes",
}
"""Names that documents may have and the repository has nowhere else."""
KIT = re.compile(r"\brattle-kit-\w+")
ROW = re.compile(r"^\| (?P<term>.*?) \| (?P<meaning>.*?) \| (?P<code>.*?) ?\|$")
PUBLIC = r"^\s*(?:pub(?:\([a-z]+\))? )?"
TYPE = re.compile(PUBLIC + r"(?:struct|enum|trait|type|union) (?P<name>[A-Z]\w*)")
ENUM = re.compile(PUBLIC + r"enum (?P<name>[A-Z]\w*)")
VARIANT = re.compile(r"^\s+(?P<name>[A-Z]\w*)(?:[({,]| \{|$)")


def text_lines(tree: Tree, file: pathlib.Path) -> Iterator[tuple[int, str]]:
    """The lines of a document with their places, but for blocks of code."""
    is_in_block = False
    for place, line in enumerate(tree.lines(file), 1):
        if line.startswith("```"):
            is_in_block = not is_in_block
        elif not is_in_block and not line.startswith("    "):
            yield place, line


def spans(tree: Tree, file: pathlib.Path) -> Iterator[tuple[int, str]]:
    """The texts in backticks of a document, with their lines."""
    for place, line in text_lines(tree, file):
        yield from ((place, text) for text in SPAN.findall(line))


@functools.lru_cache(maxsize=None)
def words_of(tree: Tree) -> frozenset[str]:
    """The words of all files but documents, the names of all files and folders, and OUTSIDE."""
    found = set(OUTSIDE)
    of_documents = {*tree.documents, *tree.lists, tree.top / "CHANGELOG.md"}
    for file in tree.files:
        path = file.relative_to(tree.top)
        found.update(WORD.findall(str(path)))
        if path.parts[:2] != ("checks", "texts") and file not in of_documents:
            for word in WORD.findall(tree.text(file)):
                found.add(word)
                found.update(word.split("-"))
    return frozenset(found)


def is_path(tree: Tree, text: str) -> bool:
    """Whether a path, perhaps with `*` or a NAME in capitals, leads to a file or a folder."""
    text = re.sub(r"\b[A-Z][A-Z_]+\b(?!\.)", "*", text.rstrip("/"))
    places = [tree.top, *(tree.top / name for name in ("crates", "docs", "python", "checks"))]
    return any(any(place.glob(text)) for place in places)


def dead_words(tree: Tree, text: str) -> list[str]:
    """The words of a text in backticks that the repository has nowhere."""
    known = words_of(tree)
    dead = []
    for word in WORD.findall(text):
        is_known = word in known or all(part in known for part in word.split("-"))
        is_begin = word.endswith("_") and any(it.startswith(word) for it in known)
        if not (is_known or is_begin or word.isupper() or KIT.fullmatch(word)):
            dead.append(word)
    return dead


def dead_names(tree: Tree) -> Iterator[str]:
    """Names in backticks that the repository has nowhere."""
    for file in [*tree.documents, *tree.lists]:
        for place, text in spans(tree, file):
            for path in PATH.findall(text):
                if (tree.top / path.split("/")[0]).is_dir() and not is_path(tree, path):
                    yield f"{tree.name(file)}:{place}: there is no {path}"
            for word in dead_words(tree, text):
                yield f"{tree.name(file)}:{place}: `{word}` is nowhere in the repository"


def headings(tree: Tree, file: pathlib.Path) -> set[str]:
    """The headings of a document, as links name them."""
    plain = (re.sub(r"[^\w\s-]", "", text.lower()) for text in HEADING.findall(tree.text(file)))
    return {text.replace(" ", "-") for text in plain}


def dead_links(tree: Tree) -> Iterator[str]:
    """Links of documents, of all folders, that lead nowhere."""
    for file in (file for file in tree.files if file.suffix == ".md"):
        for place, line in text_lines(tree, file):
            for found in LINK.finditer(SPAN.sub("``", line)):
                path, heading = found["path"], found["heading"]
                target = (file.parent / path).resolve() if path else file
                if "://" not in path and not target.exists():
                    yield f"{tree.name(file)}:{place}: there is no {path}"
                elif heading and heading not in headings(tree, target):
                    yield f"{tree.name(file)}:{place}: {path} has no heading {heading}"


def foreign_texts(tree: Tree) -> Iterator[str]:
    """Citations of papers, and paths that are a machine's or lead out of the repository."""
    for file in tree.files:
        for found in FOREIGN.finditer(tree.text(file)):
            place = tree.text(file).count("\n", 0, found.start()) + 1
            yield f"{tree.name(file)}:{place}: {found[0]} isn't of this repository"


def sizes(tree: Tree) -> Iterator[str]:
    """Documents that together have more than MOST_BYTES."""
    counts = {tree.name(file): file.stat().st_size for file in tree.documents}
    if sum(counts.values()) > MOST_BYTES:
        listed = ", ".join(f"{name} {count}" for name, count in counts.items())
        yield f"the documents have {sum(counts.values())} bytes, {MOST_BYTES} at most: {listed}"


def made_lists(tree: Tree) -> Iterator[str]:
    """Lists that aren't counted as documents and don't say which command of the repository makes
    them.
    """
    for file in tree.made:
        found = MADE_BY.search(tree.text(file))
        if not (found and is_command(tree, found[1])):
            yield f"{tree.name(file)}: it doesn't say which command makes it"


def is_command(tree: Tree, words: str) -> bool:
    """Whether words run a file of the repository, or a module of its package."""
    module = re.search(r" -m (\S+)$", words)
    path = f"python/{module[1].replace('.', '/')}.py" if module else words.split()[0]
    return (tree.top / path).is_file()


@functools.cache
def kit() -> str:
    """What `rt version` prints. Raises CalledProcessError."""
    return subprocess.run(["rt", "version"], capture_output=True, text=True, check=True).stdout


def kits(tree: Tree) -> Iterator[str]:
    """Documents that name kits, and not that of rt version."""
    if shutil.which("rt") is None:
        yield "there is no rt: the kits that documents name can't be compared"
        return
    version = kit()
    for file in tree.documents:
        lines = enumerate(tree.lines(file), 1)
        places = {name: place for place, line in lines for name in KIT.findall(line)}
        if places and not set(places) & set(version.split()):
            names, place = ", ".join(places), min(places.values())
            yield f"{tree.name(file)}:{place}: {names}, and rt version is {version.strip()}"


# ---- the glossary


def glossary(tree: Tree) -> list[tuple[int, str, str]]:
    """The rows of docs/GLOSSARY.md: line, terms, and names of the code."""
    file = tree.top / "docs/GLOSSARY.md"
    rows = []
    for place, line in enumerate(tree.lines(file), 1):
        found = ROW.match(line)
        if found and found["term"] != "Term" and not found["term"].startswith("--"):
            rows.append((place, found["term"], found["code"]))
    return rows


def second_meanings(tree: Tree) -> Iterator[str]:
    """Terms that the glossary gives twice, and names of its types and variants that the code
    declares twice.
    """
    places: dict[str, int] = {}
    types, variants = declared(tree)
    for place, terms, code in glossary(tree):
        for term in terms.split(", "):
            first = places.setdefault(term.lower(), place)
            if first != place:
                yield f"docs/GLOSSARY.md:{place}: '{term}' has a meaning in line {first} too"
        for name in SPAN.findall(code):
            yield from twice(place, name, types, variants)
    if not places:
        yield "docs/GLOSSARY.md: there is no table of terms"


Places = dict[str, list[str]]
"""Where names are declared."""
OF_TEXTS = {"Word", "Rule"}
"""Enums whose variants are words of a file, as it spells them."""


def twice(place: int, name: str, types: Places, variants: Places) -> Iterator[str]:
    """Where a type, or a variant of one, is declared that has another type's or variant's name."""
    owner, _, variant = name.partition("::")
    where = types.get(owner, [])
    if len(where) > 1:
        yield f"docs/GLOSSARY.md:{place}: {owner} is declared twice: {', '.join(where)}"
    enums = {owner, *OF_TEXTS}
    others = [it for it in variants.get(variant, []) if it.split(" ")[0] not in enums]
    if others and owner in types:
        yield f"docs/GLOSSARY.md:{place}: {variant} is a variant of {', '.join(others)} too"


@functools.lru_cache(maxsize=None)
def declared(tree: Tree) -> tuple[Places, Places]:
    """The public and private types of crates, and the variants of enums, with their places; tests
    are left out.
    """
    types: Places = collections.defaultdict(list)
    variants: Places = collections.defaultdict(list)
    for file in tree.sources:
        if "tests" in file.parts or file.name == "tests.rt":
            continue
        enum = ""
        for place, line in enumerate(tree.lines(file), 1):
            where = f"{tree.name(file)}:{place}"
            if found := TYPE.match(line):
                types[found["name"]].append(where)
                begun = ENUM.match(line)
                enum = begun["name"] if begun else ""
            elif line.startswith("}"):
                enum = ""
            elif enum and (variant := VARIANT.match(line)):
                variants[variant["name"]].append(f"{enum} ({where})")
    return types, variants


RULES = [dead_names, dead_links, foreign_texts, sizes, made_lists, kits, second_meanings]

"""What is said of the options: in `--help`, in the manual page share/callboard.1.in, in README's
table and in share/callboard.bash.

Compares their names, their values' names, their defaults and the words of `--print`. Tries the
program with the least and the most number that the manual page gives each option, and with those
beside them. Runs the example of --help, which has to print its lines. Compares the version of
--version with that of CHANGELOG.md and with the one that all else is made from.
"""
import dataclasses
import re
import subprocess

import pytest

from checks.built import TOP

REFUSED_WORD = 2
FONT = re.compile(r"\\f[BIRP]")
DEFAULT = re.compile(r"\[default: (\w+)\]")
RANGE = re.compile(r"from (\d+) to (\d+)\b")
WORDS_OF_PRINT = re.compile(r"\b(lines|journal|trades|book)\b")


@dataclasses.dataclass
class Option:
    """What one text says of an option: the name of its value, its default, and all its words."""

    value: str
    default: str
    text: str


Options = dict[str, Option]


def text_of(place: str) -> str:
    """The text of a file of the repository. Raises OSError."""
    return (TOP / place).read_text(encoding="utf-8")


def option(value: str | None, text: str) -> Option:
    """An option with this text, which may name its default."""
    default = DEFAULT.search(text)
    return Option(value or "", default[1] if default else "", text)


def options_of_help(text: str) -> Options:
    """The options of the text that the program prints for --help."""
    begin = re.compile(r"^ +(?:-\w, )?--([a-z]+)(?: <(\w+)>)?(?:  +(.*))?$")
    found: Options = {}
    name = ""
    for line in text.partition("Options:")[2].splitlines():
        if match := begin.match(line):
            name = match[1]
            found[name] = option(match[2], match[3] or "")
        elif name and line.startswith("        "):
            found[name] = option(found[name].value, f"{found[name].text} {line.strip()}")
        elif line.strip():
            name = ""
    return found


def options_of_manual(text: str) -> Options:
    """The options of the manual page."""
    section = text.partition(".SH OPTIONS\n")[2].partition("\n.SH ")[0]
    found: Options = {}
    for entry in section.split(".TP\n")[1:]:
        head, _, words = FONT.sub("", entry).partition("\n")
        match = re.fullmatch(r"(?:-\w, )?--([a-z]+)(?: (\w+))?", head)
        if match:
            found[match[1]] = option(match[2], " ".join(words.split()))
    return found


def options_of_readme(text: str) -> Options:
    """The options of README's table, several of which may share a row, as their defaults do."""
    found: Options = {}
    for row in re.findall(r"^\| (`--.*) \| (.*?) \| (.*) \|$", text, re.MULTILINE):
        names = re.findall(r"`--([a-z]+)(?: (\w+))?`", row[0])
        defaults = [it.strip("` ") for it in row[1].split(",")]
        if len(defaults) != len(names):
            defaults = [defaults[0]] * len(names)
        for (name, value), default in zip(names, defaults):
            found[name] = Option(value, "" if default in ("off", "none", "") else default, row[2])
    return found


Texts = dict[str, Options]
"""The options that each text has, by the text's name."""


@pytest.fixture(scope="module")
def help_text(program: str) -> str:
    """What --help prints."""
    return subprocess.run([program, "--help"], capture_output=True, text=True, check=True).stdout


@pytest.fixture(scope="module")
def texts(help_text: str) -> Texts:
    """The options of all texts. README needs no row for --help and --version."""
    found = {
        "--help": options_of_help(help_text),
        "the manual page": MANUAL,
        "README": options_of_readme(text_of("README.md")),
    }
    for name in ("help", "version"):
        found["README"].setdefault(name, Option("", "", ""))
    return found


MANUAL = options_of_manual(text_of("share/callboard.1.in"))
RANGES = {name: found for name, it in MANUAL.items() if (found := RANGE.search(it.text))}


def test_each_text_has_the_same_options(texts: Texts) -> None:
    names = {place: sorted(options) for place, options in texts.items()}
    assert names["--help"] == names["the manual page"] == names["README"] == sorted(MANUAL)


def test_bash_completes_each_option() -> None:
    completed = set(re.findall(r"--([a-z]+)", text_of("share/callboard.bash")))
    assert completed == set(MANUAL)


@pytest.mark.parametrize("name", MANUAL)
@pytest.mark.parametrize("place", ["--help", "README"])
def test_texts_say_the_same(texts: Texts, place: str, name: str) -> None:
    ours, theirs = texts[place][name], MANUAL[name]
    assert (ours.value, ours.default) == (theirs.value, theirs.default)
    if place != "README":
        found = RANGE.search(ours.text)
        assert (found and found[0]) == (RANGES[name][0] if name in RANGES else None)


def test_each_text_has_the_words_of_print(texts: Texts) -> None:
    for place, options in texts.items():
        words = set(WORDS_OF_PRINT.findall(options["print"].text))
        assert len(words) == 4, f"{sorted(words)} in {place}"


def test_the_manual_gives_each_number_a_range() -> None:
    assert set(RANGES) == {name for name, it in MANUAL.items() if it.value == "N"}


def is_refused(program: str, name: str, number: int) -> bool:
    """Whether the command line is refused for this option's number alone."""
    words = [program, f"--{name}={number}"]
    run = subprocess.run(
        words, stdin=subprocess.DEVNULL, capture_output=True, text=True, check=False
    )
    return run.returncode == REFUSED_WORD and "invalid value" in run.stderr


@pytest.mark.parametrize("name", RANGES)
def test_the_program_takes_just_the_numbers_of_the_range(program: str, name: str) -> None:
    least, most = int(RANGES[name][1]), int(RANGES[name][2])
    numbers = [least - 1, least, most, most + 1]
    refused = [number for number in numbers if is_refused(program, name, number)]
    assert refused == [least - 1, most + 1]


def first_of(pattern: str, place: str) -> str:
    """What the first group of this pattern is in a file of the repository, or nothing."""
    found = re.search(pattern, text_of(place), re.MULTILINE)
    return found[1] if found else ""


def test_the_version_is_one(program: str) -> None:
    run = subprocess.run([program, "--version"], capture_output=True, text=True, check=False)
    version = run.stdout.removeprefix("callboard ").rstrip("\n")
    assert re.fullmatch(r"[0-9.]+", version)
    assert first_of(r"^## (.*)$", "CHANGELOG.md") == version
    made = subprocess.run([TOP / "build/version.py"], capture_output=True, text=True, check=True)
    assert made.stdout == f"{version}\n"
    for place in ("share/callboard.1.in", "python/pyproject.toml", "library/build"):
        assert version not in text_of(place)


def test_the_example_of_the_help_prints_its_lines(program: str, help_text: str) -> None:
    example = help_text.partition("Example:\n")[2].partition("\n\n")[0]
    command, *lines = [line.strip() for line in example.splitlines()]
    command, _, name = command.rpartition(" | ")
    assert name == "callboard"
    words = ["bash", "-c", f'{command} | "$0"', program]
    run = subprocess.run(words, capture_output=True, text=True, check=False)
    assert run.stdout.splitlines() == lines

"""The toolchain's own commands on a crate, over libraries that are built."""
import functools
import os
import pathlib
import subprocess
from collections.abc import Callable, Iterator

TOP = pathlib.Path(__file__).resolve().parent.parent


def crate_lines(top: pathlib.Path) -> dict[str, str]:
    """The line of crates.txt of each crate of the repository. Raises OSError."""
    lines = (top / "crates.txt").read_text(encoding="utf-8").splitlines(keepends=True)
    found = [line for line in lines if line.strip() and not line.startswith("#")]
    return {line.partition(":")[0].split()[0]: line for line in found}


def named_by(top: pathlib.Path) -> dict[str, list[str]]:
    """The libraries that each crate names, of the repository and of the kit. Raises OSError."""
    lines = crate_lines(top)
    return {name: line.partition(":")[2].split() for name, line in lines.items()}


def crates_below(top: pathlib.Path, *names: str) -> dict[str, list[str]]:
    """These crates and those of the repository that they use, lowest first, each with those that
    it names. Raises OSError, and KeyError for an unknown name.
    """
    named = named_by(top)
    own = {name: [it for it in named[name] if it in named] for name in named}
    wanted = {*names, *(it for name in names for it in own[name])}
    return {name: own[name] for name in sorted(own, key=lambda it: len(own[it])) if name in wanted}


def is_program(top: pathlib.Path, name: str) -> bool:
    """Whether a crate is a program."""
    return (top / "crates" / name / "src/main.rt").is_file()


@functools.cache
def kit() -> str:
    """The folder of the toolchain. Raises OSError, CalledProcessError."""
    ran = subprocess.run(["rt", "doc"], capture_output=True, text=True, check=True)
    return os.path.dirname(ran.stdout.strip())


def words(
    top: pathlib.Path, verb: str, name: str, rlib: Callable[[str], pathlib.Path]
) -> list[str]:
    """The command of the toolchain with this verb for a crate, which is run in the crate's folder:
    `check`, or `build`. Each library of the repository below it is in the folder that `rlib` has
    for it. Raises OSError, CalledProcessError.
    """
    root = "main" if is_program(top, name) else "lib"
    found = [f"{kit()}/bin/rattle", verb, "--crate-name", name, f"src/{root}.rt"]
    found += libraries(top, name, rlib)
    found += ["--antt-project", f"{kit()}/rattle/logic/antt-project.json"]
    found += ["--logic-built", f"{kit()}/logic_built", "--links", f"{name}="]
    is_static = "staticlib" in crate_lines(top)[name].partition(":")[0].split()
    return found + (["--crate-type", "staticlib"] if is_static else [])


def libraries(
    top: pathlib.Path, name: str, rlib: Callable[[str], pathlib.Path]
) -> Iterator[str]:
    """The words that name the libraries below a crate. Raises OSError, CalledProcessError."""
    below = [it for it in crates_below(top, name) if it != name]
    for it in ["std", *named_by(top)[name]]:
        if it not in below:
            yield from ("--extern", f"{it}={kit()}/rlibs/{it}.rlib")
    yield from ("-L", f"dependency={kit()}/rlibs")
    for it in below:
        yield from ("--extern", f"{it}={rlib(it)}/{it}.rlib", "-L", f"dependency={rlib(it)}")

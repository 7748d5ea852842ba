"""The tasks of the test command: those that run its parts, and those that build what they need."""
import functools
import math

import debian
import edits
import gate
from build_tasks import Builds
from check_parts import BODIES, CRATES, GATE, PRODUCTS, PYTEST, Part
from package import Package
from schedule import Product, Task, TaskError

MOST_SECONDS = 5400.0
"""For how long a part runs that proves nothing; the longest takes half an hour on two cores."""


def words_of(command: str, builds: Builds | Package) -> list[str]:
    """The words of a part's command, with the paths of what is built. Raises TaskError where
    there is no pytest, or a package lacks a part.
    """
    found = []
    for word in command.split():
        if word == PYTEST:
            try:
                found += [debian.python_with(("pytest",)), "-B", "-m", "pytest"]
            except debian.MissingModulesError as lack:
                raise TaskError(str(lack)) from None
        else:
            head, equals, name = word.rpartition("=")
            found.append(head + equals + builds.path(name) if name in PRODUCTS else word)
    return found


def tried_elsewhere(parts: set[str]) -> list[str]:
    """The crates whose wrong bodies the gate leaves to another part."""
    in_gate = dict.fromkeys(it.crate for it in edits.all_edits() if it.is_in_gate)
    return [*in_gate] if BODIES in parts else []


def tasks_of(parts: list[Part], builds: Builds | Package) -> list[Task]:
    """The tasks that run these parts, and those that build what they need. A short run's crates
    come after what else builds crates.
    """
    found = [*builds.tasks()]
    tried = tried_elsewhere({part.name for part in parts})
    for part in parts:
        words = functools.partial(words_of, part.command, builds)
        wanted = part.needs() if isinstance(builds, Builds) else frozenset()
        gives: tuple[Product, ...] = ()
        if part.name == GATE and isinstance(builds, Builds):
            words, gives = functools.partial(gate.words, builds.gate, tried), builds.of_gate()
        if part.name == CRATES.name and isinstance(builds, Builds):
            wanted = frozenset(builds.needed) if not builds.has_gate else wanted
        most = math.inf if part.is_proof else MOST_SECONDS
        found.append(Task(part.name, words, wanted, gives, part.is_alone, part.is_proof, most))
    return found

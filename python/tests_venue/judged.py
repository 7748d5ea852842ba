"""What the journal of a venue must be, by the checks' own model."""
import pathlib
import subprocess
import sys

import served

sys.path.insert(0, str(pathlib.Path(__file__).resolve().parents[2]))

from checks.model import files, tables  # noqa: E402
from checks.model.day import Day, opened  # noqa: E402


def entries(journal: str) -> list[tuple[str, str]]:
    """The record and the reply of each entry of a journal."""
    rows = (line.rpartition(",") for line in journal.splitlines()[1:])
    return [(record, reply) for record, _, reply in rows]


def is_lawful(journal: str) -> bool:
    """Whether each reply of a journal is the one of the rules, by the model, and by the program
    where it is the built one.
    """
    is_legal, _ = tables.audit_text(files.journal(journal))
    if pathlib.Path(served.program()) == served.STAND_IN:
        return bool(is_legal)
    ran = subprocess.run(
        [served.program(), "--audit"], input=journal, capture_output=True, text=True
    )
    return bool(is_legal) and ran.returncode == 0


def day_of(journal: str) -> Day:
    """The day that a journal records."""
    given = files.journal(journal)
    day = opened(given.options)
    for call in given.calls:
        day.apply(*call)
    return day

"""What is said of a whole market. See Summary."""
from collections.abc import Iterable

from callauction.market.forms import OVER
from callauction.market.rows import Row
from callauction.statuses import BAD_FILE, DONE, INCOMPLETE, UNLAWFUL

MOST_NAMED = 20
"""How many unlawful or bad files are named."""


class Summary:
    """The rows of a market, their sums, and whether all is lawful."""

    def __init__(self, rows: Iterable[Row], is_audit: bool) -> None:
        """These rows are of instruments whose files were not run."""
        self.rows = list(rows)
        self.is_audit = is_audit
        self.seconds = 0.0
        """How long the run took, from when its workers were there."""
        self.taken = 0
        """How many rows are those of an earlier run."""
        self.new_entries = 0

    def take_over(self, rows: Iterable[Row]) -> None:
        """Takes in rows of an earlier run."""
        taken = list(rows)
        self.taken += len(taken)
        self.rows += taken

    def add(self, rows: Iterable[Row]) -> None:
        """Takes in rows of this run."""
        for row in rows:
            self.rows.append(row)
            self.new_entries += row.entries or 0

    def total(self, name: str) -> int:
        """The sum of a column."""
        return sum(getattr(row, name) or 0 for row in self.rows)

    def status(self) -> int:
        """The status of the run: of an audit also whether all replies were compared. That of a bad
        file comes first: where one is bad, not all was audited.
        """
        if any(row.fault for row in self.rows):
            return BAD_FILE
        if self.total("unlawful"):
            return UNLAWFUL
        is_complete = self.total("compared") and all(row.is_complete() for row in self.rows)
        return INCOMPLETE if self.is_audit and not is_complete else DONE

    def named(self) -> list[str]:
        """A line for each row with a fault or with something unlawful, by the instruments."""
        lines = []
        for row in sorted(self.rows, key=lambda row: row.instrument):
            if row.fault:
                lines.append(f"{row.instrument}: fault: {row.fault}")
            elif row.unlawful:
                lines.append(
                    f"{row.instrument}: unlawful {row.unlawful} of {row.compared}, the first at "
                    f"entry {row.first_unlawful}"
                )
        return lines

    def counts(self) -> list[str]:
        """The parts of the closing line."""
        counts = [f"instruments {len(self.rows)}", f"entries {self.total('entries')}"]
        if self.is_audit:
            places = sum(1 for row in self.rows if row.unlawful)
            unfinished = sum(1 for row in self.rows if row.day not in (OVER, None))
            counts += [f"compared {self.total('compared')}"]
            counts += [f"unlawful {self.total('unlawful')} in {places}"]
            counts += [f"days not over {unfinished}"]
        rate = self.new_entries / self.seconds if self.seconds else 0
        counts += [f"faults {sum(1 for row in self.rows if row.fault)}"]
        counts += [f"seconds {self.seconds:.1f}", f"entries a second {rate:.0f}"]
        return counts + ([f"taken over {self.taken}"] if self.taken else [])

    def verdict(self) -> str:
        """What an audit found: lawful, unlawful or incomplete."""
        if self.total("unlawful"):
            return "unlawful"
        return "lawful" if self.status() == DONE else "incomplete"

    def lines(self) -> list[str]:
        """What is printed: the unlawful and the bad files, the closing line, and of an audit its
        verdict.
        """
        named = self.named()
        more = [f"and {len(named) - MOST_NAMED} more"] if len(named) > MOST_NAMED else []
        end = [self.verdict()] if self.is_audit else []
        return [*named[:MOST_NAMED], *more, ", ".join(self.counts()), *end]

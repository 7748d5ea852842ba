"""The verdict on an instrument: its word and its counts, its row and its findings as tables."""
import dataclasses
import re
from collections.abc import Iterable, Mapping

import pandas

from callauction.verdict.columns import ExtractError
from callauction.verdict.coverage import PLURALS, Coverage
from callauction.verdict.findings import INCOMPLETE, STATUSES, Finding, Verdict

FAULT = "fault"
"""The verdict of an instrument that can't be judged."""
_COUNTS = (f"{name}{end}" for name in PLURALS.values() for end in ("", "_due"))
INSTRUMENT_COLUMNS = (
    "instrument", "verdict", "findings", *_COUNTS, "bad_rows", "first_finding", "fault", "doubtful",
)  # fmt: skip
"""The columns of the rows: of each item how many were compared and how many the rules give; the
line of the first finding, in the extract's ids, times and prices; why an instrument can't be
judged; and how many findings are doubtful.
"""
RECORD = (
    "instrument", "kind", "rows", "time", "auction", "item", "recorded", "lawful", "why", "effect",
    "moved", "verdict",
)  # fmt: skip
"""The columns of findings: `kind` is `certain` or `doubtful`, `rows` are parted by blanks, `why` is
the rule, or why a finding is doubtful, `effect` and `moved` (parted by semicolons) are a Finding's,
`verdict` is the instrument's. One without findings has a row of the kind `none`, with the fault as
`why` where it can't be judged, or the first row that isn't read.
"""
NO_FINDING = "none"
_THOUSANDS = re.compile(r"\d{1,3}(,\d{3})+")


@dataclasses.dataclass(frozen=True)
class Audited:
    """The verdict on an instrument (its name is empty where the extract is of one): its word, how
    many findings are certain and doubtful, the lines of all, the remarks, the coverage, and how
    many rows are bad. `fault` is why there is no verdict, empty where there is one.
    """

    name: str
    word: str
    findings: int = 0
    doubtful: int = 0
    lines: tuple[str, ...] = ()
    remarks: tuple[str, ...] = ()
    coverage: Coverage = Coverage({})
    bad_rows: int = 0
    first: str | None = None
    fault: str = ""
    found: tuple[Mapping[str, object], ...] = ()
    """The findings, without the verdict (RECORD)."""
    ranges: tuple[str, ...] = ()
    is_unread: bool = False
    """Whether the fault is one of the file, and not of what the day was opened with."""
    lacks_rows: bool = False
    """Whether rows are missing in a sequence whose numbers else have no gap."""

    def plain(self) -> dict[str, object]:
        """What a machine reads of it."""
        counts = {name: [*count] for name, count in self.coverage.counts.items()}
        return {
            "instrument": self.name, "verdict": self.word, "findings": self.findings,
            "doubtful": self.doubtful, "coverage": counts, "bad_rows": self.bad_rows,
            "remarks": [*self.remarks], "ranges": [*self.ranges], "fault": self.fault,
        }  # fmt: skip

    @property
    def records(self) -> list[Mapping[str, object]]:
        """The findings, or that there are none (RECORD)."""
        none = dict.fromkeys(RECORD, "")
        why = self.fault
        if self.bad_rows or self.lacks_rows:
            why = why or self.remarks[0]
        none |= {"instrument": self.name, "kind": NO_FINDING, "why": why}
        return [{**it, "verdict": self.word} for it in self.found or (none,)]

    def row(self) -> dict[str, object]:
        """Its row (INSTRUMENT_COLUMNS)."""
        row: dict[str, object] = {"instrument": self.name, "verdict": self.word}
        if self.fault:
            return {**row, "fault": self.fault}
        for item, (compared, due) in self.coverage.counts.items():
            row[item], row[f"{item}_due"] = compared, due
        counts = {"findings": self.findings, "doubtful": self.doubtful, "bad_rows": self.bad_rows}
        return {**row, **counts, "first_finding": self.first}


def audited(name: str, verdict: Verdict, is_explained: bool = False) -> Audited:
    """The verdict on an instrument in lines. Raises ProgramError."""
    found = (*verdict.findings, *verdict.doubtful)
    first = str(verdict.findings[0]) if verdict.findings else None
    return Audited(
        name, verdict.word, len(verdict.findings), len(verdict.doubtful),
        (*verdict.told(is_explained),), (*verdict.remarks(),), verdict.coverage,
        len(verdict.bad_rows), first, found=tuple(_record(name, it) for it in found),
        ranges=(*verdict.ranges(),), lacks_rows=verdict.rows.lacks_rows,
    )  # fmt: skip


def _record(name: str, finding: Finding) -> Mapping[str, object]:
    """A finding as a row of a table (RECORD), without the verdict."""
    rows = " ".join(map(str, finding.rows))
    values = (
        name, "doubtful" if finding.doubt else "certain", rows, finding.time, finding.auction,
        finding.item, _bare(finding.recorded), _bare(finding.lawful), finding.rule, finding.effect,
        "; ".join(finding.moved),
    )  # fmt: skip
    return dict(zip(RECORD, values))


def _bare(value: str) -> str:
    """A value as a machine reads it: of a number alone its digits."""
    return value.replace(",", "") if _THOUSANDS.fullmatch(value) else value


def instruments_frame(rows: Iterable[dict[str, object]]) -> pandas.DataFrame:
    """Rows as a frame (INSTRUMENT_COLUMNS)."""
    found = pandas.DataFrame([*rows], columns=[*INSTRUMENT_COLUMNS])
    texts = ("instrument", "verdict", "first_finding", "fault")
    kinds = {name: "object" if name in texts else "Int64" for name in INSTRUMENT_COLUMNS}
    return found.astype(kinds)


def worst_of(words: Iterable[str]) -> str:
    """The worst of verdicts, of which a fault is incomplete. Raises ExtractError for none."""
    found = {INCOMPLETE if word == FAULT else word for word in words}
    for word in sorted(STATUSES, key=("unlawful", "incomplete", "lawful").index):
        if word in found:
            return word
    raise ExtractError("the extract has no rows")

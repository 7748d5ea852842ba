"""Was this published auction lawful? The verdict on an extract of a day, or on one auction.

    from callauction.verdict import audit_events

    verdict = audit_events("day.csv", reference="19.90", tick_size="0.01")
    print(verdict)
    for finding in verdict.findings:
        print(verdict.explain(finding), verdict.queue(finding), sep="\\n")

Lawful values are those of the proved library, or of the proved program where the library isn't
there. docs/AUDIT.md has what is judged, what lawful means, and what leaves a finding in doubt.
"""
from callauction.verdict.audits import audit_events
from callauction.verdict.books import audit_auction
from callauction.verdict.columns import ColumnError, ExtractError, refuse_unknown
from callauction.verdict.coverage import Coverage
from callauction.verdict.extract import read_table
from callauction.verdict.findings import Finding, Verdict
from callauction.verdict.instruments import audit_instruments
from callauction.verdict.reading import Reading
from callauction.verdict.rows import BadRow
from callauction.verdict.table import Table

__all__ = [
    "BadRow",
    "ColumnError",
    "Coverage",
    "ExtractError",
    "Finding",
    "Reading",
    "Table",
    "Verdict",
    "audit_auction",
    "audit_events",
    "audit_instruments",
    "read_table",
    "refuse_unknown",
]

"""Faults that are planted beside a damage, and of which days."""
import os

from damage import places
from extracts import Extract

SEEDS = range(40)
DAYS = int(os.environ.get("DAMAGED_DAYS", "120"))
"""How many days are damaged in several ways; by hand more, as DAMAGED_DAYS=5000 says."""


def planted(extract: Extract, before: int) -> int | None:
    """Publishes another volume at an uncross before a place; answers its place."""
    for place in places(extract.rows, "uncross"):
        row = extract.rows[place]
        if place < before and row.get("trades") and row["quantity"] != "0":
            row["quantity"] = str(int(row["quantity"]) + 1)
            return place
    return None

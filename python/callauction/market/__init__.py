"""A market: thousands of instruments, a file each, on the cores of this machine or on the workers
of a Dask client.

    from callauction import market

    paths = market.split("yesterday.csv", days="days.csv", folder="journals")
    found = market.audit(paths)
    print(found[found.unlawful > 0])

The proved program `callboard` decides everything; what it prints is only read here. `python3 -m
callauction.market` is the command line. docs/MARKET.md has the files, the columns and the faults.
"""
import importlib
from typing import TYPE_CHECKING

if TYPE_CHECKING:
    from callauction.market.files import InUse
    from callauction.market.instrument_names import file_of, instrument_of, name_of
    from callauction.market.rows import COLUMNS, Found, Row, frame, read_rows
    from callauction.market.runs import audit, run
    from callauction.market.splitting import TableError, split
    from callauction.market.workers import MarketError
    from callauction.verdict.instruments import audit_instruments as audit_events

__all__ = [
    "COLUMNS",
    "Found",
    "MarketError",
    "InUse",
    "Row",
    "TableError",
    "audit",
    "audit_events",
    "file_of",
    "frame",
    "instrument_of",
    "name_of",
    "read_rows",
    "run",
    "split",
]

_PLACES = {
    "market.files": ("InUse",),
    "market.instrument_names": ("file_of", "instrument_of", "name_of"),
    "market.rows": ("COLUMNS", "Found", "Row", "frame", "read_rows"),
    "market.runs": ("audit", "run"),
    "market.splitting": ("TableError", "split"),
    "market.workers": ("MarketError",),
}


def __getattr__(name: str) -> object:
    """A public name, imported when it is first used, and then kept: a worker needs few, and starts
    in half the time without the others. Raises AttributeError for another name.
    """
    found = globals()[name] = _looked_up(name)
    return found


def __dir__() -> list[str]:
    """The public names, those that weren't used yet among them."""
    return sorted({*globals(), *__all__})


def _looked_up(name: str) -> object:
    """A public name from its module. Raises AttributeError."""
    if name == "audit_events":
        return importlib.import_module("callauction.verdict.instruments").audit_instruments
    for place, names in _PLACES.items():
        if name in names:
            return getattr(importlib.import_module(f"callauction.{place}"), name)
    raise AttributeError(f"module {__name__!r} has no attribute {name!r}")

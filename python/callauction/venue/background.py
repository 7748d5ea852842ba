"""What is done again and again as long as a venue runs: what fails of it once is said, and it goes
on.
"""
import contextlib
from collections.abc import Iterator

from callauction.venue.logger import NOTICES


@contextlib.contextmanager
def going_on(what: str) -> Iterator[None]:
    """Says the fault of what is done meanwhile, by this name, and goes on after it."""
    try:
        yield
    except Exception:
        NOTICES.critical("%s failed, and goes on", what, exc_info=True)

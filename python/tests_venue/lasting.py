"""What fails once of what a venue does again and again."""
import asyncio
from typing import Any

import pytest

SOON = 0.01
"""Seconds between two times, in place of those of a venue."""


class Once:
    """In the place of what is done again and again: it fails, and is done again."""

    def __init__(self) -> None:
        self.count, self.done = 0, asyncio.Event()

    def __call__(self, *args: Any, **kw: Any) -> Any:
        self.count += 1
        if self.count == 1:
            raise ZeroDivisionError("once")
        self.done.set()
        return None

    async def later(self, *args: Any, **kw: Any) -> Any:
        return self(*args, **kw)

    async def again(self) -> None:
        """Waits until it is done again. Raises TimeoutError."""
        async with asyncio.timeout(30.0):
            await self.done.wait()


def has_said(caplog: pytest.LogCaptureFixture) -> bool:
    """Whether the fault was said, with its reason."""
    faults = (it.exc_info[1] for it in caplog.records if it.exc_info)
    return any(isinstance(it, ZeroDivisionError) for it in faults)

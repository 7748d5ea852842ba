"""Wrong codes in the venue's log: each while they are few, then a line a second, so that guessers
don't fill the disk.
"""
import asyncio
import contextvars
import functools

from aiohttp import web

from callauction.venue.log import Log

COUNT_SECONDS = 1.0
"""Seconds for which wrong codes are counted in one line."""


class WrongCodes:
    """The lines of wrong codes in a log."""

    def __init__(self, log: Log) -> None:
        self._log = log
        self._name, self._others, self._context = "", 0, contextvars.copy_context()
        self._waits: asyncio.TimerHandle | None = None

    def note(self, name: str, are_many: bool) -> None:
        """A code was wrong, of somebody who gave this name; where many are, and until the line of
        those is written, it is counted.
        """
        if self._waits is not None:
            self._others += 1
        elif are_many:
            self._name, self._others, self._context = name, 0, contextvars.copy_context()
            self._waits = asyncio.get_running_loop().call_later(COUNT_SECONDS, self._write)
        else:
            self._log.note(kind="wrong_code", name=name)

    async def end(self, application: web.Application) -> None:
        """Writes what is counted, as the venue ends."""
        if self._waits is not None:
            self._waits.cancel()
            self._write()

    def _write(self) -> None:
        """Writes the first one of a second, from where that came, and how many others there were.
        """
        self._waits = None
        note = functools.partial(self._log.note, kind="wrong_code", name=self._name)
        self._context.run(functools.partial(note, others=self._others))

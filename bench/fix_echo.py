"""QuickFIX's sessions behind Python's loop, and no venue: `fix_echo.py FOLDER COMPID..` answers
each order with a report, and prints `echo PORT`. Its stores aren't synced.
"""
import asyncio
import pathlib
import sys

from callauction.fix._quickfix import Engine
from callauction.fix.settings import settings_of
from callauction.fix.tags import FIX44, Given

COPIED = (11, 38, 40, 44, 54, 55)


class Echo:
    """The sessions, and where each is connected."""

    def __init__(self, folder: pathlib.Path, members: list[str]) -> None:
        text = settings_of(folder, dict.fromkeys(members, FIX44))
        self.engine = Engine(text, lambda session, password: True)
        self.count = 0

    def answer(self, session: str, order: Given) -> None:
        """Answers an order."""
        self.count += 1
        pairs = [(tag, order[tag]) for tag in COPIED if tag in order]
        pairs += [(37, str(self.count)), (17, f"XYZ.{self.count}"), (150, "0"), (39, "0")]
        pairs += [(151, order[38]), (14, "0"), (6, "0"), (59, "0"), (60, "20261126-09:00:00")]
        self.engine.send(session, "8", pairs)

    def take(self, number: int, data: bytes) -> None:
        """Takes what came on a connection."""
        self.engine.feed(number, data)
        self.engine.events()
        for session, order, _ in self.engine.said():
            self.answer(session, order)
        self.engine.stored()

    async def serve(self, reader: asyncio.StreamReader, writer: asyncio.StreamWriter) -> None:
        """Serves a connection."""
        number = self.engine.connect()
        writers[number] = writer
        while data := await reader.read(1 << 16):
            self.take(number, data)
            for it, out, *_ in self.engine.outgoing():
                writers[it].write(out)
        self.engine.lost(number)


writers: dict[int, asyncio.StreamWriter] = {}


async def main() -> None:
    echo = Echo(pathlib.Path(sys.argv[1]), sys.argv[2:])
    server = await asyncio.start_server(echo.serve, "127.0.0.1", 0)
    print("echo", server.sockets[0].getsockname()[1], flush=True)
    await server.serve_forever()


if __name__ == "__main__":
    asyncio.run(main())

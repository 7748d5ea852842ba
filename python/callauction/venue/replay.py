"""How the book of an auction grew, and which rule made its price: asked of the program, which is
given the commands of the journal once more, without a journal of its own.
"""
import asyncio
import csv
from collections.abc import Iterable, Iterator, Sequence

from callauction.venue import downloads, ending, shown, views
from callauction.venue.downloads import DownloadError
from callauction.venue.instrument_board import InstrumentBoard
from callauction.venue.json_types import Json
from callauction.venue.phases import UNCROSSED
from callauction.venue.process import LISTED

MOST_FRAMES = 120
"""How many books a replay shows; of a longer auction every second, third and so on."""
ASKED = ("show", "show,ladder")
BookRows = list[dict[str, str]]


async def replay_of(board: InstrumentBoard, program: str, number: int | None = None) -> Json:
    """An auction that ended, by its number from 1, else the last one: its books, one by one, and
    the last of them with the rule that made its price; no books before the first auction has ended.
    Raises DownloadError.
    """
    entries = entries_of(board)
    ends = [place for place, (_, reply) in enumerate(entries) if UNCROSSED.match(reply)]
    found: Json = {
        "type": "replay",
        "instrument": board.terms.name,
        "auctions": len(ends),  # that have ended
        "frames": [],
        "book": None,
    }
    if not ends:
        return found
    place = len(ends) - 1 if number is None else number - 1
    if not 0 <= place < len(ends):
        raise DownloadError(f"{len(ends)} auctions have ended: there is no auction {number}")
    begin, end = (ends[place - 1] + 1 if place else 0), ends[place]
    commands = [record for record, _ in entries[: end + 1]]
    said = await printed_lines([program, "--live", *board.terms.words()], session(commands, begin))
    reference = views.DayView.of(said[-1]).reference
    found["frames"] = frames_of(board, said[:-1], places(begin, end))
    words = [program, "--print", "book", *board.terms.words()]
    table = csv.DictReader(await printed_lines(words, commands))
    rows = [row for row in table if row["command"] == str(end + 1)]
    found["book"] = book_of(board, rows, reference)
    return found


def session(commands: Sequence[str], begin: int) -> Iterator[str]:
    """What a session is asked: the commands before the last, an uncross, with looks at the book
    after some from `begin` on, and at the end at the day.
    """
    shows = set(places(begin, len(commands) - 1))
    for place, command in enumerate(commands[:-1]):
        yield command
        if place in shows:
            yield from ASKED
    yield "show,day"


def entries_of(board: InstrumentBoard) -> list[tuple[str, str]]:
    """The command and the reply of each whole entry of the journal. Raises DownloadError."""
    try:
        with ending.until_done(lambda: f"the journal of {board.identity.key}"):
            text = board.engine.journal.path.read_text(encoding="ascii")
    except OSError as fault:
        raise DownloadError(f"the journal can't be read: {fault.strerror}") from None
    lines = text[: text.rfind("\n") + 1].splitlines()[1:]
    return [(record, reply) for record, _, reply in (line.rpartition(",") for line in lines)]


def places(begin: int, end: int) -> range:
    """The entries of an auction after which its book is shown, the last one always."""
    step = -(-(end - begin) // MOST_FRAMES) or 1
    return range(begin + (end - begin - 1) % step, end, step)


async def printed_lines(words: Sequence[str], records: Iterable[str]) -> list[str]:
    """The lines that the program prints of these records, of which there may be many: others have
    their turn meanwhile. Raises DownloadError.
    """
    given = await asyncio.to_thread("\n".join, [*records, ""])
    printed = await downloads.printed_bytes(words, given.encode("ascii"))
    return await asyncio.to_thread(printed.decode("ascii").splitlines)


def frames_of(board: InstrumentBoard, said: Sequence[str], entries: Sequence[int]) -> list[Json]:
    """The indications and the books of a session's lines, by the places of their entries."""
    shows = shows_of(said)
    frames = []
    for entry, (indicated, ladder) in zip(entries, zip(shows, shows)):
        found = views.Indication.of(indicated[0])
        levels = [
            [shown.price_of(board, it.limit), it.bid, it.ask]
            for it in views.levels_in_view(ladder)
        ]
        indication = shown.indication_of(board, found)
        frames.append({"entry": entry + 1, "indication": indication, "levels": levels})
    return frames


def shows_of(said: Sequence[str]) -> Iterator[list[str]]:
    """The answers to views among the lines of a session, each with the lines that it lists."""
    lines = iter(said)
    for line in lines:
        if line.startswith("show"):
            listed = LISTED.match(line)
            yield [line, *(next(lines) for _ in range(int(listed[1]) if listed else 0))]


def book_of(board: InstrumentBoard, rows: BookRows, reference: int) -> Json:
    """A book as the program prints it, the highest limit first: what is bid and asked at market and
    at each limit, what that comes to, which limits are best, the price and the rule that made it.
    """
    found: Json = {
        "reference": shown.price_of(board, reference),
        "market": {"bid": 0, "ask": 0},
        "levels": [],
        "price": None,
        "rule": None,
    }
    counts = ("bid", "ask", "demand", "supply", "volume", "surplus")
    for row in rows:
        if row["limit"] == "market":
            found["market"] = {side: int(row[side]) for side in ("bid", "ask")}
            continue
        price = shown.price_of(board, int(row["limit"]))
        level: Json = {"price": price, "side": row["side"], "is_best": row["best"] == "1"}
        found["levels"].append(level | {name: int(row[name]) for name in counts})
        if row["price"]:
            found["price"], found["rule"] = price, row["price"]
    return found

"""What an uncross did, as the program shows it: a second run of it, on the journal's commands up to
there, shows the open orders before and after, the trades, and where the day is.
"""
import asyncio
import dataclasses
from collections.abc import Sequence

from callauction.venue import replay, views
from callauction.venue.downloads import DownloadError
from callauction.venue.instrument_board import InstrumentBoard
from callauction.venue.phases import OVER

NO_RESERVE = ("--reserve", "0")
"""Each command of the journal was taken, those that were kept for the operator too."""
PROGRAM_SECONDS = 60.0
"""How long the program may take."""
Open = dict[int, views.MemberOrder]


@dataclasses.dataclass(frozen=True)
class Seen:
    """The open orders before an uncross and after it, by their numbers; its trades; whether the day
    is over.
    """

    before: Open
    after: Open
    trades: list[views.DayTrade]
    is_over: bool


async def seen_at(board: InstrumentBoard, program: str, place: int, known: int) -> Seen:
    """What the uncross at this place of the journal, from 1, did, once the program has said it;
    `known` trades were made before. A journal may be long, and others have their turn meanwhile.
    Raises DownloadError.
    """
    records = await asyncio.to_thread(views_at, board, place, known)
    words = [program, "--live", *NO_RESERVE, *board.terms.words()]
    try:
        async with asyncio.timeout(PROGRAM_SECONDS):
            said = await replay.printed_lines(words, records)
    except TimeoutError:
        raise DownloadError(f"the program hasn't ended for {PROGRAM_SECONDS:g} s") from None
    except OSError as fault:
        raise DownloadError(str(fault)) from None
    return await asyncio.to_thread(seen_in, said)


def views_at(board: InstrumentBoard, place: int, known: int) -> list[str]:
    """What the program is asked for that. Raises DownloadError."""
    commands = [record for record, _ in replay.entries_of(board)[:place]]
    asked = ["show,orders", commands[-1], "show,orders", f"show,trades,{known + 1}", "show,day"]
    return [*commands[:-1], *asked]


def seen_in(said: Sequence[str]) -> Seen:
    """What the program has said of an uncross."""
    before, after, trades, day = [*replay.shows_of(said)]
    is_over = views.DayView.of(day[0]).auction == OVER
    return Seen(open_of(before), open_of(after), views.trades_in_view(trades), is_over)


def open_of(lines: Sequence[str]) -> Open:
    """The rows of `show,orders` by their orders."""
    return {it.order: it for it in views.orders_in_view(lines)}

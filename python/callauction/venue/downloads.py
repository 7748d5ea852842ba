"""What the operator takes home: of a board the journal as the program wrote it and the names of its
members; of all rounds what members traded, gained and are paid, the trades, and a report.
"""
import asyncio
import contextlib
import csv
import dataclasses
import errno
import io
import json
import pathlib
import re
import sys
import tempfile
import time
from collections.abc import Callable, Iterator, Sequence
from typing import Any
from urllib.parse import quote

from callauction.venue import config, results
from callauction.venue.instrument_board import InstrumentBoard
from callauction.venue.member_names import plain
from callauction.venue.members import Members, VenueMember
from callauction.venue.rounds import Round
from callauction.venue.sheets import PLAIN, SheetRow, table

DOWNLOADS = {
    "journal": ("csv", "text/csv"),
    "members": ("csv", "text/csv"),
    "results": ("csv", "text/csv"),
    "trades": ("csv", "text/csv"),
    "report": ("html", "text/html"),
}
"""By its name, how the file of a download ends, and its type."""
GERMAN_NAMES = {
    "members": "Namen", "results": "Ergebnisse", "trades": "Abschlüsse", "report": "Bericht",
}  # fmt: skip
"""What downloads are called in German, where that is another word."""
MOST_TITLE_LETTERS = 40
"""The letters of a lesson's title in the name of a file."""
OF_BOARD = ("journal", "members")
"""The downloads that are of one board, and not of all rounds."""
OF_ALL = ("results", "trades", "report")
RESULT_COLUMNS = (
    *("round", "title", "practice", "instrument", "name", "robot", "side", "value", "quantity"),
    *("bought", "paid", "sold", "received", "gain", "possible", "efficiency", "payoff", "removed"),
)
"""The columns of the results: a row for each member on each board of each round, and at the end one
for each member, whose round is `all`. Who was removed has those of the rounds in which it traded or
had a value, and then one of all. Money and prices are decimal numbers of the currency.
"""
TRADE_COLUMNS = (
    *("round", "instrument", "auction", "trade", "buyer", "seller", "quantity", "price", "amount"),
)
NO_OR_YES = ("no", "yes")
"""What a table says of what isn't so, and of what is."""
NAMES_FILE, RESULTS_FILE = ".members.csv", "results.csv"
"""What a day leaves at its end: for each board, behind its key, its members' names; its results."""
ENDED_BY_SIGNAL = re.compile(r".*: callboard ended with status -(\d+)")
NO_MEMORY = re.compile(
    r".*MemoryError\b.*|(.*: )?out of memory"
    "|.*: callboard can't be run: (Cannot allocate memory|Resource temporarily unavailable)"
)
"""The last line of a process whose program was ended by a signal, or for which memory was short."""
SAFE_PATH = ("-P",) if sys.flags.safe_path else ()
"""As this process, one that it starts takes no modules from the folder in which it was begun."""
Titles = Callable[[str], str]
"""What gives the name that others read of a member by its name in the log."""


class DownloadError(Exception):
    """It can't be made; the text says why."""


class NotNowError(DownloadError):
    """It can't be made now, as memory is short, or as what makes it was ended: who asks may ask
    again.
    """

    def __init__(self, why: str) -> None:
        super().__init__(f"it can't be made now, as {why}: try again")


@dataclasses.dataclass(frozen=True)
class Lesson:
    """What a venue has of all rounds, the program that prints its journals, and when it was begun,
    in seconds of the epoch.
    """

    day: config.DayTerms
    rounds: Sequence[Round]
    members: Members
    program: str
    began: float = 0.0

    def boards(self) -> Iterator[tuple[Round, InstrumentBoard]]:
        """Each board of each round."""
        for round_ in self.rounds:
            for board in round_.boards.values():
                yield round_, board


async def made(kind: str, lesson: Lesson, board: InstrumentBoard, language: str = PLAIN) -> bytes:
    """The bytes of a download, in a language of sheets.SHEET_LANGUAGES. Raises DownloadError."""
    if kind == "members":
        return numbers_table(board, lesson.members.title_of, language)
    if kind == "journal":
        return journal_of(board)
    if kind == "results":
        return results_table(lesson, language)
    try:
        with tempfile.TemporaryDirectory() as folder:
            return await made_in(folder, kind, lesson, language)
    except OSError as fault:
        raise DownloadError(f"it can't be made: {fault.strerror}") from None


async def made_in(folder: str, kind: str, lesson: Lesson, language: str) -> bytes:
    """The trades or the report, by journals that are copied to this folder. Raises DownloadError,
    and OSError.
    """
    paths = {}
    for _, each in lesson.boards():
        paths[each.identity.key] = path = pathlib.Path(folder, f"{each.identity.key}.csv")
        path.write_bytes(journal_of(each))
    if kind == "trades":
        return table(TRADE_COLUMNS, await trade_rows(lesson, paths), language)
    asked = json.dumps(await asked_of(lesson, paths, language)).encode("utf-8")
    words = [sys.executable, *SAFE_PATH, "-m", "callauction.venue.report"]
    return await printed_bytes(words, asked)


def file_of(kind: str, lesson: Lesson, board: InstrumentBoard, language: str = PLAIN) -> str:
    """The name of a download's file, by which those of many lessons are told apart."""
    title = re.sub(r"\W+", "-", lesson.day.title)[:MOST_TITLE_LETTERS].strip("-")
    day = time.strftime("%Y-%m-%d", time.localtime(lesson.began))
    word = GERMAN_NAMES.get(kind, kind) if language == "de" else kind
    words = [title, day, *([board.identity.key] if kind in OF_BOARD else []), word]
    return f"{'-'.join(filter(None, words))}.{DOWNLOADS[kind][0]}"


def disposition(name: str) -> str:
    """The head of a file's answer, with its name for programs that know ASCII alone, too."""
    plain_name = re.sub(r"[^ -~]", "_", name)
    return f"attachment; filename=\"{plain_name}\"; filename*=UTF-8''{quote(name)}"


def journal_of(board: InstrumentBoard) -> bytes:
    """The whole lines of a journal. Raises DownloadError."""
    try:
        journal = board.engine.journal.path.read_bytes()
    except OSError as fault:
        raise DownloadError(f"the journal can't be read: {fault.strerror}") from None
    return journal[: journal.rfind(b"\n") + 1]


async def printed_bytes(words: Sequence[str], given: bytes) -> bytes:
    """What a command prints of an input; where nobody waits for that any more it is ended. Raises
    DownloadError.
    """
    child = await started(words)
    try:
        out, error = await child.communicate(given)
    except asyncio.CancelledError:
        with contextlib.suppress(ProcessLookupError):
            child.kill()
        raise
    if child.returncode == 0:
        return out
    last, status = error.decode("utf-8", "replace").strip().rpartition("\n")[2], child.returncode
    if why := passing_fault(status or 0, last):
        raise NotNowError(why)
    raise DownloadError(last or f"{words[0]} ended with status {status}")


def passing_fault(status: int, last: str) -> str:
    """Why a process with this status and last line may end well another time; empty where it won't.
    """
    found = ENDED_BY_SIGNAL.fullmatch(last)
    number = int(found[1]) if found else max(0, -status)
    if number:
        return f"its process was ended by signal {number}"
    return "memory is short" if NO_MEMORY.fullmatch(last) else ""


async def started(words: Sequence[str]) -> asyncio.subprocess.Process:
    """A process of a command. Raises DownloadError."""
    pipe = asyncio.subprocess.PIPE
    try:
        return await asyncio.create_subprocess_exec(*words, stdin=pipe, stdout=pipe, stderr=pipe)
    except RuntimeError:  # no thread that waits for its end
        raise NotNowError("memory is short") from None
    except OSError as fault:
        if fault.errno in (errno.EAGAIN, errno.ENOMEM):
            raise NotNowError("memory is short") from None
        raise DownloadError(f"it can't be made: {fault.strerror}") from None


# ---- tables


def numbers_table(board: InstrumentBoard, title_of: Titles, language: str = PLAIN) -> bytes:
    """The names of the members by their numbers in the journal."""
    numbers = board.book.numbers.items()
    rows: list[SheetRow] = [{"number": it, "name": plain(title_of(name))} for name, it in numbers]
    return table(("number", "name"), rows, language)


def results_table(lesson: Lesson, language: str = PLAIN) -> bytes:
    """The results as a CSV file."""
    return table(RESULT_COLUMNS, result_rows(lesson), language)


def result_rows(lesson: Lesson) -> Iterator[SheetRow]:
    """The results of all members, round by round, and then what they are paid, with who was removed
    and had a part.
    """
    those = {it.name: it for it in lesson.members.all}
    for member, row in parts_of(lesson):
        those[member.name] = member
        yield row
    for it in results.payoffs(lesson.day, lesson.rounds, those.values()):
        paid: SheetRow = {"round": "all", "name": plain(it.title), "gain": it.gain}
        yield paid | {"payoff": it.paid, "removed": NO_OR_YES[it.is_removed]}


def parts_of(lesson: Lesson) -> Iterator[tuple[VenueMember, SheetRow]]:
    """The members of each board, with what each came to there: who was removed where it had a part
    alone.
    """
    for round_, board in lesson.boards():
        for member in lesson.members.everybody:
            has_part = member.name in board.book.numbers or member.name in board.accounts.values
            is_there = round_.group_of(member.name) == board.identity.group
            if has_part or (is_there and not member.is_removed):
                head: SheetRow = {"name": plain(member.title), "robot": member.robot}
                head["removed"] = NO_OR_YES[member.is_removed]
                yield member, head | result_row(lesson.day, round_, board, member.name)


def result_row(
    day: config.DayTerms, round_: Round, board: InstrumentBoard, member: str
) -> SheetRow:
    """What a member came to on a board."""
    fills = board.accounts.fills_of(member)
    found: SheetRow = {
        "round": round_.number,
        "title": plain(round_.treatment.title),
        "practice": NO_OR_YES[round_.treatment.is_practice],
        "instrument": board.terms.name,
    }
    for side, shares, money in (("bid", "bought", "paid"), ("ask", "sold", "received")):
        those = [it for it in fills if it.side == side]
        found[shares] = sum(it.quantity for it in those)
        found[money] = results.amount_of(board, sum(it.quantity * it.tick for it in those))
    if value := board.accounts.values.get(member):
        price = board.terms.price(value.tick)
        found |= {"side": value.side, "value": price, "quantity": value.quantity}
    if board.accounts.has_values:
        found |= gain_cells(day, round_, board, member)
    return found


def gain_cells(
    day: config.DayTerms, round_: Round, board: InstrumentBoard, member: str
) -> SheetRow:
    """What a member gained on a board, what all could, and the share of it that they did."""
    gain = results.amount_of(board, board.accounts.gain_of(member))
    most = board.accounts.most
    found: SheetRow = {"gain": gain, "possible": results.amount_of(board, most)}
    if most:
        found["efficiency"] = f"{board.accounts.gain / most:.4f}"
    if not round_.treatment.is_practice:
        found["payoff"] = day.payoff.rate * gain
    return found


async def trade_rows(lesson: Lesson, paths: dict[str, pathlib.Path]) -> list[SheetRow]:
    """The trades of all rounds, with the names of both members, in money. Raises DownloadError."""
    found: list[SheetRow] = []
    for round_, board in lesson.boards():
        given = paths[board.identity.key].read_bytes()
        printed = await printed_bytes([lesson.program, "--print", "trades"], given)
        for row in csv.DictReader(io.StringIO(printed.decode("ascii"))):
            quantity, tick = int(row["quantity"]), int(row["tick"])
            names = [board.book.names.get(int(row[f"{it}_member"]), "") for it in ("bid", "ask")]
            buyer, seller = (plain(lesson.members.title_of(it)) for it in names)
            found.append(
                {
                    "round": round_.number,
                    "instrument": board.terms.name,
                    "auction": row["auction"],
                    "trade": int(row["trade"]),
                    "buyer": buyer,
                    "seller": seller,
                    "quantity": quantity,
                    "price": board.terms.price(tick),
                    "amount": results.amount_of(board, quantity * tick),
                }
            )
    return found


# ---- the report


async def asked_of(
    lesson: Lesson, paths: dict[str, pathlib.Path], language: str
) -> dict[str, Any]:
    """What report.py makes a page of. Raises DownloadError."""
    trades = await trade_rows(lesson, paths)
    rows = [*result_rows(lesson)]
    boards = [report_board(lesson, round_, board, language) for round_, board in lesson.boards()]
    for it in boards:
        it["journal"] = str(paths[it["key"]])
    return {
        "title": lesson.day.title,
        "language": language or "en",
        "currency": lesson.day.paid_in,
        "boards": boards,
        "results": [{key: str(value) for key, value in row.items()} for row in rows],
        "trades": [{key: str(value) for key, value in row.items()} for row in trades],
    }


def report_board(
    lesson: Lesson, round_: Round, board: InstrumentBoard, language: str
) -> dict[str, Any]:
    """What a report says of a board."""
    most = board.accounts.most
    return {
        "key": board.identity.key,
        "title": title_of(lesson, round_, board, language),
        "round": round_.number,
        "instrument": board.terms.name,
        "tick_size": format(board.terms.grid.tick_size, "f"),
        "currency": board.terms.currency,
        "possible": format(results.amount_of(board, most), "f"),
        "efficiency": f"{100 * board.accounts.gain // most} %" if most else None,
    }


def title_of(lesson: Lesson, round_: Round, board: InstrumentBoard, language: str) -> str:
    """The heading of a board's part of a report."""
    named, practice = ("Runde", "Übung") if language == "de" else ("Round", "practice")
    words = [f"{named} {round_.number}"] if len(lesson.rounds) > 1 else []
    if round_.treatment.title:
        words.append(round_.treatment.title)
    if len(round_.boards) > 1 or not words:
        words.append(board.terms.name)
    if round_.treatment.is_practice:
        words.append(practice)
    return " · ".join(words)

"""The past of a venue: when its folder was begun, what of its day is another since, and what the
lines of its log say.
"""
import asyncio
import pathlib
import time
from collections.abc import Iterable

from callauction.venue import day_changes
from callauction.venue.instrument_board import InstrumentBoard
from callauction.venue.log import Line, taking
from callauction.venue.members import Done
from callauction.venue.recovery import Entry, MemberMessage, Settled
from callauction.venue.rounds import Round
from callauction.venue.timekeeping import is_shift
from callauction.venue.treatments import Treatment
from callauction.venue.venue_parts import VenueParts


class Past:
    """The past of a venue, whose folder `began` then, and of whose day these `changes` were made
    since.
    """

    def __init__(self, parts: VenueParts) -> None:
        self._day, self._log, self._rounds = parts.day, parts.log, parts.rounds
        self._members, self._audience, self._values = parts.members, parts.audience, parts.values
        self.began, self.changes = time.time(), list[str]()

    def learn_day(self, lines: list[Line], folder: pathlib.Path) -> None:
        """Learns when the folder was begun, and what of its day is another since. Raises
        OtherDayError, and LogError.
        """
        changes = day_changes.changes(self._day, lines, folder)
        if changes is None or changes or not day_changes.has_sessions(lines):
            self._log.note(kind="day", **day_changes.kept(self._day))
        self.changes = changes or []
        self.began = next((line["time"] for line in lines if "time" in line), self.began)

    def replay(self, lines: Iterable[Line], settled: dict[str, Settled]) -> None:
        """Takes what the log's lines say, in their order."""
        became = {key: iter(those) for key, those in settled.items()}
        boards = self._rounds.boards
        for line in lines:
            board = boards.get(line.get("instrument", ""))
            with taking(line):
                if self._members.replay(line):
                    continue
                if is_shift(line):
                    for key in settled:
                        boards[key].auctions.set_back(line["behind"])
                elif board is None:
                    self._replay_venue(line)
                elif board.identity.key not in settled:
                    continue
                elif line["kind"] == "sent":
                    self._replay_message(board, *next(became[board.identity.key]))
                else:
                    board.replay_line(line)

    def _replay_venue(self, line: Line) -> None:
        """Takes a line of the log about the venue."""
        kind = line["kind"]
        if kind == "round":
            self._replay_begin(self._rounds.all[line["round"] - 1], line["groups"])
        elif kind == "beamer":
            self._audience.screen.shows = line["shows"]
        elif kind == "payoffs":
            self._audience.payoff_view.shows = line["shows"]
        elif kind in ("treat", "message", "dealt", "listed", "deal"):
            self._replay_round(self._rounds.all[line["round"] - 1], line)

    def _replay_begin(self, round_: Round, groups: int) -> None:
        """Takes the begin of a round with as many groups: until its members are dealt each is where
        it was, or in the only one.
        """
        if groups == 1:
            self._members.move({it.name: 1 for it in self._members.everybody})
        elif round_.number > 1:
            round_.places |= self._rounds.all[round_.number - 2].places

    def _replay_round(self, round_: Round, line: Line) -> None:
        """Takes a line of the log about a round."""
        if line["kind"] == "treat":
            round_.treat(Treatment.of(line["treatment"]), self._day.plan)
        elif line["kind"] == "message":
            round_.message = line["text"]
        elif line["kind"] == "deal":
            self._members.move(line["groups"])
            round_.move(line["groups"])
        else:
            self._values.replay(round_, line)

    def _replay_message(
        self, board: InstrumentBoard, message: MemberMessage, entry: Entry | None
    ) -> None:
        """Takes a message of an earlier run, and its entry; one that wasn't executed never was."""
        if entry is not None:
            board.replay(message, entry)
            if member := self._members.named(message.member):
                answer = asyncio.get_running_loop().create_future()
                answer.set_result(entry)
                rest = message.record.partition(",")[2]
                member.keep(message.number, Done(board.identity.instrument, rest, answer))
        board.on_entry(message, entry)

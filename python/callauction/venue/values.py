"""The values that members are handed out: by the rule of a round, by the operator, and from lists.
"""
import dataclasses

from callauction.venue.audience import Audience
from callauction.venue.gains import ShareValue
from callauction.venue.handing import ListedValue, Rule, rows_of_members
from callauction.venue.instrument_board import InstrumentBoard
from callauction.venue.log import Line, Log
from callauction.venue.member_names import folded
from callauction.venue.members import Members, VenueMember
from callauction.venue.rounds import Round, Rounds

ListedRows = tuple[ListedValue, ...]


class Values:
    """The rounds whose values were handed out, by their numbers, and by rounds and instruments the
    rows of lists for who hasn't joined yet.
    """

    def __init__(self, log: Log, members: Members, rounds: Rounds, audience: Audience) -> None:
        self._log, self._members, self._rounds = log, members, rounds
        self._audience = audience
        self._dealt: set[int] = set()
        self._listed: dict[tuple[int, str], ListedRows] = {}

    @property
    def are_dealt(self) -> bool:
        """Whether the values of the round that is played were handed out."""
        return self._rounds.now.number in self._dealt

    def replay(self, round_: Round, line: Line) -> None:
        """Takes a line of the log about the values of a round."""
        if line["kind"] == "dealt":
            self._dealt.add(round_.number)
        else:
            rows = tuple(ListedValue(**row) for row in line["rows"])
            self._listed[round_.number, line["market"]] = rows

    # ---- those of a round

    async def begin_call(self, boards: list[InstrumentBoard]) -> None:
        """Hands out the values of the first round before its first call, and sees all that was
        done. Raises MessageError.
        """
        now = self._rounds.now
        if not self.are_dealt and not now.has_begun:
            has_values = any(it.accounts.has_values for it in now.boards.values())
            has_values |= any(rows for (it, _), rows in self._listed.items() if it == now.number)
            if now.treatment.rule.how in ("chance", "schedule", "list") and not has_values:
                for board in now.boards.values():
                    board.engine.check_known()
                self.give_round({})
                self._audience.show_all()
        for board in boards:
            await board.looks.refresh()

    def give_round(self, before: dict[str, dict[str, ShareValue]]) -> None:
        """Hands out the values of a round before its first call, once, where members had others
        before, by instruments.
        """
        now = self._rounds.now
        for board in now.boards.values():
            held = before.get(board.identity.instrument, {})
            board.hand(board.dealt(now.treatment.rule, self._members.all, held), True)
        self._dealt.add(now.number)
        self._log.note(kind="dealt", round=now.number)

    # ---- those that the operator gives

    async def give(
        self,
        instrument: str,
        rule: Rule,
        members: list[VenueMember],
        before: dict[str, ShareValue],
        is_to_all: bool,
    ) -> int:
        """Hands out values to members, who had others before: to how many. Raises MessageError, and
        HandError where the rule can't be followed.
        """
        given = 0
        for board in self._rounds.now.of_instrument(instrument):
            values = board.dealt(rule, members, before)
            if values or is_to_all:
                await board.give(values, is_to_all)
                self._audience.show_gains(board)
            given += len(values)
        return given

    def check_listed(self, instrument: str, rows: ListedRows) -> None:
        """Raises HandError where the rows of a list can't be given in an instrument."""
        if rows:
            tick = self._rounds.now.of_instrument(instrument)[0].terms.value_tick
            Rule("list", rows=rows).check(tick)

    def keep_listed(self, instrument: str, rows: ListedRows, is_to_all: bool) -> None:
        """Keeps the rows of a list for those who haven't joined yet, in place of all that are kept
        where it is to all, else of those for the same names.
        """
        now = self._rounds.now
        names, held = {folded(it.member) for it in rows}, self._listed_in(now, instrument)
        before = () if is_to_all else held
        kept = (*(it for it in before if folded(it.member) not in names), *rows)
        if kept == held:
            return
        self._listed[now.number, instrument] = kept
        lines = [dataclasses.asdict(it) for it in kept]
        self._log.note(kind="listed", round=now.number, market=instrument, rows=lines)

    def _listed_in(self, round_: Round, instrument: str) -> ListedRows:
        """The rows that wait in a round: also those of the last one where values are kept, and
        those of the round's own list once it is handed out.
        """
        if (rows := self._listed.get((round_.number, instrument))) is not None:
            return rows
        rule = round_.treatment.rule
        if rule.how == "list" and round_.number in self._dealt:
            return rule.rows
        if rule.how == "keep" and round_.number > 1:
            return self._listed_in(self._rounds.all[round_.number - 2], instrument)
        return ()

    def give_listed(self, newcomers: list[VenueMember]) -> None:
        """Hands out to members who have no value the one that waits for them in a list."""
        titles = {it.title: it.name for it in newcomers}
        for board in self._rounds.now.boards.values():
            listed = self._listed_in(self._rounds.now, board.identity.instrument)
            rows, _ = rows_of_members(listed, titles)
            members = [it for it in newcomers if it.name not in board.accounts.values]
            if rows and (values := board.dealt(Rule("list", rows=rows), members, {})):
                board.hand(values, False)
                self._audience.show_gains(board)

"""The numbers of a session's messages, in the venue, and what came of each: since the session was
last reset, and for the day by the ids that clients give them.
"""
import collections
import itertools
from collections.abc import Collection, Container
from typing import NamedTuple, Self

from callauction.fix.board_orders import NUMBER, SINCE, entry_event
from callauction.fix.order_fields import MOST_ID_LETTERS, check_client
from callauction.fix.refusals import UNUSED
from callauction.fix.tags import FixFields, Given, Status, Tag, Type, body_of, event_in, refusal_of
from callauction.venue.instrument_board import InstrumentBoard
from callauction.venue.recovery import Entry, MemberMessage

PART_BIT, EPOCH_BIT = 32, 64
"""At which bit the part of a message and the epoch of a session begin."""
NUMBER_MASK = (1 << (EPOCH_BIT - PART_BIT)) - 1
OF_CLIENTS = (Type.CANCEL_REJECT, Type.MASS_CANCELED)
"""Messages that answer one whose ClOrdID is used then, beside reports."""
OF_MASS = (11, 54, 55, 58, 530, 531, 532, 533)
"""The tags of what is said to a mass cancel, but for its own id."""


def key_of(message: int, part: int = 0, epoch: int = 0) -> int:
    """A MessageNumber as one number, which is the MsgSeqNum where nothing else is said."""
    return message | part << PART_BIT | epoch << EPOCH_BIT


class MessageNumber(NamedTuple):
    """A message by its MsgSeqNum, 0 for none that came; which of the deletions that it came to,
    from 1, else 0; and how often its session was reset before.
    """

    message: int
    part: int = 0
    epoch: int = 0

    @property
    def key(self) -> int:
        """It as one number."""
        return key_of(*self)

    @classmethod
    def of(cls, key: int) -> Self:
        """The number of a key."""
        if key <= NUMBER_MASK:
            return cls(key)
        return cls(key & NUMBER_MASK, key >> PART_BIT & NUMBER_MASK, key >> EPOCH_BIT)


class Epoch:
    """An epoch of a session, which a reset began; in ids it has a `name`: its number, behind the
    mark of the last restore before that, as what was lost then had the same, and empty where there
    was no reset. `told` has the events that the session's store has, each with its number, and
    `reached` the number of the last one of each board; `promised` the events whose reports aren't
    sent yet, and the numbers that the log says for them, 0 for none; `owed` those that an earlier
    run may have sent under their numbers. `awaited` has the messages that boards haven't answered,
    `lost` those in the log that were never executed, and `deleted` how many orders each took out.
    """

    def __init__(self, comp_id: str, number: int, mark: str) -> None:
        self.comp_id, self.number = comp_id, number
        self.name = f"{mark}-{number}" if number and mark else str(number or "")
        self.told: dict[str, int] = {}
        self.reached: collections.Counter[str] = collections.Counter()
        self.promised: dict[str, int] = {}
        self.owed: dict[str, int] = {}
        self.awaited: dict[int, None] = {}
        self.lost: dict[int, tuple[InstrumentBoard, MemberMessage]] = {}
        self.deleted: collections.Counter[int] = collections.Counter()
        self._is_done: dict[int, bool] = {}
        self._parts: collections.Counter[int] = collections.Counter()
        self._firm, self._greatest = 1, 0

    def refusal_of(self, number: object) -> str:
        """The id of the answer to a message that wasn't executed."""
        return refusal_of(self.comp_id, number, self.name)

    def event_in(self, given: Given) -> str:
        """The id of what a message to the session says, empty where it has none."""
        return event_in(given, self.comp_id, self.name)

    def number_of(self, message: int, part: int = 0) -> MessageNumber:
        """The number in the venue of a message, or of a part of it."""
        return MessageNumber(message, part, self.number)

    def next_part(self, message: int) -> MessageNumber:
        """The number in the venue of one more part of a message, or of none (0)."""
        self._parts[message] += 1
        return self.number_of(message, self._parts[message])

    def expected(self) -> int:
        """The number of the first message that may be missing: in the log, and never executed nor
        refused, or the first that isn't settled after those that are for sure.
        """
        head = self.refusal_of("")
        refused = (it.removeprefix(head) for it in self.told if it.startswith(head))
        settled = {int(it) for it in refused if it.isdecimal()}
        settled |= {number for number, is_done in self._is_done.items() if is_done}
        first = next(it for it in itertools.count(self._firm) if it not in settled)
        return min([first, *self._is_done.keys() - settled])

    # ---- what was said

    def promise(self, following: int) -> int:
        """The number under which the next command will be answered if nothing else comes before
        that, 0 where this was said of another command; the next message is the `following` one.
        """
        found = following + len(self.awaited) + len(self.promised)
        return found if found > self._greatest else 0

    def submitted(self, message: int, promised: int) -> None:
        """A message has become a command, to be answered under this number, 0 for none."""
        self._greatest = promised or self._greatest
        self.awaited[message] = None

    def entered(
        self,
        board: InstrumentBoard,
        message: MemberMessage,
        number: MessageNumber,
        entry: Entry | None,
    ) -> None:
        """A message of this number in the log has its entry, or never had one."""
        if number.part:
            self._parts[number.message] = max(self._parts[number.message], number.part)
            self.deleted[number.message] += entry is not None and entry.reply == "deleted"
            if not number.message:
                return
        else:
            self._firm = max(self._firm, int(message.note.get(SINCE, number.message + 1)))
            if entry is not None:
                self.awaited.pop(number.message, None)
                self.promised[entry_event(board, entry.place)] = int(message.note.get(NUMBER, "0"))
        is_done = entry is not None and not number.part
        self._is_done[number.message] = self._is_done.get(number.message, False) or is_done
        if self._is_done[number.message]:
            self.lost.pop(number.message, None)
        else:
            self.lost[number.message] = board, message

    # ---- what was told in earlier runs

    def recall(self, event: str, number: int, since: int) -> None:
        """Recalls an event, and under which number it was told, as all before `since` was settled,
        or, where that is 0, all before what it answers.
        """
        self.told[event] = number
        answered = event.removeprefix(self.refusal_of(""))
        if answered.isdecimal():
            following = int(answered) + 1
            self._firm = max(self._firm, min(since or following, following))

    def owe(self, sent: Collection[Container[int]]) -> None:
        """Finds the reports that an earlier run may have sent under the numbers that the log says,
        but for numbers under which something else was sent.
        """
        those = {event: it for event, it in self.promised.items() if it and event not in self.told}
        free = {it for it in those.values() if not any(it in numbers for numbers in sent)}
        self.owed = {event: it for event, it in those.items() if it in free}
        self.promised = {}


class Clients:
    """The ids of a session's client: of which message each is, what was said to mass cancels by
    theirs, and why other messages were `refused`, by a report or an OrderCancelReject.
    """

    def __init__(self) -> None:
        self.numbers: dict[str, MessageNumber] = {}
        self.mass: dict[str, FixFields] = {}
        self.refused: dict[str, tuple[Type, FixFields]] = {}

    def is_used(self, given: Given, own: MessageNumber) -> bool:
        """Whether an id was another message's. Raises SeatError where it is none."""
        check_client(given)
        return self.numbers.get(given[Tag.CL_ORD_ID], own) != own

    def keep(self, given: Given, own: MessageNumber, answer: FixFields = []) -> None:
        """The id of a message is its own for the day, also where it was refused, but as too long or
        for UNUSED; a mass cancel's with what is said to it.
        """
        if len(client := given[Tag.CL_ORD_ID]) <= MOST_ID_LETTERS:
            self.numbers.setdefault(client, own)
            if answer:
                self.mass.setdefault(client, answer)

    def told(self, kind: Type, pairs: FixFields) -> None:
        """Keeps what is said to a message that is refused, but for UNUSED."""
        is_refusal = kind == Type.REPORT and (Tag.EXEC_TYPE, Status.REJECTED) in pairs
        if not is_refusal and kind != Type.CANCEL_REJECT:
            return
        given = dict(pairs)
        client = given.get(Tag.CL_ORD_ID, "")
        if len(client) <= MOST_ID_LETTERS and given.get(Tag.TEXT) not in UNUSED:
            said = [it for it in pairs if it[0] != Tag.TRANSACT_TIME]
            self.refused.setdefault(client, (kind, said))

    def learn(self, pairs: FixFields, epoch: Epoch) -> None:
        """Learns what a session was told in an earlier run of a message that wasn't executed."""
        given = dict(pairs)
        event = epoch.event_in(given)
        number = event.removeprefix(epoch.refusal_of(""))
        is_refused = given.get(Tag.EXEC_TYPE) == Status.REJECTED
        is_own = event.startswith(refusal_of(epoch.comp_id, "", ""))
        is_own &= given.get(Tag.TEXT) not in UNUSED
        if is_own and (is_refused or given[Tag.MSG_TYPE] in OF_CLIENTS):
            is_mass = given[Tag.MSG_TYPE] == Type.MASS_CANCELED
            own = epoch.number_of(int(number) if number.isdecimal() else 0)  # 0: before a reset
            self.keep(given, own, [it for it in pairs if is_mass and it[0] in OF_MASS])
            self.told(Type(given[Tag.MSG_TYPE]), body_of(pairs)[0])

"""What a member says in its session by FIX, message by message in their order.

A message's number in the venue is its MsgSeqNum below 0, so that the venue's log says which were
taken, and a member may use the pages too.
"""
import asyncio
import collections
import itertools
from collections.abc import Awaitable, Callable, Mapping
from typing import TYPE_CHECKING, Any

from callauction.fix import feeds, requests, singles
from callauction.fix.board_orders import CLIENT, Held, Report
from callauction.fix.commands import HALT_PAUSE, SessionCommands
from callauction.fix.epochs import Clients, Epoch, MessageNumber, key_of
from callauction.fix.feeds import Feeds
from callauction.fix.order_fields import is_sent_again
from callauction.fix.refusals import FILLED, MADE_BEFORE, OTHER_DAY, SeatError, given_of, refuse
from callauction.fix.tags import OTHER_REASON, FixFields, Given, Tag, Type, seconds_of
from callauction.venue import clock, tokens
from callauction.venue.buckets import Bucket
from callauction.venue.fix_terms import VENUE_COMP_ID
from callauction.venue.instrument_board import InstrumentBoard
from callauction.venue.log import SOURCE
from callauction.venue.members import HELLO_BURST, HELLO_RATE, VenueMember
from callauction.venue.messages import MessageError
from callauction.venue.recovery import Entry, MemberMessage

if TYPE_CHECKING:
    from callauction.fix.connections import Connections
    from callauction.fix.reports import Reports, Stream

TOO_FAST_SECONDS = 0.05
"""How long a member that speaks too fast isn't heard."""
NOT_ALLOWED = "6"
"""The BusinessRejectReason of what a session may not do."""
NOT_DONE = "it wasn't executed before its venue or program ended, and a gap came in its place"
COMMAND_TYPES = (Type.ENTER, Type.CANCEL, Type.REPLACE, Type.MASS_CANCEL)
"""Messages that change orders."""
CONNECTION_LOST: Given = {}
"""What comes in a session's queue when its connection is lost, whose orders are to end with it."""
ROUNDED_SECONDS = 1.0
"""Seconds by which the time of a client may be off, whose parts of a second it needn't say."""
Act = Callable[[Any, FixFields, Given, int], Awaitable[None]]
"""What takes the messages of a type: of a seat, by the fields of their groups in their order, all
fields by their tags, and their number. Raises MessageError.
"""


class Inbound:
    """A session's messages in their order, each with its fields in groups, which are taken one
    after the other, or at once where this can be, and not while they are held; `is_taking` says
    whether one is being taken, and `heard` is called when all were.
    """

    def __init__(
        self, take: Callable[[Given, FixFields], Awaitable[None]], enters: Callable[[Given], bool]
    ) -> None:
        self._take, self._enters = take, enters
        self._came: collections.deque[tuple[Given, FixFields]] = collections.deque()
        self._wakes, self._is_waiting = asyncio.Event(), False
        self.is_held = self.is_taking = False
        self._fault: Exception | None = None
        self.heard: Callable[[], None] = lambda: None

    @property
    def is_busy(self) -> bool:
        """Whether something came that wasn't taken yet."""
        return bool(self._came)

    def first(self) -> int | None:
        """The number of the first message that wasn't taken yet."""
        came = (given for given, _ in self._came if given is not CONNECTION_LOST)
        return next((int(given[Tag.MSG_SEQ_NUM]) for given in came), None)

    def put(self, given: Given, rows: FixFields) -> None:
        """The session says this; it is taken in its `turn`."""
        self._came.append((given, rows))

    def is_next(self, given: Given) -> bool:
        """Whether a message is the one whose turn it is."""
        return bool(self._came) and self._came[0][0] is given

    def drop(self) -> None:
        """Forgets what waits for its turn; what follows from a lost connection is done."""
        taken = [self._came[0]] if self.is_taking else []
        lost = (it for it in self._came if it[0] is CONNECTION_LOST)
        self._came = collections.deque([*taken, *lost])

    def turn(self) -> None:
        """Takes what came: new orders at once where nothing has to be waited for."""
        try:
            while self._is_waiting and self._came and not self.is_held:
                if not self._enters(self._came[0][0]):
                    break
                self._came.popleft()
        except Exception as fault:  # which ends what serves it
            self._fault = fault
        if self._came:
            self._wakes.set()
        else:
            self.heard()

    async def serve(self) -> None:
        """Takes all messages, one after the other."""
        while self._fault is None:
            while self._came:
                given, rows = self._came[0]
                await self._take(given, rows)
                self.is_taking = False
                if self.is_next(given):
                    self._came.popleft()
            self.heard()
            self._wakes.clear()
            self._is_waiting = True
            await self._wakes.wait()
            self._is_waiting = False
        raise self._fault


class Seat:
    """A member's session, from which it says and is told what its `epoch` has; `latest` is the last
    epoch of which its member has sent a message. `cancels` says whether its orders end with its
    connection, `behind` by how many seconds its client's clock was behind the venue's at its Logon.
    """

    acts: Mapping[str, Act] = {
        Type.ENTER: singles.enter,
        Type.CANCEL: singles.edit,
        Type.REPLACE: singles.edit,
        Type.STATUS: singles.show,
        Type.MASS_CANCEL: requests.cancel_all,
        Type.MASS_STATUS: requests.show_all,
        Type.REQUEST: feeds.ask_data,
        Type.PHASE_REQUEST: feeds.ask_phases,
        Type.LIST_REQUEST: requests.show_list,
    }

    def __init__(
        self, name: str, begin: str, epoch: Epoch, connections: "Connections", reports: "Reports"
    ) -> None:
        self.comp_id, self.name, self.begin = epoch.comp_id, name, begin
        self.connections, self.reports = connections, reports
        self.venue, self.outbound = connections.venue, connections.outbound
        self.session = f"{begin}:{VENUE_COMP_ID}->{self.comp_id}"
        self.epoch, self.latest = epoch, 0
        self.cancels, self.behind, self.address = False, 0.0, ""
        self.inbound = Inbound(self._take, self._enters)
        self.clients, self.commands = Clients(), SessionCommands(self)
        self.feeds = Feeds(self.venue)
        self._member: VenueMember | None = None

    @property
    def is_awaiting(self) -> bool:
        """Whether something that came isn't answered yet."""
        are_sent = self.commands.unanswered or self.epoch.awaited or self.epoch.promised
        return bool(self.inbound.is_busy or are_sent)

    @property
    def member(self) -> VenueMember:
        """Whose session it is. Raises MessageError where the venue hasn't it."""
        if self._member is None:
            self._member = self.venue.members.named(self.name)
        if self._member is None:
            raise MessageError("bad_token")
        return self._member

    @property
    def watcher(self) -> VenueMember | None:
        """As whom it sees boards: None is as the operator. Raises MessageError."""
        return self.member

    # ---- its connection

    def takes(self, password: str) -> bool:
        """Whether this is the password of its Logon."""
        member = self.venue.members.of_token(password)
        return member is not None and member.name == self.name and member.hellos.takes()

    def begins(self, said: str) -> None:
        """It begins by a Logon, which says whether its orders end with its connection, and when it
        was sent by its client's clock.
        """
        self.cancels = said.startswith("Y")
        self.behind = clock.now() - seconds_of(said[1:])

    def lost(self) -> None:
        """Its connection has ended, or had as the venue began."""
        if self.cancels:
            self.inbound.put(CONNECTION_LOST, [])
            self.inbound.turn()

    async def idle(self) -> None:
        """Waits until all that came is answered."""
        while self.inbound.is_busy or self.commands.unanswered:
            await asyncio.sleep(TOO_FAST_SECONDS)

    async def taken_out(self) -> None:
        """Waits until it was told all that its boards answer, but for what has halted."""
        for board in self.boards():
            while board.commands.awaits(self.name):
                if board.engine.halted or self.venue.halts.halted:
                    break
                await asyncio.sleep(HALT_PAUSE)
            await self.reports.stream(board).until_now()

    # ---- what the log and the store have of it

    def since(self) -> int:
        """The number of the first message that came and isn't settled yet, 0 for none."""
        first = [*itertools.islice(self.epoch.awaited, 1), self.inbound.first()]
        return min((it for it in first if it is not None), default=0)

    def entered(self, board: InstrumentBoard, message: MemberMessage, entry: Entry | None) -> None:
        """A message of it in the log has its entry, or never had one."""
        number = MessageNumber.of(-message.number)
        if entry is not None and CLIENT in message.note:
            self.clients.numbers[message.note[CLIENT]] = number
        self.latest = max(self.latest, number.epoch)
        if number.epoch == self.epoch.number:
            self.epoch.entered(board, message, number, entry)

    def recall(self, pairs: FixFields, since: int) -> None:
        """Recalls a message that it was sent in an earlier run, since its last reset, as all before
        `since` was settled, or, where that is 0, all before what it answers.
        """
        given = dict(pairs)
        if event := self.epoch.event_in(given):
            self.epoch.recall(event, int(given[Tag.MSG_SEQ_NUM]), since)
        if given[Tag.MSG_TYPE] == Type.LOGON:
            self.cancels = given.get(Tag.CANCELS_ON_DISCONNECT) == "Y"
        self.clients.learn(pairs, self.epoch)

    # ---- what it says

    def _enters(self, given: Given) -> bool:
        """Takes a new order where nothing has to be waited for: whether it did."""
        if given is CONNECTION_LOST or given[Tag.MSG_TYPE] != Type.ENTER or Tag.GAP_FILL in given:
            return False
        number, member, epoch = int(given[Tag.MSG_SEQ_NUM]), self.member, self.epoch
        event, is_known = epoch.refusal_of(number), given[Tag.CL_ORD_ID] in self.clients.numbers
        if is_known or event in epoch.told or -key_of(number, 0, epoch.number) in member.done:
            return False
        if self.commands.is_full(given) or not member.bucket.takes():
            return False
        epoch.lost.pop(number, None)  # it has come again
        before = SOURCE.set(self.address)
        try:
            self._check_day(given)
            singles.enter_new(self, given, number)
        except MessageError as fault:
            refuse(self, given, event, fault)
        finally:
            SOURCE.reset(before)
        return True

    async def _take(self, given: Given, rows: FixFields) -> None:
        """Takes a message, unless it was taken before."""
        if given is CONNECTION_LOST:
            await self.commands.withdraw()
            return
        kind = given[Tag.MSG_TYPE]
        if kind == Type.GAP:
            self._gap(int(given[Tag.NEW_SEQ_NO]))
            return
        number = int(given[Tag.MSG_SEQ_NUM])
        event = self.epoch.refusal_of(number)
        self.epoch.lost.pop(number, None)  # it has come again
        if event in self.epoch.told or await self.is_done(given, number):
            return
        self.inbound.is_taking = True
        SOURCE.set(self.address)
        try:
            if (act := self.acts.get(kind)) is None:
                self.refuse_type(given, event)
            else:
                if Tag.GAP_FILL in given:  # a gap is in the place of what came ahead of its turn
                    raise SeatError(OTHER_REASON, FILLED)
                self._check_day(given)
                await act(self, rows, given, number)
        except MessageError as fault:
            refuse(self, given, event, fault)

    def _check_day(self, given: Given) -> None:
        """Raises SeatError where a command that is sent again was for another day: a client's store
        of that day would have it done today. That is by when it was sent first, or, where it has a
        new number and its ClOrdID isn't known, by when it was made.
        """
        if not is_sent_again(given) or given[Tag.MSG_TYPE] not in COMMAND_TYPES:
            return
        is_resend = given.get(Tag.POSS_DUP) != "Y"
        time = given.get(Tag.TRANSACT_TIME if is_resend else Tag.ORIG_SENDING_TIME)
        if time is None or (is_resend and given[Tag.CL_ORD_ID] in self.clients.numbers):
            return
        if seconds_of(time) + self.behind < self.venue.past.began - ROUNDED_SECONDS:
            raise SeatError(OTHER_REASON, MADE_BEFORE if is_resend else OTHER_DAY)

    def refuse_type(self, given: Given, event: str) -> None:
        """Says that it may not do this: a member may do all that the dictionary has."""

    async def is_dropped(self, given: Given, bucket: Bucket) -> bool:
        """Whether a message is dropped before it may be taken, for which it waits."""
        is_next, commands = self.inbound.is_next, self.commands
        while is_next(given):
            if not self.inbound.is_held and not commands.is_full(given) and bucket.takes():
                return False
            await asyncio.sleep(TOO_FAST_SECONDS)
        return True

    async def is_done(self, given: Given, number: int) -> bool:
        """Whether a message was executed before, or is dropped; another waits until it may be."""
        member = self.member
        is_known = -key_of(number, 0, self.epoch.number) in member.done
        return is_known or await self.is_dropped(given, member.bucket)

    def _gap(self, end: int) -> None:
        """What wasn't executed before this number won't come again: says so."""
        for number in sorted(it for it in self.epoch.lost if it < end):
            board, message = self.epoch.lost.pop(number)
            event = self.epoch.refusal_of(number)
            if event not in self.epoch.told:
                fault = SeatError(OTHER_REASON, NOT_DONE)
                refuse(self, given_of(board, message, number), event, fault)

    # ---- boards, and the orders that are there

    def board(self, given: Given) -> InstrumentBoard:
        """The board of a message. Raises MessageError."""
        return self.named_board(given[Tag.SYMBOL])

    def named_board(self, name: str) -> InstrumentBoard:
        """The board of a name. Raises MessageError."""
        return self.venue.rounds.named_board(name, self.watcher)

    def boards(self) -> list[InstrumentBoard]:
        """All boards that it sees."""
        return [*self.venue.rounds.boards_of(self.watcher).values()]

    def held(self, given: Given, client: str) -> Held | None:
        """The order that an id names as far as it is known now."""
        try:
            board = self.board(given)
        except MessageError:
            return None
        return self.known(board, client)[0]

    def known(self, board: InstrumentBoard, client: str) -> "tuple[Held | None, Stream]":
        """The order of an instrument to which its member gave this id, in this round or an earlier
        one, and its stream; else the one of this round.
        """
        own = self.reports.stream(board)
        if held := own.orders.of_client(self.name, client):
            return held, own
        for stream in self.reports.former(board):
            if held := stream.orders.of_client(self.name, client):
                return held, stream
        return None, own

    def open_orders(self, board: InstrumentBoard) -> list[Held]:
        """Its open orders on a board, by what was answered so far."""
        return self.reports.stream(board).orders.open_of(self.name)


class CopySeat(Seat):
    """The operator's session, which is sent a copy of each trade. It enters no orders, and the day
    goes on by the operator's page alone.
    """

    watcher = None
    acts = {
        Type.REQUEST: feeds.ask_data,
        Type.PHASE_REQUEST: feeds.ask_phases,
        Type.LIST_REQUEST: requests.show_list,
    }

    def __init__(
        self, name: str, begin: str, epoch: Epoch, connections: "Connections", reports: "Reports"
    ) -> None:
        super().__init__(name, begin, epoch, connections, reports)
        terms = self.venue.day.members
        self._hellos = Bucket(HELLO_RATE, HELLO_BURST)
        self._bucket = Bucket(terms.rate, terms.burst)

    def takes(self, password: str) -> bool:
        """Whether this is the operator's token."""
        secret = self.venue.secrets["operator"]
        return tokens.is_same_secret(password, secret) and self._hellos.takes()

    def _enters(self, given: Given) -> bool:
        """No order is one of its."""
        return False

    def lost(self) -> None:
        """Its connection has ended, and with it no order."""

    async def is_done(self, given: Given, number: int) -> bool:
        """Whether a message is dropped; another waits until it may be taken."""
        return await self.is_dropped(given, self._bucket)

    def refuse_type(self, given: Given, event: str) -> None:
        """Says that it may not do this."""
        pairs = [
            (Tag.REF_SEQ_NUM, given[Tag.MSG_SEQ_NUM]),
            (Tag.REF_MSG_TYPE, given[Tag.MSG_TYPE]),
            (Tag.BUSINESS_REJECT_REASON, NOT_ALLOWED),
            (Tag.TEXT, "the operator's session has no orders"),
        ]
        self.reports.tell(Report(self.name, Type.BUSINESS_REJECT, event, [*pairs]))

"""Robots that fill in for members: each enters one order a call phase, for what is left of its
value, at a time by chance from when it has one.
"""
import asyncio
from collections.abc import Callable, Iterator

from callauction.venue import clock
from callauction.venue.background import going_on
from callauction.venue.chance import CHANCE
from callauction.venue.gains import ShareValue
from callauction.venue.halts import Halts
from callauction.venue.instrument_board import InstrumentBoard
from callauction.venue.members import Members, VenueMember
from callauction.venue.messages import MessageError, OrderMessage
from callauction.venue.recovery import Entry
from callauction.venue.rounds import Rounds

ROBOT_KINDS = ("zero", "truthful", "shading")
"""Zero intelligence, a price by chance at which nothing is lost; the value itself; a tenth less
than it, or more than the cost. Without a value zero intelligence buys or sells by chance, at a
price within a quarter of the reference, and the others do nothing.
"""
TURN_SECONDS = 0.2
ENTRY_SECONDS = 10.0
"""Seconds after the begin of a call phase until all robots have entered, and at most this share of
it.
"""
MOST_SHARE = 0.7
MOST_ROBOTS = 200
QUANTITIES = range(10, 101, 10)
Submit = Callable[[VenueMember, OrderMessage], "tuple[asyncio.Future[Entry], bool]"]
"""What sends a message of a member. Raises MessageError."""
Turn = tuple[str, str, str]
"""A robot's turn: its name, the key of its board, the auction."""


class Robots:
    """The robots of a venue."""

    def __init__(self, members: Members, rounds: Rounds, halts: Halts, submit: Submit) -> None:
        self._members, self._rounds, self._halts, self._submit = members, rounds, halts, submit
        self._due: dict[Turn, float] = {}

    async def run(self) -> None:
        """Enters orders of robots when their time has come."""
        while True:
            await asyncio.sleep(TURN_SECONDS)
            with going_on("the robots' turn"):
                for member, board in self._turns():
                    self._look(member, board)

    def _look(self, member: VenueMember, board: InstrumentBoard) -> None:
        """Enters a robot's order where its time has come."""
        turn = member.name, board.identity.key, board.auctions.state.auction
        if turn not in self._due:
            self._due[turn] = clock.now() + CHANCE.random() * window(board)
        if self._due[turn] <= clock.now():
            self._due[turn] = float("inf")
            self._play(member, board)

    def _turns(self) -> Iterator[tuple[VenueMember, InstrumentBoard]]:
        """The robots that may enter an order, and where."""
        robots = [it for it in self._members.all if it.robot]
        for board in self._rounds.now.boards.values():
            halted = board.engine.halted or self._halts.halted
            if board.auctions.state.takes_orders() and not halted:
                here = (it for it in robots if it.group == board.identity.group)
                yield from ((it, board) for it in here if not waits(it, board))

    def _play(self, member: VenueMember, board: InstrumentBoard) -> None:
        """Enters a robot's order, unless it has one."""
        if board.commands.open_orders(member.name):
            return
        record = record_of(member.robot, board, member.name)
        if record is None:
            return
        try:
            order = OrderMessage(member.last + 1, board.terms.name, record)
            answer, _ = self._submit(member, order)
        except MessageError:
            return  # such as one that the limits of the round refuse
        answer.add_done_callback(lambda it: it.cancelled() or it.exception())


def waits(robot: VenueMember, board: InstrumentBoard) -> bool:
    """Whether a robot does nothing until it has a value."""
    return robot.robot != "zero" and robot.name not in board.accounts.values


def window(board: InstrumentBoard) -> float:
    """The seconds in which the robots enter their orders."""
    ends = board.auctions.state.ends
    return ENTRY_SECONDS if ends is None else min(ENTRY_SECONDS, MOST_SHARE * (ends - clock.now()))


def record_of(kind: str, board: InstrumentBoard, member: str) -> str | None:
    """The order of a robot after its number, None where it has none."""
    value = board.accounts.values.get(member)
    if value is None:
        return blind(board) if kind == "zero" else None
    left = board.accounts.left_of(member)
    if not left:
        return None
    tick = max(board.terms.low, min(board.terms.high, robot_limit(kind, value, board)))
    return f"enter,{value.side},{min(left, board.terms.most_quantity)},{tick}"


def robot_limit(kind: str, value: ShareValue, board: InstrumentBoard) -> int:
    """The limit of a robot with a value."""
    is_bid = value.side == "bid"
    if kind == "truthful":
        return value.tick
    if kind == "shading":
        return value.tick - (1 if is_bid else -1) * max(1, value.tick // 10)
    ends = (board.terms.low, value.tick) if is_bid else (value.tick, board.terms.high)
    return CHANCE.randint(min(ends), max(ends))


def blind(board: InstrumentBoard) -> str:
    """The order of a robot that has no value."""
    reference = board.looks.day.reference
    least = max(board.terms.low, reference - reference // 4)
    most = min(board.terms.high, reference + reference // 4)
    quantity = min(CHANCE.choice(QUANTITIES), board.terms.most_quantity)
    return f"enter,{CHANCE.choice(('bid', 'ask'))},{quantity},{CHANCE.randint(least, most)}"

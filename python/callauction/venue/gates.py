"""Connections: how many there may be, of one address and of all, and how long one may take to ask.

A connection waits until a whole request has come, or until it has said who it is. Where there are
too many, one that waits gives way to the new one: the oldest of the same address, or of the address
that has most of them. So half requests shut out nobody, however many there are.
"""
import asyncio
import contextlib
import dataclasses
import enum
import functools
import resource
import socket
from collections.abc import Callable, Collection, Iterable, Iterator

from callauction.venue.logger import NOTICES
from callauction.venue.turns import Turns

MOST_CONNECTIONS = 4096
MOST_OF_ADDRESS = 256
"""Connections of one address on which no member, nor the operator, has said who it is."""
FILES_KEPT = 256
"""How many of the files that this process may open are no connections."""
HEAD_SECONDS, BODY_SECONDS, IDLE_SECONDS = 10.0, 10.0, 30.0
"""How long a connection may take to its first request; a request to its end; how long between two.
"""
STUCK_SECONDS = 30.0
"""How long somebody who is known may take nothing of what it was sent."""
STUCK = f"it took nothing of what it was sent for {STUCK_SECONDS:g} s"
MOST_UNTAKEN = 98_304
"""Bytes that are looked at of one request of who isn't known: its head and its body."""


class Stage(enum.Enum):
    """What a connection does: it waits for a whole request, is served, or is somebody's."""

    WAITING = enum.auto()
    SERVED = enum.auto()
    KNOWN = enum.auto()


@dataclasses.dataclass(eq=False)
class Gate:
    """A connection from an address, or a network that one has of IPv6; `ends` is when it has waited
    too long. `speaker` is whose token its last request had, empty where that was nobody's; `why`
    says for what it was ended that took nothing.
    """

    address: str
    socket: socket.socket
    ends: float
    stage: Stage = Stage.WAITING
    speaker: str = ""
    transport: asyncio.Transport | None = None
    task: "asyncio.Task[None] | None" = None
    unsent: int = 0
    untaken: int = 0
    is_held: bool = False
    why: str = ""
    on_known: Callable[[], None] = lambda: None

    @contextlib.contextmanager
    def taking(self) -> Iterator[None]:
        """Something that it said is taken; until it is, nothing more is looked at."""
        self.is_held, self.untaken = True, 0
        try:
            yield
        finally:
            self.is_held = False

    def end_request(self) -> None:
        """Nothing more of its request is looked at."""
        self.untaken = MOST_UNTAKEN

    def known(self) -> None:
        """It has said who it is."""
        self.on_known()
        self.stage, self.untaken = Stage.KNOWN, 0
        self.ends = asyncio.get_running_loop().time() + STUCK_SECONDS

    def close(self) -> None:
        """Ends it at once."""
        if self.transport is not None:
            self.transport.abort()
        elif self.task is not None:
            self.task.cancel()


class Crowd:
    """Connections by their addresses, those of each in the order in which they came, and the
    addresses by how many they have: thousands may come in a second.
    """

    def __init__(self) -> None:
        self._by_address: dict[str, dict[Gate, None]] = {}
        self._by_count: dict[int, dict[str, None]] = {}

    def of(self, address: str) -> Collection[Gate]:
        """Those of an address, the oldest first."""
        return self._by_address.get(address, {}).keys()

    def add(self, gate: Gate) -> None:
        """A connection has come."""
        self._by_address.setdefault(gate.address, {})[gate] = None
        self._counted(gate.address, len(self._by_address[gate.address]) - 1)

    def remove(self, gate: Gate) -> None:
        """A connection is no longer one of them."""
        own = self._by_address.get(gate.address, {})
        if gate not in own:
            return
        del own[gate]
        self._counted(gate.address, len(own) + 1)
        if not own:
            del self._by_address[gate.address]

    def _counted(self, address: str, before: int) -> None:
        """An address had as many before."""
        if before:
            del self._by_count[before][address]
            if not self._by_count[before]:
                del self._by_count[before]
        if now := len(self._by_address[address]):
            self._by_count.setdefault(now, {})[address] = None

    def most_first(self) -> Iterator[Gate]:
        """All of them, first those of the address that has most."""
        for count in sorted(self._by_count, reverse=True):
            for address in self._by_count[count]:
                yield from self._by_address[address]


class Gates:
    """All connections of a venue."""

    def __init__(self, most: int = MOST_CONNECTIONS, of_address: int = MOST_OF_ADDRESS) -> None:
        self._most, self._of_address = most, of_address
        self._all: dict[Gate, None] = {}
        self._unknown = Crowd()
        self._by_transport: dict[asyncio.BaseTransport, Gate] = {}
        self._speakers, self._strangers = Turns(), Turns()

    def __len__(self) -> int:
        return len(self._all)

    def name(self) -> str:
        """All that are there, by their addresses; empty for none."""
        found = ", ".join(dict.fromkeys(it.address for it in [*self._all]))
        return found and f"connections of {found}"

    # ---- who comes and goes

    def enter(self, gate: Gate) -> bool:
        """Whether a new connection may be; one that waits may have to give way."""
        unknown = self._unknown
        own = unknown.of(gate.address)
        if len(own) >= self._of_address and not self._gives_way(own):
            return False
        if len(self._all) >= self._most and not self._gives_way(unknown.most_first()):
            return False
        self._all[gate] = None
        if gate.stage is not Stage.KNOWN:
            unknown.add(gate)
            gate.on_known = functools.partial(unknown.remove, gate)
        return True

    def _gives_way(self, those: Iterable[Gate]) -> bool:
        """Whether one of these ended: the first that waits, rather one that is no speaker's."""
        gate: Gate | None = None
        for it in those:
            if it.stage is Stage.WAITING and (gate is None or not it.speaker):
                gate = it
                if not it.speaker:
                    break
        if gate is None:
            return False
        NOTICES.warning("too many connections: one of %s gives way", gate.address)
        self.leave(gate)
        gate.close()
        return True

    def begun(self, gate: Gate, transport: asyncio.Transport) -> None:
        """A connection has its transport."""
        gate.transport = transport
        self._by_transport[transport] = gate

    def leave(self, gate: Gate) -> None:
        """A connection has ended."""
        self._all.pop(gate, None)
        self._unknown.remove(gate)
        if gate.transport is not None:
            self._by_transport.pop(gate.transport, None)

    # ---- what they do

    @contextlib.contextmanager
    def served(self, transport: asyncio.BaseTransport | None) -> Iterator[None]:
        """A whole request of a connection is there, until it is answered."""
        gate = self._by_transport.get(transport) if transport else None
        if gate is None:
            yield
            return
        gate.stage = Stage.SERVED
        try:
            yield
        finally:
            gate.stage, gate.untaken = Stage.WAITING, 0
            gate.ends = asyncio.get_running_loop().time() + IDLE_SECONDS

    def wait(self, gate: Gate, take: Callable[[], bool]) -> None:
        """Calls this at the connection's turn: among those of speakers, of which each comes as
        often as each other, or among those of addresses.
        """
        if gate.speaker:
            self._speakers.wait(gate.speaker, take)
        else:
            self._strangers.wait(gate.address, take)

    def of(self, transport: asyncio.Transport) -> Gate:
        """The connection of a transport, also of one that came past the gates."""
        if found := self._by_transport.get(transport):
            return found
        return Gate("", transport.get_extra_info("socket"), 0.0, transport=transport)

    def sweep(self) -> None:
        """Ends those that have waited too long, and those who take nothing; a fault of one is
        nobody else's matter.
        """
        now = asyncio.get_running_loop().time()
        for gate in [*self._all]:
            try:
                if gate.stage is Stage.KNOWN:
                    self._end_stuck(gate, now)
                elif gate.stage is Stage.WAITING and gate.ends < now:
                    self._end_late(gate, now)
            except Exception:
                NOTICES.critical("a connection of %s isn't swept", gate.address, exc_info=True)

    def _end_late(self, gate: Gate, now: float) -> None:
        """Ends one that has waited too long, unless it still takes what it asked for."""
        unsent = gate.transport.get_write_buffer_size() if gate.transport else 0
        if 0 < unsent != gate.unsent:
            gate.unsent, gate.ends = unsent, now + IDLE_SECONDS
            return
        self.leave(gate)
        gate.close()

    def _end_stuck(self, gate: Gate, now: float) -> None:
        """Ends one who is known and takes nothing of what it was sent."""
        unsent = gate.transport.get_write_buffer_size() if gate.transport else 0
        if not unsent or unsent < gate.unsent:
            gate.ends = now + STUCK_SECONDS
        gate.unsent = unsent
        if gate.ends < now:
            gate.why = STUCK
            self.leave(gate)
            gate.close()


def most_connections(kept: int = 0) -> int:
    """How many connections there may be, once this process may open as many files as it can; `kept`
    more files are others.
    """
    _, hard = resource.getrlimit(resource.RLIMIT_NOFILE)
    if hard == resource.RLIM_INFINITY:
        hard = MOST_CONNECTIONS + FILES_KEPT
    soft = min(hard, MOST_CONNECTIONS + FILES_KEPT)
    with contextlib.suppress(ValueError, OSError):
        resource.setrlimit(resource.RLIMIT_NOFILE, (soft, hard))
    return max(soft // 2, soft - FILES_KEPT - kept)

"""Somebody who is connected by a WebSocket. What it is sent waits in a queue of its own: a slow or
silent client holds up nobody else, and is read no faster than it reads.
"""
import asyncio
import collections
import contextlib
import json
from collections.abc import Coroutine
from typing import Any

from aiohttp import WSCloseCode, WSMessage, WSMsgType, web

from callauction.venue import messages
from callauction.venue.buckets import Bucket
from callauction.venue.frames import Socket
from callauction.venue.gates import Gate, Gates
from callauction.venue.json_types import Json
from callauction.venue.members import VenueMember
from callauction.venue.messages import MessageError
from callauction.venue.recovery import Entry
from callauction.venue.venue import Venue

MOST_UNANSWERED = 256
"""Messages of a connection that aren't answered yet, or whose answer it hasn't taken."""
HELLO_SECONDS = 10.0
TOO_FAST_SECONDS = 0.1
"""How long a connection isn't read after a message that came too fast."""
HEARTBEAT_SECONDS = 20.0
LEAVE_SECONDS = 5.0
"""How long a connection that is to end may take to it."""
PING_RATE, PING_BURST = 4.0, 8
"""Signs of life that a connection may ask for: how many a second, and how many at once."""
MESSAGE_RATE, MESSAGE_BURST = 20.0, 40
"""Messages of a connection that is no member's, a second and at once."""


def read_or_fault(text: str) -> tuple[dict[str, Any], MessageError | None]:
    """A message, or nothing and what is wrong with it."""
    try:
        return messages.message_in(text), None
    except MessageError as fault:
        return {}, fault


def packed(message: Json) -> str:
    """A message as it is sent."""
    return json.dumps(message, ensure_ascii=False, separators=(",", ":"))


def error_of(fault: MessageError, number: int | None) -> Json:
    """What is answered to a message that wasn't done."""
    found: dict[str, Any] = {"type": "error", "error": fault.code, "text": fault.text}
    return found if number is None else found | {"number": number}


def answer_of(number: int, entry: Entry, is_again: bool) -> Json:
    """What is answered to a message that was done."""
    return {
        "type": "answer",
        "number": number,
        "entry": entry.place,
        "reply": entry.reply,
        "order": entry.order,
        "again": is_again,
    }


async def while_it_is_there(work: Coroutine[Any, Any, None]) -> None:
    """Does some work with somebody who is connected, until nobody is there any more."""
    with contextlib.suppress(ConnectionError):
        await work


class Connection:
    """A connection, from its hello on: `role`, `member` and `topics` are what Venue asks for."""

    def __init__(self, venue: Venue, socket: web.WebSocketResponse, gate: Gate) -> None:
        self._venue, self._socket, self._gate = venue, socket, gate
        self.role = ""
        self.member: VenueMember | None = None
        self.topics: frozenset[str] = frozenset()
        self._answers: collections.deque[Json] = collections.deque()
        self._shown: dict[str, Json] = {}
        self._wakes = asyncio.Event()
        self._room = asyncio.Semaphore(MOST_UNANSWERED)
        self._code: str | None = None
        self._pings = Bucket(PING_RATE, PING_BURST)
        self._bucket = Bucket(MESSAGE_RATE, MESSAGE_BURST)

    # ---- what it is sent

    def offer(self, key: str, message: Json) -> None:
        """Shows a message, unless a later one with its key comes before it is sent."""
        self._shown[key] = message
        self._wakes.set()

    def answer(self, message: Json) -> None:
        """Answers a message, whose place among those that are open is free once it is sent."""
        self._answers.append(message)
        self._wakes.set()

    def leave(self, code: str) -> None:
        """Ends the connection soon, for one of the ERRORS of messages; nothing more is taken."""
        if self._code is None:
            self._code = code
            self._wakes.set()
            asyncio.get_running_loop().call_later(LEAVE_SECONDS, self._gate.close)

    @property
    def is_leaving(self) -> bool:
        """Whether it is to end."""
        return self._code is not None

    async def _write(self) -> None:
        """Sends the waiting messages, as fast as they are taken. Raises ConnectionError."""
        while self._code is None:
            self._wakes.clear()
            while self._answers:
                await self._socket.send_str(packed(self._answers.popleft()))
                self._room.release()
            if self._shown:
                key = next(iter(self._shown))
                await self._socket.send_str(packed(self._shown.pop(key)))
                continue
            await self._wakes.wait()
        await self._socket.close(code=WSCloseCode.POLICY_VIOLATION, message=self._code.encode())

    # ---- what it says

    async def serve(self) -> None:
        """Takes what it says until it ends."""
        if not await self._hello():
            return
        self._gate.known()
        self._venue.audience.enter(self)
        both = [asyncio.create_task(while_it_is_there(it)) for it in (self._write(), self._read())]
        try:
            self._venue.audience.greet(self)
            await asyncio.wait(both, return_when=asyncio.FIRST_COMPLETED)
        finally:
            self._venue.audience.leave(self)
            await self._end(both)

    async def _end(self, both: list[asyncio.Task[None]]) -> None:
        """Ends what writes and what reads, once it was sent why. Raises what one of them raised."""
        try:
            if self._code is not None:
                await asyncio.wait(both, timeout=LEAVE_SECONDS)
        finally:
            for task in both:
                task.cancel()
            ended = await asyncio.gather(*both, return_exceptions=True)
        for fault in ended:
            if isinstance(fault, Exception):
                raise fault

    async def _read(self) -> None:
        """Takes its messages, until it ends or is to end. Raises ConnectionError."""
        async for message in self._socket:
            with self._gate.taking():
                if self._code is not None or not await self._heard(message):
                    return

    async def _heard(self, message: WSMessage) -> bool:
        """Takes a message or a sign of life: whether it goes on."""
        is_sign = message.type in (WSMsgType.PING, WSMsgType.PONG)
        if is_sign and not self._pings.takes():
            await asyncio.sleep(TOO_FAST_SECONDS)
        elif message.type is WSMsgType.PING:
            await self._socket.pong(message.data)
        elif message.type is WSMsgType.TEXT:
            await self._room.acquire()
            if not self._take(message.data):
                await asyncio.sleep(TOO_FAST_SECONDS)
        return is_sign or message.type is WSMsgType.TEXT

    async def _hello(self) -> bool:
        """Takes the first message: whether it says who this is."""
        try:
            message = await asyncio.wait_for(self._socket.receive(), HELLO_SECONDS)
        except asyncio.TimeoutError:
            return False
        if message.type is not WSMsgType.TEXT:
            return False
        try:
            hello = messages.message_in(message.data)
            self.topics = messages.topics_of(hello)
            self.role, self.member = self._venue.role_of(messages.text_of(hello, "token"))
            if self.member is not None and not self.member.hellos.takes():
                raise MessageError("too_fast")
        except MessageError as fault:
            await self._socket.send_str(packed(error_of(fault, None)))
            await self._socket.close(code=WSCloseCode.POLICY_VIOLATION, message=fault.code.encode())
            return False
        if self.member is not None:
            self._bucket = self.member.bucket
        await self._socket.send_str(packed(self._venue.audience.welcome_of(self)))
        return True

    def _take(self, text: str) -> bool:
        """Takes a message, for whose answer there is room: whether it didn't come too fast."""
        number = None
        try:
            given, fault = read_or_fault(text)
            if type(found := given.get("number")) is int:
                number = found
            if given.get("type") == "ping":
                return self._pinged(given)
            if not self._bucket.takes():
                raise MessageError("too_fast")
            if fault is not None:
                raise fault
            if self.member is None or given["type"] not in messages.ORDER_FIELDS:
                raise MessageError("not_allowed")
            terms = self._venue.rounds.named_board(given.get("instrument"), self.member).terms
            order = messages.order_of(terms, given)
            answer, is_again = self._venue.submit(self.member, order)
        except MessageError as fault:
            self.answer(error_of(fault, number))
            return fault.code != "too_fast"
        answer.add_done_callback(lambda it: self._answered(order.number, it, is_again))
        return True

    def _pinged(self, message: Json) -> bool:
        """Answers a sign of life. Raises MessageError."""
        if message.keys() != {"type"}:
            raise MessageError("bad_message", "a ping has no more than its type")
        if not self._pings.takes():
            raise MessageError("too_fast")
        self.answer({"type": "pong"})
        return True

    def _answered(self, number: int, answer: "asyncio.Future[Entry]", is_again: bool) -> None:
        """A message has its entry, or none."""
        if answer.cancelled():
            return
        fault = answer.exception()
        if isinstance(fault, MessageError):
            self.answer(error_of(fault, number))
        elif fault is None:
            self.answer(answer_of(number, answer.result(), is_again))


async def connect(request: web.Request, venue: Venue, gates: Gates) -> web.WebSocketResponse:
    """A connection, from its begin to its end."""
    most = messages.MOST_MESSAGE_BYTES
    socket = Socket(heartbeat=HEARTBEAT_SECONDS, max_msg_size=most, compress=False, autoping=False)
    with contextlib.suppress(ConnectionError):
        try:
            await socket.prepare(request)
        except ValueError:
            raise web.HTTPBadRequest(text="the key of the handshake is none") from None
        if request.transport is not None:
            await Connection(venue, socket, gates.of(request.transport)).serve()
    return socket

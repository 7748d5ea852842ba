"""A member of a venue in Python: `Client` for threads, `AsyncClient` for asyncio.

A message is answered once, whatever happens in between: each has a number of its member, and what
isn't answered when the connection breaks is sent again under its number by the next one.
"""
import asyncio
import contextlib
import dataclasses
import json
import ssl
import threading
from collections.abc import AsyncIterator, Coroutine, Iterator
from decimal import Decimal
from types import TracebackType
from typing import Any, Self, TypeVar

import aiohttp

from callauction.venue.json_types import Json
from callauction.words import MARKET

GivenPrice = str | Decimal
Awaited = TypeVar("Awaited")
FIRST_PAUSE, MOST_PAUSE = 0.05, 1.0
FINAL_ERRORS = ("bad_token",)
"""Errors of a hello after which no other one would do."""
MOST_EVENTS = 1000


class VenueError(Exception):
    """The venue did nothing: `code` says why (schema.json has all), `text` in words."""

    def __init__(self, code: str, text: str) -> None:
        super().__init__(text)
        self.code, self.text = code, text


@dataclasses.dataclass(frozen=True, slots=True)
class Answer:
    """The program's reply to a message, and its entry in the journal; the order that it entered, if
    it did. `is_again` where it had been sent before.
    """

    number: int
    entry: int
    reply: str
    order: int | None
    is_again: bool

    @property
    def is_refused(self) -> bool:
        """Whether the auction refused it."""
        return self.reply.startswith("refused")


def order_fields(
    side: str, quantity: int, price: GivenPrice, peak: int | None, restriction: str
) -> Json:
    """The fields of a new order."""
    found: Json = {"side": side, "quantity": quantity, "price": str(price)}
    found |= {"peak": peak} if peak is not None else {}
    return found | ({"only": restriction} if restriction else {})


class AsyncClient:
    """A member, connected while it is entered by `async with`. `url` is the venue's first page.

    `topics` are what it is sent unasked (states, orders, fills, trades), for `events`. A call
    raises VenueError where nothing was done.
    """

    def __init__(
        self,
        url: str,
        token: str,
        topics: tuple[str, ...] = (),
        tls: ssl.SSLContext | None = None,
    ) -> None:
        self.url, self._token, self._topics = url.rstrip("/"), token, topics
        self._tls = tls
        self.name = ""
        self.instruments: list[Json] = []
        self._last = 0
        self._pending: dict[int, tuple[str, asyncio.Future[Answer]]] = {}
        self._events: asyncio.Queue[Json] = asyncio.Queue(MOST_EVENTS)
        self._socket: aiohttp.ClientWebSocketResponse | None = None
        self._fault: VenueError | None = None

    @classmethod
    async def join(
        cls, url: str, code: str, name: str, tls: ssl.SSLContext | None = None
    ) -> str:
        """Joins as a new member, or comes again by a code of its own: the token. Raises VenueError,
        aiohttp.ClientError.
        """
        async with aiohttp.ClientSession() as web:
            body = {"code": code, "name": name}
            place = f"{url.rstrip('/')}/api/join"
            async with web.post(place, json=body, ssl=tls) as answer:
                found = await answer.json()
                check_status(answer.status, found)
                return str(found["token"])

    async def __aenter__(self) -> Self:
        self._web = aiohttp.ClientSession(headers={"Authorization": f"Bearer {self._token}"})
        self._welcomed = asyncio.Event()
        self._task = asyncio.create_task(self._run())
        await self._welcomed.wait()
        if self._fault is not None:
            await self.__aexit__(None, None, None)
            raise self._fault
        return self

    async def __aexit__(
        self,
        kind: type[BaseException] | None,
        fault: BaseException | None,
        trace: TracebackType | None,
    ) -> None:
        self._task.cancel()
        with contextlib.suppress(asyncio.CancelledError):
            await self._task
        for _, answer in self._pending.values():
            answer.cancel()
        await self._web.close()

    # ---- orders

    async def enter(
        self,
        side: str,
        quantity: int,
        price: GivenPrice = MARKET,
        *,
        peak: int | None = None,
        only: str = "",
        instrument: str | None = None,
    ) -> Answer:
        """A new order."""
        fields = order_fields(side, quantity, price, peak, only)
        return await self.send("enter", instrument, **fields)

    async def change(
        self,
        order: int,
        quantity: int,
        price: GivenPrice = MARKET,
        *,
        instrument: str | None = None,
    ) -> Answer:
        """Another open quantity and price of an order."""
        fields = {"order": order, "quantity": quantity, "price": str(price)}
        return await self.send("change", instrument, **fields)

    async def delete(self, order: int, *, instrument: str | None = None) -> Answer:
        """Takes an order out."""
        return await self.send("delete", instrument, order=order)

    async def send(self, kind: str, instrument: str | None, **fields: Any) -> Answer:
        """Sends a message, until it is answered."""
        if self._fault is not None:
            raise self._fault
        self._last += 1
        number = self._last
        named = {} if instrument is None else {"instrument": instrument}
        text = json.dumps({"type": kind, "number": number} | named | fields)
        answer: asyncio.Future[Answer] = asyncio.get_running_loop().create_future()
        self._pending[number] = text, answer
        try:
            await self._say(text)
            return await answer
        finally:
            self._pending.pop(number, None)

    # ---- looks and events

    async def look(self, what: str, instrument: str | None = None, first: int = 1) -> Json:
        """What is seen now: `state`, `orders`, `fills`, `ladder` where the book is open, or up to
        500 `trades` from number `first` on. Raises VenueError and aiohttp.ClientError.
        """
        named = {} if instrument is None else {"instrument": instrument}
        words = named | {"first": str(first)}
        place = f"{self.url}/api/look/{what}"
        async with self._web.get(place, params=words, ssl=self._tls) as answer:
            found: Json = await answer.json()
            check_status(answer.status, found)
            return found

    async def events(self) -> AsyncIterator[Json]:
        """What comes of the topics, the oldest first; where nobody takes them the oldest go."""
        while True:
            yield await self._events.get()

    # ---- the connection

    async def _say(self, text: str) -> None:
        """Sends a text if there is a connection; the next one begins with what isn't answered."""
        if self._socket is not None:
            with contextlib.suppress(ConnectionError):
                await self._socket.send_str(text)

    async def _run(self) -> None:
        """Connects, again and again, until that is of no use."""
        pause = FIRST_PAUSE
        while self._fault is None:
            with contextlib.suppress(aiohttp.ClientError, ConnectionError, asyncio.TimeoutError):
                place = f"{self.url}/api/socket"
                async with self._web.ws_connect(place, ssl=self._tls, heartbeat=20.0) as socket:
                    hello = {"type": "hello", "token": self._token, "topics": [*self._topics]}
                    await socket.send_str(json.dumps(hello))
                    pause = FIRST_PAUSE
                    try:
                        async for message in socket:
                            if message.type is aiohttp.WSMsgType.TEXT:
                                await self._take(json.loads(message.data), socket)
                    finally:
                        self._socket = None
            if self._fault is None:
                await asyncio.sleep(pause)
                pause = min(MOST_PAUSE, 2 * pause)
        self._welcomed.set()
        for _, answer in self._pending.values():
            if not answer.done():
                answer.set_exception(self._fault)

    async def _take(self, message: Json, socket: aiohttp.ClientWebSocketResponse) -> None:
        """Takes a message of the venue."""
        kind = message.get("type")
        if kind == "welcome":
            self.name, self.instruments = message["name"], message["instruments"]
            self._last = max(self._last, message["last"])
            self._socket = socket
            self._welcomed.set()
            for text, _ in [*self._pending.values()]:
                await socket.send_str(text)
        elif kind in ("answer", "error"):
            self._answered(message)
        else:
            if self._events.full():
                self._events.get_nowait()
            self._events.put_nowait(message)

    def _answered(self, message: Json) -> None:
        """Takes an answer, or an error."""
        number = message.get("number")
        fault = VenueError(message["error"], message["text"]) if "error" in message else None
        if number is None:
            if fault is not None and fault.code in FINAL_ERRORS:
                self._fault = fault
            return
        _, answer = self._pending.get(number, ("", None))
        if answer is None or answer.done():
            return
        if fault is not None:
            answer.set_exception(fault)
            return
        entry, reply, order = message["entry"], message["reply"], message["order"]
        answer.set_result(Answer(number, entry, reply, order, message["again"]))


def check_status(status: int, found: Json) -> None:
    """Raises VenueError where an answer by HTTP is an error."""
    if status != 200:
        raise VenueError(found.get("error", "bad_message"), found.get("text", f"status {status}"))


class Client:
    """A member for threads, connected while it is entered by `with`; its calls are those of
    AsyncClient, and wait.
    """

    def __init__(
        self,
        url: str,
        token: str,
        topics: tuple[str, ...] = (),
        tls: ssl.SSLContext | None = None,
    ) -> None:
        self._given = url, token, topics, tls
        self._loop = asyncio.new_event_loop()
        self._thread = threading.Thread(target=self._loop.run_forever, daemon=True)

    @classmethod
    def join(cls, url: str, code: str, name: str, tls: ssl.SSLContext | None = None) -> str:
        """Joins as a new member, or comes again by a code of its own: the token."""
        return asyncio.run(AsyncClient.join(url, code, name, tls))

    def __enter__(self) -> Self:
        self._thread.start()
        try:
            self._client = self._wait(self._connect())
        except BaseException:
            self._stop()
            raise
        return self

    def __exit__(
        self,
        kind: type[BaseException] | None,
        fault: BaseException | None,
        trace: TracebackType | None,
    ) -> None:
        self._wait(self._client.__aexit__(None, None, None))
        self._stop()

    def enter(
        self,
        side: str,
        quantity: int,
        price: GivenPrice = MARKET,
        *,
        peak: int | None = None,
        only: str = "",
        instrument: str | None = None,
    ) -> Answer:
        """A new order."""
        fields = order_fields(side, quantity, price, peak, only)
        return self._wait(self._client.send("enter", instrument, **fields))

    def change(
        self,
        order: int,
        quantity: int,
        price: GivenPrice = MARKET,
        *,
        instrument: str | None = None,
    ) -> Answer:
        """Another open quantity and price of an order."""
        return self._wait(self._client.change(order, quantity, price, instrument=instrument))

    def delete(self, order: int, *, instrument: str | None = None) -> Answer:
        """Takes an order out."""
        return self._wait(self._client.delete(order, instrument=instrument))

    def look(self, what: str, instrument: str | None = None, first: int = 1) -> Json:
        """What is seen now: `state`, `orders`, `fills`, `ladder` where the book is open, or up to
        500 `trades` from number `first` on.
        """
        return self._wait(self._client.look(what, instrument, first))

    def events(self) -> Iterator[Json]:
        """What comes of the topics."""
        events = self._client.events()
        while True:
            yield self._wait(_next_of(events))

    async def _connect(self) -> AsyncClient:
        """A client in the loop of the thread."""
        return await AsyncClient(*self._given).__aenter__()

    def _wait(self, work: Coroutine[Any, Any, Awaited]) -> Awaited:
        """What a coroutine comes to, in the loop of the thread."""
        return asyncio.run_coroutine_threadsafe(work, self._loop).result()

    def _stop(self) -> None:
        """Ends the thread."""
        self._loop.call_soon_threadsafe(self._loop.stop)
        self._thread.join()
        self._loop.close()


async def _next_of(events: AsyncIterator[Json]) -> Json:
    """The next event."""
    return await anext(events)

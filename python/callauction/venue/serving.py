"""A venue that is served: its doors, the lines that say where it is, and its end."""
import asyncio
import dataclasses
import functools
import gc
import os
import signal
import sys
import threading
import time
from collections.abc import Callable, Coroutine, Mapping, Sequence
from typing import Any, Protocol

from aiohttp import web

from callauction.statuses import FAILED
from callauction.venue import addresses, ending, gates, listening, notices, supervising
from callauction.venue.answer_heads import LINGER_SECONDS, ConnectionHandler
from callauction.venue.day_changes import date_of
from callauction.venue.http import Site
from callauction.venue.listening_address import Address, AddressError, ends_of, hosts_of
from callauction.venue.logger import NOTICES
from callauction.venue.process import kill_all
from callauction.venue.venue import Venue

MOST_OF_METRICS = 32
"""Connections of those who look at metrics: operations has few, and a flood there takes no files
from members.
"""
COLLECTOR_THRESHOLDS = 10_000, 5, 2
"""After how many more objects, and how often that, Python's collector looks at the youngest, at
those of some age, and at all.
"""
DAY_IS_OVER = "the day is over: no call can start; the next round can, or --folder NEW begins anew"
END_SECONDS = 4.5
"""How long after a signal the venue ends, whatever hangs."""
END_SIGNALS = (signal.SIGHUP, signal.SIGINT, signal.SIGTERM)
"""The signals that may come once more while it ends."""


class ListeningPart(Protocol):
    """A way to a venue that listens."""

    def shut(self) -> None:
        """Takes no connection more."""

    async def end(self) -> None:
        """Ends all connections, soon, once it is shut."""


class Front(ListeningPart, Protocol):
    """Another way than by pages and WebSocket, which has at most `files` files open."""

    files: int

    async def begin(self, tls: listening.Tls | None) -> str:
        """Listens, with this TLS: the line that says where. Raises AddressError."""

    def measures(self) -> Mapping[str, tuple[str, float]]:
        """What operations see of it, by names of which those of what only grows end with `_total`:
        what it is, and how much.
        """


class Pages:
    """Pages that are served at an address."""

    def __init__(self, application: web.Application, found: gates.Gates) -> None:
        self._runner, self._gates = web.AppRunner(application), found
        self._listener: listening.Listener | None = None

    async def begin(self, host: str, port: int, tls: listening.Tls | None = None) -> int:
        """Listens: the port. Raises AddressError."""
        await self._runner.setup()
        assert self._runner.server is not None
        try:
            sockets = listening.sockets_at(host, port)
        except OSError as fault:
            raise AddressError(listening.why_not(host, port, fault)) from None
        handler = functools.partial(ConnectionHandler, self._runner.server)
        self._listener = listening.Listener(self._gates, sockets, handler, tls)
        return int(sockets[0].getsockname()[1])

    def shut(self) -> None:
        """Takes no connection more."""
        if self._listener is not None:
            self._listener.close()

    async def end(self) -> None:
        """Ends all connections, once their requests are answered or LINGER_SECONDS has passed."""
        with ending.until_done(self._gates.name):
            await self._runner.shutdown()
            if self._runner.server is not None:
                await self._runner.server.shutdown(LINGER_SECONDS)
            await self._runner.cleanup()


def lines_of_begin(venue: Venue, entries: int) -> list[str]:
    """The lines that say with what an opened venue begins, before a front admits members."""
    unknown = ', '.join(venue.starts.waiting)
    without = f" but for {unknown}" if unknown else ""
    lines = [f"{venue.day.title}: {venue.folder}, {entries} entries so far{without}"]
    if count := len(venue.members.all):
        goes_on = f"goes on with what was begun on {date_of(venue.past.began)}"
        round_ = f"round {venue.rounds.now.number}, members: {count}"
        lines.append(f"{goes_on}: {round_}; --folder NEW begins anew")
    if changes := ", ".join(venue.past.changes):
        lines.append(f"the day has changed since it was last opened: {changes}")
    return lines


def url_of_metrics(address: Address, port: int) -> str:
    """Where operations look."""
    host = address.metrics[0] if address.metrics else ""
    return f"http://{f'[{host}]' if ':' in host else host}:{port}/metrics"


def lines_of_address(venue: Venue, address: Address, fronts: Sequence[str]) -> list[str]:
    """The lines that say where the venue is, with those of its other fronts."""
    url, *others = venue.audience.screen.urls()
    lines = [f"members  {url}"]
    lines += [f"or       {other}" for other in others]
    lines += fronts
    if code := venue.members.codes.by_name.get("", ""):
        lines.append(f"code     {code}")
    if address.hides_tokens:
        lines.append(f"tokens   in {venue.folder}/operator.token and beamer.token")
    for page, role in (("teacher", "operator"), ("beamer", "beamer")):
        secret = "TOKEN" if address.hides_tokens else venue.secrets[role]
        lines.append(f"{page:8} {url}{page}#{secret}")
    if address.is_insecure and not addresses.is_loopback(address.host):
        lines.append("insecure: whoever is on the network can read tokens and speak for others")
    return lines


def end_in_time(asked: threading.Lock) -> None:
    """Ends this process END_SECONDS after this lock was released, where it hasn't ended by itself:
    what was answered is in the journals by then.
    """
    asked.acquire()
    time.sleep(END_SECONDS)
    try:
        left = "; ".join(ending.left())
        kill_all()
        notices.write_left_out()
        if notices.has_room(sys.stderr):
            text = notices.shortened(f"venue: not ended within {END_SECONDS:g} s: {left}")
            print(text, file=sys.stderr, flush=True)
    finally:
        os._exit(FAILED)


async def unless(stopped: asyncio.Event, work: Coroutine[Any, Any, None]) -> bool:
    """Whether some work is done before it is to be stopped, and cancelled. Raises what it raises.
    """
    working, stopping = asyncio.create_task(work), asyncio.create_task(stopped.wait())
    await asyncio.wait({working, stopping}, return_when=asyncio.FIRST_COMPLETED)
    stopping.cancel()
    if not working.done():
        working.cancel()
        await asyncio.wait({working})
        return False
    working.result()
    return True


@dataclasses.dataclass
class Service:
    """A venue that is served by a program at an address, with TLS where it has a certificate, and
    by other fronts; `doors` are those that are open.
    """

    venue: Venue
    program: str
    address: Address
    tls: listening.Tls | None
    fronts: Sequence[Front]
    doors: list[ListeningPart] = dataclasses.field(default_factory=list)

    async def begin(self) -> None:
        """Opens the venue and its doors. Raises AddressError, and what Venue.open raises."""
        venue, address = self.venue, self.address
        entries = await venue.open()
        kept = sum(it.files for it in self.fronts) + MOST_OF_METRICS * (address.metrics is not None)
        own = gates.Gates(gates.most_connections(kept))
        first, others = lines_of_begin(venue, entries), await self._begin_metrics(own)
        pages = Pages(Site(venue, self.program, address.hosts(), own).application(), own)
        self.doors.append(pages)
        port = await pages.begin(address.host, address.port, self.tls)
        urls = functools.partial(address.urls, port, lambda: venue.certificate_names)
        venue.audience.screen.urls = urls
        for front in self.fronts:
            others.append(await front.begin(self.tls))
            self.doors.append(front)
        collect_rarely()
        print("\n".join([*first, *lines_of_address(venue, address, others)]), flush=True)
        NOTICES.info("serving at port %s, %s entries so far", port, entries)
        for line in others:
            NOTICES.info("%s", line)
        if venue.rounds.now.is_over:
            NOTICES.warning(DAY_IS_OVER)

    async def _begin_metrics(self, own: gates.Gates) -> list[str]:
        """Opens the pages for operations where they are asked for: the line that says where. Raises
        AddressError.
        """
        if self.address.metrics is None:
            return []
        few = gates.Gates(MOST_OF_METRICS, MOST_OF_METRICS)
        looked = Pages(measures(self.venue, own, self.fronts), few)
        self.doors.append(looked)
        port = await looked.begin(*self.address.metrics)
        return [f"metrics  {url_of_metrics(self.address, port)}"]

    async def end(self) -> None:
        """Ends the venue and its doors at the same time, once nobody new can come. Raises OSError.
        """
        gc.disable()
        for door in self.doors:
            door.shut()
        self.venue.audience.dismiss()
        await self.venue.close(*(door.end() for door in self.doors))

    # ---- the certificate

    def take(self) -> None:
        """Keeps when the certificate that is served ends and for whom it is, and says for whom not.
        """
        if self.address.cert:
            self.venue.certificate_ends = ends_of(self.address.cert)
            self.venue.certificate_names = hosts_of(self.address.cert)
        for text in self.address.warnings():
            NOTICES.warning(text)

    def reload(self) -> None:
        """Takes the certificate anew, for connections from now on."""
        if self.tls is None:
            NOTICES.warning("there is no certificate that could be taken anew")
            return
        try:
            self.tls.context = self.address.context() or self.tls.context
            self.take()
            ends = time.strftime("%Y-%m-%d", time.gmtime(self.venue.certificate_ends))
            NOTICES.warning("the certificate was taken anew: it ends on %s", ends)
        except AddressError as fault:
            NOTICES.error("the certificate stays as it was: %s", fault)


async def tell_manager(stopped: asyncio.Event) -> None:
    """Tells the service manager that the venue serves and lives, until it is stopped."""
    supervising.notify("READY=1")
    seconds = supervising.watchdog_seconds()
    living = asyncio.create_task(supervising.live(seconds)) if seconds else None
    await stopped.wait()
    if living is not None:
        living.cancel()


def collect_rarely() -> None:
    """Has Python's collector look at less, and less often: what there is as a venue begins stays,
    and so does nearly all that an order leaves. Each look holds up all orders.
    """
    gc.freeze()
    gc.set_threshold(*COLLECTOR_THRESHOLDS)


def measures(venue: Venue, found: gates.Gates, fronts: Sequence[Front]) -> web.Application:
    """The pages for operations. Raises AddressError."""
    try:
        from callauction.venue import metrics
    except ImportError:
        text = "--metrics needs prometheus_client: Debian has it in python3-prometheus-client"
        raise AddressError(text) from None
    return metrics.application(venue, found, [it.measures for it in fronts])


def on_signal(number: signal.Signals, act: Callable[[], None]) -> None:
    """Has this done in the running loop when a signal comes. A handler of the loop's own would be
    taken away with it, and one more signal would end this process before it has ended itself.
    """
    loop = asyncio.get_running_loop()
    signal.signal(number, lambda *_: loop.call_soon_threadsafe(act))


def stopped_by_signals() -> asyncio.Event:
    """What is set by the first signal from now on that ends the venue, within END_SECONDS, also
    where the loop stands still.
    """
    stopped, asked = asyncio.Event(), threading.Lock()
    asked.acquire()
    threading.Thread(target=end_in_time, args=(asked,), daemon=True).start()
    loop = asyncio.get_running_loop()

    def stop(*_: object) -> None:
        if asked.locked():
            asked.release()
        loop.call_soon_threadsafe(stopped.set)

    for number in END_SIGNALS:
        signal.signal(number, stop)
    return stopped


async def serve(
    venue: Venue,
    program: str,
    address: Address,
    fronts: Sequence[Front],
    stopped: asyncio.Event,
) -> None:
    """Listens until it is stopped; SIGHUP takes the certificate anew, unless there is none and a
    terminal has ended. Raises AddressError, and what Venue.open and close raise.
    """
    context = address.context()
    tls = listening.Tls(context) if context else None
    service = Service(venue, program, address, tls, fronts)
    service.take()
    if tls is not None or sys.stdin is None or not sys.stdin.isatty():
        on_signal(signal.SIGHUP, service.reload)
    counting = asyncio.create_task(notices.write_counts())
    try:
        if await unless(stopped, service.begin()):
            await tell_manager(stopped)
            supervising.notify("STOPPING=1")
            NOTICES.info("ending")
    finally:
        try:
            await service.end()
        finally:
            counting.cancel()
            gc.freeze()  # to look at all that a long day has left would take many seconds
            for number in END_SIGNALS:  # nothing is left for one more to end
                signal.signal(number, signal.SIG_IGN)

"""What operations look at, on an address of its own: `/healthz` and `/metrics`, the latter in the
text form of Prometheus.
"""
import os
import time
from collections.abc import Callable, Iterator, Mapping, Sequence

from aiohttp import web
from prometheus_client import CONTENT_TYPE_LATEST, CollectorRegistry, generate_latest
from prometheus_client.core import CounterMetricFamily, GaugeMetricFamily, HistogramMetricFamily
from prometheus_client.metrics_core import Metric

from callauction.venue import answer_heads, clock
from callauction.venue.gates import Gates
from callauction.venue.instrument_board import InstrumentBoard
from callauction.venue.phases import Phase
from callauction.venue.venue import Venue

PREFIX = "callboard"
OF_INSTRUMENTS = ("instrument",)
GAUGES = {
    "halted": "1 while the instrument, or the whole venue, has halted",
    "waiting": "messages that wait for their answer",
    "calls_left": "commands that the day has left",
    "calls_left_to_members": "commands that members have left, without those that are kept",
    "orders_open": "orders that are open in the book",
    "orders_left": "orders that the book has room for",
}
COUNTERS = {
    "orders": "commands that were answered, entries of the journal",
    "trades": "trades of the day",
    "restarts": "ends of the program after which it was started again",
}
OF_PROGRAMS = ("halted", "waiting", "restarts")
"""The measures of an instrument that are known before it was seen what its day has."""
KEPT_SECONDS = 1.0
"""How long the text of /metrics is given again, however many ask for it: with many instruments it
takes as long as some orders.
"""
Others = Sequence[Callable[[], Mapping[str, tuple[str, float]]]]
"""What gives the measures of the venue's other fronts."""


class Measures:
    """What is measured of a venue and its other fronts, each time that it is asked for."""

    def __init__(self, venue: Venue, gates: Gates, others: Others = ()) -> None:
        self._venue, self._gates, self._others = venue, gates, others

    def collect(self) -> Iterator[Metric]:
        """All measures."""
        yield from self._of_venue()
        yield from self._of_others()
        yield from self._of_instruments()
        yield self._phases()
        yield self._answers()

    def _of_venue(self) -> Iterator[Metric]:
        """Those of the whole venue."""
        venue = self._venue
        there = [it for it in venue.audience.watchers if it.role == "member"]
        disk = os.statvfs(venue.folder)
        values: dict[str, tuple[str, float]] = {
            "up": ("1 while the venue runs", 1),
            "venue_halted": ("1 while the whole venue has halted", int(bool(venue.halts.halted))),
            "members": ("members who have joined", len(venue.members.all)),
            "members_connected": ("members who are connected", len({it.member for it in there})),
            "connections": ("connections that are open", len(self._gates)),
            "clock_ahead_seconds": ("how far the clock was set since the start", clock.set_by()),
            "log_waiting_lines": ("lines that wait for the disk", venue.log.waiting),
            "disk_free_bytes": ("room on the disk of the day", disk.f_bavail * disk.f_frsize),
        }
        if (ends := venue.certificate_ends) is not None:
            values["certificate_end_seconds"] = ("the certificate's end, in Unix time", ends)
        for name, (what, value) in values.items():
            yield GaugeMetricFamily(f"{PREFIX}_{name}", what, value)

    def _of_others(self) -> Iterator[Metric]:
        """Those of the venue's other fronts."""
        for measures in self._others:
            for name, (what, value) in measures().items():
                kind = CounterMetricFamily if name.endswith("_total") else GaugeMetricFamily
                yield kind(f"{PREFIX}_{name}", what, value)

    def _of_instruments(self) -> Iterator[Metric]:
        """Those of each instrument."""
        yield from self._gauges()
        yield from self._counters()

    def _gauges(self) -> Iterator[Metric]:
        """Those of each instrument that rise and fall."""
        for name, what in GAUGES.items():
            gauge = GaugeMetricFamily(f"{PREFIX}_{name}", what, labels=OF_INSTRUMENTS)
            for of, board in self._known(name):
                is_halted = name == "halted" and self._venue.halts.halted is not None
                gauge.add_metric([of], max(is_halted, measure_of(board, name)))
            for early, _ in self._venue.rounds.early_halts if name == "halted" else ():
                gauge.add_metric([early_name(early)], 1)
            yield gauge

    def _counters(self) -> Iterator[Metric]:
        """Those of each instrument that only rise."""
        for name, what in COUNTERS.items():
            counter = CounterMetricFamily(f"{PREFIX}_{name}", what, labels=OF_INSTRUMENTS)
            for of, board in self._known(name):
                counter.add_metric([of], measure_of(board, name))
            yield counter

    def _known(self, name: str) -> Iterator[tuple[str, InstrumentBoard]]:
        """The instruments of which a measure is known, by their names."""
        for of, board in self._venue.rounds.now.boards.items():
            if board.looks.is_seen or name in OF_PROGRAMS:
                yield of, board

    def _phases(self) -> Metric:
        """In which phase each instrument is: 1 for that, 0 for the others."""
        found = GaugeMetricFamily(
            f"{PREFIX}_phase", "1 for the phase", labels=(*OF_INSTRUMENTS, "phase")
        )
        for name, board in self._known("phase"):
            for phase in Phase:
                found.add_metric([name, str(phase)], int(board.auctions.state.phase is phase))
        return found

    def _answers(self) -> Metric:
        """How long members waited for their answers."""
        what = "from a message's arrival to its answer"
        found = HistogramMetricFamily(f"{PREFIX}_answer_seconds", what, labels=OF_INSTRUMENTS)
        for name, board in self._venue.rounds.now.boards.items():
            times = board.engine.outbox.times
            found.add_metric([name], [*times.buckets()], times.total)
        return found


class Text:
    """The text of measures, which is made once in a while."""

    def __init__(self, measures: Measures, clock: Callable[[], float] = time.monotonic) -> None:
        self._registry = CollectorRegistry(auto_describe=False)
        self._registry.register(measures)  # type: ignore[arg-type]
        self._clock, self._text, self._ends = clock, b"", clock()

    def of_now(self) -> bytes:
        """The text, not older than KEPT_SECONDS."""
        if (now := self._clock()) >= self._ends:
            self._text, self._ends = generate_latest(self._registry), now + KEPT_SECONDS
        return self._text


def measure_of(board: InstrumentBoard, name: str) -> float:
    """A measure of an instrument."""
    engine = board.engine
    values = {
        "halted": int(engine.halted is not None),
        "waiting": engine.outbox.waiting,
        "calls_left": board.looks.day.left,
        "calls_left_to_members": max(0, board.commands.left),
        "orders_open": board.book.count,
        "orders_left": board.terms.open - board.book.count,
        "orders": engine.journal.count,
        "trades": len(board.looks.trades),
        "restarts": engine.restarts,
    }
    return values[name]


def application(venue: Venue, gates: Gates, others: Others = ()) -> web.Application:
    """What serves the two pages."""
    text = Text(Measures(venue, gates, others))

    async def healthz(request: web.Request) -> web.Response:
        halted = halts_of(venue)
        found = {"status": "halted" if halted else "ok", "halted": halted}
        return web.json_response(found, status=503 if halted else 200)

    async def metrics(request: web.Request) -> web.Response:
        return web.Response(body=text.of_now(), headers={"Content-Type": CONTENT_TYPE_LATEST})

    found = web.Application()
    found.on_response_prepare.append(answer_heads.mark)
    found.router.add_get("/healthz", healthz)
    found.router.add_get("/metrics", metrics)
    return found


def halts_of(venue: Venue) -> dict[str, str]:
    """Why the venue, and each of its instruments, has halted, where it has."""
    halted = {name: it.engine.halted for name, it in venue.rounds.now.boards.items()}
    found = {name: why for name, why in halted.items() if why is not None}
    early = {early_name(it): why for it, why in venue.rounds.early_halts}
    return found | early | ({"venue": venue.halts.halted} if venue.halts.halted else {})


def early_name(board: InstrumentBoard) -> str:
    """What operations read of a board of an earlier round."""
    return f"{board.identity.name} of round {board.identity.round}"

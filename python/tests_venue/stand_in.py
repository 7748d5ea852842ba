#!/usr/bin/python3
"""A double of the program for the venue's tests: it answers `--live --journal FILE` as the program
does, by the checks' own model, and does harm where a test asks for it. It is never installed.

In the environment: STAND_IN_SLOW, seconds that each record takes.
"""
import argparse
import fcntl
import os
import pathlib
import signal
import sys
import time
from collections.abc import Iterator

sys.path.insert(0, str(pathlib.Path(__file__).resolve().parents[2]))

from checks.model import day as days  # noqa: E402
from checks.model.__main__ import main as model  # noqa: E402
from checks.model import files, tables  # noqa: E402

BLOCK = 1 << 16
DEFAULTS = {"low": 1, "high": 1000, "reference": 200, "members": 4, "open": 4096, "calls": 65536}
SLOW = float(os.environ.get("STAND_IN_SLOW", "0"))


def ended(text: str, status: int) -> SystemExit:
    """The end with this line on standard error."""
    print(text, file=sys.stderr, flush=True)
    return SystemExit(status)


class Session:
    """A day that goes on from its journal."""

    def __init__(self, asked: argparse.Namespace) -> None:
        self.options = {name: getattr(asked, name) for name in [*DEFAULTS, "range"]}
        self.reserve, self.is_synced = asked.reserve, asked.sync != "none"
        self.day = days.opened(self.options)
        self.calls = self.records = 0
        self.filled: dict[int, int] = {}
        self.counted_trades = 0
        self.journal = self.opened(asked.journal) if asked.journal else None

    # ---- the journal

    def opened(self, path: str) -> int:
        """The journal, whole lines alone, after which the day goes on."""
        try:
            found = os.open(path, os.O_RDWR | os.O_CREAT | os.O_APPEND, 0o600)
        except OSError:
            raise ended("journal open failed", 3) from None
        try:
            fcntl.flock(found, fcntl.LOCK_EX | fcntl.LOCK_NB)
        except OSError:
            raise ended("journal in use", 2) from None
        text = pathlib.Path(path).read_text(encoding="latin-1")
        whole = text[: text.rfind("\n") + 1]
        if text[len(whole) :].strip("\0"):
            pathlib.Path(f"{path}.cut-1").write_text(text[len(whole) :], encoding="latin-1")
        os.ftruncate(found, len(whole))
        self.journal = found
        if whole:
            self.replay(whole)
        else:
            self.keep(tables.record(*tables.day_fields(self.options)))
        print(f"journal {self.calls} entries", file=sys.stderr, flush=True)
        return found

    def replay(self, text: str) -> None:
        """Goes on after the entries of a journal."""
        try:
            given = files.journal(text)
        except files.FileFault as fault:
            raise ended(f"journal {fault}", 1) from None
        other = [name for name in self.options if given.options[name] != self.options[name]]
        if other:
            raise ended(f"journal of another day: {', '.join(other)}", 2)
        for place, (call, recorded) in enumerate(zip(given.calls, given.replies), 1):
            lawful = self.day.apply(*call)
            if recorded != lawful:
                text = f'journal entry {place}: recorded "{recorded}", lawful "{lawful}"'
                raise ended(text, 4)
        self.calls = len(given.calls)

    def keep(self, text: str) -> None:
        """Writes to the journal, on the disk."""
        if self.journal is None or not text:
            return
        data = text.encode("ascii")
        try:
            while data:
                data = data[os.write(self.journal, data) :]
            if self.is_synced:
                os.fdatasync(self.journal)
        except OSError:
            raise ended("journal failed", 3) from None

    # ---- records

    def answers(self, lines: list[str]) -> tuple[str, str]:
        """What is answered to these records, and their entries."""
        said, kept = "", ""
        for line in filter(None, lines):
            self.records += 1
            fields = line.split(",")
            try:
                if fields[0] == "show":
                    said += self.shown(fields)
                    continue
                text, entry = self.command(fields)
            except files.FileFault as fault:
                said += f"{fault}\n"
                continue
            said, kept = said + text, kept + entry
        return said, kept

    def command(self, fields: list[str]) -> tuple[str, str]:
        """The answer to a command and its entry. Raises FileFault."""
        left = self.options["calls"] - self.calls
        if left == 0:
            raise files.FileFault(f"record {self.records}: too many commands")
        member, words = files.command(self.records, fields, self.options["members"])
        if member != 0 and left <= self.reserve:
            text = f"record {self.records}: calls are reserved for the operator"
            raise files.FileFault(text)
        reply = self.day.apply(member, words)
        self.calls += 1
        entry = tables.record(*tables.call_fields((member, words)), reply)
        return f"{self.calls}: {reply}\n", entry

    # ---- views

    def shown(self, fields: list[str]) -> str:
        """The answer to a view. Raises FileFault."""
        views = {"day": (2, 2), "ladder": (2, 2), "trades": (3, 3), "orders": (2, 3)}
        if len(fields) == 1:
            return f"show {self.day.display()}\n"
        if fields[1] not in views:
            raise files.FileFault(f"record {self.records}: bad command")
        least, most = views[fields[1]]
        if not least <= len(fields) <= most:
            raise files.FileFault(f"record {self.records}: wrong number of fields")
        if fields[1] == "day":
            return self.day_line()
        number = files.number(fields[2]) if len(fields) > 2 else None
        if len(fields) > 2 and number is None:
            raise files.bad_field(self.records, 3)
        rows = [*getattr(self, fields[1])(number)]
        return f"show {fields[1]} {len(rows)}\n" + "".join(rows)

    def day_line(self) -> str:
        """What the day has come to."""
        left = self.options["calls"] - self.calls
        auction = self.day.kind() or "over"
        return (
            f"show day {auction} reference {self.day.reference} calls {self.calls} left {left}\n"
        )

    def ladder(self, _: int | None) -> Iterator[str]:
        """The quantities of the orders that count, by limit."""
        rows: dict[int | None, list[int]] = {}
        for order in self.day.counted():
            rows.setdefault(order.limit, [0, 0])[order.side == "ask"] += order.quantity
        if None in rows:
            yield tables.record("market", *rows.pop(None))
        for tick, (bid, ask) in sorted(rows.items(), key=lambda it: -(it[0] or 0)):
            yield tables.record(tick, bid, ask)

    def trades(self, first: int | None) -> Iterator[str]:
        """The trades of the day from this number on."""
        begin = max(1, first or 1)
        for number, it in enumerate(self.day.tape[begin - 1 :], begin):
            yield tables.record(number, it.bid, it.ask, it.quantity, it.tick)

    def orders(self, member: int | None) -> Iterator[str]:
        """The open orders, of all or of one member, in their priority."""
        for trade in self.day.tape[self.counted_trades :]:
            for order in (trade.bid, trade.ask):
                self.filled[order] = self.filled.get(order, 0) + trade.quantity
        self.counted_trades = len(self.day.tape)
        for side in ("bid", "ask"):
            of_side = [it for it in self.day.book.values() if it.side == side]
            for it in sorted(of_side, key=days.Order.rank):
                if member in (None, it.member):
                    visible = it.quantity if it.peak is None else min(it.peak, it.quantity)
                    limit = "market" if it.limit is None else it.limit
                    yield tables.record(
                        *(it.id, it.member, side, limit, it.quantity, visible),
                        self.filled.get(it.id, 0),
                        it.restriction,
                    )


def arguments() -> argparse.ArgumentParser:
    """What reads the words of the command line."""
    parser = argparse.ArgumentParser()
    parser.add_argument("--live", action="store_true", required=True)
    parser.add_argument("--journal")
    parser.add_argument("--sync")
    parser.add_argument("--reserve", type=int, default=16)
    parser.add_argument("--range", type=int)
    for name, value in DEFAULTS.items():
        parser.add_argument(f"--{name}", type=int, default=value)
    return parser


def main() -> None:
    if "--live" not in sys.argv:
        sys.exit(model())
    signal.signal(signal.SIGTERM, lambda *_: sys.exit(0))
    session = Session(arguments().parse_args())
    rest = b""
    while block := os.read(0, BLOCK):
        *lines, rest = (rest + block).split(b"\n")
        said, kept = session.answers([line.decode("latin-1").rstrip("\r") for line in lines])
        if SLOW:
            time.sleep(SLOW * len(lines))
        session.keep(kept)
        os.write(1, said.encode("latin-1"))


if __name__ == "__main__":
    main()

"""Kills beside members by FIX: the venue, its program, and connections end at any moment. Each
message is answered once, and each member is sent all that the model finds in the journal, once.
"""
import collections
import contextlib
import dataclasses
import os
import pathlib
import random
import threading
import time

import fixing
import judged
import served
from checks.model import files
from checks.model.day import opened
from fixing import Closed, FixFields, FixMessage, Peer
from keeper import Keeper

KILLS = int(os.environ.get("VENUE_FIX_KILLS", "60"))
MEMBERS = ("ALICE", "BOB", "CAROL")
MOST_UNANSWERED, MOST_AT_ONCE = 32, 6
TARGETS = ("venue", "program", "connection")
AUCTIONS = ("opening", "intraday", "closing")
MORE: list[FixFields] = [[], [], [(59, "2")], [(59, "7")], [(111, "1")]]
FINAL = {"2", "4", "8", "C"}
"""OrdStatus of an order of which nothing is open."""


@dataclasses.dataclass
class PeerRobot:
    """A member that goes on in a connection of its own, until it is done and all is answered."""

    peer: Peer
    folder: pathlib.Path
    chance: random.Random
    told: dict[str, FixMessage] = dataclasses.field(default_factory=dict)
    open: dict[str, FixMessage] = dataclasses.field(default_factory=dict)
    asked: list[str] = dataclasses.field(default_factory=list)
    seen: int = 0
    done: threading.Event = dataclasses.field(default_factory=threading.Event)
    ended: threading.Event = dataclasses.field(default_factory=threading.Event)
    fault: BaseException | None = None

    def play(self) -> None:
        """Connects and trades, again and again."""
        try:
            while not self.ended.is_set():
                with contextlib.suppress(Closed, OSError):
                    self.session()
                time.sleep(0.05)
        except BaseException as fault:
            self.fault = fault

    def session(self) -> None:
        """One connection. Raises Closed, OSError."""
        self.peer.logon(fixing.token_of(self.folder, self.peer.member))
        while not self.ended.is_set():
            for _ in range(self.chance.randint(1, MOST_AT_ONCE)):
                if not self.done.is_set() and len(self.unanswered()) < MOST_UNANSWERED:
                    self.act()
            try:
                self.peer.all(self.chance.random() * 0.02)
            finally:
                self.learn_all()

    def learn_all(self) -> None:
        """Learns what has come."""
        for given in self.peer.got[self.seen :]:
            self.learn(given)
        self.seen = len(self.peer.got)

    def unanswered(self) -> set[str]:
        """The ids of requests that weren't answered."""
        told = [*self.told.values()]  # which may grow meanwhile
        return {*self.asked} - {it.get(11, "") for it in told}

    def learn(self, given: FixMessage) -> None:
        """Takes what the venue says. Raises AssertionError where it says an event twice."""
        event = given.get(17) or given.get(20001) or given[37]
        assert event not in self.told, (given, self.told[event])
        self.told[event] = given
        if given[35] == "8" and given[39] in "01":
            self.open[given[37]] = given
        elif given[35] == "8":
            self.open.pop(given[37], None)

    def act(self) -> None:
        """Sends an order, a change, a cancel, a cancel of all, or what is refused at once."""
        client = f"{self.peer.member}-{len(self.asked) + 1}"
        self.asked.append(client)
        shares, price = self.chance.randint(1, 900), f"{self.chance.randint(180, 220) / 100:.2f}"
        held = self.chance.choice([*self.open.values()]) if self.open else None
        kind = self.chance.choices("DGFqHN", (60, 20, 20, 3, 10, 10))[0]
        if kind == "H":
            self.peer.say("H", [(11, client), (55, "XYZ"), (54, "1")])  # of no order
        elif kind == "N":
            self.peer.cancel("none", client, "1")
        elif kind == "q":
            self.peer.say("q", [(11, client), (530, "7"), (60, fixing.stamp())])
        elif kind == "D" or held is None:
            more = self.chance.choice(MORE)
            self.peer.enter(client, self.chance.choice("12"), shares, price, *more)
        elif kind == "G":
            self.peer.replace(held[11], client, held[54], int(held[14]) + shares, price)
        else:
            self.peer.cancel(held[11], client, held[54])


def wanted(journal: str, names: dict[int, str]) -> dict[str, set[str]]:
    """The events of each member, by the model."""
    given = files.journal(journal)
    day, found = opened(given.options), collections.defaultdict[str, set[str]](set)
    for place, (member, command) in enumerate(given.calls, 1):
        before, made = {**day.book}, len(day.tape)
        day.apply(member, command)
        if member:
            found[names[member]].add(f"XYZ.{place}")
            continue
        for number, it in enumerate(day.tape[made:], made + 1):
            found[names[it.bid_member]].add(f"XYZ.{place}.{number}b")
            found[names[it.ask_member]].add(f"XYZ.{place}.{number}a")
        for order in before.values():
            if order.quantity and (order.id not in day.book or day.auction == len(AUCTIONS)):
                found[names[order.member]].add(f"XYZ.{place}.x{order.id}")
    return found


def killed(keeper: Keeper, robots: list[PeerRobot], chance: random.Random) -> str:
    """Kills something: what."""
    target = chance.choice(TARGETS)
    if target != "connection":
        keeper.kill(target, True)
        return target
    with contextlib.suppress(OSError):
        chance.choice(robots).peer.close()
    return target


def uncrossed(keeper: Keeper, first: served.Served) -> None:
    """Uncrosses, once the program runs."""
    last = time.monotonic() + served.SECONDS
    while time.monotonic() < last:
        with contextlib.suppress(OSError):
            status, _ = first.call("api/operator", {"do": "uncross"}, first.operator)
            if status == 200:
                return
        time.sleep(0.1)
    raise AssertionError("nothing is uncrossed")


def settled(robots: list[PeerRobot]) -> None:
    """Waits until all is answered. Raises AssertionError."""
    last = time.monotonic() + served.SECONDS
    while any(it.unanswered() for it in robots):
        faults = [it.fault for it in robots if it.fault]
        assert not faults and time.monotonic() < last, (faults, [it.unanswered() for it in robots])
        time.sleep(0.1)


def play(
    keeper: Keeper, first: served.Served, robots: list[PeerRobot], chance: random.Random
) -> None:
    """The day under kills, with an uncross after each third of them."""
    counts = collections.Counter[str]()
    for number in range(1, KILLS + 1):
        time.sleep(chance.random() * 1.5)
        counts[killed(keeper, robots, chance)] += 1
        if number in (KILLS // 3, 2 * KILLS // 3):
            uncrossed(keeper, first)
            keeper.kill("venue", True)
            first.do("start")
    for it in robots:
        it.done.set()
    settled(robots)
    uncrossed(keeper, first)
    print(dict(counts), sum(len(it.asked) for it in robots), "requests")


def test_members_are_told_all_of_the_journal_once(tmp_path: pathlib.Path, seed: int) -> None:
    port, chance = served.free_port(), random.Random(seed)
    keeper = Keeper(tmp_path, served.free_port())
    (tmp_path / "day.toml").write_text(fixing.day_of(port, *MEMBERS, sync="true"))
    keeper.start()
    assert keeper.child is not None
    robots = [
        PeerRobot(Peer(port, name), tmp_path / "venue", random.Random(seed + place))
        for place, name in enumerate(MEMBERS, 1)
    ]
    threads = [threading.Thread(target=it.play, daemon=True) for it in robots]
    try:
        first = served.begun(keeper.child)
        first.do("start")
        for thread in threads:
            thread.start()
        play(keeper, first, robots, chance)
        check(tmp_path / "venue", first, robots)
    finally:
        for it in robots:
            it.ended.set()
        keeper.stop()


def check(folder: pathlib.Path, venue: served.Served, robots: list[PeerRobot]) -> None:
    """Raises AssertionError where a member wasn't sent what the journal has, or other things."""
    status, journal = venue.call("api/download/journal/XYZ", token=venue.operator)
    assert status == 200 and judged.is_lawful(journal)
    numbers = fixing.numbers_of(folder)
    events = wanted(journal, numbers)
    last = time.monotonic() + served.SECONDS
    while any(events[it.peer.member] - it.told.keys() for it in robots):
        assert time.monotonic() < last, [events[it.peer.member] - it.told.keys() for it in robots]
        time.sleep(0.1)
    for it in robots:
        assert not it.fault and not it.open, (it.fault, it.open)
        told = {event for event in it.told if event.startswith("XYZ.")}
        assert told == events[it.peer.member]
        answers = [given for given in it.told.values() if is_answer(given)]
        clients = collections.Counter(given.get(11, "") for given in answers)
        twice = [given for given in answers if clients[given.get(11, "")] > 1]
        assert clients == collections.Counter(it.asked), twice
        check_shares(it)


def is_answer(given: FixMessage) -> bool:
    """Whether a report answers a request: no trade or end does, nor does an order that a cancel of
    all took out.
    """
    return given.get(150) not in ("F", "C") and not (given.get(150) == "4" and 41 not in given)


def check_shares(robot: PeerRobot) -> None:
    """Raises AssertionError where the trades of an order don't add up to what it says of itself."""
    shares = collections.Counter[str]()
    last: dict[str, FixMessage] = {}
    for given in robot.told.values():
        if given[35] == "8" and given[37] != "NONE":
            last[given[37]] = given
            shares[given[37]] += int(given.get(32, "0"))
    assert all(it[39] in FINAL for it in last.values())
    assert {order: int(it[14]) for order, it in last.items()} == {it: shares[it] for it in last}

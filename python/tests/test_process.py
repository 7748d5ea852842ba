"""What an auction is in a process: closed and busy objects, memory, forks and threads."""
import concurrent.futures
import gc
import os
import pickle
import resource
import sys
import threading
import time
import weakref
from collections.abc import Callable

import callauction
import numpy
import pytest
from arrayed import array_of
from callauction import (
    Auction,
    AuctionKind,
    BusyError,
    ClosedError,
    Enter,
    Entered,
    Indicate,
    NoPrice,
    OpenOrder,
    Price,
    Side,
    Uncrossed,
)
from callauction.arrays import Structs

BID, ASK = Side.BID, Side.ASK
Call = Callable[[Auction], object]
CALLS: list[Call] = [
    lambda auction: auction.enter(1, BID, 1),
    lambda auction: auction.change(1, 1, 1),
    lambda auction: auction.delete(1, 1),
    lambda auction: auction.order_status(1, 1),
    lambda auction: auction.indicate(1),
    lambda auction: auction.read_trade(1, 1),
    lambda auction: auction.uncross(),
    lambda auction: auction.apply(1, Indicate()),
    lambda auction: auction.apply_many(array_of([(1, Indicate())])),
    lambda auction: auction.apply_many(array_of([])),
    lambda auction: auction.display(),
    lambda auction: auction.ladder(),
    lambda auction: auction.market_orders(),
    lambda auction: auction.trades(),
    lambda auction: auction.calls,
    lambda auction: auction.is_full,
    lambda auction: auction.config,
    lambda auction: auction.copy(),
    lambda auction: auction.reset(),
]


@pytest.mark.parametrize("call", CALLS)
def test_a_closed_auction_raises(call: Call) -> None:
    with Auction() as auction:
        assert not auction.is_closed
    assert auction.is_closed
    with pytest.raises(ClosedError):
        call(auction)
    auction.close()
    auction.close()


def test_it_is_closed_where_its_block_raises() -> None:
    with pytest.raises(KeyError), Auction() as auction:
        raise KeyError("no")
    assert auction.is_closed


def test_a_bad_config_leaves_no_auction() -> None:
    auction = Auction.__new__(Auction)
    with pytest.raises(ValueError):
        auction.__init__(low=0)  # type: ignore[misc]
    assert auction.is_closed
    auction.__init__()  # type: ignore[misc]
    assert auction.indicate(1) == NoPrice(None, None)
    with pytest.raises(callauction.AuctionError, match="holds an auction"):
        auction.__init__()  # type: ignore[misc]
    assert auction.calls == 1


def test_it_is_not_pickled() -> None:
    with Auction() as auction, pytest.raises(TypeError, match="can't be pickled"):
        pickle.dumps(auction)


# ---- memory


def resident() -> int:
    """The process's memory in KiB."""
    with open("/proc/self/status", encoding="ascii") as status:
        (line,) = [line for line in status if line.startswith("VmRSS")]
    return int(line.split()[1])


def small() -> Auction:
    return Auction(max_open=64, max_calls=256)


def closed() -> None:
    with small() as auction:
        auction.enter(1, BID, 5, 5)


def dropped() -> None:
    small().copy().enter(1, BID, 5, 5)


def refused() -> None:
    with pytest.raises(ValueError):
        Auction(low=0)


@pytest.mark.parametrize("use, count", [(closed, 100_000), (dropped, 50_000), (refused, 20_000)])
def test_auctions_leave_nothing(use: Callable[[], None], count: int) -> None:
    for _ in range(1000):
        use()
    gc.collect()
    before = resident()
    for _ in range(count):
        use()
    gc.collect()
    assert resident() - before < 4096


def test_calls_leave_nothing() -> None:
    commands = array_of([(1, Enter(BID, 5, 5)), (1, Indicate())])
    with Auction(max_calls=1_000_000) as auction:
        auction.enter(1, BID, 5, 5)
        before = 0
        for turn in range(20_000):
            if turn == 2_000:
                gc.collect()
                before = resident()
            auction.apply_many(commands)
            auction.ladder(), auction.trades(), auction.indicate(1), auction.config
            with pytest.raises(TypeError):
                auction.delete(1, "1")  # type: ignore[arg-type]
            auction.reset() if turn % 1000 == 0 else None
        gc.collect()
        assert resident() - before < 4096


def test_a_dropped_auction_is_gone() -> None:
    auction = Auction()
    seen = weakref.ref(auction)
    del auction
    assert seen() is None


def large() -> Auction:
    return Auction(max_open=65_536, max_calls=1_048_576)


def starved(auction: Auction) -> str:
    """What openings and copies raise in the end in a process that gets 4 MiB more, and what still
    goes.
    """
    pages = int(open("/proc/self/statm", encoding="ascii").read().split()[0])
    room = pages * resource.getpagesize() + (4 << 20)
    resource.setrlimit(resource.RLIMIT_AS, (room, room))
    wantings: list[Callable[[], Auction]] = [auction.copy, large]
    held: list[Auction] = []
    for wanting in wantings:
        try:
            held.extend(wanting() for _ in range(1000))
        except MemoryError as error:
            if str(error) != "an auction got no memory":
                return f"another error: {error}"
        else:
            return "memory was not refused"
    return str(auction.indicate(1))


def test_want_of_memory_raises() -> None:
    with large() as auction:
        assert in_child(lambda: starved(auction)) == "NoPrice(best_bid=None, best_ask=None)"


# ---- forks and threads


def in_child(say: Callable[[], str]) -> str:
    """What this says in a child of the process."""
    reading, writing = os.pipe()
    child = os.fork()
    if child == 0:
        try:
            os.write(writing, say().encode())
        finally:
            os._exit(0)
    os.close(writing)
    with open(reading, encoding="ascii") as pipe:
        said = pipe.read()
    assert os.waitpid(child, 0)[1] == 0
    return said


def test_a_fork_has_an_auction_of_its_own() -> None:
    with Auction() as auction:
        auction.enter(1, BID, 5, 100)

        def say() -> str:
            auction.enter(1, ASK, 5, 90)
            said = f"{auction.calls} {auction.uncross()}"
            auction.close()
            return said

        price = Price(100, 5, 0, Side.NONE)  # the reference, 200, lies above 90 and 100
        assert in_child(say) == f"2 {Uncrossed(AuctionKind.OPENING, price, 1)}"
        assert auction.calls == 1
        assert auction.display() == NoPrice(100, None)


def day(seed: int) -> tuple[list[int], object]:
    """The ids and the display of a day of its own."""
    with Auction(low=1, high=1000 + seed) as auction:
        entered = [auction.enter(1, BID, 1 + seed, 1 + k % 500) for k in range(500)]
        ids = [reply.id for reply in entered if isinstance(reply, Entered)]
        many = array_of([(2, Enter(ASK, 1, 1000 - k % 400)) for k in range(1500)])
        ids += auction.apply_many(many)["id"].tolist()
        auction.enter(3, ASK, 1, 500)
        return ids, auction.display()


def test_a_pool_of_threads_with_an_auction_each() -> None:
    with concurrent.futures.ThreadPoolExecutor(4) as pool:
        found = [*pool.map(day, range(40))]
    assert [ids for ids, _ in found] == [[*range(1, 2001)]] * 40
    assert found == [day(seed) for seed in range(40)]
    assert found[0][1] == Price(500, 1, 0, Side.NONE)


def million() -> Structs:
    """A million questions, which take some tens of milliseconds."""
    commands = numpy.zeros(1_000_000, callauction.COMMAND)
    commands["tag"] = callauction.CommandTag.INDICATE
    return commands


def turns_meanwhile(auction: Auction, commands: Structs) -> tuple[int, int]:
    """While a thread applies these commands: how often another auction was called, and how often
    a call of this one raised BusyError.
    """
    thread = threading.Thread(target=auction.apply_many, args=(commands,))
    turns = busy = 0
    with Auction() as other:
        thread.start()
        while thread.is_alive():
            turns += isinstance(other.display(), NoPrice)
            if auction._own.is_busy_:
                try:
                    auction.is_full
                except BusyError:
                    busy += 1
            time.sleep(0)
    thread.join()
    return turns, busy


def test_other_threads_go_on_meanwhile_and_a_second_call_raises() -> None:
    commands = million()
    with Auction(max_calls=1_048_576) as auction:
        met = (0, 0)
        for _ in range(10):
            auction.reset()
            met = max(met, turns_meanwhile(auction, commands))
            assert auction.calls == len(commands)
            if min(met) > 50:
                break
        assert min(met) > 50


@pytest.mark.parametrize("call", [*CALLS, Auction.close, lambda auction: auction.is_closed])
def test_a_second_call_raises(call: Call) -> None:
    with Auction() as auction:
        auction._own.is_busy_ = True  # as a running call sets it
        with pytest.raises(BusyError):
            call(auction)
        auction._own.is_busy_ = False
        assert auction.calls == 0


def test_threads_that_share_one_never_mix_their_calls() -> None:
    """Each is answered for its own command, or raises BusyError."""
    with Auction(max_calls=1_048_576) as auction:
        faults: list[object] = []

        def use(member: int) -> None:
            for _ in range(2000):
                try:
                    entered = auction.enter(member, BID, member, member)
                    if isinstance(entered, Entered):
                        standing = auction.order_status(member, entered.id)
                        if standing != OpenOrder(BID, member, member, member):
                            faults.append(standing)
                        auction.delete(member, entered.id)
                except BusyError:
                    pass

        threads = [threading.Thread(target=use, args=(member,)) for member in range(1, 5)]
        interval = sys.getswitchinterval()
        sys.setswitchinterval(1e-5)
        for thread in threads:
            thread.start()
        for thread in threads:
            thread.join()
        sys.setswitchinterval(interval)
        assert not faults
        assert auction.calls > 0

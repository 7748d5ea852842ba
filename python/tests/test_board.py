"""Members of a board on threads of their own, beside the rules."""
import copy
import dataclasses
import pickle
import random
import subprocess
import sys
import threading
from collections.abc import Callable
from concurrent.futures import ThreadPoolExecutor
from pathlib import Path
from typing import Any

import numpy
import pytest
from callauction import (
    ENTRY,
    RECEIPT,
    Auction,
    AuctionError,
    Board,
    BoardDay,
    BusyError,
    Change,
    Changed,
    ClosedError,
    CommandTag,
    Delete,
    Entered,
    FullError,
    Indicate,
    MarketOrders,
    Member,
    NoCommandError,
    NoPrice,
    NotEnteredError,
    OpenOrder,
    Price,
    Receipt,
    Refusal,
    Refused,
    RefusedError,
    Restriction,
    Side,
    Uncross,
    Uncrossed,
    commands,
    refusals,
    reply_of,
)
from callauction._native import ffi
from callauction.arrays import Structs
from days import by_the_rules
from forks import in_a_child
from printed import TOP

MEMBERS, CALLS = 8, 12_500
DAY: dict[str, int] = {"low": 1, "high": 1000, "reference": 500, "max_open": 65_536}
MOST_FORKS = 300
"""Until one came beside a call and one between two."""
MOST_LOOKS = 100_000
"""Whether a call runs, before a fork that should come beside one."""


def trade(member: Member, calls: int) -> list[Receipt]:
    """Makes `calls` calls with dice of its own: the receipts."""
    dice = random.Random(member.number)
    receipts: list[Receipt] = []
    last = 0
    for _ in range(calls):
        roll, quantity, limit = dice.random(), dice.randint(1, 50), dice.randint(490, 510)
        if last and roll < 0.3:
            receipts.append(member.call(Delete(last)))
        elif last and roll < 0.5:
            receipts.append(member.call(Change(last, quantity, limit)))
        else:
            side = dice.choice([Side.BID, Side.ASK])
            receipts.append(member.enter(side, quantity, limit))
        reply = receipts[-1].reply
        last = reply.id if isinstance(reply, Entered) else last if roll >= 0.3 else 0
    return receipts


def watch(member: Member, is_over: threading.Event) -> bool:
    """Whether the looks of a member never go back."""
    seen = 0
    while not is_over.is_set():
        shown = member.look()
        if shown.calls < seen:
            return False
        seen = shown.calls
    return True


def test_eight_threads_beside_the_rules() -> None:
    board = Board(MEMBERS + 1, **DAY, max_calls=MEMBERS * CALLS + 1, reserve=1)
    is_over = threading.Event()
    with ThreadPoolExecutor(MEMBERS + 1) as pool:
        watching = pool.submit(watch, board[MEMBERS], is_over)
        trading = [pool.submit(trade, board[number], CALLS) for number in range(MEMBERS)]
        receipts = [task.result() for task in trading]
        is_over.set()
        assert watching.result()
    assert isinstance(board[0].uncross().reply, Uncrossed)
    day = board.close()
    assert day.counts == (CALLS + 1, *[CALLS] * (MEMBERS - 1), 0)
    assert len(day.history) == sum(day.counts)
    for number, own in enumerate(receipts):
        for receipt in own:
            entry = day.history[receipt.number - 1]
            assert entry["command"]["member"] == number
            assert reply_of(entry["reply"]) == receipt.reply
        assert sorted(it.number for it in own) == [it.number for it in own]
    status, audit, fault = by_the_rules(day.day(), "audit")
    assert (status, audit.splitlines()[-1], fault) == (0, "audit legal", "")


def test_a_member_sees_all_calls() -> None:
    with Board(2, **DAY, max_calls=10, reserve=2) as board:
        first, second = board.members
        assert (first.number, second.number, len(board)) == (0, 1, 2)
        assert second.look().display == NoPrice(None, None)
        assert second.enter(Side.BID, 5, 500) == Receipt(1, Entered(1))
        assert first.enter(Side.ASK, 3, 499) == Receipt(2, Entered(2))
        assert first.enter(Side.ASK, 3) == Receipt(3, Entered(3))
        shown = second.look()
        assert (shown.calls, shown.display) == (3, Price(499, 5, 1, Side.ASK))
        bids, asks, market, calls = second.ladder()
        assert (bids[499], asks[498], market, calls) == (5, 3, MarketOrders(0, 3), 3)
        assert second.change(1, 6, 500).reply == Changed(False)
        assert second.order_status(1).reply == OpenOrder(Side.BID, 6, 500, 6)
        assert second.uncross() == Receipt(6, Refused(Refusal.NOT_OPERATOR))
        with pytest.raises(RefusedError, match="NOT_OPERATOR"):
            second.call(Uncross(), check=True)
        assert isinstance(first.uncross().reply, Uncrossed)
        assert len(first.trades()) == 2 and len(first.trades(1)) == 1
        entries = second.history(5)
        assert entries.dtype == ENTRY and len(entries) == 3
        assert (first.calls, second.calls) == (3, 5)


def test_a_full_board_takes_no_call() -> None:
    with Board(1, **DAY, max_calls=2) as board:
        for _ in range(2):
            board[0].indicate()
        with pytest.raises(FullError):
            board[0].indicate()
        assert board[0].calls == 2


def test_the_last_calls_are_the_operators() -> None:
    """16 of a board, where nothing else is said: its day can be uncrossed and audited, whatever its
    members call.
    """
    cases: list[tuple[dict[str, int], int]] = [({}, 16), ({"reserve": 2}, 2)]
    for given, reserve in cases:
        board = Board(2, **DAY, max_calls=reserve + 3, **given)
        assert board.config.reserve == reserve
        for number in (1, 2, 3):
            assert board[1].indicate().number == number
        copied = board[1].auction()
        for _ in range(reserve):
            with pytest.raises(FullError, match="^no call is left to the member$"):
                board[1].indicate()
            board[0].uncross()
        with pytest.raises(FullError):
            board[0].uncross()
        day = board.close()
        assert day.counts == (reserve, 3) and day.audit().empty
        with pytest.raises(FullError):
            copied.indicate(1)
        assert copied.config == board.config and isinstance(copied.uncross(), Uncrossed)
    with Board(2, **DAY, max_calls=1, reserve=0) as board:
        assert board[1].indicate().number == 1


def test_a_closed_board_gives_its_day_and_takes_no_call() -> None:
    board = Board(2, **DAY)
    board[1].indicate()
    with pytest.raises(AuctionError, match="the board isn't closed, so its day isn't over"):
        board.day
    day = board.close()
    assert board.is_closed and day.counts == (0, 1)
    assert board.close() is board.day is day
    calls: list[Any] = [board[0].indicate, board[0].history, board[0].ladder]
    for call in calls:
        with pytest.raises(ClosedError):
            call()
    assert board[1].look().calls == 1
    assert board[1].calls == 1


def test_a_with_block_keeps_the_day() -> None:
    with Board(2, **DAY) as board:
        board[1].enter(Side.BID, 5, 500)
    assert isinstance(board.day, BoardDay)
    assert len(board.day.history) == 1 and board.close().counts == (0, 1)
    with pytest.raises(RuntimeError):
        with Board(2, **DAY) as other:
            other[1].enter(Side.BID, 5, 500)
            raise RuntimeError
    assert other.is_closed and other.day.counts == (0, 1)
    with pytest.raises(ClosedError):
        other[1].indicate()


def test_a_with_block_ends_while_a_thread_calls() -> None:
    """Its own exception is what is raised, else that the board couldn't be closed."""
    board = Board(2, **DAY)
    board._own.is_busy_[1] = True  # as while a thread calls it
    with pytest.raises(BusyError, match="^another call of this member is running"):
        with board:
            pass
    with pytest.raises(RuntimeError, match="^the block's$") as raised:
        with board:
            raise RuntimeError("the block's")
    assert raised.value.__notes__ == [
        "the board isn't closed: another call of this member is running, or was at a fork"
    ]
    assert not board.is_closed
    board._own.is_busy_[1] = False
    assert board.close().counts == (0, 0)


def test_a_board_has_no_other_members() -> None:
    board = Board(8)
    assert [member.number for member in board.members] == [*range(8)]
    for number in (8, -1):
        text = f"^a board of 8 members has numbers 0 to 7, not {number}$"
        with pytest.raises(IndexError, match=text):
            board[number]
    with pytest.raises(TypeError):
        board["1"]  # type: ignore[index]
    with pytest.raises(TypeError, match="^kind must be one of AuctionKind, not str$"):
        board[0].uncrossed_orders("opening")  # type: ignore[arg-type]


def test_a_copy_is_the_board_itself() -> None:
    board = Board(2, **DAY)
    other, member = copy.copy(board), copy.copy(board[1])
    assert other is board and member is board[1]
    member.enter(Side.BID, 5, 500)
    assert len(other.close().history) == 1
    assert board.is_closed and repr(board) == "<closed board of 2 members>"


def test_a_board_stays_in_its_process() -> None:
    board = Board(2, **DAY)
    why = "its board is one auction, which the threads of one process call"
    for made, kind in ((board, "Board"), (board[1], "Member")):
        with pytest.raises(TypeError, match=f"^a {kind} can't be pickled: {why}"):
            pickle.dumps(made)
        with pytest.raises(TypeError, match=f"^a {kind} can't be copied: {why}$"):
            copy.deepcopy(made)
    day = pickle.loads(pickle.dumps(board.close()))
    assert day.counts == (0, 0) and len(day.history) == 0


CALLS_OF_A_BOARD: list[Callable[[Board], object]] = [
    lambda board: board[0].uncross(),
    lambda board: board[2].enter(Side.BID, 5, 500),
    lambda board: board[2].look(),
    lambda board: board[2].calls,
    lambda board: board[2].ladder(),
    lambda board: board[2].trades(),
    lambda board: board[2].history(),
    Board.close,
]


@pytest.mark.parametrize("call", CALLS_OF_A_BOARD)
def test_a_board_that_was_called_at_a_fork_is_busy_in_the_child(
    call: Callable[[Board], object]
) -> None:
    board, still = Board(3, **DAY), Board(3, **DAY)
    board._own.is_busy_[1] = True  # as while a thread calls it
    assert in_a_child(lambda: call(board)) == 3
    assert in_a_child(lambda: in_a_child(lambda: call(board)) == 3 and call(board)) == 3
    assert in_a_child(lambda: call(still)) == 0
    board._own.is_busy_[1] = False
    assert in_a_child(lambda: call(board)) == 0
    assert board[1].indicate().number == 1


def wait_for_a_call(board: Board, number: int) -> None:
    """Returns while a thread calls the board as this member, or after so many looks without one.

    The look and the fork behind it have the interpreter's lock, the call doesn't.
    """
    for _ in range(MOST_LOOKS):
        if board._own.is_busy_[number]:
            return


def test_forks_beside_calls_never_hang() -> None:
    """A child whose parent was calling the board just then raises BusyError, others go on: which of
    both a fork meets is chance, so either is right, and a child that waits or fails is not.
    """
    board = Board(3, low=1, high=65_536, max_calls=1_048_576)
    is_over = threading.Event()

    def work() -> None:
        while not is_over.is_set():
            board[1].ladder()
            board[1].indicate()

    ends: set[int] = set()
    with ThreadPoolExecutor(1) as pool:
        task = pool.submit(work)
        for turn in range(MOST_FORKS):
            if turn % 2:
                wait_for_a_call(board, 1)
            ends.add(in_a_child(board[2].indicate))
            if ends >= {0, 3}:
                break
        is_over.set()
        task.result()
    assert ends <= {0, 3}
    assert board[2].indicate().number == board.members[1].calls + 1


def test_a_closed_board_has_tables() -> None:
    board = Board(2, **DAY)
    board[1].enter(Side.BID, 5, 500)
    board[0].enter(Side.ASK, 5, 500)
    board[0].uncross()
    day = board.close()
    assert day.audit().empty
    assert day.trades()[["bid_member", "ask_member", "quantity"]].values.tolist() == [[1, 0, 5]]
    assert len(day.journal()) == 3
    assert [*day.outcomes()["traded"]] == [5, 5]
    assert day.reference(3) == 500
    assert [*day.course().uncrosses["price"]] == [500]
    assert "500" in str(day.explain(3))
    assert set(day.books()["auction"]) == {"opening", "intraday"}


@pytest.mark.parametrize(
    "given, fault",
    [
        ({"members": 0}, "members must be from 1 to 64, not 0"),
        ({"members": 65}, "members must be from 1 to 64, not 65"),
        ({"members": 2, "low": 5, "high": 4}, "low, high"),
        ({"members": 2, "reference": 1001}, "reference"),
        ({"members": 2, "max_calls": 0}, "max_open, max_calls"),
        ({"members": 2, "range": 1_000_001}, "^range must be from 0 to 1000000, not 1000001"),
        ({"members": 3, "max_calls": 16}, "^reserve must be below max_calls, which is 16, not 16"),
        ({"members": 2, "max_calls": 9, "reserve": 10}, "members would have no call$"),
    ],
)
def test_a_board_that_cannot_be_opened(given: dict[str, int], fault: str) -> None:
    with pytest.raises(ValueError, match=fault):
        Board(**given)


@pytest.mark.parametrize(
    "command, fault",
    [
        (lambda member: member.enter(Side.NONE, 1), ValueError),
        (lambda member: member.enter("bid", 1), TypeError),
        (lambda member: member.enter(Side.BID, -1), ValueError),
        (lambda member: member.enter(Side.BID, 1, 1 << 32), ValueError),
        (lambda member: member.delete(1.5), TypeError),
        (lambda member: member.call("ask"), TypeError),
        (lambda member: member.history(-1), ValueError),
    ],
)
def test_a_bad_argument_is_no_call(command: Any, fault: type[Exception]) -> None:
    with Board(1, **DAY) as board:
        with pytest.raises(fault):
            command(board[0])
        assert board[0].calls == 0


def test_two_calls_at_once_of_one_member() -> None:
    """The flag of a member that a call has is found by the next one."""
    with Board(2, **DAY) as board:
        own = board._own
        own.is_busy_[1] = True
        with pytest.raises(BusyError):
            board[1].call(Indicate())
        with pytest.raises(BusyError):
            board.close()
        board[0].call(Indicate())
        own.is_busy_[1] = False
        assert board[1].call(Indicate()).number == 2


def test_an_entry_has_the_layout_of_the_struct() -> None:
    fields: Any = ENTRY.fields
    struct = ffi.typeof("callauction_entry")
    assert ENTRY.itemsize == ffi.sizeof(struct)
    assert {name: at.offset for name, at in struct.fields} == {
        name: fields[name][1] for name in fields
    }
    assert isinstance(numpy.zeros(1, ENTRY)["command"]["tag"][0], numpy.uint8)


def test_the_example_prints_its_lines() -> None:
    example = TOP / "examples/board.py"
    words = [sys.executable, str(example)]
    ran = subprocess.run(words, capture_output=True, text=True, check=True, timeout=100)
    assert ran.stdout == example.with_suffix(".txt").read_text(encoding="utf-8")


def test_a_copy_of_the_boards_auction_goes_on_by_itself() -> None:
    board = Board(2, **DAY, max_calls=9, reserve=0)
    board[1].enter(Side.BID, 5, 500)
    copied = board[0].auction()
    assert (copied.calls, copied.config) == (1, board.config)
    assert copied.enter(0, Side.ASK, 5, 500) == Entered(2)
    assert isinstance(copied.uncross(), Uncrossed)
    assert board[1].orders()["id"].tolist() == [1] and board[1].look().calls == 1
    board[1].copy_into(copied)
    assert (copied.calls, len(copied.trades()), len(copied.orders())) == (1, 0, 1)
    with pytest.raises(ValueError, match="^other"):
        board[0].copy_into(Auction())
    with pytest.raises(TypeError, match="^other"):
        board[0].copy_into("other")  # type: ignore[arg-type]
    board.close()
    with pytest.raises(ClosedError, match="^the board"):
        board[0].auction()
    with pytest.raises(ClosedError, match="^the board"):
        board[0].copy_into(copied)
    assert copied.calls == 1
    copied.close()
    with pytest.raises(ClosedError, match="^other"):
        Board(2).members[0].copy_into(copied)


def test_copies_are_lawful_beginnings_while_others_call() -> None:
    board = Board(4, **DAY, max_calls=4_000)
    with ThreadPoolExecutor(3) as pool:
        trading = [pool.submit(trade, board[number], 1_000) for number in (1, 2, 3)]
        copies = [board[0].auction() for _ in range(40)]
        for task in trading:
            task.result()
    history = board[0].history()
    seen = [copied.calls for copied in copies]
    assert seen == sorted(seen)
    for copied in copies:
        replayed = Auction(*dataclasses.astuple(board.config))
        replayed.apply_many(history["command"][: copied.calls].copy())
        assert replayed.orders().tolist() == copied.orders().tolist()
        assert replayed.state() == copied.state()


def test_many_calls_have_no_other_between() -> None:
    board = Board(4, **DAY, max_calls=6_000)
    orders = commands(side=[Side.BID, Side.ASK] * 20, limit=[500] * 40, quantity=[3] * 40)

    def calls(member: Member) -> list[Structs]:
        return [member.apply_many(orders) for _ in range(25)]

    with ThreadPoolExecutor(3) as pool:
        alone = pool.submit(trade, board[1], 500)
        tasks = [pool.submit(calls, board[number]) for number in (2, 3)]
        receipts = [it for task in tasks for it in task.result()]
        alone.result()
    history = board[0].history()
    assert len(history) == 500 + 2 * 25 * 40
    for made in receipts:
        first = int(made["number"][0])
        assert made.dtype == RECEIPT and made.dtype.itemsize == ffi.sizeof("callauction_receipt")
        assert made["number"].tolist() == list(range(first, first + 40))
        assert (history["reply"][first - 1 : first + 39] == made["reply"]).all()
    assert board.close().counts == (0, 500, 1_000, 1_000)


@pytest.mark.parametrize("name", ["quantity", "peak"])
def test_what_no_journal_holds_is_refused_before_a_call(name: str, tmp_path: Path) -> None:
    """By call and by array, so that the day of a board is always one that can be read."""
    terms: dict[str, Any] = {"quantity": 5, "limit": 500, name: 1 << 32}
    fault = f"{name} must be from 0 to 4294967295, not 4294967296$"
    board = Board(2, **DAY)
    with pytest.raises(ValueError, match=f"^{fault}"):
        board[1].enter(Side.BID, **terms)
    made = commands(side=[Side.BID] * 2, quantity=[5, terms["quantity"]], limit=500)
    made["peak"][1], made["has_peak"][1] = terms.get("peak", 0), "peak" in terms
    with pytest.raises(ValueError, match=f"^commands: element 1: {fault}"):
        board[1].apply_many(made)
    made["tag"][1] = CommandTag.DELETE  # reads neither
    board[1].apply_many(made)
    day = board.close()
    day.save(tmp_path / "day.csv")
    assert len(day.journal()) == 2 and day.audit().empty


def test_what_is_carried_over_is_entered_by_its_members() -> None:
    with Auction() as auction:
        for member in (1, 2, 2, 1, 0):
            auction.enter(member, Side.BID, 10 + member, 190)
        left = auction.carried_over()
    with Board(3, reference=left.reference) as board:
        receipts = board.enter_carried(left)
        assert receipts["number"].tolist() == receipts["reply"]["id"].tolist() == [1, 2, 3, 4, 5]
        orders = board[0].orders()
        assert orders["member"].tolist() == [1, 2, 2, 1, 0]
        assert orders["quantity"].tolist() == [11, 12, 12, 11, 10]
    assert board.day.counts == (1, 2, 2)
    with Board(2) as small:
        with pytest.raises(ValueError, match="element 1: member must be from 0 to 1, not 2$"):
            small.enter_carried(left)
        assert small[0].look().calls == 0
    with Board(3, max_open=3) as little:
        with pytest.raises(NotEnteredError) as refused:
            little.enter_carried(left)
        assert refused.value.refused == {4: Refusal.BOOK_FULL, 5: Refusal.BOOK_FULL}
        assert refused.value.replies["number"].tolist() == [1, 2, 3, 4, 5]
        receipts = little.enter_carried(left, check=False)
        assert refusals(receipts, left.commands)["member"].tolist() == [1, 2, 2, 1, 0]
    with Board(3, max_calls=4, reserve=1) as full:
        with pytest.raises(FullError, match="^command 3: no call is left") as stopped:
            full.enter_carried(left)
        assert stopped.value.applied == 3 and stopped.value.replies is not None
        assert stopped.value.replies["reply"]["id"].tolist() == [1, 2, 3]


def test_a_range_that_no_journal_can_say_is_named(tmp_path: Path) -> None:
    """Also of a day that no board had, as one made of an Auction's config."""
    with Auction(range=1_000_001) as auction:
        config = auction.config
    day = BoardDay(config, numpy.zeros(0, ENTRY), (0, 0))
    with pytest.raises(ValueError, match="^range must be from 0 to 1000000, not 1000001$"):
        day.save(tmp_path / "day.csv")
    assert not (tmp_path / "day.csv").exists()
    widest = BoardDay(dataclasses.replace(config, range=1_000_000), day.history, day.counts)
    assert widest.day().content == b"day,1,1000,200,2,4096,65536,1000000\n"


def test_what_is_left_of_a_closed_board_is_carried_over() -> None:
    """With the clients and the peaks of its orders, as an auction after its last call has it."""
    board = Board(3, reference=500)
    board[1].enter(Side.BID, 50, 490, peak=20, client=77)
    board[2].enter(Side.BID, 40, 490, client=78)
    board[2].enter(Side.BID, 30, 490, peak=8, client=79)
    board[2].enter(Side.BID, 7, 490, restriction=Restriction.CLOSING_ONLY)
    board[1].change(1, 60, 490)
    board[0].enter(Side.ASK, 75, 490)
    for _ in range(3):
        board[0].uncross()
    open_then = board[0].auction()
    left = board.close().carried_over()
    assert left == open_then.carried_over() and left.reference == 490
    assert left.ids.tolist() == [1]
    fields = left.commands[["member", "client", "quantity", "peak", "limit"]]
    assert fields.tolist() == [(1, 77, 55, 20, 490)]
    with Board(2, reference=left.reference) as tomorrow:
        tomorrow.enter_carried(left)
        assert tomorrow[0].orders()["client"].tolist() == [77]
    with Board(2, reference=321) as empty:
        pass
    nothing = empty.day.carried_over()
    assert len(nothing.commands) == 0 and nothing.reference == 321


def test_a_member_makes_no_calls_of_another() -> None:
    with Board(3, **DAY) as board:
        made = commands(side=[Side.BID] * 3, quantity=5, member=[0, 1, 2])
        fault = "^commands: element 2: member must be 0 or 1, the number of this member, not 2$"
        with pytest.raises(ValueError, match=fault):
            board[1].apply_many(made)
        assert board[0].look().calls == 0 and len(board[1].apply_many(made[:2])) == 2
        assert len(board[2].apply_many(commands(side=[Side.BID] * 2, quantity=5))) == 2


def test_many_calls_end_at_the_first_error() -> None:
    board = Board(2, **DAY, max_calls=5, reserve=0)
    made = commands(side=[Side.BID] * 4, quantity=[7] * 4)
    assert len(board[1].apply_many(made[:0])) == 0
    made["has_limit"][2] = 9
    with pytest.raises(NoCommandError, match="^command 2: .*has_limit 9$") as stopped:
        board[1].apply_many(made)
    assert stopped.value.applied == 2 and stopped.value.replies is not None
    assert stopped.value.replies["number"].tolist() == [1, 2]
    assert board[0].look().calls == 2
    made["has_limit"][2] = 0
    with pytest.raises(FullError) as full:
        board[0].apply_many(made)
    assert full.value.applied == 3 and full.value.replies is not None
    assert reply_of(full.value.replies["reply"][2]) == Entered(5)
    with pytest.raises(TypeError, match="^commands"):
        board[1].apply_many([1, 2])  # type: ignore[arg-type]
    board.close()
    with pytest.raises(ClosedError):
        board[1].apply_many(made)

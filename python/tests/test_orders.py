"""The open orders, what an uncross takes out, and copies over another auction, beside the rules."""
import copy

import numpy
import pandas
import pytest
from callauction import (
    Auction,
    AuctionKind,
    Board,
    BusyError,
    ClosedError,
    Enter,
    RecordedAuction,
    Restriction,
    Side,
    commands,
)
from callauction.arrays import Structs
from callauction.tables import ORDERS
from days import order_files
from printed import command_of, opened

from checks.generators import orders
from checks.model.day import Day, Order
from checks.model.day import opened as opened_by_the_rules
from checks.model.files import FileFault, order_file

NUMBERS = ("low", "high", "reference", "open", "calls", "range")
Row = tuple[int, int, str, int | None, int, int, int, str]
"""An order as the rules list it: id, member, side, limit, open, visible and executed shares, and
the auction that it is only for.
"""


def row_of(order: Order, day: Day) -> Row:
    visible = order.quantity if order.peak is None else min(order.peak, order.quantity)
    filled = sum(trade.quantity for trade in day.tape if order.id in (trade.bid, trade.ask))
    terms = order.id, order.member, order.side, order.limit, order.quantity
    return *terms, visible, filled, order.restriction


def listed(day: Day, member: int | None = None) -> list[Row]:
    """The open orders by the rules, the bids before the asks."""
    mine = [order for order in day.book.values() if member in (None, order.member)]
    sides = [[order for order in mine if order.side == side] for side in ("bid", "ask")]
    return [row_of(order, day) for side in sides for order in sorted(side, key=Order.rank)]


def taken_out(day: Day) -> list[Row]:
    """The orders that an uncross would take out, by the rules."""
    kind, tick = day.kind(), day.price()
    if not kind:
        return []
    far = tick is not None and day.range is not None and abs(tick - day.reference) > day.range
    if far and not day.extended:
        return []
    left = copy.deepcopy(day)
    if tick is not None:
        left.tape += left.execute(tick)
    return [row for row in listed(left) if row[-1] == kind]


def rows_of(orders: Structs) -> list[Row]:
    """The rows of an array of ORDER."""
    sides, auctions = ("", "bid", "ask"), ("", "opening", "closing")
    return [
        (id, member, sides[side], limit if has else None, open, visible, filled, auctions[only])
        for open, visible, filled, _, _, id, limit, member, side, only, has, _ in orders.tolist()
    ]


def peaks_of(orders: Structs) -> dict[int, int | None]:
    """The peaks of an array of ORDER by the orders' ids."""
    rows = orders[["id", "peak", "has_peak"]].tolist()
    assert all(has or not peak for _, peak, has in rows)
    return {id: peak if has else None for id, peak, has in rows}


def rows(frame: pandas.DataFrame) -> list[Row]:
    """The rows of a frame of orders, with None for a market order's limit."""
    limits = [None if limit is pandas.NA else limit for limit in frame["limit"]]
    plain = frame.assign(limit=pandas.Series(limits, dtype="object"))
    return [*plain.itertuples(index=False, name=None)]


def test_the_orders_are_those_of_the_rules_after_each_command() -> None:
    looked = 0
    for options, text in order_files(150):
        try:
            calls = order_file(text, options).calls
        except FileFault:
            continue
        day = opened_by_the_rules(options)
        records = [line.split(",") for line in text.splitlines() if line]
        with opened(options) as auction:
            for (member, words), fields in zip(calls, records):
                if words[0] == "uncross":
                    assert rows_of(auction.expiring()) == taken_out(day)
                day.apply(member, words)
                auction.apply(member, command_of(fields[1:]))
                assert rows_of(auction.orders()) == listed(day)
                assert rows_of(auction.orders(member)) == listed(day, member)
                peaks = {order.id: order.peak for order in day.book.values()}
                assert peaks_of(auction.orders()) == peaks
                looked += len(day.book)
            assert rows_of(auction.expiring()) == taken_out(day)
    assert looked > 9_000


def test_frames_have_the_rows_of_the_arrays() -> None:
    options, text = orders.order_file("long", 3)
    numbers = [options[name] for name in NUMBERS]
    with RecordedAuction(*numbers) as recorded, opened(options) as auction:
        for fields in [line.split(",") for line in text.splitlines() if line][:150]:
            recorded.apply(int(fields[0]), command_of(fields[1:]))
            auction.apply(int(fields[0]), command_of(fields[1:]))
        frame = recorded.orders()
        assert len(frame) > 10 and rows(frame) == rows_of(auction.orders())
        assert rows(recorded.orders(1)) == rows_of(auction.orders(1))
        assert rows(recorded.expiring()) == rows_of(auction.expiring())
        assert {name: str(kind) for name, kind in frame.dtypes.items()} == {
            name: "object" if kind == "str" else kind for name, kind in ORDERS.items()
        }


def test_an_uncross_takes_out_what_was_said() -> None:
    """And nothing else than that and what it executes whole."""
    for seed in range(120, 200):
        options, text = orders.order_file("short", seed)
        with opened(options) as auction:
            for fields in (line.split(",") for line in text.splitlines() if line):
                before = {int(id) for id in auction.orders()["id"]}
                leaves = {int(row["id"]): int(row["quantity"]) for row in auction.expiring()}
                if auction.is_full:
                    break
                auction.apply(int(fields[0]), command_of(fields[1:]))
                if fields[1] == "uncross" and fields[0] == "0":
                    after = {int(id) for id in auction.orders()["id"]}
                    assert not leaves.keys() & after and leaves.keys() <= before


def test_orders_are_listed_by_member_until_the_auction_is_closed() -> None:
    with Auction() as auction:
        auction.enter(255, Side.ASK, 5, 200, restriction=Restriction.CLOSING_ONLY)
        auction.enter(0, Side.BID, 7, peak=None)
        assert auction.orders(255)["quantity"].tolist() == [5]
        assert auction.orders()["id"].tolist() == [2, 1]
        assert auction.orders(1).tolist() == []
        for bad in (-1, 256, 1 << 40):
            with pytest.raises(ValueError, match="^member"):
                auction.orders(bad)
        with pytest.raises(TypeError, match="^member"):
            auction.orders("1")  # type: ignore[arg-type]
    with pytest.raises(ClosedError):
        auction.orders()
    with pytest.raises(ClosedError):
        auction.expiring()


def listed_bytes() -> list[bytes]:
    """The bytes of all arrays that an auction and a board of one day return."""
    with Auction() as auction, Board(2) as board:
        made = commands(side=[Side.BID, Side.ASK], quantity=[50, 30], limit=[205, 200])
        auction.apply_many(made)
        board[1].apply_many(made)
        arrays = [auction.orders(), auction.expiring(), auction.uncross_orders()[1]]
        arrays += [auction.trades(), board[1].orders()]
        board[0].uncross()
        arrays += [board[1].trades(), board[1].uncrossed_orders(AuctionKind.OPENING)]
        arrays.append(board.close().history)
    return [it.tobytes() for it in arrays]


def test_equal_days_give_equal_bytes() -> None:
    """Also those between the fields of structs, whatever memory had before."""
    first = listed_bytes()
    dirt = [numpy.full(size, 93, "u1") for size in range(16, 12_000, 8)]
    del dirt
    assert listed_bytes() == first


def test_a_closed_auction_begins_no_block() -> None:
    closed: list[Auction | RecordedAuction] = [Auction(), RecordedAuction()]
    for auction in closed:
        auction.close()
        with pytest.raises(ClosedError), auction:
            pytest.fail("the block began")


def test_a_copy_over_another_forgets_what_that_was() -> None:
    with Auction(max_open=9, max_calls=30) as auction, Auction(max_open=9, max_calls=30) as other:
        auction.apply(1, Enter(Side.BID, 50, 200))
        for k in range(5):
            other.apply(2, Enter(Side.ASK, 10 + k, 190 + k))
        other.apply(3, Enter(Side.BID, 10))
        other.uncross()
        auction.copy_into(other)
        assert other.orders().tolist() == auction.orders().tolist()
        assert (other.calls, other.display(), len(other.trades())) == (1, auction.display(), 0)
        other.enter(2, Side.ASK, 20, 200)
        other.uncross()
        assert (len(other.trades()), auction.calls, len(auction.trades())) == (1, 1, 0)
        other.copy_into(auction)
        assert auction.orders()["filled"].tolist() == [20] and len(auction.trades()) == 1


def test_random_days_go_on_in_a_copy_over_another() -> None:
    for seed in range(200, 260):
        options, text = orders.order_file("short", seed)
        fields = [line.split(",") for line in text.splitlines() if line][: options["calls"]]
        half = len(fields) // 2
        with opened(options) as auction, opened(options) as other:
            for place, (member, *words) in enumerate(fields):
                if place == half:
                    auction.copy_into(other)
                if place >= half:
                    command = command_of(words)
                    reply = auction.apply(int(member), command)
                    assert other.apply(int(member), command) == reply
                    assert other.orders().tolist() == auction.orders().tolist()
                else:
                    auction.apply(int(member), command_of(words))
                    other.apply(int(member) % 2, command_of(fields[-1 - place][1:]))


def test_a_copy_over_an_auction_of_other_limits_is_refused() -> None:
    with Auction() as auction, Auction(range=3, reference=5) as other:
        auction.copy_into(other)
        assert other.config == auction.config
        for bad in ({"low": 2}, {"high": 999}, {"max_open": 9}, {"max_calls": 9}):
            with Auction(**bad) as third:
                third.enter(1, Side.BID, 5)
                with pytest.raises(ValueError, match="^other"):
                    auction.copy_into(third)
                assert third.calls == 1
        with pytest.raises(TypeError, match="^other"):
            auction.copy_into("other")  # type: ignore[arg-type]
    with Auction() as auction, pytest.raises(ClosedError):
        auction.copy_into(other)


def test_an_auction_is_a_copy_of_itself() -> None:
    with Auction() as auction:
        auction.enter(1, Side.BID, 5)
        auction.copy_into(auction)
        assert auction.calls == 1
    with pytest.raises(ClosedError):
        auction.copy_into(auction)


def test_a_with_block_ends_while_a_thread_calls() -> None:
    """Its own exception is what is raised, else that the auction couldn't be closed."""
    both: tuple[Auction | RecordedAuction, ...] = (Auction(), RecordedAuction())
    for auction in both:
        inner = auction if isinstance(auction, Auction) else auction._auction
        own = inner._own
        own.is_busy_ = True  # as while a thread calls it
        with pytest.raises(BusyError):
            with auction:
                pass
        with pytest.raises(RuntimeError) as raised:
            with auction:
                raise RuntimeError
        assert raised.value.__notes__ == [
            "the auction isn't closed: another call of this auction is running"
        ]
        own.is_busy_ = False
        assert auction.calls == 0


def test_a_board_lists_what_an_auction_does() -> None:
    for seed in range(30):
        options, text = orders.order_file("short", seed)
        numbers = [options[name] for name in NUMBERS]
        numbers.append(0)  # no reserve
        with Board(64, *numbers) as board, opened(options) as auction:
            for member, *fields in (line.split(",") for line in text.splitlines() if line):
                if auction.is_full:
                    break
                command = command_of(fields)
                assert board[int(member)].call(command).reply == auction.apply(int(member), command)
                asking = board[63]
                assert asking.orders().tolist() == auction.orders().tolist()
                assert asking.orders(int(member)).tolist() == auction.orders(int(member)).tolist()
                assert asking.expiring().tolist() == auction.expiring().tolist()


def test_a_board_lists_the_orders_that_an_uncross_would_take_out() -> None:
    board = Board(3)
    board[1].enter(Side.BID, 7, 200)
    board[2].enter(Side.BID, 5, 199, restriction=Restriction.OPENING_ONLY)
    assert board[0].orders()["id"].tolist() == [1, 2]
    assert board[1].orders(2)["quantity"].tolist() == [5]
    assert board[1].orders(200).tolist() == []
    assert board[1].expiring()["id"].tolist() == [2]
    with pytest.raises(ValueError, match="^member"):
        board[1].orders(256)
    board.close()
    with pytest.raises(ClosedError):
        board[1].orders()
    with pytest.raises(ClosedError):
        board[1].expiring()

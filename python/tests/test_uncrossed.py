"""What an uncross did to each order, and what a day leaves to the next one, beside the rules."""
import copy
import dataclasses

import numpy
import pytest
from callauction import (
    OUTCOME,
    Auction,
    AuctionKind,
    Board,
    FullError,
    Interrupted,
    NotEnteredError,
    Refusal,
    Refused,
    Restriction,
    Side,
    Uncrossed,
    refusals,
)
from callauction.arrays import Structs
from days import order_files
from printed import command_of, commands_of, opened

from checks.generators import orders
from checks.model.day import Day, Order
from checks.model.day import opened as opened_by_the_rules
from checks.model.files import FileFault, order_file

BID, ASK = Side.BID, Side.ASK
NO_CLIENT = 0
Row = tuple[int, int, int, int, int, int, int, int]
"""An order as an uncross left it: its filled and left shares, client, id, tick, member, side, and
whether it expired.
"""


def rows_by_the_rules(before: Day, after: Day, interrupted: bool) -> list[Row]:
    """The orders that an uncross touched, by the day before it and the day after it."""
    if interrupted:
        return []
    trades = after.tape[len(before.tape) :]
    kind, tick = before.kind(), trades[0].tick if trades else 0
    found = []
    for side in ("bid", "ask"):
        mine = [order for order in before.book.values() if order.side == side]
        for order in sorted(mine, key=Order.rank):
            ids = [(trade.bid if side == "bid" else trade.ask, trade.quantity) for trade in trades]
            filled = sum(quantity for id, quantity in ids if id == order.id)
            left = order.quantity - filled
            expired = left > 0 and order.id not in after.book
            assert not expired or order.restriction == kind
            if filled or expired:
                number = int(BID if side == "bid" else ASK)
                of_order = order.id, tick, order.member, number, int(expired)
                found.append((filled, left, NO_CLIENT, *of_order))
    return found


def test_each_uncross_says_what_the_rules_say_of_the_orders() -> None:
    met = {"filled": 0, "in part": 0, "expired": 0, "interrupted": 0}
    for options, text in order_files(400):
        try:
            calls = order_file(text, options).calls
        except FileFault:
            continue
        day = opened_by_the_rules(options)
        records = [line.split(",") for line in text.splitlines() if line]
        with opened(options) as auction, opened(options) as other:
            for (member, words), fields in zip(calls, records):
                before = copy.deepcopy(day)
                day.apply(member, words)
                reply = other.apply(member, command_of(fields[1:]))
                if (member, words[0]) != (0, "uncross"):
                    auction.apply(member, command_of(fields[1:]))
                    continue
                answer, found = auction.uncross_orders()
                assert answer == reply and found.dtype == OUTCOME
                interrupted = not isinstance(answer, Uncrossed)
                assert found.tolist() == rows_by_the_rules(before, day, interrupted)
                assert auction.state() == other.state()
                assert auction.orders().tolist() == other.orders().tolist()
                assert auction.trades().tolist() == other.trades().tolist()
                met["filled"] += int((found["filled"] > 0).sum())
                met["in part"] += int(((found["filled"] > 0) & (found["left"] > 0)).sum())
                met["expired"] += int(found["expired"].sum())
                met["interrupted"] += isinstance(answer, Interrupted)
    assert min(met.values()) > 20, met


def test_an_uncross_that_does_nothing_says_nothing() -> None:
    with Auction(range=3, max_calls=8) as auction:
        assert auction.uncross_orders()[1].tolist() == []
        auction.enter(1, BID, 5, 300, restriction=Restriction.CLOSING_ONLY)
        auction.enter(2, ASK, 9, 300, restriction=Restriction.CLOSING_ONLY)
        assert auction.uncross_orders()[1].tolist() == []
        answer, found = auction.uncross_orders()
        assert isinstance(answer, Interrupted) and found.tolist() == []
        _, found = auction.uncross_orders()
        assert found.tolist() == [(5, 0, 0, 1, 300, 1, BID, 0), (5, 4, 0, 2, 300, 2, ASK, 1)]
        answer, found = auction.uncross_orders()
        assert isinstance(answer, Refused) and found.tolist() == []
        auction.uncross()
        calls = auction.calls
        with pytest.raises(FullError):
            auction.uncross_orders()
        assert auction.calls == calls == 8


def test_a_board_says_it_of_each_uncross_to_each_member() -> None:
    for seed in range(40):
        options, text = orders.order_file("short", seed)
        said: dict[AuctionKind, Structs] = {}
        numbers = [options[name] for name in ("low", "high", "reference", "open", "calls", "range")]
        numbers.append(0)  # no reserve
        with Board(64, *numbers) as board, opened(options) as auction:
            for member, command in commands_of(text):
                if auction.is_full:
                    break
                receipt = board[member].call(command)
                if isinstance(receipt.reply, Uncrossed):
                    _, said[receipt.reply.auction] = auction.uncross_orders()
                else:
                    auction.apply(member, command)
            for kind in AuctionKind:
                wanted = said.get(kind, numpy.zeros(0, OUTCOME)).tolist()
                assert board[seed % 64].uncrossed_orders(kind).tolist() == wanted
            with pytest.raises(TypeError, match="^kind"):
                board[1].uncrossed_orders(1)  # type: ignore[arg-type]
        for kind, outcomes in said.items():
            assert board.day.uncrossed_orders(kind).tolist() == outcomes.tolist()


# ---- the next day


def follow(auction: Auction, members: list[tuple[int, int]]) -> list[object]:
    """What an auction answers to orders that cross all that is in its book, and to uncrosses."""
    seen: list[object] = [auction.display(), *(part.tolist() for part in auction.ladder())]
    for member, tick in members:
        auction.enter(member, BID, 40 + tick % 7, tick)
        auction.enter(member, ASK, 40 + tick % 5, tick)
        seen.append(auction.display())
    for _ in AuctionKind:
        answer, outcomes = auction.uncross_orders()
        seen += [answer, outcomes[["filled", "left", "tick", "member", "side"]].tolist()]
    return seen


def kept(auction: Auction) -> list[tuple[int, ...]]:
    """The open orders that are for every auction, in priority, without their ids."""
    found = auction.orders()
    found = found[found["restriction"] == Restriction.NONE]
    names = ["quantity", "visible", "limit", "member", "side", "has_limit", "has_peak"]
    rows: list[tuple[int, ...]] = found[names].tolist()
    return rows


def test_the_next_day_begins_with_what_is_left() -> None:
    """The same orders in the same priority: it answers as the day would have gone on without those
    that were for one auction alone.
    """
    carried = moved = 0
    for seed in range(500):
        options, text = orders.order_file("short", seed)
        with opened(options) as auction:
            for member, command in commands_of(text):
                if not auction.is_full:
                    auction.apply(member, command)
            left = auction.carried_over()
            config = auction.config
            assert left.reference == auction.state().reference
            today = auction.orders()
            today = today[today["restriction"] == Restriction.NONE]
            assert sorted(left.ids.tolist()) == sorted(today["id"].tolist())
            wanted = kept(auction)
        room = min(65536, config.max_open + 20)
        numbers = config.low, config.high, left.reference, room, 65536, None
        with Auction(*numbers) as one, Auction(*numbers) as other:
            replies = one.apply_many(left.commands)
            assert replies["id"].tolist() == [*range(1, len(left.ids) + 1)]
            assert kept(one) == wanted
            for row in wanted:
                enter_listed(other, row)
            ticks = [(1 + tick % 3, tick) for tick in range(config.low, config.high + 1)][:10]
            assert follow(one, ticks) == follow(other, ticks)
        carried += len(left.ids)
        moved += left.ids.tolist() != sorted(left.ids.tolist())
    assert carried > 1_000 and moved > 5


def test_a_new_day_names_the_orders_that_it_refuses() -> None:
    with Auction() as auction:
        for limit in (190, 191, 250, 192):
            auction.enter(1, BID, 10, limit, check=True)
        auction.delete(1, 2, check=True)
        left = auction.carried_over()
    assert left.ids.tolist() == [1, 3, 4]
    with Auction(high=200, max_open=1, reference=left.reference) as day:
        with pytest.raises(NotEnteredError) as fault:
            day.enter_carried(left)
        text = "2 of 3 orders weren't entered: 3 BAD_LIMIT, 4 BOOK_FULL"
        assert str(fault.value) == str(copy.copy(fault.value)) == text
        assert fault.value.refused == {3: Refusal.BAD_LIMIT, 4: Refusal.BOOK_FULL}
        assert fault.value.replies["id"].tolist() == [1, 0, 0]
        assert day.orders()["limit"].tolist() == [190] and day.calls == 3
        replies = day.enter_carried(left, check=False)
        assert refusals(replies, left.commands)["name"].tolist() == [
            "BOOK_FULL", "BAD_LIMIT", "BOOK_FULL"
        ]
    with Auction() as day, Board(2) as board:
        others: tuple[Auction | Board, ...] = (day, board)
        for other in others:
            with pytest.raises(TypeError, match="^left must be a CarriedOver, not ndarray$"):
                other.enter_carried(left.commands)  # type: ignore[arg-type]


def enter_listed(auction: Auction, row: tuple[int, ...]) -> None:
    """Enters an order of `kept`."""
    quantity, visible, limit, member, side, has_limit, has_peak = row
    peak = visible if has_peak else None
    auction.enter(member, Side(side), quantity, limit if has_limit else None, peak, check=True)


def test_orders_are_carried_over_in_time_order_with_their_peaks() -> None:
    with Auction(max_open=8) as auction:
        auction.enter(1, BID, 500, 190, peak=100)  # id 1
        auction.enter(2, ASK, 70, 210)
        auction.enter(3, BID, 9)
        auction.enter(4, BID, 5, 190)
        auction.enter(5, BID, 5, 190, restriction=Restriction.CLOSING_ONLY)
        auction.change(2, 2, 70, 220)  # alone at another limit
        auction.change(1, 1, 600, 190)  # goes behind orders 4 and 5
        auction.change(1, 1, 60, 190)  # below its peak, and keeps its place
        left = auction.carried_over()
        assert left.ids.tolist() == [2, 3, 4, 1]
        fields = left.commands[["member", "side", "quantity", "limit", "peak", "has_peak"]]
        assert fields.tolist() == [
            (2, ASK, 70, 220, 0, 0),
            (3, BID, 9, 0, 0, 0),
            (4, BID, 5, 190, 0, 0),
            (1, BID, 60, 190, 60, 1),
        ]
        assert left.commands["has_limit"].tolist() == [1, 0, 1, 1]
        assert left == auction.carried_over() != dataclasses.replace(left, reference=1)
        auction.delete(3, 3)
        assert left != auction.carried_over()
    with Auction(reference=left.reference) as tomorrow:
        assert tomorrow.enter_carried(left)["id"].tolist() == [1, 2, 3, 4]
        assert tomorrow.carried_over().commands.tolist() == left.commands.tolist()
    with Auction(reference=321) as empty:
        assert len(empty.carried_over().commands) == 0 and empty.carried_over().reference == 321

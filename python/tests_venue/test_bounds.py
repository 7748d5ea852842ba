"""What one member may have of an instrument's day."""
import asyncio
import csv
import io
import json
import pathlib
import unittest.mock
from decimal import Decimal

import judged
import pytest
import served
from callauction.venue import AsyncClient, Client, VenueError, allowance, last_quarter
from callauction.venue.bounds import Bound, Bounds
from callauction.venue.config import MOST_TRADERS, DayTerms, MemberTerms
from callauction.venue.holdings import Own
from callauction.venue.messages import MessageError
from callauction.venue.venue import Venue
from patience import until
from served import Served

HIGH = 1000
OWN = {1: Own("bid", 10, 200), 2: Own("ask", 5, None)}
"""15 shares, of 2,000 and 5,000 in ticks times shares."""
WAITING = ["enter,bid,1,100"]
OF_VALUE = Bound(9, 9, value=7200, worth=Decimal(72))
OF_LITTLE = Bound(9, 9, value=1, worth=Decimal("0.01"))


def refused(bound: Bound, record: str, calls: int = 3) -> str:
    """Why a record is refused beside OWN and WAITING, empty where it isn't."""
    try:
        allowance.check_bound(bound, record, OWN, WAITING, calls, HIGH)
    except MessageError as fault:
        assert fault.code == "above_limit"
        return fault.text
    return ""


@pytest.mark.parametrize(
    "bound, record, text",
    [
        (Bound(4, 9), "enter,bid,1,1", ""),
        (Bound(3, 9), "enter,bid,1,1", "3 open orders"),
        (Bound(3, 9), "change,1,11,200", ""),
        (Bound(3, 3), "enter,bid,1,1", "3 commands a day"),
        (Bound(9, 3), "change,1,1,200", "3 commands a day"),
        (Bound(9, 3), "delete,1", ""),
        (Bound(9, 3), "delete,7", "3 commands a day"),
        (Bound(9, 9, quantity=17), "enter,ask,1,1", ""),
        (Bound(9, 9, quantity=17), "enter,ask,2,1", "17 shares in open orders"),
        (Bound(9, 9, quantity=17), "change,1,11,1", ""),
        (Bound(9, 9, quantity=17), "change,1,12,1", "17 shares in open orders"),
        (Bound(9, 9, quantity=3), "change,1,9,1", ""),
        (OF_VALUE, "enter,bid,1,100", ""),
        (OF_VALUE, "enter,bid,1,101", "a value of 72 in orders"),
        (OF_VALUE, "enter,bid,1,market", "a value of 72 in orders"),
        (OF_LITTLE, "change,1,10,199", ""),
        (OF_LITTLE, "change,1,10,201", "a value of 0.01 in orders"),
    ],
)
def test_a_command_beyond_a_bound_is_refused(bound: Bound, record: str, text: str) -> None:
    found = refused(bound, record)
    assert found == (f"a member has at most {text} of an instrument" if text else "")


@pytest.mark.parametrize(
    "waiting, record, text",
    [
        (["change,1,20,200"], "change,2,11,market", "30 shares in open orders"),
        (["change,1,20,200"], "change,2,5,1", ""),
        (["change,1,20,200"], "enter,bid,6,1", "30 shares in open orders"),
        (["change,1,1,200"], "enter,bid,16,1", "30 shares in open orders"),
        (["change,1,10,700"], "enter,bid,1,1", "a value of 119.99 in orders"),
        (["change,1,10,market"], "enter,bid,1,1", "a value of 119.99 in orders"),
        (["change,7,99,999", "delete,1"], "enter,bid,5,100", ""),
        (["enter,bid,1,1"], "change,7,15,1", "30 shares in open orders"),
        (["enter,bid,1,1", "change,7,14,1"], "enter,bid,1,1", "30 shares in open orders"),
        (["enter,bid,1,1", "change,7,14,1"], "change,1,10,1", ""),
        (["change,1,5,200"], "change,1,26,200", "30 shares in open orders"),
    ],
)
def test_what_isnt_answered_counts(waiting: list[str], record: str, text: str) -> None:
    """A change that waits may still be refused: until then the larger of both counts."""
    bound = Bound(9, 9, quantity=30, value=11_999, worth=Decimal("119.99"))
    try:
        allowance.check_bound(bound, record, OWN, waiting, 3, HIGH)
        found = ""
    except MessageError as fault:
        found = fault.text
    assert found == (f"a member has at most {text} of an instrument" if text else "")


def test_an_order_is_deleted_once_beyond_the_share() -> None:
    """Each command more would be another's."""
    bound = Bound(9, 3)
    allowance.check_bound(bound, "delete,1", OWN, ["delete,2"], 3, HIGH)
    with pytest.raises(MessageError, match="3 commands a day"):
        allowance.check_bound(bound, "delete,1", OWN, ["delete,2", "delete,1"], 3, HIGH)


def test_the_share_of_a_day_that_says_nothing() -> None:
    assert Bounds().of(4096, 65_536, Decimal("0.01")) == Bound(512, 8192, last_calls=1040)
    assert Bounds().of(4, 10, Decimal("0.01")) == Bound(64, 64, last_calls=64)
    bounds = Bounds(orders=3, quantity=4, value=Decimal("5.00"), calls=6)
    assert bounds.of(4096, 65_536, Decimal("0.01")) == Bound(3, 6, 4, 500, Decimal("5.00"))


def entered(me: Client, *, price: str = "2.00") -> str:
    """What is wrong with an order, empty where nothing is."""
    try:
        me.enter("bid", 1, price)
    except VenueError as fault:
        return fault.code
    return ""


DAY = """
sync = false
[phases]
call = 0
[members]
joins = 0
rate = 100000
burst = 100000
[[instrument]]
open = 160
calls = 1000
"""
SHARE, CALLS = 64, 125
"""What a member may have of that day."""


async def entered_at_once(venue: Served, token: str, count: int) -> list[str]:
    """What becomes of as many orders that are sent before any is answered."""

    async def enter(me: AsyncClient) -> str:
        try:
            return (await me.enter("bid", 1, "2.00")).reply.partition(" ")[0]
        except VenueError as fault:
            return fault.code

    async with AsyncClient(venue.url, token) as me:
        return await asyncio.gather(*(enter(me) for _ in range(count)))


def test_orders_that_come_at_once_count(tmp_path: pathlib.Path) -> None:
    with served.served(tmp_path, DAY + "[limits]\norders = 5\n") as venue:
        token = venue.join("Anna")
        venue.do("start")
        found = asyncio.run(entered_at_once(venue, token, 35))
        assert found == ["entered"] * 5 + ["above_limit"] * 30


TWO = "".join(f'[[instrument]]\nname = "{name}"\n' for name in ("AAA", "BBB"))


FULL = "63 members trade this instrument, and it takes no more"


def reply_to(venue: Served, token: str, side: str = "bid") -> str:
    """The reply to an order, or why it isn't one."""
    with Client(venue.url, token) as me:
        try:
            return me.enter(side, 1, "2.00", instrument="AAA").reply
        except VenueError as fault:
            is_full = fault.code == "instrument_full"
            assert not is_full or fault.text == FULL
            return fault.code


def test_a_removed_member_leaves_its_place(tmp_path: pathlib.Path) -> None:
    """All places of an instrument are taken, two of them by members who trade: only those keep
    theirs, whoever is removed, also after the venue starts again.
    """
    day = "sync = false\n[phases]\ncall = 0\n[members]\njoins = 0\n" + TWO
    names = [f"greedy {place}" for place in range(MOST_TRADERS)]
    with served.served(tmp_path, day) as venue:
        venue.do("start", instrument="AAA")
        found = [reply_to(venue, venue.join(name), side_of(name)) for name in names]
        assert found == [f"entered {order}" for order in range(1, MOST_TRADERS + 1)]
        venue.do("uncross", instrument="AAA")
        venue.do("start", instrument="AAA")
        others = [venue.join(f"other {place}") for place in range(MOST_TRADERS)]
        assert reply_to(venue, others[0]) == "instrument_full"
        venue.do("remove", members=names)
        until(lambda: deletions(tmp_path) == MOST_TRADERS - 2)
        assert reply_to(venue, others[0]) == f"entered {MOST_TRADERS + 1}"
    with served.served(tmp_path, day) as venue:
        found = [reply_to(venue, it) for it in others[1:]]
        count = MOST_TRADERS - 3
        assert found[:count] == [f"entered {MOST_TRADERS + it}" for it in range(2, count + 2)]
        assert found[count:] == ["instrument_full"] * 2
        with Client(venue.url, others[0]) as me:
            [order] = me.look("orders", "AAA")["orders"]
            assert order["order"] == MOST_TRADERS + 1
        text = venue.call("api/download/members/AAA", token=venue.operator)[1]
        rows = [*csv.DictReader(io.StringIO(text))]
        assert {row["name"] for row in rows} == {
            "greedy 0", "greedy 1", *(f"other {it}" for it in range(count + 1))
        }
        journal = venue.call("api/download/journal/AAA", token=venue.operator)[1]
        assert judged.is_lawful(journal)


def side_of(name: str) -> str:
    """One of them sells, to the first who buys."""
    return "ask" if name == "greedy 1" else "bid"


def deletions(folder: pathlib.Path) -> int:
    """How many orders were deleted."""
    return (folder / "venue/AAA.journal.csv").read_text("latin-1").count(",deleted\n")


def test_one_member_cant_end_the_day(tmp_path: pathlib.Path) -> None:
    """Of three members one takes all that it may, before and after the venue starts again."""
    with served.served(tmp_path, DAY) as venue:
        greedy, other = venue.join("Greedy"), venue.join("Other")
        venue.do("start")
        with Client(venue.url, greedy) as me:
            found = [entered(me) for _ in range(SHARE + 20)]
            assert found == [""] * SHARE + ["above_limit"] * 20
        with Client(venue.url, other) as me:
            assert entered(me) == ""
    with served.served(tmp_path, DAY) as venue, Client(venue.url, greedy) as me:
        assert entered(me) == "above_limit"
        assert me.delete(1).reply == "deleted"
        assert entered(me) == ""
        for _ in range(CALLS - SHARE - 2):
            me.change(2, 1, "2.00")
        assert entered(me) == "above_limit"
        assert me.delete(3).reply == "deleted"
        with Client(venue.url, other) as you:
            assert entered(you) == ""


def test_a_few_members_cant_end_the_day(tmp_path: pathlib.Path) -> None:
    """Eight who take all that they may, by deletions of what isn't there, leave a quarter to
    others, also after the venue starts again.
    """
    code = "above_limit"
    with served.served(tmp_path, DAY) as venue:
        tokens = [venue.join(f"greedy {place}") for place in range(8)]
        venue.do("start")
        found = [asyncio.run(deleted_often(venue, token, CALLS + 5)) for token in tokens]
        assert found[:5] == [["refused"] * CALLS + [code] * 5] * 5
        assert [it[64:] for it in found[6:]] == [[code] * (CALLS + 5 - 64)] * 2
    with served.served(tmp_path, DAY) as venue, Client(venue.url, tokens[0]) as me:
        assert entered(me) == code
        for name in ("Other", "Another"):
            with Client(venue.url, venue.join(name)) as other:
                assert [entered(other) for _ in range(20)] == [""] * 20


LATE = 5
"""Orders of who comes when little is left of DAY, with a command kept for each deletion."""


def greedy(venue: Served, count: int) -> list[str]:
    """The tokens of as many names of the class, each of which took all that it could."""
    tokens = [venue.join(f"greedy {place}") for place in range(count)]
    for token in tokens:
        asyncio.run(deleted_often(venue, token, CALLS + 5))
    return tokens


def test_sixteen_names_of_one_code_cant_end_the_day(tmp_path: pathlib.Path) -> None:
    """Who had little comes after them, also where the venue starts again; who had much no more."""
    with served.served(tmp_path, DAY) as venue:
        quiet = venue.join("Quiet")
        venue.do("start")
        tokens = greedy(venue, 16)
        with Client(venue.url, quiet) as me:
            assert [entered(me) for _ in range(LATE)] == [""] * LATE
    with served.served(tmp_path, DAY) as venue:
        for token in tokens:
            with Client(venue.url, token) as me:
                assert entered(me) == "above_limit"
        with Client(venue.url, venue.join("Late")) as me:
            assert entered(me) == ""


OWN_CODE = DAY.replace("[members]", '[members]\nnames = ["Zoe", "Yan"]')


def test_who_has_a_code_of_its_own_has_a_part_of_the_last_commands(tmp_path: pathlib.Path) -> None:
    """As many as a third of them would be, were that not more than a name may have; beside sixty
    names of the class, of which the first six took the first three quarters.
    """
    with served.served(tmp_path, OWN_CODE) as venue:
        venue.do("start")
        tokens = greedy(venue, 60)
        log = (tmp_path / "venue/venue.log").read_text().splitlines()
        kept = {it["name"]: it["code"] for it in map(json.loads, log) if it["kind"] == "code"}
        for name in ("Zoe", "Yan"):
            found = asyncio.run(deleted_often(venue, venue.join(name, kept[name]), CALLS))
            assert found[:SHARE] == ["refused"] * SHARE
            assert {*found[SHARE:]} <= {"above_limit", "no_calls"}
        with Client(venue.url, tokens[0]) as me:
            assert entered(me) in ("above_limit", "no_calls")


MANY = {f"N{place}": 0 for place in range(62)}
"""With one more as many codes as members may trade an instrument: of each a part is 260."""


@pytest.mark.parametrize(
    "member, used, left, most",
    [
        ("Anna", {"": 49_152}, 16_384, 1024),
        ("Anna", {"": 60_000}, 4000, 250),
        ("Anna", {"": 65_000}, 200, 20),
        ("Anna", {"": 65_400}, 41, 11),
        ("Anna", {"": 65_535}, 1, 1),
        ("Anna", {"": 49_152, "Zoe": 0}, 16_384, 959),
        ("Anna", {"": 49_152, "Zoe": 1040}, 1000, 62),
        ("Anna", {"": 64_000, "Zoe": 0}, 1040, 0),
        ("Zoe", {"": 64_000, "Zoe": 0}, 1040, 1040),
        ("Zoe", {"": 0, "Zoe": 7000, "Yan": 7000}, 9000, 1040),
        ("Zoe", MANY | {"Zoe": 300}, 16_000, 260),
        ("Zoe", dict.fromkeys(MANY, 260) | {"Zoe": 300}, 16_000, 1000),
        ("Robot 1", {"Zoe": 0, "Yan": 0}, 16_384, 894),
    ],
)
def test_the_last_commands(member: str, used: dict[str, int], left: int, most: int) -> None:
    """Of a day of 65,536 commands, of which a name has 1,040 of the last 16,384: what is left but
    for the parts of other codes, divided by 16, else 20 and at most a quarter.
    """
    assert last_quarter.most_commands(member, used, left, 16_384, 1040) == most


def test_the_codes_of_a_board(tmp_path: pathlib.Path) -> None:
    """As many as it takes members, those who are there first; they aren't found for each order."""
    names = tuple(f"N{place}" for place in range(9000))
    day = DayTerms(members=MemberTerms(names=names, most=9999, group=MOST_TRADERS))
    venue = Venue(day, tmp_path, served.program())
    for name in (names[8000], names[8001], "another"):
        venue.members.learn(name, name)
    for gone in (names[8001], "another"):
        venue.members.learn(gone, gone).is_removed = gone != "another"
    [board] = venue.rounds.now.boards.values()
    assert [*board.commands.codes()] == ["", names[8000], *names[: MOST_TRADERS - 1]]
    venue.members.learn(names[8000], "again").group = 2
    assert [*board.commands.codes()] == ["", *names[:MOST_TRADERS]]
    codes = unittest.mock.Mock(return_value=[""])
    board.commands.codes = codes
    for _ in range(1000):
        board.commands._used_by_code()
    assert codes.call_count < 100


FEW = """
sync = false
reserve = 3
[phases]
call = 0
[members]
joins = 0
rate = 100000
burst = 100000
[[instrument]]
calls = 40
"""
"""A day of 37 commands for its members."""


def used(me: Client, order: int) -> int:
    """How many changes of an order a member may send until no commands are left for it."""
    for count in range(100):
        try:
            me.change(order, 1, "2.00")
        except VenueError as fault:
            assert fault.code == "no_calls"
            break
    return count


def test_who_is_removed_takes_no_commands_of_others(tmp_path: pathlib.Path) -> None:
    """Those that delete its orders were kept since it entered them."""
    with served.served(tmp_path, FEW) as venue:
        names = ("Anna", "Bert", "Eve")
        anna, bert, eve = (venue.join(name) for name in names)
        venue.do("start")
        with Client(venue.url, anna) as me, Client(venue.url, bert) as other:
            found = [entered(me) for _ in range(10)]
            assert found == [""] * 10 and entered(other) == ""
            for _ in range(10):
                other.change(11, 1, "2.00")
        venue.do("remove", member="Anna")
        journal = tmp_path / "venue/XYZ.journal.csv"
        until(lambda: journal.read_text("latin-1").count(",deleted\n") == 10)
    with served.served(tmp_path, FEW) as venue:
        with Client(venue.url, bert) as other, Client(venue.url, eve) as last:
            assert entered(last) == ""  # and keeps one for its deletion
            assert used(other, 11) == 3
            assert entered(last) == "no_calls"
            venue.do("remove", member="Eve")
            until(lambda: journal.read_text("latin-1").count(",deleted\n") == 11)
            assert used(other, 11) == 0
            assert other.delete(11).reply == "deleted"
        assert venue.do("uncross")["reply"] == "opening no price"


def test_an_instrument_that_is_nearly_full(tmp_path: pathlib.Path) -> None:
    """It is said once of open orders, and once of commands."""
    with served.served(tmp_path, FEW.replace("40", "60\nopen = 10")) as venue:
        token = venue.join("Anna")
        venue.do("start")
        with Client(venue.url, token) as me:
            for _ in range(8):
                me.enter("bid", 1, "2.00")
            for _ in range(4):  # the book is nearly full, and the day isn't
                order = me.enter("bid", 1, "2.00").order
                assert order is not None
                me.delete(order)
            used(me, 1)
        venue.child.terminate()
        _, error = venue.child.communicate(timeout=served.SECONDS)
    refused = "then members' are refused"
    assert [line.partition(": `")[0] for line in error.splitlines()] == [
        f"venue: XYZ: 9 of at most 10 orders are open, {refused}",
        f"venue: XYZ: 54 of at most 60 commands are used or kept, {refused}",
    ]


async def deleted_often(venue: Served, token: str, count: int) -> list[str]:
    """What becomes of as many deletions of an order that are sent at once."""

    async def delete(me: AsyncClient) -> str:
        try:
            return (await me.delete(1)).reply.partition(" ")[0]
        except VenueError as fault:
            return fault.code

    async with AsyncClient(venue.url, token) as me:
        return await asyncio.gather(*(delete(me) for _ in range(count)))


def test_an_order_is_deleted_by_the_one_command_that_is_kept(tmp_path: pathlib.Path) -> None:
    with served.served(tmp_path, FEW.replace("40", "5")) as venue:
        token = venue.join("Anna")
        venue.do("start")
        with Client(venue.url, token) as me:
            assert [entered(me), entered(me)] == ["", "no_calls"]
        found = asyncio.run(deleted_often(venue, token, 5))
        assert found == ["deleted"] + ["no_calls"] * 4
        assert venue.do("uncross")["reply"] == "opening no price"

"""More members than one board has numbers for: groups with boards of their own."""
import asyncio
import collections
import csv
import io
import pathlib
from typing import Any

import aiohttp
import browsing
import judged
import pytest
import served
from browsing import SCREEN, opened
from callauction.venue import AsyncClient, Client, VenueError
from conftest import FAST
from rounds import cut, sees, value_of
from served import Served
from speaking import hello

SMALL = FAST + "group = 3\n"


def joined(venue: Served, count: int) -> list[str]:
    """The tokens of new members."""
    return [venue.join(f"member {place}") for place in range(count)]


def groups_of(venue: Served) -> dict[str, int]:
    """The groups of the members."""
    return {it["name"]: it["group"] for it in sees(venue, "members")["members"]}


def sizes(venue: Served) -> list[int]:
    """How many members each group has."""
    return sorted(collections.Counter(groups_of(venue).values()).values())


async def orders(venue: Served, tokens: list[str]) -> list[str]:
    """The replies to the first order of each of these members, and the names of their boards."""
    found = []
    for token in tokens:
        async with AsyncClient(venue.url, token) as me:
            answer = await me.enter("bid", 1, "2.00")
            found.append(f"{me.instruments[0]['name']}: {answer.reply.split()[0]}")
    return found


def test_more_members_than_a_board_has_numbers(tmp_path: pathlib.Path) -> None:
    with served.served(tmp_path, FAST) as venue:
        tokens = joined(venue, 65)
        assert sizes(venue) == [32, 33]
        venue.do("start")
        replies = collections.Counter(asyncio.run(orders(venue, tokens)))
        assert sorted(replies) == ["XYZ.2: entered", "XYZ: entered"]
        assert sorted(replies.values()) == [32, 33]
        assert set(venue.do("uncross")["replies"]) == {"XYZ", "XYZ.2"}
        for name in ("XYZ", "XYZ.2"):
            journal = venue.call(f"api/download/journal/{name}", token=venue.operator)[1]
            assert judged.is_lawful(journal) and len(judged.entries(journal)) in (33, 34)


def test_several_instruments_have_no_groups_by_themselves(tmp_path: pathlib.Path) -> None:
    day = FAST + '[[instrument]]\nname = "A"\n[[instrument]]\nname = "B"\n'
    with served.served(tmp_path, day) as venue:
        joined(venue, 64)
        assert sizes(venue) == [64]


def test_each_group_has_its_own_board(tmp_path: pathlib.Path) -> None:
    with served.served(tmp_path, SMALL) as venue:
        tokens = joined(venue, 4)
        assert groups_of(venue) == {
            "member 0": 1, "member 1": 2, "member 2": 1, "member 3": 2
        }
        venue.do("start")
        with Client(venue.url, tokens[0]) as me, Client(venue.url, tokens[1]) as other:
            me.enter("bid", 10, "2.50")
            other.enter("ask", 10, "1.50")
            assert me.look("state")["indication"]["ask"] is None
            assert other.look("state", "XYZ")["instrument"] == "XYZ.2"
            assert sees(venue, "welcome", tokens[1])["instruments"][0]["title"] == "XYZ · 2"
            with pytest.raises(VenueError):
                me.look("state", "XYZ.2")
        replies = venue.do("uncross")["replies"]
        assert replies == {"XYZ": "opening no price", "XYZ.2": "opening no price"}


async def boards_shown(venue: Served, token: str, name: str) -> list[str]:
    """The titles of the boards that somebody who was there before is shown once one more joins."""
    async with aiohttp.ClientSession() as web, asyncio.timeout(served.SECONDS):
        async with web.ws_connect(f"{venue.url}api/socket") as socket:
            await socket.send_str(hello(token))
            joining = None
            while True:
                message = await socket.receive_json()
                if message["type"] != "welcome":
                    continue
                if joining is not None and len(message["instruments"]) > 1:
                    await joining
                    return [it["title"] for it in message["instruments"]]
                joining = joining or asyncio.create_task(asyncio.to_thread(venue.join, name))


@pytest.mark.parametrize("role", ["operator", "beamer"])
def test_a_new_group_is_shown_to_who_is_there(tmp_path: pathlib.Path, role: str) -> None:
    with served.served(tmp_path, SMALL) as venue:
        joined(venue, 3)
        titles = asyncio.run(boards_shown(venue, getattr(venue, role), "late"))
        assert titles == ["XYZ · 1", "XYZ · 2"]


def test_a_member_reads_in_which_group_it_is(tmp_path: pathlib.Path) -> None:
    """The screen may show the price of another one."""
    with served.served(tmp_path, SMALL) as venue:
        joined(venue, 2)
        with browsing.joined(tmp_path / "anna", venue, "Anna") as anna:
            anna.waits(lambda it: it.text("round") == "The book is closed.")
            venue.join("late")
            wanted = f"The book is closed. You are in the group XYZ · {groups_of(venue)['Anna']}."
            anna.waits(lambda it: it.text("round") == wanted)


def test_a_latecomer_finds_room(tmp_path: pathlib.Path) -> None:
    with served.served(tmp_path, SMALL) as venue:
        tokens = joined(venue, 3)
        venue.do("start")
        assert asyncio.run(orders(venue, tokens)) == ["XYZ: entered"] * 3
        tokens += [venue.join("late")]
        assert groups_of(venue)["late"] == 2
        venue.do("uncross")
        venue.do("start")
        assert asyncio.run(orders(venue, tokens))[-1] == "XYZ.2: entered"


def killed(venue: Served) -> None:
    """Kills a venue."""
    venue.child.kill()
    venue.child.wait()


def late(venue: Served) -> list[str]:
    """The tokens of three members whose call goes on, and of one who is late."""
    tokens = joined(venue, 3)
    venue.do("give", low="1.00", high="3.00", quantity=7)
    venue.do("start")
    return [*tokens, venue.join("late")]


def test_who_was_alone_is_dealt_in_at_the_next_round(tmp_path: pathlib.Path) -> None:
    """Also where the venue is killed then; values and messages stay their members'."""
    with served.served(tmp_path, SMALL) as venue:
        tokens = late(venue)
        assert sizes(venue) == [1, 3]
        before = asyncio.run(orders(venue, tokens))
        assert before == ["XYZ: entered"] * 3 + ["XYZ.2: entered"]
        venue.do("uncross")
        values = [value_of(venue, token) for token in tokens]
        venue.do("next", round=2)
        assert sizes(venue) == [2, 2]
        assert [value_of(venue, token) for token in tokens] == values
        groups = groups_of(venue)
        killed(venue)
    with served.served(tmp_path, SMALL) as venue:
        assert groups_of(venue) == groups
        assert [value_of(venue, token) for token in tokens] == values
        venue.do("start")
        assert len(asyncio.run(orders(venue, tokens))) == 4
        for round_, counts in ((1, [3, 1]), (2, [2, 2])):
            for name, count in zip(("XYZ", "XYZ.2"), counts):
                path = f"api/download/members/{name}?round={round_}"
                names = venue.call(path, token=venue.operator)[1]
                assert names.count("\n") == 1 + count


def test_a_kill_before_a_round_has_dealt(tmp_path: pathlib.Path) -> None:
    with served.served(tmp_path, SMALL) as venue:
        tokens = late(venue)
        values = [value_of(venue, token) for token in tokens]
        venue.do("uncross")
        venue.do("next", round=2)
        killed(venue)
        cut(tmp_path / "venue/venue.log", '"kind":"round"')
    with served.served(tmp_path, SMALL) as venue:
        assert sizes(venue) == [2, 2]
        assert [value_of(venue, token) for token in tokens] == values


def test_groups_that_lost_members_are_dealt_anew(tmp_path: pathlib.Path) -> None:
    with served.served(tmp_path, SMALL) as venue:
        joined(venue, 6)
        venue.do("start")
        venue.do("uncross")
        first = [name for name, group in groups_of(venue).items() if group == 1]
        venue.do("remove", members=first[:2])
        venue.do("next", round=2)
        rows = sees(venue, "members")["members"]
        there = collections.Counter(it["group"] for it in rows if not it["is_removed"])
        assert sorted(there.values()) == [2, 2]


def test_groups_that_are_even_stay_as_they_are(tmp_path: pathlib.Path) -> None:
    """So that a market may have the same members again: of five three and two are even."""
    with served.served(tmp_path, SMALL) as venue:
        joined(venue, 5)
        before = groups_of(venue)
        for number in (2, 3):
            venue.do("start")
            venue.do("uncross")
            venue.do("next", round=number)
            assert (groups_of(venue), sizes(venue)) == (before, [2, 3])


@pytest.mark.parametrize("is_cut", [False, True])
def test_who_comes_again_has_a_group_that_is_there(tmp_path: pathlib.Path, is_cut: bool) -> None:
    """Its own was the third of three, and there are two by now; also where the venue is killed
    before it is put into another one.
    """
    with served.served(tmp_path, SMALL) as venue:
        joined(venue, 7)
        gone = next(name for name, group in groups_of(venue).items() if group == 3)
        venue.do("remove", members=[gone])
        venue.do("next", round=2)
        assert sees(venue, "round")["groups"] == 2
        token = venue.join(gone, venue.do("readmit", member=gone)["code"])
        if not is_cut:
            venue.do("start")
            assert asyncio.run(orders(venue, [token]))[0].endswith(": entered")
        killed(venue)
        if is_cut:
            cut(tmp_path / "venue/venue.log", '"kind":"member"')
    with served.served(tmp_path, SMALL) as venue:
        venue.join("new")
        if is_cut:
            venue.do("start")
        assert asyncio.run(orders(venue, [token]))[0].endswith(": entered")


CALL = SMALL.replace("call = 0", "call = 600")


def test_a_late_group_has_the_call_that_goes_on(tmp_path: pathlib.Path) -> None:
    """It ends with that of the others, and the next one begins with theirs."""
    with served.served(tmp_path, CALL) as venue:
        tokens = late(venue)
        with Client(venue.url, tokens[0]) as me, Client(venue.url, tokens[3]) as other:
            first, second = me.look("state"), other.look("state")
            assert (second["phase"], second["auction"]) == ("call", "opening")
            assert (second["ends"], second["latest"]) == (first["ends"], first["latest"])
            assert set(venue.do("uncross")["replies"]) == {"XYZ", "XYZ.2"}
            venue.do("start")
            assert [it.look("state")["auction"] for it in (me, other)] == ["intraday"] * 2
            killed(venue)
    with served.served(tmp_path, CALL) as venue, Client(venue.url, tokens[3]) as other:
        state = other.look("state")
        assert (state["phase"], state["auction"]) == ("call", "intraday")


def test_a_late_group_waits_while_the_others_are_stopped(tmp_path: pathlib.Path) -> None:
    with served.served(tmp_path, CALL) as venue:
        tokens = joined(venue, 3)
        venue.do("start")
        venue.do("freeze")
        tokens.append(venue.join("late"))
        with Client(venue.url, tokens[0]) as me, Client(venue.url, tokens[3]) as other:
            assert other.look("state")["frozen"]
            venue.do("thaw")
            ends = [it.look("state")["ends"] for it in (me, other)]
            assert ends[1] == pytest.approx(ends[0], abs=1e-3)


def test_results_have_members_where_they_were(tmp_path: pathlib.Path) -> None:
    """A row for each member and round, though three of four never gave an order or had a value."""
    with served.served(tmp_path, SMALL) as venue:
        joined(venue, 3)
        venue.do("start")
        venue.join("late")
        venue.do("uncross")
        groups = {(1, name): group for name, group in groups_of(venue).items()}
        assert groups[1, "late"] == 2
        venue.do("next", round=2)
        venue.do("start")
        groups |= {(2, name): group for name, group in groups_of(venue).items()}
        wanted = sorted(
            (str(round_), name, "XYZ" if group == 1 else "XYZ.2")
            for (round_, name), group in groups.items()
        )
        assert located(venue) == wanted
        killed(venue)
    with served.served(tmp_path, SMALL) as venue:
        assert located(venue) == wanted


def located(venue: Served) -> list[tuple[str, str, str]]:
    """The round, the name and the board of each row of the results."""
    text = venue.call("api/download/results/XYZ", token=venue.operator)[1]
    rows = csv.DictReader(io.StringIO(text))
    found = [(it["round"], it["name"], it["instrument"]) for it in rows]
    return sorted(it for it in found if it[0] != "all")


def test_the_operator_reads_who_came_late_into_an_empty_group(tmp_path: pathlib.Path) -> None:
    """On the page, where the table has the groups then, and on standard error."""
    with served.served(tmp_path, SMALL) as venue:
        joined(venue, 3)
        with opened(tmp_path / "teacher", f"{venue.url}teacher#{venue.operator}", SCREEN) as page:
            page.waits(lambda it: it.shows("phase"))
            page.clicks("#tab-class")
            page.waits(lambda it: len(it.rows("members")) == 3)
            assert not page.find("th.group").is_displayed() and not page.shows("arrivals")
            assert sees(venue, "members")["small"] == []
            venue.do("start")
            venue.join("late")
            page.waits(lambda it: it.text("arrivals").startswith("Group 2 is nearly empty: late."))
            assert page.find("th.group").is_displayed()
            page.waits(lambda it: [row[6] for row in it.rows("members")] == ["1", "1", "1", "2"])
            assert sees(venue, "members")["small"] == [{"group": 2, "names": ["late"]}]
            venue.join("later")
            page.waits(lambda it: not it.shows("arrivals"))
        venue.child.terminate()
        error = venue.child.communicate(timeout=served.SECONDS)[1]
        said = [it for it in error.splitlines() if "joined late" in it]
        text = "group 2 has 1 of 3 members, until the next round deals all anew"
        assert said == [f"venue: late joined late: {text}"]


def test_members_take_their_values_along(tmp_path: pathlib.Path) -> None:
    """Also after a kill."""
    with served.served(tmp_path, SMALL) as venue:
        tokens = joined(venue, 3)
        venue.do("give", low="1.00", high="3.00", quantity=7)
        before = [value_of(venue, token) for token in tokens]
        tokens.append(venue.join("late"))
        assert sizes(venue) == [2, 2]
        assert [value_of(venue, token) for token in tokens] == [*before, None]
        groups = groups_of(venue)
        venue.child.kill()
        venue.child.wait()
    with served.served(tmp_path, SMALL) as venue:
        assert groups_of(venue) == groups
        assert [value_of(venue, token) for token in tokens] == [*before, None]
        sides = collections.Counter(
            (groups[f"member {place}"], value["side"])
            for place, value in enumerate(before) if value
        )
        assert max(sides.values()) == 1 + (len(sides) < 3)


def test_one_press_goes_on_with_all_groups(tmp_path: pathlib.Path) -> None:
    """A group that was interrupted is uncrossed alone."""
    day = SMALL + '[[instrument]]\nrange = "0.10"\n'
    with served.served(tmp_path, day) as venue:
        tokens = joined(venue, 4)
        venue.do("start")
        with Client(venue.url, tokens[0]) as me, Client(venue.url, tokens[2]) as other:
            me.enter("bid", 10, "3.00")
            other.enter("ask", 10, "3.00")
            replies: dict[str, Any] = venue.do("uncross")["replies"]
            assert replies["XYZ"].startswith("interrupted")
            assert replies["XYZ.2"] == "opening no price"
            assert me.look("state")["phase"] == "extended"
        assert set(venue.do("uncross", phase="extended")["replies"]) == {"XYZ"}


def test_a_kill_while_a_group_opens(tmp_path: pathlib.Path) -> None:
    with served.served(tmp_path, SMALL) as venue:
        joined(venue, 4)
        venue.child.kill()
        venue.child.wait()
        cut(tmp_path / "venue/venue.log", '"kind":"group"')
    with served.served(tmp_path, SMALL) as venue:
        assert sizes(venue) == [1, 3]
        assert [venue.join(name) for name in ("Eve", "Fay")]
        assert sizes(venue) == [3, 3]


def test_groups_of_the_next_round(tmp_path: pathlib.Path) -> None:
    """As many as the members need, who keep their values."""
    with served.served(tmp_path, SMALL) as venue:
        tokens = joined(venue, 6)
        venue.do("give", low="1.00", high="3.00", quantity=7)
        before = [value_of(venue, token) for token in tokens]
        venue.do("remove", members=["member 0", "member 1"])
        venue.do("next", round=2)
        assert [value_of(venue, token) for token in tokens[2:]] == before[2:]
        venue.do("remove", members=["member 2"])
        venue.do("next", round=3)
        assert sees(venue, "round")["groups"] == 1
        assert [value_of(venue, token) for token in tokens[3:]] == before[3:]
        venue.do("start")
        replies = asyncio.run(orders(venue, tokens[3:]))
        assert replies == ["XYZ: entered"] * 3
        venue.child.kill()
        venue.child.wait()
    with served.served(tmp_path, SMALL) as venue:
        assert asyncio.run(orders(venue, tokens[3:])) == replies

"""What members by FIX ask beside orders: all orders deleted or shown, the list of instruments, the
phases, the market as it changes; and orders that end with their connection.
"""
import pathlib
import time

import fixing
import psutil
import pytest
import served
from fix_messages import ask_data, mass_cancel, rows
from fix_venues import TWO, killable, on, reports, settled, until_logged
from fixing import NOT_DONE, FixFields, FixMessage, Peer


def test_all_orders_are_cancelled(tmp_path: pathlib.Path) -> None:
    port = served.free_port()
    with on(tmp_path, fixing.day_of(port, "ALICE", "BOB") + TWO, port, "ALICE", "BOB") as (
        venue,
        [alice, bob],
    ):
        venue.do("start", instrument="XYZ")
        venue.do("start", instrument="ABC")
        for number in range(3):
            alice.enter(f"a{number}", "1", 10, "2.00")
        alice.enter("a3", "2", 10, "3.00")
        other = [(11, "a4"), (55, "ABC"), (54, "1"), (60, fixing.stamp()), (38, "7"), (40, "1")]
        alice.say("D", other)
        bob.enter("b1", "1", 10, "2.00")
        bob.take(lambda it: it.get(11) == "b1")
        found = mass_cancel(alice, "c1", (530, "1"), (55, "XYZ"), (54, "1"))
        answer = {11: "c1", 37: "R.ALICE.7", 530: "1", 531: "1", 533: "3", 55: "XYZ", 54: "1"}
        assert answer.items() <= found.items()
        gone = [it for it in alice.got if it.get(150) == "4"]
        assert [(it[11], it[39], it[151]) for it in gone] == [
            ("a0", "4", "0"),
            ("a1", "4", "0"),
            ("a2", "4", "0"),
        ]
        found = mass_cancel(alice, "c2", (530, "7"))
        assert (found[531], found[533]) == ("7", "2") and 55 not in found
        found = mass_cancel(alice, "c3", (530, "7"))
        assert (found[531], found[533]) == ("7", "0")
        bob.say("H", [(11, "b1"), (55, "XYZ"), (54, "1")])
        assert bob.take(lambda it: it.get(150) == "I")[39] == "0"


def test_an_order_has_an_id_of_its_own(tmp_path: pathlib.Path) -> None:
    """Among those of all instruments and rounds; a client may give it back."""
    port = served.free_port()
    with on(tmp_path, fixing.day_of(port, "ALICE") + TWO, port, "ALICE") as (venue, [peer]):

        def answered(kind: str, client: str, *more: tuple[int, str]) -> str:
            peer.say(kind, [(11, client), (54, "1"), *more])
            found = peer.take(lambda it: it.get(11) == client)
            assert found[150] == {"D": "0", "G": "5", "F": "4", "H": "I"}[kind]
            return found[37]

        def entered(client: str, market: str) -> str:
            more = [(60, fixing.stamp()), (38, "10"), (40, "1")]
            return answered("D", client, (55, market), *more)

        for market in ("XYZ", "ABC"):
            venue.do("start", instrument=market)
            assert entered(f"{market}1", market) == f"{market}.1"
            assert entered(f"{market}2", market) == f"{market}.2"
        for market in ("XYZ", "ABC"):
            venue.do("uncross", instrument=market)
        venue.do("next", round=2)
        venue.do("start", instrument="ABC")
        one = entered("ABC3", "ABC")
        assert one == "ABC.round2.1"
        order, time = [(55, "ABC"), (37, one)], (60, fixing.stamp())
        assert answered("H", "ABC3", *order) == one
        assert answered("G", "ABC4", *order, time, (41, "ABC3"), (38, "9"), (40, "1")) == one
        assert answered("F", "ABC5", *order, time, (41, "ABC4")) == one


@pytest.mark.parametrize(
    "more, reason, text",
    [
        ([(530, "3")], "0", "tag 530 is 1 with a Symbol, or 7 without"),
        ([(530, "1")], "0", "tag 530 is 1 with a Symbol, or 7 without"),
        ([(530, "1"), (55, "NONE")], "1", "there is no instrument of this name"),
        ([(530, "7")], "99", "orders are taken in a call phase alone"),
    ],
)
def test_a_mass_cancel_that_is_refused(
    tmp_path: pathlib.Path, more: FixFields, reason: str, text: str
) -> None:
    port = served.free_port()
    with on(tmp_path, fixing.day_of(port, "ALICE"), port, "ALICE") as (_, [peer]):
        found = mass_cancel(peer, "c1", *more)
        assert (found[531], found[532], found[533], found[58]) == ("0", reason, "0", text)


def test_all_orders_are_shown(tmp_path: pathlib.Path) -> None:
    port = served.free_port()
    with on(tmp_path, fixing.day_of(port, "ALICE"), port, "ALICE") as (venue, [peer]):
        peer.say("AF", [(584, "s1"), (585, "7")])
        found = peer.take(lambda it: it[35] == "8")
        empty = {584: "s1", 150: "I", 39: "8", 37: "NONE", 55: "[N/A]", 54: "7", 17: "R.ALICE.2"}
        assert empty.items() <= found.items()
        venue.do("start")
        for number in range(3):
            peer.enter(f"a{number}", "12"[number % 2], 10 + number, f"{1 + number}.00")
        peer.say("AF", [(584, "s2"), (585, "1"), (55, "XYZ")])
        shown = [it for it in peer.all() if it.get(584) == "s2"]
        assert [(it[11], it[150], it[39], it[151], it[911], it[912]) for it in shown] == [
            ("a0", "I", "0", "10", "3", "N"),
            ("a1", "I", "0", "11", "3", "N"),
            ("a2", "I", "0", "12", "3", "Y"),
        ]
        assert len({it[17] for it in shown}) == 3
        peer.say("AF", [(584, "s3"), (585, "7"), (54, "2")])
        shown = [it for it in peer.all() if it.get(584) == "s3"]
        assert [(it[11], it[912]) for it in shown] == [("a1", "Y")]


def test_the_list_of_instruments(tmp_path: pathlib.Path) -> None:
    port = served.free_port()
    with on(tmp_path, fixing.day_of(port, "ALICE") + TWO, port, "ALICE") as (_, [peer]):
        peer.say("x", [(320, "l1"), (559, "4")])
        peer.socket.settimeout(fixing.SECONDS)
        raw = fixing.parsed(peer.whole())
        head = {320: "l1", 322: "R.ALICE.2", 560: "0", 393: "2", 146: "2"}
        assert head.items() <= dict(raw).items()
        assert [value for tag, value in raw if tag == 55] == ["XYZ", "ABC"]
        assert [value for tag, value in raw if tag == 969] == ["0.01", "0.01"]
        assert [value for tag, value in raw if tag == 15] == ["EUR", "EUR"]
        assert [value for tag, value in raw if tag == 1148] == ["0.01", "0.01"]
        assert [value for tag, value in raw if tag == 1149] == ["10.00", "10.00"]
        assert [value for tag, value in raw if tag == 58] == ["Abc Inc."]
        peer.expected += 1
        peer.say("x", [(320, "l2"), (559, "0"), (55, "NONE")])
        found = peer.take(lambda it: it[35] == "y")
        assert (found[320], found[560]) == ("l2", "2")
        peer.say("x", [(320, "l3"), (559, "1")])
        assert peer.take(lambda it: it[35] == "y")[560] == "1"


def phase(given: FixMessage) -> tuple[str, ...]:
    """What a TradingSessionStatus says."""
    return tuple(given.get(tag, "") for tag in (335, 336, 625, 340, 58, 325))


def test_phases(tmp_path: pathlib.Path) -> None:
    port = served.free_port()
    day = fixing.day_of(port, "ALICE")
    with on(tmp_path, day, port, "ALICE") as (venue, [peer]):

        def next_phase() -> tuple[str, ...]:
            return phase(peer.take(lambda it: it[35] == "h"))

        peer.say("g", [(335, "p1"), (263, "0")])
        assert next_phase() == ("p1", "XYZ", "2", "4", "waiting", "")
        peer.say("g", [(335, "p2"), (263, "1"), (336, "XYZ")])
        assert next_phase() == ("p2", "XYZ", "2", "4", "waiting", "")
        venue.do("start")
        assert next_phase() == ("p2", "XYZ", "2", "2", "call", "Y")
        venue.do("freeze")
        assert next_phase() == ("p2", "XYZ", "2", "1", "frozen", "Y")
        venue.do("thaw")
        assert next_phase()[3:5] == ("2", "call")
        venue.do("end")
        assert next_phase()[3:5] == ("5", "ended")
        venue.do("uncross")
        assert next_phase() == ("p2", "XYZ", "6", "4", "waiting", "Y")
        peer.say("g", [(335, "p2"), (263, "2")])
        venue.do("start")
        venue.do("uncross")
        venue.do("start")
        venue.do("uncross")
        assert [it for it in peer.all() if it[35] == "h"] == []
        peer.say("g", [(335, "p3"), (263, "0")])
        assert next_phase() == ("p3", "XYZ", "5", "3", "over", "")
        peer.say("g", [(335, "p4"), (263, "0"), (336, "NONE")])
        found = peer.take(lambda it: it[35] == "h")
        assert (found[340], found[567], found[336]) == ("6", "1", "NONE")
        peer.say("g", [(335, "p5"), (263, "7")])
        found = peer.take(lambda it: it[35] == "h")
        assert (found[340], found[567]) == ("6", "99")


def test_the_end_of_a_call_is_said(tmp_path: pathlib.Path) -> None:
    port = served.free_port()
    day = fixing.day_of(port, "ALICE").replace("call = 0", "call = 600")
    with on(tmp_path, day, port, "ALICE") as (venue, [peer]):
        begin = time.time()
        venue.do("start")
        peer.say("g", [(335, "p1"), (263, "0")])
        ends = peer.take(lambda it: it[35] == "h")[345]
        told = time.mktime(time.strptime(ends, "%Y%m%d-%H:%M:%S")) - time.timezone
        assert begin + 590 < told < begin + 620


def test_the_market_as_it_changes(tmp_path: pathlib.Path) -> None:
    """A copy that goes by the changes has at each time what a snapshot has."""
    port = served.free_port()
    day = fixing.day_of(port, "ALICE", "BOB")
    with on(tmp_path, day, port, "ALICE", "BOB") as (venue, [alice, bob]):
        venue.do("start")
        ask_data(bob, "d1", "1", (265, "1"))
        assert rows(bob, "W") == [{269: "J"}]
        alice.enter("a1", "1", 500, "2.00")
        assert rows(bob, "X") == [{279: "0", 269: "0", 55: "XYZ", 270: "2.00"}]
        alice.enter("a2", "2", 300, "2.10")
        assert rows(bob, "X") == [{279: "0", 269: "1", 55: "XYZ", 270: "2.10"}]
        alice.replace("a2", "a3", "2", 300, "2.00")
        gone = [{279: "2", 269: "0", 55: "XYZ"}, {279: "2", 269: "1", 55: "XYZ"}]
        assert rows(bob, "X") == gone + [
            {279: "0", 269: "Q", 55: "XYZ", 270: "2.00", 271: "300"},
            {279: "0", 269: "B", 55: "XYZ", 271: "300"},
            {279: "0", 269: "A", 55: "XYZ", 271: "200", 277: "P"},
        ]
        alice.enter("a4", "2", 250, "2.00")
        assert rows(bob, "X") == [
            {279: "1", 269: "Q", 55: "XYZ", 270: "2.00", 271: "500"},
            {279: "1", 269: "B", 55: "XYZ", 271: "500"},
            {279: "1", 269: "A", 55: "XYZ", 271: "50", 277: "Q"},
        ]
        ask_data(bob, "d1", "2")
        ask_data(bob, "d2", "1", (265, "0"))
        assert [it[269] for it in rows(bob, "W")] == ["Q", "B", "A"]
        alice.cancel("a4", "a5", "2")
        assert [it.get(271) for it in rows(bob, "W")] == ["300", "300", "200"]
        bob.close()
        alice.cancel("a3", "a6", "2")
        alice.take(lambda it: it.get(11) == "a6")
        bob.logon(fixing.token_of(tmp_path / "venue", "BOB"))
        assert bob.all() == []


def test_a_book_that_is_empty(tmp_path: pathlib.Path) -> None:
    """By the standard a group has a row: a whole that shows nothing has the row of an empty book,
    changes have those that are gone. Nothing of it is in what follows.
    """
    port = served.free_port()
    with on(tmp_path, fixing.day_of(port, "ALICE", "BOB"), port, "ALICE", "BOB") as (
        venue,
        [alice, bob],
    ):
        venue.do("start")
        ask_data(bob, "d1", "1", (265, "1"))
        ask_data(bob, "d2", "1", (265, "0"))
        assert [rows(bob, "W") for _ in range(2)] == [[{269: "J"}]] * 2
        for client in ("a1", "a2"):
            alice.enter(client, "1", 500, "2.00")
            assert rows(bob, "X") == [{279: "0", 269: "0", 55: "XYZ", 270: "2.00"}]
            assert rows(bob, "W") == [{269: "0", 270: "2.00"}]
            alice.cancel(client, f"{client}c", "1")
            assert rows(bob, "X") == [{279: "2", 269: "0", 55: "XYZ"}]
            assert rows(bob, "W") == [{269: "J"}]
        alice.enter("a3", "1", 500, "2.00")
        bob.take(lambda it: it[35] == "W")
        ask_data(bob, "d3", "0", types="Q")
        assert rows(bob, "W") == [{269: "J"}]  # no price: nothing that was asked for
        ask_data(bob, "d4", "0", types="J")
        assert bob.take(lambda it: it[35] == "Y")[281] == "8"


def test_an_open_book_has_sizes(tmp_path: pathlib.Path) -> None:
    port = served.free_port()
    day = fixing.day_of(port, "ALICE") + '[[round]]\nbook = "open"\n'
    with on(tmp_path, day, port, "ALICE") as (venue, [peer]):
        venue.do("start")
        for number, shares in enumerate((500, 25)):
            peer.enter(f"a{number}", "1", shares, "2.00")
            peer.take(lambda it: it[35] == "8")
        ask_data(peer, "d1", "0")
        assert rows(peer, "W") == [{269: "0", 270: "2.00", 271: "525"}]


def test_an_open_book_has_visible_sizes(tmp_path: pathlib.Path) -> None:
    """Of an iceberg order its peak, of orders of other auctions nothing."""
    port = served.free_port()
    day = fixing.day_of(port, "ALICE", "BOB") + '[[round]]\nbook = "open"\n'
    with on(tmp_path, day, port, "ALICE", "BOB") as (venue, [alice, bob]):
        venue.do("start")
        alice.enter("a1", "1", 1000, "2.00", (111, "100"))
        alice.enter("a2", "1", 70, "2.00", (59, "7"), (111, "10"))
        alice.enter("a3", "2", 40, "2.10", (1138, "30"))
        alice.take(lambda it: it.get(11) == "a3")
        ask_data(bob, "d1", "1")
        best = {269: "0", 270: "2.00"}
        asked = {269: "1", 270: "2.10", 271: "30"}
        assert rows(bob, "W") == [best | {271: "100"}, asked]
        bob.enter("b1", "1", 25, "2.00")
        bob.take(lambda it: it.get(11) == "b1")
        assert rows(bob, "W") == [best | {271: "125"}, asked]
        bob.enter("b2", "2", 900, "2.00")  # what is executed is of the whole orders
        bob.take(lambda it: it.get(11) == "b2")
        executed = [{269: "Q", 270: "2.00", 271: "900"}, {269: "B", 271: "900"}]
        assert rows(bob, "W")[:2] == executed


@pytest.mark.parametrize(
    "pairs, reason",
    [
        ([(263, "9"), (264, "1"), (267, "1"), (269, "Q"), (146, "1"), (55, "XYZ")], "4"),
        ([(263, "0"), (264, "1"), (267, "1"), (269, "4"), (146, "1"), (55, "XYZ")], "8"),
        ([(263, "0"), (264, "5"), (267, "1"), (269, "Q"), (146, "1"), (55, "XYZ")], "5"),
        ([(263, "1"), (264, "-1"), (267, "1"), (269, "Q"), (146, "1"), (55, "XYZ")], "5"),
        ([(263, "1"), (264, "9" * 5000), (267, "1"), (269, "Q"), (146, "1"), (55, "XYZ")], "5"),
        ([(263, "0"), (264, "1"), (267, "1"), (269, "Q"), (146, "1"), (55, "NONE")], "0"),
    ],
)
def test_market_data_that_is_refused(
    tmp_path: pathlib.Path, pairs: FixFields, reason: str
) -> None:
    port = served.free_port()
    with on(tmp_path, fixing.day_of(port, "ALICE"), port, "ALICE") as (_, [peer]):
        peer.say("V", [(262, "d1"), *pairs])
        found = peer.take(lambda it: it[35] == "Y")
        assert (found[262], found[281]) == ("d1", reason)


def test_a_subscription_has_its_own_id(tmp_path: pathlib.Path) -> None:
    port = served.free_port()
    with on(tmp_path, fixing.day_of(port, "ALICE"), port, "ALICE") as (_, [peer]):
        for number in range(64):
            ask_data(peer, f"d{number}", "1")
            rows(peer, "W")
        ask_data(peer, "d7", "1")
        assert peer.take(lambda it: it[35] == "Y")[281] == "1"
        ask_data(peer, "d64", "1")
        assert peer.take(lambda it: it[35] == "Y")[281] == "2"
        ask_data(peer, "d7", "2")
        ask_data(peer, "d64", "1")
        rows(peer, "W")


def test_the_end_of_a_subscription_that_there_is_not(tmp_path: pathlib.Path) -> None:
    """It is answered; that of one that there was isn't."""
    port, gone = served.free_port(), "there is no subscription of this id"
    with on(tmp_path, fixing.day_of(port, "ALICE"), port, "ALICE") as (_, [peer]):
        ask_data(peer, "d1", "1")
        rows(peer, "W")
        ask_data(peer, "d1", "2")
        for _ in range(2):
            ask_data(peer, "d1", "2")
            found = peer.take(lambda it: it[35] == "Y")
            assert (found[262], found[281], found[58]) == ("d1", "4", gone)
        peer.say("g", [(335, "p1"), (263, "2")])
        found = peer.take(lambda it: it[35] == "h")
        assert (found[335], found[340], found[567], found[58]) == ("p1", "6", "99", gone)
        assert [it[35] for it in peer.got] == ["Y", "Y", "h"]


def test_orders_end_with_their_connection(tmp_path: pathlib.Path) -> None:
    """Also where the venue was killed; the orders of others and of a session that didn't ask for it
    stay.
    """
    port, folder = served.free_port(), tmp_path / "venue"
    with killable(tmp_path, fixing.day_of(port, "ALICE", "BOB")) as day:
        alice, bob = Peer(port, "ALICE"), Peer(port, "BOB")
        assert alice.logon(fixing.token_of(folder, "ALICE"), (8013, "Y"))[8013] == "Y"
        assert 8013 not in bob.logon(fixing.token_of(folder, "BOB"))
        bob.enter("b1", "2", 5, "3.00")
        bob.take(lambda it: it.get(11) == "b1")
        alice.enter("a1", "1", 10, "2.00")
        alice.enter("a2", "1", 20, "2.00", (59, "1"))
        alice.take(lambda it: it.get(11) == "a2")
        alice.enter("a3", "1", 30, "2.00")  # perhaps it is still on its way
        alice.close()
        alice.logon(fixing.token_of(folder, "ALICE"), (8013, "Y"))
        seen = settled(alice, 3)
        cancelled = [it for it in seen if it[150] == "4"]
        why = "the connection has ended, or its venue: CancelOrdersOnDisconnect (8013=Y)"
        assert {(it[11], it[58]) for it in cancelled} == {(it, why) for it in ("a1", "a2", "a3")}
        alice.enter("a4", "1", 40, "2.00")
        alice.take(lambda it: it.get(11) == "a4")
        day.again()
        alice.logon(fixing.token_of(folder, "ALICE"))
        assert {it[11] for it in settled(alice, 4) if it[150] == "4"} == {"a1", "a2", "a3", "a4"}
        alice.say("AF", [(584, "s1"), (585, "7")])
        assert alice.take(lambda it: it.get(584) == "s1")[39] == "8"
        alice.enter("a5", "1", 50, "2.00")
        alice.take(lambda it: it.get(11) == "a5")
        alice.close()  # it didn't ask this time
        alice.logon(fixing.token_of(folder, "ALICE"))
        assert alice.all() == []
        bob.logon(fixing.token_of(folder, "BOB"))
        bob.say("H", [(11, "b1"), (55, "XYZ"), (54, "2")])
        assert bob.take(lambda it: it.get(150) == "I")[39] == "0"


def test_a_list_is_settled(tmp_path: pathlib.Path) -> None:
    """It has the number of its request: begun again, the venue expects the next one, and neither
    asks for that request again nor answers it again.
    """
    port = served.free_port()
    with killable(tmp_path, fixing.day_of(port, "ALICE")) as day:
        peer = Peer(port, "ALICE")
        peer.logon(fixing.token_of(tmp_path / "venue", "ALICE"))
        peer.say("x", [(320, "l1"), (559, "4")])
        assert peer.take(lambda it: it[35] == "y")[322] == "R.ALICE.2"
        day.again()
        peer.logon(fixing.token_of(tmp_path / "venue", "ALICE"))
        assert peer.all() == []


def test_a_gap_in_place_of_what_was_not_executed(tmp_path: pathlib.Path) -> None:
    """The venue and its program are killed while messages are in the log and the program hasn't
    read them; the client has lost them, and fills the gap: it is told that nothing was done.
    """
    port, folder = served.free_port(), tmp_path / "venue"
    with killable(tmp_path, fixing.day_of(port, "ALICE")) as day:
        peer = Peer(port, "ALICE")
        peer.logon(fixing.token_of(folder, "ALICE"))
        peer.enter("a1", "1", 10, "2.00")
        peer.take(lambda it: it.get(11) == "a1")
        [program] = psutil.Process(day.venue.child.pid).children()
        program.suspend()
        peer.enter("a2", "2", 20, "3.00")
        peer.replace("a1", "a3", "1", 15, "2.01")
        peer.cancel("a1", "a4", "1")
        peer.say("q", [(11, "a5"), (530, "7"), (60, fixing.stamp())])
        until_logged(folder, '"11":"a4"')
        day.venue.child.kill()
        program.kill()
        day.again()
        peer.sent = {number: ("0", []) for number in peer.sent}
        peer.logon(fixing.token_of(folder, "ALICE"))
        found = {it[11]: it for it in peer.all()}
        assert found.keys() == {"a2", "a3", "a4"}
        assert [found["a2"][tag] for tag in (35, 150, 39, 55, 54, 38, 103)] == [
            *("8", "8", "8", "XYZ", "2", "20", "99")
        ]
        for client, asked in (("a3", "2"), ("a4", "1")):
            it = found[client]
            assert [it[tag] for tag in (35, 41, 37, 39, 434, 102)] == [
                *("9", "a1", "XYZ.1", "0", asked, "99")
            ]
        assert {found[it][58] for it in ("a2", "a3", "a4")} == {NOT_DONE}
        peer.enter("a6", "2", 20, "3.00")
        assert reports(peer)[-1] == ("XYZ.2", "a6", "0", "20")


def test_ten_reports_of_a_mass_status_count_as_a_message(tmp_path: pathlib.Path) -> None:
    """As all of them are kept, nobody may have thousands of them in a second."""
    port, rate = served.free_port(), 20
    day = fixing.day_of(port, "ALICE").replace("100000", str(rate), 1)
    with on(tmp_path, day.replace("100000", "40", 1), port, "ALICE") as (venue, [peer]):
        venue.do("start")
        for number in range(100):
            peer.enter(f"a{number}", "1", 1, "2.00")
        peer.take(lambda it: it.get(11) == "a99")
        begin, count = time.monotonic(), 12
        for number in range(count):
            peer.say("AF", [(584, f"s{number}"), (585, "7")])
            assert peer.take(lambda it: it.get(912) == "Y")[911] == "100"
        assert time.monotonic() - begin > (10 * count - 40) / rate

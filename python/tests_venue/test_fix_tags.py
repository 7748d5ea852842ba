"""The tables of docs/made/FIX_MESSAGES.md, tag by tag, where no other test looks: which tags a
message needs, which change nothing, which values are taken, and what is said of those that aren't.
What is expected is from the standard and that document.
"""
import pathlib
import types
from typing import Any, cast

import fixing
import psutil
import pytest
import served
from callauction.fix.feeds import phase_of
from callauction.venue.phases import Phase
from fix_messages import (
    FROM, HEAD, NEEDED, NOTHING, NO_ORDER, OF_ALL, OF_ORDERS, PARTIES, TIME, answer, ask_data,
    order, picked, rows, whole,
)
from fix_venues import killable, on, until_logged
from fixing import NOT_DONE, FixFields, FixMessage, Peer

OTHERS = {"D": 99, "G": 99, "F": 660, "H": 660, "q": 64, "AF": 453, "V": 286, "g": 338, "x": 167}
"""A tag for each that the standard has, and the venue hasn't."""


OTHER_SIDE = "Side (54) isn't the order's, which is 1"
"""What is said of a replace or a cancel that names another side than its order."""


def test_what_a_message_needs(tmp_path: pathlib.Path) -> None:
    """Without one of its tags, or with one that the venue hasn't, it is refused, and nothing else.
    """
    port = served.free_port()
    with on(tmp_path, fixing.day_of(port, "ALICE"), port, "ALICE") as (venue, [peer]):
        venue.do("start")
        assert answer(peer, "D", order("a1", "1", "10", (40, "1")))[150] == "0"
        for kind, groups in NEEDED.items():
            for tag in (group[0][0] for group in groups):
                number = str(peer.number)
                found = answer(peer, kind, whole(kind, tag))
                expected = ("3", number, kind, str(tag), "1")
                assert picked(found, 35, 45, 372, 371, 373) == expected, (kind, tag)
            number, tag = str(peer.number), OTHERS[kind]
            found = answer(peer, kind, [*whole(kind), (tag, "1")])
            assert picked(found, 35, 45, 372, 371, 373) == ("3", number, kind, str(tag), "2")
            assert found[58] == "Tag not defined for this message type"
            number = str(peer.number)
            found = answer(peer, kind, [*whole(kind), (9999, "1")])
            assert picked(found, 35, 45, 371, 373) == ("3", number, "9999", "0")
        assert answer(peer, "D", whole("D"))[150] == "0"  # n1 is new: no message was done
        assert answer(peer, "H", whole("H"))[39] == "0"


def test_tags_that_change_nothing(tmp_path: pathlib.Path) -> None:
    port = served.free_port()
    with on(tmp_path, fixing.day_of(port, "ALICE"), port, "ALICE") as (venue, [peer]):
        venue.do("start")
        limit = [(40, "2"), (44, "2.00")]
        entered = answer(peer, "D", [*order("a1", "1", "10", *limit), *NOTHING], HEAD)
        assert picked(entered, 150, 37, 38, 40, 44, 59) == ("0", "XYZ.1", "10", "2", "2.00", "0")
        assert not {*entered} & {1, 21, 50, 57, 58, 100, 207, 528, 581}
        other = [(41, "a1"), *order("a2", "1", "12", *limit), *NOTHING, (37, "XYZ.1")]
        assert picked(answer(peer, "G", other, HEAD), 150, 37, 38) == ("5", "XYZ.1", "12")
        asked = [(11, "a2"), (55, "XYZ"), (54, "1"), *NOTHING, (37, "XYZ.1"), (790, "s1")]
        found = answer(peer, "H", asked, HEAD)
        assert picked(found, 150, 37, 39, 790) == ("I", "XYZ.1", "0", "s1")
        found = answer(peer, "AF", [(584, "s1"), (585, "7"), (1, "a"), (207, "XETR")])
        assert picked(found, 150, 37, 912) == ("I", "XYZ.1", "Y")
        found = answer(peer, "x", [(320, "l1"), (559, "4"), (207, "XETR"), (58, "t"), (263, "0")])
        assert picked(found, 35, 560, 393) == ("y", "0", "1")
        found = answer(peer, "V", [*whole("V"), (207, "XETR")])
        assert picked(found, 35, 262, 268, 269) == ("W", "n1", "1", "J")
        gone = [(41, "a2"), *order("a3", "1", "99"), *NOTHING, (37, "9")]
        assert picked(answer(peer, "F", gone, HEAD), 150, 37, 38) == ("4", "XYZ.1", "12")
        found = answer(peer, "q", [(11, "a4"), (530, "7"), (60, TIME), (58, "text"), (207, "XETR")])
        assert picked(found, 35, 531, 533) == ("r", "7", "0")


def test_what_is_sent_with_orders(tmp_path: pathlib.Path) -> None:
    """It changes nothing, and isn't given back."""
    port = served.free_port()
    with on(tmp_path, fixing.day_of(port, "ALICE"), port, "ALICE") as (venue, [peer]):
        venue.do("start")
        limit = [(40, "2"), (44, "2.00")]
        beside = [*OF_ORDERS, *PARTIES]
        found = answer(peer, "D", [*order("a1", "1", "10", *limit), *beside], FROM)
        assert picked(found, 150, 37, 38, 44, 59) == ("0", "XYZ.1", "10", "2.00", "0")
        assert not {*found} & {15, 18, 22, 48, 115, 126, 142, 167, 447, 448, 452, 453, 802}
        replace = [(41, "a1"), *order("a2", "1", "12", *limit), *beside]
        assert picked(answer(peer, "G", replace, FROM), 150, 37, 38) == ("5", "XYZ.1", "12")
        asked = [(11, "a2"), (55, "XYZ"), (54, "1"), *OF_ALL, *PARTIES]
        assert picked(answer(peer, "H", asked, FROM), 150, 37) == ("I", "XYZ.1")
        gone = [(41, "a2"), *order("a3", "1", "12"), *OF_ALL, *PARTIES]
        assert picked(answer(peer, "F", gone, FROM), 150, 37) == ("4", "XYZ.1")


CONTRADICTING: list[tuple[FixFields, str, str]] = [
    ([(48, "DE0007164600"), (22, "4")], "1", "SecurityID (48) isn't the Symbol (55), by which "),
    ([(167, "BOND")], "11", "SecurityType (167) is CS"),
    ([(15, "USD")], "11", "Currency (15) isn't the instrument's, which is EUR"),
    ([(18, "G")], "11", "ExecInst (18) is of 1, 2 and 5, which change nothing"),
    ([(18, "1 M")], "11", "ExecInst (18) is of 1, 2 and 5, which change nothing"),
    ([(126, "20260102-09:00:00")], "11", "ExpireTime (126) isn't after today: an order ends by "),
]
"""What contradicts an order or its instrument, the reason and how the text begins."""


def test_what_contradicts_an_order(tmp_path: pathlib.Path) -> None:
    """Nothing is done, and it is said why."""
    port = served.free_port()
    with on(tmp_path, fixing.day_of(port, "ALICE"), port, "ALICE") as (venue, [peer]):
        venue.do("start")
        limit = [(40, "2"), (44, "2.00")]
        assert answer(peer, "D", order("a0", "1", "10", *limit))[37] == "XYZ.1"
        for place, (other, reason, text) in enumerate(CONTRADICTING):
            found = answer(peer, "D", [*order(f"d{place}", "1", "10", *limit), *other])
            assert picked(found, 150, 39, 37, 103) == ("8", "8", "NONE", reason), other
            assert found[58].startswith(text)
            replace = [(41, "a0"), *order(f"g{place}", "1", "12", *limit), *other]
            found = answer(peer, "G", replace)
            assert picked(found, 35, 37, 39) == ("9", "XYZ.1", "0") and found[58].startswith(text)
            if other[0][0] in (48, 167):
                gone = [(41, "a0"), *order(f"f{place}", "1", "12"), *other]
                found = answer(peer, "F", gone)
                assert picked(found, 35, 39) == ("9", "0") and found[58].startswith(text)
                found = answer(peer, "H", [(11, "a0"), (55, "XYZ"), (54, "1"), *other])
                assert picked(found, 150, 39) == ("I", "8") and found[58].startswith(text)


def test_a_status_of_another_side(tmp_path: pathlib.Path) -> None:
    port = served.free_port()
    with on(tmp_path, fixing.day_of(port, "ALICE"), port, "ALICE") as (venue, [peer]):
        venue.do("start")
        assert answer(peer, "D", order("a1", "1", "10", (40, "1")))[37] == "XYZ.1"
        found = answer(peer, "H", [(11, "a1"), (55, "XYZ"), (54, "2"), (790, "s1")])
        expected = ("a1", "NONE", "I", "8", "11", OTHER_SIDE, "s1")
        assert picked(found, 11, 37, 150, 39, 103, 58, 790) == expected


BAD_ORDERS: list[tuple[FixFields, str]] = [
    ([(40, "2")], "11"),
    ([(40, "1"), (44, "2.00")], "11"),
    ([(40, "3")], "11"),
    ([(40, "2"), (44, "2.005")], "99"),
    ([(40, "2"), (44, "-2.00")], "99"),
    ([(40, "1"), (54, "5")], "11"),
    ([(40, "1"), (55, "NONE")], "1"),
    ([(40, "1"), (59, "3")], "11"),
    ([(40, "1"), (59, "6")], "11"),
    ([(40, "1"), (38, "1.5")], "13"),
    ([(40, "1"), (38, "-1")], "13"),
    ([(40, "1"), (38, "0")], "13"),
    ([(40, "1"), (38, "100.5")], "13"),
    ([(40, "1"), (38, "1000000001")], "3"),
    ([(40, "1"), (38, "5000000000")], "3"),
    ([(40, "1"), (38, "9" * 9000)], "3"),
    ([(40, "1"), (111, "1.5")], "99"),
    ([(40, "2"), (44, "2.00"), (111, "0")], "99"),
    ([(40, "2"), (44, "2.00"), (1138, "-5")], "99"),
    ([(40, "2"), (44, "2.00"), (111, "11")], "99"),
    ([(40, "2"), (44, "2.00"), (1138, "11")], "99"),
    ([(40, "1"), (111, "5"), (1138, "6")], "11"),
]
"""Orders that aren't entered, and OrdRejReason: 1 an unknown symbol, 3 above a limit, 11 what isn't
supported, 13 a quantity, 99 another.
"""
NO_VALUES: FixFields = [(38, "x"), (38, ""), (44, "x"), (60, "now"), (111, "x"), (59, "00")]
"""Values that aren't of the type of their tag: a quantity, a price, a time, a letter."""


def changed(pairs: FixFields, other: FixFields) -> FixFields:
    """A message with other values."""
    tags = {tag for tag, _ in other}
    return [it for it in pairs if it[0] not in tags] + other


def test_orders_that_are_not_entered(tmp_path: pathlib.Path) -> None:
    port = served.free_port()
    with on(tmp_path, fixing.day_of(port, "ALICE"), port, "ALICE") as (venue, [peer]):
        venue.do("start")
        for number, (other, reason) in enumerate(BAD_ORDERS):
            client = f"a{number}"
            found = answer(peer, "D", changed(order(client, "1", "10"), other))
            expected = ("8", client, "8", "8", "0", "0", "NONE", reason)
            assert picked(found, 35, 11, 150, 39, 151, 14, 37, 103) == expected, other
            assert found[58]
        for tag, value in NO_VALUES:
            found = answer(peer, "D", changed(order("b1", "1", "10", (40, "1")), [(tag, value)]))
            assert picked(found, 35, 371, 373) == ("3", str(tag), "6" if value else "4"), tag
        assert answer(peer, "D", order("b1", "1", "10", (40, "1")))[37] == "XYZ.1"


KEPT: list[tuple[FixFields, str]] = [
    ([(54, "2")], OTHER_SIDE),
    ([(59, "0")], "MaxFloor and TimeInForce can't be changed"),
    ([(59, "7")], "MaxFloor and TimeInForce can't be changed"),
    ([(111, "6")], "MaxFloor and TimeInForce can't be changed"),
    ([(1138, "6")], "MaxFloor and TimeInForce can't be changed"),
]
"""What a replace can't change of a bid till cancelled with a peak of 5."""


def test_what_a_replace_keeps(tmp_path: pathlib.Path) -> None:
    port = served.free_port()
    with on(tmp_path, fixing.day_of(port, "ALICE"), port, "ALICE") as (venue, [peer]):
        venue.do("start")
        first = order("a1", "1", "10", (40, "2"), (44, "2.00"), (59, "1"), (1138, "5"))
        assert picked(answer(peer, "D", first), 150, 59, 111) == ("0", "1", "5")
        for number, (other, text) in enumerate(KEPT):
            asked = order(f"b{number}", "1", "20", (40, "2"), (44, "2.10"), (41, "a1"))
            found = answer(peer, "G", changed(asked, other))
            expected = ("9", "XYZ.1", f"b{number}", "a1", "0", "2", "99", text)
            assert picked(found, 35, 37, 11, 41, 39, 434, 102, 58) == expected
        found = answer(peer, "F", [(41, "a1"), (11, "b9"), (55, "XYZ"), (54, "2"), (60, TIME)])
        assert picked(found, 35, 434, 102, 58) == ("9", "1", "99", OTHER_SIDE)
        same = order("c1", "1", "20", (41, "a1"), (40, "2"), (44, "2.10"), (59, "1"), (111, "5"))
        found = answer(peer, "G", same)
        assert picked(found, 150, 38, 44, 59, 111) == ("5", "20", "2.10", "1", "5")
        assert answer(peer, "D", order("d1", "2", "10", (40, "2"), (44, "3.00")))[150] == "0"
        found = answer(peer, "G", order("d2", "2", "9", (41, "d1"), (40, "1")))
        assert picked(found, 150, 40, 44, 38, 59) == ("5", "1", "", "9", "0")


def test_a_replace_below_the_peak(tmp_path: pathlib.Path) -> None:
    """The order keeps its peak, which a new order of as few shares can't have, and its limit."""
    port, limit, peak = served.free_port(), [(40, "2"), (44, "2.00")], [(111, "5")]
    with on(tmp_path, fixing.day_of(port, "ALICE"), port, "ALICE") as (venue, [peer]):
        venue.do("start")
        assert answer(peer, "D", order("a1", "1", "10", *limit, *peak))[150] == "0"
        assert answer(peer, "D", order("x1", "1", "3", *limit, *peak))[150] == "8"
        found = answer(peer, "G", [(41, "a1"), *order("a2", "1", "3", *limit)])
        assert picked(found, 150, 37, 38, 151, 111) == ("5", "XYZ.1", "3", "3", "5")
        found = answer(peer, "G", [(41, "a2"), *order("a3", "1", "4", *limit, *peak)])
        assert picked(found, 150, 37, 38, 151, 111) == ("5", "XYZ.1", "4", "4", "5")
        found = answer(peer, "G", [(41, "a3"), *order("a4", "1", "4", (40, "1"))])
        assert picked(found, 35, 37, 39, 102) == ("9", "XYZ.1", "0", "99")
        found = answer(peer, "G", [(41, "a3"), *order("a5", "1", "10", *limit)])
        assert picked(found, 150, 38, 151, 111) == ("5", "10", "10", "5")


def told_now(peer: Peer) -> list[FixMessage]:
    """What a member is told up to the answer to a look at an order, which comes after all else that
    has happened. Raises TimeoutError.
    """
    before = len(peer.got)
    peer.say("H", [(11, "a1"), (55, "XYZ"), (54, "1")])
    peer.take(lambda it: it.get(150) == "I")
    return peer.got[before:-1]


def test_until_when_orders_are_open(tmp_path: pathlib.Path) -> None:
    """Those for the opening until its uncross, the others until the day is over, at the third."""
    port = served.free_port()
    times = [("", "0"), ("0", "0"), ("1", "1"), ("2", "2"), ("7", "7")]
    with on(tmp_path, fixing.day_of(port, "ALICE"), port, "ALICE") as (venue, [peer]):
        venue.do("start")
        for number, (asked, told) in enumerate(times, 1):
            more = [(59, asked)] if asked else []
            pairs = order(f"a{number}", "1", "10", (40, "2"), (44, "2.00"), *more)
            assert picked(answer(peer, "D", pairs), 17, 150, 59) == (f"XYZ.{number}", "0", told)
        venue.do("uncross")
        ended = told_now(peer)
        venue.do("start")
        venue.do("uncross")
        assert told_now(peer) == []
        venue.do("start")
        venue.do("uncross")
        ended += told_now(peer)
    assert [picked(it, 17, 11, 150, 39, 151, 14, 38) for it in ended] == [
        ("XYZ.6.x4", "a4", "C", "C", "0", "0", "10"),
        ("XYZ.8.x1", "a1", "C", "C", "0", "0", "10"),
        ("XYZ.8.x2", "a2", "C", "C", "0", "0", "10"),
        ("XYZ.8.x3", "a3", "C", "C", "0", "0", "10"),
        ("XYZ.8.x5", "a5", "C", "C", "0", "0", "10"),
    ]
    text = "no order is kept for another day or round"
    assert [it.get(58) for it in ended] == [None, None, None, text, None]


def test_orders_that_are_asked_for(tmp_path: pathlib.Path) -> None:
    """By their last id or one before, by an order that is sent again, and where there is none."""
    port = served.free_port()
    with on(tmp_path, fixing.day_of(port, "ALICE"), port, "ALICE") as (venue, [peer]):
        venue.do("start")
        market = order("a1", "2", "10", (40, "1"))
        of_today = [it for it in market if it[0] != 60] + [(60, fixing.stamp())]
        assert answer(peer, "D", of_today, [(97, "Y")])[17] == "XYZ.1"
        found = answer(peer, "D", market, [(97, "Y")])
        assert picked(found, 17, 37, 150, 39, 151) == ("R.ALICE.3", "XYZ.1", "I", "0", "10")
        peer.cancel("a1", "a2", "2")
        assert peer.take(lambda it: it.get(11) == "a2")[150] == "4"
        for client in ("a1", "a2"):
            found = answer(peer, "H", [(11, client), (55, "XYZ"), (54, "2")])
            assert picked(found, 37, 150, 39, 151) == ("XYZ.1", "I", "4", "0")
        found = answer(peer, "H", [(11, "b1"), (55, "XYZ"), (54, "2"), (790, "s1")])
        expected = ("b1", "NONE", "I", "8", "5", NO_ORDER, "s1")
        assert picked(found, 11, 37, 150, 39, 103, 58, 790) == expected
        found = answer(peer, "AF", [(584, "s1"), (585, "3")])
        assert picked(found, 584, 150, 39, 58) == (
            *("s1", "I", "8", "tag 585 is 1 with a Symbol, or 7 without"),
        )


def test_a_logon_is_given_back(tmp_path: pathlib.Path) -> None:
    """And each side hears the other as often as 108 says."""
    port, folder = served.free_port(), tmp_path / "venue"
    with served.served(tmp_path, fixing.day_of(port, "ALICE")):
        peer = Peer(port, "ALICE")
        peer.connect()
        password = fixing.token_of(folder, "ALICE")
        more = [(553, "me"), (789, "99"), (383, "4096"), (464, "N")]
        peer.say("A", [(98, "0"), (108, "1"), (554, password), *more], [(369, "7")])
        found = peer.take(lambda it: it[35] == "A")
        assert picked(found, 49, 56, 98, 108) == ("VENUE", "ALICE", "0", "1")
        assert 554 not in found and 8013 not in found
        assert peer.take(lambda it: it[35] in "01", 20.0)[49] == "VENUE"


def test_instruments_and_the_market_by_name(tmp_path: pathlib.Path) -> None:
    port = served.free_port()
    with on(tmp_path, fixing.day_of(port, "ALICE"), port, "ALICE") as (venue, [peer]):
        found = answer(peer, "x", [(320, "l1"), (559, "0"), (55, "XYZ")])
        assert picked(found, 320, 322, 560, 393, 146, 55) == (
            *("l1", "R.ALICE.2", "0", "1", "1", "XYZ"),
        )
        ask_data(peer, "d1", "1", (265, "1"))
        found = peer.take(lambda it: it[35] == "W")
        assert picked(found, 262, 55, 268, 269) == ("d1", "XYZ", "1", "J")
        venue.do("start")
        peer.enter("a1", "1", 10, "2.00")
        found = peer.take(lambda it: it[35] == "X")
        assert picked(found, 262, 268, 279, 269, 55, 270) == ("d1", "1", "0", "0", "XYZ", "2.00")
        ask_data(peer, "d1", "2")
        peer.enter("a2", "1", 10, "2.01")
        assert [it[35] for it in peer.all() if it[35] in "WX"] == []
        ask_data(peer, "d2", "0")
        assert rows(peer, "W") == [{269: "0", 270: "2.01"}]
        found = answer(peer, "V", changed(whole("V"), [(265, "2")]))
        assert picked(found, 35, 262, 281) == ("Y", "n1", "6") and found[58]


def phase_said(halted: str, is_seen: bool) -> dict[int, str]:
    """What is said of the phase of a board in a call that ends, where this has halted."""
    state = types.SimpleNamespace(phase=Phase.CALL, auction="closing", frozen=None, ends=0.0)
    board = types.SimpleNamespace(
        auctions=types.SimpleNamespace(state=state),
        engine=types.SimpleNamespace(halted=halted if halted == "the board" else None),
        identity=types.SimpleNamespace(instrument="XYZ"),
        looks=types.SimpleNamespace(is_seen=is_seen),
    )
    halts = types.SimpleNamespace(halted=halted if halted == "the venue" else None)
    venue = types.SimpleNamespace(halts=halts)
    return dict(phase_of(cast(Any, venue), cast(Any, board)))


@pytest.mark.parametrize("halted", ["the board", "the venue"])
def test_the_phase_of_what_is_halted(halted: str) -> None:
    """TradSesStatus 1: halted."""
    ends = {345: "19700101-00:00:00"}
    assert phase_said(halted, True) == {336: "XYZ", 625: "4", 340: "1", 58: "halted"} | ends
    assert phase_said(halted, False) == {336: "XYZ", 340: "1", 58: "halted"}


def test_the_phase_of_what_isnt_known_yet() -> None:
    """TradSesStatus 0: unknown; neither an auction nor an end is told."""
    assert phase_said("nothing", False) == {336: "XYZ", 340: "0", 58: "unknown"}
    assert phase_said("nothing", True).items() >= {625: "4", 340: "2", 58: "call"}.items()


def test_what_is_sent_again(tmp_path: pathlib.Path) -> None:
    """Reports and lists, with 43=Y; in place of what a market and a phase were a gap comes."""
    port = served.free_port()
    with on(tmp_path, fixing.day_of(port, "ALICE"), port, "ALICE") as (venue, [peer]):
        venue.do("start")
        assert answer(peer, "D", order("a1", "1", "10", (40, "1")))[34] == "2"
        for kind, told, number in (("V", "W", "3"), ("g", "h", "4"), ("x", "y", "5")):
            assert picked(answer(peer, kind, whole(kind)), 35, 34) == (told, number)
        peer.say("2", [(7, "1"), (16, "0")])
        peer.socket.settimeout(fixing.SECONDS)
        found = [dict(fixing.parsed(peer.whole())) for _ in range(4)]
        assert [picked(it, 35, 34, 43, 36, 17, 322) for it in found] == [
            ("4", "1", "Y", "2", "", ""),
            ("8", "2", "Y", "", "XYZ.1", ""),
            ("4", "3", "Y", "5", "", ""),
            ("y", "5", "Y", "", "", "R.ALICE.5"),
        ]


def test_a_gap_in_place_of_a_mass_cancel(tmp_path: pathlib.Path) -> None:
    """It is in the log and no order was cancelled before all was killed; the client fills the gap:
    the report says that nothing was done, and the order is open.
    """
    port, folder = served.free_port(), tmp_path / "venue"
    with killable(tmp_path, fixing.day_of(port, "ALICE")) as day:
        peer = Peer(port, "ALICE")
        peer.logon(fixing.token_of(folder, "ALICE"))
        assert answer(peer, "D", order("a1", "1", "10", (40, "1")))[17] == "XYZ.1"
        [program] = psutil.Process(day.venue.child.pid).children()
        program.suspend()
        peer.say("q", [(11, "c1"), (530, "7"), (60, TIME)])
        until_logged(folder, '"7 c1"')
        day.venue.child.kill()
        program.kill()
        day.again()
        peer.sent = {number: ("0", []) for number in peer.sent}
        peer.logon(fixing.token_of(folder, "ALICE"))
        [found] = peer.all()
        expected = ("r", "R.ALICE.3", "c1", "7", "0", "99", "0", NOT_DONE)
        assert picked(found, 35, 37, 11, 530, 531, 532, 533, 58) == expected
        found = answer(peer, "H", [(11, "a1"), (55, "XYZ"), (54, "1")])
        assert picked(found, 150, 39, 151) == ("I", "0", "10")

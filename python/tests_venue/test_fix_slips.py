"""What a client is answered whose messages break the rules of a session: heads that lack a tag,
numbers that are none, times, ids, gaps and groups that can't be. What is expected is from the
standard's session protocol and its table of tests.
"""
import pathlib
import time

import fixing
import pytest
from acceptors import NONE, ORDER, TIME, Heads, Speaker, refusal
from fixing import SOH, FixFields, FixMessage

KINDS: dict[str, FixFields] = {
    "D": ORDER,
    "0": [],
    "1": [(112, "here")],
    "2": [(7, "1"), (16, "0")],
    "5": [],
    "ZZ": [(58, "text")],
}
"""Messages of a member and of the session, and one of a type that there isn't."""


REPORT: FixFields = [(37, "1"), (17, "x"), (150, "0"), (39, "0"), (55, "XYZ"), (54, "1")]
REPORT += [(151, "0"), (14, "0"), (6, "0")]
OF_VENUE: dict[str, FixFields] = {
    "8": REPORT,
    "9": [(37, "1"), (11, "x"), (41, "y"), (39, "0"), (434, "1"), (102, "1")],
    "j": [(45, "1"), (372, "8"), (380, "0")],
}
"""Messages of types that the venue sends."""


@pytest.mark.parametrize("kind", OF_VENUE)
@pytest.mark.parametrize("value", ["yesterday", "20261126", "20261326-09:00:00", "9" * 40])
def test_a_time_that_is_none(tmp_path: pathlib.Path, begin: str, kind: str, value: str) -> None:
    """It is refused as in each other message, and the session goes on."""
    speaker = Speaker(tmp_path, begin)
    found = [refusal(speaker.say(it, OF_VENUE.get(it, ORDER), {52: value})) for it in ("D", kind)]
    assert found == [("2", "D", "52", "6"), ("3", kind, "52", "6")]
    assert not speaker.is_closed and speaker.is_heard()


def test_a_type_without_a_value(tmp_path: pathlib.Path, begin: str) -> None:
    """It is refused as each other tag without one: no refusal of the type could name it."""
    speaker = Speaker(tmp_path, begin)
    assert refusal(speaker.say("", ORDER)) == ("2", "", "35", "4")
    assert refusal(speaker.say("", ORDER, {43: "Y", 122: TIME})) == ("3", "", "35", "4")
    assert not speaker.is_closed and speaker.is_heard()


@pytest.mark.parametrize("kind, pairs, heads", [
    ("D", ORDER, {}),
    ("D", [*ORDER, (9999, "x")], {}),
    ("D", ORDER[1:], {}),
    ("8", [], {}),
    ("ZZ", [(58, "text")], {}),
    ("", ORDER, {}),
    ("D", ORDER, {52: NONE}),
])
def test_a_number_that_is_too_low(
    tmp_path: pathlib.Path, begin: str, kind: str, pairs: FixFields, heads: Heads
) -> None:
    """It ends the session, whatever else is wrong: no refusal can say which message it is of."""
    speaker = Speaker(tmp_path, begin)
    speaker.number = 1
    [found] = speaker.say(kind, pairs, heads)
    assert (found[35], speaker.is_closed, speaker.expected) == ("5", True, 2)
    assert found[58].startswith("MsgSeqNum too low, expecting 2 but received 1")


def test_what_comes_after_a_logout(tmp_path: pathlib.Path, begin: str) -> None:
    """More than a message ends the connection, and the log says so, once."""
    speaker = Speaker(tmp_path, begin)
    speaker.engine.feed(speaker.connection, speaker.written("5", []))
    for _ in range(3):
        speaker.engine.feed(speaker.connection, b"x" * 65536)
    ends = [text for _, _, text in speaker.engine.events() if b" is ended: " in text]
    assert ends == [b"a connection is ended: more than a message came after a Logout"]
    assert speaker.heard() == [] and speaker.is_closed


# ---- Logons


@pytest.mark.parametrize("beats", ["-5", "2147483648", "99999999999999999999"])
def test_heartbeats_that_can_not_be(tmp_path: pathlib.Path, begin: str, beats: str) -> None:
    """The Logout says what may be; then a right Logon is taken under the same number."""
    speaker = Speaker(tmp_path, begin, beats)
    [found] = speaker.begun
    assert (found[35], found[34], speaker.is_closed) == ("5", "1", True)
    text = "and may be from 0 (no heartbeats) to 999999999 seconds"
    assert found[58] == f"HeartBtInt (108) is {beats}, {text}"
    speaker.number = 1
    [found] = speaker.connect("30")
    assert (found[35], found[34], found[108]) == ("A", "2", "30")


@pytest.mark.parametrize("beats", ["0", "1", "0030", "86400", "999999999"])
def test_heartbeats_that_may_be(tmp_path: pathlib.Path, begin: str, beats: str) -> None:
    speaker = Speaker(tmp_path, begin, beats)
    [found] = speaker.begun
    assert (found[35], found[108]) == ("A", beats)
    speaker.engine.tick()
    assert [it[35] for it in speaker.heard()] == [] and speaker.is_heard()


@pytest.mark.parametrize(
    "tag, value, text",
    [
        (34, NONE, "Required tag missing: 34"),
        (52, NONE, "Required tag missing: 52"),
        (34, "4294967297", "Incorrect data format for value: 4294967297: 34"),
        (34, "-1", "Incorrect data format for value: -1: 34"),
    ],
)
def test_a_logon_s_head(
    tmp_path: pathlib.Path, begin: str, tag: int, value: str, text: str
) -> None:
    speaker = Speaker(tmp_path, begin)
    speaker.engine.lost(speaker.connection)
    [found] = speaker.connect("30", {tag: value})
    assert (found[35], found[58], speaker.is_closed) == ("5", text, True)
    assert speaker.expected == 2


# ---- heads


@pytest.mark.parametrize("value", [NONE, "", "x", "-1", "2.0", "4294967298", f"{2:05000}"])
@pytest.mark.parametrize("kind", KINDS)
def test_a_message_without_a_number(
    tmp_path: pathlib.Path, begin: str, kind: str, value: str
) -> None:
    """A Logout says so and the connection ends: nothing of it is done or counted."""
    speaker = Speaker(tmp_path, begin)
    [found] = speaker.say(kind, KINDS[kind], {34: value})
    told = "is missing" if value in ("", NONE) else f"can't be {value}"
    assert (found[35], found[58]) == ("5", f"MsgSeqNum (34) {told}")
    assert (speaker.is_closed, speaker.expected, speaker.engine.said()) == (True, 2, [])


@pytest.mark.parametrize("tag", [49, 52, 56])
@pytest.mark.parametrize("kind", KINDS)
def test_a_head_that_lacks_a_tag(
    tmp_path: pathlib.Path, begin: str, kind: str, tag: int
) -> None:
    """A Reject of the session, also for a member's message; the next one is taken."""
    speaker = Speaker(tmp_path, begin)
    assert refusal(speaker.say(kind, KINDS[kind], {tag: NONE})) == ("2", kind, str(tag), "1")
    assert (speaker.engine.said(), speaker.expected) == ([], 3)
    assert speaker.is_heard()


def test_what_is_garbled_is_passed_over(tmp_path: pathlib.Path, begin: str) -> None:
    """Also where its head lacks a tag."""
    speaker = Speaker(tmp_path, begin)
    for heads in ({34: NONE}, {52: NONE}, {43: "Y"}):
        whole = speaker.written("D", ORDER, heads)
        for spoiled in (whole[:-4] + b"%03d" % ((int(whole[-4:-1]) + 1) % 256) + SOH,):
            speaker.engine.feed(speaker.connection, spoiled)
            assert (speaker.heard(), speaker.is_closed, speaker.expected) == ([], False, 2)
    assert speaker.is_heard()


WRONG_IDS = "SenderCompID (49) or TargetCompID (56) isn't this session's"
WRONG_TIME = "SendingTime (52) isn't the time, or is before OrigSendingTime (122)"


@pytest.mark.parametrize(
    "heads, tag, reason, text",
    [
        ({49: "EVE"}, "49", "9", WRONG_IDS),
        ({56: "EVE"}, "56", "9", WRONG_IDS),
        ({52: "20200101-00:00:00"}, "52", "10", WRONG_TIME),
        ({34: "1", 43: "Y", 122: "20991231-00:00:00"}, "122", "10", WRONG_TIME),
    ],
)
def test_a_logout_says_why(
    tmp_path: pathlib.Path, begin: str, heads: Heads, tag: str, reason: str, text: str
) -> None:
    """After the Reject, which names the tag; who doesn't answer it is ended soon, also without
    heartbeats.
    """
    speaker = Speaker(tmp_path, begin, "0")
    reject, logout = speaker.say("D", ORDER, heads)
    assert refusal([reject]) == (heads.get(34, "2"), "D", tag, reason)
    assert (logout[35], logout[58]) == ("5", text)
    for _ in range(4):
        assert not speaker.is_closed
        speaker.engine.tick()
        speaker.heard()
    assert speaker.is_closed


@pytest.mark.parametrize("heads", [{52: "20200101-00:00:00"}, {49: "EVE"}])
@pytest.mark.parametrize("said", [("D", ORDER), ("5", [])])
@pytest.mark.parametrize("number, expected", [("3", 4), ("9", 3)])
def test_a_logout_that_is_wrong_as_what_came_before(
    tmp_path: pathlib.Path,
    begin: str,
    heads: Heads,
    said: tuple[str, FixFields],
    number: str,
    expected: int,
) -> None:
    """A client whose clock was set answers each Logout by one: there is one Reject, one Logout, and
    the connection ends by its answer, which counts in its turn.
    """
    speaker = Speaker(tmp_path, begin)
    assert [it[35] for it in speaker.say(*said, heads)] == ["3", "5"]
    assert not speaker.is_closed
    assert speaker.say("5", [], heads | {34: number}) == []
    assert (speaker.is_closed, speaker.expected) == (True, expected)
    [end] = [it for _, _, it in speaker.engine.events() if b" is ended: " in it]
    assert end.endswith(b"its Logout has another time (52) or other CompIDs (49, 56)")
    speaker.number = expected
    assert [it[35] for it in speaker.connect("30")] == ["A"]


# ---- ends and refusals of a client that don't come in their turn


@pytest.mark.parametrize("kind, pairs", [("5", []), ("3", [(45, "1"), (58, "text")])])
def test_what_is_missing_before_an_end_or_a_refusal_is_expected_on(
    tmp_path: pathlib.Path, begin: str, kind: str, pairs: FixFields
) -> None:
    """By the standard the number that is expected is that of the first message that is missing,
    whatever came after it: the next Logon has it asked for.
    """
    speaker = Speaker(tmp_path, begin)
    speaker.say(kind, pairs, {34: "4"})
    assert (speaker.expected, speaker.is_closed) == (2, kind == "5")
    speaker.engine.lost(speaker.connection)
    speaker.number = 5
    logon, asked = speaker.connect("30")
    assert (logon[35], asked[35], asked[7], asked[16]) == ("A", "2", "2", "0")
    speaker.number = 2
    assert speaker.say("D", ORDER, {43: "Y", 122: TIME}) == []
    [(_, given, _)] = speaker.engine.said()
    assert (given[11], speaker.expected) == ("a1", 3)


@pytest.mark.parametrize("kind, pairs", [("5", []), ("3", [(45, "1"), (58, "text")])])
def test_an_end_or_a_refusal_in_its_turn_counts(
    tmp_path: pathlib.Path, begin: str, kind: str, pairs: FixFields
) -> None:
    speaker = Speaker(tmp_path, begin)
    speaker.say(kind, pairs)
    assert speaker.expected == 3


def test_numbers_that_are_lost(tmp_path: pathlib.Path, begin: str) -> None:
    """The Logout begins as clients know it, and says what to do."""
    speaker = Speaker(tmp_path, begin)
    assert speaker.is_heard()
    speaker.engine.lost(speaker.connection)
    speaker.number = 1
    [found] = speaker.connect("30")
    assert (found[35], speaker.is_closed, speaker.expected) == ("5", True, 3)
    first, _, remedy = found[58].partition("; ")
    assert first == "MsgSeqNum too low, expecting 3 but received 1"
    assert remedy.startswith("where yours are lost, the venue's operator resets the session")


def test_an_end_that_came_before_counts_once(tmp_path: pathlib.Path, begin: str) -> None:
    """The number of the next message isn't too low then."""
    speaker = Speaker(tmp_path, begin)
    assert speaker.is_heard()
    [found] = speaker.say("5", [], {34: "2"})
    assert (found[35], speaker.is_closed, speaker.expected) == ("5", True, 3)


# ---- what is sent again


def test_what_is_sent_again_says_when_it_was_first(tmp_path: pathlib.Path, begin: str) -> None:
    speaker, now = Speaker(tmp_path, begin), time.gmtime()
    late = f"{time.strftime('%Y%m%d', now)}-23:59:59"
    cases: list[tuple[Heads, tuple[str, ...] | None]] = [
        ({43: "Y"}, ("122", "1")),
        ({43: "Y", 122: "20991231-00:00:00"}, ("122", "10")),
        ({43: "Y", 122: "x"}, ("122", "6")),
        ({43: "Y", 122: "20201231-00:00:00.123"}, None),
        ({43: "N"}, None),
        ({122: late}, None),
    ]
    for heads, expected in cases:
        number = str(speaker.number)
        found = speaker.say("D", ORDER, heads)
        if expected is None:
            assert found == [] and len(speaker.engine.said()) == 1, heads
        else:
            assert refusal(found) == (number, "D", *expected), heads
            assert speaker.engine.said() == []
    assert speaker.is_heard()


def test_what_is_sent_again_in_the_same_second(tmp_path: pathlib.Path, begin: str) -> None:
    """The one time is to a millisecond, the other to a second."""
    speaker, second = Speaker(tmp_path, begin), fixing.stamp()[:17]
    assert speaker.say("D", ORDER, {43: "Y", 52: second, 122: f"{second}.999"}) == []
    assert len(speaker.engine.said()) == 1


def later(seconds: int) -> str:
    """The time in so many seconds as FIX has it."""
    return time.strftime("%Y%m%d-%H:%M:%S", time.gmtime(time.time() + seconds))


def test_what_is_sent_again_after_a_clock_was_set_back(tmp_path: pathlib.Path, begin: str) -> None:
    """It was sent first by the clock as it was then, which has shown no later times than that of
    what was sent in an earlier run; what comes twice ends no session.
    """
    speaker, first = Speaker(tmp_path, begin), later(3500)
    before = speaker.written("8", REPORT, {34: "1", 52: later(3600), 49: "VENUE", 56: "SLIPS"})
    speaker.engine.restore(speaker.session, 1, before)
    assert speaker.say("D", ORDER, {43: "Y", 122: first}) == []
    [(_, given, _)] = speaker.engine.said()
    assert (given[11], given[122], speaker.expected) == ("a1", first, 3)
    assert speaker.say("D", ORDER, {34: "2", 43: "Y", 122: first}) == []
    assert (speaker.engine.said(), speaker.is_closed, speaker.expected) == ([], False, 3)
    speaker.number = 3
    found = speaker.say("D", ORDER, {43: "Y", 122: later(7200)})
    assert refusal(found) == ("3", "D", "122", "10")
    [again] = speaker.say("2", [(7, "1"), (16, "1")])
    assert (again[34], again[43], again[17]) == ("1", "Y", "x")
    assert again[52] < later(60) < again[122]
    assert speaker.is_heard()


def test_a_gap_needs_no_first_time(tmp_path: pathlib.Path, begin: str) -> None:
    speaker = Speaker(tmp_path, begin)
    assert speaker.say("4", [(123, "Y"), (36, "7")], {43: "Y"}) == []
    assert speaker.expected == 7


@pytest.mark.parametrize(
    "pairs",
    [
        [(123, "Y"), (36, "1")],
        [(123, "Y"), (36, "2")],
        [(36, "1")],
        [(123, "Y"), (36, "4294967303")],
        [(123, "Y"), (36, f"{7:05000}")],
    ],
)
def test_a_gap_that_can_not_be(tmp_path: pathlib.Path, begin: str, pairs: FixFields) -> None:
    """Back, of no length, or too far to count."""
    speaker = Speaker(tmp_path, begin)
    assert refusal(speaker.say("4", pairs)) == ("2", "4", "36", "5")
    assert (speaker.expected, speaker.engine.said()) == (2, [])
    speaker.number = 2
    assert speaker.is_heard()


def test_a_reset_to_the_number_that_is_expected(tmp_path: pathlib.Path, begin: str) -> None:
    speaker = Speaker(tmp_path, begin)
    assert speaker.say("4", [(36, "2")]) == [] and speaker.expected == 2


# ---- groups


@pytest.mark.parametrize(
    "pairs, tag",
    [
        ([(267, "0"), (146, "1"), (55, "XYZ")], "267"),
        ([(267, "1"), (269, "Q"), (146, "0")], "146"),
        ([(267, "00"), (146, "0")], "267"),
    ],
)
def test_a_group_without_a_row(
    tmp_path: pathlib.Path, begin: str, pairs: FixFields, tag: str
) -> None:
    """By the standard a NumInGroup is positive."""
    speaker = Speaker(tmp_path, begin)
    found = speaker.say("V", [(262, "d1"), (263, "1"), (264, "1"), *pairs])
    assert refusal(found) == ("2", "V", tag, "5")
    assert speaker.engine.said() == [] and speaker.is_heard()


# ---- tags that are none, and what is out of its turn


@pytest.mark.parametrize("tag", ["4294967334", "0000000038", "1000000000", "038"])
def test_a_tag_that_is_none(tmp_path: pathlib.Path, begin: str, tag: str) -> None:
    """It is refused, and isn't taken for another one."""
    speaker = Speaker(tmp_path, begin)
    more = {38: NONE, tag: "5"}
    number = speaker.number
    refused = (str(number), "D", "", "0")
    assert refusal(speaker.say("D", [it for it in ORDER if it[0] != 38], more)) == refused
    assert refusal(speaker.say("D", ORDER, {tag: "5"}))[1:] == refused[1:]
    assert speaker.engine.said() == [] and speaker.is_heard()


@pytest.mark.parametrize("tag", ["38x", "+38", "-38", " 38", ""])
def test_a_tag_without_a_number(tmp_path: pathlib.Path, begin: str, tag: str) -> None:
    speaker = Speaker(tmp_path, begin)
    found = speaker.say("D", [it for it in ORDER if it[0] != 38], {tag: "5"})
    assert refusal(found) == ("2", "D", "", "0")
    assert speaker.engine.said() == [] and speaker.is_heard()


def test_a_logon_s_password_has_its_tag(tmp_path: pathlib.Path, begin: str) -> None:
    speaker = Speaker(tmp_path, begin)
    speaker.engine.lost(speaker.connection)
    speaker.connection = speaker.engine.connect()
    logon = speaker.written("A", [(98, "0"), (108, "30")], {2**32 + 554: "any"})
    speaker.engine.feed(speaker.connection, logon)
    assert speaker.heard() == [] and speaker.is_closed


WRONG: dict[str, Heads] = {
    "a tag": {9999: "x"},
    "no tag": {2**32 + 38: "5"},
    "no number": {"x": "1"},
    "data": {354: "9", 355: "abc"},
    "a head": {49: NONE},
    "a value": {60: "yesterday"},
    "a type": {35: "ZZ"},
}


@pytest.mark.parametrize("wrong", WRONG)
def test_what_is_wrong_ahead_of_a_gap(tmp_path: pathlib.Path, begin: str, wrong: str) -> None:
    """What is before it is asked for at once; then it is refused in its turn, once, however often
    it comes again, and what came after it is taken once.
    """
    speaker, heads = Speaker(tmp_path, begin), WRONG[wrong]
    pairs = [it for it in ORDER if it[0] not in heads]
    speaker.number = 4
    [asked] = speaker.say("D", pairs, heads)
    assert (asked[35], asked[7], asked[16]) == ("2", "2", "0")
    assert speaker.say("D", ORDER) == []  # asked for already
    again = {43: "Y", 122: fixing.stamp()}
    kinds = {2: ORDER, 3: ORDER, 4: pairs, 5: ORDER}
    answers: list[FixMessage] = []
    for number in (2, 3, 4, 5, 4, 3):
        speaker.number = number
        answers += speaker.say("D", kinds[number], again | (heads if number == 4 else {}))
    [found] = answers
    assert found[35] in "3j" and found[45] == "4"
    assert [it[1][34] for it in speaker.engine.said()] == ["2", "3", "5"]
    speaker.number = 6
    assert speaker.expected == 6 and speaker.is_heard()

"""Messages with data, whose lengths are said before them, and messages that can't be read. What is
expected is from the standard: data may have any bytes, also the end of a field; what is wrong in a
message with a right length and sum is refused, and the next one is expected.
"""
import pathlib

import fixing
import pytest
import served
from acceptors import ORDER, Speaker, refusal
from fix_venues import on
from fixing import SOH, Closed, FixFields

DATA = ["abc", "\x01", "a\x01b", "a\x0158=b", "a\x0135=5\x0134=9", "a\x0110=123\x01", "=\x01="]
"""Data, most with the end of a field."""
TAKEN = [(354, 355), (93, 89)]
"""The tags of data, and before them of their length, that change nothing in an order."""
OTHERS = [(90, 91), (95, 96), (212, 213), (348, 349), (618, 619), (1401, 1402), (1468, 1469)]
"""Those that orders haven't."""
NO_TAGS = [b"x=1", b" 58=x", b"58 =x", b"58", b"=5", b"", b"-1=5", b"+58=x", b"058=x", b"58x=y"]
"""What has no tag."""
WRONG_TAG = "a tag is no number of at most 9 digits"


def with_raw(speaker: Speaker, kind: str, pairs: FixFields, raw: bytes) -> bytes:
    """The bytes of a message, with these at its end as a field."""
    begin, _, rest = speaker.written(kind, pairs).split(SOH, 2)
    body = rest[: -len("10=000|")] + raw + SOH
    text = begin + SOH + b"9=%d" % len(body) + SOH + body
    return text + b"10=%03d" % (sum(text) % 256) + SOH


def data_of(tags: tuple[int, int], data: str) -> FixFields:
    """Data after their length."""
    return [(tags[0], str(len(data))), (tags[1], data)]


@pytest.mark.parametrize("tags", TAKEN)
def test_data_that_change_nothing(
    tmp_path: pathlib.Path, begin: str, tags: tuple[int, int]
) -> None:
    """The order is taken, whatever they are, and nothing in them for a field."""
    speaker = Speaker(tmp_path, begin)
    for data in DATA:
        number = speaker.number
        assert speaker.say("D", [*ORDER, *data_of(tags, data)]) == [], data
        [(_, given, _)] = speaker.engine.said()
        assert (given[11], given[34], given.get(58)) == ("a1", str(number), None)
    assert speaker.is_heard()


@pytest.mark.parametrize("tags", OTHERS)
def test_data_that_orders_have_not(
    tmp_path: pathlib.Path, begin: str, tags: tuple[int, int]
) -> None:
    """They are refused as each other tag, by that of their length."""
    speaker = Speaker(tmp_path, begin)
    for data in DATA:
        number = speaker.number
        found = refusal(speaker.say("D", ORDER, dict(data_of(tags, data))))
        assert found == (str(number), "D", str(tags[0]), "2"), data
    assert speaker.engine.said() == [] and speaker.is_heard()


@pytest.mark.parametrize("length", ["2", "4", "500", "-1", "x", "", "4294967299"])
@pytest.mark.parametrize("data", ["abc", "a\x01b", "a\x01b=c\x0111=a9"])
def test_data_of_another_length(
    tmp_path: pathlib.Path, begin: str, length: str, data: str
) -> None:
    """The message is refused, and the session goes on."""
    speaker = Speaker(tmp_path, begin)
    found = speaker.say("D", [*ORDER, (354, length), (355, data)])
    assert refusal(found) == ("2", "D", "354", "5")
    assert speaker.engine.said() == [] and speaker.is_heard()


def test_lengths_that_are_of_nothing(tmp_path: pathlib.Path, begin: str) -> None:
    """Nothing is read by them."""
    speaker = Speaker(tmp_path, begin)
    for more in ([(354, "500"), (58, "x"), (355, "abc")], [(355, "abc")], [(354, "9")]):
        assert speaker.say("D", [*ORDER, *more]) == []
        [(_, given, _)] = speaker.engine.said()
        assert given[11] == "a1"
    assert speaker.is_heard()


@pytest.mark.parametrize("raw", NO_TAGS)
def test_a_field_without_a_tag(tmp_path: pathlib.Path, begin: str, raw: bytes) -> None:
    """The message is refused, under its number, and the session goes on."""
    speaker = Speaker(tmp_path, begin)
    speaker.engine.feed(speaker.connection, with_raw(speaker, "D", ORDER, raw))
    speaker.number += 1
    assert refusal(speaker.heard()) == ("2", "D", "", "0")
    assert speaker.engine.said() == [] and speaker.is_heard()


@pytest.mark.parametrize("raw, tag", [(b"8=FIX.4.4", "8"), (b"9=5", "9"), (b"10=123", "10")])
def test_a_field_that_is_around_a_message(
    tmp_path: pathlib.Path, begin: str, raw: bytes, tag: str
) -> None:
    """Once more in it."""
    speaker = Speaker(tmp_path, begin)
    for more in (b"", b"\x01x=1"):
        number = speaker.number
        whole = with_raw(speaker, "D", ORDER, raw + more + b"\x0158=x")
        speaker.engine.feed(speaker.connection, whole)
        speaker.number += 1
        assert refusal(speaker.heard()) == (str(number), "D", tag, "13")
    assert speaker.engine.said() == [] and speaker.is_heard()


@pytest.mark.parametrize("raw", [b"354=3|355=a\x01b", b"354=9|355=abc", b"x=1"])
def test_what_can_not_be_read_and_is_garbled(
    tmp_path: pathlib.Path, begin: str, raw: bytes
) -> None:
    """Nothing is said of it, as of all that is garbled, and it is missing then."""
    speaker = Speaker(tmp_path, begin)
    whole = with_raw(speaker, "D", ORDER, raw.replace(b"|", SOH))
    speaker.engine.feed(speaker.connection, whole[:-4] + b"%03d" % (int(whole[-4:-1]) ^ 1) + SOH)
    assert (speaker.heard(), speaker.is_closed, speaker.expected) == ([], False, 2)
    assert speaker.is_heard()


# ---- Logons


def test_a_logon_with_data(tmp_path: pathlib.Path, begin: str) -> None:
    speaker = Speaker(tmp_path, begin)
    for data in DATA:
        speaker.engine.lost(speaker.connection)
        raw = "\x01".join(f"{tag}={it}" for tag, it in data_of((95, 96), data)).encode()
        speaker.connection, speaker.is_closed = speaker.engine.connect(), False
        speaker.engine.feed(speaker.connection, with_raw(speaker, "A", logon_of(speaker), raw))
        speaker.number += 1
        [found] = speaker.heard()
        assert found[35] == "A"
    assert speaker.is_heard()


@pytest.mark.parametrize(
    "raw, text",
    [
        (b"x=1", WRONG_TAG),
        (b"58", WRONG_TAG),
        (b"10=1|58=x", "Tag appears more than once: 10"),
        (b"95=9|96=abc", "Value is incorrect (out of range) for this tag: 95"),
        (b"95=2|96=a\x01b", "Value is incorrect (out of range) for this tag: 95"),
    ],
)
def test_a_logon_that_can_not_be_read(
    tmp_path: pathlib.Path, begin: str, raw: bytes, text: str
) -> None:
    """A Logout says why to who has the password; then a right Logon is taken."""
    speaker = Speaker(tmp_path, begin)
    raw = raw.replace(b"|", SOH)
    for pairs, answers in ((logon_of(speaker), [("5", text)]), (logon_of(speaker)[:-1], [])):
        speaker.engine.lost(speaker.connection)
        speaker.connection, speaker.is_closed = speaker.engine.connect(), False
        speaker.engine.feed(speaker.connection, with_raw(speaker, "A", pairs, raw))
        assert [(it[35], it[58]) for it in speaker.heard()] == answers
        assert (speaker.is_closed, speaker.expected) == (True, 2)
    [found] = speaker.connect("30")
    assert found[35] == "A"


def logon_of(speaker: Speaker) -> FixFields:
    """A Logon, its password last."""
    more = [] if speaker.begin == "FIX.4.4" else [(1137, "9")]
    return [(98, "0"), (108, "30"), *more, (554, "any")]


# ---- at a venue


def test_an_order_with_data(tmp_path: pathlib.Path) -> None:
    """It is entered; a Logout that can't be read is refused, and the next one is answered."""
    port = served.free_port()
    with on(tmp_path, fixing.day_of(port, "ALICE"), port, "ALICE") as (venue, [alice]):
        venue.do("start")
        alice.enter("a1", "1", 10, "2.00", *data_of((354, 355), "a\x01b"))
        assert alice.take(lambda it: it.get(11) == "a1")[150] == "0"
        alice.say("5", [(354, "9"), (355, "abc")])
        found = alice.take(lambda it: it[35] == "3")
        assert (found[371], found[372], found[373]) == ("354", "5", "5")
        alice.say("5", [])
        assert alice.take(lambda it: it[35] == "5")
        with pytest.raises(Closed):
            alice.all()

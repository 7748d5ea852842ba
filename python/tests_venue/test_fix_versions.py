"""FIX 5.0SP2 over FIXT.1.1: the same day in another version; and the dictionaries, which are parts
of the standard as the headers of QuickFIX have it.
"""
import pathlib
import re
import subprocess
import sys
from xml.etree import ElementTree

import fixing
import pytest
import served
from acceptors import ORDER, Speaker, refusal
from callauction.fix import dictionaries
from callauction.fix._quickfix import Engine
from callauction.fix.build import QUICKFIX
from callauction.fix.feeds import snapshot
from callauction.fix.settings import settings_of
from callauction.fix.tags import FIX44, FIXT
from fix_clients import DICTIONARIES, SETTINGS, Initiator, NewPeer, new_day
from fix_venues import reset
from fixing import FixFields, Peer

FIELD = re.compile(r"FIELD_SET\(\*this, FIX::(\w+)\)")
OTHERS = {
    *("VenueEventID", "TrdMatchID", "DisplayQty"),
    *("MinPriceIncrement", "LowLimitPrice", "HighLimitPrice"),
}
"""Fields that the standard hasn't in these messages, as docs/made/FIX_MESSAGES.md says."""
PASSED_OVER = {
    *("HandlInst", "ExDestination", "OrderCapacity", "AccountType"),
    *("Text", "EncodedTextLen", "EncodedText"),
}
"""Fields that clients repeat where the standard hasn't them, and that change nothing."""


def test_a_member_takes_another_version(tmp_path: pathlib.Path) -> None:
    """Its numbers go on; once its session is reset, its messages are none that had the same ones in
    a session of the other version.
    """
    port, folder = served.free_port(), tmp_path / "venue"
    with served.served(tmp_path, fixing.day_of(port, "ALICE")) as venue:
        venue.do("start")
        token = fixing.token_of(folder, "ALICE")
        for client, number in (("a1", 2), ("a2", 3)):  # 2 asks for what comes again
            peer = Peer(port, "ALICE")
            peer.logon(token)
            assert peer.enter(client, "1", 10, "2.00") == number
            assert peer.take(lambda it: it.get(11) == client)[150] == "0"
            if client == "a1":
                assert reset(venue, "ALICE")[0] == 200
    newer = fixing.day_of(port, "ALICE").replace("[fix.s", 'fix50 = ["ALICE"]\n[fix.s')
    with served.served(tmp_path, newer) as venue:
        assert reset(venue, "ALICE")[0] == 200
        peer = NewPeer(port, "ALICE")
        peer.logon(token, (1137, "9"))
        assert peer.enter("a3", "1", 10, "2.00") == 3
        found = peer.take(lambda it: it.get(11) == "a3")
        assert (found[150], found[37]) == ("0", "XYZ.3")


def test_two_versions_trade_with_each_other(tmp_path: pathlib.Path) -> None:
    port, folder = served.free_port(), tmp_path / "venue"
    alice, bob, copy = NewPeer(port, "ALICE"), Peer(port, "BOB"), NewPeer(port, "COPY")
    with served.served(tmp_path, new_day(port)) as venue:
        hello = alice.logon(fixing.token_of(folder, "ALICE"), (1137, "9"))
        assert (hello[8], hello[1137]) == ("FIXT.1.1", "9")
        bob.logon(fixing.token_of(folder, "BOB"))
        copy.logon(venue.operator, (1137, "9"))
        venue.do("start")
        alice.enter("a1", "1", 500, "2.00", (1138, "100"))
        found = alice.take(lambda it: it.get(11) == "a1")
        assert (found[8], found[111], found[150]) == ("FIXT.1.1", "100", "0")
        bob.enter("b1", "2", 300, "2.00")
        assert bob.take(lambda it: it.get(11) == "b1")[8] == "FIX.4.4"
        venue.do("uncross")
        assert alice.take(lambda it: it.get(150) == "F")[32] == "300"
        assert bob.take(lambda it: it.get(150) == "F")[32] == "300"
        assert copy.take(lambda it: it[35] == "AE")[571] == "XYZ.3.1"
        venue.do("start")
        alice.say("q", [(11, "c1"), (530, "7"), (60, fixing.stamp())])
        found = alice.take(lambda it: it[35] == "r")
        assert (found[533], found[1369], found[37]) == ("1", "R.ALICE.3", "R.ALICE.3")
        alice.enter("a2", "1", 10, "2.00", (111, "5"), (1138, "4"))
        found = alice.take(lambda it: it.get(11) == "a2")
        assert found[58] == "MaxFloor and DisplayQty are two peaks"
        alice.say("E", [(66, "list")])
        assert alice.take(lambda it: it[35] == "j")[380] == "3"
    with served.served(tmp_path, new_day(port)):
        alice.logon(fixing.token_of(folder, "ALICE"), (1137, "9"))
        assert alice.all() == []
        alice.say("H", [(11, "a1"), (55, "XYZ"), (54, "1")])
        assert alice.take(lambda it: it.get(150) == "I")[39] == "4"


def test_a_session_has_its_version(tmp_path: pathlib.Path) -> None:
    port, folder = served.free_port(), tmp_path / "venue"
    with served.served(tmp_path, new_day(port)):
        for peer in (Peer(port, "ALICE"), NewPeer(port, "BOB")):
            with pytest.raises(fixing.Closed):
                peer.logon(fixing.token_of(folder, peer.member), (1137, "9"))


OTHERS_OF_FIX = ["0", "6", "7", "8", "10", "FIX.5.0SP2", "09"]
"""Values of ApplVerID that aren't FIX 5.0SP2's, or none of the standard's."""


def logged_on(speaker: Speaker, *more: tuple[int, str]) -> str:
    """What a Logon with more on a new connection is answered: a Logout's text, empty for a Logon.
    """
    if not speaker.is_closed:
        speaker.engine.lost(speaker.connection)
    speaker.connection, speaker.is_closed = speaker.engine.connect(), False
    [found] = speaker.say("A", [(98, "0"), (108, "30"), (554, "any"), *more])
    assert (found[35] == "5") == speaker.is_closed
    return found[58] if speaker.is_closed else ""


def test_a_logon_of_another_version(tmp_path: pathlib.Path) -> None:
    """A Logout says what is wanted; then a right Logon is taken under the same number."""
    speaker = Speaker(tmp_path, FIXT)
    for value in OTHERS_OF_FIX:
        text = f"DefaultApplVerID (1137) is {value}, and this session's is 9 (FIX.5.0SP2)"
        assert logged_on(speaker, (1137, value)) == text
        speaker.number -= 1
    assert logged_on(speaker, (1137, "9")) == "" and speaker.is_heard()


@pytest.mark.parametrize("kind, pairs", [("D", ORDER), ("V", []), ("ZZ", [(58, "text")])])
@pytest.mark.parametrize("value", OTHERS_OF_FIX)
def test_a_message_of_another_version(
    tmp_path: pathlib.Path, kind: str, pairs: FixFields, value: str
) -> None:
    """It is refused by the reason that the standard has for that, wherever the tag is in its head,
    and what follows is taken; those of the session have no version but their own.
    """
    speaker = Speaker(tmp_path, FIXT)
    for heads in ({1128: value}, {1128: value, 50: "desk"}):
        number = str(speaker.number)
        assert refusal(speaker.say(kind, pairs, heads)) == (number, kind, "1128", "18")
    assert speaker.say("D", ORDER, {1128: "9"}) == [] and len(speaker.engine.said()) == 1
    [found] = speaker.say("1", [(112, "here")], {1128: value})
    assert (found[35], found[112]) == ("0", "here") and speaker.is_heard()


def test_a_message_of_another_version_out_of_its_turn(tmp_path: pathlib.Path) -> None:
    """What is before it is asked for, and it is refused once it comes again."""
    speaker = Speaker(tmp_path, FIXT)
    speaker.number = 3
    [asked] = speaker.say("D", ORDER, {1128: "6"})
    assert (asked[35], asked[7]) == ("2", "2")
    speaker.number = 2
    again = {43: "Y", 122: fixing.stamp()}
    assert speaker.say("D", ORDER, again) == []
    assert refusal(speaker.say("D", ORDER, {**again, 1128: "6"})) == ("3", "D", "1128", "18")
    assert [given[34] for _, given, _ in speaker.engine.said()] == ["2"]


def test_versions_are_no_tags_of_fix_4_4(tmp_path: pathlib.Path) -> None:
    speaker = Speaker(tmp_path, FIX44)
    assert logged_on(speaker, (1137, "9")).endswith(": 1137")
    speaker.number -= 1
    assert logged_on(speaker) == ""
    assert refusal(speaker.say("D", ORDER, {1128: "9"})) == ("3", "D", "1128", "2")
    assert refusal(speaker.say("D", [*ORDER, (1137, "9")])) == ("4", "D", "1137", "2")


def test_quickfix_s_own_initiator(tmp_path: pathlib.Path) -> None:
    port, folder = served.free_port(), tmp_path / "venue"
    with served.served(tmp_path, new_day(port)) as venue:
        venue.do("start")
        password = fixing.token_of(folder, "ALICE")
        mine = Initiator(port, "ALICE", password, tmp_path / "client", "FIXT.1.1")
        mine.connect()
        pairs = [(11, "a1"), (55, "XYZ"), (54, "1"), (38, "10"), (40, "2"), (44, "2.00")]
        mine.send("D", pairs)
        mine.until(lambda: any(it.get(11) == "a1" for it in mine.got))
        assert mine.got[0][150] == "0"


OWN_VALUES = "0123456789ABC"
"""What FIX 4.4 has for MDEntryType, as the dictionaries of clients list it."""


@pytest.mark.parametrize("begin", [FIX44, FIXT])
@pytest.mark.parametrize("values", ["", OWN_VALUES])
def test_quickfix_s_own_initiator_takes_an_empty_book(
    tmp_path: pathlib.Path, begin: str, values: str
) -> None:
    """By the venue's dictionary, and by one that lists the values of FIX 4.4."""
    (tmp_path / "venue").mkdir()
    venue = Engine(settings_of(tmp_path / "venue", {"EMPTY": begin}), lambda *_: True)
    listed = "".join(f'<value enum="{it}" description="V{it}"/>' for it in values)
    dictionaries.write(tmp_path)
    for path in tmp_path.glob("*.xml"):
        named = f'name="MDEntryType" type="CHAR">{listed}</field>'
        path.write_text(re.sub(r'name="MDEntryType" type="CHAR"\s*/>', named, path.read_text()))
    text = SETTINGS.format(store=tmp_path, begin=begin, member="EMPTY")
    client = Engine(text + DICTIONARIES[begin].format(folder=tmp_path))
    one, other = venue.connect(), client.begin(f"{begin}:EMPTY->VENUE", "any")

    def carry() -> list[bytes]:
        """Brings what each has said to the other: what the client said."""
        said = [data for _, data, *_ in client.outgoing()]
        for data in said:
            venue.feed(one, data)
        for _, data, *_ in venue.outgoing():
            client.feed(other, data)
        return said

    assert len(carry()) == 1 and client.is_logged_on(f"{begin}:EMPTY->VENUE")
    venue.send(f"{begin}:VENUE->EMPTY", "W", *snapshot("d1", "XYZ", {}))
    assert carry() == [] and carry() == []  # it refuses nothing
    [(_, given, entries)] = client.said()
    assert (given[55], given[262], given[268], entries) == ("XYZ", "d1", "1", [(269, "J")])


def test_a_version_of_nobody(tmp_path: pathlib.Path) -> None:
    day = fixing.day_of(9878, "ALICE").replace("[fix.sessions]", 'fix50 = ["EVE"]\n[fix.sessions]')
    (tmp_path / "day.toml").write_text(day, "utf-8")
    words = served.words_of("--check", "--port", 0, "--day", tmp_path / "day.toml")
    ran = subprocess.run(words, env=served.environment(), capture_output=True, text=True)
    assert (ran.returncode, ran.stderr) == (
        1,
        f"venue: {tmp_path}/day.toml: fix: fix50 'EVE' is no CompID of the sessions\n",
    )


@pytest.mark.parametrize("name, folder", [("FIX44.xml", "fix44"), ("FIX50SP2.xml", "fix50sp2")])
def test_the_dictionaries_are_parts_of_the_standard(
    tmp_path: pathlib.Path, name: str, folder: str
) -> None:
    words = [sys.executable, "-P", "-m", "callauction.fix.dictionaries", str(tmp_path)]
    subprocess.run(words, env=served.environment(), check=True)
    root = ElementTree.parse(tmp_path / name).getroot()
    messages = [it for it in root.iter("message") if it.get("msgcat") == "app"]
    assert len(messages) == 19
    for message in messages:
        header = QUICKFIX / folder / f"{message.get('name')}.h"
        known = {*FIELD.findall(header.read_text("latin-1"))} | OTHERS | PASSED_OVER
        named = {it.get("name") for kind in ("field", "group") for it in message.iter(kind)}
        assert named <= known, (message.get("name"), named - known)


def written(*words: object) -> tuple[int, str, str]:
    """The status of the command that writes the dictionaries, and what it prints."""
    command = [sys.executable, "-P", "-m", "callauction.fix.dictionaries", *map(str, words)]
    ran = subprocess.run(command, env=served.environment(), capture_output=True, text=True)
    return ran.returncode, ran.stdout, ran.stderr


def test_a_folder_for_the_dictionaries(tmp_path: pathlib.Path) -> None:
    """It is made; what can't be one is said, and a word that is an option makes none."""
    folder, names = tmp_path / "new" / "one", ["FIX44.xml", "FIX50SP2.xml", "FIXT11.xml"]
    for _ in range(2):
        assert written(folder) == (0, "", "")
        assert sorted(it.name for it in folder.iterdir()) == names
    head, usage = "callauction.fix.dictionaries: ", "usage: python3 -P -m callauction.fix."
    for words in ((), ("a", "b"), ("",), ("--no",)):
        status, out, error = written(*words)
        assert (status, out) == (2, "")
        assert error.startswith(f"{head}one folder is needed\n{usage}dictionaries FOLDER\n"), words
    for word in ("-h", "--help"):
        status, out, error = written(word)
        assert (status, error) == (0, "") and "makes it\nwhere it is missing" in out
    assert written(folder / "FIX44.xml") == (3, "", f"{head}{folder}/FIX44.xml: File exists\n")


def test_the_dictionaries_are_what_quickfix_reads(tmp_path: pathlib.Path) -> None:
    dictionaries.write(tmp_path)
    text = f"""[DEFAULT]
ConnectionType=acceptor
SocketAcceptPort=0
HeartBtInt=30
StartTime=00:00:00
EndTime=00:00:00
FileStorePath={tmp_path}
[SESSION]
BeginString=FIXT.1.1
SenderCompID=HERE
TargetCompID=THERE
DefaultApplVerID=FIX.5.0SP2
TransportDataDictionary={tmp_path}/FIXT11.xml
AppDataDictionary={tmp_path}/FIX50SP2.xml
"""
    assert Engine(text, lambda session, password: False).expected("FIXT.1.1:HERE->THERE") == 1

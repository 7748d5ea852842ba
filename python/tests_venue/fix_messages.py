"""Messages by FIX, as clients write them and as tests read them."""
import fixing
from fixing import FixFields, FixMessage, Peer

TIME = "20261126-09:00:00"
HEAD = [(50, "desk"), (57, "floor")]
NOTHING = [(1, "a"), (21, "1"), (58, "text"), (100, "XETR"), (207, "XETR"), (528, "A"), (581, "1")]
"""Tags that change nothing."""
NEEDED: dict[str, list[FixFields]] = {
    "D": [[(11, "n1")], [(55, "XYZ")], [(54, "1")], [(60, TIME)], [(38, "10")], [(40, "1")]],
    "G": [
        *([(41, "a1")], [(11, "n1")], [(55, "XYZ")], [(54, "1")], [(60, TIME)]),
        *([(38, "10")], [(40, "1")]),
    ],
    "F": [[(41, "a1")], [(11, "n1")], [(55, "XYZ")], [(54, "1")], [(60, TIME)]],
    "H": [[(11, "a1")], [(55, "XYZ")], [(54, "1")]],
    "q": [[(11, "n1")], [(530, "7")], [(60, TIME)]],
    "AF": [[(584, "n1")], [(585, "7")]],
    "V": [
        *([(262, "n1")], [(263, "0")], [(264, "1")]),
        *([(267, "1"), (269, "Q")], [(146, "1"), (55, "XYZ")]),
    ],
    "g": [[(335, "n1")], [(263, "0")]],
    "x": [[(320, "n1")], [(559, "4")]],
}
"""The tags that each message needs, a group as one."""
NO_ORDER = "there is no order of this ClOrdID in this day"


def whole(kind: str, *but: int) -> FixFields:
    """A message that has what it needs but for these tags."""
    return [it for group in NEEDED[kind] if group[0][0] not in but for it in group]


def order(client: str, side: str, shares: str, *more: tuple[int, str]) -> FixFields:
    """A NewOrderSingle."""
    return [(11, client), (55, "XYZ"), (54, side), (60, TIME), (38, shares), *more]


def answer(peer: Peer, kind: str, pairs: FixFields, head: FixFields = []) -> FixMessage:
    """What is answered to a message."""
    peer.say(kind, pairs, head)
    return peer.take(lambda it: it[35] not in "0124A")


def picked(given: FixMessage, *tags: int) -> tuple[str, ...]:
    """These tags of a message, empty where it hasn't one."""
    return tuple(given.get(it, "") for it in tags)


OF_ALL = [(48, "XYZ"), (22, "8"), (167, "CS")]
SUB_IDS = [(802, "2"), (523, "FLOOR"), (803, "2"), (523, "X"), (803, "4000")]
PARTIES = [(453, "2"), (448, "DESK"), (447, "D"), (452, "1"), *SUB_IDS, (448, "T"), (452, "11")]
OF_ORDERS = [*OF_ALL, (15, "EUR"), (18, "1 5"), (126, "20991231-17:00:00")]
FROM = [(115, "CLIENT"), (142, "FLOOR")]
"""What clients send with orders beside what these are."""


def mass_cancel(peer: Peer, client: str, *more: tuple[int, str]) -> FixMessage:
    """The answer to an OrderMassCancelRequest."""
    peer.say("q", [(11, client), *more, (60, fixing.stamp())])
    return peer.take(lambda it: it[35] == "r")


def ask_data(
    peer: Peer, request: str, how: str, *more: tuple[int, str], types: str = "QBA01"
) -> None:
    """Sends a MarketDataRequest for these types of entries, which are all."""
    entries = [(267, str(len(types))), *((269, it) for it in types)]
    symbols = [(146, "1"), (55, "XYZ")]
    peer.say("V", [(262, request), (263, how), (264, "1"), *more, *entries, *symbols])


def rows(peer: Peer, kind: str) -> list[FixMessage]:
    """The rows of the next message of market data, which is of this kind."""
    peer.socket.settimeout(fixing.SECONDS)
    pairs = fixing.parsed(peer.whole())
    peer.expected += 1
    assert (35, kind) in pairs, pairs
    first = 279 if kind == "X" else 269
    count = int(dict(pairs)[268])
    found: list[FixMessage] = []
    place = pairs.index((268, str(count)))
    for tag, value in pairs[place + 1 : -1]:
        if tag == first:
            found.append({})
        if found:
            found[-1][tag] = value
    assert len(found) == count
    return found


ALL = [(267, "5"), *((269, it) for it in "QBA01"), (146, "1"), (55, "XYZ")]
"""All that there is of market data."""

"""A log of FIX messages, 4.2 to 5.0, as a table with a row for each execution report.

A log has lines of `tag=value` parted by any sign, or is a CSV file headed by tags or names. Columns
have the names of the standard, of the tags in NAMES. Market data (MsgType W and X) with the price
of an auction is a row where trades of the instrument are next to it (_Phase.is_result), or where it
names one that has no price and no trades, the last time that it does; else it is an indication.
The numbers of messages are the order of reports of one time where all are of one session. What else
is done to a message is in _Log.
"""
import csv
import dataclasses
import io
import itertools
import re
from collections import Counter
from collections.abc import Iterator
from decimal import Decimal, InvalidOperation

import numpy

from callauction.verdict import time_columns
from callauction.verdict.cells import Cells, Ints, Short, Source, parted_source
from callauction.verdict.columns import ExtractError

NAMES = {
    "1": "Account", "11": "ClOrdID", "14": "CumQty", "17": "ExecID", "19": "ExecRefID",
    "31": "LastPx", "32": "LastQty", "34": "MsgSeqNum", "35": "MsgType", "37": "OrderID",
    "38": "OrderQty", "39": "OrdStatus", "40": "OrdType", "41": "OrigClOrdID",
    "43": "PossDupFlag", "44": "Price", "48": "SecurityID", "49": "SenderCompID",
    "52": "SendingTime", "54": "Side", "55": "Symbol", "56": "TargetCompID",
    "59": "TimeInForce", "60": "TransactTime", "76": "ExecBroker", "109": "ClientID",
    "111": "MaxFloor", "150": "ExecType",
    "151": "LeavesQty", "269": "MDEntryType", "270": "MDEntryPx", "271": "MDEntrySize",
    "277": "TradeCondition", "336": "TradingSessionID", "448": "PartyID", "452": "PartyRole",
    "625": "TradingSessionSubID", "880": "TrdMatchID", "1138": "DisplayQty",
}  # fmt: skip
"""The tags that are read."""
TAGS = {name: tag for tag, name in NAMES.items()}
IMBALANCE = "Imbalance"
"""The column of a result's surplus, which is an entry of its own in market data."""
RESULT = "AuctionResult"
"""The ExecType of a row that is the result of an auction."""
NUMBER = "MsgSeqNum"
HEADER = (*NAMES.values(), IMBALANCE)
OTHERS = "messages of other types than execution reports and results"
NO_MESSAGE = "lines without a FIX message"
MESSAGES_AGAIN = "messages that were sent again, read once"
NO_TRADE = "trade cancels whose ExecRefID (19) no trade has as its ExecID (17)"
INDICATIONS = "prices in market data that have no trades next to them: indications"
_BEGIN = re.compile(r"8=FIXT?\.\d\.\d(?:SP\d)?(?P<sign>\D{1,6}?)9=")
_ENDING = 24
"""In how many letters at the end of a message its last field is."""
_TRAILER = re.compile(r"(?:^|\D)10=\d{3}\D{0,6}$")
_CUT = "the file ends within the line, which is cut"
_REPORT, _DATA, _RESET = ("8", "ExecutionReport"), ("W", "X"), ("4", "SequenceReset")
_PRICES, _VOLUME, _SURPLUS = ("Q", "4", "5"), "B", "A"
"""The types of market data's entries: an auction's price, its volume and its imbalance."""
_MORE = {"P": "1", "Q": "2"}
"""The side that has more, by the condition of an imbalance."""
_TRADES = ("F", "1", "2", "Trade", "TRADE")
_BUSTS = ("H", "Trade Cancel", "TradeCancel", "TRADE_CANCEL")
_RESTATED = ("D", "Restated", "RESTATED")
_ENTRIES = ("0", "New", "NEW")
_REPLACED = ("5", "Replaced", "REPLACED", *_RESTATED)
_AT_MARKET, _LIMITED = ("1", "Market", "MARKET"), ("2", "Limit", "LIMIT", "")
MARKET_WORD = "MARKET"
"""The price of a market order."""
_EXECUTING_FIRM = "1"
_AUCTIONS, _CONTINUOUS = ("2", "4", "6"), "3"
"""The TradingSessionSubID of auctions, and that of continuous trading."""
_FEW_DIGITS = re.compile(r"\d{1,9}", re.ASCII)
_MOST_FILLED = 100_000
_TYPE = re.compile(r"\w{1,2}|[A-Z]\w+")
Pairs = list[tuple[str, str]]
Message = dict[str, str]


@dataclasses.dataclass(frozen=True)
class MessageLog:
    """The rows of a log, the lines that can't be read, what else was met, and whether a message is
    behind the last row, so that the log wasn't cut there.
    """

    source: Source
    short: Short
    notes: Counter[str]
    is_ended: bool
    numbers: Ints
    """The numbers of the session's other messages, where rows have numbers of one."""


def table_of(text: str, separator: str) -> MessageLog:
    """The table of a log. Raises ExtractError."""
    log = _Log()
    is_tagged = _BEGIN.search(text)
    for line, pairs in _tagged(text, log) if is_tagged else _fields(text, separator, log):
        log.add(line, pairs)
    return log.table()


def _tagged(text: str, log: "_Log") -> Iterator[tuple[int, Pairs]]:
    """The messages of a log of tag=value with their lines, or their numbers where all are in one
    line. One without its last field is cut, where the first or the last one has it, and else where
    the file ends within its line.
    """
    begins = [found.start() for found in itertools.islice(_BEGIN.finditer(text), 2)]
    ends = text[begins[0] : [*begins, len(text)][1]].partition("\n")[0], text
    has_trailers = any(_TRAILER.search(end.rstrip()[-_ENDING:]) for end in ends)
    is_one_line, last = text.count("\n") <= 1, text.count("\n") + 1
    number = 0
    for place, line in enumerate(text.split("\n"), 1):
        begins, is_open = [found.start() for found in _BEGIN.finditer(line)], place == last > 1
        if not begins and line.strip():
            log.lost(place, line, is_open)
        for begin, end in zip(begins, [*begins[1:], len(line)]):
            number += 1
            label, message = number if is_one_line else place, line[begin:end].rstrip()
            if has_trailers and not _TRAILER.search(message[-_ENDING:]):
                log.short.append((label, "the message is cut: it has no CheckSum (10)"))
            elif is_open and end == len(line) and not has_trailers:
                log.short.append((label, _CUT))
            else:
                yield label, _pairs(message)


def _pairs(message: str) -> Pairs:
    """The fields of a message with their names."""
    begin = _BEGIN.match(message)
    sign = re.escape(begin["sign"] if begin else "\x01")
    is_single = begin is None or len(begin["sign"]) == 1
    field = rf"(\d+)=([^{sign}]*)" if is_single else rf"(\d+)=(.*?)(?:{sign}|$)"
    fields = re.findall(field, message)
    return [(NAMES.get(tag, tag), value) for tag, value in fields]


def _fields(text: str, separator: str, log: "_Log") -> Iterator[tuple[int, Pairs]]:
    """The rows of a CSV file headed by tags or names. Raises ExtractError."""
    reader = csv.reader(io.StringIO(text, newline=""), delimiter=separator)
    heads = next(reader)
    header = [*map(_name, heads)]
    if not {"ExecType", "OrderID"} & {*header}:
        raise ExtractError(
            "the file has neither FIX messages (8=FIX) nor a header with ExecType or 150 "
            "(separator says what parts its fields)"
        )
    last = 0 if text.endswith("\n") else text.count("\n") + 1
    for fields in reader:
        if fields == heads:  # of another page
            continue
        if any(fields) and len(fields) != len(header):
            why = f"has {len(fields)} fields, the header {len(header)}"
            log.short.append((reader.line_num, _CUT if reader.line_num == last else why))
        elif any(fields) and reader.line_num == last:
            log.short.append((last, _CUT))
        elif any(fields):
            given = [("MsgType", _REPORT[0])] * ("MsgType" not in header)
            yield reader.line_num, [*given, *zip(header, map(str.strip, fields))]


def _name(head: str) -> str:
    """The name that a column's head is: a tag, a name, or both."""
    found = re.search(r"\d+", head)
    name = NAMES.get(found[0]) if found else None
    return name or head.strip()


def _fill(found: Message, parts: Message) -> None:
    """Takes what a result doesn't say of these."""
    found |= {name: text for name, text in parts.items() if not found.get(name)}


@dataclasses.dataclass
class _Phase:
    """Where an instrument is: its last price in market data, and from which place on trades follow
    one another, no row of an order being between, with the price and the number of the first, and
    their result.
    """

    result: tuple[int, Message] | None = None
    trades: int = -1
    price: str = ""
    number: str = ""
    done: Message | None = None
    parts: Message = dataclasses.field(default_factory=dict)
    """What market data said of an auction, its `session`, before it said a price."""

    def is_result(self, found: Message) -> bool:
        """Whether market data is the trades' result: it names an auction, or has their price; where
        they have one, it names that auction too and says another thing of it.
        """
        is_named = found.get("TradingSessionSubID", "") in _AUCTIONS
        if self.done is not None:
            return is_named and _session(found) == _session(self.done) and self._differs(found)
        return is_named or _number(found["LastPx"]) == _number(self.price)

    def _differs(self, found: Message) -> bool:
        """Whether market data says another thing than the result."""
        done, said = self.done or {}, ("LastPx", "LastQty", IMBALANCE, "Side")
        return any(_number(found[it]) != _number(done.get(it, "")) for it in said if it in found)


class _Log:
    """The rows of a log as they come. A report that was sent again is left out; a restated order is
    a new one where it is unknown; a bust has the TrdMatchID of the report that it names; an order
    of another type than market and limit has that in place of its kind, which is a bad row.
    """

    def __init__(self) -> None:
        self.rows: list[tuple[float, int, str]] = []
        self.short: list[tuple[int, str]] = []
        self.notes: Counter[str] = Counter()
        self.seen: set[tuple[str, str, str, str]] = set()
        self.sessions: set[tuple[str, str]] = set()
        self.numbers: dict[tuple[str, str], list[range]] = {}
        """By session the numbers of its messages."""
        self.known: set[tuple[str, str]] = set()
        self.matches: dict[tuple[str, str], str] = {}
        self.lost_busts: list[str] = []
        self.phases: dict[str, _Phase] = {}
        self.empty: dict[tuple[str, str], tuple[int, int, Message]] = {}
        """By instrument and session the last auction without a price in market data, and where."""
        self.held: set[tuple[str, str]] = set()
        """The instruments and sessions of auctions with trades or a price."""
        self.last = 0

    def lost(self, line: int, text: str, is_open: bool) -> None:
        """Notes a line without a message; one that has a field is a message that was cut, and one
        within which the file ends may be.
        """
        if is_open:
            self.short.append((line, _CUT))
        elif re.search(r"(?:^|\D)(?:35|150|37)=\S", text):
            self.short.append((line, "the message has no begin (8=FIX)"))
        else:
            self.notes[NO_MESSAGE] += 1

    def add(self, line: int, pairs: Pairs) -> None:
        """A message."""
        self.last = line
        message: Message = dict(reversed(pairs))  # the first field of a name
        kind = message.get("MsgType", "")
        self._count(message, kind)
        if kind in _DATA:
            self._data(line, message, pairs)
        elif kind in _REPORT:
            self._report(line, message, pairs)
        elif _TYPE.fullmatch(kind):
            self.notes[OTHERS] += 1
        else:
            self.short.append((line, f"MsgType (35) {kind!r} is none"))

    def _count(self, message: Message, kind: str) -> None:
        """Notes a message's number; one that fills a gap has those up to its next one."""
        number, end = message.get(NUMBER, ""), message.get("36", "")
        if not _FEW_DIGITS.fullmatch(number):
            return
        first = last = int(number)
        if kind in _RESET and _FEW_DIGITS.fullmatch(end):  # NewSeqNo
            last = min(max(first, int(end) - 1), first + _MOST_FILLED)
        session = message.get("SenderCompID", ""), message.get("TargetCompID", "")
        self.numbers.setdefault(session, []).append(range(first, last + 1))

    def _phase(self, message: Message) -> _Phase:
        return self.phases.setdefault(_instrument(message), _Phase())

    # ---- execution reports

    def _report(self, line: int, message: Message, pairs: Pairs) -> None:
        get = message.get
        order, kind = get("OrderID", ""), get("ExecType", "")
        mark = get("ExecID", ""), order, kind, _instrument(message)
        if mark[0] not in ("", "0") and mark in self.seen:
            self.notes[MESSAGES_AGAIN] += 1
            return
        self.seen.add(mark)
        self.sessions.add((get("SenderCompID", ""), get("TargetCompID", "")))
        message["PartyID"] = _member(pairs) or get("ExecBroker", "") or get("ClientID", "")
        self._restate(message, (_instrument(message), order or get("ClOrdID", "")))
        kind = get("ExecType", "")
        phase = self._phase(message)
        if kind in _TRADES:
            self._trade(message, phase)
        elif kind in _BUSTS:
            named = get("ExecRefID", "")
            match = self.matches.get((_instrument(message), named))
            self.lost_busts += [f"{named!r} in row {line}"] * (match is None and named != "")
            message["TrdMatchID"] = get("TrdMatchID", "") or match or ""
        else:
            self._forget(phase)
            self._type(message, kind)
        self._put(len(self.rows), line, message)

    def _restate(self, message: Message, order: tuple[str, str]) -> None:
        """A restated order that is unknown is a new one, as those of an earlier day."""
        kind = message.get("ExecType", "")
        if kind in _RESTATED:
            message["ExecType"] = _REPLACED[0] if order in self.known else _ENTRIES[0]
        if kind in (*_ENTRIES, *_REPLACED):
            self.known.add(order)

    def _type(self, message: Message, kind: str) -> None:
        """A market order's price is the word for it; another type is a bad row."""
        if kind not in (*_ENTRIES, *_REPLACED):
            return
        type_ = message.get("OrdType", "")
        if type_ in _AT_MARKET:
            message["Price"] = MARKET_WORD
        elif type_ not in _LIMITED:
            message["ExecType"] = f"OrdType {type_}"

    def _trade(self, message: Message, phase: _Phase) -> None:
        mark = _instrument(message), message.get("ExecID", "")
        self.matches[mark] = message.get("TrdMatchID", "")
        own = _session(message)
        if own[1] == _CONTINUOUS:
            self._forget(phase)
            return
        self.held.add(own)
        if own[1] not in _AUCTIONS:
            self.held |= {it for it in self.empty if it[0] == own[0]}
        if phase.trades < 0:
            phase.trades, phase.number = len(self.rows), message.get(NUMBER, "")
            phase.price = message.get("LastPx", "")
        if phase.result is not None and phase.done is None and phase.is_result(phase.result[1]):
            self._result(phase, *phase.result)

    # ---- market data

    def _data(self, line: int, message: Message, pairs: Pairs) -> None:
        """The price of an auction in market data, with its volume and its surplus."""
        found: Message = {}
        for entry in _groups(pairs, "MDEntryType"):
            kind, size = entry.get("MDEntryType", ""), entry.get("MDEntrySize", "")
            if kind in _PRICES:
                found["LastPx"] = entry.get("MDEntryPx", "")
                found.setdefault("LastQty", size)
            elif kind == _VOLUME:
                found["LastQty"] = size
            elif kind == _SURPLUS:
                found[IMBALANCE] = size
                found["Side"] = _MORE.get(entry.get("TradeCondition", ""), "")
        if _session(message)[1] in _AUCTIONS and _number(found.get("LastQty", "")) == 0:
            found.setdefault("LastPx", "")  # a volume of 0 is no price, said or not
        if "LastPx" not in found:
            self._part(message, found)
            return
        time = message.get("TransactTime", "") or message.get("SendingTime", "")
        kept = ("Symbol", "SecurityID", "TradingSessionID", "TradingSessionSubID")
        found |= {name: message[name] for name in kept if name in message}
        found |= {"ExecType": RESULT, "TransactTime": time}
        phase, own = self._phase(message), _session(message)
        if phase.parts.pop("session", None) == own[1]:
            _fill(found, phase.parts)
        phase.parts = {}
        self.empty.pop(own, None)
        is_none = _number(found["LastQty"]) == 0 == _number(found["LastPx"] or "0")
        if own[1] in _AUCTIONS and is_none:
            self.empty[own] = len(self.rows), line, found
            return
        if phase.trades >= 0 and phase.is_result(found):
            self._result(phase, line, found)
            return
        self.notes[INDICATIONS] += phase.result is not None
        phase.result = line, found

    def _part(self, message: Message, found: Message) -> None:
        """Market data of an auction without a price is more of the result that waits for trades, or
        of the next one; what is of no auction, or below its trades, isn't read.
        """
        phase, own = self._phase(message), _session(message)
        if own[1] not in _AUCTIONS or not found or phase.trades >= 0:
            self.notes[OTHERS] += 1
        elif phase.result is not None and _session(phase.result[1]) == own:
            _fill(phase.result[1], found)
        else:
            phase.parts = {**found, **phase.parts, "session": own[1]}

    def _result(self, phase: _Phase, line: int, found: Message) -> None:
        """Puts a result above the first of its trades, with the number of that."""
        self._put(phase.trades - 0.5, line, found | {NUMBER: phase.number})
        self.held.add(_session(found))
        phase.result, phase.done = None, found

    def _forget(self, phase: _Phase) -> None:
        """A row of an order parts what is before it from the trades behind it."""
        self.notes[INDICATIONS] += phase.result is not None
        phase.result, phase.trades, phase.done, phase.parts = None, -1, None, {}

    # ---- the table

    def _put(self, place: float, line: int, message: Message) -> None:
        get = message.get
        self.rows.append((place, line, "\x1f".join([get(name, "") for name in HEADER])))

    def table(self) -> MessageLog:
        """The table of what was added. Raises ExtractError."""
        if not self.rows:
            raise ExtractError("the log has no execution report (35=8)")
        for phase in self.phases.values():
            self._forget(phase)
        for own, (place, line, found) in self.empty.items():
            if own not in self.held:
                self._put(place - 0.5, line, found)
        rows = sorted(self.rows, key=lambda row: row[0])
        texts, lines = [text for _, _, text in rows], [line for _, line, _ in rows]
        source, short = parted_source(HEADER, texts, lines)
        numbers = numpy.zeros(0, "i8")
        if len(self.sessions) == 1 and _is_of_one_session(source):
            numbers = _numbers_of(self.numbers.get(next(iter(self.sessions)), []))
        else:
            none = source.cells(NUMBER)
            none = Cells(none.buffer, none.start, 0 * none.length)
            source = Source(source.names, source.labels, {NUMBER: none}, source)
        if self.lost_busts:
            self.notes[f"{NO_TRADE}, such as {self.lost_busts[0]}"] = len(self.lost_busts)
        is_ended = self.last > max(lines)
        return MessageLog(source, (*self.short, *short), +self.notes, is_ended, numbers)


def _numbers_of(numbers: list[range]) -> Ints:
    """The numbers of messages, each once."""
    found: Ints = numpy.unique(numpy.fromiter(itertools.chain(*numbers), "i8"))
    return found


def _is_of_one_session(source: Source) -> bool:
    """Whether each report has a number of its own, and no time falls by them."""
    kinds, words = source.cells("ExecType").texts()
    codes, texts = source.cells(NUMBER).texts()
    numbers = [int(text) if text.isdecimal() else -1 for text in texts]
    is_report = kinds != (words.index(RESULT) if RESULT in words else len(words))
    number = numpy.array([*numbers, -1], "i8")[codes][is_report]
    time = time_columns.nanoseconds(source.cells("TransactTime"))[is_report][numpy.argsort(number)]
    time = time[time != time_columns.NO_TIME]
    is_own = len(numpy.unique(number)) == len(number) and number.min(initial=0) >= 0
    return is_own and not (time[1:] < time[:-1]).any()


def _number(text: str) -> Decimal | str:
    try:
        return Decimal(text)
    except InvalidOperation:
        return text


def _instrument(message: Message) -> str:
    return message.get("SecurityID", "") or message.get("Symbol", "")


def _session(message: Message) -> tuple[str, str]:
    """The instrument and the session of a message."""
    return _instrument(message), message.get("TradingSessionSubID", "")


def _groups(pairs: Pairs, first: str) -> list[Message]:
    """The groups of a message, each of which begins with this field: entries, or parties."""
    begins = [at for at, (name, _) in enumerate(pairs) if name == first]
    return [dict(reversed(pairs[at:end])) for at, end in zip(begins, [*begins[1:], len(pairs)])]


def _member(pairs: Pairs) -> str:
    """The party that is the executing firm, else the first one."""
    parties = _groups(pairs, "PartyID")
    firms = (it for it in parties if it.get("PartyRole", "") == _EXECUTING_FIRM)
    return next((it["PartyID"] for those in (firms, parties) for it in those), "")

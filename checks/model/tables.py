"""What a run prints of its day, by the rules of docs/FORMATS.md: lines, journal, trades, book; and
the audit of a journal.

It shares no code with the program. Each function takes what the run is given, and raises OpenFault
where the day can't be opened.
"""
from checks.model.day import Call, Day, Options, Words, opened
from checks.model.files import RANGES, Given

TRADE_COLUMNS = "trade,auction,bid,bid_member,ask,ask_member,quantity,tick"
BOOK_COLUMNS = "command,auction,limit,bid,ask,demand,supply,volume,surplus,side,best,price"


def record(*fields: object) -> str:
    """A line of a table. A field of None is empty."""
    return ",".join("" if field is None else str(field) for field in fields) + "\n"


def lines_text(given: Given) -> str:
    """A line for each reply, by its number from 1."""
    day = opened(given.options)
    return "".join(f"{place}: {day.apply(*call)}\n" for place, call in enumerate(given.calls, 1))


# ---- the journal


def day_fields(options: Options) -> list[object]:
    """The fields of the day record."""
    return ["day", *(options[name] for name in RANGES)]


def call_fields(call: Call) -> list[object]:
    """The fields of a command in the shortest form."""
    member, words = call
    if words[0] == "enter":
        return [member, *enter_fields(words)]
    if words[0] == "change":
        word, order, limit, quantity = words
        return [member, word, order, quantity, "market" if limit is None else limit]
    return [member, *words]


def enter_fields(words: Words) -> list[object]:
    """The word and the fields of a new order: the peak where there is one, and where the order is
    for one auction alone.
    """
    word, side, limit, quantity, peak, restriction = words
    fields = [word, side, quantity, "market" if limit is None else limit]
    if restriction:
        return [*fields, peak, restriction]
    return fields if peak is None else [*fields, peak]


def journal_text(given: Given) -> str:
    """The day record, and each call with the lawful reply."""
    day = opened(given.options)
    entries = (record(*call_fields(call), day.apply(*call)) for call in given.calls)
    return record(*day_fields(given.options)) + "".join(entries)


def audit_text(given: Given, behind: int = 0) -> tuple[bool, str]:
    """Whether all recorded replies of a journal are lawful, and what is printed of them; as many
    bytes are behind its lines.
    """
    day = opened(given.options)
    text = ""
    unlawful = []
    for place, (call, recorded) in enumerate(zip(given.calls, given.replies)):
        lawful = day.apply(*call)
        if recorded and recorded != lawful:
            unlawful.append(place)
            text += f'{place + 1}: recorded "{recorded}", lawful "{lawful}"\n'
    text += f"entries {len(given.calls)}\n"
    text += f"compared {sum(recorded != '' for recorded in given.replies)}\n"
    text += f"unlawful {len(unlawful)}\n"
    verdict = f"bad {unlawful[0]}" if unlawful else "legal"
    text += f"audit {verdict}\n"
    if behind:
        text += f"incomplete: {behind} bytes follow entry {len(given.calls)}\n"
    return not unlawful, text


# ---- the tables


def trades_text(given: Given) -> str:
    """A record for each trade of the day."""
    day = opened(given.options)
    for call in given.calls:
        day.apply(*call)
    text = TRADE_COLUMNS + "\n"
    for place, found in enumerate(day.tape, 1):
        text += record(
            place,
            found.auction,
            found.bid,
            found.bid_member,
            found.ask,
            found.ask_member,
            found.quantity,
            found.tick,
        )
    return text


def book_text(given: Given) -> str:
    """The book before each uncross that isn't refused, and at the end of a day that isn't over."""
    day = opened(given.options)
    text = BOOK_COLUMNS + "\n"
    for place, (member, words) in enumerate(given.calls, 1):
        if words[0] == "uncross" and day.refusal(member, words) is None:
            text += book_table(place, day)
        day.apply(member, words)
    return text + book_table(len(given.calls) + 1, day) if day.kind() else text


def book_table(place: int, day: Day) -> str:
    """The records of the orders that count before the command with this number."""
    decided = day.decision()
    ticks = set(day.limits()) | ({decided.tick} if decided.tick is not None else set())
    rising = sorted(ticks)
    bids, asks = ({tick: 0 for tick in [*rising, None]} for _ in range(2))
    for order in day.counted():
        (bids if order.side == "bid" else asks)[order.limit] += order.quantity
    text = record(place, day.kind(), "market", bids[None], asks[None], *[None] * 7)
    for tick, demand, supply in reversed(list(zip(rising, *day.curves(rising)))):
        side = "bid" if demand > supply else "ask" if demand < supply else "none"
        text += record(
            place,
            day.kind(),
            tick,
            bids[tick],
            asks[tick],
            demand,
            supply,
            min(demand, supply),
            abs(demand - supply),
            side,
            int(tick in decided.best),
            decided.rule if tick == decided.tick else None,
        )
    return text

"""The columns of a table of events by their names, and what an unknown one is likely to mean."""
import difflib
import re
from collections.abc import Collection, Iterable, Mapping

EVENTS = ("new", "replace", "cancel", "uncross", "trade", "fill", "bust")
"""The kinds of rows; `bust` takes out a trade that has its orders and its shares."""
KINDS = {word: place for place, word in enumerate(EVENTS)}
EVENT_COLUMNS = {
    "event": f"{', '.join(EVENTS[:-1])} or {EVENTS[-1]}",
    "order": "the order's id",
    "member": "who sent it",
    "side": "bid or buy, ask or sell; in a row uncross the side of the surplus",
    "price": "a decimal, the market word for a market order, or empty where no such word is said",
    "quantity": "shares: of a new order, open after a replace, cancelled, executed, traded, filled",
    "peak": "shares that an iceberg order shows",
    "restriction": "opening or closing, for an order of that auction alone",
    "time": "a time of day, with or without its date, or a number",
    "sequence": "the order of rows that have one time",
    "new_order": "the id that the order has after a replace",
    "kept": "true or false: whether a replace kept the place in time",
    "auction": "opening, intraday, closing or interrupted; of trades continuous too",
    "volume": "in a row uncross: what was executed, as quantity",
    "surplus": "in a row uncross: shares that were left at the price",
    "trades": "in a row uncross: how many trades were made",
    "bid": "the id of a trade's bid",
    "ask": "the id of a trade's ask",
    "bid_member": "the member of a trade's bid",
    "ask_member": "the member of a trade's ask",
}
"""The columns of an extract, and what each has."""
NEEDED = ("event", "order", "side", "price", "quantity")
"""Columns without which no extract is read."""
OTHER_NAMES = {"only": "restriction"}
"""Names that are read as another column's."""
_NAMES = {
    "event": "action type",
    "order": "orderid id ordernumber clientorderid",
    "member": "trader participant account firm",
    "side": "buysell bs",
    "price": "limit limitprice limitpx px",
    "limit": "price",
    "quantity": "qty size shares",
    "peak": "displayqty visible",
    "restriction": "tradingrestriction only",
    "time": "timestamp datetime",
    "sequence": "seq seqno",
    "auction": "phase",
    "surplus": "imbalance",
    "volume": "executed",
    "bid": "buyorder",
    "ask": "sellorder",
    "bid_member": "buyer",
    "ask_member": "seller",
    "new_order": "neworderid",
    "reply": "reply",
}
LIKELY = {it: ours for ours, theirs in _NAMES.items() for it in theirs.split()}
"""Names of other systems, in small letters without signs, and the column each is likely to be."""


_ID = re.compile(r"id$|nr$|nummer|number|ref|match|exec|deal")
"""What a column of ids has in its name."""
_TRADE_ID = re.compile(r"(trade|trd|exec|match|deal).*(id|no|nr|nummer|number|ref)$")
"""What a column has in its name whose ids are the trades' own, not the rows'."""


EMPTY = ("null", "n/a", "#n/a", "nan", "-", "--")
"""Words for an empty cell, in small letters."""
UNKNOWN = (
    *EMPTY, "n.a.", "none", "nil", "tbd", "unknown", "#ref!", "#value!", "#name?", "#div/0!",
    "#num!", "#null!",
)  # fmt: skip
"""Words for an id or a member that isn't known, as a spreadsheet's errors are."""
_UNKNOWN_SIGNS = re.compile("[?\\-\u2010-\u2015\u2212]+|##+|\\*+")
"""Question marks and dashes; what a sheet shows of a number in a narrow column; stars."""


class ColumnError(ValueError):
    """A table has a column that isn't known, or has none that is needed; one line."""


class ExtractError(ValueError):
    """An extract can't be read as it is asked for; one line that says what to do."""


def plain(name: str) -> str:
    """A name in small letters, without blanks and signs."""
    return re.sub(r"[^a-z0-9]", "", name.casefold())


def form_of_id(name: str) -> str:
    """An id with a 0 for each of its numbers."""
    return re.sub(r"\d+", "0", name)


def look_of(name: str) -> str:
    """An id with a 0 for each of its numbers, and an A for each of its words."""
    return re.sub(r"[^\W\d_]+", "A", form_of_id(name))


def is_unknown(text: str) -> bool:
    """Whether a text stands for an id or a member that isn't known."""
    return text.casefold() in UNKNOWN or bool(_UNKNOWN_SIGNS.fullmatch(text))


def is_id(name: str) -> bool:
    """Whether a column seems to have ids."""
    return bool(_ID.search(plain(name)))


def is_trade_id(name: str) -> bool:
    """Whether a column seems to have ids of trades, so that rows with different ones are two."""
    return bool(_TRADE_ID.search(plain(name)))


def likely(name: object, known: Collection[str]) -> str | None:
    """Which of the known columns this name is likely to mean, None where none is near."""
    text = plain(str(name))
    alike = {plain(column): column for column in known}
    if text in alike:
        return alike[text]
    if LIKELY.get(text) in known:
        return LIKELY[text]
    longer = [name for name in alike if len(text) > 2 and name.startswith(text)]
    if len(longer) == 1:
        return alike[longer[0]]
    near = difflib.get_close_matches(text, alike, 1, 0.8)
    return alike[near[0]] if near else None


def hint_of(name: str, known: Iterable[object]) -> str:
    """Which of the known columns a missing one is likely to be, as a question; empty for none."""
    guess = likely(name, [str(column) for column in known])
    return f" (is it {guess!r}?)" if guess else ""


def refuse_unknown(
    found: Iterable[object], known: Collection[str], ignore: Collection[str] = ()
) -> None:
    """Raises ColumnError for columns that are neither known nor to be ignored (`*` is each): one
    may be a known one by another name, without which the table says something else.
    """
    strange = [name for name in found if name not in known and not {name, "*"} & {*ignore}]
    guesses = [(name, likely(name, known)) for name in strange]
    unknown = [f"{name!r} (is it {it}?)" if it else f"{name!r}" for name, it in guesses]
    if unknown:
        word = "column" if len(unknown) == 1 else "columns"
        raise ColumnError(
            f"unknown {word} {', '.join(unknown)}: rename it or ignore it; there are "
            f"{', '.join(known)}"
        )


def joins_of(columns: Mapping[str, str], names: Collection[object]) -> dict[str, list[str]]:
    """By each name of theirs that joins columns, as `Date+Time`, these, where all are there and no
    column has that name.
    """
    parts = {it: [name.strip() for name in it.split("+")] for it in columns.values() if "+" in it}
    return {it: own for it, own in parts.items() if it not in names and {*own} <= {*names}}


def kinds_of(columns: Mapping[str, str]) -> dict[str, dict[str, str]]:
    """By our name of a column what it is for kinds of rows, as `trade.price=LastPx` says."""
    found: dict[str, dict[str, str]] = {}
    for name, theirs in columns.items():
        kind, sign, ours = name.partition(".")
        if sign and kind in EVENTS and ours != "event":
            found.setdefault(ours, {})[kind] = theirs
    return found


def _refuse_unmapped(names: Collection[object], columns: Mapping[str, str]) -> None:
    """Raises ValueError for a name of ours that isn't one, and ColumnError for one of theirs that
    isn't there.
    """
    kinds = kinds_of(columns)
    for name, theirs in columns.items():
        kind, _, ours = name.rpartition(".")
        if ours not in EVENT_COLUMNS or kind and kind not in kinds.get(ours, {}):
            guess = likely(ours, EVENT_COLUMNS)
            hint = f" (is it {guess}?)" if guess else ""
            raise ValueError(f"columns: there is no column {name!r}{hint} to map {theirs!r} to")
        if theirs not in names and not (kind and not theirs):
            parts = (it.strip() for it in theirs.split("+"))
            missing = next((it for it in parts if it not in names), theirs)
            hint = hint_of(missing, names)
            raise ColumnError(f"columns: the table has no column {missing!r}{hint}")


def names_of_columns(found: Iterable[object], columns: Mapping[str, str]) -> dict[object, str]:
    """By each column that a mapping of our names to theirs names, our name, but for those of a
    kind. Raises ValueError for a name of ours that isn't one, or two of ours for one of theirs, and
    ColumnError for one of theirs that the table hasn't.
    """
    names = [*found]
    _refuse_unmapped(names, columns)
    columns = {ours: theirs for ours, theirs in columns.items() if "." not in ours}
    made: dict[object, str] = {theirs: ours for ours, theirs in columns.items()}
    if len(made) < len(columns):
        raise ValueError("columns: two columns are mapped to one of the table")
    others = {name: OTHER_NAMES[str(name)] for name in names if name in OTHER_NAMES}
    return {**others, **made}

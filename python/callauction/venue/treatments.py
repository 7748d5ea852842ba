"""What a round is: how its values are handed out, what its members see and may do, what is said to
all. A table of a day's file says it, or a message of the operator.
"""
import dataclasses
import functools
from collections.abc import Callable
from typing import Any, Self

from callauction.limits import MOST_QUANTITY
from callauction.venue.fields import SENTENCE, TABLE, Fields
from callauction.venue.handing import HANDING_WAYS, HandError, ListedValue, Rule, rows_of

MOST_CALL_SECONDS = 86_400
BOOKS = ("closed", "open")
Read = Callable[[str], str]
"""What gives the text of the file of values of this name. Raises ConfigError."""


@dataclasses.dataclass(frozen=True)
class Limits:
    """What is refused: orders beyond one's value where `is_covered`; those that could trade with an
    own order unless `has_own_trades`; more asks than `shares`, and more bids than `money`, in ticks
    times shares, which each member has at first. None is no limit.
    """

    is_covered: bool = False
    has_own_trades: bool = True
    shares: int | None = None
    money: int | None = None

    @functools.cached_property
    def are_none(self) -> bool:
        """Whether nothing is refused."""
        return self == Limits()


@dataclasses.dataclass(frozen=True)
class Treatment:
    """A round: its title; whether it counts; whether members see the book; how values are handed
    out; another first reference price, and a message to all; another length of a call phase;
    what is refused (Limits). Prices and money are decimal texts, empty for none.
    """

    title: str = ""
    is_practice: bool = False
    book: str = BOOKS[0]
    rule: Rule = Rule()
    reference: str = ""
    message: str = ""
    call: int | None = None
    is_covered: bool = False
    has_own_trades: bool = True
    shares: int | None = None
    money: str = ""

    def kept(self) -> dict[str, Any]:
        """What is written down of it."""
        return dataclasses.asdict(self)

    @classmethod
    def of(cls, kept: dict[str, Any]) -> Self:
        """What was written down. Raises KeyError and TypeError for anything else."""
        rule = dict(kept["rule"])
        rule["rows"] = tuple(ListedValue(**row) for row in rule["rows"])
        rule |= {name: tuple(rule[name]) for name in ("demand", "supply")}
        fields: dict[str, Any] = kept | {"rule": Rule(**rule)}
        return cls(**fields)


def treatment_from(fields: Fields, read: Read | None) -> Treatment:
    """The round of a table, whose list of values is a file, or, without `read`, a text. Raises
    ConfigError.
    """
    default = Treatment()
    found = Treatment(
        title=fields.text("title", default.title),
        is_practice=fields.flag("practice", default.is_practice),
        book=fields.choice("book", BOOKS, default.book),
        rule=rule_from(fields, read),
        reference=fields.price("reference"),
        message=fields.sentence("message"),
        call=fields.whole_or_none("call", 0, MOST_CALL_SECONDS),
        is_covered=fields.flag("covered", default.is_covered),
        has_own_trades=fields.flag("own_trades", default.has_own_trades),
        shares=fields.whole_or_none("shares", 0, MOST_QUANTITY),
        money=fields.price("money"),
    )
    fields.ended()
    return found


def rule_from(fields: Fields, read: Read | None) -> Rule:
    """How the values of a round are handed out. Raises ConfigError."""
    default = Rule()
    file = fields.text("file", "", SENTENCE if read else TABLE)
    try:
        rows = rows_of(read(file) if read else file) if file else ()
    except HandError as fault:
        raise fields.fault(f"file {file}:" if read else "file", str(fault)) from None
    return Rule(
        how=fields.choice("values", HANDING_WAYS, default.how),
        low=fields.price("low"),
        high=fields.price("high"),
        quantity=fields.whole("quantity", default.quantity, 1, MOST_QUANTITY),
        demand=fields.prices("demand"),
        supply=fields.prices("supply"),
        rows=rows,
    )

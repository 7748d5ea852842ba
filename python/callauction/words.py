"""The words of an auction: its numbers, its commands and its replies.

Limits and prices are ticks, quantities, volumes and surpluses are whole shares, ids are those that
entered orders were given. A limit of None is a market order's. docs/MODEL.md has the rules.
"""
import dataclasses
import enum


class Side(enum.IntEnum):
    """The side of an order or of a surplus, which has none where it is 0."""

    NONE = 0
    BID = 1
    ASK = 2


class Restriction(enum.IntEnum):
    """The trading restriction of an order: the auctions that it is for."""

    NONE = 0
    OPENING_ONLY = 1
    CLOSING_ONLY = 2


class AuctionKind(enum.IntEnum):
    """The auctions of a day."""

    OPENING = 1
    INTRADAY = 2
    CLOSING = 3


AUCTIONS = tuple(kind.name.lower() for kind in AuctionKind)
MARKET = "market"
"""The words of files for the auctions, in their order, and for no limit."""


class Refusal(enum.IntEnum):
    """Why a command was refused."""

    BAD_QUANTITY = 1
    BAD_LIMIT = 2
    BAD_PEAK = 3
    BOOK_FULL = 4
    UNKNOWN_ORDER = 5
    NOT_OPERATOR = 6
    DAY_OVER = 7
    NO_SUCH_TRADE = 8
    PAST_AUCTION = 9


class CommandTag(enum.IntEnum):
    """The tags of a command in an array."""

    ENTER = 1
    CHANGE = 2
    DELETE = 3
    ORDER_STATUS = 4
    INDICATE = 5
    READ_TRADE = 6
    UNCROSS = 7


TAG_WORDS = {
    "enter": CommandTag.ENTER,
    "change": CommandTag.CHANGE,
    "delete": CommandTag.DELETE,
    "status": CommandTag.ORDER_STATUS,
    "ask": CommandTag.INDICATE,
    "trade": CommandTag.READ_TRADE,
    "uncross": CommandTag.UNCROSS,
}
SIDE_WORDS = {"bid": Side.BID, "ask": Side.ASK}
RESTRICTION_WORDS = {
    "": Restriction.NONE,
    "opening": Restriction.OPENING_ONLY,
    "closing": Restriction.CLOSING_ONLY,
}
"""The commands, sides and restrictions by their words in a file or a frame."""
SIDES = tuple(SIDE_WORDS)
"""The words of the sides."""
RESTRICTED = tuple(word for word in RESTRICTION_WORDS if word)
"""The words of the restrictions but none, in their order."""
WORD_OF_RESTRICTION = {value: word for word, value in RESTRICTION_WORDS.items()}


class ReplyTag(enum.IntEnum):
    """The tags of a reply in an array."""

    ENTERED = 1
    CHANGED = 2
    DELETED = 3
    OPEN_ORDER = 4
    PRICED = 5
    UNPRICED = 6
    TRADED = 7
    UNCROSSED = 8
    INTERRUPTED = 9
    REFUSED = 10


@dataclasses.dataclass(frozen=True, slots=True)
class Config:
    """What an auction was opened with."""

    low: int
    high: int
    reference: int
    max_open: int
    max_calls: int
    range: int | None
    reserve: int = 0


# ---- commands


@dataclasses.dataclass(frozen=True, slots=True)
class Enter:
    """A new order; with a peak it is an iceberg order, which shows at most `peak` shares. `client`
    is any number of the caller's own, which is given back where the order is listed.
    """

    side: Side
    quantity: int
    limit: int | None = None
    peak: int | None = None
    restriction: Restriction = Restriction.NONE
    client: int = 0


@dataclasses.dataclass(frozen=True, slots=True)
class Change:
    """Another open quantity and limit of the member's order with this id."""

    id: int
    quantity: int
    limit: int | None = None


@dataclasses.dataclass(frozen=True, slots=True)
class Delete:
    """Takes the member's order with this id out."""

    id: int


@dataclasses.dataclass(frozen=True, slots=True)
class OrderStatus:
    """Asks what is open of the member's order with this id."""

    id: int


@dataclasses.dataclass(frozen=True, slots=True)
class Indicate:
    """Asks for the indicative price, or the best bid and ask."""


@dataclasses.dataclass(frozen=True, slots=True)
class ReadTrade:
    """Asks for a trade of the day by its number, from 1 on."""

    number: int


@dataclasses.dataclass(frozen=True, slots=True)
class Uncross:
    """Determines the price and executes; for member 0 alone."""


Command = Enter | Change | Delete | OrderStatus | Indicate | ReadTrade | Uncross


# ---- replies


@dataclasses.dataclass(frozen=True, slots=True)
class Entered:
    """The id of the order that was entered."""

    id: int


@dataclasses.dataclass(frozen=True, slots=True)
class Changed:
    """Whether the changed order kept its place in time."""

    kept: bool


@dataclasses.dataclass(frozen=True, slots=True)
class Deleted:
    """The order was taken out."""


@dataclasses.dataclass(frozen=True, slots=True)
class OpenOrder:
    """An open order: what is open of it, and how much of that is shown."""

    side: Side
    quantity: int
    limit: int | None
    visible: int


@dataclasses.dataclass(frozen=True, slots=True)
class Price:
    """An auction price, with the volume that it executes, and the surplus and its side."""

    tick: int
    volume: int
    surplus: int
    side: Side


@dataclasses.dataclass(frozen=True, slots=True)
class NoPrice:
    """The highest bid limit and the lowest ask limit, None where there is none."""

    best_bid: int | None
    best_ask: int | None


@dataclasses.dataclass(frozen=True, slots=True)
class Traded:
    """A trade: the ids of its bid and of its ask, its shares, its price."""

    bid: int
    ask: int
    quantity: int
    tick: int


@dataclasses.dataclass(frozen=True, slots=True)
class Uncrossed:
    """The auction that was uncrossed, its price if there was one, and how many trades it made."""

    auction: AuctionKind
    price: Price | None
    trades: int


@dataclasses.dataclass(frozen=True, slots=True)
class Interrupted:
    """The uncross was interrupted: its price lies too far from the reference."""

    price: Price


@dataclasses.dataclass(frozen=True, slots=True)
class Refused:
    """The command was refused, and left all but the count of calls as it was."""

    refusal: Refusal


Reply = (
    Entered
    | Changed
    | Deleted
    | OpenOrder
    | Price
    | NoPrice
    | Traded
    | Uncrossed
    | Interrupted
    | Refused
)


@dataclasses.dataclass(frozen=True, slots=True)
class State:
    """Where the day is: the auction whose call phase it is, None after the day; whether an
    interruption extended that call phase; the reference price; how many commands were applied, the
    refused ones among them, and how many more may be, by member 0 and by each other member.
    """

    auction: AuctionKind | None
    is_extended: bool
    reference: int
    calls: int
    calls_left: int
    calls_left_to_members: int


@dataclasses.dataclass(frozen=True, slots=True)
class MarketOrders:
    """The shares of the market orders that count."""

    bids: int
    asks: int

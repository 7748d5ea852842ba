"""A proved call auction of one instrument over one day, in this process.

    from callauction import Auction, Side

    with Auction(low=1, high=1000, reference=200) as auction:
        auction.enter(1, Side.BID, 500, limit=200)
        auction.enter(2, Side.ASK, 300, limit=200)
        print(auction.indicate(1), auction.uncross())

docs/LIBRARY.md has the calls, the errors, and what is proved; docs/MODEL.md has the rules. Tables,
pictures, sentences, reports and extracts of other systems: python/README.md.
"""
import importlib
from typing import TYPE_CHECKING

if TYPE_CHECKING:
    from callauction import journal, plot, report, verdict
    from callauction.arrays import COMMAND, ENTRY, ORDER, OUTCOME, RECEIPT, REPLY, TRADE
    from callauction.auction import Auction
    from callauction.board import Board, Member, Receipt, Shown
    from callauction.board_day import BoardDay
    from callauction.carried import CarriedOver
    from callauction.columns import commands
    from callauction.errors import (
        AuctionError,
        BusyError,
        ClosedError,
        FullError,
        NoCommandError,
        NotAppliedError,
        NotEnteredError,
        RefusedError,
    )
    from callauction.gains import Gains, gains_of
    from callauction.outcomes import Played
    from callauction.reasons import explain
    from callauction.recording import RecordedAuction
    from callauction.refused import refusals
    from callauction.replies import reply_of
    from callauction.tables import audit, read_book, read_journal, read_trades
    from callauction.ticks import Ticks
    from callauction.verdict import audit_auction, audit_events
    from callauction.words import (
        AuctionKind,
        Change,
        Changed,
        Command,
        CommandTag,
        Config,
        Delete,
        Deleted,
        Enter,
        Entered,
        Indicate,
        Interrupted,
        MarketOrders,
        NoPrice,
        OpenOrder,
        OrderStatus,
        Price,
        ReadTrade,
        Refusal,
        Refused,
        Reply,
        ReplyTag,
        Restriction,
        Side,
        State,
        Traded,
        Uncross,
        Uncrossed,
    )

__all__ = [
    "Auction",
    "AuctionError",
    "AuctionKind",
    "Board",
    "BoardDay",
    "BusyError",
    "COMMAND",
    "CarriedOver",
    "Change",
    "Changed",
    "ClosedError",
    "Command",
    "CommandTag",
    "Config",
    "Delete",
    "Deleted",
    "ENTRY",
    "Enter",
    "Entered",
    "FullError",
    "Gains",
    "Indicate",
    "Interrupted",
    "MarketOrders",
    "Member",
    "NoCommandError",
    "NoPrice",
    "NotAppliedError",
    "NotEnteredError",
    "ORDER",
    "OUTCOME",
    "OpenOrder",
    "OrderStatus",
    "Played",
    "Price",
    "RECEIPT",
    "REPLY",
    "ReadTrade",
    "Receipt",
    "RecordedAuction",
    "Refusal",
    "Refused",
    "RefusedError",
    "Reply",
    "ReplyTag",
    "Restriction",
    "Shown",
    "Side",
    "State",
    "TRADE",
    "Ticks",
    "Traded",
    "Uncross",
    "Uncrossed",
    "audit",
    "audit_auction",
    "audit_events",
    "commands",
    "explain",
    "gains_of",
    "journal",
    "plot",
    "read_book",
    "read_journal",
    "read_trades",
    "refusals",
    "reply_of",
    "report",
    "verdict",
]

__version__ = "2026.11.26"

_MODULES = ("journal", "plot", "report", "verdict")
_LATER = {
    "BoardDay": "board_day",
    "CarriedOver": "carried",
    "Gains": "gains",
    "Played": "outcomes",
    "RecordedAuction": "recording",
    "Ticks": "ticks",
    "audit": "tables",
    "audit_auction": "verdict",
    "audit_events": "verdict",
    "commands": "columns",
    "explain": "reasons",
    "gains_of": "gains",
    "read_book": "tables",
    "read_journal": "tables",
    "read_trades": "tables",
    "refusals": "refused",
}
_PLACES = ("words", "arrays", "errors", "replies", "auction", "board")


def __getattr__(name: str) -> object:
    """A public name, imported when it is first used, and then kept: so callauction.market needs no
    library, which a machine of a cluster may not have, and a simulator no pandas. Raises
    AttributeError for another name.
    """
    found = globals()[name] = _looked_up(name)
    return found


def __dir__() -> list[str]:
    """The public names, those that weren't used yet among them."""
    return sorted({*globals(), *__all__})


def _looked_up(name: str) -> object:
    """A public name from its module. Raises AttributeError."""
    if name in _MODULES:
        return importlib.import_module(f"callauction.{name}")
    if name in _LATER:
        return getattr(importlib.import_module(f"callauction.{_LATER[name]}"), name)
    if name in __all__:
        for place in _PLACES:
            found = vars(importlib.import_module(f"callauction.{place}"))
            if name in found:
                return found[name]
    raise AttributeError(f"module {__name__!r} has no attribute {name!r}")

"""What is shown of an instrument, as JSON: prices as decimal texts, quantities in shares."""
from collections.abc import Callable, Container, Iterable

from callauction.venue.accounts import MemberFill
from callauction.venue.arrivals import last_of
from callauction.venue.auctions import trades_in
from callauction.venue.instrument_board import InstrumentBoard
from callauction.venue.json_types import Json
from callauction.venue.members import Members, VenueMember
from callauction.venue.results import Payoff
from callauction.venue.rounds import Round, Rounds, small
from callauction.venue.treatments import Treatment
from callauction.venue.views import DayTrade, Indication

UNKNOWN: Json = dict.fromkeys(("phase", "auction"), "unknown") | dict.fromkeys(
    ("ends", "latest", "reference", "indication", "results", "trades", "left")
    + ("calls_left_to_members",)
)
"""What a state has until the program has shown what the day has."""
MOST_GAINS = 10
"""How many members are shown who gained most."""
MOST_TRADES = 500
"""The last trades that are shown unasked, and the trades of one look."""


def price_of(board: InstrumentBoard, tick: int | None) -> str | None:
    """A tick as a decimal price."""
    return None if tick is None else board.terms.price(tick)


def indication_of(board: InstrumentBoard, found: Indication) -> Json:
    """The indicative price with its volume and surplus, or the best bid and ask."""
    ticks = {name: price_of(board, getattr(found, name)) for name in ("price", "bid", "ask")}
    return ticks | {"volume": found.volume, "surplus": found.surplus, "side": found.side}


def results_of(board: InstrumentBoard) -> list[Json]:
    """What the uncrosses of the day came to: the auction, whether it was interrupted, the price,
    how many trades.
    """
    found = []
    for text in board.auctions.results:
        shown = indication_of(board, Indication.of(text))
        shown["trades"] = trades_in(text)
        found.append({"auction": text.partition(" ")[0]} | shown)
    return found


def state_of(board: InstrumentBoard, now: float) -> Json:
    """What everybody may see: the phase, its clock, the indication, what uncrosses came to; without
    what isn't known yet.
    """
    state = board.auctions.state
    found: Json = {
        "type": "state",
        "instrument": board.terms.name,
        "phase": str(state.phase),
        "auction": state.auction,
        "frozen": state.frozen is not None,
        "halted": board.engine.halted,
        "now": round(state.frozen or now, 3),
        "ends": state.ends,
        "latest": state.latest,
        "reference": price_of(board, board.looks.day.reference),
        "indication": indication_of(board, board.looks.indication),
        "results": results_of(board),
        "trades": len(board.looks.trades),
        "left": board.looks.day.left,
        "calls_left_to_members": max(0, board.commands.left),
        "round": board.identity.round,
    }
    return found if board.looks.is_seen else found | UNKNOWN


def terms_of(board: InstrumentBoard, has_groups: bool = False) -> Json:
    """What an instrument is; its title has the number of its group where there are more."""
    terms, identity = board.terms, board.identity
    limits = {name: terms.price(getattr(terms, name)) for name in ("low", "high")}
    title = terms.title or identity.instrument
    return limits | {
        "name": terms.name,
        "title": f"{title} · {identity.group}" if has_groups else title,
        "currency": terms.currency,
        "tick_size": format(terms.grid.tick_size, "f"),
        "range": price_of(board, terms.range),
        "most_quantity": terms.most_quantity,
    }


def orders_of(board: InstrumentBoard, member: str) -> Json:
    """A member's open orders."""
    orders = [
        {
            "order": it.order,
            "side": it.side,
            "price": price_of(board, it.limit),
            "open": it.open,
            "visible": it.visible,
            "filled": it.filled,
            "only": it.restriction,
        }
        for it in sorted(board.looks.orders.get(member, []), key=lambda it: it.order)
    ]
    return {"type": "orders", "instrument": board.terms.name, "orders": orders}


def fill_of(board: InstrumentBoard, it: MemberFill) -> Json:
    """A fill."""
    return {
        "trade": it.trade,
        "order": it.order,
        "side": it.side,
        "quantity": it.quantity,
        "price": price_of(board, it.tick),
    }


def money_of(board: InstrumentBoard, ticks: int) -> str:
    """Ticks times shares as an amount of the currency."""
    return format(ticks * board.terms.grid.tick_size, "f")


def value_of(board: InstrumentBoard, member: str) -> Json | None:
    """What a member was handed out, None where it has no value."""
    value = board.accounts.values.get(member)
    if value is None:
        return None
    price = price_of(board, value.tick)
    return {"side": value.side, "price": price, "quantity": value.quantity}


def gain_of(board: InstrumentBoard, member: str) -> str | None:
    """What a member has gained, None where nobody was handed out a value."""
    if not board.accounts.has_values:
        return None
    return money_of(board, board.accounts.gain_of(member))


def fills_of(board: InstrumentBoard, member: str) -> Json:
    """A member's fills, its value and how many shares more that covers, and its gain."""
    fills = board.accounts.fills_of(member)
    return {
        "type": "fills",
        "instrument": board.terms.name,
        "fills": [fill_of(board, it) for it in fills[-MOST_TRADES:]],
        "value": value_of(board, member),
        "left": board.accounts.left_of(member),
        "gain": gain_of(board, member),
    }


def trades_of(
    board: InstrumentBoard, trades: Iterable[DayTrade], title_of: Callable[[str], str] | None = None
) -> Json:
    """Trades, with who traded with whom where that is to be seen, by the titles of the members."""
    found, party = [], board.book.of_order
    for it in trades:
        price = price_of(board, it.tick)
        row: Json = {"trade": it.number, "quantity": it.quantity, "price": price}
        if title_of is not None:
            buyer, seller = (title_of(party(order)) for order in (it.bid, it.ask))
            row |= {"buyer": buyer, "seller": seller}
        found.append(row)
    return {"type": "trades", "instrument": board.terms.name, "trades": found}


def ladder_of(board: InstrumentBoard, is_whole: bool = False) -> Json:
    """The visible shares at each limit, or the whole ones; no price for those of market orders."""
    those = board.looks.levels if is_whole else board.looks.visible_levels
    levels = [
        {"price": price_of(board, it.limit), "bid": it.bid, "ask": it.ask}
        for it in those
    ]
    return {"type": "ladder", "instrument": board.terms.name, "levels": levels}


def course_of(board: InstrumentBoard) -> Json:
    """The indicative price since the call began, with the times of the epoch."""
    points = [
        {
            "time": round(it.time, 2),
            "price": price_of(board, it.indication.price),
            "volume": it.indication.volume,
        }
        for it in board.auctions.course
    ]
    return {
        "type": "course",
        "instrument": board.terms.name,
        "began": board.auctions.began,
        "points": points,
    }


def efficiency_of(board: InstrumentBoard, title_of: Callable[[str], str]) -> Json:
    """The gain of all members, the most that was possible where values were given, the whole
    percent of it that was gained; the prices and the volume that the values predict; who gained
    most.
    """
    gain, most = board.accounts.gain, board.accounts.most
    return {
        "type": "efficiency",
        "instrument": board.terms.name,
        "gain": money_of(board, gain),
        "most": money_of(board, most),
        "percent": 100 * gain // most if most > 0 else None,
        "predicted": predicted_of(board),
        "gains": gains_of(board, title_of),
    }


def gains_of(board: InstrumentBoard, title_of: Callable[[str], str]) -> list[Json]:
    """Who gained most, by the titles of the members, where values were given; who gained as much
    has the same rank.
    """
    if not board.accounts.has_values:
        return []
    found = [(board.accounts.gain_of(it), title_of(it)) for it in board.book.numbers]
    found.sort(key=lambda it: -it[0])
    falling = [gain for gain, _ in found]
    return [
        {"rank": 1 + falling.index(gain), "name": title, "gain": money_of(board, gain)}
        for gain, title in found[:MOST_GAINS]
        if gain > 0
    ]


def predicted_of(board: InstrumentBoard) -> Json | None:
    """The prices and the volume that the values predict, the most of it too, None where they
    predict no trade.
    """
    found = board.accounts.predicted
    if found is None:
        return None
    low, high = (price_of(board, it) for it in (found.low, found.high))
    return {"low": low, "high": high, "volume": found.volume, "most_volume": found.most}


def halt_of(board: InstrumentBoard, why: str) -> Json:
    """What is said of a board of an earlier round that has halted."""
    identity = board.identity
    return {"instrument": identity.name, "round": identity.round, "why": why}


def member_of(member: VenueMember, is_there: bool, rounds: Rounds) -> Json:
    """A member, whether it is connected, and its values and gains."""
    return {
        "name": member.title,
        "is_here": is_there or bool(member.robot),
        "is_removed": member.is_removed,
        "robot": member.robot,
        "group": member.group,
        "values": {
            name: {"value": value_of(it, member.name), "gain": gain_of(it, member.name)}
            for name, it in rounds.boards_of(member).items()
        },
    }


def members_of(members: Members, there: Container[VenueMember | None], rounds: Rounds) -> Json:
    """Who is a member, and who is connected; the codes by which they come, how many there may be,
    and the addresses whose new members are slowed, with how many came from there and who did last;
    the small groups of a round that has begun, with who is there.
    """
    rows = [member_of(it, it in there, rounds) for it in members.everybody]
    codes = {members.title_of(name): code for name, code in members.codes.by_name.items()}
    slowed = [
        {"address": address, "count": len(names), "last": last_of(names)}
        for address, names in members.arrivals.slowed().items()
    ]
    found = {"type": "members", "members": rows, "codes": codes, "open": members.codes.is_open}
    groups = small(members.sizes) if rounds.now.has_begun else []
    few = [
        {"group": group, "names": [it.title for it in members.all if it.group == group]}
        for group in sorted(groups)
    ]
    return found | {"most": members.most, "slowed": slowed, "small": few}


def treatment_of(treatment: Treatment) -> Json:
    """What a round is."""
    rule = treatment.rule
    return {
        "title": treatment.title,
        "practice": treatment.is_practice,
        "book": treatment.book,
        "values": rule.how,
        "low": rule.low,
        "high": rule.high,
        "quantity": rule.quantity,
        "demand": [*rule.demand],
        "supply": [*rule.supply],
        "reference": treatment.reference,
        "message": treatment.message,
        "call": treatment.call,
        "covered": treatment.is_covered,
        "own_trades": treatment.has_own_trades,
        "shares": treatment.shares,
        "money": treatment.money,
    }


def round_of(round_: Round) -> Json:
    """Which round it is, what it is, and what is said to all now. Members don't see the schedules
    of a round.
    """
    found = treatment_of(round_.treatment)
    for name in ("low", "high", "quantity", "demand", "supply"):
        del found[name]
    numbers = {"round": round_.number, "groups": round_.groups, "begun": round_.has_begun}
    return {"type": "round"} | found | numbers | {"message": round_.message}


def payoff_of(payoff: Payoff, count: int, has_rank: bool) -> Json:
    """What a member is paid, and its place among all where it may see that."""
    return {
        "type": "payoff",
        "rounds": [
            {
                "round": it.round,
                "title": it.title,
                "practice": it.is_practice,
                "gain": None if it.gain is None else format(it.gain, "f"),
            }
            for it in payoff.gains
        ],
        "gain": format(payoff.gain, "f"),
        "paid": format(payoff.paid, "f"),
        "currency": payoff.currency,
        "rank": payoff.rank if has_rank else None,
        "of": count if has_rank else None,
    }


def ranking_of(payoffs: Iterable[Payoff]) -> Json:
    """What all are paid, who has most first."""
    rows = [
        {
            "rank": it.rank,
            "name": it.title,
            "gain": format(it.gain, "f"),
            "paid": format(it.paid, "f"),
            "currency": it.currency,
        }
        for it in payoffs
    ]
    return {"type": "ranking", "rows": rows}

"""Why a finding is one: the rule that decides the item, in sentences with the numbers of its book
and in the extract's ids, members, times and prices. The first sentence says most.
"""
from collections.abc import Iterator

from callauction.reasons import explain as explain_book
from callauction.verdict.comparing import (
    FILL_ITEM, PRIORITY, Difference, KeyedFill, KeyedTrade, keys_of,
)  # fmt: skip
from callauction.verdict.context import Context, RestingOrder
from callauction.verdict.rows import (
    INTERRUPTED, RESTRICTION_OF, RESTRICTIONS, SIDES, CellCode, Kind,
)

KEPT = (
    "A replace keeps the place in time where the limit is the same and the quantity isn't greater, "
    "and else loses it."
)
PRIORITIES = "The volume falls to the orders of each side in their priority."


def rule_of(context: Context, difference: Difference) -> str:
    """The first sentence of a difference."""
    return next(_sentences(context, difference), PRIORITIES)


def sentences_of(context: Context, difference: Difference) -> list[str]:
    """The sentences of a difference."""
    return [*dict.fromkeys(_sentences(context, difference))] or [PRIORITIES]


def _sentences(context: Context, difference: Difference) -> Iterator[str]:
    """The sentences of a difference, of which one may come twice, or none at all."""
    if difference.rule:
        yield difference.rule
    elif difference.item == "auction":
        yield from _of_auction(context, difference)
    elif difference.item == "price":
        yield from _of_price(context)
    elif difference.item == PRIORITY:
        yield KEPT
    elif difference.item in ("trade", FILL_ITEM):
        yield from _of_trade(context, difference)
    else:
        if difference.item == "count":
            yield _of_count(context)
        yield from _of_volume(context)


# ---- prices


def book_sentences(context: Context) -> list[str]:
    """Why the book before the uncross has its price."""

    def named(tick: int) -> str:
        return context.price(context.named(tick))

    return [*explain_book(context.books, None, context.uncross.reference, named)]


def _of_price(context: Context) -> list[str]:
    """The sentences of the book, the one that decides first."""
    found = book_sentences(context)
    place = max(0, len(found) - (3 if context.result.price is not None else 2))
    return [found[place], *found[:place], *found[place + 1 :]]


def effect_of(context: Context, difference: Difference) -> str:
    """What a recorded price would have executed, beside the lawful one; empty for other items."""
    recorded, lawful = difference.recorded, difference.lawful
    if difference.item != "price" or not isinstance(recorded, int) or recorded == lawful:
        return ""
    prices = [it for it in (recorded, lawful) if isinstance(it, int) and it >= 0]
    texts = [_executed(context, it) for it in prices]
    return f"{', and '.join(texts)}." if texts else ""


def _executed(context: Context, number: int) -> str:
    """What the orders before an uncross execute at a price, and what that leaves."""
    price = context.rows.prices[number]
    sums = [int(context.meeting(side, number)[1].sum()) for side in ("bid", "ask")]
    executed, left = min(sums), abs(sums[0] - sums[1])
    side = f" {SIDES[1 if sums[0] > sums[1] else 2]}" if left else ""
    limits = context.judged.book.price[context.judged.book.counted(context.judged.auction)]
    is_odd = (limits >= 0).any() and number not in limits
    named = context.price(price) + ", which is no order's limit," * bool(is_odd)
    return f"{named} executes {executed:,} with {left:,}{side} left"


def _of_volume(context: Context) -> list[str]:
    """Demand, supply, volume and surplus at the price."""
    found = book_sentences(context)
    return [" ".join(found[-2:])] if context.result.price is not None else found


def _of_count(context: Context) -> str:
    result = context.result
    bids, asks = (len({*keys.tolist()}) for keys in (result.bid, result.ask))
    return (
        f"The fills of {bids:,} bids and of {asks:,} asks, laid end to end in their priority, "
        f"overlap in {len(result.bid):,} places, each of which is a trade."
    )


# ---- auctions


def _of_auction(context: Context, difference: Difference) -> Iterator[str]:
    due = ", ".join(context.rules.auctions)
    if context.judged.result is None:
        yield f"The auctions of the day ({due}) were over, and none follows."
    elif str(difference.lawful).startswith("behind"):
        price, published = context.lawful_price, "no price"
        if price is not None:
            published = f"price {context.price(price)} and volume {context.result.volume:,}"
        yield (
            f"What was published, {published}, is the result of the book {difference.lawful}, and "
            f"not of the book {difference.recorded}."
        )
    elif INTERRUPTED in (difference.recorded, difference.lawful):
        yield _of_interruption(context)
    else:
        yield (
            f"The auctions of the day follow one another ({due}), and here the "
            f"{difference.lawful} is due."
        )


def _of_interruption(context: Context) -> str:
    """Why an uncross is interrupted, or not."""
    price, ranges = context.lawful_price, context.ranges
    if not ranges:
        return "The day has no range of prices, so no uncross is interrupted."
    if price is None:
        return "There is no price, so the uncross isn't interrupted."
    out = [(span, at) for span, at in ranges if span.is_out(price, at)]
    span, reference = (out or ranges)[0]
    name = "reference" if (span, reference) == ranges[0] else "second reference"
    gap = f"The price, {context.price(price)}, is {context.price(abs(price - reference))} from "
    gap += f"the {name}, {context.price(reference)}"
    if context.judged.is_extended:
        return f"{gap}, but the auction was interrupted before, and that is done once."
    shown = context.price(span.width) if span.whole is None else f"{span} of it"
    if out:
        return f"{gap}, beyond the range of {shown}, so the uncross is interrupted."
    return f"{gap}, within the range of {shown}, so the uncross isn't interrupted."


# ---- trades and fills


def _of_trade(context: Context, difference: Difference) -> Iterator[str]:
    """Why a trade or a fill isn't lawful, or is missing."""
    recorded, lawful = difference.recorded, difference.lawful
    if difference.auction:
        yield f"No row says what the {difference.auction} published."
        return
    if context.judged.result is None:
        yield "The auctions of the day were over, or the book is more than the program holds."
        return
    if isinstance(lawful, str) and isinstance(recorded, KeyedTrade | KeyedFill):
        yield f"Its orders trade in the {lawful}, and not in the {context.auction}."
        return
    if isinstance(recorded, KeyedTrade | KeyedFill):
        sides = " ".join(_of_sides(context, recorded))
        yield from [sides] * bool(sides)
        for key in sorted(keys_of(recorded), key=context.at.__contains__):
            yield from _of_closed(context, key)
        if isinstance(lawful, KeyedTrade | KeyedFill):
            yield from _of_members(context, difference, recorded, lawful)
        yield from _of_trade_price(context, recorded)
        yield from _of_open(context, recorded)
    yield from _of_queue(context, difference)
    if len(difference.places) > 1 and isinstance(recorded, KeyedTrade | KeyedFill):
        labels = (str(context.rows.labels[place]) for place in difference.places)
        yield f"Rows {', '.join(labels)} record it together."
    if isinstance(lawful, KeyedTrade) and (lawful.bid, lawful.ask) in context.begins:
        yield _of_spans(context, lawful)
    price = context.lawful_price
    if isinstance(recorded, str) and price is not None:
        yield f"All trades of an auction are at its price, {context.price(price)}."


def _of_open(context: Context, recorded: KeyedTrade | KeyedFill) -> Iterator[str]:
    """Which order of a trade or a fill has fewer shares open than were recorded of it."""
    hint = "" if context.rows.has_peaks else " (are hidden shares missing?)"
    for key in keys_of(recorded):
        order = context.open_order(context.at[key]) if key in context.at else None
        if order is None:
            continue
        if order.quantity < recorded.quantity:
            yield f"{order.order} has {order.quantity:,} open, and no {recorded.quantity:,}{hint}."
        elif order.quantity < context.recorded.get(key, 0):
            total = context.recorded[key]
            has = f"{order.order} has {order.quantity:,} open"
            yield f"{has}, and {total:,} are recorded of it{hint}."


def _of_closed(context: Context, key: int) -> Iterator[str]:
    """Why an order can't trade in the auction, where it can't."""
    if key in context.at:
        yield from _of_excluded(context, context.open_order(context.at[key]))
    elif key not in context.entered:
        yield f"{context.order(key)} {_why_unknown(context, key)}."
    else:
        yield f"{context.order(key)} {_why_closed(context, key)}."


def _why_unknown(context: Context, key: int) -> str:
    """Why an order isn't known: no row that was read enters it."""
    if key not in context.unread:
        return "is the id of no order"
    return f"is the id of no order that was read; row {context.unread[key]} has it, and wasn't read"


def _why_closed(context: Context, key: int) -> str:
    """Why an entered order isn't open in the auction."""
    place, lapsed = context.entered[key], context.lapsed(key)
    if place > context.judged.place:
        return f"is entered in row {context.rows.labels[place]}, behind this uncross"
    if lapsed:
        return f"is for the {lapsed} alone, which is over"
    return f"isn't open in this auction: it was {_closing(context, key)}"


def _closing(context: Context, key: int) -> str:
    """What took an order out of the book, and where."""
    place = context.closed_by(key)
    if place is None:
        return "executed, cancelled or refused before"
    word = "cancelled" if context.rows.kind[place] == Kind.CANCEL else "executed"
    time = context.rows.names.legible_time(place)
    return f"{word} in row {context.rows.labels[place]}{f', {time}' if time else ''}"


def _of_sides(context: Context, recorded: KeyedTrade | KeyedFill) -> Iterator[str]:
    """Which order is of the other side than a trade has it on."""
    keys = keys_of(recorded) if isinstance(recorded, KeyedTrade) else ()
    for key, side in zip(keys, ("bid", "ask")):
        place = context.entered.get(key)
        own = SIDES[context.rows.side[place]] if place is not None else side
        if own in ("bid", "ask") and own != side:
            yield f"{context.order(key)} is {_a(own)}."


def _of_excluded(context: Context, order: RestingOrder) -> Iterator[str]:
    """Why an open order can't trade in the auction, where it can't."""
    price = context.lawful_price
    restriction = int(context.judged.book.restriction[context.at[order.key]])
    if restriction > 0 and restriction != RESTRICTION_OF[context.judged.auction]:
        yield f"{order.order} is for the {RESTRICTIONS[restriction - 1]} alone."
    elif price is None:
        yield "The auction has no price, so nothing is executed."
    elif order.price is not None:
        is_worse = order.price < price if order.side == "bid" else order.price > price
        if is_worse:
            yield (
                f"{order.order}, {_a(order.side)} at {context.price(order.price)}, can't trade at "
                f"the price, {context.price(price)}."
            )


def _a(side: str) -> str:
    return "a bid" if side == "bid" else "an ask"


def recorded_members(context: Context, difference: Difference) -> tuple[str, ...]:
    """The members that rows of a trade have of bid and ask, or a fill's; empty for none."""
    made = difference.recorded
    if not isinstance(made, KeyedTrade | KeyedFill):
        return "", ""
    columns = ("bid", "ask") if isinstance(made, KeyedTrade) else ("",)
    both = zip(keys_of(made), columns)
    return tuple(_recorded_member(context, difference.places, key, side) for key, side in both)


def _recorded_member(context: Context, places: tuple[int, ...], key: int, side: str) -> str:
    """The member of an order in the first of these rows that has one. In a trade that is told as an
    order's shares it is that of the order's side, as far as any order has it.
    """
    rows = context.rows
    for place in places:
        own = side or next((it for it in SIDES[1:] if getattr(rows, it)[place] == key), "")
        keys, column = (getattr(rows, own), f"{own}_member") if own else (rows.key, "member")
        number = int(getattr(rows, column)[place])
        is_known = own == side or number in context.owners
        if keys[place] == key and number != CellCode.MISSING and is_known:
            return rows.names.recorded(place, column, number)
    return ""


def _of_members(
    context: Context, difference: Difference, recorded: KeyedTrade | KeyedFill,
    lawful: KeyedTrade | KeyedFill,
) -> Iterator[str]:
    """Whose the orders are, where another member was recorded."""
    names = recorded_members(context, difference)
    for one, key, name in zip(keys_of(recorded), keys_of(lawful), names):
        owner = context.member(key)
        if one == key and name and owner and name != owner:
            yield f"{context.order(key)} is an order of {owner}, not of {name}."


def _of_trade_price(context: Context, recorded: KeyedTrade | KeyedFill) -> Iterator[str]:
    price, published = context.lawful_price, int(context.rows.price[context.judged.place])
    if recorded.price >= 0 and price is not None and recorded.price != context.result.price:
        if recorded.price != published:
            yield f"All trades of an auction are at its price, {context.price(price)}."


def _of_queue(context: Context, difference: Difference) -> Iterator[str]:
    """Who comes before whom, and how much falls to an order: first to those with wrong shares."""
    places, shares = context.places, list[tuple[bool, int]]()
    for side, gaps in context.gaps.items():
        named = [it for it in difference.keys if it in places and places[it][0] == side]
        shares += [(key not in gaps, key) for key in named]
        first_over, first_under = context.first_gaps[side]
        late = next((key for key in named if gaps.get(key, 0) > 0), first_over)
        early = next((key for key in named if gaps.get(key, 0) < 0), first_under)
        if early is not None and late is not None and {early, late} & {*named}:
            if places[early] < places[late]:
                orders = (context.open_order(context.at[key]) for key in (early, late))
                yield _before(context, *orders)
    told = difference.recorded
    told_shares = told.quantity if isinstance(told, KeyedTrade | KeyedFill) else 0
    for _, key in sorted(shares, key=lambda it: it[0]):
        yield _share(context, context.open_order(context.at[key]), told_shares)


def _before(context: Context, early: RestingOrder, late: RestingOrder) -> str:
    """The sentence that an order comes before another, and why."""
    if early.price == late.price:
        at = "at market" if early.price is None else f"at {context.price(early.price)}"
        return f"{_entered(early)} stands before {_entered(late)} {at}"
    names = [
        f"{order.order}, a market {order.side}"
        if order.price is None
        else f"{order.order}, {_a(order.side)} at {context.price(order.price)}"
        for order in (early, late)
    ]
    return f"{names[0]}, stands before {names[1]}"


def _entered(order: RestingOrder) -> str:
    return f"{order.order} {order.event} {order.since or f'in row {order.row}'}"


def _share(context: Context, order: RestingOrder, told: int) -> str:
    """How much falls to an order and to those before it, and what was recorded beside that."""
    place, count = context.places[order.key][1] + 1, len(context.queues[order.side])
    due, made = context.fills.get(order.key, 0), context.recorded.get(order.key, 0)
    got = f", and {made:,} are recorded of it" if made not in (due, told) else ""
    return (
        f"{order.order} is number {place:,} of {count:,} in the queue of {order.side}s: of the "
        f"volume, {context.result.volume:,}, {context.ahead[order.key]:,} fall to those before "
        f"it, and {due:,} to it, which has {order.quantity:,} open{got}."
    )


def _of_spans(context: Context, lawful: KeyedTrade) -> str:
    """Which shares of the volume a trade is of."""
    begin = context.begins[lawful.bid, lawful.ask]
    bid, ask = context.order(lawful.bid), context.order(lawful.ask)
    return (
        f"The fills of both sides are laid end to end in their priority, and {bid} and {ask} meet "
        f"from share {begin + 1:,} to share {begin + lawful.quantity:,}."
    )

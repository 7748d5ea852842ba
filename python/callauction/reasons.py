"""Why a book has its price: the rules of docs/MODEL.md that decided, in sentences with its numbers.

What decided is read from the columns `best` and `rule` of a book that the program printed.
"""
import dataclasses
from collections.abc import Callable

import pandas

from callauction.tables import book_at

ON_SIDE = {"bid": "on the bid side", "ask": "on the ask side"}
MARKET_RULE, HIGHEST_RULE, LOWEST_RULE, SINGLE_RULE = "market", "highest", "lowest", "single"
"""Rules that decide, as the column `rule` names them; the fifth is `reference`."""
MOST_NAMED = 6
"""How many limits a sentence names one by one."""


class Explanation(tuple[str, ...]):
    """Sentences, one for each step that decided; as a text each has a line."""

    def __str__(self) -> str:
        return "\n".join(self)

    def _repr_html_(self) -> str:
        return "".join(f"<p>{sentence}</p>" for sentence in self)


@dataclasses.dataclass(frozen=True)
class ExplainedBook:
    """A book as its table has it: the market orders' row, those of limits, and what names ticks."""

    market_orders: "pandas.Series"
    levels: pandas.DataFrame
    named: Callable[[int], str]

    @property
    def limits(self) -> pandas.DataFrame:
        """The rows of limits of orders, the highest first; a price alone is none."""
        return self.levels[(self.levels["bid"] > 0) | (self.levels["ask"] > 0)]

    @property
    def best(self) -> pandas.DataFrame:
        """The rows of the best limits, the highest first."""
        return self.levels[self.levels["best"] == 1]

    @property
    def price(self) -> "pandas.Series | None":
        """The row of the auction price, if there is one."""
        found = self.levels[self.levels["rule"] != ""]
        return found.iloc[0] if len(found) else None

    def names(self, rows: pandas.DataFrame) -> str:
        """The limits of these rows from the lowest up, such as `199, 200 and 201`."""
        ticks = [self.named(tick) for tick in rows["limit"][::-1]]
        if len(ticks) > MOST_NAMED:
            return f"{ticks[0]}, {ticks[1]} and so on up to {ticks[-1]} ({len(ticks):,} limits)"
        return " and ".join(filter(None, [", ".join(ticks[:-1]), ticks[-1]]))


def explain(
    table: pandas.DataFrame,
    command: int | None = None,
    reference: int | None = None,
    named: Callable[[int], str] = str,
) -> Explanation:
    """Why the book before this command has its price, or none: the last book of the table without
    a command.

    `table` is one of books (tables.BOOK), `reference` the reference price then, in ticks, if it is
    known; `named` gives a tick its name, such as a price. Raises ValueError where the table has no
    such book.
    """
    found = book_at(table, command)
    is_market = found["limit"].isna()
    book = ExplainedBook(found[is_market].iloc[0], found[~is_market], named)
    price = book.price
    if price is None:
        return Explanation(_without_price(book))
    if price["rule"] == MARKET_RULE:
        return Explanation([_market_alone(book, price), *_executed(book, price)])
    steps = [*_market_orders(book), _candidates(book), *_best(book)]
    steps += _decided(book, price, reference)
    return Explanation([*steps, *_executed(book, price)])


def _without_price(book: ExplainedBook) -> list[str]:
    """Why there is no price, and what is shown instead."""
    bids, asks = (book.levels[book.levels[side] > 0] for side in ("bid", "ask"))
    bid, ask = book.market_orders["bid"], book.market_orders["ask"]
    if not len(book.limits) and not bid and not ask:
        return ["No order counts in this auction, so there is no price."]
    if not len(book.limits):
        side = ON_SIDE["bid" if bid else "ask"]
        return [
            f"There are market orders alone, {bid or ask:,} {side} and none on the other, so "
            "nothing can be executed and there is no price."
        ]
    highest = f"the highest bid limit, {book.named(bids['limit'].iloc[0])}" if len(bids) else ""
    lowest = f"the lowest ask limit, {book.named(asks['limit'].iloc[-1])}" if len(asks) else ""
    return [
        *_market_orders(book),
        "At no limit are there both demand and supply, so nothing can be executed and there is no "
        "price.",
        f"Shown in its place: {', and '.join(filter(None, [highest, lowest]))}.",
    ]


def _market_alone(book: ExplainedBook, price: "pandas.Series") -> str:
    """That market orders alone are matched at the reference."""
    bid, ask = book.market_orders["bid"], book.market_orders["ask"]
    return (
        f"There are market orders alone, {bid:,} bid and {ask:,} offered, so the reference, "
        f"{book.named(price['limit'])}, is the price."
    )


def _market_orders(book: ExplainedBook) -> list[str]:
    """What market orders beside limits mean, where there are any."""
    bid, ask = book.market_orders["bid"], book.market_orders["ask"]
    if bid and ask:
        return [
            f"Market orders stand on both sides, {bid:,} bid and {ask:,} offered, and limit orders "
            "beside them, so the limits decide."
        ]
    if bid or ask:
        verb = "bid" if bid else "offered"
        return [f"Market orders, for {bid or ask:,} {verb}, count at every limit."]
    return []


def _candidates(book: ExplainedBook) -> str:
    """Which limits may be the price."""
    return f"Only limits of orders are candidates: {book.names(book.limits)}."


def _best(book: ExplainedBook) -> list[str]:
    """Which limits execute most and, where that leaves too many, which have the least surplus."""
    volume, surplus = book.best[["volume", "surplus"]].iloc[0]
    most = book.limits[book.limits["volume"] == volume]
    names, best = book.names(most), book.names(book.best)
    is_one, is_best_one = len(most) == 1, len(book.best) == 1
    sentences = [
        f"Limit {names} executes most, {volume:,}."
        if is_one
        else f"Limits {names} execute most, {volume:,}."
    ]
    if len(most) > len(book.best):
        verb = "leaves" if is_best_one else "leave"
        sentences.append(f"Of these, {best} {verb} the least surplus, {surplus:,}.")
    return sentences


def _decided(book: ExplainedBook, price: "pandas.Series", reference: int | None) -> list[str]:
    """Which rule made one of the best limits, or the reference, the price. No more than two limits
    have one demand and one supply, as each limit changes one of them.
    """
    name, rule = book.named(price["limit"]), price["rule"]
    if rule == SINGLE_RULE:
        return [f"It is the one best limit, so {name} is the price, whatever its surplus."]
    if rule in (HIGHEST_RULE, LOWEST_RULE):
        return [
            f"Both leave a surplus of {price['surplus']:,} {ON_SIDE[price['side']]}, so "
            f"the {rule}, {name}, is the price."
        ]
    lower, upper, why = _kept(book)
    subject = "The reference" if reference is None else f"The reference, {book.named(reference)},"
    if price["limit"] == upper:
        return [why, f"{subject} is at or above the higher of them, so {name} is the price."]
    if price["limit"] == lower:
        return [why, f"{subject} is at or below the lower of them, so {name} is the price."]
    return [why, f"The reference, {name}, lies between them, so it is the price."]


def _kept(book: ExplainedBook) -> tuple[int, int, str]:
    """The lower and the upper kept limit of the best ones, with the sentence that says why."""
    best = book.best
    bids, asks = (best[best["side"] == side] for side in ("bid", "ask"))
    if not len(bids) and not len(asks):
        lower, upper = best["limit"].iloc[-1], best["limit"].iloc[0]
        names = f"the lowest, {book.named(lower)}, and the highest, {book.named(upper)}"
        return lower, upper, f"Neither leaves a surplus, so {names}, are kept."
    lower, upper = bids["limit"].iloc[0], asks["limit"].iloc[-1]
    surplus = best["surplus"].iloc[0]
    return (
        lower,
        upper,
        f"Some leave {surplus:,} {ON_SIDE['bid']} and others {surplus:,} {ON_SIDE['ask']}, so the "
        f"highest of the first, {book.named(lower)}, and the lowest of the others, "
        f"{book.named(upper)}, are kept.",
    )


def _executed(book: ExplainedBook, price: "pandas.Series") -> list[str]:
    """Demand and supply at the price, the volume and the surplus."""
    name = book.named(price["limit"])
    rest = "and no surplus is left"
    if price["side"] != "none":
        rest = f"and a surplus of {price['surplus']:,} is left {ON_SIDE[price['side']]}"
    return [
        f"The demand at {name}, of bids at market and from {name} up, is {price['demand']:,}; the "
        f"supply, of asks at market and from {name} down, is {price['supply']:,}.",
        f"The lesser of the two, {price['volume']:,}, can be executed, {rest}.",
    ]

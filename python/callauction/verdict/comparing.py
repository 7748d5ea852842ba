"""What was published of an auction beside what the rules give: items, shares, then pairs."""
import dataclasses
from collections.abc import Collection, Iterable, Mapping

import numpy
import pandas

from callauction.verdict.cells import Codes, Ints, Mask
from callauction.verdict.phases import Result, Sums, sums
from callauction.verdict.rows import SAID_AUCTIONS, SIDES, AuctionCode, CellCode, PriceCode, Rows
from callauction.words import AUCTIONS

FILL_ITEM = "fill"
"""The item of an order's shares."""
PRIORITY = "priority"
"""The item of an extract that says whether a replace kept its place."""
NAMED = 100
"""The stamp of a trade that names its auction is this and the auction's number; else it is the
number of the uncross nearest in time, or CellCode.MISSING.
"""


@dataclasses.dataclass(frozen=True, slots=True)
class KeyedTrade:
    """Shares of a bid and an ask, by their keys, and the number of their price."""

    bid: int
    ask: int
    quantity: int
    price: int = PriceCode.UNSAID


@dataclasses.dataclass(frozen=True, slots=True)
class KeyedFill:
    """The shares of an order, by its key, and the number of their price."""

    order: int
    quantity: int
    price: int = PriceCode.UNSAID


Value = KeyedTrade | KeyedFill | int | str | None


def keys_of(made: KeyedTrade | KeyedFill) -> tuple[int, ...]:
    """The keys of the orders of a trade or a fill."""
    return (made.bid, made.ask) if isinstance(made, KeyedTrade) else (made.order,)


def member_columns(made: KeyedTrade | KeyedFill) -> tuple[str, ...]:
    """The columns with their members, in the order of keys_of."""
    return ("bid_member", "ask_member") if isinstance(made, KeyedTrade) else ("member",)


@dataclasses.dataclass(frozen=True)
class Difference:
    """A recorded value of an item that isn't the lawful one: None where there is no such trade or
    fill. `places` are the rows that record it, `keys` the orders that it is of. `doubt` says why it
    isn't certain, empty where it is; `rule` the rule, where that isn't the item's own; `auction`
    which auction without a row a trade or a fill may be of.
    """

    item: str
    recorded: Value
    lawful: Value
    places: tuple[int, ...] = ()
    keys: tuple[int, ...] = ()
    stamp: int | None = None
    doubt: str = ""
    rule: str = ""
    auction: str = ""

    @property
    def excess(self) -> int:
        """How many shares more were recorded in a trade or a fill than are lawful."""
        return _shares(self.recorded) - _shares(self.lawful)

    @property
    def is_of_shares(self) -> bool:
        """Whether it is of a trade or a fill, by what is recorded, or else by what is lawful."""
        return isinstance(self.recorded or self.lawful, KeyedTrade | KeyedFill)

    @property
    def is_of_shares_alone(self) -> bool:
        """Whether it is of a trade or a fill, and not of which auction that is."""
        values = (self.recorded, self.lawful)
        return all(it is None or isinstance(it, KeyedTrade | KeyedFill) for it in values)


def _shares(value: Value) -> int:
    return value.quantity if isinstance(value, KeyedTrade | KeyedFill) else 0


def doubted(differences: Iterable[Difference], why: str) -> tuple[Difference, ...]:
    """These differences, in doubt for this reason where they have none."""
    return tuple(dataclasses.replace(each, doubt=each.doubt or why) for each in differences)


@dataclasses.dataclass(frozen=True)
class Compared:
    """Trades compared: what differs, lawful pairs recorded as such, orders with wrong shares."""

    differences: list[Difference]
    pairs: int
    by_order: list[Difference] = dataclasses.field(default_factory=list)


# ---- items


def compared_items(
    rows: Rows, place: int, result: Result, word: int
) -> dict[str, Difference | None]:
    """The items that were published at a row, each with how it differs from the lawful one; `word`
    is the lawful one of `auction`. One fault is one difference: what follows from a price where
    there is none, or from none where there is one, isn't listed again. Without a lawful price the
    rules give no surplus and no side.
    """
    found: dict[str, Difference | None] = {}
    price, state = price_said(rows, place, result), int(rows.auction[place])
    is_priced = result.price is not None
    is_same_kind = price == PriceCode.UNSAID or (price == PriceCode.NO_PRICE) != is_priced
    if state > 0:
        found["auction"] = _item("auction", SAID_AUCTIONS[state], SAID_AUCTIONS[word], place)
    if price != PriceCode.UNSAID:
        due = PriceCode.NO_PRICE if result.price is None else result.price
        found["price"] = _item("price", price, due, place)
    lawful = {"volume": result.volume, "surplus": result.surplus, "count": len(result.quantity)}
    arrays = {"volume": rows.quantity, "surplus": rows.surplus, "count": rows.count}
    for item, array in arrays.items():
        number = int(array[place])
        if item == "count" and AuctionCode.INTERRUPTED in (state, word):
            if state == word and number > 0:
                found[item] = Difference(item, number, 0, (place,))
            continue
        if number < 0:
            continue
        follows = not is_same_kind and (not number or not is_priced)
        follows |= item == "surplus" and not is_priced
        found[item] = None if follows else _item(item, number, lawful[item], place)
    return found | _side(rows, place, result, is_same_kind, found.get("surplus"))


def price_said(rows: Rows, place: int, result: Result) -> int:
    """The price that a row publishes: none where the rules give none and the volume is 0, beside
    which many show the last price.
    """
    is_idle = result.price is None and rows.quantity[place] == 0 and rows.price[place] >= 0
    return PriceCode.NO_PRICE if is_idle else int(rows.price[place])


def _item(item: str, recorded: Value, lawful: Value, place: int) -> Difference | None:
    return None if recorded == lawful else Difference(item, recorded, lawful, (place,))


def _side(
    rows: Rows, place: int, result: Result, is_same_kind: bool, surplus: Difference | None
) -> dict[str, Difference | None]:
    """The side of the surplus, where it was published; without a surplus it is `none`."""
    side, is_zero = int(rows.side[place]), rows.surplus[place] == 0
    if side < 0 or result.price is None or not is_same_kind:
        return {"side": None} if side >= 0 or is_zero else {}
    follows = surplus is not None and 0 in (side, result.side)
    return {"side": None if follows else _item("side", SIDES[side], SIDES[result.side], place)}


# ---- trades


def compared_trades(
    rows: Rows, these: Ints, result: Result, owners: Ints, allowed: int, stamps: Ints
) -> Compared:
    """How these rows of trades differ from the lawful ones. `owners` has each order's member;
    `allowed` is a price that is passed over, since it was found to be wrong before.
    """
    return _Trades(rows, these, result, owners, allowed, stamps).compared()


def _at_other_prices(rows: Rows, these: Ints, result: Result, allowed: int) -> Mask:
    """Which of these rows have another price than the lawful one."""
    return ~numpy.isin(rows.price[these], [result.price_code, allowed, PriceCode.UNSAID])


def _of_others(rows: Rows, these: Ints, owners: Ints) -> Mask:
    """Which of these trades have another member than the order's."""
    found = numpy.zeros(len(these), bool)
    for keys, members in ((rows.bid, rows.bid_member), (rows.ask, rows.ask_member)):
        owner, member = owners[keys[these]], members[these]
        found |= (member != CellCode.MISSING) & (owner >= 0) & (member != owner)
    return found


class _Trades:
    """Trades by the pair of their orders: shares, recorded and lawful, odd prices and members."""

    def __init__(
        self, rows: Rows, these: Ints, result: Result, owners: Ints, allowed: int, stamps: Ints
    ) -> None:
        self.rows, self.these, self.result, self.stamps = rows, these, result, stamps
        keys = (rows.bid[these], rows.ask[these])
        self.many = int(max(*(it.max(initial=0) for it in keys), len(owners))) + 1
        self.pair = keys[0].astype("i8") * self.many + keys[1]
        of_others = _of_others(rows, these, owners)
        self.has_others = bool(of_others.any())
        odd = of_others | _at_other_prices(rows, these, result, allowed)
        self.odd: set[int] = {*self.pair[odd].tolist()}
        done = sums(self.pair, rows.quantity[these])
        due = sums(result.bid.astype("i8") * self.many + result.ask, result.quantity)
        self.count, self.is_lawful = len(due.keys), done.agrees(due) and not self.odd
        both = ({}, {}) if self.is_lawful else (done.by_key(), due.by_key())
        self.recorded, self.lawful = both

    def compared(self) -> Compared:
        """What differs: each pair of orders once, or each order, whichever are fewer; where each
        order's shares are right, the prices and the members alone.
        """
        if self.is_lawful:
            return Compared([], self.count)
        rows, these, result = self.rows, self.these, self.result
        filled = self._shares(rows.bid[these], rows.ask[these], rows.quantity[these])
        due = self._shares(result.bid, result.ask, result.quantity)
        same = sum(self.recorded.get(it) == shares for it, shares in self.lawful.items())
        wrong = [it for it, shares in self.recorded.items() if shares != self.lawful.get(it)]
        places = places_by(self.pair, these, [*self.odd, *wrong])
        if filled.agrees(due):
            both = [it for it in self.recorded if it in self.odd]
            return Compared(self._both(both, places, self.recorded), same)
        both = [
            it for it, shares in self.lawful.items()
            if it in self.recorded and (self.recorded[it] != shares or it in self.odd)
        ]  # fmt: skip
        found = paired([*self._both(both, places, self.lawful), *self._alone(places)])
        shares = filled.by_key(), due.by_key()
        places_of = self._places_by_order(*shares)
        of_shares = compared_shares(rows, *shares, result.price_code, places_of, self.many)
        by_order = paired(stamped(of_shares, self.stamps))
        by_order_all = [*by_order, *self._odd_beside(by_order, places)]
        is_shorter = len(by_order_all) < len(found)
        return Compared(by_order_all if is_shorter else found, same, by_order)

    def _odd_beside(
        self, by_order: list[Difference], places: dict[int, list[int]]
    ) -> list[Difference]:
        """The differences of pairs with odd prices or members, of orders whose shares are right."""
        named = {key for each in by_order for key in each.keys}
        beside = [it for it in self.recorded if it in self.odd]
        beside = [it for it in beside if named.isdisjoint(divmod(it, self.many))]
        return self._both(beside, places, self.recorded)

    def _shares(self, bid: Codes, ask: Codes, quantity: Ints) -> Sums:
        """The shares of each order, by its key, to which `many` is added on the side of asks."""
        keys = numpy.concatenate([bid, ask.astype("i8") + self.many])
        return sums(keys, numpy.tile(quantity, 2))

    def _both(
        self, pairs: list[int], places: dict[int, list[int]], shares: Mapping[int, int]
    ) -> list[Difference]:
        """The differences of pairs that are recorded and, but for the pairing, lawful, with these
        shares; one for all of an auction's trades where they were recorded at one other price and
        are lawful else.
        """
        prices, lawful = self.rows.prices, self.result.price_code
        at = {int(self.rows.price[place]) for pair in pairs for place in places[pair]}
        is_price = all(self.recorded[it] == self.lawful.get(it) for it in pairs)
        if len(pairs) > 1 and len(pairs) == len(self.lawful) and len(at) == 1 and is_price:
            if not self.has_others and lawful >= 0:
                spots = tuple(place for it in pairs for place in places[it])
                keys = dict.fromkeys(key for it in pairs for key in divmod(it, self.many))
                text = f"{len(pairs)} trades at {prices[at.pop()]}"
                whole = Difference("trade", text, f"at {prices[lawful]}", spots, (*keys,))
                return [whole]
        found = []
        for it in pairs:
            spots = tuple(places[it])
            other = _recorded_price(self.rows, spots, lawful)
            one, due = self.recorded[it], shares.get(it, self.recorded[it])
            found.append(self._difference(it, spots, (one, other), (due, lawful)))
        return found

    def _alone(self, places: dict[int, list[int]]) -> list[Difference]:
        """The differences of pairs that are missing, and of those that are extra."""
        missing = [
            self._difference(it, (), None, (shares, self.result.price_code))
            for it, shares in self.lawful.items()
            if it not in self.recorded
        ]
        extra = [
            self._difference(it, tuple(places[it]), (shares, int(self.rows.price[places[it][0]])))
            for it, shares in self.recorded.items()
            if it not in self.lawful
        ]
        return [*missing, *extra]

    def _difference(
        self, pair: int, places: tuple[int, ...], recorded: tuple[int, int] | None,
        lawful: tuple[int, int] | None = None,
    ) -> Difference:  # fmt: skip
        bid, ask = divmod(pair, self.many)
        one, due = (None if it is None else KeyedTrade(bid, ask, *it) for it in (recorded, lawful))
        stamp = int(self.stamps[places[0]]) if places else None
        return Difference("trade", one, due, places, (bid, ask), stamp)

    def _places_by_order(self, done: dict[int, int], due: dict[int, int]) -> dict[int, list[int]]:
        """The rows of each order whose shares aren't the lawful ones."""
        wrong = [key for key, shares in done.items() if due.get(key) != shares]
        both = self.rows.bid[self.these], self.rows.ask[self.these].astype("i8") + self.many
        return places_by(numpy.concatenate(both), numpy.tile(self.these, 2), wrong)


# ---- fills


def compared_fills(
    rows: Rows, these: Ints, result: Result, owners: Ints, allowed: int, stamps: Ints
) -> list[Difference]:
    """How these fills differ from the lawful ones, or from each order's member in `owners`."""
    filled = sums(rows.key[these], rows.quantity[these])
    owner, member = owners[rows.key[these]], rows.member[these]
    of_others = (owner >= 0) & (member != CellCode.MISSING) & (member != owner)
    odd = these[_at_other_prices(rows, these, result, allowed) | of_others]
    if filled.agrees(result.fills) and not len(odd):
        return []
    places = places_by(rows.key[these], these, [*filled.keys, *rows.key[odd]])
    price = result.price_code
    found = compared_shares(rows, filled.by_key(), result.fills.by_key(), price, places)
    named = {each.keys[0] for each in found}
    at = {int(rows.key[place]): place for place in odd[::-1].tolist()}
    for key, place in at.items():
        if key not in named:
            shares = int(rows.quantity[place])
            one, due = KeyedFill(key, shares, int(rows.price[place])), KeyedFill(key, shares, price)
            found.append(Difference(FILL_ITEM, one, due, (place,), (key,)))
    return paired(stamped(found, stamps))


def places_by(keys: Ints | Codes, places: Ints, those: Collection[int]) -> dict[int, list[int]]:
    """By key the places of rows with it, for those of these keys."""
    known = numpy.isin(keys, [*those])
    found = pandas.Series(places[known]).groupby(keys[known]).agg(list)
    return {int(key): own for key, own in found.items()}


def stamped(differences: Iterable[Difference], stamps: Ints) -> list[Difference]:
    """These differences with the stamps of their first rows."""
    return [
        dataclasses.replace(it, stamp=int(stamps[it.places[0]])) if it.places else it
        for it in differences
    ]


def compared_shares(
    rows: Rows, done: dict[int, int], due: dict[int, int], price: int,
    places: dict[int, list[int]], many: int = 2**62,
) -> list[Difference]:  # fmt: skip
    """Where the shares of an order aren't the lawful ones; an order's key is the rest by `many`."""
    found = []
    for each in dict.fromkeys([*due, *done]):
        if due.get(each) != done.get(each):
            key, spots = each % many, tuple(places.get(each, ()))
            at = _recorded_price(rows, spots, price)
            one = KeyedFill(key, done[each], at) if each in done else None
            other = KeyedFill(key, due[each], price) if each in due else None
            found.append(Difference(FILL_ITEM, one, other, spots, (key,)))
    return found


def _recorded_price(rows: Rows, places: tuple[int, ...], lawful: int) -> int:
    """The price of these rows, of several one that isn't lawful; PriceCode.UNSAID for none."""
    priced = {int(rows.price[place]) for place in places} - {PriceCode.UNSAID}
    return min(priced - {lawful}, default=lawful if priced else PriceCode.UNSAID)


# ---- differences that are one


def paired(differences: Iterable[Difference]) -> list[Difference]:
    """The same differences, a missing and an extra trade of as many shares that share an order, or
    both on the other sides, or a missing and an extra fill of as many shares, being one that is
    different.
    """
    found = dict(enumerate(differences))
    missing: dict[object, list[int]] = {}
    for number, each in found.items():
        for mark in _marks(each.lawful) if each.recorded is None else ():
            missing.setdefault(mark, []).append(number)
    for number in [number for number, each in found.items() if each.lawful is None]:
        each = found[number]
        near = (it for mark in _marks(each.recorded) for it in missing.get(mark, ()) if it in found)
        other = next(near, None)
        if other is not None:
            gap = found.pop(other)
            keys = tuple(dict.fromkeys([*each.keys, *gap.keys]))
            found[number] = dataclasses.replace(each, lawful=gap.lawful, keys=keys)
    return [*found.values()]


def _marks(value: Value) -> tuple[object, ...]:
    """By what a missing trade or fill is found to be the other of an extra one."""
    if isinstance(value, KeyedFill):
        return ((FILL_ITEM, value.quantity),)
    if isinstance(value, KeyedTrade):
        both = (*sorted((value.bid, value.ask)), value.quantity)
        return (both, ("bid", value.bid, value.quantity), ("ask", value.ask, value.quantity))
    return ()


def reconciled_uncrosses(
    uncrosses: list[tuple[Difference, ...]], auctions: list[int]
) -> list[list[Difference]]:
    """The differences of each uncross, a trade that is missing in one auction and extra in another
    being one where its row says the auction, and none where only its place among the rows does.
    """
    missing = {
        _pair(each.lawful): (number, each)
        for number, those in enumerate(uncrosses)
        for each in those
        if each.recorded is None
    }
    found = [list(those) for those in uncrosses]
    for number, those in enumerate(uncrosses):
        for each in those:
            if not isinstance(each.recorded, KeyedTrade | KeyedFill) or each.lawful is not None:
                continue
            other, gap = missing.pop(_pair(each.recorded), (number, None))
            if gap is None:
                continue
            found[other].remove(gap)
            found[number].remove(each)
            name = AUCTIONS[auctions[other]]
            is_there = each.stamp in (None, CellCode.MISSING, other, NAMED + auctions[other])
            if not is_there and each.auction != name:
                found[number].append(dataclasses.replace(each, lawful=name))
    return [paired(those) for those in found]


def _pair(value: Value) -> object:
    """What a trade or a fill is, but for its price."""
    if isinstance(value, KeyedTrade):
        return value.bid, value.ask, value.quantity
    return (value.order, value.quantity) if isinstance(value, KeyedFill) else None

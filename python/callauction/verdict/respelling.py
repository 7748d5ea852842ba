"""Ids and members that some rows write otherwise than entries, as n3 and N3, or as replaces gave
them in a table without a column of new ids.
"""
import dataclasses
import re
from collections import Counter
from collections.abc import Iterable, Iterator, Mapping

import numpy

from callauction.verdict.cells import Ints
from callauction.verdict.columns import UNKNOWN, form_of_id, look_of
from callauction.verdict.paths import Judged, Judgement
from callauction.verdict.phases import recorded_sums, sums
from callauction.verdict.rows import AuctionCode, BadRow, CellCode, Kind, PriceCode, Rows


_ANYONE = ("anon", "anonymous", "hidden", "masked", "unknown", "na", *UNKNOWN)
_ONE_SIGN = re.compile(r"(.)\1\1+|\W+")
_BETWEEN = re.compile(r"(?<=\w)[-_/.:](?=\w)")
"""A sign between the parts of an id, as in A-17."""
_QUOTES = "'\"`"
"""What a sheet may write before a number that is to stay a text."""
TWO_WAYS = "ids or members are written in two ways: {} and {}"
OTHER_IDS = "no trade has an order's id: are theirs of another column, or another spelling?"
_MOST_PARTS = 12
MOST_TEXTS = 100_000
"""How many ids, and how many rows, are looked at."""


def respelled(rows: Rows) -> tuple[Rows, str] | None:
    """The rows with ids and members as entries spell them, and two that differ; None for none."""
    found, both = _with_ids(rows)
    found, members = _with_members(found)
    both = both or members
    if not both:
        return None
    return found, TWO_WAYS.format(*both)


def have_other_ids(rows: Rows, judgement: Judgement, again: Ints) -> bool:
    """Whether no trade or fill has an order's id, while prices and shares are the lawful ones, so
    that all may be right but the ids; `again` are rows that may be there twice.
    """
    made = rows.of(Kind.TRADE, Kind.FILL)
    named = numpy.concatenate([it[made] for it in (rows.bid, rows.ask, rows.key)])
    named = named[named >= 0]
    if not len(named) or numpy.isin(named, rows.key[rows.of(Kind.NEW)]).any():
        return False
    stopped = AuctionCode.INTERRUPTED
    judged = [it for it in judgement.uncrosses
              if it.result is not None and rows.auction[it.place] != stopped]  # fmt: skip
    return all(_fits(rows, it, again) for it in judged)


def _fits(rows: Rows, judged: Judged, again: Ints) -> bool:
    """Whether an auction's trades and fills have its price, and together its shares, with some of
    those that busts take out, and without some that may be there twice; or may have these, where
    trades or busts aren't read, or the file may be cut among the trades.
    """
    result, taken = judged.result, rows.of(Kind.TAKEN)
    assert result is not None
    has_busts = any(row.is_bust for row in rows.bad)
    is_last = rows.end is not None and judged.place == rows.of(Kind.UNCROSS)[-1]
    is_short = is_last or any(row.is_trade for row in rows.bad)
    own = numpy.concatenate([judged.traded, judged.filled])
    for those, is_trade in ((judged.traded, True), (judged.filled, False)):
        maybe = numpy.union1d(those[numpy.isin(those, again)],
                              taken[(rows.bid[taken] >= 0) == is_trade])  # fmt: skip
        due = (2 - is_trade) * result.volume * bool(len(those))
        sure = int(rows.quantity[numpy.setdiff1d(those, again)].sum())
        may_differ = has_busts or is_short and sure < due
        if not may_differ and not _may_be(due, sure, rows.quantity[maybe].tolist()):
            return False
    if result.volume and not len(own) and not len(taken) and not is_short:
        return False
    return bool(numpy.isin(rows.price[own], (result.price_code, PriceCode.UNSAID)).all())


def _may_be(due: int, sure: int, parts: list[int]) -> bool:
    """Whether shares that are sure, with some of those that aren't, are those that are due."""
    if len(parts) > _MOST_PARTS:
        return sure <= due <= sure + sum(parts)
    sums = {sure}
    for part in parts:
        sums |= {it + part for it in sums}
    return due in sums


def is_placeholder(name: str) -> bool:
    """Whether a member's name seems to be a word for none, or one sign again and again."""
    return name.casefold() in _ANYONE or bool(_ONE_SIGN.fullmatch(name))


def is_respelled(name: str, other: str) -> bool:
    """Whether two names may be two spellings of one."""
    return _plain(name) == _plain(other)


def _plain(text: str) -> str:
    """A text without what another system may change of it."""
    text = re.sub(r"\s", "", text.casefold()).strip(_QUOTES).removesuffix(".0")
    text = re.sub(r"(?<!\d)0+(?=\d)", "", text.lstrip("0"))
    return _BETWEEN.sub("", text)


def _by_plain(texts: Iterable[tuple[int, str]]) -> dict[str, tuple[int, str]]:
    """Numbered texts by what is plain of them, where that is of one alone."""
    found: dict[str, tuple[int, str]] = {}
    twice = set[str]()
    for number, text in texts:
        plain = _plain(text)
        twice |= {plain} & {*found}
        found[plain] = number, text
    return {plain: it for plain, it in found.items() if plain not in twice}


def _with_ids(rows: Rows) -> tuple[Rows, tuple[str, ...]]:
    """The rows with the keys of orders for ids that no row enters, and two such ids."""
    made, lost = numpy.isin(rows.kind, (Kind.TRADE, Kind.FILL)), lost_rows(rows)
    keys = {name: getattr(rows, name) for name in ("key", "bid", "ask")}
    of_lost = rows.key[[row.place for row in lost]]
    named = numpy.unique(numpy.concatenate([*(it[made] for it in keys.values()), of_lost]))
    entered = numpy.unique(rows.key[rows.kind == Kind.NEW])
    unknown = named[(named >= 0) & ~numpy.isin(named, entered)]
    if not len(unknown) or len(unknown) + len(entered) > MOST_TEXTS:
        return rows, ()
    known = _by_plain((key, rows.names.order(key)) for key in entered.tolist())
    _add_new_ids(rows, lost, known)
    meant = numpy.arange(len(rows.names.ids) + 1, dtype="i4")
    both: tuple[str, ...] = ()
    for key in unknown.tolist():
        text = rows.names.order(key)
        if _plain(text) in known:
            meant[key], order = known[_plain(text)]
            both = both or (text, order)
    changed = {name: numpy.where(it >= 0, meant[it], it) for name, it in keys.items()}
    if not both:
        return rows, ()
    return found_again(dataclasses.replace(rows, **changed), lost), both


def _add_new_ids(rows: Rows, lost: list[BadRow], known: dict[str, tuple[int, str]]) -> None:
    """Adds the ids that replaces give to orders, in the order of rows, but for known ones."""
    named = {row.place: row for row in lost if row.kind == Kind.REPLACE}
    those = numpy.union1d(rows.of(Kind.REPLACE), numpy.array([*named], "i8"))
    keys = {key: text for key, text in known.values()}
    for place in those[rows.new_id[those] >= 0].tolist():
        key, text = int(rows.key[place]), rows.names.order(rows.new_id[place])
        if place in named:
            key = known.get(_plain(rows.names.order(key)), (CellCode.MISSING, ""))[0]
        if key in keys:
            known.setdefault(_plain(text), (key, text))


def lost_rows(rows: Rows) -> list[BadRow]:
    """The replaces and cancels of orders that no row enters."""
    return [row for row in rows.bad if row.is_lost]


def found_again(rows: Rows, lost: list[BadRow]) -> Rows:
    """The rows with those of these that a row above enters by their keys, for its member."""
    entered = dict(zip(rows.key[rows.kind == Kind.NEW].tolist(), rows.of(Kind.NEW).tolist()))
    kind, found = rows.kind.copy(), set[int]()
    for row in lost:
        above = entered.get(int(rows.key[row.place]), row.place)
        one, other = rows.member[[above, row.place]].tolist()
        if above < row.place and (one == other or min(one, other) < 0):
            kind[row.place] = row.kind
            found.add(row.place)
    bad = [row for row in rows.bad if row.place not in found]
    return dataclasses.replace(rows, kind=kind, bad=bad)


def _with_members(rows: Rows) -> tuple[Rows, tuple[str, ...]]:
    """The rows with the members of orders for those that no order has, and two such names."""
    own = numpy.unique(rows.member[rows.of(Kind.NEW)])
    known = _by_plain((it, rows.names.member(it)) for it in own[own >= 0].tolist())
    changed, both = {}, tuple[str, ...]()
    parts = ("bid_member", Kind.TRADE), ("ask_member", Kind.TRADE), ("member", Kind.FILL)
    for column, kind in parts:
        numbers, these = getattr(rows, column).copy(), rows.of(kind)
        odd = these[(numbers[these] != CellCode.MISSING) & ~numpy.isin(numbers[these], own)]
        for place in odd[:MOST_TEXTS].tolist():
            text = rows.names.recorded(place, column, int(numbers[place]))
            numbers[place], member = known.get(_plain(text), (numbers[place], ""))
            both = both or ((text, member) if member else ())
        changed[column] = numbers
    return dataclasses.replace(rows, **changed), both


def renamed(rows: Rows, judgement: Judgement) -> tuple[Rows, str] | None:
    """The rows with the keys of replaced orders for ids that no row enters, where these have on
    their side the lawful shares of such an order, and why; None where they haven't, or an order has
    trades by its own id after its replace. One such id in one row alone looks like those of
    entries.
    """
    entered, retired, lost = rows.of(Kind.NEW), _retired(rows), lost_rows(rows)
    parts = [it[rows.of(Kind.TRADE, Kind.FILL)] for it in (rows.bid, rows.ask, rows.key)]
    named = numpy.concatenate([*parts, rows.key[[row.place for row in lost]]])
    named = named[(named >= 0) & ~numpy.isin(named, rows.key[entered])]
    unknown = {*named.tolist()}
    if not retired or (rows.new_id >= 0).any():
        return None
    meant = dict[int, int]()
    for judged in judgement.uncrosses:
        for one, other in _pairs(rows, judged, unknown):
            if meant.setdefault(one, other) != other or other not in retired:
                return None
    forms = {form_of_id(rows.names.order(key)) for key in rows.key[entered].tolist()}
    is_like = len(named) > 1 or all(form_of_id(rows.names.order(key)) in forms for key in meant)
    if not meant or len({*meant.values()}) < len(meant) or not is_like:
        return None
    key, order = next(iter(meant.items()))
    names, label = rows.names, rows.labels[retired[order]]
    why = (f"no row enters {names.order(key)!r}: may the replace of row {label} have given that id "
           f"to {names.order(order)}? (a column new_order says it)")  # fmt: skip
    return found_again(_with_keys(rows, meant), lost), why


def misentered(rows: Rows, judgement: Judgement) -> tuple[Rows, str] | None:
    """The rows with the keys of orders whose ids look like no other entry's, as 1.5E+02 does beside
    N3, for ids like entries' of trades, which no row enters, and why; None where such trades don't
    have the lawful shares of such orders.
    """
    entered = numpy.unique(rows.key[rows.of(Kind.NEW)])
    these = rows.of(Kind.TRADE, Kind.FILL)
    named = numpy.concatenate([it[these] for it in (rows.bid, rows.ask, rows.key)])
    unknown = numpy.unique(named[(named >= 0) & ~numpy.isin(named, entered)])
    if not 0 < len(unknown) <= MOST_TEXTS - len(entered):
        return None
    order = rows.names.order
    looks = Counter(look_of(order(key)) for key in entered.tolist())
    like = {key for key in unknown.tolist() if looks[look_of(order(key))] > 1}
    meant = dict(it for judged in judgement.uncrosses for it in _pairs(rows, judged, like))
    if not meant or any(looks[look_of(order(key))] > 1 for key in meant.values()):
        return None
    one, other = next(iter(meant.items()))
    why = f"no row enters {order(one)!r}, and no trade is of {order(other)!r}: are both one order?"
    return _with_keys(rows, meant), why


def _with_keys(rows: Rows, meant: Mapping[int, int]) -> Rows:
    """The rows with other keys for some ids."""
    ids = numpy.arange(len(rows.names.ids) + 1, dtype="i4")
    ids[[*meant]] = [*meant.values()]
    changed = {name: getattr(rows, name) for name in ("key", "bid", "ask")}
    changed = {name: numpy.where(it >= 0, ids[it], it) for name, it in changed.items()}
    return dataclasses.replace(rows, **changed)


def _retired(rows: Rows) -> dict[int, int]:
    """Each order's last row, a replace; none where an order has trades or fills after its own."""
    last = numpy.full(len(rows.names.ids) + 1, CellCode.MISSING, "i8")
    for keys in (rows.key, rows.bid, rows.ask):
        places = numpy.flatnonzero(keys >= 0)
        numpy.maximum.at(last, keys[places], places)
    replaces = rows.of(Kind.REPLACE)
    own = dict(zip(rows.key[replaces].tolist(), replaces.tolist()))
    late = [key for key, place in own.items() if rows.kind[last[key]] in (Kind.TRADE, Kind.FILL)]
    return {} if late else {key: place for key, place in own.items() if last[key] == place}


def _pairs(rows: Rows, judged: Judged, unknown: set[int]) -> Iterator[tuple[int, int]]:
    """Unknown ids of a wrong auction, each with an order, of its side where there are trades, that
    has none of its lawful shares, which are as many.
    """
    traded, filled, due = judged.traded, judged.filled, judged.result
    if due is None or not any({*it.keys} & unknown for it in judged.certain):
        return
    both = [(recorded_sums(rows, traded, filled), due.fills)]
    if len(traded):
        sides = ((rows.bid, due.bid), (rows.ask, due.ask))
        both = [(sums(own[traded], rows.quantity[traded]), sums(keys, due.quantity))
                for own, keys in sides]  # fmt: skip
    for recorded, lawful in both:
        one, two = recorded.by_key(), lawful.by_key()
        extra = sorted((shares, key) for key, shares in one.items() if key in unknown)
        lost = sorted((shares, key) for key, shares in two.items() if key not in one)
        if [shares for shares, _ in extra] == [shares for shares, _ in lost]:
            yield from ((key, order) for (_, key), (_, order) in zip(extra, lost))

"""The columns of a table in our words and numbers, each distinct text of which is read once."""
import functools
import re
from collections.abc import Iterable, Mapping
from decimal import Decimal

import numpy

from callauction.prices import BadCellError, number_of, whole_of
from callauction.verdict import times
from callauction.verdict.cells import Cells, Codes, Ints, Mask, Source, paired_codes
from callauction.verdict.columns import EMPTY, ExtractError, is_unknown
from callauction.verdict.reading import Reading
from callauction.verdict.rows import (
    CONTINUOUS, RESTRICTIONS, SAID_AUCTIONS, CellCode, Int8s, PriceCode,
)

SIDE_NUMBERS = {"bid": 1, "buy": 1, "ask": 2, "sell": 2}
"""By the words of a column the number of each, here of `side` in rows of orders and trades."""
SURPLUS_SIDE_NUMBERS = {**SIDE_NUMBERS, "none": 0}
RESTRICTION_NUMBERS = {word: 1 + place for place, word in enumerate(RESTRICTIONS)}
AUCTION_NUMBERS = {word: place for place, word in enumerate((*SAID_AUCTIONS, CONTINUOUS)) if word}
KEPT_NUMBERS = {"true": 1, "false": 0, "1": 1, "0": 0, "yes": 1, "no": 0, "y": 1, "n": 0}
_NO_PRICE = ("none", "no price")
_WORDED = ("event", "price", "bid_member", "ask_member")
"""Columns whose words for an empty cell mean something else in some rows."""
_NAMES = ("order", "new_order", "bid", "ask", "member")
"""Columns of names, where more words are of one that isn't known."""
_NONE, _SIGNS = (*b"-#nNtT",), (*b"#-?*\xe2",)
"""How such a word begins; how one that may be longer does."""
_U, _LENGTH = (*b"uU",), len("unknown")
_LONGEST = 24
_MOST_KEPT = 4
"""Of how many columns the cells are kept, those that were asked for last: 16 bytes a cell."""
_COUNTED = re.compile(r"(\D*)(\d{1,18})", re.ASCII)
_OF_TIMES = ":"
"""What sequences that are times count by."""
_THOUSANDS = re.compile(r"\d{1,3}\.\d{3}")


class Columns:
    """The columns of a table in our words."""

    def __init__(self, source: Source, names: Mapping[str, str], reading: Reading) -> None:
        self.source, self.names, self.reading = source, names, reading
        self._cells: dict[str, Cells] = {}

    def cells(self, name: str) -> Cells:
        """The cells of a column that the table has, empty where they have a word for that."""
        found = self._cells.pop(name, None)
        if found is None:
            own = self.source.cells(self.names[name])
            found = own if name in _WORDED else self._without_words(name, own)
            if len(self._cells) == _MOST_KEPT:
                del self._cells[next(iter(self._cells))]
        self._cells[name] = found
        return found

    def _without_words(self, name: str, cells: Cells) -> Cells:
        """The cells without words for an empty one, but for those that mean something else."""
        first, most = cells.buffer[cells.start], max(map(len, EMPTY))
        may_be = (cells.length <= most) & numpy.isin(first, _NONE)
        if name in _NAMES:
            may_be |= (cells.length <= _LONGEST) & numpy.isin(first, _SIGNS)
            may_be |= (cells.length == _LENGTH) & numpy.isin(first, _U)
        these = numpy.flatnonzero(may_be & (cells.length > 0))
        codes, texts = cells.take(these).texts()
        length, others = cells.length.copy(), self.reading.values.get(name, {})
        is_none = is_unknown if name in _NAMES else lambda text: text.casefold() in EMPTY
        are = [text not in others and is_none(text) for text in texts]
        length[these[numpy.array([*are, False])[codes]]] = 0
        return Cells(cells.buffer, cells.start, length)

    def texts(self, name: str) -> tuple[Codes, list[str]]:
        """A number for each text of a column in our words, CellCode.MISSING for none, and the
        texts: one of several that mean the same.
        """
        if name not in self.names:
            return numpy.full(len(self.source), CellCode.MISSING, "i4"), []
        codes, texts = self.cells(name).texts()
        words = self._said(name)
        if not words:
            return codes, texts
        found = [words.get(text, text) for text in texts]
        known = {text: number for number, text in enumerate(dict.fromkeys(found))}
        numbers = numpy.array([*(known[text] for text in found), CellCode.MISSING], codes.dtype)
        return numbers[codes], [*known]

    def _said(self, name: str) -> Mapping[str, str]:
        """What words of a column mean; those said for members hold in members of trades too."""
        own = self.reading.values.get(name, {})
        is_member = name in ("bid_member", "ask_member")
        return {**self.reading.values.get("member", {}), **own} if is_member else own

    def words(self, name: str, known: Mapping[str, int]) -> Int8s:
        """What is known of each word of a column, CellCode.MISSING for none, CellCode.BAD for
        another.
        """
        codes, texts = self.texts(name)
        found = [
            known.get(text.casefold(), CellCode.BAD) if text else CellCode.MISSING for text in texts
        ]
        return numpy.array([*found, CellCode.MISSING], "i1")[codes]

    def wholes(self, name: str) -> Ints:
        """The whole number of each row, CellCode.MISSING for none, CellCode.BAD for another text,
        as 1.000 is beside whole numbers, of which it isn't known that it is 1,000.
        """
        codes, texts = self.texts(name)
        plain = [self.reading.plain(text) for text in texts]
        is_whole = any(text.isdigit() and text != "0" for text in plain)
        found = [
            CellCode.BAD if is_whole and _THOUSANDS.fullmatch(text) else self._whole(text)
            for text in plain
        ]
        return numpy.array([*found, CellCode.MISSING], "i8")[codes]

    def _whole(self, text: str) -> int:
        try:
            return whole_of(text) if text else CellCode.MISSING
        except BadCellError:
            return CellCode.BAD

    def decimal(self, text: str) -> Decimal | None:
        """The number that a text is, None where it is none."""
        return number_of(self.reading.plain(text))

    def prices(self, given: Iterable[Decimal]) -> tuple[Codes, list[Decimal], Mask]:
        """The number of each row's price among all prices, or a PriceCode; the prices, which rise;
        and which cells have a word for a market order.
        """
        codes, texts = self.texts("price")
        values = [self.decimal(text) for text in texts]
        prices = sorted({*given, *(it for it in values if it is not None)})
        places: dict[Decimal | None, int] = {price: at for at, price in enumerate(prices)}
        words = dict.fromkeys(_NO_PRICE, PriceCode.NO_PRICE)
        words |= dict.fromkeys(EMPTY, PriceCode.EMPTY)
        other = (words.get(it.casefold(), PriceCode.UNREAD) for it in texts)
        found = [places.get(value, word) for value, word in zip(values, other)]
        market = [self._is_market(text, value) for text, value in zip(texts, values)]
        array = numpy.array([*found, PriceCode.MARKET], "i4")[codes]
        return array, prices, numpy.array([*market, False])[codes]

    def _is_market(self, text: str, value: Decimal | None) -> bool:
        words = [word.casefold() for word in self.reading.market]
        return text.casefold() in words or (
            value is not None and any(value == number_of(self.reading.said(it)) for it in words)
        )

    def sequence(self) -> Ints | None:
        """The order of each row among those of one time; None where the table has no such column,
        or no cell in it. Texts without an order count for what is equal alone where rows aren't
        sorted. Raises ExtractError.
        """
        if "sequence" not in self.names:
            return None
        if self._whole_sequences is not None:
            numbers, places = numpy.unique(self._whole_sequences, return_inverse=True)
            if numbers.max(initial=CellCode.MISSING) < 0:
                return None
            return places.astype("i8") + min(0, int(numbers[0]))
        codes, keys = self._sequences
        if not keys:
            return None
        known = [key for key in keys if key is not None]
        if len(known) < len(keys) or len({prefix for prefix, _ in known}) > 1:
            if self.reading.sort:
                raise ExtractError("sequence has texts that have no order: leave it out")
            return codes.astype("i8")
        ranks = {key: place for place, key in enumerate(sorted({*known}))}
        return numpy.array([*(ranks[key] for key in known), CellCode.MISSING], "i8")[codes]

    @functools.cached_property
    def _whole_sequences(self) -> Ints | None:
        """The whole number of each row's sequence, CellCode.MISSING for none; None where some are
        others: these alone need a text of each.
        """
        has_words = bool(self.reading.values.get("sequence"))
        return None if has_words else self.cells("sequence").numbers()

    @functools.cached_property
    def _sequences(self) -> tuple[Codes, list[tuple[str, Decimal] | None]]:
        """A number for each text of the sequences, and what each text counts."""
        codes, texts = self.texts("sequence")
        return codes, [self._counted(text) for text in texts]

    def row_numbers(self) -> Ints:
        """Each row's whole number in a sequence, CellCode.MISSING for none; for all where some
        count in another way, as times do.
        """
        none = numpy.full(len(self.source), CellCode.MISSING, "i8")
        if "sequence" not in self.names:
            return none
        if self._whole_sequences is not None:
            return self._whole_sequences
        codes, keys = self._sequences
        ways = {it and it[0] for it in keys}
        if len(ways) != 1 or ways & {None, _OF_TIMES}:
            return none
        found = [int(it[1]) if it and it[1] == int(it[1]) else CellCode.MISSING for it in keys]
        return numpy.array([*found, CellCode.MISSING], "i8")[codes]

    def _counted(self, text: str) -> tuple[str, Decimal] | None:
        """What is before a number, and the number; None where the text is no such. A decimal is
        none beside whole numbers, as 1.000 is of which it isn't known that it is 1,000.
        """
        if text.isascii() and text.isdigit():
            return "", Decimal(text)
        plain = self.reading.plain(text)
        value = self.decimal(text)
        if value is not None:
            return "." * ("." in plain), value
        value = times.seconds(plain)
        if value is not None:
            return _OF_TIMES, value
        found = _COUNTED.fullmatch(plain)
        return (found[1], Decimal(found[2])) if found else None

    def content(self, rows: Ints, without: str = "") -> Ints:
        """A number for each of some rows, which is equal where all cells are, but for those of one
        of our columns.
        """
        found, source = numpy.zeros(len(rows), "i8"), self.source.take(rows)
        for name in source.names:
            if name == self.names.get(without):
                continue
            found = paired_codes(found, source.cells(name).codes()[0] + 1)
        return found

"""The cells of a table as slices of one buffer of bytes: a column is read without a loop over rows.

A file's cells lie where they are in it; those of a frame are joined first. Equal cells are found by
their bytes, eight at a time, so a column becomes numbers and each distinct text is read once.
"""
import csv
import dataclasses
import io
from collections.abc import Mapping, Sequence
from decimal import Decimal

import numpy
import pandas
from numpy.typing import NDArray

from callauction.prices import number_of
from callauction.verdict import times

Array = NDArray[numpy.generic]
Bytes = NDArray[numpy.uint8]
Ints = NDArray[numpy.int64]
Codes = NDArray[numpy.int32]
Mask = NDArray[numpy.bool_]
NO_ROWS: Ints = numpy.zeros(0, "i8")
_PAD = 64
"""Bytes behind the text, so that eight can be read from each place of it."""
_RETURN = 13
_MOST_DIGITS = 18
"""Of a number that is surely one of 64 bits."""
_UNIT = "\x1f"
"""A sign that parts fields and is in no text."""
_AT_ONCE = 1 << 24
_WIDE = 4_000_000_000


@dataclasses.dataclass(frozen=True)
class Cells:
    """The cells of a column: where each begins in the buffer, and how long it is."""

    buffer: Bytes
    start: Ints
    length: Ints

    def __len__(self) -> int:
        return len(self.length)

    def take(self, rows: Array) -> "Cells":
        """The cells of some rows."""
        return Cells(self.buffer, self.start[rows], self.length[rows])

    def text(self, row: int) -> str:
        """The text of a cell without blanks around it."""
        begin = int(self.start[row])
        return self.buffer[begin : begin + int(self.length[row])].tobytes().decode().strip()

    def layouts(self) -> tuple[Codes, Ints]:
        """As codes, each cell with a 0 in place of each of its digits."""
        is_digit = (self.buffer >= ord("0")) & (self.buffer <= ord("9"))
        plain = numpy.where(is_digit, numpy.uint8(ord("0")), self.buffer)
        return Cells(plain, self.start, self.length).codes()

    def stripped(self) -> "Cells":
        """The cells without blanks around them."""
        start, length = self.start.copy(), self.length.copy()
        while (more := (length > 0) & (self.buffer[start] <= 32)).any():
            start, length = start + more, length - more
        while (more := (length > 0) & (self.buffer[start + length - 1] <= 32)).any():
            length = length - more
        return Cells(self.buffer, start, length)

    def numbers(self) -> Ints | None:
        """Each cell's whole number, -1 for an empty one; None where one isn't of 1 to 18 digits."""
        these = self.stripped()
        most = int(these.length.max(initial=0))
        if most > _MOST_DIGITS:
            return None
        found = numpy.where(these.length > 0, 0, -1).astype("i8")
        for place in range(most):
            rows = numpy.flatnonzero(these.length > place)
            signs = these.buffer[these.start[rows] + place]
            if ((signs < ord("0")) | (signs > ord("9"))).any():
                return None
            found[rows] = 10 * found[rows] + (signs - ord("0"))
        return found

    def word(self, number: int) -> NDArray[numpy.uint64]:
        """The eight bytes of each cell from the place 8 * number on, zeros behind its end."""
        whole: NDArray[numpy.uint64]
        whole = numpy.ndarray((len(self.buffer) - 7,), "<u8", self.buffer.data, 0, (1,))
        left = numpy.clip(self.length - 8 * number, 0, 8)
        mask = (numpy.uint64(1) << (8 * numpy.minimum(left, 7)).astype("u8")) - numpy.uint64(1)
        mask[left == 8] = ~numpy.uint64(0)
        begin = numpy.where(left > 0, self.start + 8 * number, 0)
        found: NDArray[numpy.uint64] = whole[begin] & mask
        return found

    def codes(self) -> tuple[Codes, Ints]:
        """A number for each distinct cell, -1 for an empty one, and the first row of each."""
        filled = numpy.flatnonzero(self.length > 0)
        these = self if len(filled) == len(self) else self.take(filled)
        words = -(-int(these.length.max(initial=0)) // 8)
        found = pandas.factorize(these.word(0))[0] if words else numpy.zeros(0, "i8")
        for number in range(1, words):
            found = paired_codes(found, pandas.factorize(these.word(number))[0])
        codes = numpy.full(len(self), -1, "i4")
        codes[filled] = found
        return codes, filled[_firsts(found)]

    def texts(self) -> tuple[Codes, list[str]]:
        """A number for each distinct text without blanks around it, -1 where there is none."""
        codes, first = self.codes()
        found = [self.text(int(row)) for row in first]
        if len({*found}) == len(found) and "" not in found:
            return codes, found
        numbers = {text: place for place, text in enumerate(dict.fromkeys(filter(None, found)))}
        again = numpy.array([numbers.get(text, -1) for text in found] + [-1], "i4")
        return again[codes], [*numbers]


def numbered(values: Array) -> Ints:
    """A number for each distinct value, in the order in which they are first."""
    found: Ints = pandas.factorize(values)[0]
    return found


def paired_codes(one: Array, other: Array) -> Ints:
    """A number for each pair of numbers, none of which is below 0."""
    pairs = one.astype("i8") * (int(other.max(initial=0)) + 1) + other.astype("i8")
    return numbered(pairs)


def _firsts(codes: Array) -> Ints:
    """The first place of each number of a factorization, which rise."""
    if not len(codes):
        return numpy.zeros(0, "i8")
    highest = numpy.maximum.accumulate(codes)
    return numpy.flatnonzero(numpy.concatenate([[True], highest[1:] > highest[:-1]]))


@dataclasses.dataclass(frozen=True)
class Source:
    """The rows of a table with their names: cells of a column are given, or another source's."""

    names: tuple[str, ...]
    labels: Array
    given: Mapping[str, Cells] = dataclasses.field(default_factory=dict)
    base: "Source | None" = None

    def __len__(self) -> int:
        return len(self.labels)

    def cells(self, name: str) -> Cells:
        """The cells of a column, without blanks around them."""
        is_own = self.base is None or name in self.given
        return self.given[name] if is_own or self.base is None else self.base.cells(name)

    def take(self, rows: Array) -> "Source":
        """Some of the rows."""
        given = {name: cells.take(rows) for name, cells in self.given.items()}
        base = None if self.base is None else self.base.take(rows)
        return dataclasses.replace(self, labels=self.labels[rows], given=given, base=base)


def with_joined_columns(base: Source, columns: Mapping[str, Sequence[str]]) -> Source:
    """The rows with joined columns, parted by blanks: empty where the last of them is. Their texts
    are behind the others' buffer, whose places hold in theirs: events._ids and by_kind go by it.
    """
    if not columns:
        return base
    buffer, made, names = base.cells(base.names[0]).buffer[:-_PAD], {}, (*base.names, *columns)
    for name, parts in columns.items():
        read = (base.cells(part).texts() for part in parts)
        texts = zip(*(numpy.array([*found, ""], "object")[codes] for codes, found in read))
        whole = [" ".join(filter(None, it)).encode() if it[-1] else b"" for it in texts]
        length = numpy.array([*map(len, whole)], "i8")
        made[name] = len(buffer) + numpy.cumsum(length) - length, length
        buffer = numpy.concatenate([buffer, numpy.frombuffer(b"".join(whole), "u1")])
    buffer = numpy.concatenate([buffer, numpy.zeros(_PAD, "u1")])
    cells = {name: Cells(buffer, *at) for name, at in made.items()}
    return Source(names, base.labels, cells, base)


def by_kind(base: Source, kinds: Codes, columns: Mapping[int, str], other: str) -> Cells:
    """The cells of a column that for rows of some kinds is another one, or none (an empty name)."""
    cells = base.cells(base.names[-1])
    start, length = cells.start.copy(), numpy.zeros(len(base), "i8")
    for kind, name in {-1: other, **columns}.items():
        those = ~numpy.isin(kinds, [*columns]) if kind < 0 else kinds == kind
        if name:
            own = base.cells(name)
            start[those], length[those] = own.start[those], own.length[those]
    return Cells(cells.buffer, start, length)


# ---- frames


def frame_source(frame: pandas.DataFrame) -> Source:
    """The cells of a frame, each as the text that a file would have."""
    texts: list[bytes] = []
    places = {}
    size = 0
    for name in frame:
        codes, values = _factorized(frame[name])
        found = [_text(value).encode() for value in values] + [b""]
        lengths = numpy.array([len(text) for text in found])
        places[str(name)] = (size + numpy.cumsum(lengths) - lengths)[codes], lengths[codes]
        texts += found
        size += int(lengths.sum())
    buffer = numpy.frombuffer(b"".join(texts) + bytes(_PAD), "u1")
    columns = {name: Cells(buffer, *at).stripped() for name, at in places.items()}
    return Source(tuple(map(str, frame)), frame.index.to_numpy(), columns)


def _factorized(column: "pandas.Series") -> tuple[Ints, list[object]]:
    """A number for each distinct cell of a column, -1 where it is missing, and the cells."""
    cells = column.to_numpy() if column.dtype == object else column
    try:
        codes, values = pandas.factorize(cells)
    except TypeError:  # lists and the like
        codes, values = pandas.factorize(column.map(repr).to_numpy())
    return codes, [*values]


def _text(value: object) -> str:
    """The text of a cell; a float is the shortest decimal that gives it."""
    if isinstance(value, float | Decimal):
        number = number_of(value)
        if number is None:
            return str(value)
        text = f"{number:f}"
        return text.rstrip("0").rstrip(".") if isinstance(value, float) and "." in text else text
    return times.shown(value)


# ---- files


@dataclasses.dataclass(frozen=True, kw_only=True)
class FileSource(Source):
    """Lines of a buffer: where each begins and ends, and which mark between fields is its first."""

    buffer: Bytes
    marks: NDArray[numpy.uint32]
    first: Ints
    begin: Ints
    end: Ints
    has_blanks: bool

    def cells(self, name: str) -> Cells:
        place = self.names.index(name)
        start = self.marks[self.first + (place - 1)].astype("i8") + 1 if place else self.begin
        is_last = place == len(self.names) - 1
        end = self.end if is_last else self.marks[self.first + place].astype("i8")
        found = Cells(self.buffer, start, end - start)
        return found.stripped() if self.has_blanks else found

    def take(self, rows: Array) -> Source:
        first, begin, end = self.first[rows], self.begin[rows], self.end[rows]
        labels = self.labels[rows]
        return dataclasses.replace(self, labels=labels, first=first, begin=begin, end=end)


Short = tuple[tuple[object, str], ...]
"""Lines of another number of fields than the header, with what is wrong with each."""


def text_source(content: bytes, separator: str) -> tuple[Source, Short]:
    """The rows of a CSV text by their lines. Raises csv.Error."""
    lines, ends = None, dict[int, int]()
    content += b"\n"
    if b'"' in content or (b"\r" in content and content.count(b"\r") != content.count(b"\r\n")):
        content, ends = _unquoted(content.decode(), separator)
        lines = numpy.array([*ends], "i8")
        separator = _UNIT
    if len(content) > _WIDE:
        raise csv.Error("the file has more than 4 GB: part it")
    source, short = _split(content, separator.encode()[0], lines)
    return source, tuple((line, f"{why}{_in_quotes(line, ends)}") for line, why in short)


def _unquoted(text: str, separator: str) -> tuple[bytes, dict[int, int]]:
    """The table without quotes, fields parted by _UNIT, and by each row's line that it ends in."""
    reader = csv.reader(io.StringIO(text, newline=""), delimiter=separator)
    last = text.rstrip("\r\n").count("\n") + 1
    rows, ends, line = [], dict[int, int](), 1
    for fields in reader:
        if fields:
            rows.append(_UNIT.join(field.replace("\n", " ") for field in fields))
            ends[line] = min(reader.line_num, last)
        line = reader.line_num + 1
    return ("\n".join(rows) + "\n").encode(), ends


def _in_quotes(line: object, ends: Mapping[int, int]) -> str:
    """Which lines a row takes in by a quote, where it has several."""
    end = ends.get(line, 0) if isinstance(line, int) else 0
    if not isinstance(line, int) or end <= line:
        return ""
    return f": a quote that it opens takes in {end - line:,} more rows, up to row {end}"


def parted_source(
    names: Sequence[str], rows: Sequence[str], lines: Sequence[int]
) -> tuple[Source, Short]:
    """The rows of a table under these names, each with its line and its fields parted by _UNIT."""
    content = "\n".join([_UNIT.join(names), *rows, ""]).encode()
    return _split(content, ord(_UNIT), numpy.array([0, *lines], "i8"))


def _split(content: bytes, separator: int, lines: Ints | None) -> tuple[Source, Short]:
    """The rows of a text without quotes: all lines with as many separators as the header."""
    used = len(content)
    has_blanks = b" " in content or b"\t" in content
    buffer = numpy.frombuffer(content + bytes(_PAD), "u1")
    ends = _places(buffer, used, ord("\n")).astype("i8")
    starts = numpy.concatenate([[0], ends[:-1] + 1])
    ends = ends - ((ends > starts) & (buffer[ends - 1] == _RETURN))
    numbers = numpy.arange(1, len(ends) + 1) if lines is None or not len(lines) else lines
    marks = _places(buffer, used, separator)
    these = _filled(buffer, starts, ends, separator)
    numbers, starts, ends = numbers[these], starts[these], ends[these]
    first = numpy.searchsorted(marks, starts.astype("u4"))
    counts = numpy.searchsorted(marks, ends.astype("u4")) - first
    header = buffer[starts[0] : ends[0]].tobytes().decode() if len(starts) else ""
    names = tuple(name.strip() for name in header.split(chr(separator)))
    whole = counts == counts[:1]
    good = numpy.flatnonzero(whole)[1:]
    short = tuple(
        (int(numbers[row]), f"has {counts[row] + 1} fields, the header {len(names)}")
        for row in numpy.flatnonzero(~whole)
    )
    source = FileSource(
        names, numbers[good], buffer=buffer, marks=marks, first=first[good], begin=starts[good],
        end=ends[good], has_blanks=has_blanks,
    )  # fmt: skip
    return source, short


def _filled(buffer: Bytes, starts: Ints, ends: Ints, separator: int) -> Ints:
    """The lines that have more than blanks and separators, and aren't the header once more."""
    found = ends > starts
    head, signs = int(found.argmax()), bytes([separator, *b" \t"])
    spots = starts, (starts + ends) // 2, numpy.maximum(ends - 1, 0)
    is_blank, is_head = found, ends - starts == ends[head] - starts[head]
    for at in spots:
        is_blank = is_blank & numpy.isin(buffer[at], [*signs])
        is_head = is_head & (buffer[at] == buffer[at[head]])
    header = buffer[starts[head] : ends[head]].tobytes()
    for line in numpy.flatnonzero(is_blank | is_head).tolist():
        text = buffer[starts[line] : ends[line]].tobytes()
        found[line] = bool(text.strip(signs)) and (text != header or line == head)
    return numpy.flatnonzero(found)


def _places(buffer: Bytes, used: int, sign: int) -> NDArray[numpy.uint32]:
    """Where a byte is in the first bytes of a buffer."""
    parts = ((begin, min(used, begin + _AT_ONCE)) for begin in range(0, used, _AT_ONCE))
    found = [(numpy.flatnonzero(buffer[it:end] == sign) + it).astype("u4") for it, end in parts]
    return numpy.concatenate(found)

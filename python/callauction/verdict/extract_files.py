"""A file's text as rows: its bytes are no other form's, its lines have the header's fields."""
import csv
import dataclasses
import gzip
import os
import pathlib
import re
import zlib
from typing import BinaryIO

from callauction.verdict import fix
from callauction.verdict.cells import Short, Source, text_source
from callauction.verdict.columns import EVENT_COLUMNS, ExtractError
from callauction.verdict.reading import Reading
from callauction.verdict.table import End, Table

GZIP = b"\x1f\x8b"
HEADER_ALONE = "files with a header and no rows"
NO_TOTALS = "totals, which aren't read, in row {}"
_ARCHIVE, _BOOK = b"PK\3\4", b"\xd0\xcf\x11\xe0"
"""How an archive begins, as a workbook is one, and how an older workbook does."""
_SHEETS = b"[Content_Types].xml"
"""A file that each workbook holds, whose name isn't packed."""
_PACKED = {b"BZh": "bzip2", b"\xfd7zXZ\x00": "xz", b"\x28\xb5\x2f\xfd": "zstd", b"7z\xbc\xaf": "7z"}
_PICTURES = (b"%PDF-", b"\x89PNG", b"\xff\xd8\xff", b"GIF8")
_MARK = b"\xef\xbb\xbf"
"""How a file of UTF-8 may begin."""
_WIDE = (b"\xff\xfe", b"\xfe\xff")
"""How text of two bytes a sign begins."""
_CONTROLS = bytes([*range(2, 9), *range(14, 26), 27, 127])
"""What no text has but rarely, and neither a separator of fields is."""
_HEAD, _RARE = 1 << 16, 50
"""Of how many bytes at a file's begin, and of how many of them one may be such."""
_MARKED = re.compile(
    rb"\s*(?:\{|\[\s*[{\[]|<\?xml|<!doctype|<html|<table|<workbook)", re.IGNORECASE
)
"""How JSON, XML and HTML begin."""
_SIGNED = re.compile(rb"\A\"?sep=.\"?\r?\n")
"""A line for Excel, which says the separator."""
_TOTALS = re.compile(r"(?:(?:grand|sub) ?)?totals?\b|sum(?:me)?\b|gesamt", re.IGNORECASE)
"""How a line of totals begins."""
_FIGURES = re.compile(r"[\d.,' %+-]*")


def file_of(source: str | os.PathLike[str] | BinaryIO, reading: Reading) -> Table:
    """The rows of a file by their lines, its lines of another length, and what else was met."""
    if isinstance(source, str | os.PathLike):
        content = pathlib.Path(source).read_bytes()
    else:
        content = source.read()
    content = _plain(content, reading.encoding)
    if len(reading.separator.encode()) != 1:
        raise ExtractError(f"separator {reading.separator!r} is no single character")
    if not content.strip():
        raise ExtractError("the file is empty: it needs a header with the names of its columns")
    if reading.format == "fix":
        return _log_of(content, reading)
    _look_at_text(content)
    content = _SIGNED.sub(b"\n", content)
    _look_at_signs(content, reading)
    return _lines_of(content, reading)


def _log_of(content: bytes, reading: Reading) -> Table:
    """The messages of a log."""
    log = fix.table_of(content.decode(), reading.separator)
    end = None if log.is_ended else _end(log.source, False)
    has_numbers = len(log.numbers) > 0
    return Table(log.source, log.short, notes=log.notes, end=end, is_whole=has_numbers,
                 others=log.numbers)  # fmt: skip


def _look_at_text(content: bytes) -> None:
    """Raises ExtractError for text of two bytes a sign, and of other forms."""
    if content.count(b"\x00") > len(content) // 3:
        little = content[1:2] == b"\x00"
        raise ExtractError(f"the file is UTF-16: say encoding utf-16-{'le' if little else 'be'}")
    if _MARKED.match(content):
        raise ExtractError("this is JSON, XML or HTML, and no table: save it as CSV")


def _look_at_signs(content: bytes, reading: Reading) -> None:
    """Raises ExtractError where one sign parts fields and decimals, and rows have more of it than
    the header.
    """
    if reading.decimal == reading.separator and b'"' not in content:
        counts = [line.count(reading.separator.encode()) for line in content.splitlines()]
        if max(counts, default=0) > next(iter(counts), 0):
            sign = repr(reading.separator)
            raise ExtractError(f"separator and decimal are both {sign}, and no field is quoted")


def _lines_of(content: bytes, reading: Reading) -> Table:
    """The rows of a CSV file's text."""
    try:
        found, short = text_source(content, reading.separator)
    except csv.Error as fault:
        raise ExtractError(f"the file is no CSV file: {fault}") from None
    _look_at_lines(content, reading.separator, found, short)
    notes = {} if len(found) or short else {HEADER_ALONE: 1}
    end = _end(found, not content.endswith((b"\n", b"\r")))
    last = max([*found.labels[-1:].tolist(), *(line for line, _ in short[-1:])], default=None)
    totals = last if _has_totals(content, reading.separator, found) else None
    table = Table(found, short, notes=notes, end=end, totals=totals)
    if totals is None or (len(found) and totals == found.labels[-1]):
        return table
    return dataclasses.replace(without_totals(table, totals), short=short[:-1])


def _look_at_lines(content: bytes, separator: str, found: Source, short: Short) -> None:
    """Raises ExtractError for a header that is none, and where each row ends in one separator more
    than it.
    """
    _look_at_header(found.names, separator)
    many = len(found.names)
    is_more = short and {why for _, why in short} == {f"has {many + 1} fields, the header {many}"}
    if is_more and not len(found):
        lines = (it.rstrip(b" ") for it in content.splitlines()[1:])
        if all(line.endswith(separator.encode()) for line in lines if line):
            raise ExtractError(
                f"each row ends in a {separator!r} more than the header: write one at the end of "
                "the header too"
            )


def _has_totals(content: bytes, separator: str, found: Source) -> bool:
    """Whether a file's last line has a word for totals, as no other row there, and figures."""
    line = content[-_HEAD:].rstrip().splitlines()[-1].decode(errors="replace")
    fields = [it.strip() for it in next(csv.reader([line], delimiter=separator))]
    place = next((at for at, field in enumerate(fields) if field), len(fields))
    figures = all(map(_FIGURES.fullmatch, fields[place + 1 :]))
    is_within = place < min(len(fields), len(found.names))
    if not is_within or not figures or not _TOTALS.match(fields[place]):
        return False
    codes, texts = found.cells(found.names[place]).texts()
    many = (codes == texts.index(fields[place])).sum() if fields[place] in texts else 0
    return bool(many < 2)


def without_totals(table: Table, label: object) -> Table:
    """The table, whose last row has totals, so that the file isn't cut."""
    notes = {**table.notes, NO_TOTALS.format(label): 1}
    return dataclasses.replace(table, notes=notes, end=None, totals=None)


def _end(source: Source, is_cut: bool) -> End | None:
    """The end of a file's rows, where there are any."""
    return End(source.labels[-1], "", is_cut) if len(source) else None


def _plain(content: bytes, encoding: str) -> bytes:
    """The bytes of a file's text as UTF-8, without a byte order mark. Raises ExtractError for
    another encoding's, and ValueError for an encoding that isn't known.
    """
    try:
        plain = gzip.decompress(content) if content.startswith(GZIP) else content
    except (EOFError, gzip.BadGzipFile, zlib.error):
        raise ExtractError("the file is cut or no gzip file: fetch it again") from None
    _look_at_bytes(plain)
    try:
        if encoding.casefold().replace("_", "-") not in ("utf-8", "utf8"):
            plain = plain.decode(encoding).encode()
        elif not plain.isascii():
            plain = _whole_letters(plain)
        plain = plain if b"\n" in plain else plain.replace(b"\r", b"\n")
        return plain.removeprefix(_MARK).replace(b"\n" + _MARK, b"\n")
    except LookupError:
        raise ValueError(f"there is no encoding {encoding!r}") from None
    except UnicodeDecodeError as fault:
        line = plain[: fault.start].count(b"\n") + 1
        hint = "utf-16" if plain[:2] in (b"\xff\xfe", b"\xfe\xff") else "latin-1"
        raise ExtractError(f"line {line} is no {encoding}: say encoding {hint}") from None


def _whole_letters(content: bytes) -> bytes:
    """Bytes of UTF-8 without a letter within which they end. Raises UnicodeDecodeError."""
    try:
        content.decode()
    except UnicodeDecodeError as fault:
        if fault.reason != "unexpected end of data":
            raise
        return content[: fault.start]
    return content


def _look_at_bytes(content: bytes) -> None:
    """Raises ExtractError for bytes that are no text, whatever their encoding."""
    if content.startswith(_ARCHIVE) and _SHEETS not in content:
        raise ExtractError("this is a zip archive: unpack it, as gzip alone is read")
    if content.startswith((_ARCHIVE, _BOOK)):
        raise ExtractError("this is a workbook or an archive, and no text: save the sheet as CSV")
    packed = next((name for sign, name in _PACKED.items() if content.startswith(sign)), "")
    if packed:
        raise ExtractError(f"this is compressed by {packed}: unpack it, as gzip alone is read")
    head = content[:_HEAD]
    odd = len(head) - len(head.translate(None, _CONTROLS))
    is_wide = head.startswith(_WIDE) or head.count(b"\x00") > len(head) // 3
    if content.startswith(_PICTURES) or not is_wide and odd * _RARE > len(head):
        what = "no text (a PDF, a picture or another program's)"
        raise ExtractError(f"this is {what}: save it as CSV")


def _look_at_header(header: tuple[str, ...], separator: str) -> None:
    """Raises ExtractError for a header of one column that another separator parts, or a title."""
    signs = {";": "semicolons", "\t": "tabs", "|": "bars", ",": "commas"}
    for sign, name in signs.items():
        if len(header) == 1 and sign in header[0] and sign != separator:
            raise ExtractError(f"the fields are parted by {name}: say separator {sign!r}")
    is_title = len(header) == 1 and header[0] not in EVENT_COLUMNS
    if is_title or 2 * header.count("") > len(header):
        name = next(filter(None, header), "")[:40]
        raise ExtractError(
            f"line 1, {name!r}, has no names of columns: take out what is above these"
        )

"""Names of instruments and of their files, and texts that a terminal or a spreadsheet may show."""
import os
import pathlib
import re
import urllib.parse

SUFFIX = ".csv"
SAFE = "-_ "
"""What a file's name has as it is beside letters and digits."""
MOST_BYTES = 255
"""The longest name of a file."""
FIRST_RAW, LAST_RAW = 0xDC80, 0xDCFF
"""How Python writes a byte that isn't UTF-8 into a text (PEP 383)."""
ESCAPE = re.compile(r"\\(?:x(..)|u(.{4})|U(.{8})|(\\))")
RUN = tuple("=+-@\uff1d\uff0b\uff0d\uff20")
"""What a cell begins with that a spreadsheet runs."""
GUARD = "'"


def escaped(char: str) -> str:
    """A character that no terminal may get, as a backslash and hexadecimal digits: `\\xNN` for
    ASCII and for a byte that isn't UTF-8, else `\\uNNNN` or `\\UNNNNNNNN`.
    """
    code = ord(char)
    if FIRST_RAW <= code <= LAST_RAW:
        return f"\\x{code & 0xFF:02x}"
    if code < 0x80:
        return f"\\x{code:02x}"
    return f"\\u{code:04x}" if code <= 0xFFFF else f"\\U{code:08x}"


def line_of(text: str) -> str:
    """A text on one line: controls, line ends and bytes that aren't UTF-8 are escaped."""
    return "".join(char if char.isprintable() else escaped(char) for char in text)


def printable(name: bytes) -> str:
    """A name of any bytes as a text on one line, another for each name: as line_of, and a backslash
    is two. name_of reads it back.
    """
    return line_of(name.decode("utf-8", "surrogateescape").replace("\\", "\\\\"))


def name_of(text: str) -> bytes:
    """The name that printable made this text of. Raises ValueError for a bad escape."""
    return ESCAPE.sub(unescaped, text).encode("utf-8", "surrogateescape")


def unescaped(found: re.Match[str]) -> str:
    """The character of an escape. Raises ValueError."""
    if found[4]:
        return "\\"
    code = int(found[1] or found[2] or found[3], 16)
    return chr(code + 0xDC00) if found[1] and code >= 0x80 else chr(code)


def file_of(instrument: str) -> str:
    """The name of the file of an instrument: letters and digits of ASCII, hyphens, underscores and
    spaces stay, the bytes of all else in UTF-8 are `%XX`.

    Raises ValueError for an empty name, and for one that no file can have.
    """
    name = urllib.parse.quote(instrument, safe=SAFE, errors="surrogateescape")
    name = name.replace(".", "%2E").replace("~", "%7E")
    if not instrument or len(name) + len(SUFFIX) > MOST_BYTES:
        raise ValueError(f"no file can be named for the instrument {instrument!r}")
    return name + SUFFIX


def instrument_of(path: str) -> str:
    """The instrument whose file this is: the printable form of the name that file_of was given, or
    else of the file's own name.
    """
    return printable(urllib.parse.unquote_to_bytes(os.fsencode(pathlib.PurePath(path).stem)))


def guarded(text: str) -> str:
    """A cell that no spreadsheet runs: an apostrophe is put before one that it would run, and
    before one that begins with an apostrophe.
    """
    return GUARD + text if text.startswith((GUARD, *RUN)) else text


def unguarded(cell: str) -> str:
    """The text that guarded made this cell of."""
    return cell.removeprefix(GUARD)

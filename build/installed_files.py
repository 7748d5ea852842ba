"""What is installed and where: the program, its texts, and the library for C. See items_of."""
import dataclasses
import pathlib
import re

from version import version

TOP = pathlib.Path(__file__).resolve().parent.parent
SONAME = "libcallauction.so.1"
LIBRARY_FILES = ("libcallauction.a", SONAME, "libcallauction.so")
MULTIARCH = "lib/x86_64-linux-gnu"
"""Debian's folder of libraries."""
NAME = re.compile(r"@([A-Z]+)@")
FILE, PROGRAM = 0o644, 0o755


@dataclasses.dataclass(frozen=True)
class Item:
    """A file with this content, or a link to `link`, at a place below the prefix."""

    place: str
    content: bytes = b""
    mode: int = FILE
    link: str = ""


def filled(name: str, **words: str) -> bytes:
    """A text of share/ in which each @NAME@ is replaced by its word, @VERSION@ and @DATE@ by the
    version's. Raises OSError, KeyError.
    """
    words |= {"VERSION": version(), "DATE": version().replace(".", "-")}
    text = (TOP / "share" / name).read_text(encoding="utf-8")
    return NAME.sub(lambda found: words[found[1]], text).encode()


def package_text(prefix: str, include: str, lib: str) -> bytes:
    """The text of callauction.pc, whose folders are below this prefix. Raises OSError."""
    return filled("callauction.pc.in", PREFIX=prefix, INCLUDE=include, LIB=lib)


def program_items(program: pathlib.Path) -> list[Item]:
    """The program, its manual page and its completions. Raises OSError."""
    return [Item("bin/callboard", program.read_bytes(), PROGRAM), *program_texts()]


def program_texts() -> list[Item]:
    """The program's manual page and its completions. Raises OSError."""
    completions = (TOP / "share/callboard.bash").read_bytes()
    return [
        Item("share/man/man1/callboard.1", filled("callboard.1.in")),
        Item("share/bash-completion/completions/callboard", completions),
    ]


def in_tarball(place: str) -> str:
    """Where the tarball has what is at a place below a prefix: without the first folder."""
    return place.partition("/")[2]


def library_items(library: pathlib.Path, lib: str) -> list[Item]:
    """The library that library/build wrote, for a folder `lib` of libraries below the prefix, with
    its texts. Raises OSError.
    """
    return [
        Item(f"{lib}/libcallauction.a", (library / "libcallauction.a").read_bytes()),
        Item(f"{lib}/{SONAME}", (library / SONAME).read_bytes()),
        Item(f"{lib}/libcallauction.so", link=SONAME),
        *library_texts(lib),
    ]


def library_texts(lib: str) -> list[Item]:
    """The headers of the library, and what pkg-config and CMake read. Raises OSError."""
    up = "/".join([".."] * (lib.count("/") + 2))
    words = {"PREFIX": f"{up}/..", "INCLUDE": "include", "LIB": lib}
    package = package_text(f"${{pcfiledir}}/{up}", "include", lib)
    cmake = f"{lib}/cmake/callauction"
    return [
        Item("include/callauction.h", (TOP / "library/callauction.h").read_bytes()),
        Item("include/callauction.hpp", (TOP / "library/callauction.hpp").read_bytes()),
        Item(f"{lib}/pkgconfig/callauction.pc", package),
        Item(f"{cmake}/callauctionConfig.cmake", filled("callauctionConfig.cmake.in", **words)),
        Item(
            f"{cmake}/callauctionConfigVersion.cmake", filled("callauctionConfigVersion.cmake.in")
        ),
    ]


def folder_items(source: pathlib.Path, place: str) -> list[Item]:
    """All files below a folder, for a place below the prefix. Raises OSError."""
    files = sorted(it for it in source.rglob("*") if it.is_file() and "__pycache__" not in it.parts)
    return [Item(f"{place}/{it.relative_to(source)}", it.read_bytes()) for it in files]

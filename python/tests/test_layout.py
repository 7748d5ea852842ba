"""The package has the layout and the numbers of the header that the library was built with."""
import enum
from typing import Any

import callauction
import numpy
import pytest
from callauction import COMMAND, ORDER, OUTCOME, REPLY, TRADE
from callauction import AuctionKind, CommandTag, Refusal, ReplyTag, Restriction, Side
from callauction._native import ffi, lib
from callauction.arguments import BITS


@pytest.mark.parametrize(
    "name, dtype",
    [
        ("command", COMMAND),
        ("reply", REPLY),
        ("trade", TRADE),
        ("order", ORDER),
        ("outcome", OUTCOME),
    ],
)
def test_each_dtype_is_the_struct(name: str, dtype: "numpy.dtype[Any]") -> None:
    fields: Any = dtype.fields
    struct = ffi.typeof(f"callauction_{name}")
    wanted = {field: (at.offset, ffi.sizeof(at.type)) for field, at in struct.fields}
    found = {field: (fields[field][1], dtype[field].itemsize) for field in fields}
    assert found == wanted
    assert dtype.itemsize == ffi.sizeof(struct)
    assert dtype.alignment == ffi.alignof(struct)
    assert all(dtype[field].kind == "u" for field in fields)


def test_each_number_has_the_bits_of_its_field() -> None:
    for name, bits in BITS.items():
        field = {"number": "id", "has": "has_limit"}.get(name, name)
        assert bits == 8 * COMMAND[field].itemsize


NUMBERS = [
    (Side, {name: "SIDE_" + name for name in Side.__members__}),
    (Restriction, {name: "RESTRICTION_" + name for name in Restriction.__members__}),
    (AuctionKind, {name: "AUCTION_" + name for name in AuctionKind.__members__}),
    (Refusal, {name: "REFUSAL_" + name for name in Refusal.__members__}),
    (CommandTag, {name: "COMMAND_" + name for name in CommandTag.__members__}),
    (ReplyTag, {name: "REPLY_" + name for name in ReplyTag.__members__}),
]


@pytest.mark.parametrize("enumeration, names", NUMBERS)
def test_each_number_is_the_headers(
    enumeration: type[enum.IntEnum], names: dict[str, str]
) -> None:
    for name, value in enumeration.__members__.items():
        assert value == getattr(lib, "CALLAUCTION_" + names.get(name, name))


def names_of_the_header() -> list[str]:
    """The names of its enumerations' numbers."""
    names = [name for name in dir(lib) if name.startswith("CALLAUCTION_")]
    return [name for name in names if name != "CALLAUCTION_ALL_MEMBERS"]


def test_no_number_of_the_header_is_left_out() -> None:
    errors, of_journals = 21, 8  # CALLAUCTION_DONE and CALLAUCTION_JOURNAL_NO_FAULT among them
    numbers = names_of_the_header()
    enumerated = sum(len(enumeration) for enumeration, _ in NUMBERS)
    assert len(numbers) == enumerated + errors + of_journals


def test_the_packages_own_errors_are_none_of_the_header() -> None:
    numbers = [getattr(lib, name) for name in names_of_the_header()]
    assert min(lib.PYTHON_BUSY, lib.PYTHON_OVERLAP) > max(numbers)
    assert lib.PYTHON_ERROR > max(*numbers, lib.PYTHON_BUSY, lib.PYTHON_OVERLAP)
    assert lib.PYTHON_NO_REPLY not in {int(tag) for tag in ReplyTag}


def test_all_names_are_there() -> None:
    assert all(hasattr(callauction, name) for name in callauction.__all__)

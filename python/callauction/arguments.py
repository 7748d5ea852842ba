"""What is wrong with the arguments of a command: numbers, and members of enumerations."""
import operator

import numpy

BITS = {"quantity": 64, "peak": 64, "client": 64, "id": 32, "number": 32, "limit": 32}
BITS |= {"member": 8, "has": 8}
"""The numbers of a command that the library takes, with their sizes."""
MOST_OF_FIELDS = {name: (1 << bits) - 1 for name, bits in BITS.items()}
"""The greatest that each may be."""


def number(name: str, value: object, most: int) -> int:
    """The integer that the value of this argument is. Raises TypeError where it is none or a bool,
    and ValueError where it is below 0 or above `most`.
    """
    try:
        if isinstance(value, bool | numpy.bool_):
            raise TypeError
        found = operator.index(value)  # type: ignore[arg-type]
    except TypeError:
        raise TypeError(f"{name} must be an integer, not {type(value).__name__}") from None
    if not 0 <= found <= most:
        raise ValueError(f"{name} must be from 0 to {most}, not {found}")
    return found


def numbers(
    names: tuple[str, ...], values: tuple[object, ...], most: dict[str, int] = MOST_OF_FIELDS
) -> tuple[int, ...]:
    """The integers that the values of these arguments of a command are. Raises TypeError or
    ValueError for the first that is none, or that is above the most that its name may be.
    """
    return tuple(number(name, it, most[name]) for name, it in zip(names, values))


def fault_of(
    names: tuple[str, ...], values: tuple[object, ...], most: dict[str, int] = MOST_OF_FIELDS
) -> Exception:
    """The first fault of the values of these arguments of a command, of which one doesn't fit."""
    try:
        numbers(names, values, most)
    except (TypeError, ValueError) as fault:
        return fault
    return OverflowError("an argument doesn't fit the library's number")


def check_enumeration(name: str, value: object, enumeration: type) -> None:
    """Raises TypeError where the value of this argument isn't of this enumeration."""
    if not isinstance(value, enumeration):
        wanted = enumeration.__name__
        raise TypeError(f"{name} must be one of {wanted}, not {type(value).__name__}")

"""Shapes: how the extracts of a system are read, in files that can be copied and edited."""
import dataclasses
import pathlib
import tomllib
from collections.abc import Iterable, Mapping
from typing import Any

from callauction.verdict.reading import Reading
from callauction.verdict.times import STROKES

FOLDER = pathlib.Path(__file__).with_name("systems")
_TABLES = ("columns", "values")
_LISTS = ("where", "market", "ignore")
_CHOICES = {
    "quantity": ("open", "total"), "results": ("rows", "trades"), "format": ("csv", "fix"),
    "dates": (*STROKES,),
}  # fmt: skip


class ShapeError(ValueError):
    """There is no such shape, or its file says what no shape can; one line."""


def names() -> list[str]:
    """The names of the shapes that the package has."""
    return sorted(path.stem for path in FOLDER.glob("*.toml"))


def path_of(name: str) -> pathlib.Path:
    """The file of a shape: one of names(), or a path. Raises ShapeError."""
    path = FOLDER / f"{name}.toml" if name in names() else pathlib.Path(name)
    if not path.is_file():
        known = ", ".join(names())
        raise ShapeError(f"shape {name!r} is neither a file nor one of {known}")
    return path


def reading_of(name: str) -> Reading:
    """How a shape's extracts are read. Raises ShapeError and OSError."""
    path = path_of(name)
    try:
        given = tomllib.loads(path.read_text(encoding="utf-8"))
    except (tomllib.TOMLDecodeError, UnicodeDecodeError) as fault:
        raise ShapeError(f"shape {path}: {fault}") from None
    fields = {field.name: field.type for field in dataclasses.fields(Reading)}
    for key, value in given.items():
        if key not in fields:
            raise ShapeError(f"shape {path}: there is no {key}; there are {', '.join(fields)}")
        why = _fault(key, value)
        if why:
            raise ShapeError(f"shape {path}: {key} must be {why}")
    return Reading(**{key: _plain(value) for key, value in given.items()})


def _fault(key: str, value: Any) -> str:
    """What the value of a key must be, empty where it is that."""
    if key in _TABLES:
        is_nested = key == "values" and isinstance(value, Mapping)
        tables = [*value.values()] if is_nested else [value]
        is_good = all(isinstance(it, Mapping) and _are_texts(it.values()) for it in tables)
        return "" if is_good else "a table of texts"
    if key in _LISTS:
        return "" if isinstance(value, list) and _are_texts(value) else "a list of texts"
    if key in ("sort", "unrestricted"):
        return "" if isinstance(value, bool) else "true or false"
    if key in _CHOICES:
        return "" if value in _CHOICES[key] else " or ".join(_CHOICES[key])
    return "" if isinstance(value, str) else "a text"


def _are_texts(values: Iterable[object]) -> bool:
    return all(isinstance(it, str) for it in values)


def _plain(value: Any) -> Any:
    return tuple(value) if isinstance(value, list) else value


def joined_shapes(shape: Reading, own: Mapping[str, Any]) -> Reading:
    """A shape with what is said beside it: tables and lists grow, what isn't None replaces."""
    said: dict[str, Any] = {}
    for name, value in own.items():
        before = getattr(shape, name)
        if name == "columns":
            both = {**before, **value}
            said[name] = {ours: it for ours, it in both.items() if it or "." in ours}
        elif name == "values":
            both = {**before, **value}
            said[name] = {it: {**before.get(it, {}), **value.get(it, {})} for it in both}
        elif name in _LISTS:
            said[name] = (*before, *value)
        elif value is not None:
            said[name] = value
    return dataclasses.replace(shape, **said)

"""The keys of a table of a day's file, or of a message that has the same, read one by one."""
import difflib
import re
from decimal import Decimal
from typing import Any

from callauction.prices import BadCellError, decimal_of
from callauction.venue.member_names import tidy

MEMBER_NAME = re.compile(r"[^\x00-\x1f\x7f<>]{1,40}")
TITLE = re.compile(r"[^\x00-\x1f\x7f<>]{0,60}")
SENTENCE = re.compile(r"[^\x00-\x1f\x7f<>]{0,240}")
TABLE = re.compile(r"[^\x00]{0,65536}")
LENGTHS = {MEMBER_NAME: 40, TITLE: 60, SENTENCE: 240, TABLE: 65_536}
"""How many letters a text of a pattern has at most."""
PRICE = re.compile(r"[0-9]{1,30}(\.[0-9]{1,30})?")
MOST_VALUE_LETTERS = 60
"""How many letters a fault has of a bad value."""


def shown(value: object) -> str:
    """A value as a fault says it, or its begin."""
    text = repr(value)
    return text if len(text) <= MOST_VALUE_LETTERS else f"{text[:MOST_VALUE_LETTERS]}.."


def flaw_of(text: object, pattern: re.Pattern[str]) -> str:
    """What is wrong with what is no text of a pattern."""
    if not isinstance(text, str) or pattern not in LENGTHS:
        return "isn't a text that may be here"
    if len(text) > LENGTHS[pattern]:
        return f"has more than {LENGTHS[pattern]} letters"
    return "has <, > or a control character" if text else "is empty"


class ConfigError(ValueError):
    """The file of a day is a bad one: the text names the place and what is wrong there."""


class Fields:
    """The keys of a table that weren't taken yet, and all that were asked for."""

    def __init__(self, where: str, table: dict[str, Any]) -> None:
        self.where = where + ": " if where else ""
        self.left = dict(table)
        self._asked: dict[str, None] = {}

    def has(self, name: str) -> bool:
        """Whether a key is there, which may be."""
        self._asked[name] = None
        return name in self.left

    def _take(self, name: str, default: Any) -> Any:
        """The value of a key, which is taken; the default where it isn't there."""
        return self.left.pop(name) if self.has(name) else default

    def fault(self, name: str, why: str) -> ConfigError:
        """What is wrong with this key."""
        return ConfigError(f"{self.where}{name} {why}")

    def text(self, name: str, default: str, pattern: re.Pattern[str] = MEMBER_NAME) -> str:
        """A text of one line. Raises ConfigError."""
        found = self._take(name, default)
        if not isinstance(found, str) or (found != default and not pattern.fullmatch(found)):
            raise self.fault(name, f"{shown(found)} {flaw_of(found, pattern)}")
        return found

    def sentence(self, name: str) -> str:
        """A text of at most 240 characters. Raises ConfigError."""
        return self.text(name, "", SENTENCE)

    def price(self, name: str) -> str:
        """A price as a decimal text, empty where it isn't there. Raises ConfigError."""
        found = self._take(name, "")
        if not isinstance(found, str) or found and not PRICE.fullmatch(found):
            raise self.fault(name, f"{shown(found)} is no price such as \"20.05\"")
        return found

    def prices(self, name: str) -> tuple[str, ...]:
        """Prices as decimal texts. Raises ConfigError."""
        found = self._take(name, [])
        if not isinstance(found, list):
            raise self.fault(name, f"{shown(found)} is no list")
        for each in found:
            if not isinstance(each, str) or not PRICE.fullmatch(each):
                raise self.fault(name, f"{shown(each)} is no price such as \"20.05\"")
        return tuple(found)

    def whole_or_none(self, name: str, least: int, most: int) -> int | None:
        """A whole number, None where it isn't there. Raises ConfigError."""
        return self.whole(name, 0, least, most) if self.has(name) else None

    def choice(self, name: str, choices: tuple[str, ...], default: str) -> str:
        """One of some words. Raises ConfigError."""
        found = self._take(name, default)
        if found not in choices:
            raise self.fault(name, f"{shown(found)} is none of {', '.join(choices)}")
        return str(found)

    def flag(self, name: str, default: bool) -> bool:
        """true or false. Raises ConfigError."""
        found = self._take(name, default)
        if not isinstance(found, bool):
            raise self.fault(name, f"{shown(found)} is neither true nor false")
        return found

    def whole(self, name: str, default: int, least: int, most: int) -> int:
        """A whole number. Raises ConfigError."""
        found = self._take(name, default)
        if isinstance(found, bool) or not isinstance(found, int) or not least <= found <= most:
            why = f"{shown(found)} is no whole number from {least} to {most}"
            raise self.fault(name, why)
        return found

    def decimal(self, name: str) -> Decimal | None:
        """A decimal number, None where it isn't there. Raises ConfigError."""
        if not self.has(name):
            return None
        found = self._take(name, None)
        try:
            return decimal_of(found)
        except BadCellError as fault:
            raise self.fault(name, f"{shown(found)} {fault}") from None

    def number(self, name: str, default: float, most: int) -> float:
        """A number above 0, which is no text. Raises ConfigError."""
        found = self._take(name, default)
        if isinstance(found, bool) or not isinstance(found, int | float) or not 0 < found <= most:
            raise self.fault(name, f"{shown(found)} is no number above 0, at most {most}")
        return float(found)

    def names(self, name: str) -> tuple[str, ...]:
        """Names of members as a join takes them, each once. Raises ConfigError."""
        found = self._take(name, [])
        if not isinstance(found, list):
            raise self.fault(name, f"{shown(found)} is no list")
        seen: dict[str, None] = {}
        for each in found:
            if not isinstance(each, str) or not MEMBER_NAME.fullmatch(each):
                raise self.fault(name, f"{shown(each)} {flaw_of(each, MEMBER_NAME)}")
            if (wanted := tidy(each) or each) in seen:
                raise self.fault(name, f"{shown(each)} is there twice")
            seen[wanted] = None
        return tuple(seen)

    def table(self, name: str) -> dict[str, Any]:
        """A table, empty where it isn't there. Raises ConfigError."""
        found = self._take(name, {})
        if not isinstance(found, dict):
            raise self.fault(name, f"{shown(found)} is no table: [{name}]")
        return found

    def tables(self, name: str) -> list[dict[str, Any]]:
        """Tables of one name. Raises ConfigError."""
        found = self._take(name, [])
        if not isinstance(found, list) or not all(isinstance(each, dict) for each in found):
            raise self.fault(name, f"{shown(found)} is no list of tables: [[{name}]]")
        return found

    def ended(self) -> None:
        """Raises ConfigError where a key is left that nothing asked for; it names those that look
        like it, else all that may be there.
        """
        for name in self.left:
            near = difflib.get_close_matches(name, self._asked) or self._asked
            raise self.fault(name, f"is nothing that may be here, but {', '.join(near)}")

"""The page of the messages by FIX: `python3 -P -m callauction.fix.messages` prints
docs/made/FIX_MESSAGES.md, of the dictionaries by which the venue takes messages and of meanings.py.
"""
import dataclasses
import sys
from collections.abc import Iterator, Mapping
from xml.etree import ElementTree

from callauction.fix import dictionaries
from callauction.fix.dictionaries import APPLICATION, TRANSPORT, part
from callauction.fix.meanings import (
    BOTH_WAYS, FROM_VENUE, HEAD, IDLE, SAYS, SAYS_IN, TO_VENUE, VALUES,
)

MESSAGES_USAGE = """usage: python3 -P -m callauction.fix.messages
Prints docs/made/FIX_MESSAGES.md: each message and tag that the venue speaks, and what it says."""
INTRODUCTION = """\
# The messages by FIX

This page is made by `python3 -P -m callauction.fix.messages`, from the dictionary by which the \
venue takes messages and from the values in its code. [FIX](../FIX.md) says how to connect.

The venue refuses a message without a tag that is needed, or with a tag that isn't here, by a 3, \
and doesn't do it; it refuses a type that isn't here by a j. In its own messages the tags that are \
needed always come. Names that begin with a point are of a group, whose rows the tag above them \
counts; the first of them begins each row. Data may have any bytes, as their length comes before \
them. Times are UTC, `YYYYMMDD-HH:MM:SS` with or without a part of a second; prices are such as \
20.05.

All is of FIX 4.4 but 269=Q, 269=J and the tags 969, 1138, 1148 and 1149, which FIX 5.0 has, 8013 \
as other venues have it, and the venue's own 20001.
"""
TABLE_HEAD = "| Tag | Name | Needed | What it says |\n|---|---|---|---|"


@dataclasses.dataclass(frozen=True)
class Field:
    """A field of a message, in so many groups; `version` says in which alone it is, if in one."""

    tag: int
    name: str
    is_needed: bool
    depth: int
    version: str


class Messages:
    """The messages by their types, in the dictionaries' order, with their names and fields."""

    def __init__(self) -> None:
        roots = [dictionaries.made(name) for name in (TRANSPORT, APPLICATION)]
        fields = [it for root in roots for it in part(root, "fields")]
        self._tags = {it.get("name", ""): int(it.get("number", "0")) for it in fields}
        self.names, self.fields = {HEAD: ""}, {HEAD: [*self._of(part(roots[0], "header"))]}
        self.fields[HEAD] += self._of(part(roots[0], "trailer"))
        for message in (it for root in roots for it in part(root, "messages")):
            kind = message.get("msgtype", "")
            self.names[kind] = message.get("name", "")
            self.fields[kind] = [*self._of(message)]

    def _of(self, element: ElementTree.Element, depth: int = 0) -> Iterator[Field]:
        """The fields below an element, those of groups after their counts."""
        for it in element:
            name = it.get("name", "")
            version = "in FIX 5.0SP2" if name in dictionaries.ADDED_FIELDS else ""
            is_needed = it.get("required") == "Y"
            yield Field(self._tags[name], name, is_needed, depth, version)
            yield from self._of(it, depth + 1)


def field_row(kind: str, field: Field) -> str:
    """The line of a field in a message. Raises KeyError where it has no meaning."""
    key = kind, field.tag
    values = "; ".join(f"`{value}` {meaning}" for value, meaning in VALUES.get(key, {}).items())
    says = SAYS_IN.get(key, SAYS.get(field.tag, ""))
    if not says and not values:
        raise KeyError(key)
    told = ": ".join(it for it in (says, values) if it)
    needed = field.version or ("yes" if field.is_needed else "")
    return f"| {field.tag} | {'. ' * field.depth}{field.name} | {needed} | {told} |"


def table_of(kind: str, fields: list[Field]) -> str:
    """The table of a message, and after it what changes nothing."""
    idle = IDLE.get(kind, set())
    rows = [field_row(kind, it) for it in fields if it.tag not in idle]
    named = ", ".join(f"{it.tag} {it.name}" for it in fields if it.tag in idle)
    parts = ["\n".join([TABLE_HEAD, *rows])] if rows else []
    parts += [f"These change nothing: {named}."] if named else []
    return "\n\n".join(parts)


def section(title: str, texts: Mapping[str, str], messages: Messages) -> str:
    """The messages of a part, each with its table."""
    parts = [f"## {title}"]
    for kind, text in texts.items():
        table = table_of(kind, messages.fields[kind])
        parts += [f"### {kind} {messages.names[kind]}", text, table]
    return "\n\n".join(parts)


def page() -> str:
    """The page. Raises KeyError where a field has no meaning."""
    messages = Messages()
    parts = [
        INTRODUCTION.rstrip(),
        f"## Around each message\n\n{table_of(HEAD, messages.fields[HEAD])}",
        section("To the venue", TO_VENUE, messages),
        section("From the venue", FROM_VENUE, messages),
        section("The session", BOTH_WAYS, messages),
    ]
    return "\n\n".join(parts) + "\n"


def main() -> int:
    """Prints the page; answers the status."""
    words = sys.argv[1:]
    if words in (["--help"], ["-h"]):
        print(MESSAGES_USAGE)
        return 0
    if words:
        print(f"callauction.fix.messages: it takes no words\n{MESSAGES_USAGE}", file=sys.stderr)
        return 2
    print(page(), end="")
    return 0


if __name__ == "__main__":
    sys.exit(main())

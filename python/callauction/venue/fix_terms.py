"""What a day's file says of its FIX front: the table [fix]."""
import dataclasses
import re
from collections.abc import Mapping
from typing import Any

from callauction.venue.fields import Fields

VENUE_COMP_ID = "VENUE"
"""The CompID of the venue."""
COMP_ID = re.compile(r"[A-Za-z0-9_.]{1,24}")
ADDRESS = re.compile(r"(?P<host>[A-Za-z0-9.-]+|\[[0-9A-Fa-f:.]+\]):(?P<port>[0-9]{1,5})")
SENT = "fix.sent"
"""What sessions were sent, which a copy of the folder reads first: the journals have all of it."""
DEFAULT_HOST, DEFAULT_PORT = "127.0.0.1", 9878


@dataclasses.dataclass(frozen=True)
class FixTerms:
    """Where it listens, the name of the member of each CompID, and the CompID of the operator, who
    is sent a copy of each trade, empty for none; the CompIDs that speak FIX 5.0SP2, in order, as a
    sum of this tells days apart.
    """

    sessions: Mapping[str, str]
    host: str = DEFAULT_HOST
    port: int = DEFAULT_PORT
    copy: str = ""
    fix50: tuple[str, ...] = ()


def terms_from(table: dict[str, Any]) -> FixTerms:
    """The front of a table. Raises ConfigError."""
    fields = Fields("fix", table)
    host, port = address_from(fields)
    members = sessions_from(fields, fields.table("sessions"))
    copy = fields.text("copy", "", COMP_ID)
    fix50 = fields.names("fix50")
    fields.ended()
    if copy in (VENUE_COMP_ID, *members):
        raise fields.fault("copy", f"{copy!r} is a CompID of the venue or of a member")
    for comp_id in fix50:
        if comp_id not in (copy, *members):
            raise fields.fault("fix50", f"{comp_id!r} is no CompID of the sessions")
    return FixTerms(members, host, port, copy, tuple(sorted(fix50)))


def address_from(fields: Fields) -> tuple[str, int]:
    """The host and the port of `address`. Raises ConfigError."""
    text = fields.text("address", f"{DEFAULT_HOST}:{DEFAULT_PORT}", ADDRESS)
    found = ADDRESS.fullmatch(text)
    if found is None or int(found["port"]) >= 1 << 16:
        raise fields.fault("address", f"{text!r} is none such as \"127.0.0.1:9878\"")
    return found["host"].strip("[]"), int(found["port"])


def sessions_from(fields: Fields, table: dict[str, Any]) -> dict[str, str]:
    """The member of each CompID. Raises ConfigError."""
    if not table:
        raise fields.fault("sessions", "has no CompID")
    first: dict[str, str] = {}
    for comp_id, name in table.items():
        if comp_id == VENUE_COMP_ID:
            raise fields.fault(f"sessions: {comp_id!r}", "is the venue's own CompID")
        if not COMP_ID.fullmatch(comp_id):
            why = "is no CompID of 1 to 24 letters, digits, points or underscores"
            raise fields.fault(f"sessions: {comp_id!r}", why)
        if (other := first.setdefault(str(name), comp_id)) != comp_id:
            why = f"has the member {name!r}, as {other!r} has: each member has one CompID"
            raise fields.fault(f"sessions: {comp_id!r}", why)
    names = Fields("fix: sessions", {"names": [*table.values()]}).names("names")
    return dict(zip(table, names))

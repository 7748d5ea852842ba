"""The refusals among the replies of many commands: see refusals."""
import numpy
import pandas

from callauction.arrays import COMMAND, RECEIPT, REPLY, Structs, checked_array, replies_in
from callauction.words import CommandTag, Refusal, ReplyTag

REFUSAL_COLUMNS = {"place": "int64", "refusal": "int64", "name": "object"}
"""The columns of refusals; with the commands there are `member` and `command` too."""


def refusals(replies: Structs, commands: Structs | None = None) -> pandas.DataFrame:
    """Which commands of an `apply_many` were refused: a row for each (REFUSAL_COLUMNS), none where
    none was.

    `replies` is its array of REPLY, or of a board's member of RECEIPT; `place` is an element of it,
    from 0, `refusal` the number of a Refusal and `name` its name. The array of `commands` adds who
    gave them and what they were: the `member` of each struct. Raises TypeError or ValueError for
    another array, or where there are fewer than replies.
    """
    checked_array("replies", replies, REPLY, RECEIPT, is_written=False)
    replies = replies_in(replies)
    places = numpy.flatnonzero(replies["tag"] == ReplyTag.REFUSED)
    numbers = replies["refusal"][places]
    names = [Refusal(number).name for number in numbers]
    found = pandas.DataFrame({"place": places, "refusal": numbers, "name": names})
    found = found.astype(REFUSAL_COLUMNS)
    if commands is None:
        return found
    checked_array("commands", commands, COMMAND, is_written=False)
    if len(commands) < len(replies):
        raise ValueError(f"commands must have {len(replies)} elements or more, not {len(commands)}")
    given = commands[places]
    tags = [CommandTag(tag).name for tag in given["tag"]]
    return found.assign(member=given["member"].astype("int64"), command=tags)

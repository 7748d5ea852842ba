"""Commands as arrays."""
import callauction as words
import numpy
from callauction import CommandTag
from callauction.arrays import Structs

TAGS = {
    words.Enter: CommandTag.ENTER,
    words.Change: CommandTag.CHANGE,
    words.Delete: CommandTag.DELETE,
    words.OrderStatus: CommandTag.ORDER_STATUS,
    words.Indicate: CommandTag.INDICATE,
    words.ReadTrade: CommandTag.READ_TRADE,
    words.Uncross: CommandTag.UNCROSS,
}


def array_of(commands: list[tuple[int, words.Command]]) -> Structs:
    """These members' commands as an array of COMMAND."""
    found = numpy.zeros(len(commands), words.COMMAND)
    for row, (member, command) in zip(found, commands):
        row["member"], row["tag"] = member, TAGS[type(command)]
        for name in ("side", "quantity", "id", "restriction", "client"):
            row[name] = getattr(command, name, 0)
        for name in ("limit", "peak"):
            value = getattr(command, name, None)
            row["has_" + name], row[name] = value is not None, value or 0
        if isinstance(command, words.ReadTrade):
            row["id"] = command.number
    return found

"""What follows from the entries of an instrument's journal: who has which number in it, whose each
order is, and which orders are open.
"""
import collections
from collections.abc import Iterable

from callauction.venue.holdings import Own, changed, order_entered
from callauction.venue.recovery import Entry
from callauction.venue.views import MemberOrder

OPERATOR = ""
"""The operator's name among members."""


class MemberBook:
    """The members of a journal by their numbers, and the open orders of all, as far as they follow
    from the replies, and how many these are: known once they were seen after the last uncross.
    """

    def __init__(self) -> None:
        self.numbers: dict[str, int] = {}
        self.names: dict[int, str] = {0: OPERATOR}
        self._used: collections.Counter[int] = collections.Counter()
        self._owners: dict[int, int] = {}
        self._open: dict[int, dict[int, Own]] = {}
        self.count = self.entries = 0
        self.is_known = self.has_icebergs = False

    def give(self, member: str, number: int) -> None:
        """The member has this number in the journal, from now on where it was another's."""
        if number in self.names:
            del self.numbers[self.names[number]], self._used[number]
        self.numbers[member], self.names[number] = number, member

    def seen(self, orders: Iterable[MemberOrder]) -> None:
        """All open orders, as the program shows them."""
        self._open, self.is_known = {}, True
        for it in orders:
            self._open_of(it.member)[it.order] = Own(it.side, it.open, it.limit)
        self.count = sum(map(len, self._open.values()))

    def take(self, entry: Entry) -> None:
        """Takes a command and its reply."""
        self.entries += 1
        self._used[entry.member] += 1
        if (order := entry.order) is not None:
            self._owners[order] = entry.member
        self.asked(entry.record)
        _, word, *fields = entry.record.split(",")
        if word not in ("enter", "change", "delete"):
            return
        orders, done = self._open_of(entry.member), entry.reply.partition(" ")
        before = len(orders)
        if order is not None:
            orders[order] = order_entered(fields)
        elif done[0] == "changed" and (found := orders.get(int(fields[0]))):
            orders[int(fields[0])] = changed(found, fields)
        elif done[0] == "deleted":
            orders.pop(int(fields[0]), None)
        self.count += len(orders) - before

    def asked(self, record: str) -> None:
        """Notes where a command asks for an iceberg order, before a look can see that."""
        fields = record.split(",")
        self.has_icebergs |= fields[1] == "enter" and len(fields) > 5 and fields[5] != ""

    def of_order(self, order: int) -> str:
        """The member whose order this is."""
        return self.names.get(self._owners.get(order, 0), "")

    def of_member(self, member: str) -> dict[int, Own]:
        """A member's open orders."""
        return self._open_of(self.numbers.get(member, -1))

    def used_by(self, member: str) -> int:
        """How many commands of a member have entries."""
        return self._used[self.numbers.get(member, -1)]

    def _open_of(self, number: int) -> dict[int, Own]:
        """The open orders of a member by its number."""
        return self._open.setdefault(number, {})

"""A day's rows, told apart by what they are."""
import numpy

from callauction.verdict.rows import OF_ORDERS, CellCode, Kind, Rows
from callauction.verdict.rules import Rules


class DayRows:
    """The rows of a day: its uncrosses, rows of orders, trades and fills; and by the key of each
    order the row that enters it and its member, CellCode.MISSING of both where no row does.
    """

    def __init__(self, rows: Rows, rules: Rules) -> None:
        self.rows, self.rules, self.due = rows, rules, rules.due
        self.uncrosses, self.orders = rows.of(Kind.UNCROSS), rows.of(*OF_ORDERS)
        self.traded, self.filled = rows.of(Kind.TRADE), rows.of(Kind.FILL)
        keys = (array.max(initial=-1) for array in (rows.key, rows.bid, rows.ask))
        self.room = numpy.zeros(int(max(keys)) + 2, "i8")
        """A number for each order, which whoever counts may overwrite."""
        none = numpy.full(len(self.room), CellCode.MISSING, "i8")
        self.entered, self.owners = none, none.copy()
        news = rows.of(Kind.NEW)
        self.entered[rows.key[news]], self.owners[rows.key[news]] = news, rows.member[news]

    @property
    def has_trades(self) -> bool:
        """Whether there is a trade of any auction."""
        return len(self.traded) > 0

    @property
    def has_fills(self) -> bool:
        """Whether there is a fill of any auction."""
        return len(self.filled) > 0

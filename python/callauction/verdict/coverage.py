"""How much of what the rules give was published and compared: see Coverage."""
import dataclasses

from callauction.verdict.comparing import FILL_ITEM, KeyedFill, KeyedTrade
from callauction.verdict.paths import Judged, Judgement
from callauction.verdict.rows import AuctionCode, Rows

ITEMS = ("price", "volume", "surplus", "side", "auction", "count")
PLURALS = {it: f"{it}{'es' if it == 'surplus' else 's'}" for it in (*ITEMS, "trade", FILL_ITEM)}
"""The names of items in a coverage."""
OF_PRICES = ("volume", "surplus", "side")
"""Items that the rules give where there is a price."""
PRICE_ITEMS = ("price", *OF_PRICES)
"""The items that fix the sums of both sides at the price."""
PAIRINGS = "pairings"
"""The name of how many trades pair the orders that ours do, where some don't and each order has its
lawful shares: who trades with whom is chosen, and no law.
"""


@dataclasses.dataclass(frozen=True)
class Coverage:
    """By the name of each item how many were compared, and how many the rules give."""

    counts: dict[str, tuple[int, int]]

    @property
    def total(self) -> tuple[int, int]:
        """How many items were compared, and how many the rules give."""
        counts = self.counts.values()
        return sum(it for it, _ in counts), sum(of for _, of in counts)

    @property
    def is_complete(self) -> bool:
        """Whether all that the rules give was compared, and there was something."""
        return self.total[0] > 0 and all(it == of for it, of in self.counts.values())

    def lines(self) -> list[str]:
        """A line for each item, such as `prices 3 of 3`."""
        return [f"{name} {compared} of {of}" for name, (compared, of) in self.counts.items()]

    def __str__(self) -> str:
        return ", ".join(self.lines())

    def __getitem__(self, name: str) -> tuple[int, int]:
        return self.counts[name]


def coverage_of(judgement: Judgement, rows: Rows) -> Coverage:
    """The coverage of a judgement; an auction in no row is due one of each item but trades."""
    judged = [each for each in judgement.uncrosses if each.result is not None]
    missing = judgement.due - len(judged)
    counts = {}
    for item in ITEMS:
        due = [each for each in judged if _is_due(item, each)]
        compared = sum(item in each.items for each in due)
        counts[PLURALS[item]] = compared, len(due) + missing
    executed = [each for each in judged if not each.is_interrupted]
    recorded = [each for each in executed if rows.auction[each.place] != AuctionCode.INTERRUPTED]
    trades = sum(map(_trades, recorded)) if judgement.has_trades else 0
    counts[PLURALS["trade"]] = trades, sum(map(_trades, executed))
    if judgement.has_fills:
        counts[PLURALS[FILL_ITEM]] = sum(map(_fills, recorded)), sum(map(_fills, executed))
    if judgement.has_trades and any(_is_paired_otherwise(each) for each in recorded):
        counts[PAIRINGS] = sum(each.pairs for each in recorded), trades
    return Coverage(counts)


def _is_due(item: str, judged: Judged) -> bool:
    """Whether the rules give an item at an uncross."""
    assert judged.result is not None
    has_price = judged.result.price is not None
    if item in OF_PRICES:
        return has_price
    return item != "count" or (has_price and not judged.is_interrupted)


def _is_paired_otherwise(judged: Judged) -> bool:
    """Whether an auction's trades pair orders otherwise, each with its lawful shares."""
    differs = any(isinstance(it, KeyedTrade | KeyedFill) for each in judged.differences
                  for it in (each.recorded, each.lawful))  # fmt: skip
    return not differs and len(judged.traded) > 0 and judged.pairs < _trades(judged)


def _trades(judged: Judged) -> int:
    assert judged.result is not None
    return len(judged.result.bid)


def _fills(judged: Judged) -> int:
    assert judged.result is not None
    return len(judged.result.fills.keys)

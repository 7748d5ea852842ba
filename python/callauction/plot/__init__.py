"""Pictures of a book, of a day, of a queue and of who trades with whom, by matplotlib. All numbers
are those of the day's tables or of the library.

Ticks are the unit of limits and prices, shares that of quantities and volumes. A `tick_size` such
as "0.01" makes prices of ticks: tick t is t tick sizes.
"""
from callauction.plot.books import book
from callauction.plot.courses import indicative
from callauction.plot.orders import allocation, queue
from callauction.plot.style import SIZE

__all__ = ["SIZE", "allocation", "book", "indicative", "queue"]

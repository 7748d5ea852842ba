"""The limits of a day, of its journal and of a board, as callauction.h and docs/FORMATS.md say:
each is the greatest value that is allowed.
"""

MOST_TICK = 1_000_000
MOST_RANGE = 1_000_000
"""How far from the reference a price may be said to interrupt, in ticks."""
MOST_TICKS = 65_536
"""How many ticks a day may have from its lowest to its highest."""
MOST_OPEN = 65_536
MOST_CALLS = 1_048_576
MOST_QUANTITY = 1_000_000_000
"""The shares of an order."""
MOST_MEMBERS = 64
"""The members of a journal and of a board, numbered from 0."""
MOST_NUMBER = 4_294_967_295
"""Any number of a file, and the library's numbers of 32 bits."""
MOST_CLIENT = (1 << 64) - 1
"""The caller's own number of an order."""

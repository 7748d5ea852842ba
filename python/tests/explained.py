"""What the rules of docs/MODEL.md say of the books of examples/, worked out by hand: for each file
and book its sentences, those of what a price executes apart.
"""

BOTH = "Both leave a surplus of"
MIXED = (
    "Some leave 50 on the bid side and others 50 on the ask side, so the highest of the first, 190,"
    " and the lowest of the others, 210, are kept."
)
BESIDE = (
    "Market orders stand on both sides, 100 bid and {} offered, and limit orders beside them, so "
    "the limits decide."
)
NEITHER = "Neither leaves a surplus, so the lowest, {}, and the highest, 210, are kept."
NOTHING = (
    "At no limit are there both demand and supply, so nothing can be executed and there is no "
    "price."
)
EMPTY = "No order counts in this auction, so there is no price."
ALONE = "There are market orders alone, {} bid and {} offered, so the reference, {}, is the price."
ONE_SIDE = (
    "There are market orders alone, {} on the bid side and none on the other, so nothing can be "
    "executed and there is no price."
)
BID = "Shown in its place: the highest bid limit, {}."
ASK = "Shown in its place: the lowest ask limit, {}."
APART = "Shown in its place: the highest bid limit, {}, and the lowest ask limit, {}."


def candidates(*limits: int) -> str:
    *first, last = map(str, limits)
    before = f"{', '.join(first)} and " if first else ""
    return f"Only limits of orders are candidates: {before}{last}."


def single(limit: int, volume: int) -> list[str]:
    return [
        f"Limit {limit} executes most, {volume}.",
        f"It is the one best limit, so {limit} is the price, whatever its surplus.",
    ]


def alone(limit: int, volume: int) -> list[str]:
    return [candidates(limit), *single(limit, volume)]


def unpriced(shown: str) -> list[str]:
    return [NOTHING, shown]


RISING = [candidates(206, 210), "Limits 206 and 210 execute most, 100.", NEITHER.format(206)]
AT_206 = [*RISING, "The reference, 200, is at or below the lower of them, so 206 is the price."]
MIXED_BOOK = [
    BESIDE.format(100),
    candidates(190, 210),
    "Limits 190 and 210 execute most, 100.",
    MIXED,
]

DECIDED: dict[str, dict[int, list[str]]] = {
    "book_full": {6: unpriced(BID.format(200))},
    "closing_only": {
        4: unpriced(ASK.format(200)),
        5: unpriced(ASK.format(200)),
        7: alone(200, 100),
    },
    "day": {3: AT_206, 6: [ALONE.format(30, 20, 206)], 9: [ONE_SIDE.format(10)]},
    "far_limit": {
        5: [
            "Market orders stand on both sides, 900 bid and 800 offered, and limit orders beside "
            "them, so the limits decide.",
            *alone(1, 800),
        ],
        9: ["Market orders, for 100 bid, count at every limit.", *unpriced(BID.format(1))],
    },
    "iceberg": {3: alone(200, 300), 5: unpriced(BID.format(200))},
    "interruption": {
        3: AT_206,
        5: unpriced(ASK.format(206)),
        7: AT_206,
        8: AT_206,
        9: [EMPTY],
    },
    "least_surplus": {
        6: [
            candidates(198, 199, 201, 202),
            "Limits 198, 199, 201 and 202 execute most, 100.",
            "Of these, 201 and 202 leave the least surplus, 20.",
            f"{BOTH} 20 on the ask side, so the lowest, 201, is the price.",
        ]
    },
    "less_quantity": {5: alone(200, 100), 8: unpriced(BID.format(200))},
    "market_and_limit": {
        5: [BESIDE.format(60), *alone(150, 60)],
        8: ["Market orders, for 40 bid, count at every limit.", *unpriced(BID.format(150))],
    },
    "market_orders": {4: [ALONE.format(900, 800, 200)], 7: [ONE_SIDE.format(100)]},
    "more_quantity": {5: alone(200, 100), 7: unpriced(BID.format(200))},
    "most_volume": {
        7: [candidates(200, 201, 202), *single(201, 300)],
        12: unpriced(APART.format(200, 201)),
    },
    "no_cross": {4: unpriced(APART.format(199, 201)), 6: unpriced(APART.format(199, 201))},
    "no_surplus": {
        4: [
            candidates(190, 210),
            "Limits 190 and 210 execute most, 100.",
            NEITHER.format(190),
            "The reference, 200, lies between them, so it is the price.",
        ],
        6: [EMPTY],
    },
    "opening": {
        8: [candidates(198, 199, 200, 201, 202), *single(200, 500)],
        9: unpriced(BID.format(200)),
    },
    "opening_only": {2: unpriced(BID.format(200)), 5: [EMPTY]},
    "other_limit": {6: alone(200, 100), 9: unpriced(BID.format(200))},
    "price_priority": {
        4: ["Market orders, for 100 bid, count at every limit.", *alone(200, 150)],
        10: unpriced(BID.format(200)),
    },
    "reference": {6: [*MIXED_BOOK, "The reference, 200, lies between them, so it is the price."]},
    "reference_above": {
        6: [
            *MIXED_BOOK,
            "The reference, 215, is at or above the higher of them, so 210 is the price.",
        ]
    },
    "reference_below": {
        6: [
            *MIXED_BOOK,
            "The reference, 185, is at or below the lower of them, so 190 is the price.",
        ]
    },
    "refusals": {command: unpriced(BID.format(200)) for command in (9, 10, 11)},
    "surplus_ask": {
        6: [
            candidates(198, 199, 201, 202),
            "Limits 199 and 201 execute most, 500.",
            f"{BOTH} 100 on the ask side, so the lowest, 199, is the price.",
        ]
    },
    "surplus_bid": {
        6: [
            candidates(198, 199, 201, 202),
            "Limits 199 and 201 execute most, 500.",
            f"{BOTH} 100 on the bid side, so the highest, 201, is the price.",
        ]
    },
    "time_priority": {4: alone(200, 150), 9: unpriced(BID.format(200))},
}


def executed(limit: int, demand: int, supply: int, volume: int, left: str) -> list[str]:
    """The sentences of what a price executes, and of what is left then."""
    return [
        f"The demand at {limit}, of bids at market and from {limit} up, is {demand}; the supply, of"
        f" asks at market and from {limit} down, is {supply}.",
        f"The lesser of the two, {volume}, can be executed, and {left}.",
    ]


NONE_LEFT = "no surplus is left"
BIDS_LEFT = "a surplus of {} is left on the bid side"
ASKS_LEFT = "a surplus of {} is left on the ask side"
OF_206 = executed(206, 100, 100, 100, NONE_LEFT)

EXECUTED: dict[str, dict[int, list[str]]] = {
    "closing_only": {7: executed(200, 100, 100, 100, NONE_LEFT)},
    "day": {3: OF_206, 6: executed(206, 30, 20, 20, BIDS_LEFT.format(10))},
    "far_limit": {5: executed(1, 901, 800, 800, BIDS_LEFT.format(101))},
    "iceberg": {3: executed(200, 500, 300, 300, BIDS_LEFT.format(200))},
    "interruption": {3: OF_206, 7: OF_206, 8: OF_206},
    "least_surplus": {6: executed(201, 100, 120, 100, ASKS_LEFT.format(20))},
    "less_quantity": {5: executed(200, 160, 100, 100, BIDS_LEFT.format(60))},
    "market_and_limit": {5: executed(150, 140, 60, 60, BIDS_LEFT.format(80))},
    "market_orders": {4: executed(200, 900, 800, 800, BIDS_LEFT.format(100))},
    "more_quantity": {5: executed(200, 220, 100, 100, BIDS_LEFT.format(120))},
    "most_volume": {7: executed(201, 300, 350, 300, ASKS_LEFT.format(50))},
    "no_surplus": {
        4: [
            "The demand at 200, of bids at market and from 200 up, is 100; the supply, of asks at "
            "market and from 200 down, is 100.",
            "The lesser of the two, 100, can be executed, and no surplus is left.",
        ]
    },
    "opening": {
        8: [
            "The demand at 200, of bids at market and from 200 up, is 700; the supply, of asks at "
            "market and from 200 down, is 500.",
            "The lesser of the two, 500, can be executed, and a surplus of 200 is left on the bid "
            "side.",
        ]
    },
    "other_limit": {6: executed(200, 200, 100, 100, BIDS_LEFT.format(100))},
    "price_priority": {4: executed(200, 200, 150, 150, BIDS_LEFT.format(50))},
    "reference": {6: executed(200, 100, 100, 100, NONE_LEFT)},
    "reference_above": {6: executed(210, 100, 150, 100, ASKS_LEFT.format(50))},
    "reference_below": {6: executed(190, 150, 100, 100, BIDS_LEFT.format(50))},
    "surplus_ask": {
        6: [
            "The demand at 199, of bids at market and from 199 up, is 500; the supply, of asks at "
            "market and from 199 down, is 600.",
            "The lesser of the two, 500, can be executed, and a surplus of 100 is left on the ask "
            "side.",
        ]
    },
    "surplus_bid": {6: executed(201, 600, 500, 500, BIDS_LEFT.format(100))},
    "time_priority": {4: executed(200, 200, 150, 150, BIDS_LEFT.format(50))},
}
"""For each file and book with a price the last sentences."""

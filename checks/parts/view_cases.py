"""Views among the records of sessions: what is sent, and what has to be answered."""
import random
from collections.abc import Iterator

from checks.generators import orders
from checks.model.answers import DEFAULTS
from checks.model.day import Options, opened
from checks.model.files import command
from checks.model.views import ViewFault, view_text
from checks.parts.sessions import Talk, Turn

BAD_VIEWS = [
    (b"show,", "bad command"),
    (b"show,book", "bad command"),
    (b"show,Ladder", "bad command"),
    (b"show,day,1", "wrong number of fields"),
    (b"show,ladder,", "wrong number of fields"),
    (b"show,trades", "wrong number of fields"),
    (b"show,trades,1,2", "wrong number of fields"),
    (b"show,orders,1,", "wrong number of fields"),
    (b"show,trades,0", "bad field 3"),
    (b"show,trades,4294967296", "bad field 3"),
    (b"show,orders,4", "bad field 3"),
    (b"show,orders,", "bad field 3"),
]
"""Views that aren't any, each with its fault."""

WORKED = [
    (b"show,day\n", "show day opening reference 200 calls 0 left 65536\n"),
    (b"show\n", "show no price bid - ask -\n"),
    (b"show,ladder\n", "show ladder 0\n"),
    (b"show,trades,1\n", "show trades 0\n"),
    (b"show,orders\n", "show orders 0\n"),
    (b"1,enter,bid,200,202\n", "1: entered 1\n"),
    (b"1,enter,bid,300,200,100\n", "2: entered 2\n"),
    (b"2,enter,ask,100,market,,closing\n", "3: entered 3\n"),
    (b"3,enter,ask,150,market\n", "4: entered 4\n"),
    (b"2,enter,ask,400,200\n", "5: entered 5\n"),
    (b"1,enter,bid,50,203,,opening\n", "6: entered 6\n"),
    (b"show\n", "show price 200 volume 550 surplus 0 none\n"),
    (b"show,ladder\n", "show ladder 4\nmarket,0,150\n203,50,0\n202,200,0\n200,300,400\n"),
    (
        b"show,orders\n",
        "show orders 6\n6,1,bid,203,50,50,0,opening\n1,1,bid,202,200,200,0,\n"
        "2,1,bid,200,300,100,0,\n3,2,ask,market,100,100,0,closing\n4,3,ask,market,150,150,0,\n"
        "5,2,ask,200,400,400,0,\n",
    ),
    (
        b"show,orders,2\n",
        "show orders 2\n3,2,ask,market,100,100,0,closing\n5,2,ask,200,400,400,0,\n",
    ),
    (b"1,change,2,250,200\n", "7: changed kept\n"),
    (b"0,uncross\n", "8: opening price 200 volume 500 surplus 50 ask trades 4\n"),
    (b"show,day\n", "show day intraday reference 200 calls 8 left 65528\n"),
    (b"show,trades,3\n", "show trades 2\n3,1,5,100,200\n4,2,5,250,200\n"),
    (b"show,trades,5\n", "show trades 0\n"),
    (
        b"show,orders\n",
        "show orders 2\n3,2,ask,market,100,100,0,closing\n5,2,ask,200,50,50,350,\n",
    ),
    (b"show,ladder\n", "show ladder 1\n200,0,50\n"),
    (b"0,uncross\n0,uncross\n", "9: intraday no price\n10: closing no price\n"),
    (b"show,day\n", "show day over reference 200 calls 10 left 65526\n"),
    (b"show\n", "show no price bid - ask 200\n"),
    (b"show,orders\n", "show orders 1\n5,2,ask,200,50,50,350,\n"),
]
"""A worked session: each view with its answer."""


def view_talks() -> Iterator[Talk]:
    """Worked sessions with views, good and bad ones."""
    yield Talk("views of a worked day", [], [Turn(sent, out) for sent, out in WORKED])
    turns = [
        Turn(view + b"\n", f"record {place}: {fault}\n")
        for place, (view, fault) in enumerate(BAD_VIEWS, 1)
    ]
    yield Talk("bad views", [], turns, status=1)
    yield Talk(
        "views take no calls",
        ["--calls", "1", "--reserve", "0"],
        [
            Turn(b"show,day\n" * 3, "show day opening reference 200 calls 0 left 1\n" * 3),
            Turn(b"1,ask\n", "1: no price bid - ask -\n"),
            Turn(b"show,day\n", "show day opening reference 200 calls 1 left 0\n"),
            Turn(b"1,ask\n", "record 6: too many commands\n"),
            Turn(b"show\n", "show no price bid - ask -\n"),
        ],
        status=1,
    )


def random_view(dice: random.Random, options: Options) -> list[str]:
    """The fields of a view."""
    member = str(dice.randrange(options["members"]))
    first = str(dice.randint(1, 9))
    views: list[list[str]] = [
        [],
        ["day"],
        ["ladder"],
        ["trades", first],
        ["orders"],
        ["orders", member],
    ]
    return ["show", *dice.choice(views)]


def random_talk(seed: int) -> Talk:
    """The random order file of this seed, with views before and after its records."""
    dice = random.Random(f"views {seed}")
    options, text = orders.order_file("short", seed)
    options = DEFAULTS | options
    day = opened(options)
    turns = []
    for calls, row in enumerate(text.splitlines()):
        while dice.random() < 0.5:
            fields = random_view(dice, options)
            shown = view_text(fields, day, calls, options)
            turns.append(Turn(",".join(fields).encode() + b"\n", shown))
        call = command(calls + 1, row.split(","), options["members"])
        turns.append(Turn(row.encode() + b"\n", f"{calls + 1}: {day.apply(*call)}\n"))
    words = [*orders.option_words(options), "--reserve", "0"]
    return Talk(f"views of seed {seed}", words, turns)


def faults_by_the_model() -> Iterator[tuple[bytes, str, str]]:
    """Each bad view with its fault, and with the model's."""
    day = opened(DEFAULTS)
    for view, fault in BAD_VIEWS:
        try:
            found = view_text(view.decode().split(","), day, 0, DEFAULTS)
        except ViewFault as raised:
            found = str(raised)
        yield view, fault, found

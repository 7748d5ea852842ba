"""Results and trades as others publish them: late, in parts, in lots, beside the last price, for a
firm's desks, and trades outside of the auctions. Each small day was worked out by hand: it is in
doubt or lawful as it stands, and with another number in it certainly unlawful.
"""
import io
import itertools

import pytest
from callauction.verdict import Reading, audit_events, shapes
from callauction.verdict.columns import ExtractError

HEADER = "event,order,member,side,price,quantity,surplus,auction,bid,ask,bid_member,ask_member,time"
NAMES = HEADER.split(",")
BOTH = ["opening", "closing"]


def day(*rows: str) -> str:
    """A file of rows of blanks and `column=cell`, whose first word is the event."""
    lines = [HEADER]
    for row in rows:
        event, *cells = row.split()
        own = dict(it.split("=") for it in cells) | {"event": event}
        lines.append(",".join(own.get(name, "") for name in NAMES))
    return "\n".join([*lines, ""])


def word_of(text: str, auctions: list[str] = BOTH) -> tuple[str, str]:
    """The verdict on a file, and its first doubt."""
    verdict = audit_events(io.BytesIO(text.encode()), reference="10.00", tick_size="0.01",
                           auctions=auctions, reading=Reading(unrestricted=True))  # fmt: skip
    return verdict.word, next((it.doubt for it in verdict.doubtful), "")


A = "new order=A side=bid price=10.00 quantity=1000"
B = "new order=B side=ask price=10.00 quantity=600"
C = "new order=C side=ask price=10.00 quantity=200"
OPENING = "uncross side=bid price=10.00 quantity=600 surplus=400 auction=opening"
FIRST = "trade price=10.00 quantity=600 auction=opening bid=A ask=B"
CLOSING = "uncross side=bid price=10.00 quantity=200 surplus=200 auction=closing"
LAST = "trade price=10.00 quantity=200 auction=closing bid=A ask=C"
X = "trade price=10.03 quantity=100 bid=X ask=Y"


def timed(row: str, time: str) -> str:
    return f"{row} time={time}"


LATE = [timed(A, "08:50:00"), timed(B, "08:51:00"), timed(FIRST, "09:00:00"),
        timed(C, "09:01:00"), timed(OPENING, "09:05:00"), timed(CLOSING, "17:30:00"),
        timed(LAST, "17:30:00")]  # fmt: skip
BETWEEN = [timed(A, "08:50:00"), timed(B, "08:51:00"), timed(OPENING, "09:00:00"),
           timed(FIRST, "09:00:00"), timed(X, "09:15:30"), timed(C, "09:16:00"),
           timed(CLOSING, "17:30:00"), timed(LAST, "17:30:00")]  # fmt: skip
BEFORE = [timed(A, "08:50:00"), timed(B, "08:51:00"), timed(X, "08:55:30"),
          timed(OPENING, "09:00:00"), timed(FIRST, "09:00:00"), timed(C, "09:16:00"),
          timed(CLOSING, "17:30:00"), timed(LAST, "17:30:00")]  # fmt: skip
IN_PARTS = [A, B, "uncross price=10.00 quantity=600 auction=opening",
            "uncross side=bid surplus=400 auction=opening", FIRST,
            "uncross quantity=0 auction=closing"]  # fmt: skip
UNNAMED = [A, B, "uncross side=bid price=10.01 quantity=600 surplus=400", OPENING, FIRST, C,
           CLOSING, LAST]  # fmt: skip
SURPLUSES = [A, B, OPENING.replace("surplus=400", "surplus=4"), FIRST, C,
             CLOSING.replace("surplus=200", "surplus=2"), LAST]  # fmt: skip
VOLUMES = [A, B, OPENING.replace("=600", "=6"), FIRST, C,
           CLOSING.replace("quantity=200", "quantity=2"), LAST]  # fmt: skip
NEW_ID = [A, "new order=D side=bid price=9.90 quantity=100", B,
          "replace order=A2 side=bid price=10.00 quantity=1000", C, OPENING.replace("=400", "=200")
          .replace("=600", "=800"), FIRST.replace("bid=A", "bid=A2"),
          LAST.replace("bid=A", "bid=A2").replace("closing", "opening"),
          "uncross quantity=0 auction=closing"]  # fmt: skip


FROM_NOW_ON = [A.replace("1000", "700"), B, OPENING.replace("400", "100"), FIRST,
               "new order=C side=bid price=9.99 quantity=9",
               "new order=D side=ask price=10.00 quantity=6",
               "uncross side=ask price=10.00 quantity=1 surplus=5 auction=closing",
               "trade price=10.00 quantity=1 auction=closing bid=A ask=D"]  # fmt: skip
REPLACES = ["new order=A side=bid price=10.00 quantity=1100",
            "replace order=A side=bid price=10.00 quantity=12",
            "new order=D side=bid price=9.90 quantity=1000",
            "replace order=D side=bid price=9.90 quantity=9", B,
            OPENING.replace("surplus=400", "surplus=600"), FIRST,
            "uncross quantity=0 auction=closing"]  # fmt: skip
BIDS = ["new order=A side=bid price=10.00 quantity=9", "new order=D side=bid price=9.90 quantity=3",
        B, OPENING.replace("400", "300"), FIRST, C, CLOSING.replace("surplus=200", "surplus=100"),
        LAST]  # fmt: skip
OF_MEMBER = ["new order=A member=Adler side=bid price=10.00 quantity=5",
             "new order=B member=Birk side=ask price=9.98 quantity=500",
             "uncross side=none price=10.00 quantity=500 surplus=0 auction=opening",
             "trade price=10.00 quantity=5 auction=opening bid=A ask=B",
             "new order=C member=Adler side=bid price=10.00 quantity=4",
             "new order=D member=Birk side=ask price=10.00 quantity=1100",
             "uncross side=ask price=10.00 quantity=400 surplus=700 auction=closing",
             "trade price=10.00 quantity=4 auction=closing bid=C ask=D"]  # fmt: skip


TRADES = [A.replace("1000", "600"), B, OPENING.replace("bid", "none").replace("400", "0"),
          FIRST.replace("600", "6"), "new order=C side=bid price=10.00 quantity=500",
          "new order=D side=ask price=10.00 quantity=500",
          "uncross side=none price=10.00 quantity=500 surplus=0 auction=closing",
          "trade price=10.00 quantity=5 auction=closing bid=C ask=D"]  # fmt: skip


@pytest.mark.parametrize("rows, said, right, wrong", [
    (TRADES, "quantities of trades in lots of 100", "10.00,6,", "10.00,7,"),
    (FROM_NOW_ON, "quantities of rows from 6 on in lots of 100", ",1,5,", ",1,4,"),
    (REPLACES, "quantities of replaces in lots of 100", ",600,600,", ",601,600,"),
    (BIDS, "quantities of bids in lots of 100", ",200,100,", ",200,99,"),
    (OF_MEMBER, "quantities of Adler's orders and trades in lots of 100", ",700,", ",701,"),
    (BETWEEN, "a trade outside of the auctions", "09:15:30", "09:00:00"),
    (BEFORE, "a trade outside of the auctions", "08:55:30", "09:00:00"),
    (IN_PARTS, "are rows 4 and 5 of one?", ",400,", ",300,"),
    (UNNAMED, "are rows 4 and 5 of one?", ",10.00,600,400,", ",10.01,600,400,"),
    (SURPLUSES, "are the surpluses in lots of 100?", ",2,", ",3,"),
    (VOLUMES, "are the volumes in lots of 100?", ",2,", ",3,"),
    (NEW_ID, "is it another's new id?", "replace,A2,", "replace,Z2,"),
])  # fmt: skip
def test_what_others_publish_so_is_in_doubt(
    rows: list[str], said: str, right: str, wrong: str
) -> None:
    text = day(*rows)
    word, doubt = word_of(text)
    assert word == "incomplete" and said in doubt
    assert right in text
    assert word_of(text.replace(right, wrong))[0] == "unlawful"


def test_a_result_below_its_trades_and_a_later_order_may_be_late() -> None:
    """With the trades below that order, the uncross was there, and had it in its book."""
    word, doubt = word_of(day(*LATE))
    assert word == "incomplete" and "row 4, are above: was it published late?" in doubt
    first, *others = LATE[:2], LATE[3], LATE[4], timed(FIRST, "09:05:00"), *LATE[5:]
    assert word_of(day(*first, *others)) == ("unlawful", "")


@pytest.mark.parametrize("result", [
    "uncross price=10.00 quantity=0 auction=opening", "uncross price=0 auction=opening",
    "uncross price=0.00 quantity=0 auction=opening", "uncross price=none auction=opening",
])  # fmt: skip
def test_no_price_is_shown_as_the_last_one_or_as_0(result: str) -> None:
    text = day(A, result)
    assert word_of(text, ["opening"])[0] == "lawful"
    assert word_of(day(A, B, result), ["opening"])[0] == "unlawful"
    assert word_of(day(A, "uncross price=10.00 quantity=5 auction=opening"), ["opening"]) == (
        "unlawful", "",
    )  # fmt: skip


def of_desks(*members: str) -> str:
    """A day on which two desks of Adler buy of Birk; who bought, as trades say it."""
    bought = "trade price=10.00 quantity={} auction=opening bid={} ask=B ask_member=Birk"
    bought += " bid_member={}"
    return day(
        "new order=A member=Adler-1 side=bid price=10.00 quantity=600",
        "new order=C member=Adler-2 side=bid price=10.00 quantity=400",
        "new order=B member=Birk side=ask price=10.00 quantity=1000",
        "uncross side=none price=10.00 quantity=1000 surplus=0 auction=opening",
        bought.format(600, "A", members[0]), bought.format(400, "C", members[1]),
    )  # fmt: skip


def test_a_firm_may_stand_for_its_desks() -> None:
    word, doubt = word_of(of_desks("Adler", "Adler"), ["opening"])
    assert word == "incomplete" and "may be renamed" in doubt
    assert word_of(of_desks("Adler-2", "Adler-1"), ["opening"])[0] == "unlawful"


def fix_results(*entries: str) -> bytes:
    """A log of FIX messages: A buys 600 of B's at 10.00, with a message for each of these groups of
    market data above the trade.
    """
    order = "37={0}|17=X{0}|150=0|54={1}|40=2|44=10.00|38={2}|151={2}|59=0"
    fill = "37={0}|17=Y{0}|150=F|54={1}|31=10.00|32=600|151=0|880=T1|625=2"
    messages = [("8", order.format("A", 1, 1000)), ("8", order.format("B", 2, 600))]
    messages += [("W", f"625=2|268=1|{it}") for it in entries]
    messages += [("8", fill.format("A", 1)), ("8", fill.format("B", 2))]
    head = "8=FIX.4.4|9=9|35={}|34={}|48=DE1|60=20261127-09:00:0{}|"
    lines = (head.format(it[0], at, at) + it[1] for at, it in enumerate(messages, 1))
    return "".join(f"{line}|10=000|\n" for line in lines).encode()


PRICE, VOLUME, SURPLUS = "269=Q|270=10.00", "269=B|271=600", "269=A|271=400|277=P"


@pytest.mark.parametrize("entries", itertools.permutations((PRICE, VOLUME, SURPLUS)))
def test_a_result_of_market_data_may_have_a_message_for_each_entry(
    entries: tuple[str, ...]
) -> None:
    wanted = ("prices", "volumes", "surpluses", "sides")
    for number, word in (("600", "incomplete"), ("700", "unlawful")):
        log = fix_results(*(it.replace("271=600", f"271={number}") for it in entries))
        verdict = audit_events(io.BytesIO(log), reference="10.00", tick_size="0.01",
                               auctions=["opening"], reading=shapes.reading_of("fix"))  # fmt: skip
        assert verdict.word == word, str(verdict)
        assert [verdict.coverage[it] for it in wanted] == [(1, 1)] * 4


def sorted_day(*rows: str) -> tuple[str, str]:
    """The verdict on the opening of rows that are sorted by their times, and its first doubt."""
    reading = Reading(unrestricted=True, sort=True)
    verdict = audit_events(io.BytesIO(day(*rows).encode()), reference="10.00", tick_size="0.01",
                           auctions=["opening"], reading=reading)  # fmt: skip
    return verdict.word, next((it.doubt for it in verdict.doubtful), "")


@pytest.mark.parametrize("of_last, of_first", [("07:02:42", "08:00:37"), ("08:02:42", "17:00:00")])
def test_a_clock_of_one_member_is_a_doubt_where_rows_are_sorted(
    of_last: str, of_first: str
) -> None:
    """E's row is last, and an hour earlier by its time; or A's is first, with a time of the day
    before. Neither is, where each row is above those of later times.
    """
    rows = [timed("new order=A side=bid price=10.00 quantity=300", of_first),
            timed("new order=D side=bid price=9.99 quantity=400", "08:01:28"),
            timed("new order=B side=ask price=10.00 quantity=100", "08:02:02"),
            timed("new order=E side=bid price=10.00 quantity=500", of_last),
            timed("uncross side=bid price=10.00 quantity=100 surplus=700 auction=opening",
                  "08:03:42"),
            timed("trade price=10.00 quantity=100 auction=opening bid=A ask=B",
                  "08:03:42")]  # fmt: skip
    word, doubt = sorted_day(*rows)
    assert word == "incomplete" and "are sorted by times, and which came first decides" in doubt
    wrong = [it.replace("bid=A", "bid=D") for it in rows]
    assert sorted_day(*wrong)[0] == "unlawful"


def test_a_trade_long_before_an_auction_is_of_continuous_trading() -> None:
    """C sells to A hours before the closing, or at it, where a price is due."""
    rows = [timed(A, "08:50:00"), timed(C, "10:00:00"),
            timed("trade price=10.00 quantity=100 bid=A ask=C", "10:00:01"),
            timed("uncross side=none quantity=0 auction=closing", "17:30:00")]  # fmt: skip
    word, doubt = word_of(day(*rows), ["closing"])
    assert word == "incomplete" and "row 4 is a trade within a call phase" in doubt
    at_end = [*rows[:2], rows[2].replace("10:00:01", "17:30:00"), rows[3]]
    assert word_of(day(*at_end), ["closing"])[0] == "unlawful"


def test_a_finding_beside_a_trade_too_many_has_its_own_lawful_value() -> None:
    """A has 300 shares, and 400 are executed, as hidden ones may be missing; the surplus of 400 is
    that of 300 either way.
    """
    rows = ["new order=A side=bid price=10.00 quantity=300",
            "new order=B side=ask price=10.00 quantity=700",
            "uncross side=ask price=10.00 quantity=300 surplus=700 auction=opening",
            "trade price=10.00 quantity=400 auction=opening bid=A ask=B"]  # fmt: skip
    verdict = audit_events(io.BytesIO(day(*rows).encode()), reference="10.00", tick_size="0.01",
                           auctions=["opening"], reading=Reading(unrestricted=True))  # fmt: skip
    assert [(it.item, it.recorded, it.lawful) for it in verdict.findings] == [
        ("surplus", "700", "400"),
    ]  # fmt: skip


def test_a_session_over_midnight_without_dates_says_what_it_needs() -> None:
    rows = [timed(A, "23:50:00"), timed(B, "23:51:00"), timed(OPENING, "23:58:00"),
            timed(FIRST, "23:58:00"), timed(C, "00:05:00"),
            timed(CLOSING.replace("=200 a", "=201 a"), "00:30:00"),
            timed(LAST, "00:30:00")]  # fmt: skip
    with pytest.raises(ExtractError, match="a session over midnight needs dates or a sequence"):
        word_of(day(*rows))


def test_trades_with_ids_of_their_own_are_two() -> None:
    """T2 is as T1, and no copy of it: 1,200 of 600 shares are executed."""
    rows = ["event,order,side,price,quantity,surplus,auction,tid", "new,A,bid,10.00,1300,,,",
            "new,B,ask,10.00,600,,,", "uncross,,bid,10.00,600,700,opening,"]  # fmt: skip
    made = ["trade,A,bid,10.00,600,,opening,T1", "trade,B,ask,10.00,600,,opening,T1"]
    words = []
    for name in ("", "T1", "T2"):
        more = [it.replace("T1", name) for it in made if name]
        text = "\n".join([*rows, *made, *more, ""])
        verdict = audit_events(io.BytesIO(text.encode()), reference="10.00", tick_size="0.01",
                               auctions=["opening"],
                               reading=Reading(unrestricted=True, pair="tid"))  # fmt: skip
        words.append(verdict.word)
    assert words[2] == "unlawful" and "unlawful" not in words[:2], words

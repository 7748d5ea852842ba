"""An auction with its record: each call, and random days beside the rules and the program."""
import copy
import threading
from collections.abc import Callable
from pathlib import Path

import callauction as words
import numpy
import pytest
from arrayed import array_of
from callauction import Auction, FullError, NoCommandError, RefusedError, Side
from callauction.program import Day, ProgramError
from callauction.limits import MOST_NUMBER
from callauction.recording import RecordedAuction
from callauction.tables import audit_of
from callauction.written import command_of, fields_of, text_of
from days import EXAMPLES, auctions, by_the_rules, commands, day_of, form_of
from hypothesis import given, settings, strategies
from forks import in_a_child
from printed import commands_of, csv_of


def replayed(file: Path) -> RecordedAuction:
    """A recorded auction after the commands of an example."""
    day = day_of(file)
    given = dict(zip(day.words[::2], map(int, day.words[1::2])))
    named = {"--open": "max_open", "--calls": "max_calls"}
    options = {named.get(word, word[2:]): value for word, value in given.items()}
    options.pop("members", None)
    auction = RecordedAuction(**options)
    for member, command in commands_of(day.content.decode("ascii")):
        auction.apply(member, command)
    return auction


@pytest.mark.parametrize("file", EXAMPLES, ids=[file.stem for file in EXAMPLES])
def test_an_example_has_its_tables(file: Path) -> None:
    with replayed(file) as auction:
        assert csv_of(auction.trades()) == form_of(file, "trades")
        assert csv_of(auction.books()) == form_of(file, "book")
        assert auction.journal()["reply"].tolist() == auction.journal()["lawful"].tolist()
        assert auction.audit().attrs["is_legal"]


def filled(auction: RecordedAuction) -> RecordedAuction:
    """The auction after a few calls, one of them refused."""
    auction.enter(1, Side.BID, 500, 200, peak=100, check=True)
    auction.enter(2, Side.ASK, 300, check=True)
    auction.enter(2, Side.ASK, 30, 201, restriction=words.Restriction.CLOSING_ONLY, check=True)
    auction.change(1, 1, 400, 200, check=True)
    auction.order_status(2, 9)
    auction.indicate(1)
    auction.uncross()
    auction.read_trade(1, 1, check=True)
    return auction


def test_a_saved_day_is_gone_on_with(tmp_path: Path) -> None:
    numbers = (1, 1000, 200, 5, 30, 9)
    with filled(RecordedAuction(*numbers)) as auction:
        auction.save(tmp_path / "day.csv")
        with RecordedAuction.resumed(tmp_path / "day.csv") as again:
            assert again.config == auction.config and again.calls == 8
            for each in (auction, again):
                assert each.delete(2, 3, check=True) == words.Deleted()
                assert each.enter(3, Side.ASK, 7, 199) == words.Entered(4)
                assert isinstance(each.uncross(), words.Uncrossed)
            assert again.day() == auction.day() and again.audit().attrs["is_legal"]
            assert again.outcomes().equals(auction.outcomes())
            again.save(tmp_path / "day.csv")
            assert (tmp_path / "day.csv").read_bytes() == auction.day().content


def test_a_line_that_a_crash_has_cut_is_not_gone_on_with(tmp_path: Path) -> None:
    file = tmp_path / "day.csv"
    with filled(RecordedAuction()) as auction:
        lines = auction.day()
    for rest in (b"1,delete,1", b"\0\0\0", b"1,enter,bid,30,50\0\0"):
        file.write_bytes(lines.content + rest)
        with RecordedAuction.resumed(file) as again:
            assert again.day() == lines


def test_a_board_is_gone_on_with_by_its_members(tmp_path: Path) -> None:
    file, head = tmp_path / "day.csv", "day,1,1000,200,2,4096,99,"
    file.write_text(f"{head}\n1,enter,bid,30,190,entered 1\n1,ask,\n")
    with RecordedAuction.resumed(file) as again:
        assert again.config.max_calls == 99
        with pytest.raises(ValueError, match="^member must be from 0 to 1, not 2$"):
            again.indicate(2)
        with pytest.raises(ValueError, match="member must be from 0 to 1, not 2$"):
            again.apply_many(array_of([(2, words.Indicate())]))
        assert again.copy().delete(1, 1) == words.Deleted()
        again.save(file)
    assert file.read_text().splitlines() == [
        head, "1,enter,bid,30,190,entered 1", "1,ask,no price bid 190 ask -"
    ]


def test_what_is_no_lawful_journal_is_not_gone_on_with(tmp_path: Path) -> None:
    file, head = tmp_path / "day.csv", "day,1,1000,200,2,4096,99,\n"
    file.write_text(f"{head}1,ask,no price bid - ask -\n1,enter,bid,30,190,entered 2\n")
    text = 'entry 2: recorded "entered 2", lawful "entered 1"'
    with pytest.raises(ValueError, match=f"^{text}$"):
        RecordedAuction.resumed(file)
    for content in ("", "1,enter,bid,30,190\n", head.strip(), f"{head}1,enter,bid,x,190,\n"):
        file.write_text(content)
        with pytest.raises(ProgramError):
            RecordedAuction.resumed(file)
    with pytest.raises(FileNotFoundError):
        RecordedAuction.resumed(tmp_path / "other.csv")


def test_calls_are_those_of_an_auction() -> None:
    numbers = (1, 1000, 200, 5, 30, 9)
    with RecordedAuction(*numbers) as auction, Auction(*numbers) as bare:
        both: tuple[RecordedAuction | Auction, ...] = (auction, bare)
        for each in both:
            each.enter(1, Side.BID, 500, 200, peak=100)
            each.enter(2, Side.ASK, 300)
            each.enter(2, Side.ASK, 30, 300, restriction=words.Restriction.CLOSING_ONLY)
        for call in (
            lambda each: each.order_status(1, 1),
            lambda each: each.change(1, 1, 400, 200),
            lambda each: each.indicate(0),
            lambda each: each.uncross(1),
            lambda each: each.uncross(),
            lambda each: each.read_trade(1, 1),
            lambda each: each.delete(1, 1),
            lambda each: each.apply(1, words.Enter(Side.BID, 7)),
            lambda each: each.display(),
            lambda each: each.market_orders(),
            lambda each: each.calls,
            lambda each: each.config,
            lambda each: each.is_closed,
            lambda each: [array.tolist() for array in each.ladder()],
        ):
            assert call(auction) == call(bare)  # type: ignore[no-untyped-call]


def test_books_before_and_after_an_uncross(tmp_path: Path) -> None:
    with RecordedAuction() as auction:
        auction.enter(1, Side.BID, 500, 200)
        auction.enter(2, Side.ASK, 300)
        before = auction.book()
        assert before["command"].unique().tolist() == [3]
        auction.uncross()
        assert auction.book(3).equals(before)
        assert auction.book()[["command", "bid"]].to_numpy().tolist() == [[4, 0], [4, 200]]
        wanted = "It is the one best limit, so 200 is the price, whatever its surplus."
        assert auction.explain(3)[3] == wanted
        assert auction.explain()[-1] == "Shown in its place: the highest bid limit, 200."
        with pytest.raises(ValueError, match="no book before command 2; there are 3, 4"):
            auction.book(2)
        auction.save(tmp_path / "day.csv")
        assert words.audit(tmp_path / "day.csv").attrs["compared"] == 3
        for _ in range(2):
            auction.uncross()
        assert auction.book()["auction"].unique().tolist() == ["closing"]
        assert len(auction.course().uncrosses) == 3


def test_a_reference_is_the_last_price() -> None:
    with RecordedAuction(reference=150, max_open=2) as auction:
        assert auction.reference() == 150
        auction.enter(1, Side.BID, 5, 170, restriction=words.Restriction.OPENING_ONLY)
        auction.enter(2, Side.ASK, 4, 170)
        auction.uncross()
        assert (auction.reference(3), auction.reference()) == (150, 170)
        auction.enter(1, Side.BID, 5, 190)
        auction.enter(1, Side.BID, 5, 180, restriction=words.Restriction.CLOSING_ONLY)
        assert auction.reference() == 170
    with RecordedAuction(max_open=1) as narrow:
        narrow.uncross()
        assert narrow.reference(1) == 200 and narrow.reference() is None


def test_what_a_journal_cannot_say_is_refused_before_it_is_applied() -> None:
    with RecordedAuction() as auction:
        refused: list[tuple[Callable[[], object], str]] = [
            (lambda: auction.indicate(64), "member must be from 0 to 63, not 64"),
            (lambda: auction.enter(1, Side.BID, MOST_NUMBER + 1), "quantity must be from 0 to"),
            (lambda: auction.change(1, 1, MOST_NUMBER + 1), "quantity must be from 0 to"),
            (lambda: auction.enter(1, Side.BID, 1, 1, MOST_NUMBER + 1), "peak must be from 0 to"),
        ]
        for call, text in refused:
            with pytest.raises(ValueError, match=f"^{text}"):
                call()
        with pytest.raises(TypeError, match="^member must be an integer"):
            auction.indicate("1")  # type: ignore[arg-type]
        with pytest.raises(TypeError):
            auction.apply(1, "ask")  # type: ignore[arg-type]
        many = array_of([(1, words.Indicate()), (64, words.Indicate())])
        with pytest.raises(ValueError, match="^commands: element 1: member must be from 0 to 63"):
            auction.apply_many(many)
        assert auction.calls == 0
        assert auction.enter(1, Side.BID, MOST_NUMBER) == words.Refused(words.Refusal.BAD_QUANTITY)
        assert auction.audit().attrs["is_legal"]


def test_many_commands_are_kept_up_to_an_error() -> None:
    with RecordedAuction(max_calls=4) as auction:
        bad = array_of([(1, words.Enter(Side.BID, 5, 200)), *[(1, words.Indicate())] * 2])
        bad["tag"][2] = 99
        with pytest.raises(NoCommandError) as none:
            auction.apply_many(bad)
        assert none.value.applied == 2 == len(auction.journal())
        with pytest.raises(FullError):
            auction.apply_many(numpy.repeat(bad[1:2], 3))
        assert len(auction.journal()) == auction.calls == 4
        with pytest.raises(FullError):
            auction.indicate(1)
        assert len(auction.journal()) == 4


def test_a_call_that_is_the_operators_is_not_recorded() -> None:
    with RecordedAuction(max_calls=5, reserve=2) as auction:
        three = array_of([(1, words.Indicate())] * 3)
        auction.indicate(1)
        with pytest.raises(FullError) as raised:
            auction.apply_many(three)
        assert raised.value.applied == 2
        with pytest.raises(FullError):
            auction.enter(1, Side.BID, 5, 200)
        assert len(auction.journal()) == 3
        auction.uncross()
        auction.uncross()
        audit = auction.audit()
        assert audit.attrs["is_legal"] and len(auction.journal()) == 5


def test_a_refused_command_is_kept_and_raised() -> None:
    with RecordedAuction() as auction:
        with pytest.raises(RefusedError):
            auction.uncross(1, check=True)
        assert auction.journal()["reply"].tolist() == ["refused 6 NotOperator"]


def test_a_copy_goes_its_own_way() -> None:
    with RecordedAuction() as auction:
        auction.enter(1, Side.BID, 5, 200)
        others = [auction.copy(), copy.copy(auction), copy.deepcopy(auction)]
        auction.enter(1, Side.BID, 6, 200)
        for other in others:
            assert len(other.journal()) == 1
            other.reset()
            assert len(other.journal()) == other.calls == 0
            other.close()
            assert other.is_closed
        assert len(auction.journal()) == 2


class Noted(RecordedAuction):
    """One with notes of its own."""

    def __init__(self) -> None:
        super().__init__()
        self.notes = ["first"]


def test_a_copy_keeps_what_a_subclass_keeps() -> None:
    with Noted() as auction:
        shallow, deep = auction.copy(), copy.deepcopy(auction)
        auction.notes.append("second")
        assert type(shallow) is type(deep) is Noted
        assert (shallow.notes, deep.notes) == (["first", "second"], ["first"])


def test_an_auction_that_was_used_at_a_fork_is_busy_in_the_child() -> None:
    with RecordedAuction() as used, RecordedAuction() as still:
        is_held, is_over = threading.Event(), threading.Event()

        def hold() -> None:
            with used._lock:
                is_held.set()
                is_over.wait()

        thread = threading.Thread(target=hold)
        thread.start()
        is_held.wait()
        assert in_a_child(lambda: used.enter(1, Side.BID, 5, 200)) == 3
        assert in_a_child(lambda: in_a_child(used.display) == 3 and used.display()) == 3
        assert in_a_child(lambda: still.enter(1, Side.BID, 5, 200)) == 0
        is_over.set()
        thread.join()
        assert used.enter(1, Side.BID, 5, 200) == words.Entered(1)


def test_threads_wait_for_one_another() -> None:
    with RecordedAuction() as auction:
        threads = [
            threading.Thread(
                target=lambda: [auction.enter(1, Side.BID, 5, 200) for _ in range(200)]
            )
            for _ in range(4)
        ]
        for thread in threads:
            thread.start()
        for thread in threads:
            thread.join()
        assert auction.audit().attrs == dict(entries=800, compared=800, unlawful=0, is_legal=True)


def test_numbers_of_other_types_are_written_as_numbers() -> None:
    with RecordedAuction() as auction:
        member, quantity, limit = numpy.uint8(1), numpy.int64(5), numpy.int32(200)
        peak = numpy.int16(1)
        auction.enter(member, Side.BID, quantity, limit, peak)  # type: ignore[arg-type]
        assert auction.day().content.splitlines()[1] == b"1,enter,bid,5,200,1,entered 1"


@settings(deadline=None, max_examples=60)
@given(auctions(), strategies.lists(commands(), max_size=40))
def test_random_days_agree_with_the_rules_and_the_program(
    auction: RecordedAuction, given_commands: list[tuple[int, words.Command]]
) -> None:
    with auction:
        replies = [auction.apply(member, command) for member, command in given_commands]
        texts = [text_of(reply) for reply in replies]
        day = auction.day()
        lines = "".join(f"{place}: {text}\n" for place, text in enumerate(texts, 1))
        assert (0, lines, "") == by_the_rules(day, "lines")
        assert day.printed("lines") == lines
        assert csv_of(auction.trades()) == by_the_rules(day, "trades")[1] == day.printed("trades")
        assert csv_of(auction.books()) == by_the_rules(day, "book")[1] == day.printed("book")
        assert day.content.decode("ascii") == by_the_rules(day, "journal")[1]
        assert by_the_rules(day, "audit") == (0, day.audited(), "")
        assert auction.audit().attrs["compared"] == len(texts)
        for command in auction.books()["command"].unique():
            assert auction.explain(command)
        again = auction.copy()
        again.reset()
        again.apply_many(array_of(given_commands))
        assert again.day() == day


@settings(deadline=None, max_examples=40)
@given(auctions(), strategies.lists(commands(), min_size=1, max_size=20), strategies.data())
def test_changed_replies_are_found_alike(
    auction: RecordedAuction,
    given_commands: list[tuple[int, words.Command]],
    data: strategies.DataObject,
) -> None:
    with auction:
        for member, command in given_commands:
            auction.apply(member, command)
        lines = auction.day().content.decode("ascii").splitlines()
    for place in data.draw(strategies.sets(strategies.integers(1, len(lines) - 1))):
        head, _, reply = lines[place].rpartition(",")
        changed = data.draw(strategies.sampled_from(["", "deleted", f"{reply}0", reply]))
        lines[place] = f"{head},{changed}"
    day = Day("".join(f"{line}\n" for line in lines).encode("ascii"))
    status, text, _ = by_the_rules(day, "audit")
    assert day.audited() == text
    found = audit_of(day)
    assert found.attrs["is_legal"] == (status == 0)
    assert len(found) == found.attrs["unlawful"]


@settings(deadline=None)
@given(commands())
def test_commands_are_written_and_read(given: tuple[int, words.Command]) -> None:
    member, command = given
    assert commands_of(f"{member},{fields_of(command)}\n") == [given]
    [record] = array_of([given])
    assert command_of(record) == command


def test_other_things_are_no_commands() -> None:
    with pytest.raises(TypeError, match="one of Command, not int"):
        fields_of(5)  # type: ignore[arg-type]
    with pytest.raises(TypeError, match="one of Reply, not int"):
        text_of(5)  # type: ignore[arg-type]
    with pytest.raises(TypeError, match="dtype COMMAND"):
        command_of(numpy.zeros(1, words.REPLY)[0])


def test_a_range_that_no_journal_says() -> None:
    """The day couldn't be read back."""
    with pytest.raises(ValueError, match="^range must be from 0 to 1000000, not 1000001"):
        RecordedAuction(range=1_000_001)
    with RecordedAuction(range=1_000_000) as auction:
        assert auction.journal().empty

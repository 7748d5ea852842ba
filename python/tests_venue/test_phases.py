"""The phases and their clock, without a program."""
import pytest
from callauction.venue.config import Plan
from callauction.venue.phases import Phase, PhaseError, TimedPhase

PLAN = Plan(call=100, random_end=20, extension=30)
OPENED = TimedPhase().started(1000.0, PLAN, 0.5)


def test_a_call_ends_at_random_between_two_shown_times() -> None:
    assert (OPENED.phase, OPENED.ends, OPENED.latest, OPENED.real) == (Phase.CALL, 1100, 1120, 1110)
    assert OPENED.takes_orders()
    assert not OPENED.is_due(1109.9)
    assert OPENED.is_due(1110.0)


def test_a_call_without_a_length_has_no_end() -> None:
    state = TimedPhase().started(1000.0, Plan(call=0), 0.5)
    assert (state.phase, state.ends, state.real) == (Phase.CALL, None, None)
    assert not state.is_due(1e12)
    assert state.extended_by(1500.0, 60) == state


def test_what_may_be_done_in_which_phase() -> None:
    ended = OPENED.ended()
    assert (ended.phase, ended.ends, ended.takes_orders()) == (Phase.ENDED, None, False)
    assert [it.may_uncross() for it in (TimedPhase(), OPENED, ended)] == [False, True, True]
    over = TimedPhase(Phase.OVER, "over")
    for state in (OPENED, ended, over):
        with pytest.raises(PhaseError):
            state.started(1.0, PLAN, 0.0)
    for state in (TimedPhase(), ended, over):
        with pytest.raises(PhaseError):
            state.ended()
        with pytest.raises(PhaseError):
            state.held(1.0)
    for state in (TimedPhase(), over):
        with pytest.raises(PhaseError):
            state.extended_by(1.0, 10)
    with pytest.raises(PhaseError):
        OPENED.thawed(1.0)


def test_a_clock_that_is_set_back() -> None:
    frozen = OPENED.held(1050.0).set_back(1000.0)
    assert (frozen.frozen, frozen.ends, frozen.latest, frozen.real) == (50, 100, 120, 110)
    assert TimedPhase().set_back(1000.0) == TimedPhase()


def test_a_freeze_holds_the_clock() -> None:
    frozen = OPENED.held(1050.0)
    assert not frozen.takes_orders() and not frozen.is_due(2000.0) and not frozen.may_uncross()
    thawed = frozen.thawed(1075.0)
    assert (thawed.ends, thawed.latest, thawed.real) == (1125, 1145, 1135)
    assert thawed.takes_orders() and thawed.may_uncross()
    with pytest.raises(PhaseError):
        frozen.held(1060.0)


def test_an_extension() -> None:
    longer = OPENED.extended_by(1050.0, 60)
    assert (longer.ends, longer.latest, longer.real) == (1160, 1180, 1170)
    again = OPENED.ended().extended_by(1200.0, 60)
    assert (again.phase, again.ends, again.real) == (Phase.EXTENDED, 1260, 1260)


def test_what_follows_an_uncross_is_the_programs_reply() -> None:
    ended = OPENED.ended()
    price = "price 200 volume 300 surplus 0 none"
    assert ended.replied(f"opening {price} trades 1") == TimedPhase(Phase.WAITING, "intraday")
    assert ended.replied("intraday no price") == TimedPhase(Phase.WAITING, "closing")
    assert ended.replied("closing no price") == TimedPhase(Phase.OVER, "over")
    interrupted = ended.replied(f"interrupted {price}")
    assert interrupted == TimedPhase(Phase.EXTENDED, "opening")
    timed = interrupted.timed(2000.0, 30)
    assert (timed.phase, timed.ends) == (Phase.EXTENDED, 2030)
    assert timed.timed(2010.0, 30) == timed
    assert ended.replied("refused 7 DayOver") == ended


STATES = [TimedPhase(), OPENED, OPENED.held(1.5), TimedPhase(Phase.OVER, "over")]


@pytest.mark.parametrize("state", STATES)
def test_a_state_is_read_as_it_was_kept(state: TimedPhase) -> None:
    assert TimedPhase.of(state.kept()) == state
